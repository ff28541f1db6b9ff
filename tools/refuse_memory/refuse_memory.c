/* A test tool, no part of the program: preloaded in front of the C library, it refuses requests for memory.

   REFUSE_ONLY=N      the Nth request is refused, counted from 1
   REFUSE_FROM=N      the Nth and all behind it are
   REFUSE_COUNT=FILE  a file of eight bytes, in which the number of the requests so far stands

   A request is a call of malloc, calloc or realloc from `main` on; what a call gives back, and free, are left alone. */
#define _GNU_SOURCE
#include <errno.h>
#include <fcntl.h>
#include <stdatomic.h>
#include <stddef.h>
#include <stdlib.h>
#include <sys/mman.h>
#include <unistd.h>

void *__libc_malloc(size_t size);
void *__libc_calloc(size_t count, size_t size);
void *__libc_realloc(void *old, size_t size);

static atomic_ulong counted_here;
static atomic_ulong *requests = &counted_here;
static unsigned long only, from;
static int counting;

static unsigned long number_of(const char *name) {
    const char *text = getenv(name);
    return text ? strtoul(text, NULL, 10) : 0;
}

/* The count stands in the file at any time, however the program ends. */
static void count_in(const char *path) {
    int file = path ? open(path, O_RDWR) : -1;
    void *there;
    if (file < 0)
        return;
    there = mmap(NULL, sizeof *requests, PROT_READ | PROT_WRITE, MAP_SHARED, file, 0);
    if (there != MAP_FAILED)
        requests = there;
    close(file);
}

__attribute__((constructor)) static void begin(void) {
    only = number_of("REFUSE_ONLY");
    from = number_of("REFUSE_FROM");
    count_in(getenv("REFUSE_COUNT"));
    counting = 1;
}

static int is_refused(void) {
    unsigned long this;
    if (!counting)
        return 0;
    this = atomic_fetch_add(requests, 1) + 1;
    if (this != only && (from == 0 || this < from))
        return 0;
    errno = ENOMEM;
    return 1;
}

void *malloc(size_t size) {
    return is_refused() ? NULL : __libc_malloc(size);
}

void *calloc(size_t count, size_t size) {
    return is_refused() ? NULL : __libc_calloc(count, size);
}

void *realloc(void *old, size_t size) {
    return is_refused() ? NULL : __libc_realloc(old, size);
}
