/* A test tool, no part of the program: preloaded in front of the C library, it has the system's clocks go ahead.

   SHIFT_CLOCK=FILE    a file with a number of seconds, read at each call: so far ahead the clock is, and behind below 0
   SHIFT_STEADY=FILE   the same of the clock that never goes back: its number may only grow */
#define _GNU_SOURCE
#include <fcntl.h>
#include <stdlib.h>
#include <sys/syscall.h>
#include <time.h>
#include <unistd.h>

static long seconds_ahead(const char *name) {
    const char *path = getenv(name);
    char text[32] = "";
    int file = path ? open(path, O_RDONLY) : -1;
    if (file < 0)
        return 0;
    if (read(file, text, sizeof text - 1) < 0)
        text[0] = 0;
    close(file);
    return atol(text);
}

int clock_gettime(clockid_t clock, struct timespec *now) {
    int status = (int)syscall(SYS_clock_gettime, clock, now);
    if (status == 0 && clock == CLOCK_REALTIME)
        now->tv_sec += seconds_ahead("SHIFT_CLOCK");
    if (status == 0 && clock == CLOCK_MONOTONIC)
        now->tv_sec += seconds_ahead("SHIFT_STEADY");
    return status;
}
