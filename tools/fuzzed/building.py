"""The program as LLVM builds it with a counter at each branch, for AFL++.

`rt try` lowers the whole program to one module of LLVM without a proof, and has the kit's clang compile it. A kit whose clang is a script of
ours keeps that module: everything else of it are links to the kit. The module is compiled once more with -fsanitize-coverage and linked
with the runtime of AFL++.
"""
import os
import shutil
import subprocess

AFL = "/usr/lib/afl/afl-compiler-rt.o"
CLANG = """#!/bin/sh
# Keeps the largest module: rt first compiles a small one, to see whether it can.
if [ -f module.bc ]; then
    if [ ! -f {room}/module.bc ] || [ "$(stat -c %s module.bc)" -gt "$(stat -c %s {room}/module.bc)" ]; then cp module.bc {room}/module.bc; fi
fi
exec {kit}/toolchain/bin/clang "$@"
"""


class NotBuilt(Exception):
    """What keeps the program from being built."""


def kit():
    rt = shutil.which("rt")
    if rt is None:
        raise NotBuilt("there is no rt: the kit that README names has it")
    return os.path.dirname(os.path.dirname(os.path.realpath(rt)))


def mirror(kit, room):
    """A kit in room/kit: what finds its place by its own path is copied, clang is ours, the rest are links."""
    at = f"{room}/kit"
    shutil.rmtree(at, ignore_errors=True)
    for folder in ("", "bin", "toolchain", "toolchain/bin"):
        os.makedirs(f"{at}/{folder}", exist_ok=True)
        for it in os.listdir(f"{kit}/{folder}"):
            path = f"{folder}/{it}".strip("/")
            if path in ("bin", "toolchain", "toolchain/bin", "toolchain/bin/clang"):
                continue
            if path in ("bin/rt", "bin/rtlib.py"):
                shutil.copy(f"{kit}/{path}", f"{at}/{path}")
            else:
                os.symlink(f"{kit}/{path}", f"{at}/{path}")
    with open(f"{at}/toolchain/bin/clang", "w", encoding="utf-8") as it:
        it.write(CLANG.format(kit=kit, room=room))
    os.chmod(f"{at}/toolchain/bin/clang", 0o755)
    return at


def call(words, what, log, **how):
    with open(log, "ab") as out:
        if subprocess.run(words, stdout=out, stderr=out, **how).returncode:
            raise NotBuilt(f"{what}: {log} says why")


def build(root, room):
    """The path of the program, with counters; it is built once for a room."""
    program = f"{room}/revcache"
    if os.access(program, os.X_OK):
        return program
    if not os.path.exists(AFL):
        raise NotBuilt("there is no AFL++: Debian's package afl++ has it")
    os.makedirs(room, exist_ok=True)
    at, log = kit(), f"{room}/build.log"
    rt = f"{mirror(at, room)}/bin/rt"
    with open(f"{root}/examples/first_steps/first_run.script", "rb") as script:
        call([rt, "try", "--seconds", "900"], "rt try", log, cwd=f"{root}/crates/revcache", stdin=script)
    clang, link = f"{at}/toolchain/bin/clang", f"{at}/bin/rattle-link"
    flags = ["-march=x86-64", "-mllvm", "-no-trap-after-noreturn", "-mllvm", "-trap-unreachable", "-fPIE", "-O2"]
    call([clang, "--target=x86_64-unknown-linux-gnu", *flags, "-fsanitize-coverage=trace-pc-guard", "-c", "-x", "ir", "module.bc", "-o", "module.o"],
         "clang", log, cwd=room)
    archives = [AFL, f"{at}/c/libos_c.a", f"{at}/c/liblibc_c.a"]
    words = [link, "--target", "x86_64-unknown-linux-gnu", "--toolchain", f"{at}/toolchain", "-o", "linked", "module.o", *archives]
    call(words, "rattle-link", log, cwd=room)
    os.rename(f"{room}/linked", program)
    return program
