#!/usr/bin/env python3
"""The static library is x86-64 code. On an x86-64 machine tests and benchmark link it; on an Arm machine this tool builds what they
need to reach it under an emulator, with the proof kit's own compiler, linker and C library.

    tools/x86.py bridge        target/bridge/libboard.a: the five C calls for this machine's programs, handed on to an emulated process
                               that has target/staticlib/libboard.a (see bridge/)
    tools/x86.py bridge LIB    the same for another static library

The benchmark uses the functions below for its own program.
"""
import os
import platform
import re
import shutil
import subprocess
import sys

TOP = os.path.dirname(os.path.dirname(os.path.abspath(__file__)))
TRIPLE = "x86_64-unknown-linux-gnu"


def run(words, **more):
    done = subprocess.run(words, cwd=TOP, text=True, **more)
    if done.returncode != 0:
        sys.exit(f"failed: {' '.join(words)}")
    return done


def is_native():
    return platform.machine() == "x86_64"


def kit():
    """The proof kit's folder."""
    rt = shutil.which("rt")
    if not rt:
        sys.exit("rt is not on the path")
    return os.path.dirname(os.path.dirname(os.path.realpath(rt)))


def toolchain():
    """The kit's compiler, linker and x86-64 C library."""
    return os.path.join(kit(), "toolchain")


def c_parts():
    """What the kit's libraries have in C, which a program of theirs is linked with."""
    return [os.path.join(kit(), "c", name) for name in ("libos_c.a", "liblibc_c.a")]


def compile_c(source, out, *flags):
    """C, or LLVM text, to an x86-64 object. There are no headers: sources declare what they use."""
    run([os.path.join(toolchain(), "bin", "clang"), f"--target={TRIPLE}", "-c", "-ffreestanding", "-fno-pie", *flags, source, "-o", out])


def link(objects, out):
    """An x86-64 program at fixed addresses, on the kit's C library."""
    tools = toolchain()
    lib = os.path.join(tools, "lib")
    part = lambda *names: [os.path.join(lib, name) for name in names]
    run([os.path.join(tools, "bin", "ld.lld"), "-no-pie", "--dynamic-linker", os.path.join(lib, "ld-linux-x86-64.so.2"),
         "-rpath", lib, *part("Scrt1.o", "crti.o", "crtbeginS.o"), *objects,
         *part("libc.so.6", "ld-linux-x86-64.so.2", "libc_nonshared.a", "libgcc.a", "crtendS.o", "crtn.o"), "-o", out])


def emulator():
    """The words that run x86-64 code on another machine; the kit has no emulator."""
    program = shutil.which("qemu-x86_64")
    if not program:
        sys.exit("qemu-x86_64 is not on the path")
    return [program]


def rival_object(out):
    """The independent board as an x86-64 object. Rust's library for x86-64 is not needed: the board uses none of it but checks that
    end in a panic, so its LLVM text, before optimisation, is given to the kit's compiler for x86-64; a panic is a trap."""
    folder = os.path.dirname(out)
    os.makedirs(folder, exist_ok=True)
    text = os.path.join(folder, "rival.ll")
    run(["cargo", "rustc", "-j", "1", "--release", "-q", "-p", "rival", "--target-dir", os.path.join(folder, "cargo"), "--",
         f"--emit=llvm-ir={text}", "-C", "panic=abort", "-C", "no-prepopulate-passes", "-C", "debuginfo=0"])
    empty = os.path.join(folder, "empty.c")
    open(empty, "w").close()
    run([os.path.join(toolchain(), "bin", "clang"), f"--target={TRIPLE}", "-S", "-emit-llvm", empty, "-o", empty + ".ll"])
    lines = open(empty + ".ll").read()
    page = open(text).read()
    for word in ("datalayout", "triple"):
        pattern = rf'^target {word} = ".*"$'
        page = re.sub(pattern, re.search(pattern, lines, re.M).group(0).replace("\\", r"\\"), page, flags=re.M)
    page = re.sub(r' "(target-cpu|target-features|frame-pointer|probe-stack)"="[^"]*"', "", page)
    open(text, "w").write(page)
    code = os.path.join(folder, "rival_code.o")
    compile_c(text, code, "-O3", "-Wno-override-module")
    missing = [line.split()[-1] for line in run(["nm", "-u", code], stdout=subprocess.PIPE).stdout.splitlines()]
    missing = [name for name in missing if name not in ("memcpy", "memset", "memmove", "memcmp", "bcmp")]
    traps = os.path.join(folder, "traps.c")
    with open(traps, "w") as file:
        for name in missing:
            if not re.search("core|panic|personality", name):
                sys.exit(f"the independent board needs {name}, which is not there for x86-64")
            file.write(f"void {name}(void) {{ __builtin_trap(); }}\n")
    compile_c(traps, traps + ".o", "-O1")
    run([os.path.join(toolchain(), "bin", "ld.lld"), "-r", code, traps + ".o", "-o", out])


def bridge(library):
    """An emulated process with the x86-64 library, and the five C calls for this machine that hand on to it."""
    folder = os.path.join(TOP, "target", "bridge")
    os.makedirs(folder, exist_ok=True)
    path = lambda name: os.path.join(folder, name)
    compile_c("bridge/server.c", path("server.o"), "-O2", "-Wall", "-Wextra", "-Werror")
    link([path("server.o"), os.path.abspath(os.path.join(TOP, library))], path("server"))
    with open(path("serve"), "w") as file:
        words = " ".join(f"'{word}'" for word in emulator() + [path("server")])
        file.write(f"#!/bin/sh\nexec {words}\n")
    os.chmod(path("serve"), 0o755)
    run(["gcc", "-std=c11", "-O2", "-Wall", "-Wextra", "-Werror", "-fPIC", "-I", "include", f'-DSERVE="{path("serve")}"', "-c",
         "bridge/bridge.c", "-o", path("bridge.o")])
    if os.path.exists(path("libboard.a")):
        os.remove(path("libboard.a"))
    run(["ar", "rcs", path("libboard.a"), path("bridge.o")])


if __name__ == "__main__":
    if sys.argv[1:2] != ["bridge"]:
        sys.exit(__doc__)
    bridge(sys.argv[2] if len(sys.argv) > 2 else "target/staticlib/libboard.a")
