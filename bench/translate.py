#!/usr/bin/env python3
"""Times the translation of kernels of 10,000 and of 100,000 instructions.

Prints seconds, bytes of text per second and the greatest memory of each, and how much longer the larger one takes (12 times
at most are fine). Where llvm-as-14 and llvm-spirv-14 are installed, their time on the same text is printed too.

usage: bench/translate.py [PROGRAM], where PROGRAM is crates/spirv_tool/out/spirv_tool unless it is given.
"""

import os
import resource
import shutil
import subprocess
import sys
import tempfile
import time

SIZES = (10_000, 100_000)
MOST_GROWTH = 12.0


def kernel(instructions):
    """The text of a kernel that loads, adds and stores in turn."""
    lines = ["define spir_kernel void @k(i32 addrspace(1)* %p, i32 %x) {"]
    for i in range(instructions // 3):
        lines.append(f"  %v{i} = load i32, i32 addrspace(1)* %p")
        lines.append(f"  %s{i} = add i32 %v{i}, %x")
        lines.append(f"  store i32 %s{i}, i32 addrspace(1)* %p")
    lines += ["  ret void", "}", ""]
    return "\n".join(lines).encode()


def seconds_of(command, text):
    """The shortest of five runs."""
    best = None
    for _ in range(5):
        start = time.monotonic()
        done = subprocess.run(command, input=text, stdout=subprocess.PIPE, stderr=subprocess.PIPE)
        taken = time.monotonic() - start
        if done.returncode != 0:
            sys.exit(f"{command[0]} ended with {done.returncode}: {done.stderr.decode(errors='replace')}")
        best = taken if best is None else min(best, taken)
    return best, len(done.stdout)


def other_tools(text):
    """The time of llvm-as-14 and llvm-spirv-14 on the same text, or None where one is missing."""
    if not (shutil.which("llvm-as-14") and shutil.which("llvm-spirv-14")):
        return None
    with tempfile.TemporaryDirectory() as folder:
        source = os.path.join(folder, "k.ll")
        bitcode = os.path.join(folder, "k.bc")
        binary = os.path.join(folder, "k.spv")
        with open(source, "wb") as file:
            file.write(b'target triple = "spir64-unknown-unknown"\n' + text)
        assemble = seconds_of(["llvm-as-14", source, "-o", bitcode], b"")[0]
        return assemble + seconds_of(["llvm-spirv-14", bitcode, "-o", binary], b"")[0]


def main():
    here = os.path.dirname(os.path.abspath(__file__))
    default = os.path.join(here, "..", "crates", "spirv_tool", "out", "spirv_tool")
    program = sys.argv[1] if len(sys.argv) > 1 else default
    taken = []
    for size in SIZES:
        text = kernel(size)
        seconds, written = seconds_of([program, "translate", "--from", "llvm", "--to", "spirv"], text)
        memory = resource.getrusage(resource.RUSAGE_CHILDREN).ru_maxrss
        taken.append(seconds)
        print(f"{size} instructions: {len(text)} bytes to {written} in {seconds:.3f} s, "
              f"{len(text) / seconds:,.0f} bytes/s, at most {memory} KiB")
        others = other_tools(text)
        if others is not None:
            print(f"{size} instructions: llvm-as-14 and llvm-spirv-14 take {others:.3f} s")
    growth = taken[1] / taken[0]
    print(f"growth: {growth:.1f} times for 10 times the instructions, at most {MOST_GROWTH:.0f} allowed")
    return 0 if growth <= MOST_GROWTH else 1


if __name__ == "__main__":
    sys.exit(main())
