#!/usr/bin/env python3
"""Times the listing of binaries of 1 MiB and of 16 MiB.

Three kinds of binaries are listed: many short instructions, many constants (each of which defines an id and takes its width from a type), and
names, which are strings. Prints seconds and how much longer the larger one takes (24 times at most are fine, for 16 times the bytes).

usage: bench/show.py [PROGRAM], where PROGRAM is crates/spirv_tool/out/spirv_tool unless it is given.
"""

import os
import struct
import subprocess
import sys
import time

SIZES = (1 << 20, 1 << 24)
MOST_GROWTH = 24.0
HEADER = [0x07230203, 0x00010200, 0, 0x3FFFFF, 0]


def short_instructions(words):
    """OpNop, which is one word."""
    return [0x00010000] * words


def constants(words):
    """An integer type of 64 bits, and constants of it."""
    made = [0x00040015, 1, 64, 0]
    for i in range((words - len(made)) // 5):
        made += [0x0005002B, 1, i + 2, i, 0]
    return made


def names(words):
    """Names of seven bytes."""
    made = []
    for i in range(words // 4):
        made += [0x00040005, i + 1, 0x64636261, 0x00676665]
    return made


KINDS = {"short instructions": short_instructions, "constants": constants, "names": names}


def seconds_of(program, binary):
    """The shorter of two runs."""
    best = None
    for _ in range(2):
        start = time.monotonic()
        done = subprocess.run([program, "show", "--from", "spirv"], input=binary, stdout=subprocess.PIPE, stderr=subprocess.PIPE)
        taken = time.monotonic() - start
        if done.returncode != 0:
            sys.exit(f"{program} ended with {done.returncode}: {done.stderr.decode(errors='replace')}")
        best = taken if best is None else min(best, taken)
    return best


def main():
    here = os.path.dirname(os.path.abspath(__file__))
    program = sys.argv[1] if len(sys.argv) > 1 else os.path.join(here, "..", "crates", "spirv_tool", "out", "spirv_tool")
    slow = False
    for kind, make in KINDS.items():
        times = []
        for size in SIZES:
            words = HEADER + make(size // 4 - len(HEADER))
            times.append(seconds_of(program, struct.pack(f"<{len(words)}I", *words)))
        growth = times[1] / times[0]
        slow |= growth > MOST_GROWTH
        print(f"{kind}: {times[0]:.2f} s, {times[1]:.2f} s, {growth:.1f} times as long")
    return 1 if slow else 0


if __name__ == "__main__":
    sys.exit(main())
