#!/usr/bin/env python3
"""Compares the names that crates/ocl_names knows with those that clang-14 prints, skipped where clang-14 is missing.

An OpenCL C kernel calls each work-item function, barrier, fence and atomic, the atomics in both address spaces and on
int and uint. Each name that clang-14 declares for it is one that the tests of crates/ocl_names ask for, and each of
those is declared, but for the spelling of pointers and the barrier of three numbers that other compilers write.

usage: checks/ocl_names.py
"""

import os
import re
import shutil
import subprocess
import sys

HERE = os.path.dirname(os.path.abspath(__file__))
TESTS = os.path.join(HERE, "..", "crates", "ocl_names", "src", "tests.rt")

CLANG = ["clang-14", "-target", "spir64", "-fwrapv", "-Xclang", "-finclude-default-header", "-emit-llvm", "-S", "-O0",
         "-x", "cl", "-o", "-", "-"]

# The functions of OpenCL C 1.2 and those that came with 2.0, but for the atomics.
CALLS = {
    "CL1.2": "*o = get_num_groups(0) + get_local_size(0) + get_group_id(0) + get_local_id(0) + get_global_id(0) "
             "+ get_work_dim() + get_global_size(0) + get_global_offset(0); barrier(1); mem_fence(1); "
             "read_mem_fence(1); write_mem_fence(1);",
    "CL2.0": "*o = get_local_linear_id() + get_global_linear_id() + get_enqueued_local_size(0); "
             "work_group_barrier(1); work_group_barrier(1, memory_scope_device);",
}

# How many values each atomic takes.
ATOMICS = {"add": 1, "sub": 1, "xchg": 1, "inc": 0, "dec": 0, "cmpxchg": 2, "min": 1, "max": 1, "and": 1, "or": 1,
           "xor": 1}


def atomic_calls():
    """A call of each atomic on each kind of pointer."""
    calls = []
    for name, values in ATOMICS.items():
        for pointer, value in (("gi", "1"), ("gu", "1u"), ("li", "1"), ("lu", "1u")):
            calls.append(f"atomic_{name}({', '.join([pointer] + [value] * values)});")
    return " ".join(calls)


def declared(standard, calls):
    """The names that clang declares for a kernel that makes these calls, or None where it refuses them."""
    source = f"kernel void k(global int *gi, global uint *gu, local int *li, local uint *lu, global size_t *o) {{ {calls} }}"
    done = subprocess.run(CLANG + [f"-cl-std={standard}"], input=source.encode(), stdout=subprocess.PIPE,
                          stderr=subprocess.PIPE)
    if done.returncode != 0:
        print(done.stderr.decode())
        return None
    return set(re.findall(r"^declare .*@(\w+)\(", done.stdout.decode(), re.MULTILINE))


def table(text, name):
    """The rows of a table of the tests."""
    return re.search(r"static " + name + r": \[.*?\] = \[(.*?)\n\];", text, re.DOTALL).group(1)


def asked_for():
    """The names that the tests of the crate ask for."""
    with open(TESTS, encoding="utf-8") as file:
        text = file.read()
    names = set(re.findall(r'"(_Z\w+)"', table(text, "WORK_ITEMS") + table(text, "BARRIERS")))
    pointers = re.findall(r'"(\w+)"', table(text, "POINTERS"))
    for front, count in re.findall(r'"(_Z\w+)",\s*(\d)', table(text, "ATOMICS")):
        names.update(front + pointer + letter * int(count) for pointer in pointers for letter in "ij")
    return names


def is_of_others(name):
    """Whether other compilers write the name and clang-14 does not."""
    return "PVU3AS" in name or name == "_Z22__spirv_ControlBarrierjjj"


def main():
    if not shutil.which("clang-14"):
        print("clang-14 is missing: skipped")
        return 0
    printed = set()
    for standard, calls in CALLS.items():
        names = declared(standard, calls + (atomic_calls() if standard == "CL1.2" else ""))
        if names is None:
            return 1
        printed |= names
    known = asked_for()
    failures = sorted(printed - known) + sorted(name for name in known - printed if not is_of_others(name))
    for name in failures:
        print(f"{name}: {'unknown' if name in printed else 'not declared'}")
    print(f"clang-14 declares {len(printed)} names: {'all known' if not failures else 'failed'}")
    return 1 if failures else 0


if __name__ == "__main__":
    sys.exit(main())
