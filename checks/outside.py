#!/usr/bin/env python3
"""Compares the program with tools from outside, each skipped where it is missing.

- spirv-val accepts the translation of each example.
- llvm-as-14 accepts the text that this translation is translated back to, and that text is translated to the same binary.
- What clang-14 prints for OpenCL C kernels is cut into tokens wholly, and the listing has every byte of it but blanks and
  comments. The translation refuses it by no rule of texts below L20: it has the grammar, whether it is covered or not.
- What llvm-spirv-14 makes of the same kernels is a module, which is translated or outside the covered subset, or is refused by a
  rule of docs/RULES.md, which is printed.

usage: checks/outside.py [PROGRAM], where PROGRAM is crates/spirv_tool/out/spirv_tool unless it is given.
"""

import glob
import os
import re
import shutil
import subprocess
import sys
import tempfile

HERE = os.path.dirname(os.path.abspath(__file__))

KERNELS = {
    "add": "kernel void add(global const int *a, global int *b) { size_t i = get_global_id(0); b[i] = a[i] + 7; }",
    "loop": "kernel void sum(global int *p, int n) { int s = 0; for (int i = 0; i < n; i++) s += p[i]; *p = s; }",
    "local": "kernel void swap(global int *p, local int *q) { size_t i = get_local_id(0); q[i] = p[i]; "
             "barrier(CLK_LOCAL_MEM_FENCE); p[i] = q[get_local_size(0) - 1 - i]; }",
    "switch": "kernel void pick(global char4 *p, int n) { switch (n) { case 1: p->x = 3; break; case 7: p->y = -1; } }",
    "atomic": "kernel void count(global int *p, volatile local int *q) { atomic_inc(p); atomic_add(q, 2); "
              "mem_fence(CLK_GLOBAL_MEM_FENCE); atomic_cmpxchg(p, 1, 5); }",
    "struct": "typedef struct { char c; long l[2]; } S; constant S t[2] = {{1, {2, 3}}, {4, {5, 6}}}; "
              "S pick(int i) { return t[i]; } kernel void put(global S *p, int i) { p[i] = pick(i); }",
    "vector": "kernel void mix(global uchar16 *p, global short3 *q, ulong n) { "
              "p[1] = p[0].s1032547698badcfe; q[n] = (short3)(1, 2, n >> 3) * q[0]; p[2] = select(p[0], p[1], p[0] > p[1]); }",
    "hints": "kernel __attribute__((reqd_work_group_size(8, 2, 1))) __attribute__((work_group_size_hint(8, 2, 1))) "
             "void size(global ulong *p, constant uint *c) { local uint t[16]; t[get_local_id(0)] = *c; *p = t[3] / *c % 5u; }",
}

CLANG = ["clang-14", "-target", "spir64", "-fwrapv", "-cl-std=CL1.2", "-Xclang", "-finclude-default-header",
         "-emit-llvm", "-S", "-o", "-"]


def run(command, data):
    return subprocess.run(command, input=data, stdout=subprocess.PIPE, stderr=subprocess.PIPE)


def without_gaps(text):
    """A text without blanks and comments outside quotes."""
    kept = re.sub(rb'("[^"]*")|;[^\n]*|[ \t\r\n]+', lambda found: found.group(1) or b"", text)
    return kept


def check_validator(program):
    if not shutil.which("spirv-val"):
        print("spirv-val is missing: skipped")
        return 0
    failures = 0
    for example in sorted(glob.glob(os.path.join(HERE, "..", "examples", "*.ll"))):
        with open(example, "rb") as file:
            done = run([program, "translate", "--from", "llvm", "--to", "spirv"], file.read())
        with tempfile.NamedTemporaryFile(suffix=".spv") as binary:
            binary.write(done.stdout)
            binary.flush()
            verdict = run(["spirv-val", "--target-env", "opencl2.2", binary.name], b"")
        passed = done.returncode == 0 and verdict.returncode == 0
        failures += not passed
        print(f"spirv-val {os.path.basename(example)}: {'ok' if passed else verdict.stderr.decode()}")
    return failures


def check_way_back(program):
    if not shutil.which("llvm-as-14"):
        print("llvm-as-14 is missing: skipped")
        return 0
    failures = 0
    for example in sorted(glob.glob(os.path.join(HERE, "..", "examples", "*.ll"))):
        with open(example, "rb") as file:
            binary = run([program, "translate", "--from", "llvm", "--to", "spirv"], file.read())
        text = run([program, "translate", "--from", "spirv", "--to", "llvm"], binary.stdout)
        taken = run(["llvm-as-14", "-o", os.devnull, "-"], text.stdout)
        again = run([program, "translate", "--from", "llvm", "--to", "spirv"], text.stdout)
        passed = binary.stdout and text.returncode == 0 and taken.returncode == 0 and again.stdout == binary.stdout
        failures += not passed
        print(f"llvm-as-14 {os.path.basename(example)}: {'ok' if passed else taken.stderr.decode() or text.stderr.decode()}")
    return failures


def check_tokens(program):
    if not shutil.which("clang-14"):
        print("clang-14 is missing: skipped")
        return 0
    failures = 0
    for name, source in KERNELS.items():
        for level in ("-O0", "-O2"):
            text = run(CLANG + [level, "-x", "cl", "-"], source.encode()).stdout
            listed = run([program, "show", "--from", "llvm"], text)
            tokens = b"".join(line.split(b": ", 1)[1] for line in listed.stdout.splitlines())
            passed = text and listed.returncode == 0 and tokens == without_gaps(text)
            failures += not passed
            print(f"clang-14 {name} {level}: {'ok' if passed else listed.stderr.decode() or 'another text'}")
    return failures


def check_grammar(program):
    if not shutil.which("clang-14"):
        print("clang-14 is missing: skipped")
        return 0
    failures = 0
    for name, source in KERNELS.items():
        for level in ("-O0", "-O2"):
            text = run(CLANG + [level, "-x", "cl", "-"], source.encode()).stdout
            done = run([program, "translate", "--from", "llvm", "--to", "spirv"], text)
            refused = re.fullmatch(rb"refused: rule L(\d+) at byte \d+\n", done.stderr)
            passed = text and (done.returncode == 0 or refused and int(refused.group(1)) >= 20)
            failures += not passed
            print(f"grammar of clang-14 {name} {level}: {'ok' if passed else done.stderr.decode()}")
    return failures


def check_binaries(program):
    if not shutil.which("clang-14") or not shutil.which("llvm-spirv-14"):
        print("clang-14 or llvm-spirv-14 is missing: skipped")
        return 0
    with open(os.path.join(HERE, "..", "docs", "RULES.md")) as file:
        rules = set(re.findall(r"^\| S(\d+) \|", file.read(), re.MULTILINE))
    failures = 0
    for name, source in KERNELS.items():
        for level in ("-O0", "-O2"):
            bitcode = run([word for word in CLANG if word != "-S"] + [level, "-c", "-x", "cl", "-"], source.encode()).stdout
            with tempfile.NamedTemporaryFile(suffix=".bc") as compiled, tempfile.NamedTemporaryFile(suffix=".spv") as binary:
                compiled.write(bitcode)
                compiled.flush()
                subprocess.run(["llvm-spirv-14", "--spirv-max-version=1.2", compiled.name, "-o", binary.name])
                words = binary.read()
            done = run([program, "translate", "--from", "spirv", "--to", "llvm"], words)
            refused = re.fullmatch(r"refused: rule S(\d+) at word \d+\n", done.stderr.decode())
            passed = words and (done.returncode == 0 or refused and refused.group(1) in rules)
            failures += not passed
            print(f"llvm-spirv-14 {name} {level}: {'ok' if passed else 'failed'} {done.stderr.decode().strip()}")
    return failures


def main():
    default = os.path.join(HERE, "..", "crates", "spirv_tool", "out", "spirv_tool")
    program = sys.argv[1] if len(sys.argv) > 1 else default
    failures = check_validator(program) + check_way_back(program) + check_tokens(program) + check_grammar(program)
    failures += check_binaries(program)
    return 1 if failures else 0


if __name__ == "__main__":
    sys.exit(main())
