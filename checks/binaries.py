#!/usr/bin/env python3
"""Compares the listing of binaries with spirv-dis (Debian's package spirv-tools); skipped where it or spirv-as is missing.

A module with every instruction of the covered forms is assembled in little order. Its listing has to name the instructions that spirv-dis
shows, at the same offsets, with the words that stand there.

usage: checks/binaries.py [PROGRAM], where PROGRAM is crates/spirv_tool/out/spirv_tool unless it is given.
"""

import os
import re
import shutil
import struct
import subprocess
import sys
import tempfile

HERE = os.path.dirname(os.path.abspath(__file__))

MODULES = {
    "declarations": """
        OpCapability Addresses
        OpCapability Linkage
        OpCapability Kernel
        OpCapability Int64
        OpCapability Int8
        OpExtension "SPV_KHR_no_integer_wrap_decoration"
        %1 = OpExtInstImport "OpenCL.std"
        OpMemoryModel Physical64 OpenCL
        OpEntryPoint Kernel %20 "k\u00e9rnel" %30
        OpExecutionMode %20 LocalSize 8 4 2
        OpExecutionMode %20 VecTypeHint 5
        %2 = OpString "a string of words"
        OpSource OpenCL_C 102000 %2 "kernel void k() {}"
        OpSourceContinued "more"
        OpSourceExtension "cl_khr_fp64"
        OpName %20 "k"
        OpMemberName %9 0 "x"
        OpDecorate %30 BuiltIn GlobalInvocationId
        OpDecorate %31 Alignment 4
        OpDecorate %31 LinkageAttributes "table" Export
        OpDecorate %9 CPacked
        OpMemberDecorate %9 0 Volatile
        OpDecorate %40 Restrict
        %40 = OpDecorationGroup
        OpGroupDecorate %40 %30 %31
        %3 = OpTypeVoid
        %4 = OpTypeBool
        %5 = OpTypeInt 8 0
        %6 = OpTypeInt 32 0
        %7 = OpTypeInt 64 0
        %8 = OpTypeVector %7 3
        %9 = OpTypeStruct %6 %5
        %10 = OpConstant %7 0x123456789
        %11 = OpConstant %5 200
        %12 = OpConstant %6 7
        %13 = OpTypeArray %6 %10
        %14 = OpTypePointer CrossWorkgroup %6
        %15 = OpTypePointer Input %8
        %16 = OpTypePointer UniformConstant %13
        %17 = OpTypeFunction %3 %14 %7 %4
        %18 = OpConstantNull %13
        %19 = OpConstantComposite %8 %10 %10 %10
        %21 = OpConstantTrue %4
        %22 = OpConstantFalse %4
        %30 = OpVariable %15 Input
        %31 = OpVariable %16 UniformConstant %18
        OpLine %2 3 4
        OpNoLine
        %20 = OpFunction %3 Inline|Pure %17
        %23 = OpFunctionParameter %14
        %24 = OpFunctionParameter %7
        %25 = OpFunctionParameter %4
        %26 = OpLabel
        OpReturn
        OpFunctionEnd
        """,
    "code": """
        OpCapability Addresses
        OpCapability Kernel
        OpCapability Int64
        OpMemoryModel Physical64 OpenCL
        OpEntryPoint Kernel %20 "k"
        %3 = OpTypeVoid
        %4 = OpTypeBool
        %6 = OpTypeInt 32 0
        %7 = OpTypeInt 64 0
        %8 = OpTypeVector %6 2
        %14 = OpTypePointer CrossWorkgroup %6
        %15 = OpTypePointer Function %6
        %17 = OpTypeFunction %3 %14 %7 %6 %4
        %12 = OpConstant %6 1
        %20 = OpFunction %3 None %17
        %23 = OpFunctionParameter %14
        %24 = OpFunctionParameter %7
        %25 = OpFunctionParameter %6
        %26 = OpFunctionParameter %4
        %27 = OpLabel
        %28 = OpVariable %15 Function
        OpLifetimeStart %28 4
        OpNop
        %29 = OpLoad %6 %23 Volatile|Aligned 4
        OpStore %28 %29 Aligned 4
        %30 = OpInBoundsPtrAccessChain %14 %23 %24
        %31 = OpIAdd %6 %29 %25
        %32 = OpShiftRightArithmetic %6 %31 %12
        %33 = OpULessThan %4 %31 %32
        %34 = OpSelect %6 %33 %31 %32
        %35 = OpCompositeConstruct %8 %31 %32
        %36 = OpCompositeExtract %6 %35 1
        %37 = OpCompositeInsert %8 %36 %35 0
        %38 = OpVectorShuffle %8 %35 %37 0 3
        %39 = OpVectorExtractDynamic %6 %38 %25
        %40 = OpAtomicIAdd %6 %23 %12 %12 %31
        %41 = OpAtomicCompareExchange %6 %23 %12 %12 %12 %31 %32
        OpAtomicStore %23 %12 %12 %31
        OpControlBarrier %12 %12 %12
        OpMemoryBarrier %12 %12
        OpLifetimeStop %28 4
        OpSelectionMerge %43 Flatten
        OpBranchConditional %33 %42 %43 1 2
        %42 = OpLabel
        OpSwitch %24 %43 0 %43 0x100000002 %44
        %43 = OpLabel
        %45 = OpPhi %6 %31 %27 %32 %42
        OpLoopMerge %44 %43 DependencyLength 8
        OpBranch %44
        %44 = OpLabel
        OpReturn
        OpFunctionEnd
        """,
}


def run(command, data=b""):
    return subprocess.run(command, input=data, stdout=subprocess.PIPE, stderr=subprocess.PIPE)


def instructions(disassembly):
    """The offset in words and the name of each instruction that spirv-dis shows."""
    found = re.findall(r"(Op\w+).*; 0x([0-9a-f]+)", disassembly)
    return [(int(offset, 16) // 4, name) for name, offset in found]


def expected(binary, disassembly):
    """The lines that the listing has to have."""
    words = struct.unpack(f"<{len(binary) // 4}I", binary)
    lines = ["order little", "header " + " ".join(f"{word:08x}" for word in words[1:5])]
    shown = instructions(disassembly)
    ends = [place for place, _ in shown[1:]] + [len(words)]
    for (place, name), end in zip(shown, ends):
        lines.append("".join([f"{place}: {name}"] + [f" {word:08x}" for word in words[place + 1:end]]))
    return lines


def check(program, name, source):
    with tempfile.TemporaryDirectory() as folder:
        path = os.path.join(folder, "module.spv")
        made = run(["spirv-as", "--target-env", "spv1.2", "--preserve-numeric-ids", "-o", path, "-"], source.encode())
        if made.returncode != 0:
            print(f"{name}: spirv-as: {made.stderr.decode()}")
            return 1
        with open(path, "rb") as file:
            binary = file.read()
        shown = run(["spirv-dis", "--raw-id", "--no-header", "--no-color", "--offsets", path]).stdout.decode()
    lines = expected(binary, shown)
    listed = run([program, "show", "--from", "spirv"], binary)
    big = struct.pack(f">{len(binary) // 4}I", *struct.unpack(f"<{len(binary) // 4}I", binary))
    listed_big = run([program, "show", "--from", "spirv"], big)
    passed = listed.stdout.decode().splitlines() == lines and listed_big.stdout.decode().splitlines() == ["order big"] + lines[1:]
    print(f"{name}: {len(lines) - 2} instructions: {'ok' if passed else listed.stderr.decode() or 'another listing'}")
    return 0 if passed else 1


def main():
    default = os.path.join(HERE, "..", "crates", "spirv_tool", "out", "spirv_tool")
    program = sys.argv[1] if len(sys.argv) > 1 else default
    if not (shutil.which("spirv-as") and shutil.which("spirv-dis")):
        print("spirv-as or spirv-dis is missing (package spirv-tools): skipped")
        return 0
    return 1 if sum(check(program, name, source) for name, source in MODULES.items()) else 0


if __name__ == "__main__":
    sys.exit(main())
