#!/usr/bin/env python3
"""Compares the tables of spv_layout with the grammar file of SPIR-V 1.2 (Debian's package spirv-headers).

It reads the tables from the crate's source, and the names, numbers and operands of the standard from the grammar file. Where that file
is missing there is nothing to compare, which is said. Ends with 1 where they differ.
"""
import json
import os
import re
import sys

GRAMMAR = "/usr/include/spirv/1.2/spirv.core.grammar.json"
CRATE = os.path.join(os.path.dirname(os.path.abspath(__file__)), "..", "crates", "spv_layout", "src")

# The standard's names of the enumerations, by those of the crate.
KINDS = {
    "Capability": "Capability",
    "Addressing": "AddressingModel",
    "Memory": "MemoryModel",
    "Model": "ExecutionModel",
    "Language": "SourceLanguage",
    "Mode": "ExecutionMode",
    "Class": "StorageClass",
    "Decoration": "Decoration",
    "FuncParamAttr": "FunctionParameterAttribute",
    "Linkage": "LinkageType",
    "BuiltIn": "BuiltIn",
    "Access": "MemoryAccess",
    "FunctionControl": "FunctionControl",
    "SelectionControl": "SelectionControl",
    "LoopControl": "LoopControl",
}
LETTERS = {
    "IdResultType": "T",
    "IdResult": "R",
    "IdRef": "I",
    "IdScope": "I",
    "IdMemorySemantics": "I",
    "LiteralInteger": "W",
    "LiteralExtInstInteger": "W",
    "LiteralString": "S",
    "LiteralContextDependentNumber": "N",
    **{standard: f"E({ours})" for ours, standard in KINDS.items()},
}
RUNS = {
    ("IdRef", "*"): "ManyI",
    ("LiteralInteger", "*"): "ManyW",
    ("PairIdRefIdRef", "*"): "ManyII",
    ("PairLiteralIntegerIdRef", "*"): "ManyNI",
    ("IdRef", "?"): "OptI",
    ("MemoryAccess", "?"): "OptE(Access)",
}
# Two optional operands that the crate reads as one, and weights that come in pairs.
JOINED = {"OpSource": ["E(Language)", "W", "OptIS"], "OpBranchConditional": ["I", "I", "I", "OptWW"]}


def source(name):
    with open(os.path.join(CRATE, name), encoding="utf-8") as file:
        return re.sub(r"EnumKind::", "", file.read())


def operand_list(text):
    return [part for part in re.split(r",\s*", text.strip().strip(",")) if part]


def our_forms():
    pattern = r'&Form \{\s*op: (\d+),\s*name: "(\w+)",\s*operands: &\[([^\]]*)\],?\s*\}'
    return {name: (int(op), operand_list(operands)) for op, name, operands in re.findall(pattern, source("forms.rt"))}


def our_enumerants():
    kinds = {}
    text = source("enumerants.rt")
    for kind, rows in re.findall(r"^            (\w+) => &\[(.*?)\],\n(?=            \w|        \})", text, re.M | re.S):
        pattern = r'value: (\d+),\s*name: "(\w+)",\s*extra: &\[([^\]]*)\]'
        kinds[kind] = {name: (int(value), operand_list(extra)) for value, name, extra in re.findall(pattern, rows)}
    return kinds


def operand(entry):
    kind, quantifier = entry["kind"], entry.get("quantifier", "")
    return RUNS[kind, quantifier] if quantifier else LETTERS[kind]


def number(value):
    return int(value, 0) if isinstance(value, str) else value


def main():
    if not os.path.exists(GRAMMAR):
        print(f"skipped: {GRAMMAR} is missing (package spirv-headers)")
        return 0
    with open(GRAMMAR, encoding="utf-8") as file:
        grammar = json.load(file)
    standard = {row["opname"]: row for row in grammar["instructions"]}
    enumerations = {row["kind"]: row for row in grammar["operand_kinds"]}
    faults = []
    forms = our_forms()
    for name, (op, operands) in forms.items():
        row = standard.get(name)
        if row is None or row["opcode"] != op:
            faults.append(f"{name}: the standard has {row and row['opcode']}, the crate {op}")
            continue
        wanted = JOINED.get(name) or [operand(entry) for entry in row.get("operands", [])]
        if wanted != operands:
            faults.append(f"{name}: the standard has {wanted}, the crate {operands}")
    count = 0
    enumerants = our_enumerants()
    for kind, rows in enumerants.items():
        known = {row["enumerant"]: row for row in enumerations[KINDS[kind]]["enumerants"]}
        for name, (value, extra) in rows.items():
            count += 1
            row = known.get(name)
            wanted = row and (number(row["value"]), [LETTERS[entry["kind"]] for entry in row.get("parameters", [])])
            if wanted != (value, extra):
                faults.append(f"{kind} {name}: the standard has {wanted}, the crate {(value, extra)}")
    for fault in faults:
        print(fault)
    print(f"{len(forms)} forms, {count} enumerants of {len(enumerants)} kinds, {len(faults)} differences")
    return 1 if faults or not forms or len(enumerants) != len(KINDS) else 0


if __name__ == "__main__":
    sys.exit(main())
