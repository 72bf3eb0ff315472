#!/usr/bin/env python3
"""Makes crates/encodings/src/table.rt: instructions with their words, by GNU as.

Needs the Debian package binutils-riscv64-unknown-elf. The gate does not run it.
"""
import os
import struct
import subprocess
import sys
import tempfile


def word(x):
    return f"{x % 2**32:#x}"


# instruction as GNU as reads it, and as crates/rv32 has it
ROWS = []
for op, kind, rd, value in (("lui", "Lui", 31, 0xFFFFF), ("lui", "Lui", 1, 1), ("auipc", "Auipc", 0, 0x80000), ("auipc", "Auipc", 30, 0x12345)):
    field = "value" if op == "lui" else "offset"
    ROWS.append((f"{op} x{rd}, {value:#x}", f"Instruction::{kind} {{ rd: {rd}, {field}: {word(value << 12)} }}"))
for rd, offset in ((1, 2048), (0, -2), (31, 1048574), (16, -1048576), (5, 0x5A5AA)):
    ROWS.append((f"jal x{rd}, .{offset:+d}", f"Instruction::Jal {{ rd: {rd}, offset: {word(offset)} }}"))
for rd, rs1, offset in ((0, 1, 0), (31, 30, -1), (1, 2, 2047)):
    ROWS.append((f"jalr x{rd}, {offset}(x{rs1})", f"Instruction::Jalr {{ rd: {rd}, rs1: {rs1}, offset: {word(offset)} }}"))
for i, kind in enumerate("Beq Bne Blt Bge Bltu Bgeu".split()):
    for rs1, rs2, offset in ((i, 31 - i, (4094, -4096, 2048, -2, 1024, 30)[i]), (17, 18 + i, (-2050, 2, 1366, -1368, 4064, -4066)[i])):
        ROWS.append((f"{kind.lower()} x{rs1}, x{rs2}, .{offset:+d}",
                     f"Instruction::Branch {{ kind: BranchKind::{kind}, rs1: {rs1}, rs2: {rs2}, offset: {word(offset)} }}"))
for i, kind in enumerate("Lb Lh Lw Lbu Lhu".split()):
    rd, rs1, offset = 31 - i, i + 1, (2047, -2048, -1, 0, 1365)[i]
    ROWS.append((f"{kind.lower()} x{rd}, {offset}(x{rs1})",
                 f"Instruction::Load {{ kind: LoadKind::{kind}, rd: {rd}, rs1: {rs1}, offset: {word(offset)} }}"))
for i, kind in enumerate("Sb Sh Sw".split()):
    for rs1, rs2, offset in ((i + 1, 31 - i, (2047, -2048, 31)[i]), (31 - i, i, (-32, 1366, -1)[i])):
        ROWS.append((f"{kind.lower()} x{rs2}, {offset}(x{rs1})",
                     f"Instruction::Store {{ kind: StoreKind::{kind}, rs1: {rs1}, rs2: {rs2}, offset: {word(offset)} }}"))
for i, kind in enumerate("Add Slt Sltu Xor Or And".split()):
    rd, rs1, value = 31 - i, i, (-2048, 2047, -1, 1, 1365, -1366)[i]
    op = {"Sltu": "sltiu"}.get(kind, kind.lower() + "i")
    ROWS.append((f"{op} x{rd}, x{rs1}, {value}",
                 f"Instruction::OpImm {{ operation: Operation::{kind}, rd: {rd}, rs1: {rs1}, value: {word(value)} }}"))
for i, kind in enumerate("Sll Srl Sra".split()):
    for rd, rs1, value in ((31, 1, 31), (2 + i, 30, i)):
        ROWS.append((f"{kind.lower()}i x{rd}, x{rs1}, {value}",
                     f"Instruction::OpImm {{ operation: Operation::{kind}, rd: {rd}, rs1: {rs1}, value: {word(value)} }}"))
for i, kind in enumerate("Add Sub Sll Slt Sltu Xor Srl Sra Or And".split()):
    rd, rs1, rs2 = 31 - i, i + 1, 16 + i
    ROWS.append((f"{kind.lower()} x{rd}, x{rs1}, x{rs2}",
                 f"Instruction::Op {{ operation: Operation::{kind}, rd: {rd}, rs1: {rs1}, rs2: {rs2} }}"))
for text in ("fence", "ecall", "ebreak", "mret"):
    ROWS.append((text, f"Instruction::{text.capitalize()}"))

# atomic operations, with their marks
AMOS = []
for kind, rd, rs1, rs2 in (("Add", 31, 1, 2), ("Swap", 3, 30, 29)):
    for mark, acquire, release in (("", "false", "false"), (".aq", "true", "false"), (".rl", "false", "true"), (".aqrl", "true", "true")):
        AMOS.append((f"amo{kind.lower()}.w{mark} x{rd}, x{rs2}, (x{rs1})",
                     f"Instruction::Amo {{ kind: AmoKind::Amo{kind}, rd: {rd}, rs1: {rs1}, rs2: {rs2} }}",
                     f"Order {{ acquire: {acquire}, release: {release} }}"))


def encode(instruction, directory):
    # a far jump's target has to lie in the section
    far = 1 << 21
    s, o, b = (os.path.join(directory, n) for n in ("a.s", "a.o", "a.bin"))
    with open(s, "w") as f:
        f.write(f".option norelax\n.option norvc\n.space {far}\n{instruction}\n.space {far}\n")
    subprocess.run(["riscv64-unknown-elf-as", "-march=rv32ima", "-mabi=ilp32", "-o", o, s], check=True)
    subprocess.run(["riscv64-unknown-elf-objcopy", "-O", "binary", "-j", ".text", o, b], check=True)
    data = open(b, "rb").read()
    if len(data) != 2 * far + 4:
        sys.exit(f"{instruction}: not one word")
    return struct.unpack_from("<I", data, far)[0]


def main():
    out = ["// Instructions with their words, made by tools/encodings.py: the words are those of GNU as.",
           "use crate::Encoding;", "use crate::Marked;", "use encode::order::Order;", "use rv32::instruction::*;", "",
           f"pub const TABLE: [Encoding; {len(ROWS)}] = ["]
    with tempfile.TemporaryDirectory() as d:
        for text, instruction in ROWS:
            out += [f"    // {text}", "    Encoding {", f"        instruction: {instruction},", f"        word: {encode(text, d):#010x},", "    },"]
        out += ["];", "", f"pub const MARKED: [Marked; {len(AMOS)}] = ["]
        for text, instruction, order in AMOS:
            out += [f"    // {text}", "    Marked {", f"        instruction: {instruction},", f"        order: {order},", f"        word: {encode(text, d):#010x},", "    },"]
    out += ["];", ""]
    sys.stdout.write("\n".join(out))


if __name__ == "__main__":
    main()
