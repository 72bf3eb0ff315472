#!/usr/bin/env python3
"""Makes crates/vectors/src/table.rt: instructions with what they do, by GNU as (the words) and qemu-riscv32 (the values).

The jumps, LUI and AUIPC, whose values hang on where they stand, are worked out by hand below.
Needs the Debian packages binutils-riscv64-unknown-elf and qemu-user. The gate does not run it.
"""
import struct
import subprocess
import sys
import tempfile
import os

A, B, C, D = 0x12345678, 0x9ABCDEF0, 0x7FFFFFFF, 0x80000000
ONES = 0xFFFFFFFF
DATA = 0x80FF7F01

# instruction over x5 and x6, result in x7; then the values of x5 and x6
ALU = []
for op in "add sub sll slt sltu xor srl sra or and".split():
    for x, y in ((A, B), (D, 33), (ONES, 1)):
        ALU.append((f"{op} x7, x5, x6", x, y))
for op, imm in (("addi", -2048), ("addi", 2047), ("slti", -1), ("sltiu", -1), ("xori", -1), ("ori", 1365), ("andi", -256)):
    for x in (B, C):
        ALU.append((f"{op} x7, x5, {imm}", x, 0))
for op, n in (("slli", 31), ("srli", 4), ("srai", 4), ("srai", 31)):
    ALU.append((f"{op} x7, x5, {n}", B, 0))
ALU.append(("add x0, x5, x6", A, B))
ALU.append(("fence rw, rw", A, B))

# x5 is the address of the data word, 0 stands for it
MEMORY = []
for op, offs in (("lb", range(4)), ("lbu", range(4)), ("lh", (0, 2)), ("lhu", (0, 2)), ("lw", (0,))):
    for o in offs:
        MEMORY.append((f"{op} x7, {o}(x5)", 0))
for op, offs in (("sb", range(4)), ("sh", (0, 2)), ("sw", (0,))):
    for o in offs:
        MEMORY.append((f"{op} x6, {o}(x5)", B))
for op in ("amoadd.w", "amoswap.w", "amoadd.w.aqrl", "amoswap.w.aq"):
    MEMORY.append((f"{op} x7, x6, (x5)", B))

BRANCHES = []
for op in "beq bne blt bge bltu bgeu".split():
    for x, y in ((A, B), (B, A), (A, A)):
        BRANCHES.append((f"{op} x5, x6, .+16", x, y))

# by hand, at pc 0x100: instruction, x5, then x7 and the next pc
PC = 0x100
HAND = [
    ("lui x7, 0xfffff", 0, 0xFFFFF000, PC + 4),
    ("lui x7, 0x12345", 0, 0x12345000, PC + 4),
    ("auipc x7, 0x12345", 0, 0x12345100, PC + 4),
    ("auipc x7, 0xfffff", 0, 0xFFFFF100, PC + 4),
    ("jal x7, .+2048", 0, PC + 4, 0x900),
    ("jal x7, .-256", 0, PC + 4, 0x000),
    ("jal x0, .+4094", 0, 0, 0x10FE),
    ("jalr x7, 5(x5)", 0x200, PC + 4, 0x204),
    ("jalr x7, -1(x5)", 0x200, PC + 4, 0x1FE),
    ("jalr x5, 0(x5)", 0x300, 0, 0x300),
]


def build(source, directory):
    s, o, e = (os.path.join(directory, n) for n in ("a.s", "a.o", "a.elf"))
    with open(s, "w") as f:
        f.write(source)
    subprocess.run(["riscv64-unknown-elf-as", "-march=rv32ima", "-mabi=ilp32", "-o", o, s], check=True)
    subprocess.run(["riscv64-unknown-elf-ld", "-m", "elf32lriscv", "-Ttext=0x10000", "-o", e, o], check=True)
    return o, e


def encode(instructions, directory):
    source = ".option norelax\n" + "\n".join(instructions) + "\n"
    o, _ = build(source, directory)
    raw = os.path.join(directory, "a.bin")
    subprocess.run(["riscv64-unknown-elf-objcopy", "-O", "binary", "-j", ".text", o, raw], check=True)
    data = open(raw, "rb").read()
    return [struct.unpack_from("<I", data, 4 * i)[0] for i in range(len(instructions))]


def run(cases, directory):
    """cases: (instruction, x5 or None for the data's address, x6). Gives x7, the data word and whether a branch was taken."""
    out = [".option norelax", ".globl _start", "_start:", "la x8, results"]
    for text, x5, x6 in cases:
        out.append("la x9, data")
        out.append(f"li x10, {DATA:#x}")
        out.append("sw x10, 0(x9)")
        out.append("mv x5, x9" if x5 is None else f"li x5, {x5:#x}")
        out.append(f"li x6, {x6:#x}")
        out.append("li x7, 0")
        out.append("li x11, 0")
        # four slots of one instruction, so that a branch to .+16 lands on the fifth
        out += [".option norvc", text, "j 1f", "nop", "nop", "li x11, 1", "1:"]
        out += ["sw x7, 0(x8)", "lw x10, 0(x9)", "sw x10, 4(x8)", "sw x11, 8(x8)", "addi x8, x8, 12"]
    n = 12 * len(cases)
    out += ["li a7, 64", "li a0, 1", "la a1, results", f"li a2, {n}", "ecall", "li a7, 93", "li a0, 0", "ecall"]
    out += [".bss", ".balign 32", "data: .space 32", f"results: .space {n}"]
    _, e = build("\n".join(out) + "\n", directory)
    raw = subprocess.run(["qemu-riscv32", e], check=True, capture_output=True).stdout
    return [struct.unpack_from("<III", raw, 12 * i) for i in range(len(cases))]


def main():
    rows = []
    with tempfile.TemporaryDirectory() as d:
        cases = [(t, x, y) for t, x, y in ALU] + [(t, None, y) for t, y in MEMORY] + BRANCHES
        words = encode([c[0] for c in cases], d)
        for (text, x5, x6), word, (x7, data, taken) in zip(cases, words, run(cases, d)):
            rows.append((text, word, 64 if x5 is None else x5, x6, x7, data, PC + (16 if taken else 4)))
        for (text, x5, x7, pc), word in zip(HAND, encode([h[0] for h in HAND], d)):
            rows.append((text, word, x5, 0, x7, DATA, pc))
    out = ["// Instructions with what they do, made by tools/vectors.py: the words by GNU as, the values by qemu-riscv32 or, for jumps, by hand.",
           "use crate::Vector;", "",
           "// The data word before each instruction, and where it stands.",
           f"pub const DATA: u32 = {DATA:#x};", f"pub const PC: u32 = {PC:#x};", "",
           f"pub const TABLE: [Vector; {len(rows)}] = ["]
    for text, word, x5, x6, x7, data, pc in rows:
        out += [f"    // {text}", "    Vector {", f"        word: {word:#010x},", f"        x5: {x5:#x},", f"        x6: {x6:#x},",
                f"        x7: {x7:#x},", f"        data: {data:#x},", f"        pc: {pc:#x},", "    },"]
    out += ["];", ""]
    sys.stdout.write("\n".join(out))


if __name__ == "__main__":
    main()
