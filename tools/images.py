#!/usr/bin/env python3
"""Makes the memories of the sources under programs/ by GNU as and ld: what asm is held to.

Writes crates/asm/stdout, what `asm --print` must print of all sources, and crates/examples/data/*.chip, the memories themselves.
Needs the Debian package binutils-riscv64-unknown-elf. The gate does not run it.
"""
import os
import re
import struct
import subprocess
import tempfile

TOP = os.path.dirname(os.path.dirname(os.path.abspath(__file__)))
SOURCES = os.path.join(TOP, "programs")


def memory_of(path):
    """How many cores and lines a source is for, and the bytes that GNU as and ld make of it."""
    text = open(path).read()
    cores = int(re.search(r"^\s*\.cores\s+(\d+)", text, re.M).group(1))
    lines = int(re.search(r"^\s*\.lines\s+(\d+)", text, re.M).group(1))
    text = re.sub(r"^\s*\.(cores|lines)\s+\d+.*$", "", text, flags=re.M)
    with tempfile.TemporaryDirectory() as room:
        name = os.path.join(room, "x")
        with open(name + ".s", "w") as f:
            # GNU as pads the section after its last statement: this label says where that ends
            f.write(text + "\nend_of_source:\n")
        tool = "riscv64-unknown-elf-"
        subprocess.run([tool + "as", "-march=rv32ia", "-mabi=ilp32", "-mno-relax", "-o", name + ".o", name + ".s"], check=True)
        subprocess.run([tool + "ld", "-melf32lriscv", "-Ttext=0", "--no-relax", "-e", "0", "-o", name + ".elf", name + ".o"], check=True)
        subprocess.run([tool + "objcopy", "-O", "binary", "-j", ".text", name + ".elf", name + ".bin"], check=True)
        symbols = subprocess.run([tool + "nm", name + ".elf"], check=True, capture_output=True, text=True).stdout
        end = int(re.search(r"^([0-9a-f]+) . end_of_source$", symbols, re.M).group(1), 16)
        data = open(name + ".bin", "rb").read()[:end]
    assert len(data) <= 32 * lines, path
    return cores, lines, data.ljust(32 * lines, b"\0")


def printed(name, cores, lines, data):
    """As asm prints it: the lines that are not all zero, each with its address."""
    out = [f"{name} cores {cores} lines {lines}"]
    for i in range(lines):
        words = struct.unpack("<8I", data[32 * i : 32 * i + 32])
        if any(words):
            out.append(f"{32 * i:08x}: " + " ".join(f"{w:08x}" for w in words))
    return "\n".join(out) + "\n"


def main():
    text = ""
    images = os.path.join(TOP, "crates", "examples", "data")
    os.makedirs(images, exist_ok=True)
    for name in sorted(os.listdir(SOURCES)):
        cores, lines, data = memory_of(os.path.join(SOURCES, name))
        text += printed(name, cores, lines, data)
        with open(os.path.join(images, name.replace(".s", ".chip")), "wb") as f:
            f.write(b"CHIP" + bytes([cores]) + struct.pack("<I", lines) + data)
    with open(os.path.join(TOP, "crates", "asm", "stdout"), "w") as f:
        f.write(text)


main()
