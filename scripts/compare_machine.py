#!/usr/bin/env python3
"""Compares the decoder, the encoder and the machine with tools that were not written here.

    scripts/compare_machine.py words       against GNU objdump (Debian: binutils-riscv64-unknown-elf)
    scripts/compare_machine.py programs    against the Unicorn emulator (Debian: python3-unicorn)

It is run outside the gate and needs `rt` on the path. `words` goes over all words of each opcode,
funct3 and funct7, the environment's words and the edges of each immediate; `programs` runs random
programs of 40 instructions on random registers and compares registers and memory at their end.
"""

import collections
import random
import re
import struct
import subprocess
import sys
import tempfile
from pathlib import Path

from probe import ask

CRATES = ["rv_instr", "rv_decode", "rv_asm", "rv_machine"]

# Reads lines: a word, or `run`, the values of x1 to x31 and a program's words. Prints the word, what
# its form is encoded as and the form (nothing where it has none); or how the run ended, pc, the
# registers and a sum over the bytes from 00040000.
PROBE = r"""//! Prints what the crates make of lines of hexadecimal numbers.
#![tactic(auto)]

mod numbers;

use numbers::hexadecimal;
use rv_asm::{encode, fits};
use rv_decode::decode;
use rv_instr::Reg;
use rv_machine::{Machine, Memory, run};
use std::io::{BufRead, BufReader};

fn main(rt: HostRuntime) -> anyhow::Result<()> {
    for line in BufReader::new(rt.alloc(), rt.reader())?.lines(rt.alloc()) {
        let line = line?;
        let mut words = line.as_str().split_whitespace();
        let Some(first) = words.next() else { continue; };
        if first != "run" {
            let word = hexadecimal(first);
            if let Some(form) = decode(word) {
                let back = if fits(&form) { encode(&form) } else { 0 };
                println!(rt; "{word:08x} {back:08x} {form:?}")?;
            }
            continue;
        }
        let mut registers: [u32; 32] = [0; 32];
        for i in 1usize..32 {
            registers[i] = hexadecimal(words.next().unwrap_or("0"));
        }
        let mut memory = Memory::new(rt.alloc());
        let mut at: u32 = 0x10000;
        for word in words {
            for byte in hexadecimal(word).to_le_bytes() {
                memory.put(at, byte)?;
                at = at.wrapping_add(1);
            }
        }
        let mut machine = Machine::new(0x10000, memory);
        for i in 1u8..32 {
            machine.set_register(Reg::new(i % 32), registers[usize::from(i % 32)]);
        }
        let ran = run(&mut machine, at, 1000)?;
        print!(rt; "{ran:?} {:08x}", machine.pc())?;
        for i in 1u8..32 {
            print!(rt; " {:08x}", machine.register(Reg::new(i % 32)))?;
        }
        let mut sum: u32 = 0;
        for i in 0u32..4096 {
            let byte = machine.memory().byte(0x40000u32.wrapping_add(i));
            sum = sum.wrapping_mul(31).wrapping_add(u32::from(byte));
        }
        println!(rt; " {sum:08x}")?;
    }
    Ok(())
}
"""


def probe(lines):
    """What the crates answer to these lines."""
    return [line.strip() for line in ask(PROBE, CRATES, "\n".join(lines) + "\n")]


# ---- words

BRANCHES = dict(beq="Equal", bne="NotEqual", blt="Less", bge="GreaterOrEqual", bltu="LessUnsigned", bgeu="GreaterOrEqualUnsigned")
LOADS = dict(lb="Byte", lh="Half", lw="Word", lbu="ByteUnsigned", lhu="HalfUnsigned")
STORES = dict(sb="Byte", sh="Half", sw="Word")
IMMEDIATES = dict(addi="Add", slti="SetLess", sltiu="SetLessUnsigned", xori="Xor", ori="Or", andi="And")
SHIFTS = dict(slli="Left", srli="RightLogical", srai="RightArithmetic")
ARITHMETIC = {
    "add": "Add", "sub": "Subtract", "sll": "ShiftLeft", "slt": "SetLess", "sltu": "SetLessUnsigned", "xor": "Xor",
    "srl": "ShiftRightLogical", "sra": "ShiftRightArithmetic", "or": "Or", "and": "And", "mul": "Multiply",
    "mulh": "MultiplyHigh", "mulhsu": "MultiplyHighSignedUnsigned", "mulhu": "MultiplyHighUnsigned", "div": "Divide",
    "divu": "DivideUnsigned", "rem": "Remainder", "remu": "RemainderUnsigned",
}


def form_of(at, name, operands):
    """The form, as the probe prints it, of what objdump prints; "None" where it is none of RV32IM."""
    parts = [part for part in re.split(r"[,()]", operands) if part]
    register = lambda text: f"Reg {{ number: {int(text[1:])} }}"

    def offset(text):
        distance = (int(text, 16) - at) & 0xFFFFFFFF
        return distance - 2**32 if distance >> 31 else distance

    if name in ("lui", "auipc"):
        return f"{name.capitalize()} {{ rd: {register(parts[0])}, imm: {int(parts[1], 16)} }}"
    if name == "jal":
        return f"Jal {{ rd: {register(parts[0])}, offset: {offset(parts[1])} }}"
    if name == "jalr":
        return f"Jalr {{ rd: {register(parts[0])}, base: {register(parts[2])}, offset: {parts[1]} }}"
    if name in BRANCHES:
        return f"Branch {{ test: {BRANCHES[name]}, left: {register(parts[0])}, right: {register(parts[1])}, offset: {offset(parts[2])} }}"
    if name in LOADS:
        return f"Load {{ kind: {LOADS[name]}, rd: {register(parts[0])}, base: {register(parts[2])}, offset: {parts[1]} }}"
    if name in STORES:
        return f"Store {{ kind: {STORES[name]}, base: {register(parts[2])}, source: {register(parts[0])}, offset: {parts[1]} }}"
    if name in IMMEDIATES:
        return f"Immediate {{ operation: {IMMEDIATES[name]}, rd: {register(parts[0])}, source: {register(parts[1])}, imm: {parts[2]} }}"
    if name in SHIFTS and int(parts[2], 16) < 32:  # objdump prints six bits, as RV64 has them
        return f"Shift {{ operation: {SHIFTS[name]}, rd: {register(parts[0])}, source: {register(parts[1])}, amount: {int(parts[2], 16)} }}"
    if name in ARITHMETIC:
        return f"Arithmetic {{ operation: {ARITHMETIC[name]}, rd: {register(parts[0])}, left: {register(parts[1])}, right: {register(parts[2])} }}"
    return {"fence": "Fence", "fence.tso": "Fence", "ecall": "Ecall", "ebreak": "Ebreak"}.get(name, "None")


def boundary_words():
    words = [f7 << 25 | 12 << 20 | 11 << 15 | f3 << 12 | 10 << 7 | op for op in range(128) for f3 in range(8) for f7 in range(128)]
    words += [i << 20 | 0x73 for i in range(64)] + [0x001000F3, 0x00008073]
    formats = ((0x37, 0), (0x17, 0), (0x6F, 0), (0x67, 0), (0x63, 0), (0x63, 5), (0x03, 2), (0x03, 4), (0x23, 2), (0x13, 0), (0x13, 4), (0x0F, 0))
    for bit in range(32):
        for op, f3 in formats:
            for base in (0, 0xFFFFFFFF):
                words.append((base ^ 1 << bit) & ~0x707F & 0xFFFFFFFF | f3 << 12 | op)
    return words


def disassembled(words, room):
    """For each word what objdump prints for it: address, name and operands."""
    four_bytes = lambda w: w & 3 == 3 and w & 0x1F != 0x1F
    (room / "words.s").write_text("".join(f".insn 4, 0x{w:08x}\n" if four_bytes(w) else f".4byte 0x{w:08x}\n" for w in words))
    subprocess.run(["riscv64-unknown-elf-as", "-march=rv32im", "-mabi=ilp32", "words.s", "-o", "words.o"], cwd=room, check=True)
    text = subprocess.run(
        ["riscv64-unknown-elf-objdump", "-D", "-M", "no-aliases,numeric", "-j", ".text", "words.o"],
        cwd=room, check=True, capture_output=True, text=True,
    ).stdout
    shown = collections.defaultdict(list)
    for line in text.splitlines():
        found = re.match(r"\s*([0-9a-f]+):\s+([0-9a-f]{8})\s+(\S+)\s*(.*)", line)
        if found:
            shown[int(found[2], 16)].append((int(found[1], 16), found[3], re.sub(r"<.*>|#.*", "", found[4]).strip()))
    return shown


def compare_words():
    words = boundary_words()
    with tempfile.TemporaryDirectory() as folder:
        shown = disassembled(words, Path(folder))
    lines = probe([f"{w:08x}" for w in words])
    ours = {int(line[:8], 16): line for line in lines if re.match(r"[0-9a-f]{8} [0-9a-f]{8} ", line)}
    other, unlike, not_back = 0, [], 0
    for word in words:
        line = ours.get(word)
        form = line[18:] if line else "None"
        not_back += line is not None and int(line[9:17], 16) != word
        form = "Fence" if form.startswith("Fence") else form
        wanted = {form_of(*row) for row in shown.get(word, [(0, "", "")])}
        if form not in wanted:
            # the fields that are reserved in a FENCE are kept here, and objdump prints no form then
            if form == "Fence" and wanted == {"None"}:
                other += 1
            else:
                unlike.append((f"{word:08x}", form, wanted))
    print(f"{len(words)} words, {len(ours)} with a form; differ: {len(unlike)}; FENCE with reserved fields: {other}; not encoded back: {not_back}")
    for row in unlike[:20]:
        print(*row)
    return bool(unlike) or bool(not_back)


# ---- programs

EDGES = [0, 1, 2, 3, 7, 31, 32, 33, 0x7FFFFFFF, 0x80000000, 0x80000001, 0xFFFFFFFF, 0xFFFFFFFE, 0x7FFF, 0x8000, 0xFFFF, 0x80, 0x7F]
REGISTERS = [0, 5, 6, 7] + list(range(9, 16))  # x8 holds the data's address


def some_register():
    return random.choice(REGISTERS)


def arithmetic_word(f3, f7):
    return f7 << 25 | some_register() << 20 | some_register() << 15 | f3 << 12 | some_register() << 7 | 0x33


def immediate_word(op, f3, imm, source):
    return (imm & 0xFFF) << 20 | source << 15 | f3 << 12 | some_register() << 7 | op


def store_word(f3, imm):
    imm &= 0xFFF
    return (imm >> 5) << 25 | some_register() << 20 | 8 << 15 | f3 << 12 | (imm & 31) << 7 | 0x23


def branch_word(f3, offset):
    return some_register() << 20 | some_register() << 15 | f3 << 12 | (offset >> 1 & 15) << 8 | 0x63


def random_word(left):
    kind = random.random()
    if kind < 0.35:
        return arithmetic_word(random.randrange(8), 1)
    if kind < 0.55:
        f3 = random.randrange(8)
        return arithmetic_word(f3, random.choice([0, 0x20]) if f3 in (0, 5) else 0)
    if kind < 0.68:
        imm = random.choice([0, 1, -1, 2047, -2048, random.randrange(-2048, 2048)])
        return immediate_word(0x13, random.choice([0, 2, 3, 4, 6, 7]), imm, some_register())
    if kind < 0.75:
        f3, f7 = random.choice([(1, 0), (5, 0), (5, 0x20)])
        return immediate_word(0x13, f3, f7 << 5 | random.randrange(32), some_register())
    if kind < 0.80:
        return random.getrandbits(20) << 12 | some_register() << 7 | random.choice([0x37, 0x17])
    if kind < 0.88:
        f3, size = random.choice([(0, 1), (1, 2), (2, 4), (4, 1), (5, 2)])
        return immediate_word(0x03, f3, random.randrange(-512, 512) // size * size, 8)
    if kind < 0.95 or left <= 4:
        f3, size = random.choice([(0, 1), (1, 2), (2, 4)])
        return store_word(f3, random.randrange(-512, 512) // size * size)
    if kind < 0.98:
        return branch_word(random.choice([0, 1, 4, 5, 6, 7]), random.choice([4, 8, 12]))
    return random.choice([4, 8, 12]) >> 1 << 21 | some_register() << 7 | 0x6F


def emulated(words, registers):
    """How the emulator ends a program, as the probe prints it."""
    import unicorn
    from unicorn import riscv_const

    machine = unicorn.Uc(unicorn.UC_ARCH_RISCV, unicorn.UC_MODE_RISCV32)
    machine.mem_map(0x10000, 0x1000)
    machine.mem_map(0x40000, 0x2000)
    machine.mem_write(0x10000, b"".join(struct.pack("<I", word) for word in words))
    names = [getattr(riscv_const, f"UC_RISCV_REG_X{i}") for i in range(32)]
    for i in range(1, 32):
        machine.reg_write(names[i], registers[i])
    machine.emu_start(0x10000, 0x10000 + 4 * len(words), count=1000)
    values = [machine.reg_read(riscv_const.UC_RISCV_REG_PC)] + [machine.reg_read(names[i]) for i in range(1, 32)]
    total = 0
    for byte in machine.mem_read(0x40000, 4096):
        total = (total * 31 + byte) & 0xFFFFFFFF
    return " ".join(["Stopped"] + [f"{value & 0xFFFFFFFF:08x}" for value in values + [total]])


def compare_programs(count=400, seed=11):
    random.seed(seed)
    lines, wanted = [], []
    for _ in range(count):
        words = [random_word(40 - i) for i in range(40)]
        registers = [0] + [random.choice(EDGES) if random.random() < 0.6 else random.getrandbits(32) for _ in range(31)]
        registers[8] = 0x40800
        wanted.append(emulated(words, registers))
        lines.append(" ".join(["run"] + [f"{value:x}" for value in registers[1:]] + [f"{word:08x}" for word in words]))
    ended = [line for line in probe(lines) if re.match("Stopped|Trapped|More", line)]
    unlike = [i for i in range(count) if i >= len(ended) or ended[i] != wanted[i]]
    print(f"{count} programs; differ: {len(unlike)}")
    for i in unlike[:5]:
        print(lines[i], wanted[i], ended[i] if i < len(ended) else "nothing", sep="\n")
    return bool(unlike)


if __name__ == "__main__":
    jobs = {"words": compare_words, "programs": compare_programs}
    if len(sys.argv) != 2 or sys.argv[1] not in jobs:
        sys.exit(__doc__)
    sys.exit(jobs[sys.argv[1]]())
