#!/usr/bin/env python3
"""Measures how fast the machine runs, and the memory that it takes for stores.

    scripts/measure_machine.py

It is run outside the gate and needs `rt` and GNU `time` (Debian: time) on the path. It proves the machine and a small program in a
scratch repository, takes over what `rt` has kept in out/, and runs the program as it is compiled. Each
row is a run: instructions, bytes stored at distinct addresses, seconds, instructions a second and the
peak of memory.
"""

import sys

from probe import measure, timed

CRATES = ["rv_instr", "rv_machine"]

# Its arguments, after its name, are the words of a program in hexadecimal numbers. Runs it from 00010000 to its end, and
# prints how the run ended, pc and x10.
PROBE = r"""//! Runs a program whose words are the arguments.
#![tactic(auto)]

mod numbers;

use numbers::hexadecimal;
use rv_instr::Reg;
use rv_machine::{Machine, Memory, run};
use std::env;

fn main(rt: HostRuntime) -> anyhow::Result<()> {
    let words: Vec<String> = env::args(&rt)?.collect(rt.alloc())?;
    let mut memory = Memory::new(rt.alloc());
    let mut at: u32 = 0x10000;
    for word in words.as_slice().iter().skip(1) {
        for byte in hexadecimal(word.as_str()).to_le_bytes() {
            memory.put(at, byte)?;
            at = at.wrapping_add(1);
        }
    }
    let mut machine = Machine::new(0x10000, memory);
    let ran = run(&mut machine, at, 1000000000)?;
    println!(rt; "{ran:?} {:08x} {:08x}", machine.pc(), machine.register(Reg::new(10)))?;
    Ok(())
}
"""


def upper(rd, value):
    return value << 12 | rd << 7 | 0x37


def add_immediate(rd, source, value):
    return (value & 0xFFF) << 20 | source << 15 | rd << 7 | 0x13


def add(rd, left, right):
    return right << 20 | left << 15 | rd << 7 | 0x33


def load_word(rd, base):
    return base << 15 | 2 << 12 | rd << 7 | 0x03


def store(f3, source, base):
    return source << 20 | base << 15 | f3 << 12 | 0x23


def branch_back(left, distance):
    """A branch `distance` bytes back where the register is not zero."""
    offset = -distance & 0x1FFF
    return (offset >> 12) << 31 | (offset >> 5 & 63) << 25 | left << 15 | 1 << 12 | (offset >> 1 & 15) << 8 | (offset >> 11 & 1) << 7 | 0x63


def constant(rd, value):
    """Two words that put a value into a register."""
    return [upper(rd, value + 0x800 >> 12 & 0xFFFFF), add_immediate(rd, rd, value & 0xFFF)]


def loop(times, body):
    """A program that goes over a body so often; x5 counts, x6 is 00100000 at the start. With its count of instructions."""
    whole = body + [add_immediate(5, 5, -1)]
    words = constant(5, times) + constant(6, 0x100000) + whole + [branch_back(5, 4 * len(whole))]
    return words, 4 + times * (len(whole) + 1)


ROWS = [
    ("nothing", loop(1, []), 0),
    ("registers alone", loop(2500000, [add(10, 10, 5), add(11, 11, 10)]), 0),
    ("a load and a store in each five", loop(2000000, [load_word(10, 6), add(11, 11, 10), store(2, 5, 6)]), 4),
    ("10^5 bytes, one after the other", loop(100000, [store(0, 5, 6), add_immediate(6, 6, 1)]), 100000),
    ("10^5 bytes, 64 apart", loop(100000, [store(0, 5, 6), add_immediate(6, 6, 64)]), 100000),
    ("10^5 words, one after the other", loop(100000, [store(2, 5, 6), add_immediate(6, 6, 4)]), 400000),
    ("10^6 words, one after the other", loop(1000000, [store(2, 5, 6), add_immediate(6, 6, 4)]), 4000000),
]


def rows(program):
    for name, (words, count), stored in ROWS:
        printed, seconds, peak = timed(program, [f"{word:08x}" for word in words])
        if not printed.startswith("Stopped"):
            sys.exit(f"the run has not come to its end: {printed}")
        yield name, count, stored, f"{seconds:.2f}", f"{count / seconds:.0f}", f"{peak:.1f}"


if __name__ == "__main__":
    measure(PROBE, CRATES, ["Run", "Instructions", "Bytes stored", "Seconds", "Instructions a second", "Peak MiB"], rows)
