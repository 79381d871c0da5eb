#!/usr/bin/env python3
"""Tries `tv` on what compilers make of C functions with loops and calls, right and wrong.

    scripts/compare_loops.py [OPTIONS] PROGRAM      PROGRAM is `tv` as it is compiled, as crates/tv_main/out/tv_main

The functions are those of `loops.txt` beside this script: memory and strings, searches, sorts, lists, ring buffers, hash tables,
checksums, numbers, bits, matrices, big numbers, state machines, call trees, tail calls. Options, what is asked and what is
compared are those of `compare_compilers.py`, but for twins: a wrong code is the right one with one instruction changed,
shown wrong by running. Samples are such that loops end: counts are small, strings have an end, and lists too. Status 1 where
an answer is wrong.

It is run outside the gate and needs gcc, clang, lld and GNU time (Debian: gcc-riscv64-unknown-elf, clang, lld, time).
"""

import hashlib
import random
import re
import sys

import compare_compilers as compilers
from machine import MASK, Call

SAMPLES = 80
STACK = 65536
BUFFERS = [0x40000000 + n for n in (0, 64, 68, 256, 260, 4096, 4100, 4112, 4352, 8192)]
COUNTS = {"n", "m", "w", "h", "len", "most", "stride", "words", "count", "size"}
LETTERS = b"aabcxyzABZ0123789 \t-+/*()."


def held(name, offset, seed):
    """The words of memory: text with an end here and there, pointers to buffers and null pointers, small numbers, or anything; by the sample."""
    draw = lambda text: int.from_bytes(hashlib.blake2b(text.encode(), digest_size=8).digest(), "little")
    style, n = draw(f"{seed} style") % 4, draw(f"{seed} {name} {offset}")
    kind, x = n >> 60, n & MASK
    if style == 0:
        letters = [(n >> 9 * i) % 512 for i in range(4)]
        return sum((0 if k < 64 else LETTERS[k % len(LETTERS)]) << 8 * i for i, k in enumerate(letters))
    if style == 1:
        return 0 if kind < 6 else BUFFERS[x % len(BUFFERS)] if kind < 12 else x % 16
    if style == 2:
        return x % 8 if kind < 6 else x % 256 if kind < 10 else x & 0x0F0F0F0F if kind < 12 else MASK - x % 5 if kind < 13 else x
    return x


class Function(compilers.Function):
    def __init__(self, name, text):
        super().__init__(name, text, None)

    def call(self, image, arguments, sample):
        return Call(image, "f", arguments, sample, held, STACK)

    def samples(self, seed):
        made = random.Random(f"{seed} {self.name}")
        for number in range(SAMPLES):
            yield [self.argument(made, p) for p in self.parameters], f"{seed} {self.name} {number}"

    def argument(self, made, parameter):
        name = re.findall(r"\w+", parameter)[-1]
        if "*" in parameter:
            return 0 if made.random() < 0.05 else made.choice(BUFFERS)
        kind = made.random()
        if name in COUNTS or kind < 0.3:
            value = made.choice([0, 1, 2, 3, 4, 5, 7, 8, 12, 16]) if kind < 0.95 else made.getrandbits(32)
        else:
            value = made.choice(compilers.EXTREMES + compilers.EDGES + list(LETTERS)) if kind < 0.8 else made.getrandbits(32) >> made.randrange(32)
        return compilers.widened(value, parameter)


def functions(options):
    for name, text in compilers.listed(compilers.HERE / "loops.txt"):
        if options.only in name:
            yield Function(name, text.strip() + "\n")


if __name__ == "__main__":
    sys.exit(compilers.main(__doc__, functions))
