#!/usr/bin/env python3
"""Measures seconds and peak memory of the program on large inputs. It is run outside the gate.

    scripts/measure.py [PROGRAM]      the program, or what `./tv` has built

It runs a large executable and a large source at 1/16, 1/4 and the whole of their maxima, so that the growth
shows; long functions and chains of calls, whose code is listed and found to be no straight code; and long straight
code and chains of doublings, whose terms are large.
"""

import os
import resource
import struct
import subprocess
import sys
import tempfile
import time
from pathlib import Path

TOP = Path(__file__).resolve().parent.parent
PROGRAM = Path(sys.argv[1]) if len(sys.argv) > 1 else TOP / "crates/tv_main/out/tv_main"
ELF_MAXIMUM = 16777216
C_MAXIMUM = 4194304
ADD = 0x00B50533
DOUBLE = 0x00A50533
RETURN = 0x00008067
XOR = 0x00B54533
PUSH, CALL_NEXT, NOP, POP = 0xFF010113, 0x00C000EF, 0x00000013, 0x01010113
SUM = "unsigned f(unsigned a,unsigned b){return a+b;}"


def executable(words, padding=0, size=None):
    """A file of one segment with these words and zero bytes at its end.

    The words are the function f, or functions of `size` bytes each: f, and the others under the name g."""
    code = b"".join(struct.pack("<I", word) for word in words)
    size = size or len(code)
    symbols = bytes(16)
    for at in range(0, len(code), size):
        symbols += struct.pack("<IIIBBH", 3 if at else 1, 65536 + at, size, 18, 0, 1)
    strings = 84 + len(code) + len(symbols)
    sections = strings + 8
    ident = b"\x7fELF\x01\x01\x01" + bytes(9)
    header = ident + struct.pack("<HHIIIIIHHHHHH", 2, 243, 1, 0, 52, sections, 0, 52, 32, 1, 40, 3, 0)
    program = struct.pack("<8I", 1, 84, 65536, 65536, len(code), len(code), 5, 4)
    table = bytes(40) + struct.pack("<10I", 0, 2, 0, 0, 84 + len(code), len(symbols), 2, 1, 4, 16)
    table += struct.pack("<10I", 0, 3, 0, 0, strings, 5, 0, 0, 1, 0)
    return header + program + code + symbols + b"\0f\0g\0\0\0\0" + table + bytes(padding)


def measure(name, elf, source):
    """Runs the program once, and prints what it answered, the seconds and the peak of memory."""
    with tempfile.TemporaryDirectory() as folder:
        Path(folder, "e").write_bytes(elf)
        Path(folder, "c").write_text(source)
        words = [str(PROGRAM), "prove", "e", "c", "--cert", "k"]
        begin = time.monotonic()
        child = subprocess.Popen(words, cwd=folder, stdout=subprocess.PIPE)
        report = child.stdout.read().decode().splitlines()
        _, status, usage = os.wait4(child.pid, 0)
        seconds = time.monotonic() - begin
        code = status >> 8
        print(f"| {name} | {code}, `{report[0] if report else ''}` | {seconds:.2f} | {usage.ru_maxrss // 1024} |", flush=True)


def main():
    resource.setrlimit(resource.RLIMIT_AS, (8 << 30, 8 << 30))
    print("| Input | Answer | Seconds | Peak MiB |\n|---|---|---|---|")
    small = executable([ADD, RETURN])
    for part in (16, 4, 1):
        size = ELF_MAXIMUM // part
        measure(f"executable of {size} bytes", executable([ADD, RETURN], size - len(small)), SUM)
    measure("executable above its maximum", executable([ADD, RETURN], ELF_MAXIMUM + 1 - len(small)), SUM)
    for part in (16, 4, 1):
        size = C_MAXIMUM // part
        measure(f"source of {size} bytes, blanks", small, SUM + " " * (size - len(SUM)))
    measure("source above its maximum", small, SUM + " " * (C_MAXIMUM + 1 - len(SUM)))
    for words in (1000, 10000, 65536):
        measure(f"code of {words} instructions that is not straight", executable([XOR] * (words - 1) + [RETURN]), SUM)
    for count in (500, 1000, 2000, 4000):
        words = [PUSH, CALL_NEXT, POP, RETURN] * (count - 1) + [PUSH, NOP, POP, RETURN]
        measure(f"{count} functions that call each other in a chain", executable(words, size=16), SUM)
    for words in (1000, 4000, 16384, 65536):
        measure(f"straight code of {words} words, one register", executable([0x00158593] * (words - 1) + [RETURN]), SUM)
    for count in (20, 64, 1000, 65535):
        measure(f"{count} doublings", executable([DOUBLE] * count + [RETURN]), SUM)


main()
