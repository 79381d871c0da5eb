#!/usr/bin/env python3
"""Measures how fast certificates are read and written, and the memory that they take. It is run outside the gate.

    scripts/measure_certificates.py [PROGRAM]      the program `proof_rows`, or what `rt run` has built in its crate

Each row is a certificate of about 64 MiB that repeats one kind of line; the program makes its text from a row, reads
it, writes it again and compares the two. Seconds are those of all this, less those of making the text. The memory
is the peak of the process: while the text is read, its bytes and the certificate, in bytes a byte of text (so 1 is the
text's own), and while it is written that and the second text. The last column is a run with a fault at the end,
in which nothing is written. GNU `time` (Debian: time) is needed.
"""

import subprocess
import sys
import time
from pathlib import Path

ROOT = Path(__file__).resolve().parent.parent
PROGRAM = Path(sys.argv[1]) if len(sys.argv) > 1 else ROOT / "crates/proof_rows/out/proof_rows"
SIZE = 64 << 20
FRONT = "tv-cert 1|function f stack 0|"


def logs(piece, count):
    """A leaf whose one log has these steps."""
    return f"{FRONT}leaf 1|log {count}|", f"{count}*{piece}", "end|"


def leaves(piece, count):
    return f"{FRONT}leaf {count}|", f"{count}*{piece}", "end|"


def parts(piece, count):
    return "tv-cert 1|", f"{count}*{piece}", "end|"


def case(piece, count):
    return f"{FRONT}case (and", f"{count}*{piece}", ")|leaf 0|leaf 0|end|"


ROWS = [
    ("steps `s 12345 -6789 0 1234567 2345678 0`", logs, "s 12345 -6789 0 1234567 2345678 0|"),
    ("steps `s 0 0`", logs, "s 0 0|"),
    ("steps `s 1 1 1 1 1 1 1 1 0 0`", logs, "s 1 1 1 1 1 1 1 1 0 0|"),
    ("steps `s 0 1 1 1 1 1 1 1 1 0`", logs, "s 0 1 1 1 1 1 1 1 1 0|"),
    ("logs `log 0`", leaves, "log 0|"),
    ("parts `function f stack 0`, `leaf 0`", parts, "function f stack 0|leaf 0|"),
    ("one term of symbols ` m`", case, " m"),
    ("one term of arguments ` (add x10 32:1)`", case, " (add x10 32:1)"),
]


def run(row):
    """Seconds, peak memory in bytes, and what is printed."""
    begin = time.monotonic()
    command = ["time", "-f", "%M", str(PROGRAM)]
    ran = subprocess.run(command, input=row + "\n", capture_output=True, text=True)
    seconds = time.monotonic() - begin
    if ran.returncode:
        sys.exit(f"{row[:60]}: status {ran.returncode}\n{ran.stderr}")
    return seconds, int(ran.stderr.split()[-1]) * 1024, ran.stdout.strip()


def main():
    print("| Certificate | MiB | Seconds | Bytes a byte | Seconds to a fault at its end | Bytes a byte |")
    print("|---|---|---|---|---|---|")
    for title, make, piece in ROWS:
        count = SIZE // len(piece)
        front, middle, back = make(piece, count)
        size = len(front) + len(piece) * count + len(back)
        text = f"{front}`{middle}`{back}"
        making, _, said = run(f"row: x{text}")
        assert said == "row: refused@0", said
        seconds, memory, said = run(f"row: {text}")
        assert said.endswith("written the same"), said
        until, peak, said = run(f"row: {text} ")
        assert said == f"row: refused@{size}", said
        print(f"| {title} | {size / 2**20:.1f} | {seconds - making:.1f} | {memory / size:.2f}", end="")
        print(f" | {until - making:.1f} | {peak / size:.2f} |", flush=True)


if __name__ == "__main__":
    main()
