#!/usr/bin/env python3
"""Measures how fast C runs are, and the memory that they take.

    scripts/measure_runs.py [PROGRAM]

It is run outside the gate and needs GNU `time` (Debian: time) on the path, and the program `c_rows` as `rt run` builds it
in its folder. Each row is a call: its turns, seconds, turns a second, the peak of memory, and the time and memory that a turn
takes besides what the program takes for the first row.
"""

import subprocess
import sys
import time
from pathlib import Path

ROOT = Path(__file__).resolve().parent.parent
PROGRAM = Path(sys.argv[1]) if len(sys.argv) > 1 else ROOT / "crates/c_rows/out/c_rows"

SUM = "unsigned f(unsigned n){unsigned s=0;while(n!=0){s=s+n;n=n-1;}return s;}"
COUNTS = "unsigned x;unsigned f(unsigned n){for(unsigned i=0;i<n;i++)x+=i;return x;}"
WRITES = "unsigned a[16384];unsigned f(unsigned n){for(unsigned i=0;i<n;i++)a[i&16383]=i;return a[1];}"
READS = "unsigned a[16384];unsigned f(unsigned n){unsigned s=0;for(unsigned i=0;i<n;i++)s+=a[i&16383];return s;}"
CHAIN = "unsigned f(unsigned n){if(n==0)return 0;unsigned r=f(n-1);return r+1;}"
CALLS = "unsigned g(unsigned a){return a+1;}unsigned f(unsigned n){unsigned s=0;while(s<n)s=g(s);return s;}"
MANY = "`2000*unsigned g#(unsigned a){return a+#;}`unsigned f(unsigned n){unsigned s=0,i=0;while(i<n){s=g1999(s);i++;}return s;}"


def wrapped(n):
    return n % 2**32


# A title, words for the globals, a text, how often its loop goes, its turns, and its value.
ROWS = [
    ("nothing", "", SUM, 0, lambda n: 2, lambda n: 0),
    ("a loop of sums", "", SUM, 1000000, lambda n: n + 2, lambda n: wrapped(n * (n + 1) // 2)),
    ("twice as long", "", SUM, 2000000, lambda n: n + 2, lambda n: wrapped(n * (n + 1) // 2)),
    ("a global is added to", "x@4096", COUNTS, 1000000, lambda n: n + 2, lambda n: wrapped(n * (n - 1) // 2)),
    ("an array of 64 KiB is written once", "a@65536", WRITES, 16384, lambda n: n + 2, lambda n: 1),
    ("again and again", "a@65536", WRITES, 1000000, lambda n: n + 2, lambda n: 1 + n // 16384 * 16384),
    ("the array, empty, is read", "a@65536", READS, 1000000, lambda n: n + 2, lambda n: 0),
    ("a chain of 10,000 calls", "", CHAIN, 9999, lambda n: n + 1, lambda n: n),
    ("a chain of 100,000 calls", "", CHAIN, 99999, lambda n: n + 1, lambda n: n),
    ("a call in each round", "", CALLS, 500000, lambda n: 2 * n + 2, lambda n: n),
    ("the same, of the last of 2,000 functions", "", MANY, 500000, lambda n: 2 * n + 2, lambda n: wrapped(1999 * n)),
]


def timed(line):
    """What the program answers to a row, its seconds, and its peak of memory in KiB."""
    begin = time.monotonic()
    # The kernel counts to a process the memory of what it was before it became the program: of `time`, not of Python.
    ran = subprocess.run(["time", "-f", "%M", str(PROGRAM)], input=line, capture_output=True, text=True)
    return ran.stdout.strip(), time.monotonic() - begin, int(ran.stderr.split()[-1])


def main():
    print("| Run | Turns | Seconds | Turns a second | Peak MiB | ns a turn | Bytes a turn |\n" + "|---" * 7 + "|")
    least = None
    for title, words, text, n, turns, value in ROWS:
        answer, seconds, peak = timed(f"run f {n} turns*{turns(n)} {words} | {value(n)} | {text}\n")
        if answer != "ok":
            sys.exit(f"{title}: {answer}")
        least = least or (seconds, peak)
        speed, each = f"{turns(n) / seconds:.0f}", f"{max(0, seconds - least[0]) / turns(n) * 1e9:.0f}"
        room = f"{max(0, peak - least[1]) * 1024 / turns(n):.0f}"
        print(f"| {title} | {turns(n)} | {seconds:.2f} | {speed} | {peak / 1024:.1f} | {each} | {room} |", flush=True)


if __name__ == "__main__":
    main()
