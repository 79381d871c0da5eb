#!/usr/bin/env python3
"""Measures how long the graphs of C functions take, and their memory.

    scripts/measure_c_graphs.py [PROGRAM]

It is run outside the gate and needs GNU `time` (Debian: time) on the path, and the program `c_rows` as `rt run` builds it
in its folder. Each row is a unit: how many nodes its graphs have, the seconds and the peak of memory until it is typed, those
of its graphs besides, and the time and memory that a node takes.
"""

import subprocess
import sys
import time
from pathlib import Path

ROOT = Path(__file__).resolve().parent.parent
PROGRAM = Path(sys.argv[1]) if len(sys.argv) > 1 else ROOT / "crates/c_rows/out/c_rows"


def body(statement, n, before=""):
    return f"{before}unsigned f(unsigned a){{`{n}*{statement}`return a;}}"


# A title, a text, and how many nodes its graphs have: the landing node and three at the end of each function besides.
ROWS = [
    ("1,000 sums", body("a=a+1u;", 1000), [2004]),
    ("10,000 sums", body("a=a+1u;", 10000), [20004]),
    ("100,000 sums", body("a=a+1u;", 100000), [200004]),
    ("10,000 stores to an array", body("x[3]=a;", 10000, "unsigned x[16];"), [70004]),
    ("10,000 loads from an array", body("a=x[3];", 10000, "unsigned x[16];"), [50004]),
    ("10,000 loops", body("while(a){a=a-1u;}", 10000), [60004]),
    ("10,000 calls", body("a=g(a);", 10000, "unsigned g(unsigned a){return a;}"), [4, 30004]),
    ("a switch of 1,000 cases", "unsigned f(unsigned a){switch(a){`1000*case #u:a=1u;break;`}return a;}", [2005]),
    ("a switch of 10,000 cases", "unsigned f(unsigned a){switch(a){`10000*case #u:a=1u;break;`}return a;}", [20005]),
    ("100 loops in one another", "unsigned f(unsigned a){`100*while(a)`a=a-1u;return a;}", [406]),
    ("10,000 functions", "`10000*unsigned f#(unsigned a){return a;}`", [4] * 10000),
]


def timed(line):
    """What the program answers to a row, its seconds, and its peak of memory in KiB."""
    begin = time.monotonic()
    # The kernel counts to a process the memory of what it was before it became the program: of `time`, not of Python.
    ran = subprocess.run(["time", "-f", "%M", str(PROGRAM)], input=line, capture_output=True, text=True)
    return ran.stdout.strip(), time.monotonic() - begin, int(ran.stderr.split()[-1])


def main():
    print("| Unit | Nodes | Seconds until typed | MiB then | Seconds of the graphs | MiB besides | µs a node | Bytes a node |\n" + "|---" * 8 + "|")
    for title, text, sizes in ROWS:
        typed, before, least = timed(f"points | no body | {text}\n")
        made, seconds, peak = timed(f"sizes | {' '.join(str(n) for n in sizes)} | {text}\n")
        if (typed, made) != ("ok", "ok"):
            sys.exit(f"{title}: {typed[:200]}, {made[:200]}")
        nodes, took, room = sum(sizes), max(0, seconds - before), max(0, peak - least)
        each = f"{took / nodes * 1e6:.1f} | {room * 1024 / nodes:.0f}"
        print(f"| {title} | {nodes} | {before:.2f} | {least / 1024:.1f} | {took:.2f} | {room / 1024:.1f} | {each} |", flush=True)


if __name__ == "__main__":
    main()
