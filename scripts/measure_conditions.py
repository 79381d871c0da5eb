#!/usr/bin/env python3
"""Measures seconds and peak memory of visits, conditions and states of large graphs. It is run outside the gate.

    scripts/measure_conditions.py [PROGRAM]      the program `proof_rows`, or what `rt run` has built in its crate

Each row is a run of the program on one graph, reading it included; conditions aren't printed, only how many visits there
are and how many terms the bank has once it has all conditions and states.
"""

import subprocess
import sys
import time
from pathlib import Path

import compare_conditions
from compare_conditions import LETTERS

PROGRAM = Path(sys.argv[1]) if len(sys.argv) > 1 else compare_conditions.PROGRAM
VARIABLES = LETTERS[:40]


def diamonds(count, names="ab"):
    """Each arm of a diamond changes a variable."""
    words = []
    for i in range(count):
        at, v, w = 3 * i, names[2 * i % len(names)], names[(2 * i + 1) % len(names)]
        words += [f"<{v}{w}?{at + 1}/{at + 2}", f"{v}=+{v}1>{at + 3}", f"{w}=+{w}1>{at + 3}"]
    return " ".join(words + ["R"])


def straight(count, names="a"):
    words = [f"{names[i % len(names)]}=+{names[i % len(names)]}1>{i + 1}" for i in range(count - 1)]
    return " ".join(words + ["R"])


def loop(size, bound):
    words = ["<ab?1/R"] + [f"a=+a1>{i + 1}" for i in range(1, size - 1)] + ["a=+ac>0"]
    return " ".join(words) + f" | from 0 bounds 0:{bound}"


ROWS = [
    ("chain of 1,000 diamonds", diamonds(1000)),
    ("chain of 10,000 diamonds", diamonds(10000)),
    ("straight code of 16,384 nodes", straight(16384)),
    ("straight code of 65,535 nodes", straight(65535)),
    ("loop of 40 nodes bounded at 17", loop(40, 17)),
    ("straight code of 65,535 nodes, 40 variables", straight(65535, VARIABLES)),
    ("chain of 5,000 diamonds, 40 variables", diamonds(5000, VARIABLES)),
    ("chain of 21,844 diamonds, 40 variables", diamonds(21844, VARIABLES)),
]


def main():
    print("| Graph | Visits | Terms | Seconds | Memory in MiB |\n|---|---|---|---|---|")
    for title, graph in [("nothing", "R")] + ROWS:
        begin = time.monotonic()
        command = ["time", "-f", "%M", str(PROGRAM)]
        ran = subprocess.run(command, input=f"sizes {graph} = ?\n", capture_output=True, text=True)
        seconds = time.monotonic() - begin
        if ran.returncode:
            sys.exit(f"{title}: status {ran.returncode}, {ran.stderr}")
        visits, _, terms, _ = ran.stdout.rsplit(": found ", 1)[1].split()
        print(f"| {title} | {int(visits):,} | {int(terms):,} | {seconds:.2f} | {int(ran.stderr.split()[-1]) / 1024:.0f} |", flush=True)


if __name__ == "__main__":
    main()
