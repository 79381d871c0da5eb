#!/usr/bin/env python3
"""Measures how long C units take to be typed, and the memory that it takes, at 1, 2 and 4 MiB.

    scripts/measure_types.py [PROGRAM [TEXT..]]      these texts, or all

It is run outside the gate and needs the rows' program as it is compiled (`rt run` in `crates/c_rows`, whose out/ is
looked at unless a program is named) and GNU `time` (Debian: time). Each row is a text: its bytes, the answer, the processor
seconds for its tokens and its tree and for its types, and the peaks of memory without and with the types. Those without
are of the same text after a declaration that is refused. Typing is linear where the seconds double with the bytes. A run
is given up at 120 seconds or 6 GiB, and the longer texts of its kind are left out.
"""

import subprocess
import sys
import tempfile
from pathlib import Path

ROOT = Path(__file__).resolve().parent.parent
PROGRAM = Path(sys.argv[1]) if len(sys.argv) > 1 else ROOT / "crates/c_rows/out/c_rows"
# A run that takes more is given up.
SECONDS, MEMORY_KIB = 120, 6 << 20
SIZES = [1 << 20, 2 << 20, 4 << 20]
REFUSED = "int x;unsigned x;"


def until(size, part, before="", after=""):
    """The text `before`, the parts 0, 1, .. as long as they fit, and `after`."""
    made, left, n = [before], size - len(before) - len(after), 0
    while left >= len(part(n)):
        made.append(part(n))
        left -= len(made[-1])
        n += 1
    return "".join(made) + after


def half(size, first, before, part, after):
    """A text of which `first` makes one half and the parts the other."""
    return until(size, part, first(size // 2 - len(before)) + before, after)


def stars(name):
    return lambda size: f"int {'*' * size}{name};"


def dimensions(size):
    return f"int x{'[1]' * (size // 3)};"


def nested(size):
    """126 blocks in one another with as many locals each, that begin with those of the block around it."""
    each = size // 126 // 23
    blocks = "".join("{" + "".join(f"int a{b:03}{n:05}=a{b - 1:03}{n:05};" for n in range(each)) for b in range(1, 127))
    first = "".join(f"int a000{n:05};" for n in range(each))
    return first + "void f(void){" + blocks[1:] + "}" * 126


TEXTS = {
    "typedefs of pointers to one another": lambda size: until(size, lambda n: f"typedef t{n - 1}*t{n};" if n else "typedef int*t0;"),
    "typedefs of arrays of one another": lambda size: until(size, lambda n: f"typedef t{n - 1} t{n}[1];" if n else "typedef int t0[1];"),
    "typedefs of arrays of pointers to one another": lambda size: until(size, lambda n: f"typedef t{n - 1}*t{n}[1];" if n else "typedef int*t0[1];"),
    "a pointer with a star a byte, and its uses": lambda size: half(size, stars("p"), "void f(void){", lambda n: "p=p;", "}"),
    "two such pointers, and assignments of one to the other": lambda size: half(
        size, lambda k: stars("p")(k // 2) + stars("q")(k // 2), "void f(void){", lambda n: "p=q;", "}"
    ),
    "an array with a length each three bytes, and its sizes": lambda size: half(size, dimensions, "void f(void){", lambda n: "sizeof x;", "}"),
    "casts to a long typedef name": lambda size: half(size, lambda k: "typedef " + stars("T")(k), "void f(void){", lambda n: "(T)0;", "}"),
    "declarations of one object again": lambda size: until(size, lambda n: "extern int*x;"),
    "declarations of one function again": lambda size: until(size, lambda n: "int f(int,int*,char,int**,short,int,int,int);"),
    "objects of a struct with as many members": lambda size: half(
        size, lambda k: until(k, lambda n: f"int m{n};", "struct s{", "}x"), "", lambda n: f",x{n}", ";"
    ),
    "uses of the members of a struct": lambda size: half(
        size, lambda k: until(k, lambda n: f"int m{n};", "struct s{", "}x;"), "void f(void){", lambda n: f"x.m{n % 40000}=1;", "}"
    ),
    "structs in one another": lambda size: until(size, lambda n: f"struct s{n}{{struct s{n - 1} a;int b;}};" if 0 < n < 40000 else f"struct s{n}{{int a;}};"),
    "tags": lambda size: until(size, lambda n: f"struct s{n};enum e{n}{{A{n}}};"),
    "one enum": lambda size: until(size, lambda n: f"A{n}={n},", "enum{", "};"),
    "one long initial value": lambda size: until(size, lambda n: "1+1,", "int x[]={", "};"),
    "globals": lambda size: until(size, lambda n: f"int x{n};"),
    "locals of one block, and their uses": lambda size: until(size, lambda n: f"int x{n}=x{n - 1};" if n else "int x0=1;", "void f(void){", "}"),
    "locals of 126 blocks in one another": nested,
    "10,000 locals, and their uses": lambda size: until(
        size, lambda n: f"x{n % 10000}=x{n * 7 % 10000}+1;", "void f(void){" + "".join(f"int x{n}=1;" for n in range(10000)), "}"
    ),
    "functions": lambda size: until(size, lambda n: f"int f{n}(int a){{int b=a;return b+1;}}"),
    "calls": lambda size: until(size, lambda n: "a=g(a,1);", "int g(int,int);void f(int a){", "}"),
    "loops": lambda size: until(size, lambda n: "while(a)a--;", "void f(int a){", "}"),
    "labels of one switch": lambda size: until(size, lambda n: f"case {n}:", "void f(int a){switch(a){", ";}}"),
    "groups of one switch, with a local each": lambda size: until(size, lambda n: f"case {n}:;int x{n}=a;break;", "void f(int a){switch(a){", "}}"),
    "blocks side by side": lambda size: until(size, lambda n: "{int x=a;a=x;}", "void f(int a){", "}"),
    "expressions of 126 operators": lambda size: until(size, lambda n: "a=" + "a+" * 126 + "a;", "void f(int a){", "}"),
    "pointers compared with 0": lambda size: until(size, lambda n: "p==" + "0+" * 125 + "0;", "void f(int*p){", "}"),
}


def run(text):
    """The answer to a text, the processor seconds and the peak of memory in MiB; the answer is None where it is given up."""
    with tempfile.NamedTemporaryFile("w") as file:
        file.write(f"check | ? | {text}\n")
        file.flush()
        command = f"ulimit -v {MEMORY_KIB}; exec time -f '%U %S %M' timeout {SECONDS} {PROGRAM} < {file.name}"
        ran = subprocess.run(["sh", "-c", command], capture_output=True, text=True)
    user, system, peak = ran.stderr.split()[-3:]
    answer = ran.stdout.strip().removeprefix("? ") if ran.returncode == 0 else None
    return answer, float(user) + float(system), int(peak) / 1024


def measured(name, size):
    """A row, and whether the longer texts are worth a run."""
    text = TEXTS[name](size)
    before, read, least = run(REFUSED + text)
    if before != "Mismatch at 15":
        sys.exit(f"{name}: the tree alone: {before}")
    answer, whole, peak = run(text)
    given = answer or f"given up after {whole:.0f} s at {peak:.0f} MiB"
    return [name, len(text), given, f"{read:.2f}", f"{whole - read:.2f}", f"{least:.0f}", f"{peak:.0f}"], answer is not None


def main():
    titles = ["Text", "Bytes", "Answer", "Seconds for the tree", "Seconds for the types", "MiB without the types", "MiB"]
    print("| " + " | ".join(titles) + " |\n" + "|---" * len(titles) + "|")
    for name in sys.argv[2:] or TEXTS:
        for size in SIZES:
            row, goes_on = measured(name, size)
            print("| " + " | ".join(str(cell) for cell in row) + " |", flush=True)
            if not goes_on:
                break


if __name__ == "__main__":
    main()
