#!/usr/bin/env python3
"""Measures `prove` and `check` on functions of many statements, and on many functions at once.

    scripts/measure_prove.py [--seconds N] [--sizes 64,256,1024] PROGRAM      PROGRAM is `tv` as it is compiled

Straight functions of so many statements, compiled by gcc -O1: sums (`a=a+b;b=b^a;`), shifts (`a=a^(b>>3);b=b+(a<<5);`), stores
and loads through a pointer (`p[k]=p[k]+a;`), products by 3 that become shifts (`a=a*3+b;`), and choices
(`if(a<b)a=a+b;else b=b-a;`); and 100 functions at once, each of 8 stores. Each row: what it is, the instructions, the
status, processor seconds and MiB of `prove`, the certificate's bytes, and status, seconds and MiB of `check`. A run is given
up after so many processor seconds (300). Status 1 where `check` refuses what `prove` wrote. It is run outside the gate and
needs gcc and GNU time (Debian: gcc-riscv64-unknown-elf, time).
"""

import argparse
import subprocess
import sys
import tempfile
from pathlib import Path

from compare_compilers import Asked

GCC = "riscv64-unknown-elf-gcc -march=rv32im -mabi=ilp32 -nostdlib -static -O1 -Wl,-e,f0 -Wl,--no-relax".split()
TWO = "unsigned {name}(unsigned a,unsigned b){{{body}return a+b;}}\n"
MEMORY = "unsigned {name}(unsigned*p,unsigned a){{{body}return a;}}\n"
KINDS = {
    "sums": (TWO, lambda k: ("a=a+b;", "b=b^a;")[k % 2]),
    "shifts": (TWO, lambda k: ("a=a^(b>>3);", "b=b+(a<<5);")[k % 2]),
    "stores": (MEMORY, lambda k: f"p[{k % 64}]=p[{k % 64}]+a;"),
    "products by 3": (TWO, lambda k: ("a=a*3+b;", "b=b^a;")[k % 2]),
    "choices": (TWO, lambda k: ("if(a<b)a=a+b;else b=b-a;", "a=a^b;")[k % 2]),
}


def text(kind, name, statements):
    frame, statement = KINDS[kind]
    return frame.format(name=name, body="".join(statement(k) for k in range(statements)))


def instructions(elf):
    said = subprocess.run(["riscv64-unknown-elf-size", "-A", elf], capture_output=True, text=True, check=True).stdout
    return int(next(line.split()[1] for line in said.split("\n") if line.startswith(".text"))) // 4


def measured(program, seconds, what, source, folder):
    """Prints the row of one source; whether `check` agrees."""
    c, elf, cert = folder / "f.c", folder / "f.elf", folder / "f.cert"
    c.write_text(source)
    subprocess.run([*GCC, "-o", elf, c], check=True, stderr=subprocess.DEVNULL)
    cert.unlink(missing_ok=True)
    proved = Asked([program, "prove", elf, c, "--cert", cert], seconds)
    row = [what, instructions(elf), proved.answer(), f"{proved.seconds:.2f}", f"{proved.mib:.0f}"]
    size = cert.stat().st_size if cert.exists() else 0
    checked = Asked([program, "check", elf, c, cert], seconds) if proved.status == 0 else None
    row += [size] + ([checked.answer(), f"{checked.seconds:.2f}", f"{checked.mib:.0f}"] if checked else ["", "", ""])
    print("| " + " | ".join(map(str, row)) + " |", flush=True)
    return checked is None or checked.status in (0, None)


def main():
    words = argparse.ArgumentParser(usage=__doc__)
    words.add_argument("--seconds", type=int, default=300)
    words.add_argument("--sizes", default="64,256,1024")
    words.add_argument("program")
    options = words.parse_args()
    print("| Function | Instructions | `prove` | Seconds | MiB | Certificate | `check` | Seconds | MiB |\n|---|---|---|---|---|---|---|---|---|")
    agree = True
    with tempfile.TemporaryDirectory() as folder:
        for kind in KINDS:
            for size in map(int, options.sizes.split(",")):
                source = text(kind, "f0", size)
                agree &= measured(options.program, options.seconds, f"{size} {kind}", source, Path(folder))
        source = "".join(text("stores", f"f{k}", 8) for k in range(100))
        agree &= measured(options.program, options.seconds, "100 functions of 8 stores", source, Path(folder))
    return 0 if agree else 1


if __name__ == "__main__":
    sys.exit(main())
