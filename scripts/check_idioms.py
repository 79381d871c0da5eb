#!/usr/bin/env python3
"""Runs the codes of the rows `idiom-..` of `crates/tv_rows` on samples, beside their C text as clang compiles it with sanitizers.

    scripts/check_idioms.py [ROWS OUTCOMES]      the files stdin and stdout of crates/tv_rows, or these

A row that is to be valid has to do what the C text does on each sample at which the text breaks no guard; one that is to
be unproved has to do something else on one of them, which is printed. Samples and what is compared are those of
`compare_compilers.py`. Status 1 where a row does otherwise. It is run outside the gate and needs clang and lld (Debian:
clang, lld).
"""

import sys
import tempfile
from pathlib import Path

import compare_compilers as compilers
from machine import Image

ROWS = Path(__file__).resolve().parent.parent / "crates/tv_rows"
SAMPLES = 400


def pairs(rows, outcomes):
    """Name, C text, executable and outcome of each row of an idiom that is a run."""
    source, data = None, None
    for row in rows:
        name, _, asked = row.partition(": ")
        kind, _, rest = asked.partition(" ")
        if kind == "c":
            source = rest.replace("\\n", "\n")
        elif kind == "elf":
            data = bytes.fromhex(rest)
        elif name.startswith("idiom-"):
            yield name, source, data, outcomes[name]


def main():
    files = [Path(word) for word in sys.argv[1:3]] or [ROWS / "stdin", ROWS / "stdout"]
    rows, outcomes = (file.read_text().splitlines() for file in files)
    outcomes = dict(line.partition(": ")[::2] for line in outcomes)
    compilers.SAMPLES, wrong, counted = SAMPLES, 0, {"valid": 0, "unproved": 0}
    with tempfile.TemporaryDirectory() as folder:
        for name, source, data, outcome in pairs(rows, outcomes):
            guarded = compilers.compiled(Path(folder), "guarded", source, [*compilers.COMPILERS["clang"], "-O0", *compilers.GUARDS])
            reference = compilers.Reference(compilers.Function(name, source, source), Image(guarded), name)
            said = reference.difference(Image(data))
            kind = "valid" if " valid f " in outcome else "unproved"
            counted[kind] += 1
            print(f"{name}, {kind}: {compilers.told(said) if said else f'the same on {len(reference.kept)} samples'}")
            if (said is None) != (kind == "valid"):
                wrong += 1
                print(f"WRONG {name}")
    print(", ".join(f"{n} {kind}" for kind, n in counted.items()) + f"; {wrong} wrong")
    return bool(wrong)


if __name__ == "__main__":
    sys.exit(main())
