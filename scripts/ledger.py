#!/usr/bin/env python3
"""The gate's ledger: a row for each crate, with its size, what it costs the gate, and its budget.

    scripts/ledger.py [SECONDS]                              prints it
    scripts/ledger.py --into docs/MEASUREMENTS.md [SECONDS]  replaces the one in that page

Functions, lines of code, definitions and proofs, and edits are counted in crates/ and attacks/, in the order of
crates.txt. The processor seconds are read from the file SECONDS, or else from docs/seconds.txt if it is there:
each line 'CRATE PROOF [EDITS]' has the seconds of the proof of a crate and of trying its edits in the gate; '-' is
for none. The last column has by how much its proof is above its budget, which is of

    a crate that runs             12 s, 0.5 s a function, 1 s an exit (`attempt!`, `?`, `return`), 2 s more a function in
                                  a cycle of recursion, 1.5 s for each 1,000 lines of code below it
    definitions and laws          5 s, and 1.2 s for each 1,000 lines of proof
    a program                     50 s, 1.2 s a function, 1.8 s for each 1,000 lines of code below it

./tv reads the number in the sentence under the table. A crate that the file doesn't name is reported on standard error,
and so is a line of one that is gone.
"""

import re
import sys
from pathlib import Path

ROOT = Path(__file__).resolve().parent.parent
QUIET = ROOT / "docs" / "seconds.txt"
BEGIN, END = "<!-- made by scripts/ledger.py -->", "<!-- end of the ledger -->"
FUNCTION = re.compile(r"^\s*(pub(\([a-z]+\))? )?(const )?fn (\w+)", re.M)
EXIT = re.compile(r"\battempt(?:_or_drop)?!|\?[;,)\s.]|\breturn\b")


def texts(folder, ending):
    """The texts of the files below a folder."""
    return [file.read_text(encoding="utf-8") for file in sorted(folder.rglob(f"*{ending}"))]


def lines(folder, ending):
    """How many lines the files below a folder have."""
    return sum(text.count("\n") for text in texts(folder, ending))


def listed():
    """The crates of crates.txt, in its order, each with the crates that its line lists."""
    text = (ROOT / "crates.txt").read_text()
    lines = [line.split(":") for line in text.splitlines() if ":" in line and not line.startswith("#")]
    return {name.split()[0]: [it for it in words.split() if (ROOT / "crates" / it).is_dir()] for name, words in lines}


def crates():
    """The crates of crates.txt, in its order."""
    return list(listed())


def code(crate):
    """The lines of its code without comments."""
    text = "\n".join(texts(ROOT / "crates" / crate / "src", ".rt"))
    return "\n".join(line for line in text.splitlines() if not line.lstrip().startswith("//"))


def recursive(text):
    """How many functions are in a cycle of recursion: those that are marked as such, and those that name themselves."""
    starts = [it.start() for it in FUNCTION.finditer(text)] + [len(text)]
    bodies = [(it.group(4), text[it.end() : end]) for it, end in zip(FUNCTION.finditer(text), starts[1:])]
    return max(text.count("#[cycle("), sum(bool(re.search(rf"\b{name}\(", body)) for name, body in bodies))


def budget(crate, cells, lists):
    """The seconds that the proof of a crate may take."""
    below, left = set(), list(lists[crate])
    while left:
        name = left.pop()
        if name not in below:
            below.add(name)
            left += lists[name]
    thousands = sum(lines(ROOT / "crates" / it / "src", ".rt") for it in below) / 1000
    functions, _, _, proofs = cells[:4]
    if (ROOT / "crates" / crate / "src" / "main.rt").is_file():
        return round(50 + 1.2 * functions + 1.8 * thousands)
    if crate.endswith(("_spec", "_laws")) or not functions:
        return round(5 + 1.2 * proofs / 1000)
    text = code(crate)
    return round(12 + 0.5 * functions + len(EXIT.findall(text)) + 2 * recursive(text) + 1.5 * thousands)


def sizes(crate):
    """A crate's functions, its lines of code, definitions and proofs, and its edits in the gate and in attacks/."""
    folder = ROOT / "crates" / crate
    edits = [folder / "must-fail", ROOT / "attacks" / crate]
    return [
        sum(len(FUNCTION.findall(text)) for text in texts(folder / "src", ".rt")),
        lines(folder / "src", ".rt"),
        lines(folder / "specs", ".antt"),
        lines(folder / "proofs", ".antt"),
        *[len(list(it.glob("*.edit"))) for it in edits],
    ]


def seconds(file):
    """The seconds of the proof and of the edits of each crate."""
    found = {}
    for line in file.read_text().splitlines():
        words = line.split()
        if words and not line.startswith("#"):
            numbers = [None if it == "-" else float(it) for it in words[1:3]]
            found[words[0]] = (numbers + [None, None])[:2]
    return found


def rounded(number):
    return None if number is None else round(number)


def measured(most, proof, edits):
    """The cells of a crate's seconds: proof, edits, budget, and how far the proof is above it."""
    above = round(proof - most) if proof is not None and proof > most else None
    return [rounded(proof), rounded(edits), most, above or None]


def row(name, cells):
    return "| " + " | ".join([name, *["" if it is None else str(it) for it in cells]]) + " |"


def total(columns):
    """The sum of each column, None where it has no number."""
    return [sum(it for it in column if it is not None) if any(it is not None for it in column) else None for column in columns]


def ledger(file):
    """The table and the sentences under it."""
    names, found = crates(), seconds(file) if file else {}
    if file:
        for what, odd in (("has no line for", set(names) - set(found)), ("has a line for the unknown", set(found) - set(names))):
            for crate in sorted(odd):
                print(f"ledger: {file} {what} {crate}", file=sys.stderr)
    head = ["Crate", "Functions", "Code", "Definitions", "Proofs", "Edits in the gate", "Edits in attacks/"]
    rows = [sizes(crate) for crate in names]
    if file:
        head += ["Proof s", "Edits s", "Budget s", "Above it s"]
        lists = listed()
        rows = [it + measured(budget(crate, it, lists), *found.get(crate, [None, None])) for crate, it in zip(names, rows)]
    sums = total(zip(*rows))
    text = [row(head[0], head[1:]), "|" + "---|" * len(head)]
    text += [row(f"`{crate}`", cells) for crate, cells in zip(names, rows)]
    text += [row("together", sums)]
    if file:
        proof, edits = (it or 0 for it in sums[6:8])
        above = [f"`{crate}` {cells[9]}" for crate, cells in zip(names, rows) if cells[9]]
        text += ["", f"From nothing the gate takes {proof + edits} processor seconds: proof {proof}, edits {edits}."]
        text += ["", f"Above the budget: {', '.join(above) or 'none'}."]
    return "\n".join(text)


def main():
    words = sys.argv[1:]
    into = Path(words[1]) if words[:1] == ["--into"] and len(words) > 1 else None
    rest = words[2:] if into else words
    made = ledger(Path(rest[0]) if rest else QUIET if QUIET.is_file() else None)
    if not into:
        print(made)
        return
    before, _, after = into.read_text().partition(BEGIN)
    _, found, after = after.partition(END)
    if not found:
        sys.exit(f"ledger: {into} has no lines '{BEGIN}' and '{END}'")
    into.write_text(f"{before}{BEGIN}\n\n{made}\n\n{END}{after}")


if __name__ == "__main__":
    main()
