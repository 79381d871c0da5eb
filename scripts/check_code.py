#!/usr/bin/env python3
"""Checks the rows of code_rows on what functions reach, and on their graphs, by an own reading of the definitions.

    scripts/check_code.py [--write]

For each row `NAME: code PART..` of crates/code_rows/stdin this finds, from the words alone, the instructions that the
first function reaches, the entries of all that it reaches, its stack, or the first fault; for each row `graphs`, `within`
and `alone` the graphs, or how many nodes they have and which variables; and compares them with the lines of
crates/code_rows/stdout. Nothing of `tv` runs: `reach.py` and `graphs.py` are the definitions. With --write the lines that
differ or lack are put there. The last line counts both.
"""
import pathlib
import sys

from graphs import Graphs, graphs, variables
from reach import Code, first, stack

FOLDER = pathlib.Path(__file__).resolve().parent.parent / "crates/code_rows"


def file_of(parts):
    """The code of a row's file, and the entry of its first function."""
    fixed, sizes, entries, here, may_be_written = {}, {}, [], 0, False
    for part in parts:
        if "+" in part:
            entry, size = (int(text, 16) for text in part.split("@")[-1].split("+"))
            entries.append(entry)
            sizes[entry] = max(size, sizes.get(entry, 0))
        elif ":" in part:
            here, flags = (int(text, 16) for text in part.split(":"))
            may_be_written = bool(flags & 2)
        else:
            if not may_be_written:
                fixed.update(enumerate(int(part, 16).to_bytes(4, "little"), here))
            here += 4
    return Code(fixed, sizes), entries[0]


def fault(faults):
    return "{} at {:x}".format(*first(faults))


def reached(code, entry):
    """The lines of a row `code`."""
    own, (found, faults) = code.function(entry), code.reach(entry)
    listing = fault(own.faults) if own.faults else " ".join(f"{a:x}:{code.word(a):08x}" for a in own.addresses)
    entries = fault(faults) if faults else " ".join(f"{one:x}" for one in sorted(found))
    depth = None if faults else stack(found, entry)
    return [f"code {listing}", f"reach {entries}", f"stack {fault(faults) if faults else 'cycle' if depth is None else depth}"]


# ---- graphs


def term(t):
    if t[0] == "word":
        return f"{t[2] % 2**32:x}"
    return t[1] if t[0] == "var" else f"({t[0].removeprefix('Word')} {' '.join(map(term, t[1:]))})"


def bindings(pairs):
    return "".join(f" {name} = {term(t)};" for name, t in pairs)


def node(kind, *parts):
    if kind == "basic":
        return f"{bindings(parts[0])} {parts[1]}"
    if kind == "cond":
        return f" {term(parts[0])}? {parts[1]} : {parts[2]}"
    callee, inputs, outputs, landing = parts
    return f"{bindings(inputs)} graph {callee};{bindings(outputs)} {landing}"


def graph_lines(code, entry):
    """The lines of a row `graphs`."""
    faults = code.reach(entry)[1]
    if faults:
        return [fault(faults)]
    made, out = graphs(code, entry)[1], []
    for graph in made:
        at = {number: address for address, number in graph.firsts.items()}
        out += [f"{number}{f' at {at[number]:x}' if number in at else ''}:{node(*parts)}" for number, parts in enumerate(graph.nodes)]
    return out + [f"valid true nodes {len(made[0].nodes)}"]


def extent(code, entry, maximum, alone):
    """The lines of a row `within` or `alone`."""
    own, (found, faults) = code.function(entry), code.reach(entry)
    if own.faults if alone else faults:
        return [fault(own.faults if alone else faults)]
    unlisted = [address for address in own.addresses if code.callee(entry, address) not in (None, entry)]
    if alone and unlisted:
        return [f"unlisted {code.callee(entry, unlisted[0]):x} at {unlisted[0]:x}"]
    nodes = Graphs(code, entry, {one: place for place, one in enumerate(sorted(found))}).graph().nodes
    return [f"nodes {len(nodes)}", " ".join(["variables"] + variables(nodes))] if len(nodes) <= maximum else [f"large {len(nodes)}"]


def expected(kind, parts):
    maximum = int(parts.pop(0)) if kind in ("within", "alone") else 0
    code, entry = file_of(parts)
    return reached(code, entry) if kind == "code" else graph_lines(code, entry) if kind == "graphs" else extent(code, entry, maximum, kind == "alone")


def main():
    rows = [row.partition(": ") for row in (FOLDER / "stdin").read_text().splitlines() if row and row[0] != "#"]
    old, out, count, differ = (FOLDER / "stdout").read_text().splitlines(), [], 0, 0
    for name, _, row in rows:
        there = []
        while old and old[0].startswith(f"{name}:"):
            there.append(old.pop(0))
        kind, *parts = row.split()
        if kind in ("code", "graphs", "within", "alone"):
            count, lines = count + 1, [f"{name}: {line}" for line in expected(kind, parts)]
            if [line.rstrip() for line in there] != lines:
                differ += 1
                print("\n".join([f"- {line}" for line in there] + [f"+ {line}" for line in lines]))
                there = lines
        out += there
    if "--write" in sys.argv:
        (FOLDER / "stdout").write_text("\n".join(out) + "\n")
    print(f"{count} rows, {differ} differ, {len(old)} lines of no row")
    return (differ > 0 or bool(old)) and "--write" not in sys.argv


if __name__ == "__main__":
    sys.exit(main())
