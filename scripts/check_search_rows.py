#!/usr/bin/env python3
"""Works out the answers of the rows of `crates/search_rows/stdin` by a second writing, and says which rows have another.

    scripts/check_search_rows.py           each row of the file
    scripts/check_search_rows.py FILE      each row of this file; one whose answer is `?` is printed with its answer

Loops are found by a recursive walk. The greatest set of lines is found among all sets; which lines the judge has left when it
gives up is found by its rounds. It is run outside the gate and needs nothing else.
"""

import itertools
import sys
from pathlib import Path


def shown(numbers):
    return " ".join(str(n) for n in numbers) or "none"


# ---- loops


def following(word, number):
    """The nodes that may follow a node."""
    if word == "call":
        return [number + 1]
    return [int(place) for place in word.split("/") if place.isdigit()]


def loops(text):
    nodes, _, entry = text.partition(" from ")
    words = nodes.split(" ")
    way, left, heads = set(), set(), set()

    def walk(node):
        if node in way:
            heads.add(node)
        elif node not in left:
            way.add(node)
            if node < len(words):
                for after in following(words[node], node):
                    walk(after)
            way.remove(node)
            left.add(node)

    walk(int(entry or 0))
    return shown(sorted(heads))


# ---- lines


def lines_of(text):
    return {int(word) for word in text.split(",") if word}


def refuted(rows, lines):
    """The lines that some row refutes where these hold."""
    return {line for before, after in rows if not before & lines for line in after & lines}


def greatest(rows, count):
    for size in range(count, -1, -1):
        kept = [set(some) for some in itertools.combinations(range(count), size) if not refuted(rows, set(some))]
        if kept:
            (only,) = kept
            return only
    raise AssertionError("no set is kept")


def fit(text):
    words, _, patience = text.partition(" after ")
    count, *rows = words.split(" ")
    count = int(count)
    rows = [tuple(map(lines_of, row.split(">"))) for row in rows]
    best = greatest(rows, count)
    lines = set(range(count))
    for _ in range(int(patience or count + 1)):
        out = next((now for row in rows if (now := refuted([row], lines))), set())
        if not out:
            assert lines == best, (text, lines, best)
            return f"{shown(sorted(best))} / {shown(sorted(best))}"
        lines -= out
    return f"limit / {shown(sorted(lines))}"


ANSWERS = {"loops": loops, "fit": fit}


def main():
    path = Path(sys.argv[1]) if len(sys.argv) > 1 else Path(__file__).resolve().parent.parent / "crates/search_rows/stdin"
    wrong = 0
    for row in path.read_text().splitlines():
        question, equals, answer = row.partition(" = ")
        if not equals:
            continue
        name, _, text = question.partition(" ")
        found = ANSWERS[name](text)
        if answer == "?":
            print(f"{question} = {found}")
        elif found != answer:
            wrong += 1
            print(f"{row}: {found}")
    sys.exit(bool(wrong))


if __name__ == "__main__":
    main()
