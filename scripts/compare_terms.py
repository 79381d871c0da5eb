#!/usr/bin/env python3
"""Compares normal forms and clauses with a second writing of their rules, and these with values and a SAT solver.

    scripts/compare_terms.py rules      the second writing alone: values before and after, clauses by minisat
    scripts/compare_terms.py normal     the normal forms that `term_norm` makes, with those worked by hand in
                                        `forms.txt` and with those of the second writing

It is run outside the gate; `rules` needs minisat (Debian: minisat) on the path, and `normal` needs `rt`.
"""

import random
import subprocess
import sys
import tempfile
from pathlib import Path

from probe import ask
from probe_terms import READER, backwards
from terms import SAME_WIDTH, clauses, normal, sort, text, truth, value

FIXED = {address: address * 37 % 256 for address in range(16, 24)} | {100: 7, 101: 8, 102: 2, 200: 9}
WIDTHS = (8, 16, 32, 64)


class Maker:
    """Makes random terms with few variables and telling constants, so that the rules meet."""

    def __init__(self, seed, widths=WIDTHS):
        self.random = random.Random(seed)
        self.widths = widths

    def word(self, width):
        return ("word", width, self.random.choice([0, 0, 1, 1, 2, 7, 8, 16, 17, 31, 32, 2**width - 1, 2 ** (width - 1), self.random.getrandbits(width)]) % 2**width)

    def leaf(self, wanted):
        if wanted == "memory":
            return ("var", self.random.choice(["m0", "m1", "z0"]), "memory")
        if wanted == "bool":
            return self.random.choice([("true",), ("false",), ("var", "p", "bool"), ("var", "q", "bool")])
        return self.random.choice([self.word(wanted), ("var", f"a{wanted}", wanted), ("var", f"b{wanted}", wanted)])

    def term(self, wanted, depth):
        pick, of = self.random.choice, lambda s: self.term(s, depth - 1)
        if depth == 0 or self.random.random() < 0.12:
            return self.leaf(wanted)
        if wanted == "memory":
            op = pick(["store8", "over", "ite", "leaf"])
            if op == "store8":
                return (op, of("memory"), of(32), of(8))
            if op == "over":
                return (op, of("memory"), of("memory"), of(32), of(32))
            return ("ite", of("bool"), of("memory"), of("memory")) if op == "ite" else self.leaf("memory")
        if wanted == "bool":
            op = pick(["not", "and", "or", "eq", "ult", "ite", "eqbool"])
            if op in ("eq", "ult"):
                width = pick(self.widths)
                return (op, of(width), of(width))
            return ("eq", of("bool"), of("bool")) if op == "eqbool" else (op,) + tuple(of("bool") for _ in range({"not": 1, "ite": 3}.get(op, 2)))
        op = pick(SAME_WIDTH + ("ite", "wider", "low", "byte", "join", "load8", "pair"))
        if op == "bnot":
            return (op, of(wanted))
        if op in SAME_WIDTH:
            return (op, of(wanted), of(wanted))
        if op == "ite":
            return (op, of("bool"), of(wanted), of(wanted))
        if op == "wider":
            return (pick(["zext", "sext"]), wanted, of(pick([w for w in self.widths if w <= wanted])))
        if op == "low":
            inner = of(pick([w for w in self.widths if w >= wanted]))
            wide = [w for w in self.widths if w >= sort(inner)]
            return ("low", wanted, pick([inner, (pick(["zext", "sext"]), pick(wide), inner)]))
        if op == "byte" and wanted == 8:
            width = pick(self.widths)
            return (op, self.random.randrange(width // 8), of(width))
        if op == "join" and wanted > 8:
            inner = of(wanted)
            parts = [pick([("byte", i, inner), ("byte", i, inner), ("byte", i, inner), of(8)]) for i in range(wanted // 8)]
            return (op, *parts)
        if op == "load8" and wanted == 8:
            return (op, of("memory"), of(32))
        if op == "pair":
            inner = of(wanted)
            return (pick(["add", "sub", "bxor", "band", "bor"]), inner, pick([inner, ("bnot", inner), self.word(wanted)]))
        return self.leaf(wanted)

    def assignment(self):
        made = {"p": self.random.random() < 0.5, "q": self.random.random() < 0.5}
        for width in WIDTHS:
            for name in "ab":
                made[f"{name}{width}"] = self.word(width)[2]
        for name in ("m0", "m1", "z0"):
            salt = self.random.getrandbits(16)
            made[name] = lambda d, salt=salt, own=name[0] == "m": FIXED[d] if own and d in FIXED else (d * 2654435761 + salt >> 7) % 256
        return made


def solved(count, rows):
    """Whether some values meet the clauses, by minisat."""
    with tempfile.TemporaryDirectory() as folder:
        path = Path(folder, "goal.cnf")
        path.write_text(f"p cnf {count} {len(rows)}\n" + "".join(" ".join(map(str, row)) + " 0\n" for row in rows))
        ran = subprocess.run(["minisat", "-verb=0", str(path), str(path) + ".out"], capture_output=True)
        return {10: True, 20: False}[ran.returncode]


def compare_rules(terms=20000, operators=600):
    maker, wrong, kinds = Maker(5), 0, {}
    for _ in range(terms):
        wanted = maker.random.choice(["bool", 8, 16, 32, 64])
        term = maker.term(wanted, maker.random.randrange(1, 5))
        made = normal(term, FIXED)
        kinds[made == term] = kinds.get(made == term, 0) + 1
        again = normal(made, FIXED)
        assignment = maker.assignment()
        if sort(made) != wanted or again != made or value(made, assignment) != value(term, assignment):
            wrong += 1
            print("WRONG", text(term), text(made), text(again))
    print(f"{terms} terms, {kinds.get(True, 0)} in normal form; another value, sort or second normal form: {wrong}")
    # each operator on 8 bits, with values put in: the goal that it has this value is falsified exactly if it hasn't
    maker, wrong = Maker(6, (8, 16)), 0
    for _ in range(operators):
        goal = normal(maker.term("bool", 3), FIXED)
        assignment = maker.assignment()
        rows = [("eq", ("var", f"{n}{w}", w), ("word", w, assignment[f"{n}{w}"])) for n in "ab" for w in (8, 16, 32)]
        rows += [("eq", ("var", n, "bool"), truth(assignment[n])) for n in "pq"]
        loads = sorted({text(t): t for t in subterms(goal) if t[0] == "load8"}.items())
        rows += [("eq", t, ("word", 8, value(t, assignment))) for _, t in loads]
        whole = goal
        for row in rows:
            whole = ("or", ("not", row), whole)
        if solved(*clauses(whole)) == value(goal, assignment):
            wrong += 1
            print("WRONG", text(goal))
    print(f"{operators} goals with values put in; falsified otherwise than by their values: {wrong}")
    return wrong


NORMAL_CRATES = ["term_core_spec", "term_bank", "term_norm"]

HEAD = r"""//! Reads lines of two texts of terms, and says whether the second is the normal form of the first.
#![tactic(auto)]

use std::alloc::AllocError;
use std::io::{BufRead, BufReader};
use term_norm::{Run, normal};
"""

MAIN = r"""
fn main(rt: HostRuntime) -> anyhow::Result<()> {
    let mut bank = Bank::new(rt.alloc());
    let mut read = Vec::new(rt.alloc());
    let runs = [
        RUNS
    ];
    for line in BufReader::new(rt.alloc(), rt.reader())?.lines(rt.alloc()) {
        let line = line?;
        let (first, second) = line.as_str().split_once('|').unwrap_or(("", ""));
        let given = term(&mut bank, &mut read, first)?;
        let form = term(&mut bank, &mut read, second)?;
        let made = normal(rt.alloc(), &mut bank, given, &runs)?;
        println!(rt; "={}", made == form)?;
    }
    Ok(())
}
"""

# the fixed bytes; the last run is after the first
RUNS = [(16, [FIXED[address] for address in range(16, 24)]), (100, [7, 8]), (200, [9]), (101, [1, 2])]



def runs_text(alloc):
    """The runs as the program writes them."""
    return "".join(f"Run {{ start: {start}, bytes: {bytes}.as_slice().to_vec({alloc})? }}, " for start, bytes in RUNS)


# what the names of `forms.txt` are in the program
NAMES = {"x": "a:32", "y": "b:32", "w": "a:64", "a": "a:8", "b": "b:8", "m": "m0", "n": "z0", "z": "z1"}


def by_hand(row):
    """The words of a term of `forms.txt` from the last on; a word without its width has 32 bits."""
    words = reversed(row.replace("(", "").replace(")", "").split())
    return " ".join(f"32:{word}" if word.isdigit() else NAMES.get(word, word) for word in words)


def chain(maker, depth):
    """A load from a memory of many stores, choices and overlays at near addresses."""
    address = lambda: maker.random.choice([maker.word(32), ("var", "a32", 32), ("add", ("var", "a32", 32), maker.word(32))])
    memory = maker.leaf("memory")
    for _ in range(depth):
        kind = maker.random.random()
        if kind < 0.8:
            memory = ("store8", memory, address(), maker.leaf(8))
        elif kind < 0.9:
            memory = ("over", memory, maker.leaf("memory"), address(), address())
        else:
            memory = ("ite", maker.leaf("bool"), memory, maker.leaf("memory"))
    return ("load8", memory, address())


def compare_normal(terms=20000, chains=2000):
    maker = Maker(7)
    made = [maker.term(maker.random.choice(["bool", "memory", 8, 16, 32, 64]), maker.random.randrange(1, 6)) for _ in range(terms)]
    made += [chain(maker, maker.random.randrange(1, 30)) for _ in range(chains)]
    forms = [normal(term, FIXED) for term in made]
    worked = [row.split(" = ") for row in Path(__file__).with_name("forms.txt").read_text().splitlines()]
    texts = [" ".join(backwards(term)) + "|" + " ".join(backwards(form)) for term, form in zip(made, forms)]
    lines = [by_hand(term) + "|" + by_hand(form) for term, form in worked] + texts
    program = HEAD + READER + MAIN.replace("RUNS", runs_text("rt.alloc()"))
    answers = [line for line in ask(program, NORMAL_CRATES, "\n".join(lines) + "\n") if line.startswith("=")]
    if len(answers) != len(lines):
        sys.exit(f"{len(lines)} terms and {len(answers)} answers")
    wrong = len(answers) - answers.count("=true")
    asked = [tuple(row) for row in worked] + [(text(term), text(form)) for term, form in zip(made, forms)]
    for (term, form), answer in zip(asked, answers):
        if answer != "=true":
            print("WRONG", term, "is not", form)
    values = 0
    for term, form in zip(made, forms):
        assignment = maker.assignment()
        if sort(term) != "memory" and value(term, assignment) != value(form, assignment):
            values += 1
            print("WRONG", text(term), "has another value than", text(form))
    kinds = sum(term == form for term, form in zip(made, forms))
    print(f"{len(worked)} terms worked by hand; {len(made)} terms, {kinds} in normal form; another normal form: {wrong}; another value: {values}")
    return wrong + values


def subterms(t):
    yield t
    for part in t[1:]:
        if isinstance(part, tuple):
            yield from subterms(part)


if __name__ == "__main__":
    jobs = {"rules": compare_rules, "normal": compare_normal}
    if len(sys.argv) != 2 or sys.argv[1] not in jobs:
        sys.exit(__doc__)
    sys.exit(bool(jobs[sys.argv[1]]()))
