#!/usr/bin/env python3
"""Compares the clauses of random goals, as `bit_blast` makes them, with a second writing, and SAT solvers with values.

    scripts/compare_clauses.py goals        random goals and laws of words, with what is read back of their models
    scripts/compare_clauses.py operators    each operator on 32 bits with operands put in

It is run outside the gate and needs `rt`, minisat and cadical (Debian: minisat, cadical) on the path. The clauses must
be those of `terms.py`, in their order, and these are given to the solvers. Where no values meet them the goal must be
true under each assignment of few bits, or under random ones of more; else it must be false under the assignment that
`read_back` gives for a model.
"""

import itertools
import random
import re
import subprocess
import sys
import tempfile
from pathlib import Path

from compare_terms import FIXED, WIDTHS, Maker, runs_text, subterms
from probe import ask_each
from probe_terms import READER, backwards
from terms import Clauses, clauses, normal, sort, text, value

CRATES = ["term_core_spec", "term_bank", "term_norm", "clause_check_spec", "cnf_core", "bit_blast"]

HEAD = r"""//! Reads lines of a question and a goal: which of the goal's clauses are written, or what names are worth as values of
//! the clauses' variables are read back. A goal after a tilde is brought into normal form first.
#![tactic(auto)]

use bit_blast::{Blasted, blast, read_back};
use cnf_core::Cnf;
use std::alloc::{AllocError, Global};
use std::io::{BufRead, BufReader};
use term_norm::{Run, normal};
"""

MAIN = r"""
fn add_clauses(text: &mut String, cnf: &Cnf, places: &str) -> anyhow::Result<()> {
    let (from, to) = places.split_once(' ').unwrap_or((places, ""));
    write!(text, "clauses {}", cnf.variables())?;
    for place in number(from) as usize..usize::min(number(to) as usize, cnf.len()) {
        if let Some(clause) = cnf.clause(place) {
            for literal in clause {
                let sign = if literal.is_negated() { "-" } else { "" };
                write!(text, " {sign}{}", literal.variable())?;
            }
            text.push_str(" 0")?;
        }
    }
    Ok(())
}

fn bits(alloc: Global, text: &str) -> Result<Vec<bool>, AllocError> {
    let mut values = Vec::new(alloc);
    for digit in text.bytes() {
        values.push(digit == b'1')?;
    }
    Ok(values)
}

fn add_values(alloc: Global, text: &mut String, blasted: &Blasted, question: &str) -> anyhow::Result<()> {
    let (values, names) = question.split_once(' ').unwrap_or((question, ""));
    let values = bits(alloc, values)?;
    let assignment = read_back(alloc, blasted, values.as_slice())?;
    text.push_str("values")?;
    for word in names.split(' ') {
        let (name, rest) = word.split_once(':').unwrap_or((word, ""));
        let value = assignment.atom(alloc, atom(name, rest))?;
        write!(text, ";{value:?}")?;
    }
    Ok(())
}

fn blasted(alloc: Global, goal: &str) -> anyhow::Result<Blasted> {
    let runs = [
        RUNS
    ];
    let (is_formed, words) = match goal.strip_prefix('~') {
        Some(words) => (true, words),
        None => (false, goal),
    };
    let mut bank = Bank::new(alloc);
    let mut read = Vec::new(alloc);
    let given = term(&mut bank, &mut read, words)?;
    let made = if is_formed { normal(alloc, &mut bank, given, &runs)? } else { given };
    let Ok(blasted) = blast(alloc, &bank, made, usize::MAX) else {
        anyhow::bail!("no clauses");
    };
    Ok(blasted)
}

fn answer(alloc: Global, line: &str) -> anyhow::Result<String> {
    let (question, goal) = line.split_once('|').unwrap_or((line, ""));
    let blasted = blasted(alloc, goal)?;
    let mut text = String::new(alloc);
    match question.split_once(' ') {
        Some(("clauses", places)) => add_clauses(&mut text, &blasted.cnf, places)?,
        Some((_, values)) => add_values(alloc, &mut text, &blasted, values)?,
        None => {}
    }
    Ok(text)
}

fn main(rt: HostRuntime) -> anyhow::Result<()> {
    for line in BufReader::new(rt.alloc(), rt.reader())?.lines(rt.alloc()) {
        let line = line?;
        let text = answer(rt.alloc(), line.as_str())?;
        println!(rt; "{}", text.as_str())?;
    }
    Ok(())
}
"""

NAMES = ["p", "q"] + [f"{name}:{width}" for name in "ab" for width in WIDTHS] + ["m0", "m1", "z0"]

# a run may write 1 MiB, and this many clauses are less
MOST = 900_000
PART = 30_000


def given(goal, is_formed):
    return "~" * is_formed + " ".join(backwards(goal))


def clause_questions(goal, is_formed, count, rows):
    """Lines that ask the program for the clauses of a goal, each with what it must write."""
    for first in range(0, len(rows), PART):
        last = first + PART if first + PART < len(rows) else 10**9
        literals = "".join(f" {literal}" for row in rows[first : first + PART] for literal in row + [0])
        yield f"clauses {first} {last}|{given(goal, is_formed)}", f"clauses {count}{literals}"


def answers(lines, lengths):
    """What the program writes of each line; that is about so long."""
    texts, size = [[]], 0
    for line, length in zip(lines, lengths):
        if size + length > MOST:
            texts.append([])
            size = 0
        texts[-1].append(line)
        size += length
    program = HEAD + READER + MAIN.replace("RUNS", runs_text("alloc"))
    found = [line for line in ask_each(program, CRATES, ["\n".join(text) + "\n" for text in texts]) if line.startswith(("clauses", "values"))]
    if len(found) != len(lines):
        sys.exit(f"{len(lines)} lines and {len(found)} answers")
    return found


# ---- solvers


def minisat(path):
    ran = subprocess.run(["minisat", "-verb=0", path, path + ".out"], capture_output=True)
    model = Path(path + ".out").read_text().split()[1:] if ran.returncode == 10 else []
    return ran.returncode, model


def cadical(path):
    ran = subprocess.run(["cadical", "-q", path], capture_output=True, text=True)
    return ran.returncode, [word for line in ran.stdout.splitlines() if line.startswith("v ") for word in line.split()[1:]]


def written(rows):
    return "".join(" ".join(map(str, row)) + " 0\n" for row in rows)


def solved(solver, count, rows):
    """Values that meet the clauses, as they are written, that of variable 1 first, or None."""
    with tempfile.TemporaryDirectory() as folder:
        path = Path(folder, "goal.cnf")
        path.write_text(f"p cnf {count} {rows.count(chr(10))}\n{rows}")
        status, words = solver(str(path))
    if status not in (10, 20):
        sys.exit(f"a solver ended with status {status}")
    if status == 20:
        return None
    holding = set(map(int, words))
    return [variable in holding for variable in range(1, count + 1)]


def is_met(rows, values):
    return all(any(values[abs(literal) - 1] == (literal > 0) for literal in row) for row in rows)


# ---- goals


class Small(Maker):
    """Terms whose variables are one word of 8 bits and two truth values."""

    def leaf(self, wanted):
        if wanted == "memory":
            return ("var", "m0", "memory")
        if wanted == "bool":
            return self.random.choice([("var", "p", "bool"), ("var", "q", "bool"), ("true",)])
        byte = ("var", "a8", 8)
        widened = byte if wanted == 8 else (self.random.choice(["zext", "sext"]), wanted, byte)
        return self.random.choice([self.word(wanted), widened, widened])


def laws(x, y, z):
    """What holds of any three words of one width."""
    width = sort(x)
    number = lambda n: ("word", width, n % 2**width)
    less = ("ult", x, number(2 ** (width - 1)))
    yield ("eq", ("add", x, y), ("add", y, x))
    yield ("eq", ("sub", ("add", x, y), y), x)
    yield ("eq", ("sub", number(-1), x), ("bnot", x))
    yield ("eq", ("band", x, y), ("bnot", ("bor", ("bnot", x), ("bnot", y))))
    yield ("eq", ("bxor", x, y), ("sub", ("bor", x, y), ("band", x, y)))
    yield ("eq", ("mul", x, number(6)), ("add", ("shl", x, number(2)), ("shl", x, number(1))))
    yield ("eq", ("shr", ("shl", x, number(3)), number(3)), ("band", x, number(2 ** (width - 3) - 1)))
    yield ("eq", ("sar", x, y), ("ite", less, ("shr", x, y), ("bnot", ("shr", ("bnot", x), y))))
    yield ("eq", ("ult", x, y), ("not", ("or", ("ult", y, x), ("eq", x, y))))
    yield ("or", ("not", ("and", ("ult", x, y), ("ult", y, z))), ("ult", x, z))
    yield ("eq", ("ite", less, x, y), ("ite", ("not", less), y, x))
    if width == 8:
        yield ("eq", ("mul", x, y), ("mul", y, x))
        yield ("eq", ("add", ("mul", ("udiv", x, y), y), ("urem", x, y)), x)
        yield ("or", ("eq", y, number(0)), ("ult", ("urem", x, y), y))
    if width < 64:
        wide = ("zext", 2 * width, x)
        up = ("word", 2 * width, width)
        yield ("eq", ("low", width, wide), x)
        yield ("eq", ("sext", 2 * width, x), ("sar", ("shl", wide, up), up))
    if width > 8:
        yield ("eq", ("join", *[("byte", i, x) for i in range(width // 8)]), x)
    if width == 32:
        load = lambda d: ("load8", ("var", "m0", "memory"), d)
        yield ("or", ("not", ("eq", x, y)), ("eq", load(x), load(y)))
        yield ("or", ("not", ("and", ("eq", x, y), ("eq", y, z))), ("eq", ("add", load(x), load(y)), ("add", load(z), load(x))))


def is_light(t):
    """Whether its products and divisions are few and narrow."""
    weights = {"mul": 1, "udiv": 4, "urem": 4}
    return sum(weights.get(part[0], 0) * sort(part) ** 2 for part in set(subterms(t)) if part[0] in weights) <= 300


def one_of(maker, sorts, depths):
    while True:
        made = maker.term(maker.random.choice(sorts), maker.random.choice(depths))
        if is_light(made):
            return made


def goals(small, wide, lawful):
    """Goals, whether they are brought into normal form first, and whether all their assignments are few."""
    maker = Small(11)
    for _ in range(small):
        t = one_of(maker, ["bool"], [1, 2, 3, 4])
        yield t, True, not any(part[0] == "load8" for part in subterms(normal(t, FIXED)))
        t = one_of(maker, [8, 16, 32], [1, 2, 3])
        if not any(part[0] == "load8" for part in subterms(t)):
            yield ("eq", t, normal(t, FIXED)), False, True
    maker = Maker(12)
    for _ in range(wide):
        yield one_of(maker, ["bool"], [2, 3, 4, 5]), True, False
    for round in range(lawful):
        width = maker.random.choice(WIDTHS)
        words = [normal(one_of(maker, [width], [0, 1, 2]), FIXED) for _ in range(3)]
        all_laws = list(laws(*words))
        yield all_laws[round % len(all_laws)], False, False


def few_assignments():
    for p, q, a in itertools.product((False, True), (False, True), range(256)):
        yield {"p": p, "q": q, "a8": a}


def back(line):
    """The assignment that the program read back."""
    made = {}
    for name, word in zip(NAMES, line.split(";")[1:]):
        if name[0] in "mz":
            held = {int(d): int(byte) for d, byte in re.findall(r"(\d+): (\d+)", word)}
            made[name] = lambda d, held=held: held.get(d, 0)
        else:
            made[name.replace(":", "")] = "true" in word if name in "pq" else int(re.findall(r"\d+", word)[-1])
    return made


def holding_fixed(assignment):
    """The assignment with the fixed bytes laid over the source's memories."""
    over = lambda memory: lambda d: FIXED[d] if d in FIXED else memory(d)
    return {name: over(found) if name[0] == "m" else found for name, found in assignment.items()}


class Counted:
    """How often something came out, and what came out wrong."""

    def __init__(self):
        self.counts, self.wrong = {}, 0

    def add(self, name, right=True, goal=None):
        self.counts[name] = self.counts.get(name, 0) + 1
        if not right:
            self.wrong += 1
            print("WRONG", name, text(goal), flush=True)

    def say(self):
        print("; ".join(f"{name}: {count}" for name, count in self.counts.items()) + f"; wrong: {self.wrong}")


def check_closed(counted, maker, goal, form, is_few):
    """A goal that no values falsify."""
    if is_few:
        right = all(value(form, assignment) for assignment in few_assignments())
        counted.add("true under all assignments", right, goal)
        return
    tried = [maker.assignment() for _ in range(200)]
    right = all(value(form, assignment) and value(goal, assignment) for assignment in tried)
    counted.add("true under 200 assignments", right, goal)


def check_open(counted, goal, form, line):
    """A goal that a model falsifies."""
    assignment = back(line)
    counted.add("false as read back", value(form, assignment) is False, goal)
    fixed = holding_fixed(assignment)
    if value(form, fixed) is False:
        counted.add("of these false before normal form, over the fixed bytes", value(goal, fixed) is False, goal)


def compare_goals(small=1500, wide=800, lawful=800):
    counted, maker = Counted(), Maker(13)
    asked, models = [], []
    for goal, is_formed, is_few in goals(small, wide, lawful):
        form = normal(goal, FIXED) if is_formed else goal
        count, rows = clauses(form)
        asked += [(goal, line, wanted) for line, wanted in clause_questions(goal, is_formed, count, rows)]
        found = [solved(solver, count, written(rows)) for solver in (minisat, cadical)]
        counted.add("goals", (found[0] is None) == (found[1] is None), goal)
        if found[0] is None:
            check_closed(counted, maker, goal, form, is_few)
        for model in filter(None, found):
            counted.add("models", is_met(rows, model), goal)
            values = "".join("01"[bit] for bit in model)
            models.append((goal, form, f"values {values} {' '.join(NAMES)}|{given(goal, is_formed)}"))
    lines = [line for _, line, _ in asked] + [line for _, _, line in models]
    found = answers(lines, [len(wanted) for _, _, wanted in asked] + [1000] * len(models))
    for (goal, _, wanted), line in zip(asked, found):
        counted.add("runs of clauses", line == wanted, goal)
    for (goal, form, _), line in zip(models, found[len(asked) :]):
        check_open(counted, goal, form, line)
    counted.say()
    return counted.wrong


# ---- operators

EDGES = (0, 1, 31, 32, 2**31 - 1, 2**31, 2**32 - 1)
A, B = ("var", "a32", 32), ("var", "b32", 32)
P, Q = ("var", "p", "bool"), ("var", "q", "bool")


def operators():
    """Each operator on words of 32 bits, or on truth values, over variables."""
    for op in ("add", "sub", "mul", "band", "bor", "bxor", "shl", "shr", "sar", "udiv", "urem", "eq", "ult"):
        yield (op, A, B)
    yield from [("bnot", A), ("ite", P, A, B), ("not", P), ("and", P, Q), ("or", P, Q), ("eq", P, Q)]
    yield from [("low", width, A) for width in (8, 16, 32)] + [("byte", i, A) for i in range(4)]
    yield from [(op, 32, ("low", width, A)) for op in ("zext", "sext") for width in (8, 16, 32)]
    yield from [(op, 64, A) for op in ("zext", "sext")]
    byte = lambda i, x: ("byte", i, x)
    yield ("join", byte(0, A), byte(3, B))
    yield ("join", byte(3, A), byte(0, B), byte(1, A), byte(2, B))
    yield ("join", *[byte(i, x) for i in (2, 0, 3, 1) for x in (B, A)])


def compare_operators(pairs=30):
    maker, counted, asked = random.Random(21), Counted(), []
    for t in operators():
        out = ("var", "r", "bool") if sort(t) == "bool" else ("var", f"c{sort(t)}", sort(t))
        equal = ("eq", t, out)
        # the first is false where the answer is right, the second where it is wrong
        both = [(goal, *clauses(goal)) for goal in (("not", equal), equal)]
        asked += [(goal, line, wanted) for goal, count, rows in both for line, wanted in clause_questions(goal, False, count, rows)]
        texts = [(count, written(rows)) for _, count, rows in both]
        made = Clauses()
        made.of(equal)
        operands = list(itertools.product(EDGES, EDGES))
        operands += [(maker.getrandbits(32), maker.getrandbits(32) >> maker.randrange(32)) for _ in range(pairs)]
        for a, b in operands if A in made.bits and B in made.bits else dict(operands).items():
            numbers = {A: a, B: b, P: a % 2, Q: b % 2}
            numbers[out] = int(value(t, {"a32": a, "b32": b, "p": a % 2 == 1, "q": b % 2 == 1}))
            pins = [[bit if number >> i & 1 else -bit] for v, number in numbers.items() for i, bit in enumerate(made.bits.get(v, []))]
            for (count, rows), is_right in zip(texts, (True, False)):
                counted.add(t[0], (solved(cadical, count, rows + written(pins)) is not None) == is_right, t)
    found = answers([line for _, line, _ in asked], [len(wanted) for _, _, wanted in asked])
    for (goal, _, wanted), line in zip(asked, found):
        counted.add("runs of clauses", line == wanted, goal)
    counted.say()
    return counted.wrong


if __name__ == "__main__":
    jobs = {"goals": compare_goals, "operators": compare_operators}
    if len(sys.argv) != 2 or sys.argv[1] not in jobs:
        sys.exit(__doc__)
    sys.exit(bool(jobs[sys.argv[1]]()))
