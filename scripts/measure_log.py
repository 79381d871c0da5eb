#!/usr/bin/env python3
"""Measures how fast logs of steps are checked, beside a checker in C, and the memory that their literals take.

    scripts/measure_log.py                 chains of clauses
    scripts/measure_log.py own [PROGRAM]   the logs of the search on goals of words (`compare_search.py`)

It is run outside the gate and needs `rt`, gcc and GNU `time` (Debian: time) on the path. It proves the checker and a
small program in a scratch repository and runs it as it is compiled; the checker in C (`log_checker.c` beside this
script) is compiled by gcc -O2. Both programs add one step again and again over a chain of clauses, each of which is a
hint, and begin anew as often as the last argument says, so that a run takes long enough to be timed. Runs of the two
alternate, and of each the one with the least processor time counts. Where code begins changes its speed, so both
programs are linked behind 0, 16, 32 and 48 bytes more, and of chains the mean of the four counts. Each row is a chain:
steps, hints a step, literals a hint's clause, millions of hints a second here and in C, their quotient, and the peak of
memory of one round. The logs of the search are those that `term_rows` prints, as `rt run` builds it in its folder;
reading a log counts in no run. The kit is in /opt/rattle, or where RATTLE_KIT says.
"""

import os
import resource
import subprocess
import sys
import tempfile
from pathlib import Path

from compare_search import LIMIT, asked, goals, question
from probe import ROOT, built, timed
from terms import clauses

CRATES = ["attempt", "clause_check_spec", "cnf_core", "clause_check"]

# what both programs end with: a clause of the variables that there are is added
PUSH = r"""
fn is_fit(literals: &[Literal], variables: usize) -> bool
    ensures { result ≡ list_all (is_of variables) literals.now }
{
    literals.iter().all(|literal| literal.is_of(variables))
}

fn push(cnf: &mut Cnf, clause: &[Literal]) -> Result<(), AllocError> {
    if is_fit(clause, cnf.variables()) {
        cnf.push(clause)?;
    }
    Ok(())
}
"""

PROBE = r"""//! Checks logs: its arguments are steps, hints a step, further literals a clause, rounds.
#![tactic(auto)]

ghost use Rattle.std.specs.Prelude.{◌≡◌, true};
ghost use Rattle.std.specs.List.{list_all};
ghost use Rattle.clause_check_spec.specs.Clause.{is_of};

mod numbers;

use attempt::Refusal;
use clause_check::{Log, StepFault};
use cnf_core::{Cnf, Literal};
use numbers::argument;
use std::alloc::{AllocError, Global};
use std::env;

fn literal(variable: usize, is_negated: bool) -> Literal {
    match Literal::try_new(variable, is_negated) {
        Some(literal) => literal,
        None => Literal::from_code(0),
    }
}

/// Not `from`, or `to`, or one of so many variables after `chain`.
fn clause(alloc: Global, from: usize, to: usize, chain: usize, wide: usize) -> Result<Vec<Literal>, AllocError> {
    let mut literals = Vec::new(alloc);
    literals.push(literal(from, true))?;
    literals.push(literal(to, false))?;
    for i in 0..wide {
        literals.push(literal(chain.wrapping_add(1).wrapping_add(i), false))?;
    }
    Ok(literals)
}

fn chain_of(alloc: Global, hints: usize, wide: usize) -> Result<Cnf, AllocError> {
    let chain = hints.wrapping_add(1);
    let mut cnf = Cnf::new(alloc, chain.wrapping_add(wide));
    for i in 0..hints {
        let c = clause(alloc, i.wrapping_add(1), i.wrapping_add(2), chain, wide)?;
        push(&mut cnf, c.as_slice())?;
    }
    Ok(cnf)
}

fn names_of(alloc: Global, hints: usize) -> Result<Vec<usize>, AllocError> {
    let mut names = Vec::new(alloc);
    for i in 0..hints {
        names.push(i.wrapping_add(1))?;
    }
    Ok(names)
}

fn repeat(log: &mut Log, literals: &[Literal], hints: &[usize], steps: usize) -> Result<(), Refusal<StepFault>> {
    for _ in 0..steps {
        log.step(literals, hints)?;
    }
    Ok(())
}

fn checked(alloc: Global, steps: usize, hints: usize, wide: usize) -> Result<(), Refusal<StepFault>> {
    let cnf = chain_of(alloc, hints, wide)?;
    let names = names_of(alloc, hints)?;
    let chain = hints.wrapping_add(1);
    let literals = clause(alloc, 1, chain, chain, wide)?;
    let mut log = Log::new(alloc, cnf)?;
    repeat(&mut log, literals.as_slice(), names.as_slice(), steps)
}

fn all_checked(alloc: Global, words: &[String]) -> Result<(), Refusal<StepFault>> {
    for _ in 0..argument(words, 4) {
        checked(alloc, argument(words, 1), argument(words, 2), argument(words, 3))?;
    }
    Ok(())
}

fn main(rt: HostRuntime) -> anyhow::Result<()> {
    let words: Vec<String> = env::args(&rt)?.collect(rt.alloc())?;
    let ended = all_checked(rt.alloc(), words.as_slice()).is_ok();
    println!(rt; "{ended}")?;
    Ok(())
}
"""

LOGS = r"""//! Checks a log again and again. Its argument is how often; its input has the number of variables, and lines of
//! literals, 0, hints, 0, in which a given clause has no hints.
#![tactic(auto)]

ghost use Rattle.std.specs.Prelude.{◌≡◌, true};
ghost use Rattle.std.specs.List.{list_all};
ghost use Rattle.clause_check_spec.specs.Clause.{is_of};

mod numbers;

use attempt::Refusal;
use clause_check::{Log, StepFault};
use cnf_core::{Cnf, Literal};
use numbers::{argument, decimal};
use std::alloc::{AllocError, Global};
use std::env;
use std::io::{BufRead, BufReader};

#[derive(Drop)]
struct Line {
    literals: Vec<Literal>,
    hints: Vec<usize>,
}

fn literal(word: &str) -> Literal {
    let (digits, is_negated) = match word.strip_prefix('-') {
        Some(rest) => (rest, true),
        None => (word, false),
    };
    match Literal::try_new(decimal(digits), is_negated) {
        Some(literal) => literal,
        None => Literal::from_code(0),
    }
}

fn literals_of(alloc: Global, text: &str) -> Result<Vec<Literal>, AllocError> {
    let mut literals = Vec::new(alloc);
    for word in text.split(' ') {
        if !word.is_empty() {
            literals.push(literal(word))?;
        }
    }
    Ok(literals)
}

fn hints_of(alloc: Global, text: &str) -> Result<Vec<usize>, AllocError> {
    let mut hints = Vec::new(alloc);
    for word in text.split(' ') {
        if !word.is_empty() {
            hints.push(decimal(word))?;
        }
    }
    Ok(hints)
}

fn line_of(alloc: Global, text: &str) -> Result<Line, AllocError> {
    let (literals, hints) = text.split_once(';').unwrap_or((text, ""));
    Ok(Line {
        literals: literals_of(alloc, literals)?,
        hints: hints_of(alloc, hints)?,
    })
}

fn given(alloc: Global, variables: usize, lines: &[Line]) -> Result<Cnf, AllocError> {
    let mut cnf = Cnf::new(alloc, variables);
    for line in lines {
        if line.hints.is_empty() {
            push(&mut cnf, line.literals.as_slice())?;
        }
    }
    Ok(cnf)
}

fn add_steps(log: &mut Log, lines: &[Line]) -> Result<(), Refusal<StepFault>> {
    for line in lines {
        if !line.hints.is_empty() {
            log.step(line.literals.as_slice(), line.hints.as_slice())?;
        }
    }
    Ok(())
}

fn checked(alloc: Global, variables: usize, lines: &[Line]) -> Result<(), Refusal<StepFault>> {
    let cnf = given(alloc, variables, lines)?;
    let mut log = Log::new(alloc, cnf)?;
    add_steps(&mut log, lines)
}

fn all_checked(alloc: Global, rounds: usize, variables: usize, lines: &[Line]) -> Result<(), Refusal<StepFault>> {
    for _ in 0..rounds {
        checked(alloc, variables, lines)?;
    }
    Ok(())
}

fn main(rt: HostRuntime) -> anyhow::Result<()> {
    let words: Vec<String> = env::args(&rt)?.collect(rt.alloc())?;
    let mut variables = 0;
    let mut lines = Vec::new(rt.alloc());
    for (index, line) in BufReader::new(rt.alloc(), rt.reader())?.lines(rt.alloc()).enumerate() {
        let line = line?;
        if index == 0 {
            variables = decimal(line.as_str());
        } else {
            lines.push(line_of(rt.alloc(), line.as_str())?)?;
        }
    }
    let ended = all_checked(rt.alloc(), argument(words.as_slice(), 1), variables, lines.as_slice()).is_ok();
    println!(rt; "{ended}")?;
    Ok(())
}
"""

# steps, hints a step, further literals a clause, rounds
CHAINS = [(1000, 1000, 0, 100), (1000, 1000, 8, 50), (100000, 10, 0, 100), (100000, 10, 8, 50)]

# runs of each program on each log, and at each offset on each chain
RUNS = 9

# bytes that the code of a program is moved by
OFFSETS = (0, 16, 32, 48)


def processor_seconds(program, words, text=""):
    """The processor time of a run with these arguments and this input."""
    before = resource.getrusage(resource.RUSAGE_CHILDREN)
    ran = subprocess.run([str(program)] + [str(word) for word in words], input=text, capture_output=True, text=True, check=True)
    after = resource.getrusage(resource.RUSAGE_CHILDREN)
    assert ran.stdout == "true\n", ran.stdout
    return after.ru_utime + after.ru_stime - before.ru_utime - before.ru_stime


def moved(folder, name, link, made):
    """The program of an object file, linked with its code moved by each of the offsets."""
    programs = []
    for offset in OFFSETS:
        pad = folder / f"pad{offset}"
        pad.with_suffix(".s").write_text(f'.section .text.pad,"axR",@progbits\n.p2align 6\n.skip {64 + offset},0x90\n')
        subprocess.run(["gcc", "-c", "-o", f"{pad}.o", f"{pad}.s"], check=True)
        programs.append(folder / f"{name}{offset}")
        subprocess.run([*link, "-o", str(programs[-1]), f"{pad}.o", *made], check=True, capture_output=True)
    return programs


def chains(folder):
    kit = os.environ.get("RATTLE_KIT", "/opt/rattle")
    program = built(folder, PROBE + PUSH, CRATES)
    subprocess.run(["gcc", "-O2", "-c", "-o", str(folder / "in_c.o"), str(ROOT / "scripts/log_checker.c")], check=True)
    link = [f"{kit}/bin/rattle-link", "--target", "x86_64-unknown-linux-gnu", "--toolchain", f"{kit}/toolchain"]
    here = moved(folder, "here", link, [f"{program}.o", f"{kit}/c/libos_c.a", f"{kit}/c/liblibc_c.a"])
    in_c = moved(folder, "in_c", ["gcc"], [str(folder / "in_c.o")])
    print("| Steps | Hints a step | Literals a hint | Million hints a second | In C | Quotient | Peak MiB |")
    print("|---|---|---|---|---|---|---|")
    for steps, hints, more, rounds in CHAINS:
        best = {each: 1e9 for pair in zip(here, in_c) for each in pair}
        for _ in range(RUNS):
            for each in best:
                best[each] = min(best[each], processor_seconds(each, (steps, hints, more, rounds)))
        _, _, peak = timed(program, (steps, hints, more, 1))
        ours, c = (len(OFFSETS) * steps * hints * rounds / sum(best[each] for each in all_) / 1e6 for all_ in (here, in_c))
        cells = (steps, hints, more + 2, f"{ours:.0f}", f"{c:.0f}", f"{ours / c:.2f}", f"{peak:.1f}")
        print("| " + " | ".join(str(cell) for cell in cells) + " |", flush=True)


# ---- logs of the search


def log_of(search, count, rows):
    """The steps of the log that closes clauses, each as its literals and its hints."""
    (found,), _ = asked(search, [question("log ", LIMIT, count, rows)])
    steps, part = [], []
    for number in map(int, found.split()):
        if number:
            part.append(number)
            continue
        steps.append(part)
        part = []
    return list(zip(steps[::2], steps[1::2]))


def words_of(numbers):
    return " ".join(map(str, numbers))


def own(folder, in_c, search):
    program = built(folder, LOGS + PUSH, CRATES)
    print("| Goal | Steps | Hints | Seconds a check | In C | Quotient |")
    print("|---|---|---|---|---|---|")
    for name, goal in goals():
        count, rows = clauses(goal)
        steps = log_of(search, count, rows)
        hints = sum(len(hints) for _, hints in steps)
        if not steps:
            continue
        ours = "".join([f"{count}\n", *[f"{words_of(row)};\n" for row in rows], *[f"{words_of(a)};{words_of(b)}\n" for a, b in steps]])
        path = folder / "log"
        path.write_text(f"{count}\n" + "".join(f"{words_of(a)} 0 {words_of(b)} 0\n" for a, b in [*[(row, []) for row in rows], *steps]))
        rounds = max(1, 30_000_000 // (hints + sum(map(len, rows)) + 1))
        best = [[1e9, 1e9], [1e9, 1e9]]
        for _ in range(RUNS):
            for i, turns in enumerate((0, rounds)):
                best[0][i] = min(best[0][i], processor_seconds(program, [turns], ours))
                best[1][i] = min(best[1][i], processor_seconds(in_c, [path, turns]))
        here, c = ((many - none) / rounds for none, many in best)
        print(f"| {name} | {len(steps)} | {hints} | {here:.6f} | {c:.6f} | {here / c:.2f} |", flush=True)


def main():
    with tempfile.TemporaryDirectory() as folder:
        in_c = Path(folder, "log_checker")
        subprocess.run(["gcc", "-O2", "-o", str(in_c), str(ROOT / "scripts/log_checker.c")], check=True)
        if sys.argv[1:2] == ["own"]:
            own(Path(folder), in_c, Path(sys.argv[2]) if len(sys.argv) > 2 else ROOT / "crates/term_rows/out/term_rows")
        else:
            chains(Path(folder))


if __name__ == "__main__":
    main()
