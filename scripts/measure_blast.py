#!/usr/bin/env python3
"""Measures how many clauses goals have, how fast they are made, and the memory that they take.

    scripts/measure_blast.py

It is run outside the gate and needs `rt` and GNU `time` (Debian: time) on the path. It proves the clauses and a small
program in a scratch repository and runs it as it is compiled. The program makes the clauses of one goal on words of 32
bits again and again: that a product, a quotient or a chain of sums is another word. Each row is a run: the goal, how
often its clauses were made, their variables and their number, seconds for making them once, and the peak of memory.
"""

from probe import measure, timed

CRATES = ["term_core_spec", "term_bank", "cnf_core", "bit_blast"]

PROBE = r"""//! Makes the clauses of a goal: its arguments are which operator, how many of them in a chain, and how often.
#![tactic(auto)]

mod numbers;

use bit_blast::blast;
use numbers::argument;
use std::alloc::{AllocError, Global};
use std::env;
use term_bank::{Bank, TermId, TermNode};
use term_core_spec::{Atom, BinaryOperator, Family, Sort, Variable, Width, WordOperator};

fn open(bank: &mut Bank, index: usize) -> Result<TermId, AllocError> {
    bank.add(TermNode::Leaf(Atom::Open(Variable {
        family: Family::Register,
        index,
        instance: 0,
        sort: Sort::Word(Width::W32),
    })))
}

fn binary(bank: &mut Bank, operator: BinaryOperator, a: TermId, b: TermId) -> Result<TermId, AllocError> {
    if a < bank.len() && b < bank.len() {
        bank.add(TermNode::Binary(operator, a, b))
    } else {
        Err(AllocError)
    }
}

fn operator(kind: usize) -> WordOperator {
    match kind {
        0 => WordOperator::Multiply,
        1 => WordOperator::Divide,
        _ => WordOperator::Add,
    }
}

fn goal(bank: &mut Bank, kind: usize, chain: usize) -> Result<TermId, AllocError> {
    let mut term = open(bank, 0)?;
    for i in 0..chain {
        let next = open(bank, i.wrapping_add(1))?;
        term = binary(bank, BinaryOperator::Word(operator(kind)), term, next)?;
    }
    let other = open(bank, chain.wrapping_add(1))?;
    binary(bank, BinaryOperator::Equal, term, other)
}

fn clauses(alloc: Global, bank: &Bank, goal: TermId) -> Result<(usize, usize), AllocError> {
    if goal < bank.len() {
        if let Ok(blasted) = blast(alloc, bank, goal, usize::MAX) {
            return Ok((blasted.cnf.variables(), blasted.cnf.len()));
        }
    }
    Err(AllocError)
}

fn main(rt: HostRuntime) -> anyhow::Result<()> {
    let words: Vec<String> = env::args(&rt)?.collect(rt.alloc())?;
    let kind = argument(words.as_slice(), 1);
    let chain = argument(words.as_slice(), 2);
    let times = argument(words.as_slice(), 3);
    let mut bank = Bank::new(rt.alloc());
    let goal = goal(&mut bank, kind, chain)?;
    let mut counts = (0, 0);
    for _ in 0..times {
        counts = clauses(rt.alloc(), &bank, goal)?;
    }
    println!(rt; "{} {}", counts.0, counts.1)?;
    Ok(())
}
"""

# a name, which operator, how many in a chain, how often
ROWS = [("a product", 0, 1, 100), ("a quotient", 1, 1, 20), ("a chain of 1,000 sums", 2, 1000, 10), ("a chain of 10,000 sums", 2, 10000, 1)]


def rows(program):
    for name, kind, chain, times in ROWS:
        counts, seconds, peak = timed(program, (kind, chain, times))
        variables, clauses = counts.split()
        yield name, times, variables, clauses, f"{seconds / times:.4f}", f"{peak:.1f}"


if __name__ == "__main__":
    measure(PROBE, CRATES, ["Goal", "Times", "Variables", "Clauses", "Seconds each", "Peak MiB"], rows)
