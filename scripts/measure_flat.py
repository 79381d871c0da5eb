#!/usr/bin/env python3
"""Measures how long terms with many loads take to lose their memory, and what that takes.

    scripts/measure_flat.py

It is run outside the gate and needs `rt` and GNU `time` (Debian: time) on the path. It proves the crates and a small
program in a scratch repository and runs it as it is compiled. The program makes a term with so many loads of one memory
at addresses x + 1, x + 2 and so on, and so many times the sum of two equal sums; then it makes the flat term. Each row is
a run: loads, doublings, terms before and after, seconds, and the peak of memory.
"""

from probe import measure, timed

CRATES = ["term_core_spec", "term_core", "term_bank", "mem_terms_spec", "mem_terms"]

PROBE = r"""//! Makes a flat term: its arguments are loads and doublings.
#![tactic(auto)]

ghost use Rattle.std.specs.Prelude.{◌<◌, length, IfOk};
ghost use Rattle.term_bank.specs.Nodes.{Extends};

mod numbers;

use mem_terms::flat;
use numbers::argument;
use std::alloc::{AllocError, Global};
use std::env;
use term_bank::{Bank, TermId, TermNode};
use term_core_spec::{Atom, BinaryOperator, Family, Sort, Variable, Width, WordOperator};

fn open(bank: &mut Bank, family: Family, sort: Sort) -> Result<TermId, AllocError> {
    bank.add(TermNode::Leaf(Atom::Open(Variable { family, index: 0, instance: 0, sort })))
}

// a node whose arguments are there; 0 where one is not
fn add(bank: &mut Bank, operator: BinaryOperator, a: TermId, b: TermId) -> Result<TermId, AllocError> {
    let count = bank.len();
    if a < count && b < count {
        bank.add(TermNode::Binary(operator, a, b))
    } else {
        Ok(0)
    }
}

fn loads(bank: &mut Bank, count: usize) -> Result<TermId, AllocError> {
    let memory = open(bank, Family::SourceMemory, Sort::Memory)?;
    let x = open(bank, Family::Register, Sort::Word(Width::W32))?;
    let mut sum = bank.add(TermNode::Leaf(Atom::Constant(Width::W8, 0)))?;
    for i in 0..count {
        let offset = bank.add(TermNode::Leaf(Atom::Constant(Width::W32, (i as u64).wrapping_add(1))))?;
        let address = add(bank, BinaryOperator::Word(WordOperator::Add), x, offset)?;
        let byte = add(bank, BinaryOperator::Load, memory, address)?;
        sum = add(bank, BinaryOperator::Word(WordOperator::Add), sum, byte)?;
    }
    Ok(sum)
}

fn doubled(bank: &mut Bank, from: TermId, count: usize) -> Result<TermId, AllocError> {
    let mut sum = from;
    for _ in 0..count {
        sum = add(bank, BinaryOperator::Word(WordOperator::Add), sum, sum)?;
    }
    add(bank, BinaryOperator::Equal, sum, from)
}

fn made(alloc: Global, count: usize, doublings: usize) -> Result<(usize, usize), AllocError> {
    let mut bank = Bank::new(alloc);
    let sum = loads(&mut bank, count)?;
    let goal = doubled(&mut bank, sum, doublings)?;
    let before = bank.len();
    if goal < before {
        let _flat = flat(alloc, &mut bank, goal)?;
    }
    Ok((before, bank.len()))
}

fn main(rt: HostRuntime) -> anyhow::Result<()> {
    let words: Vec<String> = env::args(&rt)?.collect(rt.alloc())?;
    let count = argument(words.as_slice(), 1);
    let doublings = argument(words.as_slice(), 2);
    let (before, after) = made(rt.alloc(), count, doublings)?;
    println!(rt; "{before} {after}")?;
    Ok(())
}
"""

# loads, doublings
ROWS = [(1, 0), (10, 0), (100, 0), (1000, 0), (2, 1000), (2, 100000)]


def rows(program):
    for loads, doublings in ROWS:
        printed, seconds, peak = timed(program, (loads, doublings))
        before, after = printed.split()
        yield loads, doublings, before, after, f"{seconds:.2f}", f"{peak:.1f}"


if __name__ == "__main__":
    measure(PROBE, CRATES, ["Loads", "Doublings", "Terms before", "Terms after", "Seconds", "Peak MiB"], rows)
