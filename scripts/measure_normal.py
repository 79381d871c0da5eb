#!/usr/bin/env python3
"""Measures how fast terms are brought into normal form, and the memory that it takes.

    scripts/measure_normal.py

It is run outside the gate and needs `rt` and GNU `time` (Debian: time) on the path. It proves the normal form and a
small program in a scratch repository and runs it as it is compiled. The program makes a chain of sums of a term with
itself, or a chain of stores and the sum of loads from it, at addresses that are constants, a base with constants, or
variables, and brings it into normal form. Each row is a run: the terms of the chain, the loads, the terms in the bank
before and after, seconds, and the peak of memory.
"""

from probe import measure, timed

CRATES = ["term_core_spec", "term_bank", "term_norm"]

PROBE = r"""//! Brings a term into normal form: its arguments are which addresses, how many stores, how many loads.
#![tactic(auto)]

mod numbers;

use numbers::argument;
use std::alloc::{AllocError, Global};
use std::env;
use term_bank::{Bank, TermId, TermNode};
use term_norm::normal;
use term_core_spec::{
    Atom, BinaryOperator, Family, Sort, TernaryOperator, UnaryOperator, Variable, Width,
    WordOperator,
};

fn open(bank: &mut Bank, family: Family, index: usize, sort: Sort) -> Result<TermId, AllocError> {
    bank.add(TermNode::Leaf(Atom::Open(Variable {
        family,
        index,
        instance: 0,
        sort,
    })))
}

fn constant(bank: &mut Bank, number: usize) -> Result<TermId, AllocError> {
    bank.add(TermNode::Leaf(Atom::Constant(Width::W32, number as u64 % 0x1_0000_0000)))
}

fn unary(bank: &mut Bank, operator: UnaryOperator, a: TermId) -> Result<TermId, AllocError> {
    if a < bank.len() {
        bank.add(TermNode::Unary(operator, a))
    } else {
        Err(AllocError)
    }
}

fn binary(bank: &mut Bank, operator: BinaryOperator, a: TermId, b: TermId) -> Result<TermId, AllocError> {
    if a < bank.len() && b < bank.len() {
        bank.add(TermNode::Binary(operator, a, b))
    } else {
        Err(AllocError)
    }
}

fn store(bank: &mut Bank, m: TermId, a: TermId, b: TermId) -> Result<TermId, AllocError> {
    if m < bank.len() && a < bank.len() && b < bank.len() {
        bank.add(TermNode::Ternary(TernaryOperator::Store, m, a, b))
    } else {
        Err(AllocError)
    }
}

fn sum(bank: &mut Bank, a: TermId, b: TermId) -> Result<TermId, AllocError> {
    binary(bank, BinaryOperator::Word(WordOperator::Add), a, b)
}

/// Addresses: 0 constants, 1 a base with constants, 2 variables.
fn address(bank: &mut Bank, kind: usize, place: usize) -> Result<TermId, AllocError> {
    match kind {
        0 => constant(bank, place),
        1 => {
            let base = open(bank, Family::Register, 2, Sort::Word(Width::W32))?;
            let offset = constant(bank, place)?;
            sum(bank, base, offset)
        }
        _ => open(bank, Family::Address, place, Sort::Word(Width::W32)),
    }
}

fn doubled(bank: &mut Bank, count: usize) -> Result<TermId, AllocError> {
    let mut term = open(bank, Family::Register, 1, Sort::Word(Width::W32))?;
    for _ in 0..count {
        term = sum(bank, term, term)?;
    }
    Ok(term)
}

fn stores(bank: &mut Bank, kind: usize, count: usize) -> Result<TermId, AllocError> {
    let mut memory = open(bank, Family::SourceMemory, 0, Sort::Memory)?;
    for i in 0..count {
        let place = address(bank, kind, i)?;
        let byte = open(bank, Family::LoadedByte, i, Sort::Word(Width::W8))?;
        memory = store(bank, memory, place, byte)?;
    }
    Ok(memory)
}

fn loads(bank: &mut Bank, kind: usize, stores_made: usize, count: usize) -> Result<TermId, AllocError> {
    let memory = stores(bank, kind, stores_made)?;
    let mut total = open(bank, Family::Register, 1, Sort::Word(Width::W32))?;
    for i in 0..count {
        let place = address(bank, kind, i.wrapping_add(stores_made / 2))?;
        let byte = binary(bank, BinaryOperator::Load, memory, place)?;
        let word = unary(bank, UnaryOperator::ZeroExtend(Width::W32), byte)?;
        total = sum(bank, total, word)?;
    }
    Ok(total)
}

fn form(alloc: Global, bank: &mut Bank, term: TermId) -> Result<TermId, AllocError> {
    if term < bank.len() {
        normal(alloc, bank, term, &[])
    } else {
        Err(AllocError)
    }
}

fn main(rt: HostRuntime) -> anyhow::Result<()> {
    let words: Vec<String> = env::args(&rt)?.collect(rt.alloc())?;
    let kind = argument(words.as_slice(), 1);
    let chain = argument(words.as_slice(), 2);
    let load_count = argument(words.as_slice(), 3);
    let mut bank = Bank::new(rt.alloc());
    let term = if load_count == 0 {
        doubled(&mut bank, chain)?
    } else {
        loads(&mut bank, kind, chain, load_count)?
    };
    let before = bank.len();
    let _made = form(rt.alloc(), &mut bank, term)?;
    let after = bank.len();
    println!(rt; "{before} {after}")?;
    Ok(())
}
"""

# a name, which addresses, the terms of the chain, the loads
ROWS = [
    ("sums of a term with itself", 0, 1000, 0),
    ("sums of a term with itself", 0, 100000, 0),
    ("stores and loads at constants", 0, 1000, 1000),
    ("stores and loads at a base with constants", 1, 1000, 1000),
    ("stores and loads at variables", 2, 1000, 1000),
    ("stores, one load at a constant", 0, 100000, 1),
    ("stores, one load at a variable", 2, 100000, 1),
]


def rows(program):
    for name, kind, chain, loads in ROWS:
        printed, seconds, peak = timed(program, (kind, chain, loads))
        before, after = printed.split()
        yield name, chain, loads, before, after, f"{seconds:.2f}", f"{peak:.1f}"


if __name__ == "__main__":
    measure(PROBE, CRATES, ["Term", "Chain", "Loads", "Terms before", "Terms after", "Seconds", "Peak MiB"], rows)
