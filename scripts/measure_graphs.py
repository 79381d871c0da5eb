#!/usr/bin/env python3
"""Measures how long it takes to find what functions reach, and their graphs, and its memory.

    scripts/measure_graphs.py

It is run outside the gate and needs `rt` and GNU `time` (Debian: time) on the path. It proves the crates and a small
program in a scratch repository, takes over what `rt` has kept in out/, and runs the program as it is compiled. The files
are: a function of straight code, one in four of whose instructions is a store and one a load, in a file with so many
runs of fixed bytes; functions that call one another in a chain by pairs; a function that jumps by a table; and straight
code with a load before a jump that no table gives. A row is a file, its instructions, what is asked of it (the code of
the first function, what it reaches and its stack, or the graphs of all), what is counted (words, functions, nodes),
seconds and the peak of memory, beside those of a function of one instruction.
"""

from machine import executable
from probe import measure, timed
from random_code import encode

CRATES = ["elf_read", "code_reach", "graph_core", "decompile"]

PROBE = r"""//! Counts what the first function of a file reaches, or the nodes of the graphs of all that it reaches.
#![tactic(auto)]

use code_reach::{code, reach, stack};
use decompile::decompile;
use elf_read::{Image, read};
use std::alloc::Global;
use std::env;
use std::fs;

/// The words of the first function.
fn words(alloc: Global, image: &Image<'_>) -> usize {
    if image.size_at(0x10000).is_none() {
        return 0;
    }
    match code(alloc, image, 0x10000) {
        Ok(listing) => listing.len(),
        Err(_) => 0,
    }
}

/// The functions that it reaches, whose stack has been found.
fn functions(alloc: Global, image: &Image<'_>) -> usize {
    if image.size_at(0x10000).is_none() {
        return 0;
    }
    if stack(alloc, image, 0x10000).is_err() {
        return 0;
    }
    match reach(alloc, image, 0x10000) {
        Ok(entries) => entries.len(),
        Err(_) => 0,
    }
}

/// The nodes of the graphs of all that it reaches.
fn nodes(alloc: Global, image: &Image<'_>) -> usize {
    if image.size_at(0x10000).is_none() {
        return 0;
    }
    let Ok(entries) = reach(alloc, image, 0x10000) else {
        return 0;
    };
    let mut count: usize = 0;
    for entry in entries.as_slice() {
        if image.size_at(*entry).is_some() {
            if let Ok(found) = decompile(alloc, image, *entry, entries.as_slice()) {
                count = count.wrapping_add(found.graph.len());
            }
        }
    }
    count
}

fn main(rt: HostRuntime) -> anyhow::Result<()> {
    let words_given: Vec<String> = env::args(&rt)?.collect(rt.alloc())?;
    let Some(name) = words_given.as_slice().get(1) else { return Ok(()); };
    let Some(asked) = words_given.as_slice().get(2) else { return Ok(()); };
    let file = fs::read(&rt, name.as_str())?;
    let image = match read(rt.alloc(), file.as_slice()) {
        Ok(image) => image,
        Err(_) => return Ok(()),
    };
    let count = match asked.as_str() {
        "code" => words(rt.alloc(), &image),
        "reach" => functions(rt.alloc(), &image),
        _ => nodes(rt.alloc(), &image),
    };
    println!(rt; "{count}")?;
    Ok(())
}
"""

ADD, LOAD, STORE, XOR, RETURN = 0x00B50533, 0x0005A603, 0x00C5A023, 0x00B54533, 0x00008067
ENTRY, TABLE = 0x10000, 0x8000000


def straight(count, runs):
    """One function of so many instructions, in a file with so many runs of fixed bytes."""
    words = ([ADD, LOAD, STORE, XOR] * (count // 4 + 1))[: count - 1] + [RETURN]
    rest = [(0x1000000 + 0x1000 * k, [0], 5) for k in range(1, runs)]
    return executable([(ENTRY, words, 5)] + rest, [("f", ENTRY, 4 * count)])


def chain(count):
    """So many functions of three instructions, each of which calls the next one by a pair."""
    words = [encode("auipc", 1, 0), encode("jalr", 1, 1, 12), RETURN] * (count - 1) + [encode("addi", 0, 0, 0)] * 2 + [RETURN]
    return executable([(ENTRY, words, 5)], [(f"f{k}", ENTRY + 12 * k, 12) for k in range(count)])


def table(count):
    """A function that jumps by a table of so many words, to as many cases of two instructions."""
    cases = [word for k in range(count) for word in (encode("addi", 10, 0, k), RETURN)]
    words = [encode("addi", 15, 0, count - 1), encode("bltu", 15, 10, 24), encode("lui", 15, TABLE), encode("slli", 10, 10, 2)]
    words += [encode("add", 15, 15, 10), encode("lw", 15, 15, 0), encode("jalr", 0, 15, 0), RETURN] + cases
    targets = [ENTRY + 32 + 8 * k for k in range(count)]
    return executable([(ENTRY, words, 5), (TABLE, targets, 4)], [("f", ENTRY, 4 * len(words))])


def no_table(count):
    """Straight code of so many instructions that ends by a jump to a loaded word, of which nothing is known."""
    words = [ADD] * (count - 2) + [encode("lw", 15, 15, 0), encode("jalr", 0, 15, 0)]
    return executable([(ENTRY, words, 5)], [("f", ENTRY, 4 * count)])


FILES = [(f"straight code, {runs} run{'s' * (runs > 1)} of fixed bytes", count, lambda count, runs=runs: straight(count, runs)) for runs in (1, 20) for count in (1, 1000, 10000, 65536)]
FILES += [("a chain of calls by pairs", count, chain) for count in (64, 512, 4096)]
FILES += [("a table", count, table) for count in (2, 64, 1024)]
FILES += [("straight code before a jump by no table", count, no_table) for count in (64, 512, 4096)]


def rows(program):
    file = program.with_name("file")
    for name, count, make in FILES:
        file.write_bytes(make(count))
        for asked in ("code", "reach", "graphs"):
            printed, seconds, peak = timed(program, [file, asked])
            yield name, count, asked, int(printed), f"{seconds:.2f}", f"{peak:.1f}"


if __name__ == "__main__":
    measure(PROBE, CRATES, ["File", "Instructions, functions or words", "Asked", "Counted", "Seconds", "Peak MiB"], rows)
