#!/usr/bin/env python3
"""Runs the graphs of functions beside the machine, on random states.

    scripts/compare_graphs.py [--definitions]     (Debian: gcc-riscv64-unknown-elf, binutils-riscv64-unknown-elf)

It is run outside the gate and needs `rt` on the path. It compiles some C and makes random executables of branches, pairs,
tail calls and jumps by tables. The crates print the graph of each function, or its fault; these are to be those of the
definitions, by `graphs.py`. The graphs run here, by an evaluation of terms that is not the crates' own, in lockstep with
the interpreter of `machine.py`: at each instruction that a graph comes to, the interpreter has to stand at its address
with the same registers; where the graph returns it has to have returned, with the same memory; where the graph fails
the interpreter has to trap, to return elsewhere or to leave the function. The crates run their machine from the same
states, which has to end as the graph does. With --definitions nothing is asked of the crates: the graphs are those of
the definitions.
"""

import random
import subprocess
import sys
import tempfile
from pathlib import Path

import random_code
from graphs import HOME as HOME_TEST
from graphs import Graphs, Run
from machine import Image, Trap, step
from probe import ask
from reach import Code, first

CRATES = ["attempt", "rv_instr", "rv_machine", "elf_read", "code_reach", "term_core_spec", "term_bank", "graph_core_spec", "graph_core", "decompile", "indexmap"]

# Its arguments are executables. Reads lines of hexadecimal numbers: `graphs`, the place of a file and entries, ascending; or
# `run`, the place of a file, an entry, a maximum of steps, x1 to x31, and words of memory from 00040000 on. Prints the
# graphs of the functions at the entries, a node a line; or how the run ended, the registers and a sum over those words.
PROBE = r"""//! Prints graphs, and runs the machine.
#![tactic(auto)]

mod numbers;

use attempt::Refusal;
use decompile::GraphFault;
use elf_read::{Image, read};
use graph_core::{SharedBinding, SharedNode};
use graph_core_spec::Next;
use numbers::hexadecimal;
use rv_instr::Reg;
use rv_machine::{Machine, Memory, run};
use std::alloc::{AllocError, Global};
use std::env;
use std::fs;
use std::io::{BufRead, BufReader};
use term_bank::{Bank, TermId, TermNode};
use term_core_spec::{Atom, BinaryOperator, Family, Variable};

fn put(out: &mut String, text: Result<String, AllocError>) -> Result<(), AllocError> {
    let text = text?;
    out.push_str(text.as_str())
}

fn put_variable(alloc: Global, out: &mut String, v: Variable) -> Result<(), AllocError> {
    match v.family {
        Family::Register => put(out, format!(in alloc; " x{}", v.index)),
        Family::Entry => put(out, format!(in alloc; " e{}", v.index)),
        _ => out.push_str(" m"),
    }
}

#[cycle(terms)]
fn put_term(alloc: Global, out: &mut String, bank: &Bank, id: TermId) -> Result<(), AllocError> {
    match bank.node(id) {
        TermNode::Leaf(Atom::Open(v)) => put_variable(alloc, out, v),
        TermNode::Leaf(Atom::Constant(width, n)) => put(out, format!(in alloc; " {width:?}:{n}")),
        TermNode::Leaf(Atom::Truth(truth)) => put(out, format!(in alloc; " {truth}")),
        TermNode::Unary(operator, a) => {
            put(out, format!(in alloc; " ( {operator:?}"))?;
            put_all(alloc, out, bank, &[a])
        }
        TermNode::Binary(BinaryOperator::Word(operator), a, b) => {
            put(out, format!(in alloc; " ( Word{operator:?}"))?;
            put_all(alloc, out, bank, &[a, b])
        }
        TermNode::Binary(operator, a, b) => {
            put(out, format!(in alloc; " ( {operator:?}"))?;
            put_all(alloc, out, bank, &[a, b])
        }
        TermNode::Ternary(operator, a, b, c) => {
            put(out, format!(in alloc; " ( {operator:?}"))?;
            put_all(alloc, out, bank, &[a, b, c])
        }
        TermNode::Quaternary(operator, a, b, c, d) => {
            put(out, format!(in alloc; " ( {operator:?}"))?;
            put_all(alloc, out, bank, &[a, b, c, d])
        }
        TermNode::Octonary(..) => out.push_str(" ?"),
    }
}

#[cycle(terms)]
fn put_all(alloc: Global, out: &mut String, bank: &Bank, ids: &[TermId]) -> Result<(), AllocError> {
    for id in ids {
        put_term(alloc, out, bank, *id)?;
    }
    out.push_str(" )")
}

fn put_next(alloc: Global, out: &mut String, next: Next) -> Result<(), AllocError> {
    match next {
        Next::At(n) => put(out, format!(in alloc; " {n}")),
        Next::Ret => out.push_str(" Ret"),
        Next::Err => out.push_str(" Err"),
    }
}

fn put_bindings(alloc: Global, out: &mut String, bank: &Bank, bindings: &[SharedBinding]) -> Result<(), AllocError> {
    for binding in bindings {
        put_variable(alloc, out, binding.variable)?;
        put_term(alloc, out, bank, binding.term)?;
    }
    out.push_str(" ;")
}

fn put_node(alloc: Global, out: &mut String, bank: &Bank, node: &SharedNode) -> Result<(), AllocError> {
    match node {
        SharedNode::Basic { bindings, next } => {
            out.push_str("node basic")?;
            put_bindings(alloc, out, bank, bindings.as_slice())?;
            put_next(alloc, out, *next)
        }
        SharedNode::Cond { test, on_true, on_false } => {
            out.push_str("node cond")?;
            put_term(alloc, out, bank, *test)?;
            put_next(alloc, out, *on_true)?;
            put_next(alloc, out, *on_false)
        }
        SharedNode::Call { callee, inputs, outputs, landing } => {
            put(out, format!(in alloc; "node call {callee}"))?;
            put_bindings(alloc, out, bank, inputs.as_slice())?;
            put_bindings(alloc, out, bank, outputs.as_slice())?;
            put(out, format!(in alloc; " {landing}"))
        }
    }
}

fn machine(alloc: Global, image: &Image<'_>, pc: u32, data: &[u32]) -> Result<Machine, AllocError> {
    let mut memory = Memory::new(alloc);
    let mut i = 0;
    while let Some(segment) = image.segment(i) {
        let mut at = segment.vaddr;
        for byte in segment.bytes {
            memory.put(at, *byte)?;
            at = at.wrapping_add(1);
        }
        i = i + 1;
    }
    let mut at: u32 = 0x40000;
    for word in data {
        for byte in word.to_le_bytes() {
            memory.put(at, byte)?;
            at = at.wrapping_add(1);
        }
    }
    Ok(Machine::new(pc, memory))
}

/// The graphs of the functions at some entries.
fn show(rt: &HostRuntime, image: &Image<'_>, entries: &[u32]) -> anyhow::Result<()> {
    for entry in entries {
        match decompile::decompile(rt.alloc(), image, *entry, entries) {
            Ok(found) => {
                let first = found.graph.entry();
                println!(rt; "function {first}")?;
                for (address, node) in &found.firsts {
                    println!(rt; "first {address:x} {node}")?;
                }
                for node in found.graph.nodes() {
                    let mut out = String::new(rt.alloc());
                    put_node(rt.alloc(), &mut out, found.graph.bank(), node)?;
                    println!(rt; "{out}")?;
                }
            }
            Err(Refusal::Fault(GraphFault::Code(fault))) => {
                println!(rt; "refused {:?} {:x}", fault.kind, fault.address)?;
            }
            Err(_) => println!(rt; "refused")?,
        }
    }
    Ok(())
}

/// How the machine ends.
fn go(rt: &HostRuntime, image: &Image<'_>, n: &[u32]) -> anyhow::Result<()> {
    let mut machine = machine(rt.alloc(), image, n[0], &n[33..])?;
    for i in 1u8..32 {
        machine.set_register(Reg::new(i % 32), n[usize::from(i % 32) + 1]);
    }
    let stop = n[2];
    let ran = run(&mut machine, stop, u64::from(n[1]))?;
    print!(rt; "run {ran:?}")?;
    for i in 1u8..32 {
        print!(rt; " {:x}", machine.register(Reg::new(i % 32)))?;
    }
    let mut at: u32 = 0x40000;
    let mut sum: u32 = 0;
    for _ in 33..n.len() {
        sum = sum.wrapping_mul(31).wrapping_add(machine.memory().word(at));
        at = at.wrapping_add(4);
    }
    println!(rt; " {sum:x}")?;
    Ok(())
}

fn main(rt: HostRuntime) -> anyhow::Result<()> {
    let names: Vec<String> = env::args(&rt)?.collect(rt.alloc())?;
    for line in BufReader::new(rt.alloc(), rt.reader())?.lines(rt.alloc()) {
        let line = line?;
        let mut words = line.as_str().split_whitespace();
        let Some(first) = words.next() else { continue; };
        let mut numbers: Vec<u32> = Vec::new(rt.alloc());
        for word in words {
            numbers.push(hexadecimal(word))?;
        }
        let n = numbers.as_slice();
        let file = fs::read(&rt, names.as_slice()[n[0] as usize + 1].as_str())?;
        match read(rt.alloc(), file.as_slice()) {
            Ok(image) if first == "graphs" => show(&rt, &image, &n[1..])?,
            Ok(image) => go(&rt, &image, &n[1..])?,
            Err(Refusal::Fault(fault)) => println!(rt; "refused {fault:?}")?,
            Err(Refusal::NoMemory) => println!(rt; "refused: no memory")?,
        }
    }
    Ok(())
}
"""

SOURCE = """
typedef unsigned u; typedef signed char s8; typedef unsigned char u8; typedef short s16; typedef unsigned short u16;
static const u16 table[8] = {3, 1, 4, 1, 5, 9, 2, 6};
#define F __attribute__((noinline))
F u straight(u a, u b) { return (a ^ b) + (a << 3) - (b >> 2); }
F int divisions(int a, int b) { return a / b + a % b; }
F u unsigned_divisions(u a, u b) { return a / b * 3 + a % b; }
F int shifts(int a, u b) { return (a >> (b & 31)) ^ (a << (b & 7)); }
F int compares(int a, int b, u c) { return (a < b) + 2 * (a == b) + 4 * ((u)a < c) + 8 * (a >= (int)c); }
F u high(u a, u b) { return (u)(((unsigned long long)a * b) >> 32); }
F int signed_high(int a, int b) { return (int)(((long long)a * b) >> 32); }
F u sum(const u *p, u n) { u s = 0; for (u i = 0; i < (n & 15); i++) s += p[i]; return s; }
F int narrow(const s8 *p, const u16 *q) { return p[0] + p[1] * q[0] - (s16)q[1] + (u8)p[3]; }
F void fill(u8 *p, u n, u v) { for (u i = 0; i < (n & 31); i++) p[i] = v; }
F void halves(u16 *p, u v) { p[0] = v; p[1] = v >> 16; p[3] = p[0] + p[2]; }
F u constants(u i) { return table[i & 7] + 7u * table[(i >> 3) & 7]; }
F u power(u a, u n) { u r = 1; n &= 15; while (n) { if (n & 1) r *= a; a *= a; n >>= 1; } return r; }
F u caller(u a, u b, const u *p) { return straight(a, b) + sum(p, b) + power(a, b); }
F u tail(u a, u b) { return straight(b, a + 1); }
F u either(u a, u b, const u *p) { if (a & 1) return sum(p, b); return caller(a, b, p); }
F u last(u a, u b, const u *p) { a += straight(a, b); return either(a, b, p + (b & 1)); }
F u recursion(u n) { return (n & 7) ? recursion((n & 7) - 1) + n : 1; }
F u chosen(u a, u b) { switch (a & 7) { case 0: return a + b; case 1: return a * b; case 2: return a ^ 77; case 3: return straight(b, a); case 4: return a - b; case 5: return b << 3; default: return 9; } }
F int letters(const u8 *p, int n) { int s = 0; for (int i = 0; i < (n & 15); i++) switch (p[i] & 15) { case 1: s += 7; break; case 2: s ^= 99; break; case 3: s *= 3; break; case 4: s -= p[i + 1]; break; case 6: s = -s; break; case 7: return s; default: s++; } return s; }
F void swap(u *p, u *q) { u t = *p; *p = *q; *q = t; }
F void sort(u *p) { for (u i = 0; i < 5; i++) for (u j = 0; j + 1 < 6; j++) if (p[j] > p[j + 1]) swap(p + j, p + j + 1); }
void _start(void) { for (;;); }
"""

FLAGS = "-march=rv32im -mabi=ilp32 -ffreestanding -nostdlib -static -msmall-data-limit=0".split()
LEVELS = ("-O0", "-O1", "-O2", "-Os")
# How many executables a run of the program is asked.
BATCH = 8
# whether calls are by one JAL each or by pairs of instructions, whether last calls become jumps, and switches tables
KINDS = {
    "jumps": ["-fno-optimize-sibling-calls", "-fno-jump-tables"],
    "pairs": ["-fno-optimize-sibling-calls", "-Wl,--no-relax"],
    "tails": ["-foptimize-sibling-calls"],
    "pairs-tails": ["-foptimize-sibling-calls", "-fno-jump-tables", "-Wl,--no-relax"],
}
DATA, WORDS, HOME, STEPS = 0x40000, 128, 0x7FFF0000, 4000
FILES, FUNCTIONS = 40, 10  # random executables, and functions of each

def compiled(room, level, kind):
    """An executable."""
    file = room / f"file{level}-{kind}"
    (room / "source.c").write_text(SOURCE)
    subprocess.run(["riscv64-unknown-elf-gcc", *FLAGS, level, *KINDS[kind], "-Wl,-Ttext=0x10000", "source.c", "-o", file.name], cwd=room, check=True)
    return file


def random_files(room, pick):
    for number in range(FILES):
        file = room / f"random-{number}"
        file.write_bytes(random_code.executable(pick, FUNCTIONS))
        yield file


# ---- graphs, as the probe prints them


class Reader:
    def __init__(self, line):
        self.words = line.split()
        self.at = 1

    def next(self):
        self.at += 1
        return self.words[self.at - 1]

    def term(self):
        word = self.next()
        if word != "(":
            return ("word", *[int(part.lstrip("W")) for part in word.split(":")]) if ":" in word else ("var", word)
        operator, arguments = self.next(), []
        while self.words[self.at] != ")":
            arguments.append(self.term())
        self.at += 1
        return (operator, *arguments)

    def bindings(self):
        found = []
        while self.words[self.at] != ";":
            found.append((self.next(), self.term()))
        self.at += 1
        return found

    def node(self):
        kind = self.next()
        if kind == "basic":
            return kind, self.bindings(), self.after()
        if kind == "cond":
            return kind, self.term(), self.after(), self.after()
        return kind, int(self.next()), self.bindings(), self.bindings(), self.after()

    def after(self):
        """Where a node goes: the number of a node, Ret or Err."""
        word = self.next()
        return int(word) if word.isdigit() else word


def graphs_of(lines):
    """The first node, the nodes and the first node of each instruction of each graph, or the fault in its place."""
    found = []
    for line in lines:
        kind, *words = line.split()
        if kind == "refused":
            found.append((words[0], int(words[1], 16)) if words else "refused")
        elif kind == "function":
            found.append((int(words[0]), [], {}))
        elif kind == "first":
            found[-1][2][int(words[0], 16)] = int(words[1])
        elif kind == "node":
            found[-1][1].append(Reader(line).node())
    return found


def defined(code, names):
    """The same by the definitions."""
    places = {entry: place for place, entry in enumerate(names.values())}
    for entry in names.values():
        faults = code.function(entry).faults
        made = None if faults else Graphs(code, entry, places).graph()
        yield first(faults) if faults else (0, made.nodes, made.firsts)


# ---- runs


class Memory:
    """A memory of bytes, in which what isn't there is 0."""

    def __init__(self, image, held):
        self.image, self.held = image, dict(held)

    def load(self, address, count):
        return sum(self.held.get(address + i & 0xFFFFFFFF, 0) << 8 * i for i in range(count))

    def store(self, address, value, count):
        for i in range(count):
            self.held[address + i & 0xFFFFFFFF] = value >> 8 * i & 255


class Differs(Exception):
    pass


class Lockstep:
    """A run of graphs and of the interpreter beside it."""

    def __init__(self, image, graphs, place, entries, sizes, registers, held):
        values = {f"x{r}": registers[r] for r in range(1, 32)} | {"e1": registers[1], "m": held}
        self.run, self.x, self.pc, self.memory = Run(graphs, place, values), list(registers), entries[place], Memory(image, held)
        self.entries, self.sizes, self.count = entries, sizes, 0
        self.places = [{number: address for address, number in (*graph, {})[2].items()} for graph in graphs]

    def advance(self):
        if self.count:
            self.pc = step(self.x, self.pc, self.memory)
        self.count += 1

    def check(self, pc):
        names = [f"x{r}" for r in range(1, 32) if self.run.values[f"x{r}"] != self.x[r]]
        if pc != self.pc or names:
            raise Differs(f"after {self.count} instructions: at {pc:x}, the machine at {self.pc:x}; {names}")

    def fails(self):
        """The graph has failed: so has the machine, or it returns elsewhere, or leaves the function."""
        place, at, home = self.run.graph, self.pc, self.run.values["e1"] == self.x[1]
        test = self.run.graphs[place][1][self.run.node][1]
        try:
            self.advance()
        except Trap:
            return
        inside = self.pc % 4 == 0 and self.entries[place] <= self.pc < self.entries[place] + self.sizes[place]
        if home and inside if test == HOME_TEST else inside:
            raise Differs(f"the graph fails at {at:x}, the machine goes on at {self.pc:x}")

    def ends(self, steps):
        """How it ends: "Ret", "Err" or "More"."""
        for _ in range(steps):
            address = self.places[self.run.graph].get(self.run.node)
            if address is not None:
                self.advance()
                self.check(address)
            self.run.step()
            if self.run.end == "Err":
                self.fails()
                return "Err"
            if self.run.end:
                self.advance()
                self.check(HOME)
                if any(self.memory.held.get(a, 0) != self.run.values["m"].get(a, 0) for a in {*self.memory.held, *self.run.values["m"]}):
                    raise Differs("another memory")
                return "Ret"
        return "More"


# ---- states


def some_state(pick):
    words = [pick.getrandbits(32) if pick.random() < 0.5 else pick.choice([0, 1, 2, 0xFFFFFFFF, 0x80000000, 7]) for _ in range(WORDS)]
    registers = [0] + [pick.choice([0, 1, 2, 3, 5, 8, 31, 0xFFFFFFFF, 0x80000000, pick.getrandbits(32)]) for _ in range(31)]
    for r in range(10, 18):
        if pick.random() < 0.5:
            registers[r] = DATA + 4 * pick.randrange(64) + (pick.random() < 0.1) * pick.randrange(4)
    registers[1], registers[2] = HOME, DATA + 16 * pick.randrange(24, WORDS // 4)
    return registers, words


class Rows:
    """The functions of a file, and the states from which each is run."""

    def __init__(self, place, file, pick, count):
        self.place, self.file, self.image = place, file, Image(file.read_bytes())
        self.steps = 100 if file.name.startswith("random") else STEPS
        entries = {value: name for name, (value, _) in self.image.functions.items() if name != "_start"}
        self.names = {entries[value]: value for value in sorted(entries)}
        sizes = {value: size for value, size in self.image.functions.values()}
        self.sizes, self.code = [sizes[value] for value in self.names.values()], Code(self.image.fixed, sizes)
        self.runs = [(name, *some_state(pick)) for name in self.names for _ in range(count)]

    def lines(self):
        numbers = lambda *row: " ".join(f"{n:x}" for n in row)
        runs = [f"run {numbers(self.place, self.names[name], self.steps, *registers[1:], *words)}" for name, registers, words in self.runs]
        return [f"graphs {numbers(self.place, *self.names.values())}"] + runs

    def runs_to(self, name):
        """Whether all that a function reaches has a graph."""
        return not self.code.reach(self.names[name])[1]

    def held(self, words):
        loaded = {vaddr + i: byte for vaddr, _, _, _, held in self.image.segments for i, byte in enumerate(held)}
        return loaded | {DATA + i: byte for i, byte in enumerate(b"".join(word.to_bytes(4, "little") for word in words))}

    def machine_differs(self, run, end, how, numbers):
        """Whether the crates' machine ended otherwise than the graph."""
        if end != "Ret":
            return end == "More" and how == "Stopped"
        total = 0
        for at in range(DATA, DATA + 4 * WORDS, 4):
            total = (31 * total + sum(run.values["m"].get(at + k, 0) << 8 * k for k in range(4))) % 2**32
        return how != "Stopped" or [run.values[f"x{r}"] for r in range(1, 32)] + [total] != [int(n, 16) for n in numbers]

    def compare(self, graphs, machines):
        """Answers how many functions were refused, nodes there are and runs ended how; prints what differs."""
        ends, entries = dict(Ret=0, Err=0, More=0, apart=0, differ=0), list(self.names.values())
        for name, graph, wanted in zip(self.names, graphs, defined(self.code, self.names)):
            if graph != wanted:
                ends["differ"] += 1
                print(f"{self.file.name} {name}: another graph than that of the definitions", flush=True)
        for (name, registers, words), machine in zip(self.runs, machines or [None] * len(self.runs)):
            if not self.runs_to(name):
                ends["apart"] += 1
                continue
            beside = Lockstep(self.image, graphs, list(self.names).index(name), entries, self.sizes, registers, self.held(words))
            try:
                end = beside.ends(10 * self.steps)
                ends[end] += 1
                wrong = "the crates' machine ended otherwise" if machine and self.machine_differs(beside.run, end, *machine) else ""
            except (Differs, Trap) as error:
                wrong = f"{type(error).__name__} {error}"
            if wrong:
                ends["differ"] += 1
                print(f"{self.file.name} {name}: {wrong}", flush=True)
        return dict(functions=len(graphs), refused=sum(len(graph) == 2 for graph in graphs), nodes=sum(len(graph[1]) for graph in graphs if len(graph) == 3), **ends)


def by_crates(rows):
    """The graphs and the runs of the crates' machine, a list for each file; a run of the program prints at most 1 MiB."""
    files = [row.file for row in rows]
    for start in range(0, len(rows), BATCH):
        part = rows[start : start + BATCH]
        answers = ask(PROBE, CRATES, "\n".join(line for row in part for line in row.lines()) + "\n", files)
        graphs = graphs_of(line for line in answers if line.split(" ")[0] in ("refused", "function", "first", "node"))
        machines = [(line.split()[1], line.split()[2:]) for line in answers if line.startswith("run ")]
        if len(graphs) != sum(len(row.names) for row in part) or len(machines) != sum(len(row.runs) for row in part):
            sys.exit(f"the probe answered {len(graphs)} functions and {len(machines)} runs")
        for row in part:
            yield graphs[: len(row.names)], machines[: len(row.runs)]
            graphs, machines = graphs[len(row.names) :], machines[len(row.runs) :]


def main(seed=5, count=3):
    pick = random.Random(seed)
    with tempfile.TemporaryDirectory() as folder:
        files = [compiled(Path(folder), level, kind) for kind in KINDS for level in LEVELS] + list(random_files(Path(folder), pick))
        rows = [Rows(place, file, pick, count) for place, file in enumerate(files)]
        alone = ((list(defined(row.code, row.names)), None) for row in rows)
        totals = {}
        for row, (graphs, machines) in zip(rows, alone if "--definitions" in sys.argv else by_crates(rows)):
            found, kind = row.compare(graphs, machines), row.file.name.split("-")[0]
            print(f"{row.file.name}: {found}", flush=True)
            totals[kind] = {key: totals.get(kind, {}).get(key, 0) + number for key, number in found.items()}
        for kind, total in totals.items():
            print(f"{kind}: {total}")
    return any(total["differ"] for total in totals.values())


if __name__ == "__main__":
    sys.exit(main())
