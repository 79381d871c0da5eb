#!/usr/bin/env python3
"""Compares what is read of real executables with what GNU readelf and objdump show.

    scripts/compare_files.py [--survey]

It compiles one source with gcc and, where they are there, clang and lld, at four levels each, and the switches and trees
of calls of `compiled_rows.py`. The segments and symbols are to be readelf's; the code lists, the reached functions, the
stacks and the first faults are to be what follows by the definitions (`reach.py`) from objdump's text. It prints for
each executable how many answers agreed, and how many functions are read since tables are. It is run outside the gate
and needs `rt`, riscv64-unknown-elf-gcc and its binutils on the path.
"""

import re
import shutil
import subprocess
import sys
import tempfile
from pathlib import Path

import compiled_rows
from probe import ask
from reach import ARITHMETIC, BRANCHES, IMMEDIATES, LOADS, SHIFTS, STORES, Code, first, stack

CRATES = ["attempt", "elf_read", "code_reach"]

SOURCE = """
typedef unsigned u32; typedef unsigned char u8;
static u32 counter; u32 buffer[64]; const char name[] = "validator";
u32 fib(u32 n) { return n < 2 ? n : fib(n - 1) + fib(n - 2); }
void bump(void) { counter++; }
u32 sum(const u32 *p, u32 n) { u32 s = 0; for (u32 i = 0; i < n; i++) s += p[i]; return s; }
__attribute__((weak)) u32 weak(u32 x) { return x ^ 1; }
u32 divide(u32 a, u32 b) { return b ? a / b : 0; }
void copy(u8 *to, const u8 *from, u32 n) { while (n--) *to++ = *from++; }
u32 crc(const u8 *p, u32 n) { u32 c = ~0u; for (u32 i = 0; i < n; i++) { c ^= p[i]; for (int k = 0; k < 8; k++) c = c & 1 ? (c >> 1) ^ 0xedb88320u : c >> 1; } return ~c; }
u32 pick(u32 x) { switch (x) { case 0: return 7; case 1: return 3; case 2: return 9; case 3: return 12; case 4: return 1; case 5: return 77; case 6: bump(); return 8; default: return 0; } }
void sort(u32 *a, u32 n) { for (u32 i = 1; i < n; i++) { u32 v = a[i], j = i; while (j && a[j-1] > v) { a[j] = a[j-1]; j--; } a[j] = v; } }
u32 through(u32 (*f)(u32), u32 x) { return f(x) + 1; }
u32 even(u32 n); u32 odd(u32 n) { return n ? even(n - 1) + 2 : 0; } u32 even(u32 n) { return n ? odd(n - 1) + 3 : 1; }
u32 gcd(u32 a, u32 b) { while (b) { u32 t = a % b; a = b; b = t; } return a; }
u32 find(const char *s, char c) { u32 i = 0; for (; s[i]; i++) if (s[i] == c) return i; return ~0u; }
u32 many(u32 a, u32 b, u32 c, u32 d, u32 e, u32 f, u32 g, u32 h) { volatile u32 t[16]; for (u32 i = 0; i < 16; i++) t[i] = a * i + b; return t[c & 15] + t[d & 15] + e + f + g + h + sum((const u32 *)t, 16); }
int compare(int a, int b) { return a < b ? -1 : a > b; }
u32 wrap(u32 x) { return gcd(x, 12) + divide(x, 3); }
u32 deep(u32 x) { volatile u32 t[40]; t[x & 7] = wrap(x); return t[0] + many(x, x, x, x, 1, 2, 3, 4); }
void _start(void) { bump(); buffer[0] = fib(3) + sum(buffer, 64) + weak(1) + divide(7, 2) + (u8)name[1] + crc((const u8 *)buffer, 16) + pick(3) + through(weak, 2) + odd(5) + find(name, 'd') + compare(1, 2) + deep(9); sort(buffer, 4); copy((u8 *)buffer, (const u8 *)name, 4); }
"""
FLAGS = ["-march=rv32im", "-mabi=ilp32", "-ffreestanding", "-nostdlib", "-fno-builtin", "-fno-inline", "-static"]

PROBE = r"""//! Lists segments, symbols, and code, reached functions and stack of each function of executables.
#![tactic(auto)]

use attempt::Refusal;
use code_reach::{code, reach, stack};
use elf_read::read;
use std::env;
use std::fs;

fn main(rt: HostRuntime) -> anyhow::Result<()> {
    let words = env::args(&rt)?.collect::<Vec<String>>(rt.alloc())?;
    for at in 1..words.as_slice().len() {
        let Some(name) = words.get(at) else { break };
        println!(rt; "= file {name}")?;
        let bytes = fs::read(&rt, name.as_str())?;
        let image = match read(rt.alloc(), bytes.as_slice()) {
            Ok(image) => image,
            Err(Refusal::Fault(fault)) => {
                println!(rt; "= refused {fault:?}")?;
                continue;
            }
            Err(Refusal::NoMemory) => {
                println!(rt; "= refused no memory")?;
                continue;
            }
        };
        for place in 0..1000000usize {
            let Some(segment) = image.segment(place) else { break };
            println!(rt; "= segment {} {} {} {}", segment.vaddr, segment.memsz, segment.flags, segment.bytes.len())?;
        }
        for place in 0..1000000usize {
            let Some(symbol) = image.symbol(place) else { break };
            println!(rt; "= symbol {} {} {} {:?}", symbol.value, symbol.size, symbol.kind, symbol.name)?;
        }
        for place in 0..1000000usize {
            let Some(symbol) = image.symbol(place) else { break };
            if symbol.kind != 2 || image.size_at(symbol.value).is_none() {
                continue;
            }
            println!(rt; "= function {}", symbol.value)?;
            match code(rt.alloc(), &image, symbol.value) {
                Ok(found) => {
                    for &(address, word) in found.iter() {
                        println!(rt; "= word {address} {word}")?;
                    }
                }
                Err(Refusal::Fault(fault)) => println!(rt; "= code {fault}")?,
                Err(Refusal::NoMemory) => println!(rt; "= code no memory")?,
            }
            match reach(rt.alloc(), &image, symbol.value) {
                Ok(found) => {
                    for &entry in found.iter() {
                        println!(rt; "= entry {entry}")?;
                    }
                }
                Err(Refusal::Fault(fault)) => println!(rt; "= reach {fault}")?,
                Err(Refusal::NoMemory) => println!(rt; "= reach no memory")?,
            }
            match stack(rt.alloc(), &image, symbol.value) {
                Ok(Some(depth)) => println!(rt; "= depth {depth}")?,
                Ok(None) => println!(rt; "= cycle")?,
                Err(Refusal::Fault(fault)) => println!(rt; "= stack {fault}")?,
                Err(Refusal::NoMemory) => println!(rt; "= stack no memory")?,
            }
        }
    }
    Ok(())
}
"""


def probe(files):
    """What the crates answer for each function of each file."""
    answers = {}
    for line in ask(PROBE, CRATES, files=files):
        if not line.startswith("= "):
            continue
        kind, _, rest = line[2:].partition(" ")
        if kind == "file":
            functions, segments, symbols = answers[rest] = {}, [], []
        elif kind == "refused":
            sys.exit(f"an executable was refused: {rest}")
        elif kind == "segment":
            segments.append(tuple(map(int, rest.split())))
        elif kind == "symbol":
            numbers, _, name = rest.partition(" [")
            symbols.append((*map(int, numbers.split()), bytes(map(int, name.rstrip("]").replace(",", " ").split())).decode()))
        elif kind == "function":
            now = functions[int(rest)] = {"word": [], "entry": []}
        elif kind == "word":
            now["word"].append(tuple(map(int, rest.split())))
        elif kind == "entry":
            now["entry"].append(int(rest))
        else:
            now[kind] = rest
    return answers


# ---- the same from the text of readelf and objdump

KINDS = {"NOTYPE": 0, "OBJECT": 1, "FUNC": 2, "SECTION": 3, "FILE": 4}


def image(file):
    """Segments and defined symbols, as readelf shows them."""
    shown = subprocess.run(["riscv64-unknown-elf-readelf", "-lsW", str(file)], capture_output=True, text=True, check=True).stdout
    segments, symbols = [], []
    for line in shown.splitlines():
        words = line.split()
        if words[:1] == ["LOAD"]:
            flags = sum({"R": 4, "W": 2, "E": 1}[letter] for letter in "".join(words[6:-1]))
            segments.append((int(words[2], 16), int(words[5], 16), flags, int(words[4], 16)))
        found = re.match(r"\s+\d+: ([0-9a-f]{8})\s+(\d+) (\S+)\s+\S+\s+\S+\s+(\S+)\s*(.*)$", line)
        if found and found[4] != "UND":
            symbols.append((int(found[1], 16), int(found[2]), KINDS[found[3]], "" if found[3] == "SECTION" else found[5]))
    return segments, symbols


def shown(file, *options):
    return subprocess.run(["riscv64-unknown-elf-objdump", *options, str(file)], capture_output=True, text=True, check=True).stdout.splitlines()


def instruction(address, name, words):
    """The instruction of a line of objdump's text, as `reach.decode` has it; None where it is no word of RV32IM."""
    operands = re.findall(r"-?(?:0x)?[0-9a-f]+(?![0-9a-fx])", words.replace("(", ",").replace("x", "").replace(" ", "")) if name in ("jal", *BRANCHES.values()) else []
    if operands:
        *registers, target = operands
        return (name, *map(int, registers), int(target, 16) - address)
    operands = [int(word.removeprefix("x") if re.fullmatch(r"x\d+", word) else word, 0) for word in re.findall(r"x\d+|-?0x[0-9a-f]+|-?\d+", words)]
    if name in ("lui", "auipc"):
        return name, operands[0], operands[1] << 12
    if name == "jalr" or name in LOADS.values() or name in STORES.values():
        return name, operands[0], operands[2], operands[1]
    if name in IMMEDIATES.values() or name in SHIFTS.values() or name in ARITHMETIC.values():
        return (name, *operands)
    return (name,) if name in ("fence", "ecall", "ebreak") else None


class Shown(Code):
    """The functions of an executable, as objdump shows them."""

    def __init__(self, file, with_tables=True):
        fixed, sizes, self.at = {}, {}, {}
        for line in shown(file, "-d", "-M", "no-aliases,numeric"):
            found = re.match(r"\s*([0-9a-f]+):\s+([0-9a-f]{8})\s+(\S+)\s*(.*)$", line)
            if found:
                self.at[int(found[1], 16)] = instruction(int(found[1], 16), found[3], re.split(r"\s+[<#]", found[4])[0])
        for line in shown(file, "-t"):
            found = re.match(r"([0-9a-f]{8}) .{6}F \S+\s+([0-9a-f]{8}) ", line)
            if found:
                sizes[int(found[1], 16)] = max(int(found[2], 16), sizes.get(int(found[1], 16), 0))
        kept = [(vaddr, vaddr + filesz) for vaddr, _, flags, filesz in image(file)[0] if not flags & 2]
        for line in shown(file, "-s"):
            found = re.match(r" ([0-9a-f]{4,8}) ((?:[0-9a-f]{2,8} ){1,4})", line)
            here = int(found[1], 16) if found else 0
            if any(low <= here < high for low, high in kept):
                fixed.update(enumerate(bytes.fromhex(found[2]), here))
        super().__init__(fixed, sizes, with_tables)

    def instruction(self, address):
        return self.at.get(address)

    def answers(self, entry):
        """What the probe is to answer for the function."""
        fault = lambda faults: "{} at {}".format(*first(faults))
        own, (found, faults) = self.function(entry), self.reach(entry)
        wanted = {"word": [], "entry": []}
        wanted.update({"code": fault(own.faults)} if own.faults else {"word": [(address, self.word(address)) for address in own.addresses]})
        if faults:
            return {**wanted, "reach": fault(faults), "stack": fault(faults)}
        depth = stack(found, entry)
        return {**wanted, "entry": sorted(found), **({"cycle": ""} if depth is None else {"depth": str(depth)})}


def executables(folder):
    """The source, compiled and linked."""
    source = folder / "source.c"
    source.write_text(SOURCE)
    compilers = {"gcc": ["riscv64-unknown-elf-gcc", "-Wl,--no-relax", "-msmall-data-limit=0"]}
    if shutil.which("clang") and shutil.which("ld.lld"):
        compilers["clang"] = ["clang", "--target=riscv32-unknown-elf", "-fuse-ld=lld", "-mno-relax"]
    for name, words in compilers.items():
        machine = [word for word in words if not word.startswith("-Wl") and not word.startswith("-fuse")]
        for level in ("0", "1", "2", "s"):
            # calls as the compiler makes them, by pairs of instructions, and by one JAL each
            for calls in ("pairs", "direct"):
                text, file = folder / "source.s", folder / f"{name}-O{level}-{calls}.elf"
                subprocess.run([*machine, *FLAGS, f"-O{level}", "-S", "-o", text, source], check=True, stderr=subprocess.DEVNULL)
                if calls == "direct":
                    text.write_text(re.sub(r"(?m)^\s+call\s+(\w+)(@plt)?$", r"\tjal \1", text.read_text()))
                subprocess.run([*words, *FLAGS, "-o", file, text], check=True, stderr=subprocess.DEVNULL)
                yield file
    for name, data in compiled_rows.executables():
        file = folder / f"{name}.elf"
        file.write_bytes(data)
        yield file


def survey(file):
    """How many functions are read by tables: they, or what they reach, were at fault without."""
    code, without = Shown(file), Shown(file, with_tables=False)
    own = [entry for entry in code.sizes if without.function(entry).faults and not code.function(entry).faults]
    reaching = [entry for entry in code.sizes if without.reach(entry)[1] and not code.reach(entry)[1]]
    left = [first(code.function(entry).faults)[0] for entry in code.sizes if code.function(entry).faults]
    return len(code.sizes), len(own), len(reaching), {kind: left.count(kind) for kind in sorted(set(left))}


def main():
    wrong = 0
    with tempfile.TemporaryDirectory() as folder:
        files = list(executables(Path(folder)))
        for file in files:
            print("{}: {} functions, {} read by tables, {} with what they reach; still at fault: {}".format(file.name, *survey(file)), flush=True)
        if "--survey" in sys.argv:
            return
        answers = probe(files)
        for file in files:
            code, agreed, lists, kinds = Shown(file), 0, 0, {}
            functions, segments, symbols = answers[file.name]
            if (segments, symbols) != image(file) or sorted(code.sizes) != sorted(functions):
                wrong += 1
                print(f"WRONG {file.name}: other segments, symbols or functions")
            for entry, got in sorted(functions.items()):
                wanted = code.answers(entry)
                lists += "code" not in wanted
                for kind in ("code", "reach", "cycle"):
                    if kind in wanted:
                        name = f"{kind} {wanted[kind].split(' ')[0]}".strip()
                        kinds[name] = kinds.get(name, 0) + 1
                if got == wanted:
                    agreed += 1
                else:
                    wrong += 1
                    print(f"WRONG {file.name} at {entry:x}: " + str({k: (got.get(k), wanted.get(k)) for k in {*got, *wanted} if got.get(k) != wanted.get(k)}))
            print(f"{file.name}: {len(segments)} segments, {len(symbols)} symbols; {agreed} functions agree, {lists} with a list of code; {kinds}")
    print(f"{wrong} wrong")
    sys.exit(wrong != 0)


main()
