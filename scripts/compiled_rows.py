#!/usr/bin/env python3
"""Prints rows of code_rows on functions that gcc and clang compile: `switch` by tables, and trees of calls.

    scripts/compiled_rows.py          (Debian: gcc-riscv64-unknown-elf, binutils-riscv64-unknown-elf, clang, lld)

A row has the words of a function, of those that it reaches, and of the tables by which they jump, as `row_io` reads them.
Of functions that differ in nothing but the address of the table the first one has a row. What the rows are expected to print is `check_code.py`'s.
`executables` makes the same files for `compare_files.py`, all of them.
"""

import subprocess
import tempfile
from itertools import product
from pathlib import Path

from machine import Image
from reach import Code

FLAGS = "-march=rv32im -mabi=ilp32 -ffreestanding -nostdlib -static".split()
CLANG = ["clang", "--target=riscv32-unknown-elf"]
GCC = ["riscv64-unknown-elf-gcc", "-msmall-data-limit=0", "-Wl,-Ttext=0x10000"]
COMPILERS = {"gcc": GCC + ["-Wl,--no-relax"], "clang": CLANG + ["-fuse-ld=lld", "-mno-relax"]}
LEVELS = ("-O1", "-O2", "-Os")

# ---- switches

TYPES = {"unsigned": (0, "unsigned"), "signed": (-2, "int"), "letters": (ord("a"), "unsigned char")}
COUNTS = (4, 5, 16, 300)
BODIES = "b^{0}u b+{0}u b*{0}u b&{0}u b|{0}u b-(a^{0}u) b/{0}u (b<<3)^{0}u".split()
# of the switches with so many cases these alone have rows
LONG = "gcc-O2-unsigned_300_default gcc-Os-letters_300 clang-O1-signed_300 clang-Os-unsigned_300_default".split()


def switch(kind, count, default):
    """A function of a switch with so many cases, which do what no table of values does."""
    first, name = TYPES[kind]
    cases = "".join(f"case {first + i}:return {BODIES[(5 * i + i // 8) % 8].format(2 * i + 3)};" for i in range(count))
    argument = "int" if count > 200 else name
    called = f"{kind}_{count}{'_default' if default else ''}"
    return f"unsigned {called}({argument} a,unsigned b){{switch(a){{{cases}{'default:return 9u;' if default else ''}}}return b;}}\n"


SWITCHES = "".join(switch(*row) for row in product(TYPES, COUNTS, (True, False)))


# ---- calls

TREE = """
#define F __attribute__((noinline)) unsigned
F leaf(unsigned a) { return a * 5 + 1; }
F twig(unsigned a, unsigned b) { return leaf(a) ^ leaf(b); }
F last(unsigned a, unsigned b) { return twig(b, a + 1); }
F branch(unsigned a, unsigned b) { if (a & 1) return last(a, b); return twig(a, b) + leaf(a); }
F chosen(unsigned a, unsigned b) { switch (a) { case 0: return leaf(b); case 1: return twig(b, b); case 2: return branch(b, 3); case 3: return last(b, 7);
    case 4: return leaf(b) + 1; case 5: return b; default: return branch(a, b); } }
F f(unsigned a, unsigned b) { unsigned s = 0; for (unsigned i = 0; i < (b & 15); i++) s += branch(a, i) - chosen(i, a); return s; }
"""
# clang's objects are linked by GNU ld too, which makes one JAL of a pair
LINKS = {
    "gcc-relaxed": GCC,
    "gcc-pairs": COMPILERS["gcc"],
    "clang-relaxed": CLANG + ["-fuse-ld=/usr/bin/riscv64-unknown-elf-ld", "-mrelax", "-Wl,-melf32lriscv", "-Wl,-Ttext=0x10000"],
    "clang-pairs": COMPILERS["clang"],
}


# ---- executables


def compiled(folder, words, level, text):
    (folder / "source.c").write_text(text + "void _start(void){for(;;);}\n")
    subprocess.run([*words, *FLAGS, level, "source.c", "-o", "file"], cwd=folder, check=True, stderr=subprocess.DEVNULL)
    return (folder / "file").read_bytes()


def executables():
    """Names and executables."""
    with tempfile.TemporaryDirectory() as room:
        for name, level in product(COMPILERS, LEVELS):
            yield f"{name}{level}", compiled(Path(room), COMPILERS[name], level, SWITCHES)
        for name, level in product(LINKS, LEVELS):
            yield f"{name}{level}", compiled(Path(room), LINKS[name], level, TREE)


def code_of(data):
    """The code of an executable, and its functions' entries by their names."""
    image, sizes = Image(data), {}
    for value, size in image.functions.values():
        sizes[value] = max(size, sizes.get(value, 0))
    return Code(image.fixed, sizes), {name: value for name, (value, _) in image.functions.items()}


def parts(code, entry):
    """What a row has of the function at an entry."""
    found, _ = code.reach(entry)
    needed, places = {}, [(one, code.sizes[one], 5) for one in found]
    for one in found:
        flows = [code.flow(one, address) for address in found[one].addresses]
        for jump in (flow[1] for flow in flows if flow and flow[0] == "switches"):
            places.append((jump.first, 4 * len(jump.targets), 4))
    for first, size, flags in places:
        needed |= {address: flags for address in range(first, first + size, 4)}
    words, before = [], None
    for address in sorted(needed):
        if before != (address - 4, needed[address]):
            words.append(f"{address:x}:{needed[address]}")
        words.append(f"{code.word(address):08x}")
        before = address, needed[address]
    entries = [entry] + sorted(set(found) - {entry})
    return " ".join(words + [f"{one:x}+{code.sizes[one]:x}" for one in entries])


def main():
    seen = set()
    for name, data in executables():
        code, entries = code_of(data)
        for function, entry in entries.items():
            # of the trees of calls the function that reaches all
            if function == "_start" or len(entries) < 10 and function != "f" or "_300" in function and f"{name}-{function}" not in LONG:
                continue
            row, kinds = parts(code, entry), [code.instruction(address) for address in range(entry, entry + code.sizes[entry], 4)]
            alike = (name.split("-O")[0], function, *[kind[: -1 if kind[0] in ("lui", "addi") else None] for kind in kinds])
            if alike not in seen:
                print(f"{name}-{function.replace('_', '-')}: code {row}", flush=True)
            seen.add(alike)


if __name__ == "__main__":
    main()
