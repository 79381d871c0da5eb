#!/usr/bin/env python3
"""Measures `tv` on inputs at its limits: what it answers, how long it takes, and its peak of memory.

    scripts/measure_limits.py [--seconds N] [--only TEXT] PROGRAM      PROGRAM is `tv` as it is compiled

- each nest that is legal, of expressions, types and statements, at the limits of docs/FORMATS.md, and one deeper;
- 4 MiB of C of each dense kind (those of `measure_types.py` and `measure_syntax.py`), whole and with a fault at the end;
- 16 MiB of executables, names that agree in both ends or are ends of one text, 65,534 segments, functions of many instructions and branches, 4,096 functions;
- 65,534 runs of fixed bytes, which a store tests, and the certificate of such a proof, or one with the least logs; 65,500
  of them, nearly as many as a graph has nodes for, also beside a source that stores something else;
- certificates: terms and proofs at depth 128 and one deeper, 64 MiB of each kind of line, good and with a fault at the end.

The stack is limited to 8 MiB. Each row is an input: the command, its bytes, the first line of the report and the status,
processor seconds and MiB; a run is given up after so many of them (600). Status 1 where a run ends by a signal or with a
status that isn't one of the program's, where a nest at a limit is refused or one above it isn't, or where a `check` is
given up (a search may be). It is run outside the gate and needs GNU time (Debian: time). PROGRAM may lack the command
`check`: then its rows say `refused words`.
"""

import argparse
import resource
import struct
import sys
import tempfile
from pathlib import Path

from compare_compilers import Asked
from machine import tiny

sys.argv[1:], WORDS = [], sys.argv[1:]
from measure_certificates import ROWS as LINES  # noqa: E402
from measure_syntax import dense, usual  # noqa: E402
from measure_types import TEXTS  # noqa: E402

MIB = 1 << 20
C_LIMIT, ELF_LIMIT, CERTIFICATE_LIMIT = 4 * MIB, 16 * MIB, 64 * MIB
RET, ADD, NOP = 0x00008067, 0x00B50533, 0x00000013
STORE_WORD, STORE_BYTE = 0x00B52023, 0x00B50023  # sw a1,0(a0); sb a1,0(a0)
EXAMPLE = Path(__file__).resolve().parent.parent / "examples/counter"
SUM = "unsigned f(unsigned a,unsigned b){return a+b;}"
WRITE = "void f(unsigned *p,unsigned v){*p=v;}"
WRITE_BYTE, WRONG_BYTE = (f"void f(unsigned char *p,unsigned char v){{*p={value};}}" for value in ("v", "v+1"))
FRONT = "tv-cert 1\nfunction f stack 0\n"
LEAF = "leaf 3\nlog 0\nlog 0\nlog 0\n"


# ---- nests: a number of levels to a text; the greatest number that is legal

HEAD = "unsigned f(unsigned a){"
POINTER = "unsigned f(unsigned*p,unsigned a){"
EXPRESSIONS = {
    "brackets": (127, lambda n: f"{HEAD}return {'(' * n}a{')' * n};}}"),
    "sums to the right": (64, lambda n: f"{HEAD}return {'a+(' * n}a{')' * n};}}"),
    "sums to the left": (64, lambda n: f"{HEAD}return {'(' * n}a{'+a)' * n};}}"),
    "sums without brackets": (128, lambda n: f"{HEAD}return a{'+a' * n};}}"),
    "complements": (128, lambda n: f"{HEAD}return {'~' * n}a;}}"),
    "negations": (128, lambda n: f"{HEAD}return {'!' * n}a;}}"),
    "minus": (128, lambda n: f"{HEAD}return {'- ' * n}a;}}"),
    "casts": (128, lambda n: f"{HEAD}return {'(unsigned)' * n}a;}}"),
    "narrowing casts": (128, lambda n: f"{HEAD}return {'(unsigned char)(short)' * (n // 2)}a;}}"),
    "choices to the right": (128, lambda n: f"{HEAD}return {'a?a:' * n}a;}}"),
    "choices in the middle": (128, lambda n: f"{HEAD}return {'a?' * n}a{':a' * n};}}"),
    "choices in conditions": (64, lambda n: f"{HEAD}return {'(' * n}a{'?a:a)' * n};}}"),
    "and": (128, lambda n: f"{HEAD}return a{'&&a' * n};}}"),
    "or and and": (128, lambda n: f"{HEAD}return a{'&&a||a' * (n // 2)};}}"),
    "comparisons": (128, lambda n: f"{HEAD}return a{'<a' * n};}}"),
    "shifts": (128, lambda n: f"{HEAD}return a{'>>1' * n};}}"),
    "quotients": (128, lambda n: f"{HEAD}return a{'/3' * n};}}"),
    "products": (128, lambda n: f"{HEAD}return a{'*a' * n};}}"),
    "indices": (127, lambda n: f"{POINTER}return {'p[' * n}a{']' * n};}}"),
    "loads through addresses": (128, lambda n: f"unsigned f(unsigned*p){{return {'*&' * (n // 2)}*p;}}" if n % 2 else f"unsigned f(unsigned**p){{return {'*&' * (n // 2 - 1)}**p;}}"),
    "pointers to pointers": (128, lambda n: f"unsigned f(unsigned{'*' * n}p){{return {'*' * n}p;}}"),
    "members": (128, lambda n: f"struct s{{struct s*m;unsigned v;}};unsigned f(struct s*p){{return p{'->m' * (n - 1)}->v;}}"),
    "sizes of sizes": (128, lambda n: f"{HEAD}return {'sizeof ' * n}a;}}"),
}
STATEMENTS = {
    "blocks": (128, lambda n: f"{HEAD}{'{' * (n - 1)}return a;{'}' * (n - 1)}}}"),
    "if": (126, lambda n: f"{HEAD}{'if(a)' * n}a=1;return a;}}"),
    "if with blocks": (63, lambda n: f"{HEAD}{'if(a){' * n}a=1;{'}' * n}return a;}}"),
    "if with else inside": (126, lambda n: f"{HEAD}{'if(a)' * n}a=1;{'else a=2;' * n}return a;}}"),
    "else if": (63, lambda n: f"{HEAD}{'if(a<9)a=1;else ' * n}a=3;return a;}}"),
    "while": (126, lambda n: f"{HEAD}{'while(a)' * n}a=0;return a;}}"),
    "do": (126, lambda n: f"{HEAD}{'do ' * n}a=0;{'while(a);' * n}return a;}}"),
    "for": (126, lambda n: f"{HEAD}{'for(;a;)' * n}a=0;return a;}}"),
    "switch": (63, lambda n: f"{HEAD}{'switch(a){case 1:' * n}a=0;{'break;}' * n}return a;}}"),
}
TYPES = {
    "structs in one another": (128, lambda n: f"{'struct{' * n}unsigned v;{'}m;' * (n - 1)}}}x;unsigned f(void){{return x{'.m' * (n - 1)}.v;}}"),
    "enumerations in one another": (64, lambda n: "".join(f"enum{{A{i}=sizeof(" for i in range(n)) + f"unsigned{')}' * n};unsigned f(void){{return A0;}}"),
    "initial values in one another": (128, lambda n: f"unsigned x[]={'{' * n}1{'}' * n};unsigned f(void){{return 0;}}"),
}


def chains(size):
    """Types that are deep by their declarations, which nothing limits."""
    yield "typedefs of pointers", "typedef int t0;" + "".join(f"typedef t{n}*t{n + 1};" for n in range(size)) + f"unsigned f(t{size} p){{return (unsigned)p;}}"
    yield "typedefs of arrays", "typedef int t0;" + "".join(f"typedef t{n} t{n + 1}[1];" for n in range(size)) + f"t{size} x;unsigned f(void){{return sizeof x;}}"
    yield "structs of structs", "struct s0{int a;};" + "".join(f"struct s{n + 1}{{struct s{n} a;}};" for n in range(size)) + f"struct s{size} x;unsigned f(void){{return sizeof x;}}"
    yield "stars", f"unsigned f(int{'*' * size}p){{return (unsigned)p;}}"
    yield "dimensions", f"extern int x{'[1]' * (size // 2)};unsigned f(void){{return sizeof x;}}"


# ---- executables


def function_words(count):
    """A function that adds so often."""
    return [ADD] * count + [RET]


def branches(count):
    """Diamonds in a row."""
    branch = 0x63 | 8 << 7 | 10 << 15 | 11 << 20
    return [word for _ in range(count) for word in (branch, ADD)] + [RET]


def many_functions(count):
    """An executable and a source with so many sums."""
    names = [f"f{n}" for n in range(count)]
    source = "".join(f"unsigned {name}(unsigned a,unsigned b){{return a+b;}}\n" for name in names)
    return executable([(name, [ADD, RET]) for name in names]), source


def alike(count, defined):
    """An executable with so many sums whose names have one length and agree in their first and last eight bytes, and a source
    with the first few of them."""
    names = [f"abcdefgh{n:06}abcdefgh" for n in range(count)]
    source = "".join(f"unsigned {name}(unsigned a,unsigned b){{return a+b;}}\n" for name in names[:defined])
    return executable([(name, [ADD, RET]) for name in names]), source


def executable(functions, more=b"", symbols=0, headers=0, runs=0, objects=0, text=0):
    """Functions in one segment; bytes more in it, symbols more, segments of zeros that may be written more, and segments
    more of one byte that may not, two bytes apart: each is a run of fixed bytes; and objects more, whose names are the
    longest ends of a text of so many bytes."""
    code, table, names = bytearray(), bytearray(16), bytearray(b"\0")
    for name, words in functions:
        table += struct.pack("<IIIBBH", len(names), 0x10000 + len(code), 4 * len(words), 0x12, 0, 1)
        code += b"".join(w.to_bytes(4, "little") for w in words)
        names += name.encode() + b"\0"
    table += struct.pack("<IIIBBH", 1, 0x10000, 0, 0x10, 0, 1) * symbols
    table += b"".join(struct.pack("<IIIBBH", len(names) + n, 0x10000, 4, 0x11, 0, 1) for n in range(objects))
    names += b"a" * text + b"\0" * (text > 0)
    code += more
    begin = 52 + 32 * (1 + headers + runs)
    strings = begin + len(code) + len(table)
    sections = strings + len(names) + -len(names) % 4
    made = b"\x7fELF\1\1\1" + bytes(9)
    made += struct.pack("<HHIIIIIHHHHHH", 2, 243, 1, 0, 52, sections, 0, 52, 32, 1 + headers + runs, 40, 3, 0)
    made += struct.pack("<8I", 1, begin, 0x10000, 0x10000, len(code), len(code), 5, 4)
    made += b"".join(struct.pack("<8I", 1, 0, 0x4000000 + 16 * n, 0, 0, 16, 6, 4) for n in range(headers))
    made += b"".join(struct.pack("<8I", 1, begin, 0x8000000 + 2 * n, 0, 1, 1, 4, 1) for n in range(runs))
    made += code + table + names + bytes(-len(names) % 4) + bytes(40)
    made += struct.pack("<10I", 0, 2, 0, 0, begin + len(code), len(table), 2, 1, 4, 16)
    return made + struct.pack("<10I", 0, 3, 0, 0, strings, len(names), 0, 0, 1, 0)


# ---- certificates


def deep_term(n):
    return f"{FRONT}case {'(not ' * (n - 1)}(eq p0 p1){')' * (n - 1)}\n{LEAF}{LEAF}end\n"


def deep_proof(n):
    return FRONT + "case (eq p0 p1)\n" * (n - 1) + LEAF * n + "end\n"


def broad(size):
    """A proof of cases in one another, 16 deep, over and over at depth 100: as many as fit."""
    if size < 200:
        return LEAF
    part = broad((size - 16) // 2)
    return "case (eq p0 p1)\n" + part + part


def padded(text, size):
    """The certificate with the first step of its longest log repeated before that log's last step, as often as fits; the
    hints of the last step number clauses before these, so they stay."""
    lines = text.split("\n")
    at = max((i for i, line in enumerate(lines) if line.startswith("log ")), key=lambda i: int(lines[i][4:]))
    count, first = int(lines[at][4:]), lines[at + 1]
    more = (size - len(text) - 8) // (len(first) + 1)
    return "\n".join([*lines[:at], f"log {count + more}", *lines[at + 1 : at + count], *[first] * more, *lines[at + count :]])


# ---- runs


class Rows:
    def __init__(self, options, folder):
        self.options, self.folder, self.wrong = options, folder, 0
        self.elf, self.c, self.cert = folder / "e", folder / "c", folder / "k"

    def run(self, name, words, size, wanted=None):
        made = Asked([self.options.program, *map(str, words)], self.options.seconds)
        said = made.report.split("\n")[0][:60]
        last = made.report.strip().split("\n")[-1] if said.startswith(("valid", "unproved")) else ""
        answer = f"{said}{'; ' + last if last and last != said else ''}; {made.status}" if made.status is not None else "given up"
        is_open = made.status is None and words[0] == "prove"
        good = is_open or made.status in range(8) and (wanted is None or wanted(made))
        self.wrong += not good
        print(f"| {name} | {words[0]} | {size} | {answer} | {made.seconds:.2f} | {made.mib:.0f} |{'' if good else ' WRONG'}", flush=True)

    def asked(self, name):
        return self.options.only in name

    def prove(self, name, source, elf, wanted=None, size=None):
        if self.asked(name):
            self.elf.write_bytes(elf)
            self.c.write_text(source)
            self.run(name, ["prove", self.elf, self.c, "--cert", self.folder / "o"], size or len(source), wanted)

    def check(self, name, certificate, wanted=None, elf=tiny([ADD, RET]), source=SUM):
        if self.asked(name):
            self.elf.write_bytes(elf)
            self.c.write_text(source)
            text = certificate() if callable(certificate) else certificate
            self.cert.write_text(text)
            self.run(name, ["check", self.elf, self.c, self.cert], len(text), wanted)


def is_read(made):
    return not made.report.startswith("refused")


def is_deep(made):
    return made.report.startswith("refused c Depth")


def nests(rows):
    elf = tiny([RET], objects=[("x", 0x20000, 4)])
    for kind, family in (("expression", EXPRESSIONS), ("statement", STATEMENTS), ("type", TYPES)):
        for name, (most, text) in family.items():
            rows.prove(f"{kind}, {name}: {most}", text(most), elf, is_read)
            rows.prove(f"{kind}, {name}: {most + 2}", text(most + 2), elf, is_deep)


def sources(rows):
    elf = tiny([RET])
    for name, text in TEXTS.items():
        made = text(C_LIMIT)
        rows.prove(f"4 MiB, {name}", made, elf)
        rows.prove(f"4 MiB with a fault at the end, {name}", made[: C_LIMIT - 2] + " ?", elf)
    for name, made in (("usual C", usual(C_LIMIT, 10)), ("usual C, 10,000 typedef names", usual(C_LIMIT, 10000)), ("small functions", dense(C_LIMIT))):
        rows.prove(f"4 MiB, {name}", made, elf)
    rows.prove("4 MiB, one function of statements", f"{HEAD}{'a=a+1;' * ((C_LIMIT - 40) // 6)}return a;}}", elf)
    rows.prove("21,000 statements", f"{HEAD}{'a=a+1;' * 21000}return a;}}", elf)
    rows.prove("20,000 statements that choose", f"{HEAD}{'if(a)a=a+1;' * 20000}return a;}}", elf)
    for size in (1000, 10000, 50000):
        for name, text in chains(size):
            rows.prove(f"{size} {name}", text, elf)
    rows.prove("one byte above 4 MiB", " " * (C_LIMIT + 1), elf, lambda made: made.status == 7)


def executables(rows):
    def prove(name, elf, source=SUM, wanted=None):
        rows.prove(name, source, elf, wanted, len(elf))

    f = [("f", [ADD, RET])]
    least = len(executable(f))
    prove("16 MiB of data", executable(f, more=bytes(ELF_LIMIT - least)))
    prove("16 MiB of symbols", executable(f, symbols=(ELF_LIMIT - least) // 16))
    prove("200,000 functions with names that agree in both ends, 3,000 listed", *alike(200000, 3000), lambda made: made.status == 0 and made.seconds < 10)
    prove("480,000 objects whose names are ends of one text of 8 MiB", executable(f, objects=480000, text=8 * MIB), wanted=lambda made: made.status == 0 and made.seconds < 10)
    prove("65,533 segments", executable(f, headers=65533))
    prove("one byte above 16 MiB", executable(f, more=bytes(ELF_LIMIT - least + 4)), wanted=lambda made: made.status == 7)
    prove("a function of 4,000,000 instructions", executable([("f", function_words(4000000))]))
    for count in (1000, 4000, 16000, 65000):
        prove(f"a function of {count} instructions", executable([("f", function_words(count))]))
    for count in (1, 10, 100, 1000, 10000, 20000, 25000, 65534):
        store = executable([("f", [STORE_WORD, RET])], runs=count - 1)
        (rows.folder / "o").unlink(missing_ok=True)
        prove(f"a store, {count} runs of fixed bytes", store, WRITE)
        found = (rows.folder / "o").read_text() if rows.asked("runs of fixed bytes") and (rows.folder / "o").exists() else ""
        least = FRONT + LEAF + "end\n"
        rows.check(f"a store, {count} runs of fixed bytes, least logs", least, elf=store, source=WRITE)
        if "\nleaf" in found:
            rows.check(f"a store, {count} runs of fixed bytes, as found", found, lambda made: made.status == 0, store, WRITE)
    store = executable([("f", [STORE_BYTE, RET])], runs=65499)
    prove("a store of a byte, 65500 runs of fixed bytes", store, WRITE_BYTE)
    prove("a wrong store of a byte, 65500 runs of fixed bytes", store, WRONG_BYTE)
    rows.check("a store of a byte, 65500 runs of fixed bytes, least logs", FRONT + LEAF + "end\n", elf=store, source=WRITE_BYTE)
    for count in (10, 100, 1000, 10000, 21000):
        prove(f"a function of {count} branches in a row", executable([("f", branches(count))]))
    for count in (512, 1024, 2048, 4096):
        elf, source = many_functions(count)
        prove(f"{count} functions", elf, source)
        if rows.asked("functions") and (rows.folder / "o").exists():
            rows.check(f"{count} functions", (rows.folder / "o").read_text(), elf=elf, source=source)


def steps(rows):
    """A proof with steps, as long as it may be, where `prove` finds one of the example."""
    if not rows.asked("a proof with steps"):
        return
    elf, source = (EXAMPLE / "counter.elf").read_bytes(), (EXAMPLE / "counter.c").read_text()
    rows.prove("a proof with steps", source, elf)
    text = (rows.folder / "o").read_text() if (rows.folder / "o").exists() else ""
    if "\ns " not in text:
        print("no proof with steps is found, so none is made longer", flush=True)
        return
    for size in (MIB, 16 * MIB, CERTIFICATE_LIMIT):
        made = padded(text, size)
        rows.check(f"a proof with steps, {size >> 20} MiB", made, lambda made: made.status in (0, 2), elf, source)
        rows.check(f"a proof with steps and a fault at the end, {size >> 20} MiB", made + "?", lambda made: made.status in (2, 6, 7), elf, source)


def certificates(rows):
    rows.check("the certificate of a sum", FRONT + LEAF + "end\n")
    rows.check("a term at depth 128", deep_term(128), lambda made: made.status != 6)
    rows.check("a term at depth 130", deep_term(130), lambda made: made.status in (2, 6))
    rows.check("a proof at depth 128", deep_proof(128), lambda made: made.status != 6)
    rows.check("a proof at depth 130", deep_proof(130), lambda made: made.status in (2, 6))
    for size in (20, 22, 24):
        rows.check(f"a proof of cases, {1 << size - 20} MiB", lambda: FRONT + broad(1 << size) + "end\n")
    for name, make, piece in LINES:
        for fault in ("", "?"):
            front, middle, back = make(piece, CERTIFICATE_LIMIT // len(piece) - 40)
            text = lambda: (front + piece * (CERTIFICATE_LIMIT // len(piece) - 40) + back).replace("|", "\n") + fault
            rows.check(f"64 MiB{' with a fault at the end' if fault else ''}, {name}", text)
    steps(rows)
    rows.check("one byte above 64 MiB", lambda: " " * (CERTIFICATE_LIMIT + 1), lambda made: made.status in (2, 7))


def main():
    words = argparse.ArgumentParser(usage=__doc__)
    words.add_argument("program")
    words.add_argument("--seconds", default=600, type=int)
    words.add_argument("--only", default="")
    options = words.parse_args(WORDS)
    options.program = str(Path(options.program).resolve())
    resource.setrlimit(resource.RLIMIT_STACK, (8 * MIB, 8 * MIB))
    titles = ["Input", "Command", "Bytes", "Answer; status", "Seconds", "MiB"]
    print("| " + " | ".join(titles) + " |\n" + "|---" * len(titles) + "|")
    with tempfile.TemporaryDirectory() as folder:
        rows = Rows(options, Path(folder))
        nests(rows)
        sources(rows)
        executables(rows)
        certificates(rows)
    print(f"{rows.wrong} wrong")
    return bool(rows.wrong)


if __name__ == "__main__":
    sys.exit(main())
