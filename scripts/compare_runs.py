#!/usr/bin/env python3
"""Compares C runs with compiled code: random programs of the subset, by the evaluator and by gcc for RISC-V under qemu.

    scripts/compare_runs.py results [COUNT] [SEED] [PROGRAM]    where a call returns: its value, and the bytes of all globals
    scripts/compare_runs.py guards [COUNT] [SEED] [PROGRAM]     where it breaks a guard on arithmetic or an index: gcc's sanitizer traps, else not

gcc folds constant products, and narrows an operation whose result is converted, before it instruments them. So a call that
breaks guard 2 (signed overflow) and doesn't trap is run once more with `+`, `-` and `*` written out by gcc's functions that
report overflow, which it can't narrow. Those that trap then are counted apart; the others differ.

It is run outside the gate and needs gcc for RISC-V and qemu (Debian: gcc-riscv64-linux-gnu, qemu-user) on the path, and
the program `c_rows`, or what `rt run` has built in its crate. The programs have loops, calls, `switch`, structs, arrays,
pointers into globals and all integer types, and are compiled with and without optimisation. A process a processor works
on some of the programs at a time, at the lowest priority.
"""

import os
import random
import re
import subprocess
import sys
import tempfile
from collections import Counter
from concurrent.futures import ProcessPoolExecutor
from pathlib import Path

ROOT = Path(__file__).resolve().parent.parent
PROGRAM = Path(sys.argv[4]) if len(sys.argv) > 4 else ROOT / "crates/c_rows/out/c_rows"
GCC = "riscv64-linux-gnu-gcc -march=rv32im -mabi=ilp32 -funsigned-char -fno-strict-aliasing -ffreestanding -nostdlib -static -Wl,--no-relax -w".split()
DEFINED = ["-fwrapv"]
TRAPS = ["-fsanitize=signed-integer-overflow,integer-divide-by-zero,shift-exponent,bounds-strict", "-fsanitize-undefined-trap-on-error"]
SANITIZED = ("SignedOverflow", "Division", "ShiftCount", "Index")
BATCH = 250
# An operation of a program as it is made: its marks, with the operands between them.
OPEN, BETWEEN, CLOSE = "\ue000", "\ue001", "\ue002"
OPERATION = re.compile("{0}([^{0}{1}{2}]*){1}([^{0}{1}{2}]*){1}([^{0}{1}{2}]*){2}".format(OPEN, BETWEEN, CLOSE))
ARGUMENTS = [0, 1, 2, 3, -1, -2, 7, 31, 32, 100, 255, 256, 32767, 65535, 65536, 2147483647, -2147483648, 12345678, -987654321]
TYPES = ["char", "signed char", "unsigned char", "short", "unsigned short", "int", "unsigned", "long", "unsigned long"]
SIZES = {"char": 1, "signed char": 1, "unsigned char": 1, "short": 2, "unsigned short": 2}


def operation(left, operator, right):
    return f"{OPEN}{left}{BETWEEN}{operator}{BETWEEN}{right}{CLOSE}"


def plain(left, operator, right):
    """An operation as C has it."""
    if operator in ("++", "--"):
        return f"{left}{operator};"
    if operator.endswith("=") and operator not in ("==", "!=", ">="):
        return f"{left}{operator}{right};"
    return f"({left}{operator} {right})" if left else f"{operator}({right})"


# Operations that may overflow, with the overflow tested; their operands have no side effects.
CHECKED = {
    "+": lambda left, right: f"ADDED({left},{right})",
    "-": lambda left, right: f"SUBTRACTED({left or 0},{right})",
    "*": lambda left, right: f"MULTIPLIED({left},{right})",
    "+=": lambda left, right: f"{left}=ADDED({left},{right});",
    "-=": lambda left, right: f"{left}=SUBTRACTED({left},{right});",
    "*=": lambda left, right: f"{left}=MULTIPLIED({left},{right});",
    "++": lambda left, right: f"{left}=ADDED({left},1);",
    "--": lambda left, right: f"{left}=SUBTRACTED({left},1);",
}


def written(text, forms):
    """The text of a program, whose operations have the forms that are given, or are plain."""

    def one(found):
        left, operator, right = found.groups()
        if operator in forms and (left or operator != "+"):
            return forms[operator](left, right)
        return plain(left, operator, right)

    while OPEN in text:
        text = OPERATION.sub(one, text)
    return text


class Program:
    """A random program: functions h and f, and the globals that they share. Names end with the program's number."""

    def __init__(self, number, seed):
        self.random, self.number, self.loops = random.Random(seed), number, 0
        pick = self.pick
        self.scalars = [(pick(TYPES), f"g{k}_{number}", "") for k in range(4)]
        self.arrays = [("int", f"a_{number}", 8), (pick(TYPES), f"b_{number}", 8)]
        self.struct = f"v_{number}"
        self.pointer = f"p_{number}"
        declared = "".join(f"{kind} {name};" for kind, name, _ in self.scalars)
        declared += "".join(f"{kind} {name}[{count}];" for kind, name, count in self.arrays)
        declared += f"struct s_{number}{{char c;short h;int x;unsigned short m[3];struct{{signed char y;unsigned z;}}d[2];}}{self.struct},*q_{number};int*{self.pointer};"
        self.helper = f"h_{number}"
        body = f"{self.kind()} {self.helper}({self.kind()} a,{self.kind()} b){{{self.statements(['a', 'b'], [], 2, 3, False)}return {self.value(['a', 'b'], 2)};}}"
        self.name = f"f_{number}"
        start = f"{self.pointer}=a_{number};q_{number}=&{self.struct};"
        body += f"{self.kind()} {self.name}({self.kind()} a,{self.kind()} b){{{start}{self.statements(['a', 'b'], [], 3, 5, True)}return {self.value(['a', 'b'], 3)};}}"
        self.text = declared + written(body, {})
        self.checked = declared + written(body, CHECKED)

    def pick(self, words):
        return self.random.choice(words)

    def kind(self):
        return self.pick(TYPES)

    def globals(self):
        """The globals that are compared: their names and sizes."""
        made = [(name, SIZES.get(kind, 4)) for kind, name, _ in self.scalars]
        return made + [(name, SIZES.get(kind, 4) * count) for kind, name, count in self.arrays] + [(self.struct, 32)]

    def object(self, names, depth):
        number, index = self.number, lambda: self.value(names, depth - 1)
        return self.pick(
            [
                lambda: self.pick(self.scalars)[1],
                lambda: f"a_{number}[{index()}&7]",
                lambda: f"b_{number}[({index()})&{self.pick([7] * 14 + [15])}]",
                lambda: f"{self.struct}.{self.pick(['c', 'h', 'x', 'm[1]', 'd[1].y', 'd[0].z'])}",
                lambda: f"q_{number}->{self.pick(['c', 'h', 'x', f'm[({index()})&1]', f'd[({index()})&1].z'])}",
                lambda: f"(*({self.pointer}+(({index()})&7)))",
                lambda: f"{self.pointer}[({index()})&7]",
            ]
        )()

    def value(self, names, depth):
        roll = self.random.random()
        if depth <= 0 or roll < 0.2:
            return self.pick(names + [self.pick(self.scalars)[1]] + [str(self.random.randrange(20)), self.pick(["255", "65535", "1000000u", "0x80000000", "'x'", "3u"])])
        x, y = self.value(names, depth - 1), self.value(names, depth - 1)
        if roll < 0.5:
            return operation(x, self.pick(["+", "-", "*", "&", "|", "^", "<", ">=", "==", "!=", "&&", "||"]), y)
        if roll < 0.58:
            return f"({x}{self.pick(['/', '%'])}({y}{self.pick(['|1'] * 14 + [''])}))"
        if roll < 0.66:
            return f"({x}{self.pick(['<<', '>>'])}({y}{self.pick(['&31'] * 8 + ['&7'] * 6 + [''])}))"
        if roll < 0.74:
            return operation("", self.pick(["-", "~", "!", "+"]), x)
        if roll < 0.82:
            return f"({self.kind()})({x})"
        if roll < 0.88:
            return f"({x}?{y}:{self.value(names, depth - 1)})"
        return self.object(names, depth)

    def statements(self, names, fixed, depth, count, calls):
        """Statements over locals, of which the fixed ones count loops and are not assigned to."""
        return "".join(self.statement(names, fixed, depth, calls) for _ in range(count))

    def target(self, names, fixed, depth):
        plain = [name for name in names if name not in fixed]
        return self.pick(plain) if plain and self.random.random() < 0.5 else self.object(names, depth)

    def statement(self, names, fixed, depth, calls):
        roll, inner = self.random.random(), list(names)
        x = self.value(names, 2)
        if roll < 0.3 or depth <= 0:
            return f"{self.target(names, fixed, 1)}={x};"
        if roll < 0.42:
            return operation(self.target(names, fixed, 1), self.pick(["+", "-", "^", "|", "&", "*"]) + "=", x)
        if roll < 0.48:
            return operation(self.target(names, fixed, 1), self.pick(["++", "--"]), "")
        if roll < 0.6:
            return f"if({x}){{{self.statements(inner, fixed, depth - 1, 2, calls)}}}else{{{self.statements(inner, fixed, depth - 1, 1, calls)}}}"
        if roll < 0.76:
            return self.loop(names, fixed, depth, calls)
        if roll < 0.84:
            cases = "".join(f"case {n}:{self.statements(inner, fixed, depth - 1, 1, calls)}break;" for n in self.random.sample(range(6), 3))
            return f"switch(({x})&{self.pick([3, 7])}){{{cases}default:{self.statements(inner, fixed, depth - 1, 1, calls)}}}"
        if roll < 0.92 and calls:
            plain = self.pick([name for name in names if name not in fixed] + [self.pick(self.scalars)[1]])
            return f"{plain}={self.helper}({x},{self.value(names, 1)});"
        name = f"x{self.random.randrange(1000)}"
        inner += [name]
        return f"{{{self.kind()} {name}={x};{self.statements(inner, fixed, depth - 1, 2, calls)}}}"

    def loop(self, names, fixed, depth, calls):
        self.loops += 1
        i = f"i{self.loops}"
        inner, held = names + [i], fixed + [i]
        body = self.statements(inner, held, depth - 1, 2, calls)
        leave = f"if({self.value(inner, 1)}){self.pick(['break', 'continue'])};"
        count = self.random.randrange(1, 6)
        if self.random.random() < 0.6:
            return f"for(int {i}=0;{i}<{count};{i}++){{{body}{leave}}}"
        if self.random.random() < 0.5:
            return f"{{int {i}={count};while({i}){{{i}--;{body}{leave}}}}}"
        return f"{{int {i}=0;do{{{i}++;{body}{leave}}}while({i}<{count});}}"


def ours(cases):
    """The outcomes of calls of programs."""
    rows = []
    for program, first, second in cases:
        at, given, shown = 4096, [], []
        for name, size in program.globals() + [(f"q_{program.number}", 4), (program.pointer, 4)]:
            given.append(f"{name}@{at}")
            if name[0] not in "qp":
                shown.append(f"{at}+{size}")
            at += 64
        rows.append(f"run {program.name} {first} {second} turns*100000 {' '.join(given)} {' '.join(shown)} | ? | {program.text}\n")
    done = subprocess.run([str(PROGRAM)], input="".join(rows), capture_output=True, text=True)
    found = [line[2:].strip() for line in done.stdout.splitlines() if line.startswith("? ")]
    if len(found) != len(rows):
        raise RuntimeError(f"{len(rows)} calls and {len(found)} outcomes: {done.stdout[-2000:]}{done.stderr[-2000:]}")
    return found


# Calls the case whose number is the input, or all of them, and prints a line for each.
HARNESS = r"""
static long system_call(long n,long a,long b,long c){register long x asm("a0")=a;register long y asm("a1")=b;register long z asm("a2")=c;register long w asm("a7")=n;
  asm volatile("ecall":"+r"(x):"r"(y),"r"(z),"r"(w):"memory");return x;}
void*memset(void*p,int v,unsigned n){char*q=p;while(n--)*q++=v;return p;}
static char text[4096];static unsigned length;
static void put(char c){text[length++]=c;}
static void put_hex(const unsigned char*p,unsigned n){put(' ');while(n--){put("0123456789abcdef"[*p>>4]);put("0123456789abcdef"[*p&15]);p++;}}
static void put_number(int is_unsigned,unsigned n){char d[12];int k=0;if(!is_unsigned&&(int)n<0){put('-');n=-n;}do{d[k++]='0'+n%10;n/=10;}while(n);while(k)put(d[--k]);}
static void end_line(void){put('\n');system_call(64,1,(long)text,length);length=0;}
#define TESTED(overflows,op,x,y)({__auto_type x_=(x);__auto_type y_=(y);__typeof__(x_ op y_)r_;if(overflows((__typeof__(r_))x_,(__typeof__(r_))y_,&r_)&&(__typeof__(r_))-1<0)__builtin_trap();r_;})
#define ADDED(x,y)TESTED(__builtin_add_overflow,+,x,y)
#define SUBTRACTED(x,y)TESTED(__builtin_sub_overflow,-,x,y)
#define MULTIPLIED(x,y)TESTED(__builtin_mul_overflow,*,x,y)
"""


def compiled(folder, name, cases, flags, is_checked=False):
    """The program that calls cases."""
    source = [HARNESS] + list(dict.fromkeys(program.checked if is_checked else program.text for program, _, _ in cases))
    calls = []
    for number, (program, first, second) in enumerate(cases):
        clear = "".join(f"memset(&{name},0,sizeof {name});" for name, _ in program.globals())
        show = "".join(f"put_hex((unsigned char*)&{name},{size});" for name, size in program.globals())
        value = f"{program.name}({first if first != -2147483648 else '(-2147483647-1)'},{second if second != -2147483648 else '(-2147483647-1)'})"
        calls.append(f"static void c{number}(void){{{clear}__typeof__({value}) r={value};put_number((__typeof__(r))-1>0,r);{show}end_line();}}")
    table = ",".join(f"c{number}" for number in range(len(cases)))
    source += calls + [f"static void(*const table[])(void)={{{table}}};"]
    source += [f"void _start(void){{int n;if(system_call(63,0,(long)&n,4)==4)table[n]();else for(n=0;n<{len(cases)};n++)table[n]();system_call(93,0,0,0);}}"]
    path = Path(folder, f"{name}.c")
    path.write_text("\n".join(source))
    ran = subprocess.run(GCC + flags + ["-o", str(path.with_suffix("")), str(path)], capture_output=True, text=True)
    if ran.returncode:
        raise RuntimeError(f"gcc refuses the programs: {ran.stderr[:2000]}")
    return path.with_suffix("")


def ran(program, number=None):
    """What a run prints, and its status."""
    given = b"" if number is None else number.to_bytes(4, "little")
    done = subprocess.run(["qemu-riscv32", str(program)], input=given, capture_output=True)
    return done.stdout.decode().splitlines(), done.returncode


def batch(start, end, seed):
    """The programs with these numbers, each with two calls."""
    programs = [Program(number, seed * 1000003 + number) for number in range(start, end)]
    return converted([(program, program.pick(ARGUMENTS), program.pick(ARGUMENTS)) for program in programs for _ in range(2)])


def converted(cases):
    """Calls whose arguments are in the range of their parameters' types."""
    made = []
    for program, *given in cases:
        types = re.search(rf"{program.name}\((.*?) a,(.*?) b\)", program.text).groups()
        values = []
        for kind, value in zip(types, given):
            bits = 8 * SIZES.get(kind, 4)
            is_signed = kind in ("signed char", "short", "int", "long")
            value %= 2**bits
            values.append(value - 2**bits if is_signed and value >= 2 ** (bits - 1) else value)
        made.append((program, *values))
    return made


def kind_of(outcome):
    if " at " in outcome:
        return outcome.split(" at ")[0]
    return "returned" if outcome[0] in "-0123456789" else outcome


def compared(start, end, seed, is_results):
    """Of the programs with these numbers: how many calls have which outcome, what is printed of those that differ, and how
    many trap only where operations are written out."""
    cases = batch(start, end, seed)
    outcomes = ours(cases)
    with tempfile.TemporaryDirectory() as folder:
        return Counter(map(kind_of, outcomes)), *(results if is_results else guards)(folder, cases, outcomes)


def compare(count, seed, is_results):
    counted, differ, folded = Counter(), 0, 0
    with ProcessPoolExecutor(initializer=os.nice, initargs=(19,)) as pool:
        starts = range(0, count, BATCH)
        for kinds, told, apart in pool.map(compared, starts, [min(count, start + BATCH) for start in starts], [seed] * len(starts), [is_results] * len(starts)):
            counted += kinds
            differ += len(told)
            folded += apart
            print("".join(told), end="", flush=True)
    also = "" if is_results else f"; signed overflows that gcc folds or narrows: {folded}"
    print(f"{count} programs, each called twice: {dict(sorted(counted.items()))}{also}; differ: {differ}")
    return differ


def say(case, ours, theirs):
    return f"{case[0].text}\n  {case[0].name} {case[1]} {case[2]}\n  here: {ours}\n  gcc: {theirs}\n"


def results(folder, cases, outcomes):
    """The calls that return and differ from compiled ones."""
    kept = [number for number, outcome in enumerate(outcomes) if kind_of(outcome) == "returned"]
    differ = []
    for name, flags in (("plain", ["-O0"]), ("fast", ["-O2"])):
        lines, status = ran(compiled(folder, name, [cases[number] for number in kept], flags + DEFINED))
        if len(lines) != len(kept) or status:
            raise RuntimeError(f"{len(kept)} calls and {len(lines)} lines, status {status}")
        differ += [say(cases[number], outcomes[number], line) for number, line in zip(kept, lines) if outcomes[number] != line]
    return differ, 0


def guards(folder, cases, outcomes):
    """The calls that trap where no guard is broken, or the other way, and how many trap only where operations are written out."""
    kept = [number for number, outcome in enumerate(outcomes) if kind_of(outcome) in ("returned",) + SANITIZED]
    program = compiled(folder, "traps", [cases[number] for number in kept], ["-O0"] + TRAPS)
    differ, unseen = [], []
    for place, number in enumerate(kept):
        lines, status = ran(program, place)
        if status == 0 and kind_of(outcomes[number]) == "SignedOverflow":
            unseen.append(number)
        elif (status != 0) != (kind_of(outcomes[number]) != "returned"):
            differ.append(say(cases[number], outcomes[number], f"status {status}"))
    if not unseen:
        return differ, 0
    program = compiled(folder, "checked", [cases[number] for number in unseen], ["-O0"] + TRAPS, True)
    missed = [number for place, number in enumerate(unseen) if ran(program, place)[1] == 0]
    differ += [say(cases[number], outcomes[number], "status 0, also where operations are written out") for number in missed]
    return differ, len(unseen) - len(missed)


def main(words):
    kind = words[0] if words else ""
    count, seed = ([int(word) for word in words[1:3]] + [0, 0])[:2]
    if kind not in ("results", "guards"):
        return print(__doc__) or 2
    return compare(count or 2000, seed, kind == "results")


if __name__ == "__main__":
    sys.exit(bool(main(sys.argv[1:])))
