#!/usr/bin/env python3
"""Compares what typing answers with a C compiler of our choices: RISC-V's gcc, 32 bits, plain `char` unsigned.

    scripts/compare_types.py types [COUNT] [SEED]         random expressions: accepted or refused, and the type of the value
    scripts/compare_types.py values [COUNT] [SEED]        random constant expressions and `sizeof`: accepted or refused, and the value
    scripts/compare_types.py statements [COUNT] [SEED]    random assignments, calls and returns: accepted or refused
    scripts/compare_types.py rows                         those of types in `crates/c_rows`, whose answers are asked of gcc alone

It is run outside the gate and needs gcc for RISC-V (Debian: gcc-riscv64-linux-gnu) on the path. The texts go to the rows'
program as it is compiled (`crates/c_rows/out/c_rows`, after `rt run` there); without it `rt try` runs it unproved. gcc is
asked with `-pedantic-errors`, so that each constraint of C11 that is violated is an error. What differs by choice is
counted by its cause, and everything else is printed.
"""

import random
import re
import subprocess
import sys
from collections import Counter
from pathlib import Path

ROOT = Path(__file__).resolve().parent.parent
ROWS = ROOT / "crates/c_rows"
GCC = ["riscv64-linux-gnu-gcc", "-march=rv32im", "-mabi=ilp32", "-funsigned-char", "-std=c11", "-pedantic-errors", "-fmax-errors=0", "-x", "c"]
BATCH = 400

DECLARATIONS = """typedef unsigned char byte;struct s{byte a;short b;int c[3];struct s*n;struct{char x,y;}d;};struct u;
enum e{E0,E1=5};enum g{G0=-1,G1};byte c;signed char sc;short h;unsigned short uh;int i;unsigned w;enum e ee;enum g eg;
int*pi;unsigned*pw;byte*pc;void*pv;int**ppi;struct s v,*ps;struct u*pu;int ai[3];unsigned aw[2][3];extern short ah[];struct s as[2];
int f0(void);int f1(int);int*fp(int*,byte);void fv(void);struct s*fs(struct s*);""".replace("\n", "")
BEFORE = "int t(int li,byte lc,int*lp,struct s*ls){"

INTEGERS = "c sc h uh i w ee eg li lc E0 E1 G0 G1".split()
POINTERS = "pi pw pc pv ppi ps pu lp ls".split()
ARRAYS = "ai aw ah as".split()
TYPES = "char,signed char,byte,short,unsigned short,int,unsigned,long,unsigned long,enum e,enum g".split(",")
POINTER_TYPES = "int*,unsigned*,byte*,void*,int**,struct s*,struct u*,char*,short*".split(",")
NUMBERS = "0 1 2 3 7 31 32 255 256 65535 65536 2147483647 2147483648u 4294967295u 0u 1u 'a' '\\0' '\\377' 010 0x7f 0xffffffff 1l 5ul".split()
BINARY = "|| && | ^ & == != < > <= >= << >> + - * / %".split()


class Maker:
    """Random expressions of a kind: integers, pointers, or anything."""

    def __init__(self, seed, is_constant=False):
        self.random, self.is_constant = random.Random(seed), is_constant

    def pick(self, words):
        return self.random.choice(words)

    def integer(self, depth):
        """An expression that is mostly an integer."""
        roll = self.random.random()
        if depth <= 0 or roll < 0.15:
            return self.pick(NUMBERS if self.is_constant or self.random.random() < 0.4 else INTEGERS)
        if roll < 0.55:
            return f"({self.operand(depth)}{self.pick(BINARY)} {self.operand(depth)})"
        if roll < 0.68:
            return f"{self.pick(['-', '+', '~', '!'])} {self.operand(depth)}"
        if roll < 0.78:
            return f"({self.pick(TYPES)}){self.operand(depth)}"
        if roll < 0.86:
            return f"({self.integer(depth - 1)}?{self.operand(depth)}:{self.operand(depth)})"
        if roll < 0.93:
            return self.size(depth - 1)
        return self.pick(NUMBERS) if self.is_constant else self.designated(depth)

    def size(self, depth):
        roll = self.random.random()
        if roll < 0.3:
            return f"sizeof({self.pick(TYPES + POINTER_TYPES + ['struct s'] * 2 + ['struct u', 'void'])})"
        inner = Maker(self.random.random())
        return f"sizeof({inner.anything(depth)})"

    def operand(self, depth):
        if self.random.random() < 0.12 and not self.is_constant:
            return self.anything(depth - 1)
        return self.integer(depth - 1)

    def designated(self, depth):
        """An object."""
        return self.pick(
            [
                lambda: f"*{self.pointer(depth - 1)}",
                lambda: f"{self.pointer(depth - 1)}[{self.integer(depth - 1)}]",
                lambda: f"{self.pick(ARRAYS)}[{self.integer(depth - 1)}]",
                lambda: f"aw[{self.integer(depth - 1)}][{self.integer(depth - 1)}]",
                lambda: f"{self.integer(depth - 1)}[{self.pick(ARRAYS)}]",
                lambda: f"{self.pick(['v', '(*ps)', 'as[1]', 'ps[0]'])}.{self.pick(['a', 'b', 'c[1]', 'd.x', 'n->a'])}",
                lambda: f"{self.pick(['ps', 'ls', 'as', 'v.n', 'ps->n'])}->{self.pick(['a', 'b', 'c[2]', 'd.y', 'n', 'c', 'd'])}",
                lambda: self.pick(["v", "*ps", "*pv", "*pu", "pu[0]", "pi->a", "v->a", "ps.a", "i.a", "ai.a"]),
            ]
        )()

    def pointer(self, depth):
        roll = self.random.random()
        if depth <= 0 or roll < 0.35:
            return self.pick(POINTERS + ARRAYS)
        if roll < 0.5:
            return f"({self.pointer(depth - 1)}{self.pick(['+', '-'])} {self.integer(depth - 1)})"
        if roll < 0.55:
            return f"({self.integer(depth - 1)}+ {self.pointer(depth - 1)})"
        if roll < 0.65:
            return f"({self.pick(POINTER_TYPES)}){self.operand(depth)}"
        if roll < 0.8:
            return f"& {self.designated(depth)}"
        if roll < 0.88:
            return f"({self.integer(depth - 1)}?{self.pointer(depth - 1)}:{self.pick(['0', '(void*)0', self.pointer(depth - 1)])})"
        if roll < 0.92:
            return self.pick(["0", "(void*)0", "(void*)(1-1)", "1", "(int*)0"])
        return self.pick(["ps->c", "v.c", "as[0].n", "aw[1]", "*aw", "*ppi", "ps->n"])

    def anything(self, depth):
        return self.pick([self.integer, self.integer, self.pointer, self.designated])(depth)


def ours(rows):
    """What the rows' program finds for each question and text."""
    text = "".join(f"{question} | ? | {unit}\n" for question, unit in rows)
    program = ROWS / "out/c_rows"
    command = [str(program)] if program.exists() else ["rt", "try", "--seconds", "3600"]
    ran = subprocess.run(command, cwd=ROWS, input=text, capture_output=True, text=True)
    found = [line[2:].strip() for line in ran.stdout.splitlines() if line.startswith("? ") or line == "?"]
    if len(found) != len(rows):
        sys.exit(f"{len(rows)} rows and {len(found)} answers: {ran.stdout[-2000:]}{ran.stderr[-2000:]}")
    return found


def compiled(source, *words):
    return subprocess.run(GCC + list(words) + ["-"], input=source, capture_output=True, text=True)


def refused(before, lines, after):
    """The first error of each line that gcc refuses, by the line's number, and the lines in which it warns of an overflow."""
    errors, overflows = {}, set()
    for start in range(0, len(lines), BATCH):
        part = lines[start : start + BATCH]
        ran = compiled(before + "\n" + "\n".join(part) + "\n" + after + "\n", "-fsyntax-only")
        for line, message in re.findall(r"^<stdin>:(\d+):\d+: (?:fatal )?error: (.*)$", ran.stderr, re.MULTILINE):
            number = int(line) - 2
            if not 0 <= number < len(part):
                sys.exit(f"an error outside the lines: {message}")
            errors.setdefault(start + number, message)
        for line in re.findall(r"^<stdin>:(\d+):\d+: warning: integer overflow in expression", ran.stderr, re.MULTILINE):
            overflows.add(start + int(line) - 2)
    return errors, overflows


def words(before, terms, after):
    """The values of constant expressions, as gcc puts them into a table of words; in a function it is used by `use`."""
    values = []
    for start in range(0, len(terms), BATCH):
        part = terms[start : start + BATCH]
        use = "use=table;" if after else "const int*use=table;"
        source = f"{before}\nstatic const int table[]={{{', '.join(part)},-77777}};{use}\n{after}\n"
        ran = compiled(source, "-S", "-o", "-")
        if ran.returncode:
            sys.exit(f"gcc refuses a table: {ran.stderr[:2000]}")
        made = []
        for line in ran.stdout[re.search(r"^table[.\d]*:", ran.stdout, re.MULTILINE).end() :].splitlines():
            found = line.split()
            if found[:1] == [".word"]:
                made.append(int(found[1]))
            elif found[:1] == [".zero"]:
                made += [0] * (int(found[1]) // 4)
            if made[-1:] == [-77777]:
                break
        if len(made) != len(part) + 1:
            sys.exit(f"{len(part)} terms and {len(made)} words")
        values += made[:-1]
    return values


# ---- what differs by choice

# By our answer, where gcc accepts: forms that are left out.
CHOSEN = ("LeftOut.", "AddressOfLocal", "TooManyWords", "Fallthrough")


def by_choice(name, text, answer, error, has_overflow):
    """Why an answer differs from gcc's by choice, or None; gcc warns of an overflow in the text or not."""
    if error is None and answer.startswith(CHOSEN):
        return answer.split(" at ")[0]
    if error is None and answer.startswith("Incomplete") and re.search(r"\*|\[", text):
        return "a value of type void"
    if error is None and answer.startswith("Mismatch") and "(void)" in text:
        return "a cast to void inside an expression"
    # gcc takes a constant with such a shift that is evaluated, and refuses one where it is not.
    if name == "values" and re.search("<<|>>", text) and (error is None and answer.startswith("Mismatch") or error and "constant expression" in error):
        return "a shift count outside the width, or a left shift of bits that are lost"
    # gcc warns of an overflow that is evaluated, and refuses the constant only where its value shows it.
    if name == "values" and error is None and answer.startswith("Mismatch") and has_overflow:
        return "an overflow inside a constant whose value doesn't show it (6.5p5, 6.6p4)"
    if error is not None and not re.search(r" at \d+$", answer):
        if "discards" in error or "signedness" in error:
            return "const, or pointers to char and unsigned char"
        if re.search(r"\blong\b|\bchar\b", text) and re.search("incompatible|distinct pointer types|pointer type mismatch", error):
            return "pointers to long or char, which are int and unsigned char"
        if "<<" in text and "makes pointer from integer" in error:
            return "a left shift of bits that are lost, by which a constant is 0"
        if "no members" in error:
            return "a struct without members"
    return None


def compare(name, texts, answers, found):
    """Prints where gcc accepts and we refuse, and the other way; the numbers of the texts that both accept."""
    errors, overflows = found
    both, chosen, differ, kinds = [], Counter(), 0, Counter()
    for number, (text, answer) in enumerate(zip(texts, answers)):
        error, is_refused = errors.get(number), bool(re.search(r" at \d+$", answer))
        kinds[answer.split(" at ")[0] if is_refused else "accepted"] += 1
        if (error is not None) == is_refused:
            if not is_refused:
                both.append(number)
            continue
        cause = by_choice(name, text, answer, error, number in overflows)
        if cause:
            chosen[cause] += 1
            continue
        differ += 1
        if differ <= 20:
            print(f"{text}\n  here: {answer}\n  gcc: {error or 'accepts it'}")
    print(f"{name}: {len(texts)} texts, {dict(sorted(kinds.items()))}; by choice: {dict(sorted(chosen.items()))}; differ: {differ}")
    return both, differ


# ---- the comparisons

GENERIC = "char:108,unsigned char:108,signed char:208,short:216,unsigned short:116,int:232,long:232,unsigned:132,unsigned long:132,default:132"
SCALARS = {108: "u8", 116: "u16", 132: "u32", 208: "i8", 216: "i16", 232: "i32"}


def compare_types(count, seed):
    maker = Maker(seed)
    texts = [maker.anything(4) for _ in range(count)]
    answers = ours([("types t", DECLARATIONS + BEFORE + text + ";return 0;}") for text in texts])
    found = refused(DECLARATIONS + BEFORE, [text + ";" for text in texts], "return 0;}")
    both, differ = compare("types", texts, answers, found)
    table = words(DECLARATIONS + "const int*use;" + BEFORE, [f"_Generic(({texts[number]}),{GENERIC})" for number in both], "return 0;}")
    for number, code in zip(both, table):
        if answers[number] != SCALARS[code]:
            differ += 1
            print(f"{texts[number]}\n  here: {answers[number]}\n  gcc: {SCALARS[code]}")
    print(f"types that were compared: {len(both)}")
    return differ


def compare_values(count, seed):
    maker = Maker(seed, is_constant=True)
    globals_alone = re.compile(r"\b(li|lc|lp|ls)\b")
    texts = []
    while len(texts) < count:
        text = maker.integer(4) if len(texts) % 3 else maker.size(3)
        if not globals_alone.search(text):
            texts.append(text)
    answers = ours([("names", f"{DECLARATIONS}enum{{Z={text}}};") for text in texts])
    found = refused(DECLARATIONS, [f"enum{{Z{number}={text}}};" for number, text in enumerate(texts)], "")
    both, differ = compare("values", texts, answers, found)
    table = words(DECLARATIONS, [f"(int)({texts[number]})" for number in both], "")
    for number, value in zip(both, table):
        found = re.search(r"\bZ=(-?\d+)", answers[number])
        if not found or int(found[1]) != value:
            differ += 1
            print(f"{texts[number]}\n  here: {answers[number]}\n  gcc: {value}")
    print(f"values that were compared: {len(both)}")
    return differ


LVALUES = "c sc h uh i w ee eg li lc *pi *pc pw[1] ai[2] aw[1][i] ah[0] v.b ps->c[i] (*ls).d.x as[1].a pi[li]".split()
PAIRS = [("pi", "lp"), ("pw", "&w"), ("pc", "&c"), ("pv", "ps"), ("*ppi", "pi"), ("ps", "as+1"), ("pu", "0"), ("ls", "v.n"), ("v.n", "&v"), ("pi", "ai"), ("pv", "pu"), ("pi", "pv")]


def assigned(maker):
    """An object and a value that mostly fits."""
    roll = maker.random.random()
    if roll < 0.5:
        return maker.pick(LVALUES), maker.integer(3)
    if roll < 0.65:
        return maker.pick(PAIRS)
    if roll < 0.8:
        return maker.pick(LVALUES + POINTERS), maker.anything(3)
    target = maker.pick([lambda: maker.pick(INTEGERS + POINTERS + ARRAYS), lambda: maker.designated(2), lambda: f"({maker.anything(1)})"])()
    return target, maker.anything(2)


def statement(maker):
    roll, (target, value) = maker.random.random(), assigned(maker)
    if roll < 0.4:
        return f"{target}={value};"
    if roll < 0.55:
        return f"{target}{maker.pick(['+', '-', '*', '/', '%', '<<', '>>', '&', '^', '|'])}={maker.integer(2)};"
    if roll < 0.62:
        return f"{target}{maker.pick(['++', '--'])};"
    if roll < 0.72:
        return f"{maker.pick(['fp', 'fp', 'f1', 'f0', 'fs'])}({', '.join([value, maker.integer(2)][: maker.random.randrange(3)])});"
    if roll < 0.78:
        return f"{maker.pick(INTEGERS + POINTERS)}={maker.pick(['fp(pi,1)', 'f1(i)', 'f0()', 'fs(ps)', 'fv()'])};"
    if roll < 0.9:
        return f"{{{maker.pick(TYPES + POINTER_TYPES)} x={maker.pick([value, maker.integer(2), maker.pointer(2)])};}}"
    if roll < 0.95:
        return f"return {value};"
    return f"{maker.pick(['if', 'while', 'switch'])}({value}){{}}"


def compare_statements(count, seed):
    maker = Maker(seed)
    texts = [statement(maker) for _ in range(count)]
    answers = ours([("check", DECLARATIONS + BEFORE + text + "return 0;}") for text in texts])
    errors, overflows = refused(DECLARATIONS + BEFORE, texts, "return 0;}")
    unlike_grammar = [number for number, answer in enumerate(answers) if answer.startswith(("Unexpected", "LeftOut("))]
    for number in unlike_grammar:
        answers[number] = "fine" if number not in errors else "outside the grammar at 0"
    return compare("statements", texts, answers, (errors, overflows))[1]


# ---- rows

# A text of more bytes takes gcc long.
LONG = 2000


def expanded(row):
    """The text of a row, with its repeated pieces."""
    pieces = row.split("`")
    for number in range(1, len(pieces), 2):
        count, _, piece = pieces[number].partition("*")
        pieces[number] = "".join(piece.replace("#", str(i)) for i in range(int(count)))
    return "".join(pieces)


def row_by_gcc(question, answer, text):
    """What gcc says of a row: an error, or what differs, or None."""
    ran = compiled(text + "\n", "-fsyntax-only")
    error = re.search(r"error: (.*)", ran.stderr)
    if error:
        return error[1]
    if question == "names":
        found = re.findall(r"(\w+)=(?:(object|typedef) )?(-?\d+)\b", answer)
        asked = [f"(int)sizeof({name})" if kind else f"(int)({name})" for name, kind, _ in found]
        made = words(text, asked, "") if asked else []
        return None if made == [int(value) for _, _, value in found] else f"{made}"
    if question.startswith("types"):
        start = text.index("){") + 2
        before, body = text[:start], text[start:-1]
        values = [part for part in body.split(";") if part and not part.startswith("(void)")]
        if len(values) != len(answer.split()):
            return None
        made = words(before.replace("void f(", "const int*use;void f("), [f"_Generic(({value}),{GENERIC})" for value in values], "}")
        return None if [SCALARS[code] for code in made] == answer.split() else f"{[SCALARS[code] for code in made]}"
    return None


def compare_rows():
    counted, shown, is_choice = Counter(), 0, False
    for line in (ROWS / "stdin").read_text().splitlines():
        if line.startswith("#"):
            is_choice = line.startswith("# by choice")
            continue
        if line.split(" ")[0] not in ("check", "counts", "bodies", "structs", "names", "types"):
            continue
        question, answer, row = line.split(" | ", 2)
        text = expanded(row)
        if len(text) > LONG:
            counted["not asked of gcc: too long"] += 1
            continue
        found = row_by_gcc(question, answer, text)
        is_refused = bool(re.search(r"(at |@)\d+$", answer))
        if (found is not None) == is_refused:
            counted["as gcc has it"] += 1
        elif is_choice:
            counted["by choice"] += 1
        elif is_refused and answer.startswith(CHOSEN + ("Depth",)):
            counted["left out"] += 1
        else:
            shown += 1
            print(f"{line[:300]}\n  gcc: {found or 'accepts it'}")
    print(f"rows: {dict(counted)}; to look at: {shown}")
    return 0


def main(words_given):
    kind = words_given[0] if words_given else ""
    numbers = [int(word) for word in words_given[1:]] + [0, 0]
    count, seed = numbers[0] or 3500, numbers[1]
    if kind == "rows":
        return compare_rows()
    made = {"types": compare_types, "values": compare_values, "statements": compare_statements}.get(kind)
    return made(count, seed) if made else print(__doc__) or 2


if __name__ == "__main__":
    sys.exit(bool(main(sys.argv[1:])))
