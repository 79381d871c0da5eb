#!/usr/bin/env python3
"""Compares the tokens of C with a second lexer, written apart from the language's rules, and with gcc.

    scripts/compare_tokens.py sources      over preprocessed headers and programs, whole and in pieces
    scripts/compare_tokens.py mutations    over pieces of these with random changes
    scripts/compare_tokens.py constants    values and types of random constants, and which are none, by gcc

It is run outside the gate and needs `rt` and gcc (one that takes -m32) on the path.
"""

import random
import re
import shutil
import subprocess
import sys
import tempfile
from pathlib import Path

from probe import ask

CRATES = ["attempt", "c_token"]

# Reads lines of hexadecimal bytes, each a text, and prints for each its fault, or its tokens: after `!`
# all of them, else their count and a sum over the bytes in which they would be printed.
PROBE = r"""//! Prints the tokens of texts that are lines of hexadecimal bytes.
#![tactic(auto)]

use attempt::Refusal;
use c_token::tokens;
use std::io::{BufRead, BufReader};

fn main(rt: HostRuntime) -> anyhow::Result<()> {
    for line in BufReader::new(rt.alloc(), rt.reader())?.lines(rt.alloc()) {
        let line = line?;
        let mut text: Vec<u8> = Vec::new(rt.alloc());
        let mut high: Option<u8> = None;
        let mut whole: bool = false;
        for b in line.as_str().bytes() {
            if b == b'!' {
                whole = true;
                continue;
            }
            let digit = match b {
                b'0'..=b'9' => b - b'0',
                b'a'..=b'f' => b - b'a' + 10,
                _ => 0,
            };
            match high {
                None => high = Some(digit),
                Some(first) => {
                    text.push(first.wrapping_mul(16).wrapping_add(digit))?;
                    high = None;
                }
            }
        }
        match tokens(rt.alloc(), text.as_slice()) {
            Err(Refusal::Fault(fault)) => println!(rt; "= Fault({fault:?})")?,
            Err(Refusal::NoMemory) => println!(rt; "= no memory")?,
            Ok(found) => {
                let mut sum: u64 = 0;
                let mut count: u64 = 0;
                let mut all: String = String::new(rt.alloc());
                for token in found.iter() {
                    let printed = format!(in rt.alloc(); " {token:?};")?;
                    for b in printed.as_str().bytes() {
                        sum = sum.wrapping_mul(1099511628211).wrapping_add(u64::from(b));
                    }
                    count = count.wrapping_add(1);
                    if whole {
                        all.push_str(printed.as_str())?;
                    }
                }
                println!(rt; "= {count} {sum}{all}")?;
            }
        }
    }
    Ok(())
}
"""


def probe(texts, mark="!"):
    """What the crate answers for each text."""
    lines = ask(PROBE, CRATES, "".join(mark + text.hex() + "\n" for text in texts))
    answers = [line[1:].strip() for line in lines if line.startswith("=")]
    if len(answers) != len(texts):
        sys.exit(f"{len(texts)} texts and {len(answers)} answers")
    return answers


def summed(answer):
    """Count of the tokens and the sum over their bytes, and the tokens, as the probe prints them."""
    if answer.startswith("Fault"):
        return answer
    total = 0
    for byte in (" " * bool(answer) + answer).encode():
        total = (total * 1099511628211 + byte) & 0xFFFFFFFFFFFFFFFF
    return f"{answer.count(';')} {total}"


# ---- the second lexer

KEYWORDS = dict(
    auto="Auto", case="Case", char="Char", const="Const", default="Default", do="Do", double="Double", enum="Enum",
    extern="Extern", float="Float", goto="Goto", inline="Inline", int="Int", long="Long", register="Register",
    restrict="Restrict", short="Short", signed="Signed", sizeof="Sizeof", static="Static", struct="Struct",
    switch="Switch", typedef="Typedef", union="Union", unsigned="Unsigned", void="Void", volatile="Volatile",
    asm="Asm", __asm="Asm", __asm__="Asm", __attribute__="Attribute", _Alignas="Alignas", _Alignof="Alignof",
    _Atomic="Atomic", _Bool="Boolean", _Complex="Complex", _Generic="Generic", _Imaginary="Imaginary",
    _Noreturn="Noreturn", _Static_assert="StaticAssert", _Thread_local="ThreadLocal",
) | {"break": "Break", "continue": "Continue", "else": "Else", "for": "For", "if": "If", "return": "Return", "while": "While"}
PUNCTUATORS = {
    "...": "Ellipsis", "<<=": "ShiftLeftAssign", ">>=": "ShiftRightAssign", "->": "Arrow", "++": "Increment",
    "--": "Decrement", "<<": "ShiftLeft", ">>": "ShiftRight", "<=": "LessOrEqual", ">=": "GreaterOrEqual",
    "==": "Equals", "!=": "NotEquals", "&&": "LogicalAnd", "||": "LogicalOr", "*=": "StarAssign", "/=": "SlashAssign",
    "%=": "PercentAssign", "+=": "PlusAssign", "-=": "MinusAssign", "&=": "AmpersandAssign", "^=": "CaretAssign",
    "|=": "BarAssign", "(": "LeftParenthesis", ")": "RightParenthesis", "[": "LeftBracket", "]": "RightBracket",
    "{": "LeftBrace", "}": "RightBrace", ".": "Dot", "&": "Ampersand", "*": "Star", "+": "Plus", "-": "Minus",
    "~": "Tilde", "!": "Exclamation", "/": "Slash", "%": "Percent", "<": "LessThan", ">": "GreaterThan", "^": "Caret",
    "|": "Bar", "?": "Question", ":": "Colon", ";": "Semicolon", "=": "Assign", ",": "Comma",
}
ESCAPES = {"'": 39, '"': 34, "?": 63, "\\": 92, "a": 7, "b": 8, "f": 12, "n": 10, "r": 13, "t": 9, "v": 11}
BLANK = r"[ \t\v\f\r\n]+|//[^\n]*|/\*[\s\S]*?\*/"
PIECE = re.compile(
    rf"(?P<blank>{BLANK})|(?P<open>/\*)|(?P<name>[A-Za-z_][A-Za-z0-9_]*)|(?P<number>[0-9](?:[eEpP][+-]|[A-Za-z0-9_.])*)"
    r"|(?P<character>'(?:[ -&(-\[\]-~]|\\(?:['\"?\\abfnrtv]|[0-7]{1,3}|x[0-9A-Fa-f]{1,2}))')|(?P<quote>')|(?P<mark>"
    + "|".join(re.escape(mark) for mark in sorted(PUNCTUATORS, key=len, reverse=True)) + ")"
)
MARKER = re.compile(r"[ \t\v\f\r]*#[ \t\v\f\r]*[0-9][^\n]*")
NUMBER = re.compile(r"(?:0[xX](?P<hex>[0-9A-Fa-f]+)|(?P<octal>0[0-7]*)|(?P<decimal>[1-9][0-9]*))(?P<suffix>(?:[uU](?:ll|LL|[lL])?|(?:ll|LL|[lL])[uU]?)?)")
TYPES = [("SignedInt", 2**31), ("UnsignedInt", 2**32), ("SignedLongLong", 2**63), ("UnsignedLongLong", 2**64)]


def number_of(text):
    """Value and type of a number: the first type of the standard's list that holds it; `long` is as `int`."""
    found = NUMBER.fullmatch(text)
    if not found:
        return None
    base = 16 if found["hex"] else 8 if found["octal"] else 10
    value = int(found["hex"] or found["octal"] or found["decimal"], base)
    suffix = found["suffix"].lower()
    for name, end in TYPES:
        signed = name.startswith("Signed")
        if "u" in suffix and signed or "u" not in suffix and base == 10 and not signed or "ll" in suffix and "Long" not in name:
            continue
        if value < end:
            return value, name
    return None


def character_of(text):
    """The value of a character constant, without its quotes; None where it is above a byte."""
    if text[0] != "\\":
        return ord(text)
    if text[1] == "x":
        return int(text[2:], 16)
    value = int(text[1:], 8) if text[1].isdigit() else ESCAPES[text[1]]
    return value if value < 256 else None


def second_tokens(data):
    """The tokens of a text, or its first fault, as the probe prints them."""
    text = data.decode("latin-1")
    fault = lambda kind, at: f"Fault(TokenFault {{ kind: {kind}, offset: {at} }})"
    at, printed = 0, []
    while at < len(text):
        line = text.rfind("\n", 0, at) + 1
        marker = MARKER.match(text, line) if text[at] == "#" and not text[line:at].strip(" \t\v\f\r") else None
        if marker:
            at = marker.end()
            continue
        found = PIECE.match(text, at)
        if not found or found.lastgroup in ("open", "quote"):
            return fault({"open": "Comment", "quote": "Character"}.get(found.lastgroup) if found else "Byte", at)
        piece, kind = found[0], found.lastgroup
        if kind == "name":
            word = KEYWORDS.get(piece)
            form = f"Word({word})" if word else f"Name({list(piece.encode())})"
        elif kind == "number":
            number = number_of(piece)
            if not number:
                return fault("Number", at)
            form = f"Number({number[0]}, {number[1]})"
        elif kind == "character":
            value = character_of(piece[1:-1])
            if value is None:
                return fault("Character", at)
            form = f"Character({value})"
        elif kind == "mark":
            form = f"Mark({PUNCTUATORS[piece]})"
        if kind != "blank":
            printed.append(f"Token {{ kind: {form}, offset: {at} }};")
        at = found.end()
    return " ".join(printed)


# ---- texts

HEADERS = "assert ctype errno float inttypes limits locale math setjmp signal stdarg stddef stdint stdio stdlib string time unistd sys/types".split()
PROGRAMS = [
    b"""#define N 0x10u
    static unsigned table[N] = { [0] = 1, [1 + 2] = 017, };
    unsigned f(unsigned a, unsigned b) { for (unsigned i = 0; i < N; ++i) a ^= table[i] << (b & 31), b >>= 1; return a; }""",
    b"""struct s { char c; short h[3]; struct s *next; };
    int g(struct s *p, int c) { /* a list */ while (p) { if (p->c == '\\n' || p->h[0] != c) return -1; p = p->next; } return 'x'; }
    int h(int n, ...) { switch (n) { case '\\0': case '\\x7f': n %= 3; break; default: n = ~n; } return n ? n-- : +n; }""",
    b"""#include <stdint.h>
    uint64_t m(uint32_t a) { return (uint64_t)a * 0xFFFFFFFFULL + 18446744073709551615u - 1LL; } // the end
    _Bool b(int a) { do { a <<= 2; a |= 1; a /= 2; } while (!(a >= 7 && a <= 9)); goto out; out: return sizeof(int) == a; }""",
]


def preprocessed(options, source):
    return subprocess.run(["gcc", "-E", *options, "-x", "c", "-"], input=source, capture_output=True, check=True).stdout


def sources():
    """Preprocessed sources, with and without comments and line markers; and the same without their strings."""
    whole = []
    for source in [f"#include <{name}.h>\n".encode() for name in HEADERS] + PROGRAMS:
        whole += [preprocessed(options, source) for options in ([], ["-P"], ["-C"], ["-std=c11"])]
    plain = [b"\n".join(line if line.startswith(b"#") else re.sub(rb'"[^"\n]*"', b"0", line) for line in text.split(b"\n")) for text in whole]
    return sorted(set(whole + plain))


def pieces(text, lines=12):
    rows = text.split(b"\n")
    return [b"\n".join(rows[i : i + lines]) for i in range(0, len(rows), lines)]


FRAGMENTS = [
    b"0", b"0x", b"0X1f", b"08", b"077", b"1e+", b"1u", b"ull", b"lL", b"LU", b"9223372036854775808", b"18446744073709551616",
    b"4294967295", b"'", b"'a'", b"'\\", b"'\\x41'", b"'\\400'", b"'\\377'", b"'\\?'", b"''", b'"', b"/*", b"*/", b"//", b"/", b"*", b"\n",
    b"\n#", b"\n # 1", b"\n#\t7 x /*", b"\n#line", b"#", b"\r", b"\v", b"\f", b"\t", b" ", b"...", b"..", b">>=", b"<<", b"->", b"+", b"-", b"&", b"|",
    b"=", b"asm", b"__asm__", b"_Bool", b"_", b"$", b"@", b"`", b"\\", b"\\\n", b"\x00", b"\x7f", b"\x80", b"\xff", b"p-", b".",
]


def mutated(text):
    for _ in range(random.randrange(1, 6)):
        at = random.randrange(len(text) + 1)
        end = min(len(text), at + random.randrange(4))
        new = random.choice([b"", random.choice(FRAGMENTS), random.choice(FRAGMENTS), bytes([random.randrange(256)]), text[at:end] * 2])
        text = text[:at] + new + text[end:] if random.random() < 0.5 else text[:at] + new + text[at:]
    return text


def compare(name, texts):
    """Compares sums, since a program may print no more than 1 MiB; the first texts that differ are then shown whole."""
    answers = probe(texts, "")
    wanted = [second_tokens(text) for text in texts]
    unlike = [i for i in range(len(texts)) if answers[i] != summed(wanted[i])]
    kinds = ("Byte", "Number", "Character", "Comment")
    faults = {kind: sum(answer.startswith(f"Fault(TokenFault {{ kind: {kind},") for answer in wanted) for kind in kinds}
    tokens = sum(answer.count(";") for answer in wanted if not answer.startswith("Fault"))
    print(f"{name}: {len(texts)} texts, {sum(map(len, texts))} bytes, {tokens} tokens, faults {faults}; differ: {len(unlike)}")
    shown = unlike[:5]
    for i, answer in zip(shown, probe([texts[i] for i in shown]) if shown else []):
        ours, others = answer.split(";"), wanted[i].split(";")
        k = next((k for k, pair in enumerate(zip(ours, others)) if pair[0] != pair[1] and k), 0)
        print(repr(texts[i][:300]), f"here: {ours[k : k + 2]}", f"there: {others[k : k + 2]}", sep="\n  ")
    return bool(unlike)


def compare_sources():
    whole = sources()
    cut = {piece for text in whole for piece in pieces(text)}
    return compare("sources", whole + sorted(cut))


def compare_mutations(count=6000, seed=8):
    random.seed(seed)
    cut = sorted({piece for text in sources() for piece in pieces(text, 5) if len(piece) < 600})
    return compare("mutations", [mutated(random.choice(cut)) for _ in range(count)])


# ---- constants against gcc

def random_constant():
    if random.random() < 0.3:
        inner = random.choice(["", "\\", "\\", "\\x", "\\" + str(random.randrange(1000))]) + random.choice(["", "", chr(random.randrange(32, 127)), "%x" % random.randrange(256)])
        return f"'{inner}'"
    edge = random.choice([0, 7, 8, 2**31, 2**32, 2**63, 2**64, random.getrandbits(random.randrange(1, 66))])
    value = max(0, edge + random.randrange(-2, 3))
    digits = random.choice(["%d", "0%o", "0x%x", "0X%X"]) % value
    return digits + random.choice(["", "", "u", "U", "l", "L", "ll", "LL", "ul", "lu", "uLL", "LLU", "llu", "lL", "ulL", "uu", "lul", "8", "g", "_"])


def in_gcc(text):
    """Whether a text is asked of gcc: \\x with more digits and floating constants are none here, but are C."""
    floats = not text.startswith("'") and re.search(r"[.pP]|^[0-9]+[eE]", text)
    return not floats and not re.match(r"'\\x[0-9A-Fa-f]{3,}'", text) and not re.fullmatch(r"'(\\)?'+|'\\'", text)


def compare_constants(count=4000, seed=9):
    random.seed(seed)
    texts = sorted({text for text in (random_constant() for _ in range(count)) if in_gcc(text)})
    answers = probe([text.encode() for text in texts])
    rows = []
    order = [name for name, _ in TYPES]
    for text, answer in zip(texts, answers):
        number = re.fullmatch(r"1 \d+ Token \{ kind: Number\((\d+), (\w+)\), offset: 0 \};", answer)
        character = re.fullmatch(r"1 \d+ Token \{ kind: Character\((\d+)\), offset: 0 \};", answer)
        if number or character:
            value, kind = (number[1], order.index(number[2])) if number else (character[1], 0)
            classes = "int: 0, long: 0, unsigned: 1, unsigned long: 1, long long: 2, unsigned long long: 3"
            rows.append(f'_Static_assert(_Generic(({text}), {classes}) == {kind} && ({text}) == {value}ULL, "");')
        else:
            rows.append(f"int a{len(rows)} = sizeof({text});")
    with tempfile.TemporaryDirectory() as folder:
        (Path(folder) / "constants.c").write_text("\n".join(rows) + "\n")
        command = ["gcc", "-m32", "-std=c11", "-funsigned-char", "-fsyntax-only", "-pedantic-errors", "-Werror", "-fmax-errors=0", "constants.c"]
        printed = subprocess.run(command, cwd=folder, capture_output=True, text=True).stderr
    refused = {int(line) - 1 for line in re.findall(r"constants\.c:(\d+):\d+: error", printed)}
    unlike = [i for i in range(len(texts)) if (i in refused) != rows[i].startswith("int")]
    print(f"constants: {len(texts)} texts, {sum(row[0] == '_' for row in rows)} with a value; differ from gcc: {len(unlike)}")
    for i in unlike[:20]:
        print(texts[i], answers[i])
    return bool(unlike)


if __name__ == "__main__":
    jobs = {"sources": compare_sources, "mutations": compare_mutations, "constants": compare_constants}
    if len(sys.argv) != 2 or sys.argv[1] not in jobs:
        sys.exit(__doc__)
    sys.exit(jobs[sys.argv[1]]())
