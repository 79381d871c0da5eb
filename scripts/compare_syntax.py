#!/usr/bin/env python3
"""Compares the syntax of C with a second reader of it, the grammar as data with a chart parser (syntax.py).

    scripts/compare_syntax.py rows         small texts of every production and of every kind of fault, by hand
    scripts/compare_syntax.py cuts         programs cut after each byte
    scripts/compare_syntax.py changes      programs with tokens taken away, put in, put twice, exchanged and swapped
    scripts/compare_syntax.py random       random derivations of the grammar, and changes in them
    scripts/compare_syntax.py sources      programs as gcc's preprocessor gives them, and with each of their tokens changed
    scripts/compare_syntax.py depths       random nests, whose limits are counted as they are made

It is run outside the gate and needs `rt` on the path, and for `sources` gcc.
"""

import random
import re
import subprocess
import sys
import tempfile
from pathlib import Path

import syntax
from compare_tokens import MARKER, PIECE, second_tokens
from probe import ask

CRATES = ["attempt", "c_token", "c_parse"]

# Reads lines of hexadecimal bytes, each a text that has tokens, and prints for each `ok` or its fault.
PROBE = r"""//! Prints the faults of texts that are lines of hexadecimal bytes.
#![tactic(auto)]

use attempt::Refusal;
use c_parse::parse;
use c_token::tokens;
use std::io::{BufRead, BufReader};

fn main(rt: HostRuntime) -> anyhow::Result<()> {
    for line in BufReader::new(rt.alloc(), rt.reader())?.lines(rt.alloc()) {
        let line = line?;
        let mut text: Vec<u8> = Vec::new(rt.alloc());
        let mut high: Option<u8> = None;
        for b in line.as_str().bytes() {
            let digit = match b {
                b'0'..=b'9' => b - b'0',
                b'a'..=b'f' => b - b'a' + 10,
                _ => 0,
            };
            match high {
                None => high = Some(digit),
                Some(first) => {
                    text.push(first.wrapping_mul(16).wrapping_add(digit))?;
                    high = None;
                }
            }
        }
        let Ok(all) = tokens(rt.alloc(), text.as_slice()) else {
            println!(rt; "= no tokens")?;
            continue;
        };
        match parse(rt.alloc(), all.as_slice()) {
            Ok(_) => println!(rt; "= ok")?,
            Err(Refusal::NoMemory) => println!(rt; "= no memory")?,
            Err(Refusal::Fault(fault)) => {
                println!(rt; "= {:?} at {}", fault.kind, fault.offset(all.as_slice(), text.len()))?;
            }
        }
    }
    Ok(())
}
"""


def probe(texts):
    """What the crate answers for each text: `ok`, or a kind and a place."""
    lines = ask(PROBE, CRATES, "".join((text.encode().hex() or "20") + "\n" for text in texts))
    answers = [line[1:].strip().replace("LeftOut(", "LeftOut.").replace(")", "") for line in lines if line.startswith("=")]
    if len(answers) != len(texts):
        sys.exit(f"{len(texts)} texts and {len(answers)} answers")
    return answers


# No text that is compared has a line marker inside a comment.
LINE_MARKER = re.compile("^" + MARKER.pattern, re.MULTILINE)


def placed(text):
    """The tokens of a text, and the offset of each and of the end."""
    plain = LINE_MARKER.sub(lambda line: " " * len(line[0]), text)
    found = [piece for piece in PIECE.finditer(plain) if piece.lastgroup != "blank"]
    return [piece[0] for piece in found], [piece.start() for piece in found] + [len(text)]


class Whole:
    """A chart of tokens that can be continued after each of them."""

    def __init__(self, tokens):
        self.chart, self.types, self.end = syntax.Chart(), [set()], None
        for token in tokens:
            if not self.chart.push(token):
                break
            self.types.append(set(self.chart.types))

    def fault(self, tokens):
        """The fault of tokens that begin as the chart's do."""
        same = 0
        while same < min(len(tokens), len(self.chart.tokens)) and tokens[same] == self.chart.tokens[same]:
            same += 1
        chart = syntax.Chart()
        chart.sets, chart.tokens, chart.types = self.chart.sets[: same + 1], self.chart.tokens[:same], set(self.types[same])
        for number in range(same, len(tokens)):
            if not chart.push(tokens[number]):
                return number, chart.kind(tokens[number])
        return None if chart.is_whole() else (len(tokens), "Unexpected")


def wanted(text, whole=None):
    """What the second reader answers for a text."""
    tokens, places = placed(text)
    fault = (whole or Whole(tokens)).fault(tokens)
    return "ok" if fault is None else f"{fault[1]} at {places[fault[0]]}"


def compare(name, texts, answers):
    """Prints how many texts there were of each answer, and the first that differ."""
    given = probe(texts)
    kinds = {}
    for answer in answers:
        kinds[answer.split(" at ")[0]] = kinds.get(answer.split(" at ")[0], 0) + 1
    unlike = [i for i in range(len(texts)) if given[i] != answers[i]]
    print(f"{name}: {len(texts)} texts, {dict(sorted(kinds.items()))}; differ: {len(unlike)}")
    for i in unlike[:10]:
        print(texts[i][:600], f"here: {given[i]}", f"there: {answers[i]}", sep="\n  ")
    return bool(unlike)


# ---- rows by hand: `@` is before the token at fault, or at the end; a text without it is a unit

ROWS = [
    # items
    ("", ""), (";", ""), (";;", ""), ("int;", ""), ("int a;", ""), ("int a, b;", ""), ("int a = 1, *b;", ""), ("extern int a;", ""),
    ("static inline const int f(void);", ""), ("int static typedef T;", ""), ("int f();", ""), ("int f(void);", ""), ("int f(int);", ""),
    ("int f(int a, char *);", ""), ("int f(int a[]);", ""), ("int f(int [3][4]);", ""), ("int *f(void), g(void), c;", ""), ("int f(void) = 3;", ""),
    ("int f(void) {}", ""), ("void f(void) {} ;", ""), ("void f(const void *p);", ""), ("int f(void const);", ""), ("int f(void a);", ""), ("typedef int T;", ""), ("typedef int T = 3;", ""),
    ("typedef int T; T a;", ""), ("typedef int T, *U; U a; T b;", ""), ("typedef int T[2]; T a;", ""), ("typedef int T; int f(T a);", ""),
    ("int@", "Unexpected"), ("@a", "Unexpected"), ("int a@", "Unexpected"), ("int a @b", "Unexpected"), ("int a,@;", "Unexpected"),     ("int f(void) {} @}", "Unexpected"), ("int f(void) @int a;", "Unexpected"), ("typedef int f@(void);", "Unexpected"), ("typedef int T; typedef int @T;", "Unexpected"),
    ("typedef int T; int @T;", "Unexpected"), ("int f(void) = 3 @{}", "Unexpected"), ("int f(void), g(void) @{}", "Unexpected"),
    ("int f(void), @static", "Unexpected"), ("int a @{}", "Unexpected"), ("int f(int @static a);", "Unexpected"), ("int f(@static int a);", "Unexpected"), ("int f(@typedef int a);", "Unexpected"),
    ("int f(int @extern a);", "Unexpected"), ("int f(int a, @);", "Unexpected"), ("int f(int a @b);", "Unexpected"), ("int f(@a);", "Unexpected"),
    # bases
    ("char a; signed char b; unsigned char c; short d; unsigned short int e; long f; unsigned long g;", ""), ("long long a; unsigned long long int b;", ""),
    ("int long unsigned long a;", ""), ("int @char a;", "Unexpected"), ("long long @long a;", "Unexpected"), ("signed @unsigned a;", "Unexpected"), ("int const @int a;", "Unexpected"),
    ("struct s;", ""), ("struct s { };", ""), ("struct s { int a; };", ""), ("struct { int a, *b[2]; char c; } d;", ""), ("struct s { struct t *next; } a;", ""),
    ("typedef int T; struct s { T T; };", ""), ("typedef int T; struct s { int T; T a; };", ""), ("struct s { int a @};", "Unexpected"), ("struct @;", "Unexpected"),
    ("struct s { @a; };", "Unexpected"), ("struct s { int @; };", "Unexpected"), ("struct s { @static int a; };", "Unexpected"), ("struct s { int a @= 1; };", "Unexpected"),
    ("typedef int T; struct @T { };", "Unexpected"), ("enum e;", ""), ("enum e { one };", ""), ("enum { one, two = 2, };", ""), ("enum e { one = 1 ? 2 : 3 } a;", ""),
    ("enum e { @};", "Unexpected"), ("enum e { one @two };", "Unexpected"), ("enum e { one, @, };", "Unexpected"), ("enum @;", "Unexpected"), ("enum e { one = @};", "Unexpected"),
    # declarators and initial values
    ("int a[];", ""), ("int a[2][3];", ""), ("int a[][3];", ""), ("int a[2][@];", "Unexpected"), ("int *const *a;", ""), ("int * @static a;", "Unexpected"), ("int @1;", "Unexpected"),
    ("int a = 1 + 2;", ""), ("int a = { };", ""), ("int a[] = { 1, 2 };", ""), ("int a[] = { 1, 2, };", ""), ("int a[] = { [0] = 1, [1 + 1] = 2 };", ""),
    ("struct s a = { .b = 1, .c.d[2] = { 3 } };", ""), ("int a[] = { { 1 }, { } };", ""), ("int a = { @, };", "Unexpected"), ("int a = @;", "Unexpected"), ("int a = { 1 @2 };", "Unexpected"),
    ("int a = { .b @1 };", "Unexpected"), ("int a = { [1] @};", "Unexpected"), ("int a = { 1, @, };", "Unexpected"), ("typedef int T = @T;", "Unexpected"), ("typedef int T = sizeof(T);", ""),
    ("int a = 1 @= 2;", "Unexpected"), ("int a = b@(1);", "LeftOut.Call"), ("int a = { b@(1) };", "LeftOut.Call"), ("int a = { 1 }, @;", "Unexpected"),
    # blocks and declarations of locals
    ("void f(void) { int a; int b = 1, *c = &b; static int d; }", ""), ("void f(void) { const @e = 1; }", "Unexpected"), ("void f(void) { int a; { char b; } ; }", ""), ("void f(void) { static int a = g(), b; }", ""),
    ("void f(void) { @extern int a; }", "Unexpected"), ("void f(void) { int @; }", "Unexpected"), ("void f(void) { int a @{ } }", "Unexpected"), ("void f(void) { @typedef int T; }", "Unexpected"),
    ("void f(void) { int g@(void); }", "Unexpected"), ("void f(void) { int a = @{ 1 }; }", "Unexpected"), ("typedef int T; void f(void) { T a; }", ""),
    ("typedef int T; void f(void) { int @T; }", "Unexpected"), ("typedef int T; void f(void) { T @; }", "Unexpected"), ("void f(void) {@", "Unexpected"), ("void f(void) { @else ; }", "Unexpected"),
    # statements
    ("void f(void) { ; a; 1; a + b; a = b; a += 1; *a = 1; a.b = 1; a[1]->c <<= 2; }", ""), ("void f(void) { a++; ++a; a.b--; --*a; }", ""), ("void f(void) { a = g(); a = g(1, b + 2); g(); g(a); }", ""),
    ("void f(void) { break; continue; return; return 1; return g(1); }", ""), ("void f(void) { if (a) ; if (a) b = 1; else c = 1; }", ""), ("void f(void) { if (a) if (b) ; else ; else ; }", ""),
    ("void f(void) { if (a) ; else if (b) ; else ; @else ; }", "Unexpected"), ("void f(void) { while (a) b--; do a; while (b); do { } while (1); }", ""), ("void f(void) { if @a; }", "Unexpected"),
    ("void f(void) { if (@) ; }", "Unexpected"), ("void f(void) { if (a @= b) ; }", "Unexpected"), ("void f(void) { while (a@(1)) ; }", "LeftOut.Call"), ("void f(void) { do a; @if (b) ; }", "Unexpected"),
    ("void f(void) { do a; while (b) @}", "Unexpected"), ("void f(void) { for (;;) ; for (a = 1; a < 2; a++) ; for (int i = 0, j; i; i--) { } }", ""), ("void f(void) { for (int i = 0 @) ; }", "Unexpected"),
    ("void f(void) { for (int i@", "Unexpected"), ("void f(void) { for (a; b; c @; ) ; }", "Unexpected"), ("void f(void) { for (a @, b; ; ) ; }", "Unexpected"), ("void f(void) { for (;; g(1)) h(2); }", ""),
    ("void f(void) { for (;; a = g()@, b) ; }", "Unexpected"), ("void f(void) { switch (a) { } switch (a) { case 1: } switch (a) { case 1: case 2: a; int b; default: ; } }", ""),
    ("void f(void) { switch (a) { @b; case 1: ; } }", "Unexpected"), ("void f(void) { switch (a) { @int b; } }", "Unexpected"), ("void f(void) { switch (a) @case 1: ; }", "Unexpected"), ("void f(void) { @case 1: ; }", "Unexpected"),
    ("void f(void) { switch (a) { case 1 @; } }", "Unexpected"), ("void f(void) { switch (a) { default @1: } }", "Unexpected"), ("void f(void) { switch (a) { case @: } }", "Unexpected"), ("void f(void) { return @= 1; }", "Unexpected"),
    ("void f(void) { a @b; }", "Unexpected"), ("void f(void) { 1 + a @= 2; }", "Unexpected"), ("void f(void) { -a @++; }", "Unexpected"), ("void f(void) { (int)a @= 1; }", "Unexpected"), ("void f(void) { -a = 1; sizeof a = 1; }", ""),
    ("void f(void) { a = b @= c; }", "Unexpected"), ("void f(void) { a = @++b; }", "Unexpected"), ("void f(void) { break @1; }", "Unexpected"), ("void f(void) { continue@", "Unexpected"),
    # expressions
    ("int a = b ? c : d ? e : f;", ""), ("int a = b || c && d | e ^ f & g == h != i < j > k <= l >= m << n >> o + p - q * r / s % t;", ""), ("int a = -b + ~c * !d & *e - &f;", ""),
    ("int a = (int)b + (unsigned char *)c;", ""), ("int a = sizeof b + sizeof(int) + sizeof(b)[1];", ""), ("int a = b[c[1]].d->e;", ""), ("typedef int T; int a = (T)b + sizeof(T *) + b.T + c->T;", ""),
    ("int a = (b @;", "Unexpected"), ("int a = b[@];", "Unexpected"), ("int a = b.@1;", "Unexpected"), ("int a = (int @b)", "Unexpected"), ("int a = b ? c @;", "Unexpected"), ("int a = b + @;", "Unexpected"), ("int a = 'x' + 1 @2;", "Unexpected"),
    ("int a = (int)@;", "Unexpected"), ("int a = sizeof(@);", "Unexpected"), ("int a = sizeof(int)@[1];", "Unexpected"), ("typedef int T; int a = @T;", "Unexpected"), ("int a = (@);", "Unexpected"),
    # what is left out, by its word
    ("void f(void) { @goto a; }", "LeftOut.Goto"), ("@union u;", "LeftOut.Union"), ("struct s { @union u a; };", "LeftOut.Union"), ("@float a;", "LeftOut.Float"), ("int a = (@double)b;", "LeftOut.Float"), ("@_Complex", "LeftOut.Float"),
    ("@volatile int a;", "LeftOut.Volatile"), ("int * @volatile a;", "LeftOut.Volatile"), ("@asm(1);", "LeftOut.Asm"), ("void f(void) { @__asm__ }", "LeftOut.Asm"), ("int f(int a, @...);", "LeftOut.Variadic"), ("int f(@...", "LeftOut.Variadic"),
    ("@_Bool a;", "LeftOut.Bool"), ("int a @__attribute__", "LeftOut.Attribute"), ("@auto int a;", "LeftOut.Keyword"), ("void f(void) { @register int a; }", "LeftOut.Keyword"), ("int f(int * @restrict a);", "LeftOut.Keyword"),
    ("@_Alignas", "LeftOut.Keyword"), ("int a = @_Alignof(int);", "LeftOut.Keyword"), ("@_Atomic", "LeftOut.Keyword"), ("int a = @_Generic", "LeftOut.Keyword"), ("@_Imaginary", "LeftOut.Keyword"), ("@_Noreturn void f(void);", "LeftOut.Keyword"),
    ("@_Static_assert(1);", "LeftOut.Keyword"), ("@_Thread_local int a;", "LeftOut.Keyword"),
    # what is left out, by its place
    ("int @(*p)(int);", "LeftOut.FunctionPointer"), ("int * @(a);", "LeftOut.FunctionPointer"), ("int f(int @(*g)(void));", "LeftOut.FunctionPointer"), ("struct s { int @(*p)(void); };", "LeftOut.FunctionPointer"), ("int f(void @(", "LeftOut.FunctionPointer"),
    ("void f(void) { int @(a); }", "LeftOut.FunctionPointer"), ("int a, @(b);", "LeftOut.FunctionPointer"), ("int f(int a@(", "Unexpected"), ("int f(int[]@(", "Unexpected"), ("int a = (int @(*)(void))b;", "Unexpected"),
    ("struct s { int a @: 3; };", "LeftOut.BitField"), ("struct s { int a, b @: 3; };", "LeftOut.BitField"), ("struct s { int a[2] @: 3; };", "Unexpected"), ("struct s { int @: 3; };", "Unexpected"),
    ("void f(void) { a @: ; }", "LeftOut.Goto"), ("void f(void) { if (b) a @: ; }", "LeftOut.Goto"), ("void f(void) { (a) @: ; }", "Unexpected"), ("void f(void) { a.b @: ; }", "Unexpected"), ("void f(void) { return a @: ; }", "Unexpected"),
    ("void f(void) { a @, b; }", "LeftOut.Comma"), ("void f(void) { a = 1 @, b = 2; }", "LeftOut.Comma"), ("void f(void) { g() @, b; }", "LeftOut.Comma"), ("void f(void) { a++ @, b; }", "LeftOut.Comma"), ("void f(void) { ++a @, b; }", "LeftOut.Comma"),
    ("void f(void) { return a @, b; }", "Unexpected"), ("void f(void) { if (a @, b) ; }", "Unexpected"), ("int a = (b @, c);", "Unexpected"), ("void f(void) { a = (b @, c); }", "Unexpected"),
    ("void f(void) { a = 1 + g@(2); }", "LeftOut.Call"), ("void f(void) { g(1)@(2); }", "LeftOut.Call"), ("void f(void) { a[1]@(2); }", "LeftOut.Call"), ("void f(void) { (g)@(2); }", "LeftOut.Call"), ("void f(void) { g(h@(1)); }", "LeftOut.Call"),
    ("void f(void) { g() @+ 1; }", "LeftOut.Call"), ("void f(void) { return g() @* 2; }", "LeftOut.Call"), ("void f(void) { a = g() @? 1 : 2; }", "LeftOut.Call"), ("void f(void) { g() @= 1; }", "LeftOut.Call"), ("void f(void) { g()@[1]; }", "LeftOut.Call"),
    ("void f(void) { g()@.a; }", "LeftOut.Call"), ("void f(void) { g() @++; }", "LeftOut.Call"), ("void f(void) { a++@(1); }", "LeftOut.Call"), ("void f(void) { 1@(2); }", "LeftOut.Call"), ("void f(void) { g() @sizeof a; }", "LeftOut.Call"),
    ("void f(void) { g() @: ; }", "Unexpected"), ("void f(void) { g() @a; }", "Unexpected"), ("void f(void) { int a = g() @+ 1; }", "LeftOut.Call"), ("int a[2]@(", "Unexpected"),
    # depth
    ("int a = " + "(" * 128 + "1" + ")" * 128 + ";", ""), ("int a = " + "(" * 128 + "@(1", "Depth"), ("int a = " + "- " * 128 + "1;", ""), ("int a = " + "- " * 128 + "@-1;", "Depth"), ("int a = 1" + " + 1" * 128 + ";", ""),
    ("int a = 1" + " + 1" * 128 + " @+ 1;", "Depth"), ("int a = " + "{" * 128 + "1" + "}" * 128 + ";", ""), ("int a = " + "{" * 128 + "@{1", "Depth"), ("int a" + "[1]" * 200 + ";", ""), ("int a[" + "b[" * 127 + "1" + "]" * 128 + ";", ""),
    ("int a[" + "b[" * 127 + "c@[1", "Depth"), ("int a = b" + ".c" * 128 + ";", ""), ("int a = b" + ".c" * 128 + "@.c;", "Depth"), ("int a = b ? b ? c : d @;", "Unexpected"), ("void f(void) " + "{" * 128 + "}" * 128, ""), ("void f(void) " + "{" * 128 + "@{", "Depth"),
    ("void f(void) { " + "if (a) " * 126 + "; }", ""), ("void f(void) { " + "if (a) " * 126 + "if @(a) ; }", "Depth"), ("void f(void) { " + "while (a) " * 126 + "; }", ""), ("void f(void) { " + "do " * 126 + "; " + "while (a); " * 126 + "}", ""), ("void f(void) { " + "do " * 127 + "; while @(a);", "Depth"),
    ("void f(void) { " + "if (a) ; else " * 63 + "; }", ""), ("void f(void) { " + "if (a) ; else " * 63 + "if @(a) ;", "Depth"), ("void f(void) { " + "for (;;) " * 126 + "; }", ""), ("void f(void) { " + "for (;;) " * 126 + "for @(;;) ; }", "Depth"),
    ("void f(void) { " + "switch (a) { case 1: " * 63 + "; " + "} " * 63 + "}", ""), ("void f(void) { " + "switch (a) { case 1: " * 63 + "switch @(a) {", "Depth"), ("void f(void) { a = 1" + " + 1" * 127 + "; }", ""), ("void f(void) { a = 1" + " + 1" * 127 + " @+ 1; }", "Depth"),
    ("void f(void) { a = g(1" + " + 1" * 126 + "); }", ""), ("void f(void) { a = g(1" + " + 1" * 126 + " @+ 1); }", "Depth"), ("void f(void) { g(" + ", ".join(["-1"] * 127) + "); }", ""), ("void f(void) { g(" + ", ".join(["-1"] * 127) + ", @-1); }", "Depth"),
    ("int a = " + "sizeof " * 128 + "1;", ""), ("int a = " + "sizeof " * 128 + "@sizeof 1;", "Depth"),
    ("unsigned f(unsigned a){return " + "(" * 127 + "a" + ")" * 127 + ";}", ""), ("unsigned f(unsigned a){return " + "(" * 127 + "@(a" + ")" * 128 + ";}", "Depth"),
]


def compare_rows():
    texts = [text.replace("@", "") for text, _ in ROWS]
    answers = [f"{kind} at {text.index('@')}" if kind else "ok" for text, kind in ROWS]
    return compare("rows", texts, answers)


# ---- texts

SUM = "unsigned f(unsigned a,unsigned b){return a+b;}"
PROGRAMS = [
    SUM,
    """typedef unsigned int word; typedef struct node { word key; struct node *next; char name[8]; } node;
    static const word table[4] = { 1, 2, [3] = 0x10u, }; extern node *list;
    word count(node *p, word key) { word n = 0; while (p) { if (p->key == key && !p->name[0]) n++; else n = n + 1; p = p->next; } return n; }""",
    """int classify(int c) { switch (c) { case 'a': case 'b' + 1: c = 1; break; default: { int d = c; c = d * 2; } return c; case 3: ; } return -1; }
    enum color { red, green = 4, blue, }; enum color paint(enum color of, int, int *[], void *p);""",
    """void run(void), stop(int); int f(int n) { int i, *p = &i; for (i = 0; i < n; i += 2) { do { --n; continue; } while (n > 0 || i >= 3); }
    for (int j = f(1), k; ; run()) { *p = j ? k : (int)sizeof(struct s *) - ~k; if (j) break; else if (k) return f(n - 1); } return 0; }""",
    """struct s { struct { int a; } b; enum { one, two } c; unsigned long long d[2][3]; } g = { .b = { 1 }, .d[1][2] = 3, { { 4 } } };
    inline static unsigned char get(const struct s *const s, unsigned k) { s->d[k][0] <<= k & 7; return (unsigned char)(s->b.a ^ k | 1) % 3; }""",
    """typedef int T, U[2]; T a, *b; int h(T, U u, T T_) { T c = 1; static T *v; c = sizeof(T) + sizeof c[u]; return c; } ;""",
]


def cut_at(length):
    """What the first bytes of SUM are, by hand."""
    if length in (0, len(SUM)):
        return "ok"
    for first, last, place in ((1, 7, 0), (12, 18, 11), (23, 29, 22)):
        if first <= length <= last:
            return f"Unexpected at {place}"
    return f"Unexpected at {length}"


def has_tokens(text):
    return not second_tokens(text.encode()).startswith("Fault")


def compare_cuts():
    lengths = range(len(SUM) + 1)
    failed = compare("cuts by hand", [SUM[:length] for length in lengths], [cut_at(length) for length in lengths])
    texts, answers = [], []
    for text in PROGRAMS:
        whole = Whole(placed(text)[0])
        cuts = [text[:length] for length in range(len(text) + 1) if has_tokens(text[:length])]
        texts += cuts
        answers += [wanted(cut, whole) for cut in cuts]
    return compare("cuts", texts, answers) or failed


POOL = [
    *"; , ( ) [ ] { } * = : ? . -> + - ++ -- ! ~ & | << == += sizeof if else while do for switch case default break continue return".split(),
    *"int char void unsigned long short signed const static extern typedef inline struct enum goto union float volatile ... _Bool".split(),
    *"a b T word node s 1 'x' && || % <<=".split(),
]


def changed(tokens):
    tokens = list(tokens)
    for _ in range(random.choice([1, 1, 1, 2, 3])):
        at = random.randrange(len(tokens) + 1)
        way = random.randrange(6)
        if way == 0:
            tokens[at : at + random.choice([1, 1, 2])] = []
        elif way == 1:
            tokens.insert(at, random.choice(POOL))
        elif way == 2:
            tokens[at : at + 1] = [random.choice(POOL)]
        elif way == 3:
            tokens[at : at + 2] = tokens[at : at + 2][::-1]
        elif way == 4:
            tokens[at:at] = tokens[at : at + random.randrange(1, 4)]
        else:
            other = random.randrange(len(tokens) + 1)
            tokens[at : at + 1] = tokens[other : other + 1]
    return tokens


def compare_changes(count=6000, seed=11):
    random.seed(seed)
    bases = [placed(text)[0] for text in PROGRAMS]
    wholes = [Whole(tokens) for tokens in bases]
    texts, answers = [], []
    for _ in range(count):
        base = random.randrange(len(bases))
        texts.append(" ".join(changed(bases[base])))
        answers.append(wanted(texts[-1], wholes[base]))
    return compare("changes", texts, answers)


# ---- random derivations

def shallowest():
    """For each nonterminal how deep its shallowest derivation is."""
    depths = {}
    while True:
        found = {}
        for name, sides in syntax.RULES.items():
            found[name] = 1 + min(max([0] + [depths.get(part, 99) for part in side if part in syntax.RULES]) for side in sides)
        if found == depths:
            return depths
        depths = found


DEPTHS = shallowest()


class Derivation:
    """Random texts of the grammar where T is a typedef name; each further typedef has a name of its own."""

    def __init__(self):
        self.fresh = 0

    def text(self, name, room):
        if name == "newtype":
            self.fresh += 1
            return ["*"] * random.randrange(2) + [f"N{self.fresh}"] + ["[", "2", "]"] * random.randrange(2)
        if name not in syntax.RULES:
            return [self.terminal(name)]
        depth = lambda side: max([0] + [DEPTHS.get(part, 0) for part in side])
        sides = [side for side in syntax.RULES[name] if depth(side) < room] or [min(syntax.RULES[name], key=depth)]
        return [token for part in random.choice(sides) for token in self.text(part, room - 1)]

    def terminal(self, name):
        choices = {"NAME": "abcd", "TYPE": ["T"], "ANY": ["a", "b", "T"], "NUMBER": ["0", "1", "0x1fu"], "CHARACTER": ["'x'"]}
        return random.choice(choices[name]) if name in choices else name[1:-1]


def compare_random(count=2500, seed=12):
    random.seed(seed)
    front = placed("typedef int T;")[0]
    texts, answers = [], []
    while len(texts) < count:
        tokens = front + Derivation().text("item", random.randrange(6, 26))
        if len(tokens) > 160:
            continue
        whole = Whole(tokens)
        for some in [tokens, changed(tokens), changed(tokens)]:
            texts.append(" ".join(some))
            answers.append(wanted(texts[-1], whole))
    return compare("random", texts, answers)


# ---- sources

HEADER = """#ifndef RING_H
#define RING_H
#include <stdint.h>
#include <stddef.h>
#define SIZE 16u
#define IS_POWER(n) ((n) && !((n) & ((n) - 1)))
#define LEAST(a, b) ((a) < (b) ? (a) : (b))
/* A ring of bytes. */
typedef struct ring { uint8_t bytes[SIZE]; size_t first, count; } ring;
enum status { RING_OK, RING_FULL = -1, RING_EMPTY = -2 };
extern const uint32_t ring_table[];
int ring_put(ring *r, uint8_t byte);
int ring_take(ring *r, uint8_t *byte);
#endif
"""
SOURCES = [
    """#include "ring.h"
/* puts a byte after the last */
int ring_put(ring *r, uint8_t byte)
{
    if (r->count == SIZE)
        return RING_FULL;
    r->bytes[(r->first + r->count) % SIZE] = byte;
    r->count++;
    return RING_OK;
}
int ring_take(ring *r, uint8_t *byte) {
    if (!r->count) return RING_EMPTY;
    *byte = r->bytes[r->first];   // the first
    r->first = (r->first + 1) % SIZE;
    --r->count;
    return IS_POWER(SIZE) ? RING_OK : (int)sizeof(ring);
}
size_t ring_move(ring *to, ring *from, size_t most)
{
    size_t n = LEAST(most, from->count), moved = 0;
    uint8_t byte; int status;
    while (moved < n) {
        status = ring_take(from, &byte);
        if (status == RING_OK) status = ring_put(to, byte);
        if (status != RING_OK) break;
        moved += 1;
    }
    return moved;
}
""",
    """#include <stdint.h>
#include <limits.h>
static uint32_t table[256];
static const unsigned char digits[16] = { '0', '1', '2', [10] = 'a', 'b', 'c', };
#define POLYNOMIAL 0xedb88320u
void fill(void)
{
    for (uint32_t n = 0; n <= UCHAR_MAX; n++) {
        uint32_t c = n;
        int k = CHAR_BIT;
        do {
            c = c & 1 ? POLYNOMIAL ^ c >> 1 : c >> 1;
            --k;
        } while (k);
        table[n] = c;
    }
}
uint32_t check(const uint8_t *bytes, unsigned long size)
{
    uint32_t c = ~(uint32_t)0;
    for (; size; size--) {
        c = table[(c ^ *bytes) & 0xff] ^ c >> 8;
        ++bytes;
    }
    return c ^ -1u;
}
""",
    """#include <stddef.h>
typedef unsigned char byte, *bytes;
#define STEP(from, to) *(to) = *(from); ++to; ++from
void *copy(void *to, const void *from, size_t n)
{
    byte *t = (byte *)to; const byte *f = (const byte *)from;
    while (n) { STEP(f, t); n--; }
    return to;
}
int order(const bytes a, const byte *b, size_t n) {
    size_t i; for (i = 0; i < n && a[i] == b[i]; ++i) ;
    if (i == n) return 0; else if (a[i] < b[i]) return -1;
    return 1;
}
struct node { struct node *next; long long key; };
struct node *find(struct node *n, long long key) { while (n && n->key != key) n = n->next; return n; }
""",
    """#define CASE(name, value) case name: value; break
enum token { NONE, NUMBER, PLUS = '+', MINUS = '-', OPEN = '(', CLOSE = ')', END };
struct lexer { const char *text; int at; enum token last; unsigned value; };
static inline int is_digit(int c) { return c >= '0' && c <= '9'; }
void next(struct lexer *l)
{
    int c = l->text[l->at], yes;
    switch (c) {
    case 0: l->last = END; return;
    CASE(PLUS, l->last = PLUS);
    case MINUS: case OPEN: case CLOSE:
        l->last = c;
        break;
    default:
        yes = is_digit(c);
        if (!yes) { l->last = NONE; return; }
        l->value = 0;
        for (; yes; yes = is_digit(c)) {
            l->value = l->value * 10 + (c - '0'); ++l->at;
            c = l->text[l->at];
        }
        l->last = NUMBER;
        return;
    }
    l->at++;
}
unsigned sum(struct lexer *l) { unsigned all = 0, sign = 1; ; while (1) { next(l); if (l->last == NUMBER) all += sign * l->value; else if (l->last == END) return all; else sign = l->last == MINUS ? ~0u : 1; } }
""",
]


def preprocessed():
    """The sources as gcc's preprocessor gives them; gcc accepts each."""
    with tempfile.TemporaryDirectory() as folder:
        Path(folder, "ring.h").write_text(HEADER)
        for number, source in enumerate(SOURCES):
            file = Path(folder, f"source{number}.c")
            file.write_text(source)
            options = ["gcc", "-std=c99", "-ffreestanding", "-w"]
            subprocess.run([*options, "-fsyntax-only", file.name], cwd=folder, check=True)
            yield subprocess.run([*options, "-E", file.name], cwd=folder, check=True, capture_output=True, text=True).stdout


def without(text, places, tokens, at, word):
    """The text with another word in place of a token."""
    return f"{text[: places[at]]} {word} {text[places[at] + len(tokens[at]) :]}"


def swapped(text, places, tokens, at):
    """The text with a token and the next one swapped."""
    return without(without(text, places, tokens, at + 1, tokens[at]), places, tokens, at, tokens[at + 1])


def compare_sources(seed=13):
    random.seed(seed)
    texts, answers = [], []
    for text in preprocessed():
        tokens, places = placed(text)
        whole = Whole(tokens)
        some = [text]
        for at, token in enumerate(tokens):
            other = random.choice(POOL)
            words = ["", f"{token} {token}", other, f"{other} {token}", None, None]
            word = random.choice(words if at + 1 < len(tokens) else words[:-2])
            some.append(swapped(text, places, tokens, at) if word is None else without(text, places, tokens, at, word))
        some = [other for other in some if has_tokens(other)]
        texts += some
        answers += [wanted(other, whole) for other in some]
        if answers[-len(some)] != "ok":
            print("a source that is no unit:", answers[-len(some)], text, sep="\n")
    return compare("sources", texts, answers)


# ---- depths

MOST = 128


class Nest:
    """A random text of the grammar, with the first token at which the nesting limit is exceeded or there are too many operators."""

    def __init__(self):
        self.tokens, self.open, self.operators, self.over = [], 0, 0, None

    def put(self, *tokens):
        self.tokens += tokens

    def counted(self, token, opens=True, operator=False):
        """A bracket or a word of a statement, or an operator of an expression."""
        self.open += opens
        self.operators += operator
        if self.over is None and (opens and self.open > MOST or operator and self.operators > MOST):
            self.over = len(self.tokens)
        self.put(token)

    def close(self, *tokens):
        self.put(*tokens)
        self.open -= 1

    def whole(self, read, room):
        """An expression that is in no other one."""
        kept, self.operators = self.operators, 0
        read(room)
        self.operators = kept

    def one_of(self, room, *ways):
        random.choice(ways)(room - random.randrange(1, 3))

    # Each way gives its room to one part alone.

    def cond(self, room):
        parts = [0] * random.choice([0, 0, 1, 2]) + [room]
        random.shuffle(parts)
        choice = room > 0 and random.random() < 0.1
        for at, part in enumerate(parts):
            if at:
                self.counted(random.choice("+ - * / % << >> < > <= >= == != & ^ | && ||".split()), False, True)
            self.cast(0 if choice else part)
        if choice:
            parts = random.choice([(room, 0), (0, room)])
            self.counted("?", False, True)
            self.cond(parts[0])
            self.put(":")
            self.cond(parts[1])

    def cast(self, room):
        if room <= 0:
            self.put(random.choice(["a", "b", "1", "'x'"]))
        else:
            self.one_of(room, self.enclosed, self.enclosed, self.indexed, self.unary, self.unary, self.converted, self.sized, self.measured)

    def enclosed(self, room):
        self.counted("(", True, True)
        self.cond(room)
        self.close(")")
        if random.random() < 0.2:
            self.counted(random.choice([".", "->"]), False, True)
            self.put("c")

    def indexed(self, room):
        self.put("a")
        for _ in range(random.randrange(1, 3)):
            self.counted("[", True, True)
            self.cond(room)
            self.close("]")
            room = 0

    def unary(self, room):
        self.counted(random.choice("&*+-~!"), False, True)
        self.cast(room)

    def converted(self, room):
        self.counted("(", True, True)
        self.put("unsigned", "*")
        self.close(")")
        self.cast(room)

    def sized(self, room):
        self.counted("sizeof", False, True)
        self.enclosed(room)

    def measured(self, room):
        """The size of a type with an expression of its own inside."""
        self.counted("sizeof", False, True)
        self.counted("(", True, True)
        if random.random() < 0.5:
            self.put("struct")
            self.counted("{")
            self.put("int", "a")
            self.lengths(room)
            self.close(";", "}")
        else:
            self.put("enum")
            self.counted("{")
            self.put("one", "=")
            self.whole(self.cond, room)
            self.close("}")
        self.close(")")

    def lengths(self, room):
        for _ in range(random.randrange(1, 3)):
            self.counted("[")
            self.whole(self.cond, room)
            self.close("]")
            room = 0

    def call(self, room):
        self.put("g")
        self.counted("(", True, True)
        self.cond(0)
        for _ in range(random.randrange(3)):
            self.put(",")
            self.cond(room)
            room = 0
        self.close(")")

    def simple(self, room):
        way = random.randrange(5)
        if way == 0:
            self.put("a")
            self.counted(random.choice(["=", "+=", "<<="]), False, True)
            self.cond(room)
        elif way == 1:
            self.put("a")
            self.counted("=", False, True)
            self.call(room)
        elif way == 2:
            self.call(room)
        elif way == 3:
            self.counted("++", False, True)
            self.indexed(room)
        else:
            self.indexed(room)
            self.counted("--", False, True)

    def test(self, room):
        self.counted("(")
        self.whole(self.cond, room)
        self.close(")")

    def local(self, room):
        self.put("int", "a")
        if random.random() < 0.3:
            self.lengths(room)
        else:
            self.put("=")
            self.whole(random.choice([self.cond, self.call]), room)

    def initial(self, room):
        if room <= 0 or random.random() < 0.2:
            self.whole(self.cond, room)
            return
        self.counted("{")
        if random.random() < 0.3:
            self.put(".", "a")
            self.lengths(0)
            self.put("=")
        self.initial(room - 1)
        self.put(*random.choice([[], [","], [",", "1"]]))
        self.close("}")

    def statement(self, room):
        if room <= 0:
            self.put(*random.choice([[";"], ["a", ";"], ["return", ";"], ["{", "}"]] if self.open < MOST else [[";"]]))
        else:
            self.one_of(room, self.block, self.block, self.when, self.when, self.either, self.loop, self.until, self.steps, self.cases, self.leaf)

    def block(self, room):
        self.counted("{")
        if random.random() < 0.3:
            self.statement(0)
        if random.random() < 0.1:
            self.local(0)
            self.put(";")
        self.statement(room)
        if random.random() < 0.3:
            self.statement(0)
        self.close("}")

    def leaf(self, room):
        way = random.randrange(3)
        if way == 0:
            self.put("return")
            self.whole(random.choice([self.cond, self.call]), room)
            self.put(";")
        elif way == 1:
            self.whole(self.simple, room)
            self.put(";")
        else:
            self.counted("{")
            self.local(room)
            self.close(";", "}")

    def when(self, room):
        self.counted("if")
        self.test(0)
        self.statement(room)
        self.close()

    def either(self, room):
        first = random.random() < 0.3
        self.counted("if")
        self.test(0)
        random.choice([self.block, self.until])(room) if first else self.put(";")
        self.counted("else")
        self.statement(0 if first else room)
        self.close()
        self.close()

    def loop(self, room):
        self.counted("while")
        self.test(0)
        self.statement(room)
        self.close()

    def until(self, room):
        self.counted("do")
        self.statement(room)
        self.put("while")
        self.test(0)
        self.close(";")

    def steps(self, room):
        self.counted("for")
        self.counted("(")
        random.choice([self.local, lambda room: self.whole(self.simple, room), lambda room: None])(0)
        self.put(";")
        self.whole(self.cond, 0)
        self.put(";")
        self.whole(self.simple, 0)
        self.close(")")
        self.statement(room)
        self.close()

    def cases(self, room):
        self.counted("switch")
        self.test(0)
        self.counted("{")
        self.put("case")
        self.whole(self.cond, 0)
        self.put(":", *random.choice([[], ["default", ":"]]))
        self.statement(room)
        self.close("}")
        self.close()

    def item(self, room):
        way = random.randrange(4)
        if way == 0:
            self.put("int", "a", "=")
            self.initial(room)
            self.put(";")
        elif way == 1:
            self.put("int", "f")
            self.counted("(")
            self.put("int", "a")
            self.lengths(room)
            self.close(")")
            self.put(";")
        else:
            self.put("int", "f")
            self.counted("(")
            self.close(")")
            self.block(room)


def compare_depths(count=1200, seed=14):
    random.seed(seed)
    texts, answers = [], []
    for _ in range(count):
        nest = Nest()
        nest.item(random.randrange(150, 330))
        text = " ".join(nest.tokens)
        if syntax.fault(nest.tokens):
            sys.exit(f"no unit: {text}")
        texts.append(text)
        answers.append("ok" if nest.over is None else f"Depth at {placed(text)[1][nest.over]}")
    return compare("depths", texts, answers)


if __name__ == "__main__":
    jobs = {"rows": compare_rows, "cuts": compare_cuts, "changes": compare_changes, "random": compare_random, "sources": compare_sources, "depths": compare_depths}
    if len(sys.argv) != 2 or sys.argv[1] not in jobs:
        sys.exit(__doc__)
    sys.exit(jobs[sys.argv[1]]())
