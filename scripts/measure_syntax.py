#!/usr/bin/env python3
"""Measures how long C texts take to be read, and the memory of their trees.

    scripts/measure_syntax.py

It is run outside the gate and needs `rt` and GNU `time` (Debian: time) on the path. It proves the crates and a small
program in a scratch repository, takes over what `rt` has kept in out/, and runs the program as it is compiled. Each row
is a text: its bytes, its tokens and its items, the seconds for its tokens and for its tree, the peak of memory, and how
many bytes of memory more than for the least text each byte of it takes, the text, its tokens and its tree included.
"""

from probe import measure, timed

CRATES = ["attempt", "c_token", "c_parse"]

PROBE = r"""//! Prints how many tokens and items a file has, and in how many microseconds either were read.
#![tactic(auto)]

use attempt::Refusal;
use c_parse::parse;
use c_token::tokens;
use std::env;
use std::fs;
use std::time::Instant;

fn main(rt: HostRuntime) -> anyhow::Result<()> {
    let words: Vec<String> = env::args(&rt)?.collect(rt.alloc())?;
    let Some(name) = words.as_slice().get(1) else { return Ok(()); };
    let text = fs::read(&rt, name.as_str())?;
    let begin = Instant::now(&rt)?;
    let Ok(all) = tokens(rt.alloc(), text.as_slice()) else { return Ok(()); };
    let lexed = begin.elapsed(&rt)?.as_micros();
    let begin = Instant::now(&rt)?;
    let read = parse(rt.alloc(), all.as_slice());
    let parsed = begin.elapsed(&rt)?.as_micros();
    match read {
        Ok(unit) => println!(rt; "{} {} {lexed} {parsed}", all.len(), unit.items.len())?,
        Err(Refusal::NoMemory) => println!(rt; "no memory")?,
        Err(Refusal::Fault(fault)) => println!(rt; "{:?} at token {}", fault.kind, fault.token)?,
    }
    Ok(())
}
"""

NAMES = """typedef {base} {name};
"""
GLOBALS = """
/* What is kept of group {n}. */
struct group{n} {{
    {a} count;
    {b} *first, *last;
    const struct group{n} *next;
    char name[16];
}};

enum state{n} {{ idle{n}, busy{n} = 4, done{n}, }};
static const {a} table{n}[8] = {{ 1, 2, 0x10u, [5] = 'a' + 3, }};
extern struct group{n} *groups{n};
"""
FUNCTIONS = """
/* The sum of the entries that are odd and not above a limit. */
static {a} sum{n}(const {a} *entries, unsigned count, {b} limit)
{{
    {a} sum = 0;
    unsigned i;

    for (i = 0; i < count; i++) {{
        if (entries[i] > limit || !(entries[i] & 1u))
            continue;
        sum += ({a})(entries[i] << 1) ^ 0x5au;
    }}
    return sum;
}}

int find{n}(struct group{n} *group, {b} key, {a} *found)
{{
    int state = idle{n};
    {b} *place = group->first;

    while (place != group->last) {{
        switch (state) {{
        case idle{n}:
            state = *place == key ? busy{n} : idle{n};
            break;
        case busy{n}:
        case done{n}:
            *found = sum{n}(table{n}, sizeof(table{n}) / sizeof(table{n}[0]), key);
            group->count = group->count + 1;
            return 1;
        default:
            return -1;
        }}
        ++place;
    }}
    if (group->next && group->next->count > 0)
        return find{n}(groups{n}, key - 1, found);
    else
        groups{n}->name[group->count % 16] = 'x';
    return 0;
}}
"""
BASES = ["unsigned int", "int", "unsigned char", "short", "unsigned long long", "const char *"]


def usual(size, count):
    """So many bytes of usual C at most, whose declarations use so many typedef names in turn."""
    names = [f"type{i}_t" for i in range(count)]
    parts = [NAMES.format(base=BASES[i % len(BASES)], name=name) for i, name in enumerate(names)]
    length = sum(len(part) for part in parts)
    n = 0
    while True:
        part = (GLOBALS + FUNCTIONS).format(n=n, a=names[2 * n % count], b=names[(2 * n + 1) % count])
        if length + len(part) > size:
            return "".join(parts)
        parts.append(part)
        length += len(part)
        n += 1


FUNCTION = "unsigned f{0:06}(unsigned a,unsigned b){{unsigned c=a+b*3;if(c>a)c=c-b;while(c)c=c-1;return c;}}\n"


def dense(size):
    """So many bytes at most of small functions without a needless byte."""
    return "".join(FUNCTION.format(i) for i in range(size // len(FUNCTION.format(0))))


def statements(count):
    """One function of so many statements."""
    return "unsigned f(unsigned a){" + "a=a+1;" * (count - 1) + "return a;}"


def typedefs(count):
    """So many typedef names, each of which is used once."""
    names = [f"t{i:06}" for i in range(count)]
    return "".join(f"typedef int {name};\n" for name in names) + "".join(f"{name} *a{name};\n" for name in names)


def brackets(count):
    """So many globals, each of which begins with an expression of 128 brackets."""
    return "".join(f"int a{i}={'(' * 128}1{')' * 128};\n" for i in range(count))


KIB, MIB = 1 << 10, 1 << 20
TEXTS = [
    ("usual C, 64 KiB, 10 typedef names", usual(64 * KIB, 10)),
    ("usual C, 512 KiB, 10 typedef names", usual(512 * KIB, 10)),
    ("usual C, 4 MiB, 10 typedef names", usual(4 * MIB, 10)),
    ("usual C, 512 KiB, 10,000 typedef names", usual(512 * KIB, 10000)),
    ("usual C, 4 MiB, 10,000 typedef names", usual(4 * MIB, 10000)),
    ("small functions without blanks, 512 KiB", dense(512 * KIB)),
    ("small functions without blanks, 4 MiB", dense(4 * MIB)),
    ("one function of 65,000 statements", statements(65000)),
    ("40,000 typedef names", typedefs(40000)),
    ("1,000 expressions of 128 brackets", brackets(1000)),
]


def rows(program):
    file = program.with_name("text")
    file.write_text(";")
    least = timed(program, [file])[2]
    for name, text in TEXTS:
        file.write_text(text)
        printed, _, peak = timed(program, [file])
        tokens, items, lexed, parsed = (int(word) for word in printed.split())
        each = (peak - least) * MIB / len(text)
        yield name, len(text), tokens, items, f"{lexed / 1e6:.2f}", f"{parsed / 1e6:.2f}", f"{peak:.1f}", f"{each:.0f}"


if __name__ == "__main__":
    measure(PROBE, CRATES, ["Text", "Bytes", "Tokens", "Items", "Seconds for tokens", "Seconds for the tree", "Peak MiB", "Bytes of memory a byte of text"], rows)
