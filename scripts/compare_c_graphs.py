#!/usr/bin/env python3
"""Runs the graphs of C functions beside the evaluator of C.

    scripts/compare_c_graphs.py rows [FILE]             on the calls of the rows of `crates/c_rows`, or of FILE
    scripts/compare_c_graphs.py random [COUNT] [SEED]   the functions below, each on so many random states
    scripts/compare_c_graphs.py made [COUNT] [SEED]     so many random programs of `compare_runs.py`, each on 4 random states

It is run outside the gate. `crates/c_rows` prints the graphs and runs the calls, as `rt run` has built it there, else
unproved by `rt try`. The graphs are run here, by an evaluation of terms that is not
the crates' own, from the same arguments, memory, zone and place. Where the evaluator returns, the graphs have to return
with the same value and the same bytes; where a guard breaks they have to fail; where the turns don't suffice nothing is
compared.
"""

import random
import re
import subprocess
import sys
from collections import Counter
from pathlib import Path

ROOT = Path(__file__).resolve().parent.parent
ROWS = ROOT / "crates/c_rows"
BATCH, STEPS = 200, 200000
sys.setrecursionlimit(10000)

# Functions, and what each is called with: a number, a small one, or a pointer.
FUNCTIONS = [
    ("unsigned gcd(unsigned a,unsigned b){while(b!=0){unsigned t=a%b;a=b;b=t;}return a;}", "gcd", "nn"),
    (
        "unsigned root(unsigned n){unsigned r=0,b=1u<<30;while(b>n)b>>=2;while(b!=0){if(n>=r+b){n-=r+b;r=(r>>1)+b;}else r>>=1;b>>=2;}return r;}",
        "root",
        "n",
    ),
    ("int bits(unsigned x){int n=0;for(;x!=0;x&=x-1)n++;return n;}", "bits", "n"),
    ("unsigned length(char*s){unsigned n=0;while(s[n])n++;return n;}", "length", "p"),
    ("void copy(unsigned char*to,unsigned char*from,unsigned n){for(unsigned i=0;i<n;i++)to[i]=from[i];}", "copy", "pps"),
    ("void sort(int*a,int n){for(int i=1;i<n;i++){int x=a[i];int j=i-1;while(j>=0&&a[j]>x){a[j+1]=a[j];j--;}a[j+1]=x;}}", "sort", "ps"),
    (
        "int search(int*a,int n,int x){int low=0,high=n-1;while(low<=high){int m=low+(high-low)/2;if(a[m]==x)return m;if(a[m]<x)low=m+1;else high=m-1;}return -1;}",
        "search",
        "psn",
    ),
    (
        "unsigned crc(unsigned char*p,unsigned n){unsigned c=~0u;for(unsigned i=0;i<n;i++){c^=p[i];for(int k=0;k<8;k++)c=c&1?(c>>1)^0xEDB88320u:c>>1;}return ~c;}",
        "crc",
        "ps",
    ),
    (
        "unsigned adler(unsigned char*p,int n){unsigned a=1,b=0;int i=0;do{if(i>=n)break;a=(a+p[i])%65521;b=(b+a)%65521;i++;}while(1);return b<<16|a;}",
        "adler",
        "ps",
    ),
    (
        "int number(char*s){int n=0,sign=1;if(*s=='-'){sign=-1;s++;}while(*s>='0'&&*s<='9'){n=n*10+(*s-'0');s++;}return sign*n;}",
        "number",
        "p",
    ),
    ("unsigned fib(unsigned n){if(n<2)return n;unsigned a=fib(n-1);unsigned b=fib(n-2);return a+b;}", "fib", "s"),
    ("unsigned power(unsigned b,unsigned e){unsigned r=1;while(e){if(e&1)r*=b;b*=b;e>>=1;}return r;}", "power", "nn"),
    (
        "struct p{short x;short y;signed char k;int z;};int sum(struct p*a,int n){int s=0;for(int i=0;i<n;i++){struct p*q=a+i;switch(q->k){case 0:s+=q->x;break;case 1:s-=q->y;break;default:s+=q->z;}}return s;}",
        "sum",
        "ps",
    ),
    ("int hex(int c){return c>='0'&&c<='9'?c-'0':c>='a'&&c<='f'?c-'a'+10:-1;}", "hex", "n"),
    ("unsigned char t[16];unsigned n;void put(unsigned char c){if(n<16){t[n]=c;n++;}else{n=0;t[0]=c;}}", "put", "n"),
    (
        "int odd(int n);int even(int n){int r;if(n==0)return 1;r=odd(n-1);return r;}int odd(int n){int r;if(n==0)return 0;r=even(n-1);return r;}",
        "odd",
        "s",
    ),
    ("int mix(int a,int b,unsigned char k){short s=a;s+=b;return (s<<k)|(a>>(b&31));}", "mix", "nns"),
    (
        "struct n{struct n*next;int v;};struct n*reverse(struct n*p){struct n*r=0;while(p){struct n*q=p->next;p->next=r;r=p;p=q;}return r;}",
        "reverse",
        "p",
    ),
    (
        "int clamp(int x,int low,int high){return x<low?low:x>high?high:x;}int scale(short*p,int n,int k){int s=0;for(int i=0;i<n;i++){int y;y=clamp(p[i]*k/16,-32768,32767);p[i]=y;s+=y;}return s;}",
        "scale",
        "pss",
    ),
    (
        "int find(char*s,char*t){for(int i=0;s[i];i++){int j=0;while(t[j]&&s[i+j]==t[j])j++;if(!t[j])return i;}return -1;}",
        "find",
        "pp",
    ),
]
NUMBERS = [0, 1, 2, 3, 7, 16, 31, 32, 48, 97, 255, 256, 65535, 65536, 2147483647, 2147483648, 4294967295, 12345678]
PLACES = ["t@4096 n@4112", "t@4096 n@4112 4128=" + 8 * "2d", "t@4097 n@4098", "t@4096 n@4112 4200=00 8192=0102"]


def answers(rows):
    """What the program of rows finds for `QUESTION | TEXT` rows."""
    found = []
    for at in range(0, len(rows), BATCH):
        lines = "".join(f"{q} | ? | {text}\n" for q, text in rows[at : at + BATCH])
        built = ROWS / "out" / ROWS.name
        command = [str(built)] if built.exists() else ["rt", "try"]
        out = subprocess.run(command, cwd=ROWS, input=lines, capture_output=True, text=True).stdout
        found += [line[2:] for line in out.splitlines() if line.startswith("? ")]
    if len(found) != len(rows):
        sys.exit(f"{ROWS.name} answered {len(found)} of {len(rows)} rows")
    return found


# ---- graphs as they are printed


def tokens(text):
    return re.findall(r"[()]|[^\s()]+(?:\((?:W\d+|\d)\))?", text)


def term(words, at):
    """A term and the place after it: a tuple of an operator and its arguments, or a word."""
    if words[at] != "(":
        return words[at], at + 1
    op, at, parts = words[at + 1], at + 2, []
    while words[at] != ")":
        part, at = term(words, at)
        parts.append(part)
    return (op, *parts), at + 1


def bindings(text):
    """What is bound, and the rest."""
    found = []
    while m := re.match(r"\s*([xszm]\d*(?:w\d+)?)=", text):
        words = tokens(text[m.end() :])
        value, used = term(words, 0)
        rest = text[m.end() :]
        for word in words[:used]:
            rest = rest[rest.index(word) + len(word) :]
        found.append((m.group(1), value))
        text = rest
    return found, text.strip()


def node(text):
    if "call " in text:
        given, rest = bindings(text)
        m = re.match(r"call (\d+)\s*(.*)", rest)
        taken, rest = bindings(m.group(2))
        return "call", int(m.group(1)), given, taken, rest.removeprefix("-> ")
    if " ? " in text:
        m = re.fullmatch(r"(.*) \? (\S+) : (\S+)", text)
        return "test", term(tokens(m.group(1)), 0)[0], m.group(2), m.group(3)
    made, rest = bindings(text)
    return "basic", made, rest.removeprefix("-> ")


def graph(text):
    return {int(n): node(rest) for n, rest in (part.split(" ", 1) for part in text.split(" / "))}


# ---- the value of a term: a number with its width, a truth value, or a memory


def signed(n, width):
    return n - 2**width if n >> width - 1 else n


def leaf(word, state):
    if word in ("true", "false"):
        return word == "true"
    if word[0].isdigit():
        n, _, width = word.partition("w")
        return int(n), int(width or 32)
    return state[word]


def value(t, state, known):
    if isinstance(t, str):
        return leaf(t, state)
    if t not in known:
        known[t] = operate(t[0], [value(x, state, known) for x in t[1:]])
    return known[t]


def operate(op, xs):
    name, _, number = op.rstrip(")").partition("(")
    if name in ("Not", "And", "Or"):
        return not xs[0] if name == "Not" else all(xs) if name == "And" else any(xs)
    if name == "Choose":
        return xs[1] if xs[0] else xs[2]
    if name == "Load":
        return xs[0].get(xs[1][0], 0), 8
    if name == "Store":
        return {**xs[0], xs[1][0]: xs[2][0]}
    if name == "Join":
        return sum(x << 8 * i for i, (x, _) in enumerate(xs)), 8 * len(xs)
    if name == "Equal":
        return xs[0] == xs[1]
    (a, width), b = xs[0], xs[1][0] if len(xs) > 1 else 0
    if name == "Less":
        return a < b
    if name in ("ZeroExtend", "SignExtend", "Low"):
        to = int(number[1:])
        return (signed(a, width) if name == "SignExtend" else a) % 2**to, to
    if name == "Byte":
        return a >> 8 * int(number) & 255, 8
    return word(name, a, b, width) % 2**width, width


def word(name, a, b, width):
    if name == "Complement":
        return ~a
    if name in (".ShiftLeft", ".ShiftRight", ".ShiftRightSigned"):
        whole = signed(a, width) if name == ".ShiftRightSigned" else a
        return whole << min(b, width) if name == ".ShiftLeft" else whole >> min(b, width)
    if name == ".Divide":
        return a // b if b else -1
    if name == ".Remainder":
        return a % b if b else a
    return {".Add": a + b, ".Subtract": a - b, ".Multiply": a * b, ".And": a & b, ".Or": a | b, ".Xor": a ^ b}[name]


# ---- runs


def bind(made, state):
    known = {}
    return {name: value(t, state, known) for name, t in made}


class State(dict):
    """What a local has that was never set is 0, and it isn't set."""

    def __missing__(self, name):
        return False if name[0] == "s" else (0, int(name.partition("w")[2] or 32))


def shared(state):
    """What caller and callee share: the memory, and the ends of the barred zone."""
    return {name: state[name] for name in ("m", "z0", "z1")}


def run(graphs, number, state):
    """The last state, or None where the run fails; `...` where it takes too long."""
    at, waiting = "0", []
    for _ in range(STEPS):
        if at == "err":
            return None
        if at == "ret":
            if not waiting:
                return state
            number, before, taken, at = waiting.pop()
            made = {**shared(state), **bind(taken, state)}
            state = State(before)
            state.update(made)
            continue
        here = graphs[number][int(at)]
        if here[0] == "basic":
            made = bind(here[1], state)
            state.update(made)
            at = here[2]
        elif here[0] == "test":
            at = here[2] if value(here[1], state, {}) else here[3]
        else:
            made = bind(here[2], state)
            waiting.append((number, state, here[3], here[4]))
            number, state, at = here[1], State({**shared(state), **made}), "0"
    return ...


def start(words):
    """The first state of a call, and the words that place it."""
    state, place, shown, arguments = State(m={}, z0=(0, 32), z1=(0, 32)), [], [], []
    for w in words:
        if "@" in w:
            place.append(w)
        elif m := re.fullmatch(r"(\d+)[:=]([0-9a-f]*)", w):
            data = bytes.fromhex(m.group(2))
            state["m"].update({(int(m.group(1)) + i) % 2**32: b for i, b in enumerate(data)})
            if "=" in w:
                place.append(w)
        elif ".." in w:
            state["z0"], state["z1"] = ((int(x), 32) for x in w.split(".."))
        elif m := re.fullmatch(r"(\d+)\+(\d+)", w):
            shown.append((int(m.group(1)), int(m.group(2))))
        elif w and not w.startswith("turns"):
            arguments.append(int(w))
    return state, place, shown, arguments


def bodies(text):
    """The names of the functions with a body, in order."""
    return re.findall(r"(\w+)\s*\([^()]*(?:\([^()]*\)[^()]*)*\)\s*\{", re.sub(r"\b(?:if|while|for|switch|do)\b\s*\(", "(", text))


def order(text):
    return list(dict.fromkeys(bodies(text)))


def cases(rows):
    """Of `CALL | TEXT` rows: what the evaluator answers, the first state, and what is asked of the graphs."""
    for (call, text), outcome in zip(rows, answers([(f"run {call}", text) for call, text in rows])):
        name, *words = call.split(" ")
        state, place, shown, arguments = start(words)
        names = order(text)
        yield call, text, outcome, name, names, state, shown, arguments, [(f"guards {n} {' '.join(place)}".strip(), text) for n in names]


def compare(rows):
    """Counts the rows by what comes of them."""
    all_cases = list(cases(rows))
    asked = list(dict.fromkeys(q for case in all_cases for q in case[-1]))
    graphs = dict(zip(asked, answers(asked)))
    counted, guards = Counter(), Counter()
    for call, text, outcome, name, names, state, shown, arguments, questions in all_cases:
        printed = [graphs[q] for q in questions]
        found = judge(call, text, outcome, names, printed, state, shown, arguments, name)
        counted[found] += 1
        if found == "agree":
            guards[outcome.split(" ")[0] if " at " in outcome else "return"] += 1
    return counted, guards


# ---- random states


def memory(r):
    """The bytes from 4096 to 4224, as hexadecimal digits."""
    kind = r.randrange(4)
    if kind == 0:
        return r.randbytes(128).hex()
    if kind == 1:
        return bytes(r.choice(b"0123456789-\0") for _ in range(128)).hex()
    words = [r.choice(NUMBERS) if kind == 2 else r.choice([0, 4096, 4104, 4112, 4160, 4200, 4224]) for _ in range(32)]
    return b"".join(w.to_bytes(4, "little") for w in words).hex()


def pointer(r):
    if r.random() < 0.85:
        return 4096 + 4 * r.randrange(32)
    return r.choice([0, 4097, 4098, 4127, 4223, 4294967292, 4294967295, 8192])


def argument(r, kind):
    if kind == "p":
        return pointer(r)
    if kind == "s":
        return r.randrange(12) - 1
    return r.choice(NUMBERS) if r.random() < 0.7 else r.randrange(2**32)


def zone(r):
    if r.random() < 0.7:
        return ""
    low = 4096 + r.randrange(-8, 136)
    return f" {low}..{low + r.randrange(0, 40)}"


def fitted(value, parameter):
    """The value of a parameter's type that is equal to it modulo the type's width."""
    if "*" in parameter:
        return value
    words = parameter.split()
    width = 8 if "char" in words else 16 if "short" in words else 32
    value %= 2**width
    is_signed = "signed" in words if "char" in words else "unsigned" not in words
    return value - 2**width if is_signed and value >= 2 ** (width - 1) else value


def a_call(r, name, kinds, place, text):
    parameters = re.search(rf"\b{name}\(([^()]*)\)\s*{{", text).group(1).split(",")
    words = [str(fitted(argument(r, kind), p)) for kind, p in zip(kinds, parameters)]
    return " ".join([name, *words, f"4096:{memory(r)}", place]) + f"{zone(r)} turns*150 4096+128"


def random_rows(count, seed):
    """So many states of each function, the same place for as many of them as there are places."""
    r = random.Random(seed)
    return [(a_call(r, name, kinds, r.choice(PLACES), text), text) for text, name, kinds in FUNCTIONS for _ in range(count)]


def made_rows(count, seed):
    """Random programs of `compare_runs.py`, each on 4 states."""
    from compare_runs import Program

    r, rows = random.Random(seed), []
    for number in range(count):
        program, at, place = Program(number, seed * 100000 + number), 4096, []
        for name, size in [*program.globals(), (program.pointer, 4), (f"q_{number}", 4)]:
            at += -at % 4
            place.append(f"{name}@{at}")
            at += size
        for _ in range(4):
            rows.append((a_call(r, program.name, "nn", " ".join(place), program.text), program.text))
    return rows


def main():
    mode, *words = sys.argv[1:] or ["rows"]
    if mode == "rows":
        rows = given(words)
    else:
        count, seed = (int(w) for w in (words + ["200", "1"][len(words) :])[:2])
        rows = random_rows(count, seed) if mode == "random" else made_rows(count, seed)
    counted, guards = compare(rows)
    print(", ".join(f"{n} {what}" for what, n in sorted(counted.items())))
    print("of those that agree:", ", ".join(f"{n} {what}" for what, n in sorted(guards.items())))
    sys.exit(1 if counted["differ"] else 0)


def given(words):
    file = Path(words[0]) if words else ROWS / "stdin"
    lines = [line for line in file.read_text().splitlines() if line.startswith("run ")]
    return [(parts[0].removeprefix("run "), parts[2]) for parts in (line.split(" | ", 2) for line in lines)]


def judge(call, text, outcome, names, printed, state, shown, arguments, name):
    if "More" in outcome or name not in names or any(not p or p[0] not in "0" for p in printed):
        return "not compared"
    graphs = [graph(p) for p in printed]
    widths = {m for p in printed for m in re.findall(r"\bx(\d+)(w\d+)?", p)}
    for number, argument in enumerate(arguments):
        for width in {w for n, w in widths if n == str(number)} | {""}:
            bits = int(width[1:] or 32)
            state[f"x{number}{width}"] = (argument % 2**bits, bits)
        state[f"s{number}"] = True
    last = run(graphs, names.index(name), state)
    if last is ...:
        return "took too long"
    same = matches(outcome, last, shown, printed[names.index(name)])
    if not same:
        print("differ:", call, "|", outcome, "|", text, "|", None if last is None else {k: v for k, v in last.items() if k != "m"})
    return "agree" if same else "differ"


def matches(outcome, last, shown, printed):
    if " at " in outcome:
        return last is None
    if last is None:
        return False
    result, *memory = outcome.split(" ")
    if result != "void":
        kinds = set(re.findall(r"\bz2(?:w\d+)?(?==)", printed))
        bits = {k: last[k] for k in kinds if k in last}
        if not any(int(result) % 2**width == n for n, width in bits.values()):
            return False
    data = "".join("".join(f"{last['m'].get((at + i) % 2**32, 0):02x}" for i in range(n)) for at, n in shown)
    return data == "".join(memory)


if __name__ == "__main__":
    main()
