#!/usr/bin/env python3
"""Compares the obligations of rules with runs of both sides.

    scripts/compare_obligations.py            pairs of random graphs
    scripts/compare_obligations.py compiled   graphs of compiled functions, of one function at two levels
                                              (Debian: gcc-riscv64-unknown-elf)

It is run outside the gate, after `rt run` in crates/proof_rows, whose program gives the obligations. For each frame both
sides are run here from random states, in which each obligation has to be true exactly where what it says of the runs is:
under the premises, with no bound broken and no failure of the source, that the binary doesn't fail, that it comes to a
stop to which the source comes, and that the relation holds where both are at one stop; that an arrival doesn't come; that
the binary comes to a hold, and its relation holds there. A side whose walk is cyclic gives no premise.
"""

import random
import sys
import tempfile

import compare_conditions as walks
from compare_conditions import Case, Terms, asked, heads, text

LOWER, UPPER = "abcdef", "ABCDEF"
ARITY = {"!": 1, ":": 3, "~": 4} | {c: 2 for c in "+-<&|=*"}
WORD = 2**64


def read(terms, words):
    stack = []
    for c in reversed(words):
        stack.append(terms.make(c, *[stack.pop() for _ in range(ARITY.get(c, 0))]))
    (term,) = stack
    return term


def value(term, values, done):
    """As in compare_conditions, with what relations have besides."""
    if id(term) in done:
        return done[id(term)]
    c, found = term[0], [value(a, values, done) for a in term[1:]]
    if c == "-":
        result = (found[0] - found[1]) % WORD
    elif c == "=":
        result = found[0] == found[1]
    elif c == "*":
        result = found[0].get(found[1], 0)
    elif len(term) == 1:
        result = walks.value(term, values, {})
    else:
        result = {"+": lambda a, b: (a + b) % WORD, "<": lambda a, b: a < b, "!": lambda a: not a, "&": lambda a, b: a and b,
                  "|": lambda a, b: a or b, ":": lambda a, b, d: b if a else d}[c](*found)
    done[id(term)] = result
    return result


class Side(Case):
    """A side's walk; it ends at the nodes that are cut as well."""

    def __init__(self, terms, nodes, stops, bounds, start=0, cut=()):
        super().__init__(terms, nodes, start, stops, bounds)
        self.cut = set(cut)
        self.listed = self.visits()

    def ends(self, visit):
        return visit[0] in self.cut or super().ends(visit)

    def outcome(self, values):
        """The last visit of the run and the values there; of a cyclic walk nothing."""
        return self.run(values)[-1] if self.listed is not None else None

    def is_at(self, visit, index):
        node, count = self.marks[index]
        return visit[0] == node and visit[1][index] >= count

    def breaks(self, visit, index):
        return self.is_at(visit, len(self.stops) + index) and not self.is_stop(visit)


def unleading(nodes, point):
    """The nodes from which no path goes to the point; paths go on after calls."""
    nexts = [[i + 1] if n[0] == "call" else n[2:] for i, n in enumerate(nodes)]
    leading, grown = {point}, True
    while grown:
        more = {i for i, to in enumerate(nexts) if i not in leading and any(t in leading for t in to)}
        leading, grown = leading | more, bool(more)
    return [i for i in range(len(nodes)) if i not in leading]


class Frame:
    """Both sides' graphs from node 0, premises, lines, goals and bounds, and a rule."""

    def __init__(self, terms, binary, source, given, back, there, goals, bounds, others, rule):
        self.terms, self.given, self.back, self.there, self.rule = terms, given, back, there, rule
        self.goals, self.bounds, self.others = goals, bounds, others
        kind, mark = rule
        stops = [[g[i] for g in goals] for i in (0, 1)]
        more, cuts = [[], []], [(), ()]
        if kind in ("binary", "source"):
            side = 0 if kind == "binary" else 1
            more[side], cuts[side] = [mark], unleading((binary, source)[side], mark[0])
        holds = [(mark, 1)] if kind == "wait" else []
        self.a = Side(terms, binary, holds + stops[0], bounds + more[0], cut=cuts[0])
        self.c = Side(terms, source, stops[1], others + more[1], cut=cuts[1])

    def question(self):
        kind, mark = self.rule
        rule = {"leaf": "leaf", "wait": f"wait {mark}"}.get(kind) or f"{kind} {mark[0]}:{mark[1]}"
        words = [("given", [text(t) for t in self.given]), ("back", [text(t) for t in self.back]), ("there", [text(t) for t in self.there]),
                 ("goals", [f"{n}:{k}" for g in self.goals for n, k in g]), ("bounds", [f"{n}:{k}" for n, k in self.bounds]),
                 ("others", [f"{n}:{k}" for n, k in self.others])]
        said = " ".join(" ".join([name] + parts) for name, parts in words if parts) or "most 65536"
        return f"obligations {rule} | {self.a.graph()} | {self.c.graph()} | {said}"

    def is_cyclic(self):
        kind = self.rule[0]
        return (kind != "source" and self.a.listed is None) or (kind in ("leaf", "source") and self.c.listed is None)

    def holds(self, lines, values):
        done = {}
        if not all(value(t, values, done) for t in lines):
            return False
        at, s = values["@"], values.get("s", 0)
        return ((s - 8) % WORD <= at < s) or values["$"].get(at, 0) == values["%"].get(at, 0)

    def expected(self, start):
        """What each obligation says of the runs from these values; None where it may be anything."""
        kind = self.rule[0]
        a, c = self.a.outcome(start), self.c.outcome(start)
        given = all(value(t, start, {}) for t in self.given)
        given = given and not (a and any(self.a.breaks(a[0], i) for i in range(len(self.bounds))))
        given = given and not (c and any(self.c.breaks(c[0], i) for i in range(len(self.others))))
        if kind != "wait":
            given = given and not (c and c[0][0] == "E")
        if kind == "binary":
            return [not given or not self.a.breaks(a[0], len(self.bounds))]
        if kind == "source":
            return [not given or not self.c.breaks(c[0], len(self.others))]
        safe = not given or a[0][0] != "E"
        if kind == "wait":
            there = self.a.is_at(a[0], 0)
            related = self.holds(self.there, {**start, **{v: x for v, x in a[1].items() if not v.isupper()}})
            return [safe, not given or there, (not given or related) if there else None]
        both = {**start, **{v: x for v, x in a[1].items() if not v.isupper()}, **{v: x for v, x in c[1].items() if v.isupper()}}
        stops = [(a[0][0] == "R", c[0][0] == "R", self.back)]
        stops += [(self.a.is_at(a[0], i), self.c.is_at(c[0], i), self.there) for i in range(len(self.goals))]
        comes = [not given or not there or here for here, there, _ in stops]
        alike = [not given or not (here and there) or self.holds(lines, both) for here, there, lines in stops]
        return [safe] + comes + alike

    def check(self, answer, pick, runs):
        """How many obligations were compared, by their value; stops at the first that differs."""
        if self.is_cyclic():
            if not answer.startswith("cyclic"):
                sys.exit(f"differs: {self.question()}\n  expected cyclic\n  found    {answer}")
            return [0, 0]
        terms, counts = [read(self.terms, t) for t in answer.split("; ")], [0, 0]
        for _ in range(runs):
            start = state(pick)
            for i, (term, expected) in enumerate(zip(terms, self.expected(start), strict=True)):
                found = bool(value(term, start, {}))
                if expected is not None and found != bool(expected):
                    sys.exit(f"obligation {i} is {found} at {start}: {self.question()}\n  {text(term)}")
                counts[found] += 1
        return counts


def state(pick):
    """Values of all variables of both sides; often both sides have the same ones."""
    values = {v: pick.choice([0, 1, 2, 3, 5, 7, 9, WORD - 1]) for v in walks.LETTERS if v.isalpha()}
    if pick.random() < 0.7:
        values |= {v.upper(): values[v] for v in LOWER}
    values["@"] = pick.choice([0, 1, 4, 9, 2**32 - 1])
    values["$"] = {n: pick.choice([0, 1]) for n in (0, 1, 4, 9)}
    values["%"] = dict(values["$"]) if pick.random() < 0.7 else {n: pick.choice([0, 1]) for n in (0, 1, 4, 9)}
    return values


# ---- random frames


def raised(terms, term):
    """The source's variables in place of the binary's."""
    if len(term) == 1:
        return terms.make(term[0].upper() if term[0] in LOWER else term[0])
    return terms.make(term[0], *[raised(terms, a) for a in term[1:]])


def other_side(terms, pick, nodes):
    """The same graph of the source, with a few changes."""
    made = []
    for node in nodes:
        if node[0] == "basic":
            node = ("basic", [(v.upper(), raised(terms, t)) for v, t in node[1]], node[2])
        elif node[0] == "cond":
            node = ("cond", raised(terms, node[1]), *(node[2:] if pick.random() < 0.95 else node[:1:-1]))
        made.append(node)
    return made


def line(terms, pick):
    v = pick.choice(LOWER)
    pair = (v, v.upper()) if pick.random() < 0.7 else (pick.choice(LOWER), pick.choice(UPPER + "013"))
    return terms.make(pick.choice("==<"), *[terms.make(x) for x in pair])


def frame(terms, pick, binary, source, bounds, others):
    lines = [[line(terms, pick) for _ in range(pick.choice([0, 1, 1, 2]))] for _ in range(3)]
    mark = lambda nodes: (pick.randrange(len(nodes)), pick.choice([1, 1, 1, 2]))
    goals = [(mark(binary), mark(source)) for _ in range(pick.choice([0, 1, 1, 2]))]
    goals += [((i, 1), (k, 1)) for i, k in zip([i for i, n in enumerate(binary) if n[0] == "call"], [i for i, n in enumerate(source) if n[0] == "call"])]
    kind = pick.choice(["leaf", "leaf", "leaf", "binary", "source", "wait"])
    at = {"leaf": None, "binary": mark(binary), "source": mark(source), "wait": pick.randrange(len(binary))}[kind]
    return Frame(terms, binary, source, *lines, goals, bounds, others, (kind, at))


def random_frame(pick):
    case = walks.random_case(pick)
    source = other_side(case.terms, pick, case.nodes)
    others = [(n, max(1, k + pick.choice([0, 0, 0, 1, -1]))) for n, k in case.bounds]
    return frame(case.terms, pick, case.nodes, source, case.bounds, others)


# ---- graphs of compiled functions


class Named(walks.Written):
    """Terms of a graph with these letters, as many as there are."""

    def __init__(self, terms, letters):
        super().__init__()
        self.terms, self.letters = terms, letters

    def variable(self, name):
        if name not in ("true", "false") and name not in self.names:
            self.names[name] = self.letters[len(self.names)]
        return name[0].upper() if name in ("true", "false") else self.names[name]


def compiled_frames(folder, pick):
    from pathlib import Path

    from compare_graphs import CRATES, LEVELS, PROBE, compiled, graphs_of
    from probe import ask

    files = [compiled(Path(folder), level) for level in LEVELS]
    shared = sorted(set.intersection(*[set(names) for _, names in files]))
    lines = [f"graphs {place:x} " + " ".join(f"{names[n]:x}" for n in shared) for place, (_, names) in enumerate(files)]
    graphs = list(graphs_of(ask(PROBE, CRATES, "\n".join(lines) + "\n", [file for file, _ in files])))
    of_level = [graphs[i * len(shared) : (i + 1) * len(shared)] for i in range(len(files))]
    for binaries, sources in zip(of_level, of_level[1:] + of_level[:1]):
        for binary, source in zip(binaries, sources):
            if isinstance(binary, str) or isinstance(source, str):
                continue  # one of them calls a function that isn't there at each level
            terms, sides = Terms(), []
            for (start, nodes), letters in ((binary, "abcdefghijklmnopqrtuvwxyz"), (source, "ABCDGHIJKLMNOPQSUVWXYZ")):
                named = Named(terms, letters)
                try:
                    sides.append(([named.node(n) for n in nodes], start))
                except IndexError:
                    break
            if len(sides) < 2 or any(start != 0 for _, start in sides):
                continue
            (a, _), (c, _) = sides
            for count in (1, 2):
                yield frame(terms, pick, a, c, [(h, count) for h in heads(a, 0)], [(h, count) for h in heads(c, 0)])


def main():
    pick = random.Random(7)
    with tempfile.TemporaryDirectory() as folder:
        frames = list(compiled_frames(folder, pick)) if "compiled" in sys.argv[1:] else [random_frame(pick) for _ in range(4000)]
    frames = [f for f in frames if "@" not in f.question() and len(f.question()) < walks.LONGEST]
    answers, counts, kinds = asked([f.question() for f in frames]), [0, 0], {}
    for f, answer in zip(frames, answers):
        kind = f.rule[0] if not f.is_cyclic() else "cyclic"
        kinds[kind] = kinds.get(kind, 0) + 1
        if len(answer) < 100 * walks.LONGEST:
            counts = [a + b for a, b in zip(counts, f.check(answer, pick, 16))]
    print(f"{len(frames)} frames ({', '.join(f'{n} {k}' for k, n in sorted(kinds.items()))}): {sum(counts)} obligations as the runs, {counts[0]} of them false")


if __name__ == "__main__":
    main()
