#!/usr/bin/env python3
"""Compares visits, conditions and states of graphs with runs, and with a second writing.

    scripts/compare_conditions.py            random graphs
    scripts/compare_conditions.py compiled   graphs of compiled functions (Debian: gcc-riscv64-unknown-elf)

It is run outside the gate, after `rt run` in crates/proof_rows, whose program gives the answers. Each graph is
run here from random states: a visit's condition has to be true exactly where the run goes through the visit, and the
values have to be those of the state there; so with all visits of a stop, of a bound, that return and that fail, as one.
Each answer has to be, byte for byte, what is worked out here. In graphs of compiled functions the terms keep their
variables, and of their operators those that `proof_rows` can write; another is a sum.
"""

import random
import subprocess
import sys
import tempfile
from pathlib import Path

TOP = Path(__file__).resolve().parent.parent
PROGRAM = TOP / "crates/proof_rows/out/proof_rows"
LETTERS = "abcdefghijklmnopqrstuvwxyzABCDGHIJKLMNOPQSUVWXYZ@$%^*()-_~.[]{}"
LONGEST = 20000
QUESTIONS = ("stops", "bounds", "returns", "failures")


# ---- terms: (operator, ..) with hash-consing, so that the same term is the same object


class Terms:
    def __init__(self):
        self.known, self.sizes = {}, {}

    def make(self, *parts):
        key = tuple(p if isinstance(p, str) else id(p) for p in parts)
        if key not in self.known:
            self.known[key] = parts
            self.sizes[id(parts)] = 1 + sum(self.sizes[id(p)] for p in parts if not isinstance(p, str))
        return self.known[key]

    def size(self, term):
        return self.sizes[id(term)]

    def read(self, text):
        stack = []
        for c in reversed(text):
            count = {"!": 1, ":": 3}.get(c, 2 if c in "+<&|" else 0)
            stack.append(self.make(c, *[stack.pop() for _ in range(count)]))
        (term,) = stack
        return term

    def substitute(self, term, state, done):
        if id(term) not in done:
            if len(term) == 1:
                done[id(term)] = state.get(term[0], term)
            else:
                done[id(term)] = self.make(term[0], *[self.substitute(a, state, done) for a in term[1:]])
        return done[id(term)]


def text(term):
    return term[0] + "".join(text(a) for a in term[1:])


def value(term, values, done):
    if id(term) in done:
        return done[id(term)]
    c, found = term[0], [value(a, values, done) for a in term[1:]]
    if c in "TF":
        result = c == "T"
    elif c.isdigit():
        result = int(c)
    elif c == "+":
        result = (found[0] + found[1]) % 2**64
    elif c == "<":
        result = found[0] < found[1]
    elif c == "!":
        result = not found[0]
    elif c == "&":
        result = bool(found[0] and found[1])
    elif c == "|":
        result = bool(found[0] or found[1])
    elif c == ":":
        result = found[1] if found[0] else found[2]
    else:
        result = values.get(c, 0)
    done[id(term)] = result
    return result


# ---- graphs: nodes ("basic", bindings, place), ("cond", test, place, place) or ("call",); a place is a number, R or E


class Case:
    """A graph, and a walk over it."""

    def __init__(self, terms, nodes, start, stops, bounds):
        self.terms, self.nodes, self.start, self.stops, self.bounds = terms, nodes, start, stops, bounds
        self.marks = stops + bounds

    def graph(self):
        words = []
        for kind, *parts in self.nodes:
            if kind == "call":
                words.append("call")
            elif kind == "cond":
                words.append(f"{text(parts[0])}?{parts[1]}/{parts[2]}")
            else:
                words.append(",".join(f"{v}={text(t)}" for v, t in parts[0]) + f">{parts[1]}" if parts[0] else str(parts[1]))
        return " ".join(words)

    def shape(self):
        return " ".join("call" if n[0] == "call" else str(n[2]) if n[0] == "basic" else f"{n[2]}/{n[3]}" for n in self.nodes)

    def walk(self):
        words = ["from", str(self.start)]
        for name, marks in (("stops", self.stops), ("bounds", self.bounds)):
            words += [name] + [f"{node}:{count}" for node, count in marks] if marks else []
        return " ".join(words)

    def arrives(self, counts, place):
        return tuple(c + (place == node) for c, (node, _) in zip(counts, self.marks))

    def reached(self, visit, first, last):
        place, counts = visit
        return any(place == node and counts[i] == count for i, (node, count) in enumerate(self.marks) if first <= i < last)

    def is_stop(self, visit):
        return self.reached(visit, 0, len(self.stops))

    def is_bounded(self, visit):
        return self.reached(visit, len(self.stops), len(self.marks)) and not self.is_stop(visit)

    def ends(self, visit):
        return visit[0] in ("R", "E") or self.reached(visit, 0, len(self.marks))

    def edges(self, visit):
        if self.ends(visit):
            return []
        kind, *parts = self.nodes[visit[0]]
        if kind == "call":
            return [("", visit)]
        places = [("", parts[1])] if kind == "basic" else [("t", parts[1]), ("f", parts[2])]
        return [(branch, (place, self.arrives(visit[1], place))) for branch, place in places]

    def visits(self, most=1500):
        """In their order; None where a cycle or too many are met."""
        first = (self.start, tuple(0 for _ in self.marks))
        state, order, stack = {first: 1}, [], [(first, iter(self.edges(first)))]
        while stack:
            visit, rest = stack[-1]
            edge = next(rest, None)
            if edge is None:
                order.append(visit)
                state[visit] = 2
                stack.pop()
            elif state.get(edge[1]) == 1 or len(state) > most:
                return None
            elif edge[1] not in state:
                state[edge[1]] = 1
                stack.append((edge[1], iter(self.edges(edge[1]))))
        return order[::-1]

    def conditions(self, visits):
        """The condition and the state of each visit."""
        terms, at, into = self.terms, {v: i for i, v in enumerate(visits)}, {v: [] for v in visits}
        for visit in visits:
            for branch, after in self.edges(visit):
                into[after].append((at[visit], branch))
        found = []
        for visit in visits:
            if not found:
                found.append((terms.make("T"), {}))
                continue
            edges = [self.edge(visits[source], *found[source], branch) for source, branch in into[visit]]
            found.append((self.any_of([c for c, _ in edges]), self.merged(edges)))
        return found, into

    def edge(self, visit, condition, state, branch):
        terms, (kind, *parts) = self.terms, self.nodes[visit[0]]
        if kind == "basic":
            return condition, {**state, **{v: terms.substitute(t, state, {}) for v, t in parts[0]}}
        test = terms.substitute(parts[0], state, {})
        return terms.make("&", condition, test if branch == "t" else terms.make("!", test)), state

    def any_of(self, conditions):
        term = conditions[0] if conditions else self.terms.make("F")
        for condition in conditions[1:]:
            term = self.terms.make("|", term, condition)
        return term

    def merged(self, parts):
        state = {}
        for v in dict.fromkeys(v for _, s in parts for v in s):
            values = [s.get(v, self.terms.make(v)) for _, s in parts]
            if all(x is values[0] for x in values):
                state[v] = values[0]
                continue
            term = values[-1]
            for (condition, _), x in list(zip(parts, values))[-2::-1]:
                term = self.terms.make(":", condition, x, term)
            state[v] = term
        return state

    def run(self, values, steps=4000):
        """The visits of a run, with the values at each."""
        visit, passed = (self.start, tuple(0 for _ in self.marks)), []
        for _ in range(steps):
            passed.append((visit, values))
            if self.ends(visit):
                return passed
            kind, *parts = self.nodes[visit[0]]
            if kind == "basic":
                values = {**values, **{v: value(t, values, {}) for v, t in parts[0]}}
                place = parts[1]
            else:
                place = parts[1] if value(parts[0], values, {}) else parts[2]
            visit = (place, self.arrives(visit[1], place))
        sys.exit("a run doesn't end")

    def order(self):
        """The variables that nodes bind, in their first order."""
        return list(dict.fromkeys(v for n in self.nodes if n[0] == "basic" for v, _ in n[1]))


def shown(case, condition, state):
    words = [text(condition)]
    return " ".join(words + [f"{v}={text(state[v])}" for v in case.order() if v in state and state[v] is not case.terms.make(v)])


def length(case, condition, state):
    return case.terms.size(condition) + sum(case.terms.size(t) for t in state.values())


def place_text(visits, into, case):
    words = []
    for i, visit in enumerate(visits):
        counts = "(" + ",".join(map(str, visit[1])) + ")" if case.marks else ""
        edges = "<" + ",".join(f"{s}{b}" for s, b in into[visit]) if into[visit] else ""
        words.append(f"{visit[0]}{counts}{edges}")
    return " ".join(words)


def parsed(terms, answer):
    """A condition and a state as a program prints them."""
    condition, *rest = answer.split(" ")
    return terms.read(condition), {word[0]: terms.read(word[2:]) for word in rest}


def is_true_there(case, condition, state, passed, start):
    """The condition is true exactly where there are values, and they are those of the state."""
    done = {}
    if bool(value(condition, start, done)) != (passed is not None):
        return False
    return passed is None or all(value(state[v], start, done) == passed.get(v, 0) if v in state else start.get(v, 0) == passed.get(v, 0) for v in case.order())


class Rows:
    """Questions about a case, and what is expected."""

    def __init__(self, case):
        self.case, self.visits = case, case.visits()
        self.questions = []
        if self.visits is None:
            return
        self.found, into = case.conditions(self.visits)
        groups = [case.is_stop, case.is_bounded, lambda v: v[0] == "R", lambda v: v[0] == "E"]
        self.groups = [[i for i, v in enumerate(self.visits) if test(v)] for test in groups]
        whole = [(case.any_of([self.found[i][0] for i in g]), case.merged([self.found[i] for i in g])) for g in self.groups]
        if sum(length(case, *f) for f in self.found + whole) > LONGEST:
            return
        graph = f"{case.graph()} | {case.walk()}"
        listed = "; ".join(f"{v[0]} {shown(case, *f)}" for v, f in zip(self.visits, self.found))
        self.questions = [(f"visits {case.shape()} {case.walk()}", place_text(self.visits, into, case)), (f"conditions {graph}", listed)]
        self.questions += [(f"{name} {graph}", shown(case, *w)) for name, w in zip(QUESTIONS, whole)]

    def check(self, answers, pick, runs):
        """How many runs were compared; stops at the first that differs."""
        for (question, expected), answer in zip(self.questions, answers):
            if answer != expected:
                sys.exit(f"differs: {question}\n  expected {expected}\n  found    {answer}")
        terms, case = self.case.terms, self.case
        conditions = [parsed(terms, part.split(" ", 1)[1]) for part in answers[1].split("; ")]
        whole = [parsed(terms, answer) for answer in answers[2:]]
        for _ in range(runs):
            start = {v: pick.choice([0, 1, 2, 3, 5, 7, 2**64 - 1, pick.getrandbits(64)]) for v in LETTERS}
            passed = dict(case.run(start))
            for i, visit in enumerate(self.visits):
                if not is_true_there(case, *conditions[i], passed.get(visit), start):
                    sys.exit(f"a run differs at visit {i}: {self.questions[1][0]}")
            for group, pair in zip(self.groups, whole):
                there = next((passed[self.visits[i]] for i in group if self.visits[i] in passed), None)
                if not is_true_there(case, *pair, there, start):
                    sys.exit(f"a run differs at a group of visits: {self.questions[1][0]}")
        return runs


# ---- random graphs


def random_term(terms, pick, depth):
    if depth == 0 or pick.random() < 0.3:
        return terms.make(pick.choice("abcdef0137"))
    return terms.make("+", *[random_term(terms, pick, depth - 1) for _ in range(2)])


def random_test(terms, pick):
    test = terms.make("<", *[random_term(terms, pick, 1) for _ in range(2)])
    return terms.make("!", test) if pick.random() < 0.2 else test


def random_case(pick):
    terms, n = Terms(), pick.randint(2, 12)
    nodes, bounds, stops = [], {}, {}
    for i in range(n):
        def place():
            if pick.random() < 0.12 or i + 1 == n:
                return pick.choice("RRE")
            if pick.random() < 0.07:
                back = pick.randint(0, i)
                bounds.setdefault(back, pick.randint(1, 3))
                return back
            return min(n - 1, i + pick.choice([1, 1, 1, 2, 3]))
        kind = pick.random()
        if kind < 0.06:
            nodes.append(("call",))
            stops[i] = 1
        elif kind < 0.5:
            nodes.append(("cond", random_test(terms, pick), place(), place()))
        else:
            names = pick.sample("abcdef", pick.randint(0, 2))
            nodes.append(("basic", [(v, random_term(terms, pick, 2)) for v in names], place()))
    if pick.random() < 0.2:
        stops.setdefault(pick.randrange(n), pick.randint(1, 2))
    return Case(terms, nodes, 0, sorted(stops.items()), sorted(bounds.items()))


# ---- graphs of compiled functions


class Written:
    """Terms of a compiled function's graph as those of rows."""

    def __init__(self):
        self.terms, self.names = Terms(), {}

    def variable(self, name):
        if name in ("true", "false"):
            return name[0].upper()
        if name not in self.names:
            self.names[name] = LETTERS[len(self.names)]
        return self.names[name]

    def term(self, t):
        if t[0] == "word":
            return self.terms.make(str(t[2] % 10))
        if t[0] == "var":
            return self.terms.make(self.variable(t[1]))
        parts = [self.term(a) for a in t[1:]]
        operator = {"Not": "!", "And": "&", "Or": "|", "Equal": "<", "Less": "<", "Choose": ":", "WordAdd": "+"}.get(t[0])
        if operator and len(parts) == {"!": 1, ":": 3}.get(operator, 2):
            return self.terms.make(operator, *parts)
        made = parts[0]
        for part in parts[1:]:
            made = self.terms.make("+", made, part)
        return made

    def place(self, to):
        return {"Ret": "R", "Err": "E"}.get(to) or int(to)

    def node(self, node):
        kind, *parts = node
        if kind == "call":
            return ("call",)
        if kind == "cond":
            return ("cond", self.term(parts[0]), self.place(parts[1]), self.place(parts[2]))
        return ("basic", [(self.variable(v), self.term(t)) for v, t in parts[0]], self.place(parts[1]))


def heads(nodes, start):
    """The nodes to which an edge of a depth-first walk goes back."""
    state, found = {start: 1}, set()
    follow = lambda n: iter([] if nodes[n][0] == "call" else [p for p in nodes[n][2:] if isinstance(p, int)])
    stack = [(start, follow(start))]
    while stack:
        node, rest = stack[-1]
        to = next(rest, None)
        if to is None:
            state[node] = 2
            stack.pop()
        elif state.get(to) == 1:
            found.add(to)
        elif to not in state:
            state[to] = 1
            stack.append((to, follow(to)))
    return sorted(found)


def compiled_cases(folder):
    from compare_graphs import CRATES, LEVELS, PROBE, compiled, graphs_of
    from probe import ask

    files = [compiled(Path(folder), level) for level in LEVELS]
    lines = [f"graphs {place:x} " + " ".join(f"{e:x}" for e in names.values()) for place, (_, names) in enumerate(files)]
    graphs = graphs_of(ask(PROBE, CRATES, "\n".join(lines) + "\n", [file for file, _ in files]))
    for start, nodes in graphs:
        for count in (1, 2, 3):
            written = Written()
            made = [written.node(node) for node in nodes]
            stops = [(i, 1) for i, node in enumerate(made) if node[0] == "call"]
            loops = heads(made, start)
            if count == 1 or loops:
                yield Case(written.terms, made, start, stops, [(head, count) for head in loops])
        # from each landing node and from each loop's head on, as from a cut
        for at in [int(node[-1]) for node in nodes if node[0] == "call"] + heads(made, start):
            yield Case(written.terms, made, at, stops, [(head, 1) for head in loops])


def asked(questions):
    """What `proof_rows` finds."""
    # a row whose answer is empty is printed with what was found
    rows = "".join(f"{question} = \n" for question in questions)
    ran = subprocess.run([str(PROGRAM)], input=rows, capture_output=True, text=True)
    lines = [line for line in ran.stdout.splitlines() if ": found " in line]
    if len(lines) != len(questions):
        sys.exit(f"proof_rows answered {len(lines)} of {len(questions)} rows: {ran.stdout[-500:]}{ran.stderr[-2000:]}")
    return [line.split(" = : found ", 1)[1] for line in lines]


def main():
    pick, done = random.Random(11), 0
    with tempfile.TemporaryDirectory() as folder:
        cases = list(compiled_cases(folder)) if "compiled" in sys.argv[1:] else [random_case(pick) for _ in range(4000)]
    rows = [Rows(case) for case in cases]
    asking = [row for row in rows if row.questions]
    answers = asked([question for row in asking for question, _ in row.questions])
    for row in asking:
        done += row.check(answers[: len(row.questions)], pick, 12)
        answers = answers[len(row.questions) :]
    visits = sum(len(row.visits) for row in asking)
    left = len(rows) - len(asking)
    print(f"{len(asking)} walks with {visits} visits: the same; {done} runs: the same; {left} walks are cyclic, or too long to print")


if __name__ == "__main__":
    main()
