#!/usr/bin/env python3
"""Works out the answers of the rows of `crates/term_rows/stdin` by a second writing, and says which rows have another.

    scripts/check_rows.py           each row of the file
    scripts/check_rows.py FILE      each row of this file; one whose answer is `?` is printed with its answer

It is run outside the gate and needs nothing else. Values, normal forms, and clauses are those of `terms.py`; sorts,
flat terms, assignments read back, and steps of logs are written here. Logs of goals and searches (`close`,
`seek`, `sat`) are left out: `compare_search.py` compares the search with other solvers.
"""

import sys
from pathlib import Path

from terms import NUMBERED, Clauses, arguments, clauses, normal, operate

FIXED = {16 + i: b for i, b in enumerate((80, 117, 154, 191, 228, 9, 46, 83))} | {100: 7, 101: 8, 200: 9, 102: 2}
ARITY = {"not": 1, "bnot": 1, "ite": 3, "store8": 3, "over": 4, "join2": 2, "join4": 4, "join8": 8}
BINARY = "and or eq ult load8 add sub mul band bor bxor shl shr sar udiv urem".split()
BY_HAND = ("indices", "twice")
LEFT_OUT = ("close", "seek", "sat")


# ---- terms


def atom(word):
    name, _, rest = word.rpartition("/")[2].partition(":")
    if name in ("true", "false"):
        return (name,)
    if name.isdigit():
        return ("word", int(name), int(rest))
    return ("var", word, "memory" if name[0] in "mz" else "bool" if name in "pqr" else 8 if name == "v" else int(rest))


def terms(text):
    """Terms one after the other."""
    read = []
    for word in reversed(text.replace("(", "").replace(")", "").split()):
        name, _, rest = word.partition(":")
        if name in NUMBERED:
            read.append((name, int(rest), read.pop()))
        elif name in ARITY or name in BINARY:
            count = ARITY.get(name, 2)
            parts = [read.pop() for _ in range(count)]
            read.append(("join" if name.startswith("join") else name, *parts))
        else:
            read.append(atom(word))
    return read[::-1]


def term(text):
    (made,) = terms(text)
    return made


def sort(t):
    """The sort of a term, or None where it is not well sorted."""
    op = t[0]
    if op == "word":
        return t[1] if t[2] < 2 ** t[1] else None
    if op == "var":
        return t[2]
    if op in ("true", "false"):
        return "bool"
    found = [sort(a) for a in arguments(t)]
    first, *rest = found
    if None in found:
        return None
    is_word = isinstance(first, int)
    if op in ("not", "and", "or"):
        return "bool" if set(found) == {"bool"} else None
    if op in ("bnot", *BINARY) and op not in ("eq", "ult", "load8"):
        return first if is_word and set(found) == {first} else None
    if op in ("zext", "sext"):
        return t[1] if is_word and first <= t[1] else None
    if op == "low":
        return t[1] if is_word and t[1] <= first else None
    if op == "byte":
        return 8 if is_word and 8 * t[1] < first else None
    if op == "eq":
        return "bool" if first != "memory" and rest == [first] else None
    if op == "ult":
        return "bool" if is_word and rest == [first] else None
    if op == "load8":
        return 8 if found == ["memory", 32] else None
    if op == "ite":
        return rest[0] if first == "bool" and rest[0] == rest[1] else None
    if op == "store8":
        return "memory" if found == ["memory", 32, 8] else None
    if op == "over":
        return "memory" if found == ["memory", "memory", 32, 32] else None
    return 8 * len(found) if set(found) == {8} else None


def default(t):
    return {"bool": False, "memory": {}}.get(t[2], 0)


def value(t, values):
    """The value of a well sorted term; of a memory what bytes are written."""
    op = t[0]
    if op in ("true", "false"):
        return op == "true"
    if op == "word":
        return t[2]
    if op == "var":
        return values.get(t[1], default(t))
    found = [value(a, values) for a in arguments(t)]
    if op == "load8":
        return found[0].get(found[1], 0)
    if op == "store8":
        return found[0] | {found[1]: found[2]}
    if op == "over":
        below, above, low, high = found
        return {d: b for d, b in below.items() if not low <= d < high} | {d: b for d, b in above.items() if low <= d < high}
    return operate(op, t[1] if op in NUMBERED else None, found, sort(arguments(t)[0]))


def shown(kind, found):
    if kind is None:
        return "Truth(false)"
    if kind == "bool":
        return f"Truth({str(bool(found)).lower()})"
    if kind == "memory":
        return "Bytes(Memory { bytes: {" + ", ".join(f"{d}: {found[d]}" for d in sorted(found) if found[d]) + "} })"
    return f"Number(W{kind}, {found})"


def shown_value(t, values):
    return shown(sort(t), None if sort(t) is None else value(t, values))


def shown_sort(kind):
    return {None: "None", "bool": "Some(Truth)", "memory": "Some(Memory)"}.get(kind, f"Some(Word(W{kind}))")


# ---- trees


def subterms(t):
    """The distinct subterms of a term, itself among them."""
    return {t}.union(*map(subterms, arguments(t)))


def with_atoms(t, change):
    """The term with another in place of each variable."""
    if not arguments(t):
        return change(t) if t[0] == "var" else t
    head = t[:2] if t[0] in NUMBERED else t[:1]
    return head + tuple(with_atoms(a, change) for a in arguments(t))


def substituted(names, made, others):
    state = dict(zip(map(atom, names.split(",")), others))
    return with_atoms(made, lambda v: state.get(v, v))


def renamed(instance, t):
    own = lambda v: v[1].rpartition("/")[2].partition(":")[0] in ("a", "b", "c", "p", "q", "r")
    return with_atoms(t, lambda v: ("var", f"{instance}/{v[1].rpartition('/')[2]}", v[2]) if own(v) and instance != "0"
                      else ("var", v[1].rpartition("/")[2], v[2]) if own(v) else v)


# ---- flat terms


def loads_of(t, found):
    """Each load once, arguments before their term and from left to right."""
    for a in arguments(t):
        loads_of(a, found)
    if t[0] == "load8" and t[1][0] == "var" and t not in found:
        found.append(t)
    return found


def without_loads(t, loads):
    if t in loads:
        return ("var", f"v:{loads.index(t)}", 8)
    head = t[:2] if t[0] in NUMBERED else t[:1]
    return head + tuple(without_loads(a, loads) for a in arguments(t)) if arguments(t) else t


def flat(t):
    """The flat term, and the memories, addresses and bytes of its loads."""
    loads = loads_of(t, [])
    made = [(load[1], without_loads(load[2], loads), ("var", f"v:{i}", 8)) for i, load in enumerate(loads)]
    all_agree = ("true",)
    for memory in dict.fromkeys(memory for memory, _, _ in made):
        own = [load for load in made if load[0] == memory]
        for i, (_, a, b) in enumerate(own):
            for _, c, d in own[i + 1 :]:
                all_agree = ("and", all_agree, ("or", ("not", ("eq", a, c)), ("eq", b, d)))
    return ("or", ("not", all_agree), without_loads(t, loads)), made


def rebuilt(t, values):
    made, loads = flat(t)[1], {}
    for memory, address, byte in reversed(made):
        loads.setdefault(memory[1], {})[value(address, values)] = value(byte, values)
    return values | loads


# ---- clauses


def digest(rows):
    found = 0xCBF29CE484222325
    for row in rows:
        for code in [2 * abs(literal) + (literal < 0) for literal in row] + [0]:
            found = (found ^ code) * 0x100000001B3 % 2**64
    return f"{found:x}"


def holds(literal, bits):
    is_set = abs(literal) <= len(bits) and bits[abs(literal) - 1] == "1"
    return is_set == (literal > 0)


def read_back(goal, bits):
    """What a goal's variables are by the values of its clauses' variables."""
    made, values = Clauses(), {}
    made.of(goal)
    of = lambda literals: sum(holds(literal, bits) << i for i, literal in enumerate(literals))
    for t, literals in made.bits.items():
        if t[0] == "var":
            values[t[1]] = {} if t[2] == "memory" else of(literals) if t[2] != "bool" else holds(literals[0], bits)
    for memory, address, byte in reversed(made.loads):
        if memory[0] == "var":
            values[memory[1]][of(address)] = of(byte)
    return values


# ---- logs


def step(variables, known, literals, hints):
    """`None` where the step follows, else its fault."""
    names = [abs(literal) for literal in literals]
    if any(not 1 <= name <= variables for name in names) or len(set(names)) < len(names):
        return "Literals at hint 0"
    truths = {-literal for literal in literals}
    for i, hint in enumerate(hints, 1):
        if not 1 <= hint <= len(known):
            return f"Range at hint {i}"
        if truths & set(known[hint - 1]):
            return f"True at hint {i}"
        left = {literal for literal in known[hint - 1] if -literal not in truths}
        if len(left) > 1:
            return f"Two at hint {i}"
        if not left:
            return None if i == len(hints) else f"Early at hint {i}"
        truths |= left
    return f"Open at hint {len(hints)}"


def log(variables, text):
    given, *added = text.split(";")
    numbers = lambda words: [int(word) for word in words.split()]
    known = [row for row in map(numbers, given.split(",")) if all(1 <= abs(n) <= variables for n in row)]
    count, answers = len(known), []
    for words in added:
        literals, _, hints = words.partition("by")
        fault = step(variables, known, numbers(literals), numbers(hints))
        if fault is None:
            known.append(numbers(literals))
        answers.append(fault or "ok")
    return ", ".join(answers + ["closed" if len(known) > count and known[-1] == [] else "open"])


# ---- rows


def answer(name, detail, text, form, values):
    """The answer to a question, and the values of the variables after it."""
    if name == "log":
        return log(int(detail), text), values
    t, *others = terms(text)
    if name == "subterms":
        count = len(subterms(t))
        return str(count) if count <= int(detail) else "above", values
    if name in ("substitute", "rename"):
        made = renamed(detail, t) if name == "rename" else substituted(detail, t, others)
        return (form if form != "?" and term(form) == made else spelled(made)), values
    if name in ("value", "set"):
        found = shown_value(t, values)
        return found, values | {detail: value(t, values)} if name == "set" else values
    if name == "tree":
        return "None" if sort(t) is None else f"{shown_sort(sort(t))} {shown_value(t, values)}", values
    if name in ("normal", "flat"):
        made = normal(t, FIXED) if name == "normal" else flat(t)[0]
        return (form if form != "?" and term(form) == made else spelled(made)), values
    if name == "rebuild":
        values = rebuilt(t, values)
        return shown_value(t, values), values
    count, rows = clauses(t)
    if name == "clauses":
        return f"{count} {len(rows)}:" + "".join(f" {literal}" for row in rows[int(detail) :] for literal in row + [0]), values
    if name == "digest":
        return f"{count} {len(rows)} {digest(rows)}", values
    if name == "within":
        return f"{count} {len(rows)}" if count <= int(detail) else "large", values
    assert name == "model", name
    is_met = len(detail) == count and all(any(holds(literal, detail) for literal in row) for row in rows)
    values = values | read_back(t, detail)
    return f"{str(is_met).lower()} {shown_value(t, values)}", values


def spelled(t, is_outer=True):
    """A term as rows write it."""
    if t[0] == "word":
        return f"{t[1]}:{t[2]}"
    if not arguments(t):
        return t[1] if t[0] == "var" else t[0]
    head = f"{t[0]}:{t[1]}" if t[0] in NUMBERED else t[0] + str(len(t) - 1) * (t[0] == "join")
    made = " ".join([head] + [spelled(a, False) for a in arguments(t)])
    return made if is_outer else f"({made})"


def main(rows):
    values, counted, wrong = {}, {}, 0
    for row in rows:
        question, found, form = row.partition(" = ")
        if not found:
            continue
        first, _, text = question.partition(" ")
        name, _, detail = first.partition(":")
        counted[name] = counted.get(name, 0) + 1
        if name in LEFT_OUT or any(word in question for word in BY_HAND):
            continue
        made, values = answer(name, detail, text, form, values)
        if form == "?":
            print(f"{question} = {made}")
        elif made != form:
            wrong += 1
            print(f"WRONG {question} = {form}: by the second writing {made}")
    print("; ".join(f"{name}: {count}" for name, count in counted.items()) + f"; wrong: {wrong}", file=sys.stderr)
    return wrong


if __name__ == "__main__":
    path = Path(__file__).resolve().parent.parent / "crates/term_rows/stdin"
    sys.exit(bool(main(Path(sys.argv[1] if len(sys.argv) > 1 else path).read_text().splitlines())))
