#!/usr/bin/env python3
"""Compares the search for models of clauses with other SAT solvers.

    scripts/compare_search.py sets [PROGRAM]      2,000 random clause sets, and 200 of goals of words
    scripts/compare_search.py goals [PROGRAM]     learnt clauses and seconds on goals of words
    scripts/compare_search.py suite FOLDER        writes goals of compiled functions into a folder, in the DIMACS format
    scripts/compare_search.py compiled FOLDER [PROGRAM [BEFORE]]
                                                  learnt clauses, assignments, seconds and logs on those goals, also
                                                  beside those of an earlier program

It is run outside the gate and needs minisat and cadical (Debian: minisat, cadical) on the path, and the program
`term_rows` as `rt run` builds it in its folder. `suite` needs gcc, clang and lld besides, as compare_compilers.py does,
and the program `tv_rows`, whose rows write the goals.

Clause sets of goals of words are made by `terms.py`, which makes the clauses that `bit_blast` makes
(`compare_clauses.py`). Of `sets` the answers must be the same, each log is checked by `clause_check`, and each model by
the clauses. In `goals` the number of learnt clauses is the least limit at which the search closes the clauses; seconds
are the least of a few runs. All seconds are user time of the processor.

A goal of the suite is an obligation of a function of functions.txt as gcc or clang compiled it, for which minisat
without preprocessing needs a thousand conflicts or more: easier ones close in a tenth of a second. Each set of clauses
is there once, of a function at most six. The functions are in two halves, by their names: constants of the search are
chosen on the goals of the first half, `train`, and the figures that count are those of the second one, `held`.
"""

import hashlib
import random
import resource
import statistics
import subprocess
import sys
import tempfile
from pathlib import Path

from compare_clauses import goals as random_goals, is_met, written
from compare_compilers import COMPILERS, LEVELS, compiled, functions
from compare_terms import FIXED
from probe import ROOT
from terms import clauses, normal

LIMIT = 65536
RUNS = 3

# the seconds that another solver has for a goal; of a slower run there is no second one
SECONDS = 60
SLOW = 5


# ---- solvers


def run(words, **more):
    """What a program writes, and its user seconds."""
    before = resource.getrusage(resource.RUSAGE_CHILDREN)
    ran = subprocess.run(words, capture_output=True, text=True, **more)
    after = resource.getrusage(resource.RUSAGE_CHILDREN)
    return ran, after.ru_utime - before.ru_utime


def counted(text, name):
    """The number that a solver gives for this word of its statistics."""
    for line in text.splitlines():
        words = line.replace(":", " ").removeprefix("c ").split()
        if words[:1] == [name] and len(words) > 1:
            return int(words[1])
    return 0


def other(solver, count, rows):
    """Whether another solver finds a model (None: its time ended), its conflicts, its seconds and its assignments."""
    with tempfile.TemporaryDirectory() as folder:
        path = Path(folder, "goal.cnf")
        path.write_text(f"p cnf {count} {len(rows)}\n{written(rows)}")
        is_minisat = solver.startswith("minisat")
        words = [*solver.split(), f"-cpu-lim={SECONDS}"] if is_minisat else [*solver.split(), "-t", str(SECONDS)]
        ran, seconds = run([*words, str(path)] + ([str(path) + ".out"] if is_minisat else []))
    if ran.returncode not in (0, 10, 20):
        sys.exit(f"{solver} ended with status {ran.returncode}")
    has_model = {0: None, 10: True, 20: False}[ran.returncode]
    return has_model, counted(ran.stdout, "conflicts"), seconds, counted(ran.stdout, "propagations")


def question(word, limit, count, rows):
    """A row that asks the program about clauses."""
    listed = ",".join(" ".join(map(str, row)) or "none" for row in rows)
    return f"sat {word}clauses:{limit} {count} {listed} = ?\n"


def asked(program, texts):
    """What the program finds for rows, and its seconds."""
    ran, seconds = run([str(program)], input="".join(texts))
    found = [line.rpartition(": found ")[2] for line in ran.stdout.splitlines()]
    if len(found) != len(texts):
        sys.exit(f"{len(texts)} rows and {len(found)} answers")
    return found, seconds


# ---- random sets


def random_sets(maker, count):
    """Clause sets near the ratio at which half of them have a model, of one length of clauses or of several."""
    for i in range(count):
        variables = maker.randint(5, 120)
        if i % 2:
            lengths, ratio = [3], maker.uniform(3.8, 4.8)
        else:
            lengths, ratio = [1, 2, 2, 3, 3, 3, 4, 5], maker.uniform(1.0, 3.5)
        rows = []
        for _ in range(int(ratio * variables)):
            chosen = maker.sample(range(1, variables + 1), min(variables, maker.choice(lengths)))
            rows.append([maker.choice((1, -1)) * variable for variable in chosen])
        yield f"random {i}", variables, rows


def circuit_sets(count):
    """Clause sets of random goals of words."""
    for i, (goal, is_formed, _) in zip(range(count), random_goals(count // 4, count // 2, count)):
        yield (f"circuit {i}", *clauses(normal(goal, FIXED) if is_formed else goal))


def compare_sets(program, random_count=2000, circuit_count=200):
    sets = [*random_sets(random.Random(35), random_count), *circuit_sets(circuit_count)]
    found, seconds = asked(program, [question("", LIMIT, count, rows) for _, count, rows in sets])
    wrong, totals = 0, {"cadical": [0, 0.0], "minisat": [0, 0.0]}
    answers = {}
    for (name, count, rows), answer in zip(sets, found):
        models = []
        for solver, total in totals.items():
            has_model, conflicts, spent, _ = other(solver, count, rows)
            total[0] += conflicts
            total[1] += spent
            models.append(has_model)
        answers[answer] = answers.get(answer, 0) + 1
        if models != [answer == "model"] * 2 or answer not in ("model", "closed"):
            wrong += 1
            print("WRONG", name, answer, models, flush=True)
    print("; ".join(f"{answer}: {count}" for answer, count in sorted(answers.items())) + f"; wrong: {wrong}")
    print(f"here: {seconds:.1f} s; " + "; ".join(f"{name}: {n} conflicts, {s:.1f} s" for name, (n, s) in totals.items()))
    return wrong


# ---- goals of words


def word(width, number):
    return ("word", width, number % 2**width)


def variable(name, width=32):
    return ("var", f"{name}{width}", width)


def fold(operator, terms):
    found = terms[0]
    for term in terms[1:]:
        found = (operator, found, term)
    return found


def shifted(operator, x, count):
    return (operator, x, word(32, count))


def masked(x, mask):
    return ("band", x, word(32, mask))


def bits_added(x):
    """How many bits of a word are set, one after the other."""
    return fold("add", [masked(shifted("shr", x, i), 1) for i in range(32)])


def bits_in_parallel(x):
    """How many bits of a word are set, in pairs, then in fours, then in eights."""
    x = ("sub", x, masked(shifted("shr", x, 1), 0x55555555))
    x = ("add", masked(x, 0x33333333), masked(shifted("shr", x, 2), 0x33333333))
    x = masked(("add", x, shifted("shr", x, 4)), 0x0F0F0F0F)
    return shifted("shr", ("mul", x, word(32, 0x01010101)), 24)


def crc_by_bits(bytes_):
    """The check of bytes by the polynomial 7, bit by bit."""
    check = word(8, 0)
    for byte in bytes_:
        check = ("bxor", check, byte)
        for _ in range(8):
            mask = ("ite", ("ult", check, word(8, 128)), word(8, 0), word(8, 7))
            check = ("bxor", ("shl", check, word(8, 1)), mask)
    return check


def crc_of(number):
    for _ in range(8):
        number = number << 1 ^ (7 if number & 128 else 0)
        number &= 255
    return number


def crc_by_table(bytes_):
    """The same by what each bit of a byte adds."""
    check = word(8, 0)
    for byte in bytes_:
        mixed = ("bxor", check, byte)
        parts = []
        for i in range(8):
            is_unset = ("eq", ("band", mixed, word(8, 1 << i)), word(8, 0))
            parts.append(("ite", is_unset, word(8, 0), word(8, crc_of(1 << i))))
        check = fold("bxor", parts)
    return check


class Memory:
    """A memory after stores of words."""

    def __init__(self):
        self.stores = []

    def store(self, address, value):
        for i in range(4):
            self.stores.append((("add", address, word(32, i)), ("byte", i, value)))

    def byte(self, address):
        found = ("load8", ("var", "m0", "memory"), address)
        for at, value in self.stores:
            found = ("ite", ("eq", at, address), value, found)
        return found

    def load(self, address):
        return ("join", *[self.byte(("add", address, word(32, i))) for i in range(4)])


def sum_by_pointers():
    """`int f(int *a, int *b) { return *a + *b; }` as it is compiled without optimisation, where neither points into the frame."""
    a, b, frame = variable("a"), variable("b"), variable("s")
    before, after = Memory(), Memory()
    slot = lambda offset: ("add", frame, word(32, offset))
    after.store(slot(-20), a)
    after.store(slot(-24), b)
    first = after.load(after.load(slot(-20)))
    second = after.load(after.load(slot(-24)))
    inside = lambda x, i: ("ult", ("sub", ("add", x, word(32, i)), slot(-48)), word(32, 48))
    goal = ("eq", ("add", first, second), ("add", before.load(a), before.load(b)))
    for pointer in (a, b):
        for i in range(4):
            goal = ("or", inside(pointer, i), goal)
    return goal


def goals():
    """Goals that hold, with their names."""
    a, b, c, d = (variable(name) for name in "abcd")
    yield "a + b = b + a", ("eq", ("add", a, b), ("add", b, a))
    yield "(a + b) + c = a + (b + c)", ("eq", ("add", ("add", a, b), c), ("add", a, ("add", b, c)))
    yield "a * 10 by shifts", ("eq", ("mul", a, word(32, 10)), ("add", shifted("shl", a, 3), shifted("shl", a, 1)))
    yield "a * 31 by shifts", ("eq", ("mul", a, word(32, 31)), ("sub", shifted("shl", a, 5), a))
    yield "a - b by the complement", ("eq", ("sub", a, b), ("add", ("add", a, ("bnot", b)), word(32, 1)))
    yield "population count", ("eq", bits_added(a), bits_in_parallel(a))
    bytes_ = [variable(name, 8) for name in "ab"]
    yield "crc8 of two bytes", ("eq", crc_by_bits(bytes_), crc_by_table(bytes_))
    yield "a sum of four turned round", ("eq", fold("add", [a, b, c, d]), fold("add", [d, c, b, a]))
    for width in (6, 8, 10):
        x, y = variable("x", width), variable("y", width)
        yield f"a * b = b * a, {width} bits", ("eq", ("mul", x, y), ("mul", y, x))
    yield "six loads and stores at -O0", sum_by_pointers()
    sign = shifted("sar", a, 31)
    is_small = ("ult", a, word(32, 1 << 31))
    yield "absolute value", ("eq", ("sub", ("bxor", a, sign), sign), ("ite", is_small, a, ("sub", word(32, 0), a)))
    borrow = ("bor", ("band", ("bnot", a), b), ("band", ("bor", ("bnot", a), b), ("sub", a, b)))
    yield "ult by the borrow", ("eq", ("ult", a, b), ("not", ("eq", masked(borrow, 1 << 31), word(32, 0))))


def peak(program, text):
    """The peak of memory of a run, in MiB."""
    ran = subprocess.run(["/usr/bin/time", "-f", "%M", str(program)], input=text, capture_output=True, text=True)
    return int(ran.stderr.split()[-1]) / 1024


def best_of(once):
    """The run of least seconds, which come first."""
    best = once()
    for _ in range(RUNS - 1):
        if best[0] < SLOW:
            best = min(best, once(), key=lambda one: one[0])
    return best


def by_other(solver, count, rows):
    has_model, conflicts, seconds, _ = other(solver, count, rows)
    return seconds, conflicts, has_model is None


def by_search(program, text):
    (found,), seconds = asked(program, [text])
    return seconds, found.split(" ")


def compare_goals(program):
    titles = ["Goal", "Variables", "Clauses", "Learnt", "Steps of the log", "Seconds", "MiB"]
    titles += ["By cadical", "Seconds", "By minisat", "Seconds", "Learnt by the better", "Seconds by cadical's"]
    print("| " + " | ".join(titles) + " |\n" + "|---" * len(titles) + "|", flush=True)
    for name, goal in goals():
        count, rows = clauses(goal)
        text = question("count ", LIMIT, count, rows)
        seconds, found = best_of(lambda: by_search(program, text))
        others = [best_of(lambda: by_other(solver, count, rows)) for solver in ("cadical", "minisat")]
        ours = int(found[4]) + 1 if found[0] == "closed" else None
        cells = [name, count, len(rows), ours or f"over {LIMIT}", found[1] if ours else "", f"{seconds:.2f}", f"{peak(program, text):.0f}"]
        for spent, conflicts, is_over in others:
            cells += [f"over {conflicts}" if is_over else conflicts, f"{spent:.2f}"]
        better = min(conflicts for _, conflicts, _ in others)
        cells += [f"{ours / max(1, better):.2f}" if ours else "", "" if others[0][2] else f"{seconds / max(0.01, others[0][0]):.1f}"]
        print("| " + " | ".join(map(str, cells)) + " |", flush=True)
    return 0


# ---- goals of compiled functions

# of the obligations of a function at most so many are in the suite; easier ones than this aren't
MOST, EASY = 6, 1000

# goals closed within these seconds are counted
PATIENCE = 5

TV_ROWS = ROOT / "crates/tv_rows/out/tv_rows"


class All:
    """Which functions compare_compilers.py gives."""

    random, only = 0, ""


def obligations(text, data):
    """The clauses of the obligations of the function `f` of a source and its code: their variables, and the clauses."""
    source = text.replace("\\", "\\\\").replace("\n", "\\n")
    rows = f"x: elf {data.hex()}\nx: c {source}\nx (f): proof goals\n"
    ran, _ = run([str(TV_ROWS)], input=rows)
    found = []
    for line in ran.stdout.splitlines():
        words = line.removeprefix("x (f): ").split()
        if words[:2] == ["p", "cnf"]:
            found.append((int(words[2]), []))
        elif found and words[-1:] == ["0"]:
            found[-1][1].append([int(word) for word in words[:-1]])
    return found


def hard(function, folder):
    """The goals of a function that aren't easy, with the compiler and the level, each set of clauses once."""
    seen = set()
    for compiler, command in COMPILERS.items():
        for level in LEVELS:
            data = compiled(folder, "f", function.text, [*command, f"-{level}"])
            for number, (count, rows) in enumerate(obligations(function.text, data)):
                text = f"p cnf {count} {len(rows)}\n{written(rows)}"
                key = hashlib.sha256(text.encode()).hexdigest()
                if rows and key not in seen and other("minisat -no-pre", count, rows)[1] >= EASY:
                    seen.add(key)
                    yield f"{compiler} {level} {number}", text


def write_suite(folder):
    folder = Path(folder)
    for half in ("train", "held"):
        Path(folder, half).mkdir(parents=True, exist_ok=True)
    written_goals = 0
    for function in functions(All):
        half = "train" if hashlib.sha256(function.name.encode()).digest()[0] % 2 else "held"
        with tempfile.TemporaryDirectory() as scratch:
            found = list(hard(function, Path(scratch)))
        # evenly over compilers and levels
        for where, text in found[:: -(-len(found) // MOST) or 1]:
            name = f"{function.name} {where}".replace(",", "").replace("'", "").replace(" ", "_")
            Path(folder, half, name + ".cnf").write_text(text)
            written_goals += 1
    print(f"{written_goals} goals")
    return 0


def read_cnf(path):
    """The number of variables and the clauses of a file."""
    head, *lines = path.read_text().splitlines()
    return int(head.split()[2]), [[int(word) for word in line.split()[:-1]] for line in lines]


class Measured:
    """What a search took: whether it closed the clauses, learnt clauses, assignments, seconds, bytes of its log."""

    def __init__(self, closed, learnt, assignments, seconds, size):
        self.closed, self.learnt, self.assignments, self.seconds, self.size = closed, learnt, assignments, seconds, size

    def cells(self):
        over = "" if self.closed else "over "
        size = [self.size] if self.size is not None else []
        return [f"{over}{self.learnt}", self.assignments, f"{self.seconds:.2f}", *size]


def limited(words, **more):
    """As `run`, but given up after some processor seconds."""
    return run(["sh", "-c", f'ulimit -t {SECONDS}; exec "$@"', "sh", *words], **more)


def by_program(program, count, rows):
    ran, seconds = limited([str(program)], input=question("count ", LIMIT, count, rows))
    words = ran.stdout.strip().rpartition(": found ")[2].split(" ")
    if len(words) < 6:
        return Measured(False, 0, 0, seconds, 0)
    steps, learnt, assignments = int(words[1]), int(words[4]), int(words[5])
    size = 0
    if words[0] == "closed":
        ran, _ = limited([str(program)], input=question("log ", LIMIT, count, rows))
        size = len(ran.stdout.strip().rpartition(": found ")[2]) + 2 * steps
    return Measured(words[0] == "closed", learnt, assignments, seconds, size)


def by_solver(solver, count, rows):
    has_model, conflicts, seconds, assignments = other(solver, count, rows)
    return Measured(has_model is False, conflicts, assignments, seconds, None)


def quotients(name, pairs, of):
    """The median quotient of a figure of two searches, over the goals that both close."""
    found = [of(a) / of(b) for a, b in pairs if a.closed and b.closed and of(a) and of(b)]
    if found:
        print(f"{name}: {statistics.median(found):.2f} in the median of {len(found)}")


def is_soon(one):
    return one.closed and one.seconds <= PATIENCE


def changed(pairs, is_done):
    """How many goals the second search of each pair closes and the first one doesn't, and the other way round."""
    lost = sum(is_done(b) and not is_done(a) for a, b in pairs)
    return f"{lost} lost, {sum(is_done(a) and not is_done(b) for a, b in pairs)} gained"


def summed_up(half, goals_):
    """What the goals of a half say: `goals_` has what each search took of each goal, by the search's name."""
    print(f"\n{half}: {len(goals_)} goals")
    for name in goals_[0]:
        found = [goal[name] for goal in goals_]
        print(f"{name}: {sum(one.closed for one in found)} closed, {sum(map(is_soon, found))} within {PATIENCE} s")
    for name in list(goals_[0])[1:]:
        pairs = [(goal["here"], goal[name]) for goal in goals_]
        print(f"beside {name}: {changed(pairs, lambda one: one.closed)}; within {PATIENCE} s {changed(pairs, is_soon)}")
        quotients("  learnt", pairs, lambda one: one.learnt)
        quotients("  assignments", pairs, lambda one: one.assignments)
        quotients("  seconds", pairs, lambda one: max(one.seconds, 0.01))
        quotients("  seconds for each assignment", pairs, lambda one: max(one.seconds, 0.01) / max(1, one.assignments))
        quotients("  bytes of log", pairs, lambda one: one.size)


def compare_compiled(folder, program, before=None):
    searches = {"here": lambda *goal: by_program(program, *goal)}
    if before:
        searches["before"] = lambda *goal: by_program(before, *goal)
    for solver in ("minisat", "minisat -no-pre", "cadical"):
        searches[solver] = lambda *goal, solver=solver: by_solver(solver, *goal)
    titles = ["Goal", "Variables", "Clauses"]
    for name in searches:
        titles += [f"Learnt ({name})", "Assignments", "Seconds"] + (["Bytes"] if name in ("here", "before") else [])
    for half in ("train", "held"):
        print("\n| " + " | ".join(titles) + " |\n" + "|---" * len(titles) + "|", flush=True)
        found = []
        for path in sorted(Path(folder, half).glob("*.cnf")):
            count, rows = read_cnf(path)
            found.append({name: search(count, rows) for name, search in searches.items()})
            cells = [path.stem.replace("_", " "), count, len(rows)] + [cell for one in found[-1].values() for cell in one.cells()]
            print("| " + " | ".join(map(str, cells)) + " |", flush=True)
        if found:
            summed_up(half, found)
    return 0


if __name__ == "__main__":
    term_rows = ROOT / "crates/term_rows/out/term_rows"
    job, words = (sys.argv[1:2] or [""])[0], sys.argv[2:]
    if job in ("sets", "goals") and len(words) < 2:
        where = Path(words[0]) if words else term_rows
        sys.exit(bool({"sets": compare_sets, "goals": compare_goals}[job](where)))
    if job == "suite" and len(words) == 1:
        sys.exit(write_suite(words[0]))
    if job == "compiled" and 1 <= len(words) <= 3:
        sys.exit(compare_compiled(words[0], *(words[1:] or [term_rows])))
    sys.exit(__doc__)
