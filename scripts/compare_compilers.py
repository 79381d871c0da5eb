#!/usr/bin/env python3
"""Tries `tv` on what compilers make of C functions, right and wrong.

    scripts/compare_compilers.py [OPTIONS] PROGRAM      PROGRAM is `tv` as it is compiled, as crates/tv_main/out/tv_main

    --only TEXT         functions whose names contain this text
    --random N          in their place N random functions, which have no twin
    --compilers a,b     of gcc and clang
    --levels a,b        of O0, O1, O2, O3, Os
    --wrong N           changed instructions a binary (1)
    --seconds N         processor seconds after which a run is given up (60)
    --jobs N            runs at once (1)
    --seed N            of the samples and of the changes (0)
    --log FILE          a line for each run: compiler, level, kind, status, answer, processor seconds, MiB, bytes of certificate, name
    --keep FOLDER       keeps each pair that is asked, under its number in the log
    --dry               compiles, changes and samples, and runs no `tv`

The functions are those of `functions.txt` beside this script, each with a wrong twin. Each is compiled for rv32im/ilp32 by
each compiler at each level, and three kinds of pairs are asked with `tv prove`:

- right: the source and its own code;
- changed: the source, and its code with one instruction changed;
- twin: the source, and the code of its wrong twin.

After a `prove` that finds a function valid `tv check` has to agree with it, and has to refuse the same certificate beside the
changed code. A wrong answer is a pair of the last two kinds that is called valid by `prove` or `check`, a `check` that disagrees with
`prove`, and a run that crashes. Status 1 where there is one. The tables count what the runs answered: valid, unproved (with
the reason, where the report has one), refused (with its kind), a limit, out of memory, given up. Pairs with the same bytes
are asked once and counted each.

That a pair is wrong is shown apart from `tv`: both codes are run by `machine.py` on samples (edges and random values; memory
in which some words are pointers) until one returns another value, leaves another memory outside its dead stack, breaks the
calling convention, traps, or doesn't return. A sample counts only where the source breaks no guard: where its code by clang at -O0
with the sanitizers for signed overflow, shifts, division, null and misaligned pointers and array bounds doesn't trap. The
right codes have to agree with one another on all samples. -fno-strict-aliasing is given, since an object of this subset has no
type of its own beside its bytes, and -funsigned-char, since plain char is unsigned.

It is run outside the gate and needs gcc, clang, lld and GNU time (Debian: gcc-riscv64-unknown-elf, clang, lld, time).
"""

import argparse
import hashlib
import random
import re
import signal
import statistics
import subprocess
import sys
import tempfile
from collections import Counter
from concurrent.futures import ThreadPoolExecutor
from pathlib import Path

import random_functions
from machine import Call, Image, drawn, signed

HERE = Path(__file__).resolve().parent
FLAGS = "-march=rv32im -mabi=ilp32 -nostdlib -static -ffreestanding -fno-strict-aliasing -funsigned-char -w -Wl,-e,f".split()
COMPILERS = {
    "gcc": ["riscv64-unknown-elf-gcc", *FLAGS, "-Wl,--no-relax"],
    "clang": ["clang", "--target=riscv32", *FLAGS, "-fuse-ld=lld", "-Wl,--no-rosegment"],
}
GUARDS = "-fsanitize=signed-integer-overflow,shift-exponent,integer-divide-by-zero,null,alignment,bounds -fsanitize-trap=all".split()
LEVELS = ["O0", "O1", "O2", "O3", "Os"]
SAMPLES = 200
EXTREMES = [0, 1, 0x7FFFFFFF, 0x80000000, 0x80000001, 0xFFFFFFFF]
EDGES = [0, 1, 2, 3, 7, 8, 9, 12, 13, 15, 16, 31, 32, 33, 48, 57, 64, 65, 90, 97, 102, 127, 128, 129, 255, 256, 257, 900,
         0x7FFF, 0x8000, 0xFFFF, 0x10000, 0x7FFFFFFF, 0x80000000, 0x80000001, 0xFFFFFF80, 0xFFFFFFF8, 0xFFFFFFFE, 0xFFFFFFFF]
POOL = [0x40000000 + n for n in (0, 4, 8, 12, 16, 20, 4096, 4100, 4104, 4112)]
WIDTHS = {"char": 8, "short": 16}


# ---- functions and samples


class Function:
    """A function and its wrong twin, the types of its parameters, and of its result."""

    def __init__(self, name, text, twin):
        self.name, self.text, self.twin = name, text, twin
        found = re.search(r"(?:^|[;}])([\w ]+?[ *]+)f\(([^)]*)\)", text, re.M)
        self.result = found[1]
        self.parameters = [p for p in found[2].split(",") if p.strip() != "void"]

    def call(self, image, arguments, sample):
        return Call(image, "f", arguments, sample, drawn(POOL))

    def samples(self, seed):
        """Arguments as the convention passes them, and the seed of a memory."""
        made = random.Random(f"{seed} {self.name}")
        for number in range(SAMPLES):
            yield [self.argument(made, p) for p in self.parameters], f"{seed} {self.name} {number}"

    def argument(self, made, parameter):
        if "*" in parameter:
            return made.choice(POOL)
        kind = made.random()
        value = made.choice(EXTREMES) if kind < 0.3 else made.choice(EDGES) if kind < 0.7 else made.getrandbits(32) >> made.randrange(32)
        return widened(value, parameter)


def widened(value, kind):
    """A value of a type as a register holds it."""
    width = next((w for word, w in WIDTHS.items() if word in kind.split()), 32)
    is_signed = "unsigned" not in kind and not ("char" in kind and "signed" not in kind)
    return (signed(value, width) if is_signed else value % 2**width) % 2**32


def functions(options):
    if options.random:
        for name, text in random_functions.functions(options.random, options.seed):
            yield Function(name, text, None)
        return
    for name, body in listed(HERE / "functions.txt"):
        text, twin = body.split("\n--\n")
        if options.only in name:
            yield Function(name, text.strip() + "\n", twin.strip() + "\n")


def listed(file):
    """The names and texts of a file of functions."""
    parts = re.split(r"^== (.*)\n", file.read_text(), flags=re.M)
    return zip(parts[1::2], parts[2::2])


# ---- what code does


def outcome(call, result):
    """What a caller sees of a call; a result is compared where there is one."""
    if call.end != "returned":
        return call.end
    return None if result.strip() == "void" else call.value, tuple(sorted(call.changed.items())), call.kept


class Reference:
    """The samples of a function at which it breaks no guard, and what a right code does there."""

    def __init__(self, function, guarded, seed):
        self.function, self.kept = function, []
        for arguments, sample in function.samples(seed):
            made = function.call(guarded, arguments, sample)
            if made.end == "returned":
                self.kept.append((arguments, sample, outcome(made, function.result)))

    def difference(self, image):
        """The first sample at which a code does something else, and what."""
        for arguments, sample, wanted in self.kept:
            got = outcome(self.function.call(image, arguments, sample), self.function.result)
            if got != wanted:
                return arguments, wanted, got
        return None


# ---- changed instructions


def changes(word):
    """Words that a mistake might have put in the place of this one."""
    opcode, op = word & 127, word >> 12 & 7
    swapped = word & ~(0x1FFF << 12 | 7 << 12) | (word >> 20 & 31) << 15 | (word >> 15 & 31) << 20 | op << 12
    with_op = lambda n: word & ~(7 << 12) | n << 12
    made = [0x13, word ^ 1 << 7, word ^ 1 << 15]
    if opcode == 0x33:
        made += [swapped, word ^ 1 << 20] + ([word ^ 1 << 30] if op in (0, 5) and not word >> 25 & 1 else [])
        made += [with_op(op ^ 1)] if op in (2, 3, 4, 6, 7) and not word >> 30 else []
    elif opcode in (0x13, 3):
        made += [word ^ 1 << 20, word ^ 1 << 22, word ^ 1 << 24]
        made += [word ^ 1 << 30] if opcode == 0x13 and op == 5 else []
        made += [with_op({2: 3, 3: 2, 4: 6, 6: 7, 7: 6}[op])] if opcode == 0x13 and op in (2, 3, 4, 6, 7) else []
        made += [with_op({0: 4, 4: 0, 1: 5, 5: 1, 2: 1}[op])] if opcode == 3 else []
    elif opcode == 0x23:
        made += [word ^ 1 << 7, word ^ 1 << 9, word ^ 1 << 20, with_op({0: 1, 1: 0, 2: 1}[op])]
    elif opcode == 0x63:
        made += [with_op(op ^ 1), swapped] + ([with_op(op ^ 2)] if op > 3 else [])
    elif opcode in (0x37, 0x17):
        made += [word ^ 1 << 12, word ^ 1 << 31]
    elif opcode == 0x6F:
        made = [0x13]
    return [w for w in made if w != word]


def changed(image, reference, name, count, seed):
    """Files with one instruction changed that do something else on a sample: the file, the place, what is other."""
    words = [(a, w) for a, w in image.words("f") if w != 0x8067]
    made = random.Random(f"{seed} {name}")
    tries = [(address, word, other) for address, word in words for other in changes(word)]
    made.shuffle(tries)
    found = []
    for address, word, other in tries[:60]:
        if len(found) == count:
            break
        data = image.with_word(address, other)
        said = reference.difference(Image(data))
        if said:
            found.append((data, f"{address:08x}: {word:08x} changed to {other:08x}; {told(said)}"))
    return found


def told(said):
    arguments, wanted, got = said
    shown = ", ".join(f"{a:#x}" for a in arguments)
    return f"f({shown}) does {got} and not {wanted}"


# ---- runs


def compiled(folder, name, text, command):
    source, file = folder / f"{name}.c", folder / f"{name}.elf"
    source.write_text(text)
    ran = subprocess.run([*command, "-o", file, source], capture_output=True, text=True)
    if ran.returncode:
        raise SystemExit(f"{' '.join(command)}: {ran.stderr[:1000]}\n{text}")
    return file.read_bytes()


class Asked:
    """A run of `tv`: status, report, processor seconds and MiB, as GNU time has them. The status is None where it was given
    up."""

    def __init__(self, words, seconds):
        with tempfile.NamedTemporaryFile("r") as used:
            timed = ["time", "-o", used.name, "-f", "%U %S %M", *words]
            limited = ["sh", "-c", f'ulimit -t {seconds}; exec "$@"', "sh", *timed]
            ran = subprocess.run(limited, stdout=subprocess.PIPE, stderr=subprocess.STDOUT, stdin=subprocess.DEVNULL)
            said = used.read()
        user, system, kib = said.split()[-3:]
        killed = re.search(r"terminated by signal (\d+)", said)
        self.report = ran.stdout.decode(errors="replace")
        self.status = -int(killed[1]) if killed else ran.returncode
        self.seconds, self.mib = float(user) + float(system), int(kib) / 1024
        if self.status in (-signal.SIGXCPU, -signal.SIGKILL) and self.seconds >= seconds - 1:
            self.status = None

    def answer(self):
        """One word for what is said."""
        if self.status is None:
            return "given up"
        if self.status not in (0, 1, 2, 3, 4, 5, 6, 7):
            return f"CRASH {self.status}"
        words = self.report.split()
        if self.status in (0, 1):
            reason = words[2:3] if words[:1] == ["unproved"] and words[2:3] != ["total"] else []
            return " ".join(words[:1] + reason) if words else "CRASH nothing said"
        if self.status == 6:
            return "no proof"
        return {2: "usage", 4: "fault of a file", 5: "out of memory"}.get(self.status) or " ".join(words[:3])


class Pair:
    """A source and a code: the answers of `prove` and of `check`, and the certificate."""

    def __init__(self, options, folder, text, data):
        self.elf, self.c, self.cert = folder / "f.elf", folder / "f.c", folder / "f.cert"
        folder.mkdir()
        self.elf.write_bytes(data)
        self.c.write_text(text)
        self.proved = Asked([options.program, "prove", self.elf, self.c, "--cert", self.cert], options.seconds)
        self.size = self.cert.stat().st_size if self.cert.exists() else 0
        self.checked = None
        if self.proved.status == 0:
            self.checked = Asked([options.program, "check", self.elf, self.c, self.cert], options.seconds)

    def wrong(self):
        """What is wrong, whatever the pair is."""
        for made in (self.proved, self.checked):
            if made and made.answer().startswith("CRASH"):
                return made.answer() + ": " + made.report[:200]
        if self.checked and self.checked.status not in (2, 5, None):
            if (self.checked.status, self.checked.report) != (0, self.proved.report):
                return f"check disagrees: {self.checked.status} {self.checked.report.strip()}"
        return None


class Runner:
    """Asks pairs, each once."""

    def __init__(self, options, folder):
        self.options, self.folder, self.pairs, self.count = options, folder, {}, 0

    def ask(self, text, data):
        key = hashlib.sha256(text.encode() + b"\0" + data).hexdigest()
        if key not in self.pairs:
            self.count += 1
            self.pairs[key] = Pair(self.options, self.folder / str(self.count), text, data), self.count
        return self.pairs[key]

    def stranger(self, right, pair):
        """Whether the right pair's certificate is refused beside the changed code."""
        if not (right.checked and right.checked.status == 0):
            return None
        return Asked([self.options.program, "check", pair.elf, pair.c, right.cert], self.options.seconds)


class Tally:
    def __init__(self, options):
        self.options, self.rows, self.faults, self.refused = options, [], [], Counter()
        self.log = open(options.log, "w") if options.log else None

    def add(self, where, kind, function, pair, number, note):
        answer = pair.proved.answer()
        self.rows.append((where, kind, function.name, answer, pair))
        if self.log:
            checked = pair.checked.answer() if pair.checked else "-"
            cells = [*where, kind, pair.proved.status, answer, checked, f"{pair.proved.seconds:.2f}", f"{pair.proved.mib:.0f}", pair.size, number, function.name]
            print(*cells, sep="\t", file=self.log, flush=True)
        if pair.wrong():
            self.fault(where, function, pair, number, pair.wrong())
        elif kind != "right" and pair.proved.status == 0:
            self.fault(where, function, pair, number, f"a {kind} code is called valid: {note}")

    def fault(self, where, function, pair, number, said):
        self.faults.append(said)
        print(f"WRONG {' '.join(where)}, {function.name} (pair {number}): {said}\n{pair.c.read_text()}", flush=True)


def one(options, runner, tally, function, folder):
    """All that is asked of a function."""
    guarded = Image(compiled(folder, "guarded", function.text, [*COMPILERS["clang"], "-O0", *GUARDS]))
    reference = Reference(function, guarded, options.seed)
    if len(reference.kept) < 10:
        print(f"{function.name}: only {len(reference.kept)} samples break no guard")
    for compiler in options.compilers:
        for level in options.levels:
            where, command = (compiler, level), [*COMPILERS[compiler], f"-{level}"]
            data = compiled(folder, "right", function.text, command)
            image = Image(data)
            said = reference.difference(image)
            if said:
                raise SystemExit(f"{function.name} by {compiler} -{level} and by clang with guards: {told(said)}")
            wrongs = [("changed", *made) for made in changed(image, reference, f"{function.name} {where}", options.wrong, options.seed)]
            if function.twin:
                twin = compiled(folder, "twin", function.twin, command)
                said = reference.difference(Image(twin))
                if not said:
                    raise SystemExit(f"the twin of {function.name} is right on all samples: {' '.join(where)}")
                wrongs.append(("twin", twin, told(said)))
            tally.options.counted["right"] += 1
            for kind, _, _ in wrongs:
                tally.options.counted[kind] += 1
            if options.dry:
                continue
            right, number = runner.ask(function.text, data)
            tally.add(where, "right", function, right, number, "")
            for kind, other, note in wrongs:
                pair, number = runner.ask(function.text, other)
                tally.add(where, kind, function, pair, number, note)
                ran = runner.stranger(right, pair)
                if ran and (ran.status == 0 or ran.answer().startswith("CRASH")):
                    tally.fault(where, function, pair, number, f"check of the right code's certificate: {ran.answer()}; {note}")


def table(tally, kind):
    rows = [row for row in tally.rows if row[1] == kind]
    answers = sorted({row[3] for row in rows}, key=lambda a: (a != "valid", a != "unproved", a))
    print(f"\n{kind}\n\n| Code | Pairs | " + " | ".join(answers) + " | Median s | Most s | Most MiB | Most bytes of certificate |")
    print("|---" * (len(answers) + 6) + "|")
    for where in sorted({row[0] for row in rows}) + [None]:
        own = [row for row in rows if where in (None, row[0])]
        counted, pairs = Counter(row[3] for row in own), [row[4] for row in own]
        seconds = [p.proved.seconds for p in pairs]
        cells = [" -".join(where) if where else "all", len(own), *(counted[a] for a in answers), f"{statistics.median(seconds):.2f}", f"{max(seconds):.2f}"]
        print("| " + " | ".join(map(str, cells + [f"{max(p.proved.mib for p in pairs):.0f}", max(p.size for p in pairs)])) + " |")


def names(tally):
    """Of each function, how many of its right codes are valid, and what the others are answered."""
    print("\nfunctions\n")
    for name in dict.fromkeys(row[2] for row in tally.rows):
        counted = Counter(row[3] for row in tally.rows if row[1] == "right" and row[2] == name)
        others = "".join(f"; {a} {n}" for a, n in counted.items() if a != "valid")
        print(f"{counted['valid']} of {sum(counted.values())} valid{others}: {name}")


def main(usage=__doc__, of=functions):
    words = argparse.ArgumentParser(usage=usage)
    words.add_argument("program")
    words.add_argument("--only", default="")
    words.add_argument("--random", default=0, type=int)
    words.add_argument("--compilers", default="gcc,clang", type=lambda t: t.split(","))
    words.add_argument("--levels", default=LEVELS, type=lambda t: t.split(","))
    words.add_argument("--wrong", default=1, type=int)
    words.add_argument("--seconds", default=60, type=int)
    words.add_argument("--jobs", default=1, type=int)
    words.add_argument("--seed", default=0, type=int)
    words.add_argument("--log")
    words.add_argument("--keep")
    words.add_argument("--dry", action="store_true")
    options = words.parse_args()
    options.program, options.counted = str(Path(options.program).resolve()), Counter()
    with tempfile.TemporaryDirectory() as scratch:
        kept = Path(options.keep) if options.keep else Path(scratch, "pairs")
        kept.mkdir(parents=True, exist_ok=True)
        tally = Tally(options)

        def each(numbered):
            number, function = numbered
            folder = Path(scratch, str(number))
            folder.mkdir()
            (kept / str(number)).mkdir()
            one(options, Runner(options, kept / str(number)), tally, function, folder)

        with ThreadPoolExecutor(options.jobs) as pool:
            list(pool.map(each, enumerate(of(options), 1)))
        print("pairs: " + ", ".join(f"{n} {kind}" for kind, n in options.counted.items()))
        for kind in ("right", "changed", "twin"):
            if any(row[1] == kind for row in tally.rows):
                table(tally, kind)
        names(tally)
        print(f"\n{len(tally.faults)} wrong")
    return bool(tally.faults)


if __name__ == "__main__":
    sys.exit(main())
