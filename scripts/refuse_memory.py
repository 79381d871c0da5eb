#!/usr/bin/env python3
"""Refuses each allocation of runs of the program on two examples.

    scripts/refuse_memory.py [--jobs N] [--only add,counter] [PROGRAM]      PROGRAM is `tv` as it is compiled, or what `./tv` has built

The examples are `add`, whose certificate has no step, and `counter`, whose certificate has logs. `check` is given the
certificate that `prove` writes with all memory. Of a run's allocations it refuses the first alone, the second alone and so
on, and then all from the first on, all from the second on and so on. Each run must end with status 5, or with status 0 and
the report and certificate of the run with all memory; what it reported must be a prefix of that report, what it wrote one
of that certificate, with nothing among the errors. A line for each wrong run; then a line for each example and command: its
allocations, the runs, how many of them gave the whole answer, how many were wrong, seconds. Status 1 where one was wrong.
It is run outside the gate and needs cc.
"""

import argparse
import os
import subprocess
import sys
import tempfile
import time
from concurrent.futures import ThreadPoolExecutor
from pathlib import Path

ROOT = Path(__file__).resolve().parent.parent

# In the place of malloc and realloc: refuses the call that REFUSE numbers, and those after it where ONWARD is set.
# The number of calls is written to the file descriptor that COUNT gives.
REFUSING = r"""
#define _GNU_SOURCE
#include <errno.h>
#include <stdio.h>
#include <stdlib.h>
#include <unistd.h>

extern void *__libc_malloc(size_t size);
extern void *__libc_realloc(void *old, size_t size);
static long calls, refused, onward;

__attribute__((constructor)) static void begin(void)
{
    const char *text = getenv("REFUSE");
    refused = text ? atol(text) : 0;
    onward = getenv("ONWARD") != NULL;
    calls = 0;
}

__attribute__((destructor)) static void end(void)
{
    const char *text = getenv("COUNT");
    if (text)
        dprintf(atoi(text), "%ld\n", calls);
}

static int is_refused(void)
{
    calls++;
    return refused && (calls == refused || (onward && calls > refused));
}

void *malloc(size_t size)
{
    if (!is_refused())
        return __libc_malloc(size);
    errno = ENOMEM;
    return NULL;
}

void *realloc(void *old, size_t size)
{
    if (!is_refused())
        return __libc_realloc(old, size);
    errno = ENOMEM;
    return NULL;
}
"""


class Run:
    """A command on an example, in a folder of its own files."""

    def __init__(self, folder, command, name):
        self.folder, self.command, self.name = folder, command, name

    def run(self, variables, number, **more):
        """The status, the report, the errors, and the certificate that is left, or none."""
        made = self.folder / f"{self.command}.{self.name}.{number}"
        words = ["./program", self.command, f"{self.name}.elf", f"{self.name}.c"]
        words += ["--cert", made.name] if self.command == "prove" else [f"{self.name}.whole"]
        ran = subprocess.run(words, cwd=self.folder, env={"LD_PRELOAD": "./refuse.so", **variables}, capture_output=True, timeout=60, **more)
        left = made.read_bytes() if made.exists() else None
        made.unlink(missing_ok=True)
        return ran.returncode, ran.stdout, ran.stderr, left

    def with_all(self):
        """The answer with all memory, and how many allocations it takes."""
        end, start = os.pipe()
        with os.fdopen(end) as counted:
            answer = self.run({"COUNT": str(start)}, 0, pass_fds=[start])
            os.close(start)
            return answer, int(counted.read())

    def fault(self, whole, number, variables):
        """What is wrong with a run, if anything, and whether it gave the whole answer."""
        status, report, errors, left = self.run({"REFUSE": str(number), **variables}, f"{number}{'on' if variables else ''}")
        if errors:
            return "errors", False
        if status == 0:
            return None if (report, left) == (whole[1], whole[3]) else "not the answer with all memory", True
        if status != 5:
            return f"status {status}", False
        if not whole[1].startswith(report):
            return "the report is no prefix", False
        return None if left is None or whole[3].startswith(left) else "the certificate is no prefix", False


def refuse_all(run, jobs):
    """Refuses each allocation; how many runs were wrong."""
    began, (whole, count) = time.time(), run.with_all()
    if whole[0] != 0 or whole[2]:
        print(f"WRONG {run.command} {run.name} with all memory: status {whole[0]}")
        return 1
    wrong = answered = 0
    if run.command == "prove":
        (run.folder / f"{run.name}.whole").write_bytes(whole[3])
        example = ROOT / "examples" / run.name / f"{run.name}.cert"
        if example.exists() and example.read_bytes() != whole[3]:
            wrong += 1
            print(f"WRONG prove {run.name} with all memory: another certificate than the example's")
    cases = [(number, variables) for number in range(1, count + 1) for variables in ({}, {"ONWARD": "1"})]
    with ThreadPoolExecutor(jobs) as pool:
        for (number, variables), (fault, is_whole) in zip(cases, pool.map(lambda case: run.fault(whole, *case), cases)):
            answered += is_whole and not fault
            if fault:
                wrong += 1
                print(f"WRONG {run.command} {run.name}, {number}{' and all after it' if variables else ''}: {fault}")
    print(f"{run.command} {run.name}: {count} allocations, {len(cases)} runs, {answered} with the whole answer, {wrong} wrong, {time.time() - began:.0f} s", flush=True)
    return wrong


def main():
    given = argparse.ArgumentParser()
    given.add_argument("--jobs", type=int, default=1)
    given.add_argument("--only", default="add,counter")
    given.add_argument("program", nargs="?", default=ROOT / "crates/tv_main/out/tv_main", type=Path)
    given = given.parse_args()
    with tempfile.TemporaryDirectory() as made:
        folder = Path(made)
        (folder / "refuse.c").write_text(REFUSING)
        subprocess.run([os.environ.get("CC", "cc"), "-O1", "-shared", "-fPIC", "-o", "refuse.so", "refuse.c"], cwd=folder, check=True)
        (folder / "program").write_bytes(given.program.read_bytes())
        (folder / "program").chmod(0o755)
        wrong = 0
        for name in given.only.split(","):
            for file in (f"{name}.elf", f"{name}.c"):
                (folder / file).write_bytes((ROOT / "examples" / name / file).read_bytes())
            wrong += sum(refuse_all(Run(folder, command, name), given.jobs) for command in ("prove", "check"))
    sys.exit(1 if wrong else 0)


if __name__ == "__main__":
    main()
