"""How the scripts of this folder ask and time the crates: by a small program over some of them, in a scratch repository."""

import shutil
import subprocess
import sys
import tempfile
import time
from pathlib import Path

ROOT = Path(__file__).resolve().parent.parent

# The module `numbers` of each program.
NUMBERS = r"""//! Numbers among the words that the program is given.

/// What decimal digits say.
pub(crate) fn decimal(text: &str) -> usize {
    let mut n: usize = 0;
    for b in text.bytes() {
        let digit = match b {
            b'0'..=b'9' => b - b'0',
            _ => 0,
        };
        n = n.wrapping_mul(10).wrapping_add(usize::from(digit));
    }
    n
}

/// What hexadecimal digits say.
pub(crate) fn hexadecimal(text: &str) -> u32 {
    let mut n: u32 = 0;
    for b in text.bytes() {
        let digit = match b {
            b'0'..=b'9' => b - b'0',
            b'a'..=b'f' => b - b'a' + 10,
            _ => 0,
        };
        n = n.wrapping_mul(16).wrapping_add(u32::from(digit));
    }
    n
}

/// The number at a place, in decimal digits; 0 where there is no word.
pub(crate) fn argument(words: &[String], place: usize) -> usize {
    match words.get(place) {
        Some(word) => decimal(word.as_str()),
        None => 0,
    }
}
"""


def with_lower(names):
    """The lines of crates.txt of these crates and of those of this repository below them, lowest first."""
    lines = [line for line in (ROOT / "crates.txt").read_text().splitlines() if ":" in line and not line.startswith("#")]
    below = {line.split(":")[0]: line.split(":")[1].split() for line in lines}
    wanted, left = set(), list(names)
    while left:
        name = left.pop()
        if name in below and name not in wanted:
            wanted.add(name)
            left += below[name]
    return [line for line in lines if line.split(":")[0] in wanted]


def scratch(room, source, crates, kept=False):
    """A repository in this folder with these crates, what rt has kept of them or not, and a program `probe` over them."""
    lines = with_lower(crates)
    for line in lines:
        name = line.split(":")[0]
        ignored = None if kept else shutil.ignore_patterns("out")
        shutil.copytree(ROOT / "crates" / name, room / "crates" / name, ignore=ignored)
    (room / "crates/probe/src").mkdir(parents=True)
    (room / "crates/probe/src/main.rt").write_text(source)
    if "mod numbers;" in source:
        (room / "crates/probe/src/numbers.rt").write_text(NUMBERS)
    (room / "crates.txt").write_text("\n".join(lines + [f"probe: anyhow {' '.join(crates)}"]) + "\n")
    (room / "HANDLES").write_text("Handles allowed: none.\n")
    subprocess.run(["git", "init", "-q", "."], cwd=room, check=True)
    return room / "crates/probe"


def ask(source, crates, text="", files=()):
    """The lines that the program prints, whose input is the text and whose arguments are the files; it runs unproved."""
    with tempfile.TemporaryDirectory() as folder:
        probe = scratch(Path(folder), source, crates)
        data = [word for file in files for word in ("--data", f"{file.name}={file}")]
        command = ["rt", "try", "--seconds", "3600", *data, "--", *[file.name for file in files]]
        ran = subprocess.run(command, cwd=probe, input=text, capture_output=True, text=True)
    if "run=ended status=0" not in ran.stdout + ran.stderr:
        sys.exit(f"the probe did not run: {ran.stdout[-2000:]}{ran.stderr[-2000:]}")
    return ran.stdout.splitlines()


def ask_each(source, crates, texts):
    """The lines that the program prints of all the texts, each of which is the input of a run of its own, unproved."""
    with tempfile.TemporaryDirectory() as folder:
        probe = scratch(Path(folder), source, crates)
        cases = Path(folder, "cases")
        cases.mkdir()
        for i, text in enumerate(texts):
            (cases / f"{i:05}").write_text(text)
        command = ["rt", "try", "--seconds", "600", "--cases", str(cases)]
        ran = subprocess.run(command, cwd=probe, capture_output=True, text=True)
    if ran.returncode:
        sys.exit(f"the probe did not run: {ran.stdout[-2000:]}{ran.stderr[-2000:]}")
    return ran.stdout.splitlines()


def built(room, source, crates):
    """The program, proved and compiled in this folder."""
    probe = scratch(room, source, crates, kept=True)
    ran = subprocess.run(["rt", "run"], cwd=probe, capture_output=True, text=True)
    program = probe / "out/probe"
    if ran.returncode or not program.exists():
        sys.exit(f"the program is not built: {ran.stdout[-2000:]}{ran.stderr[-2000:]}")
    return program


def timed(program, words):
    """What a run with these arguments prints, its seconds, and its peak of memory in MiB."""
    # The kernel counts to a process the memory of what it was before it became the program: of `time`, not of Python.
    command = ["time", "-f", "%M", str(program)] + [str(word) for word in words]
    begin = time.monotonic()
    ran = subprocess.run(command, capture_output=True, text=True)
    seconds = time.monotonic() - begin
    if ran.returncode:
        sys.exit(f"the run failed: status {ran.returncode}, {ran.stdout}{ran.stderr}")
    return ran.stdout, seconds, int(ran.stderr.split()[-1]) / 1024


def measure(source, crates, titles, rows):
    """Builds the program, and prints a table with these titles of the rows that are made with it, each as it comes."""
    with tempfile.TemporaryDirectory() as folder:
        program = built(Path(folder), source, crates)
        print("| " + " | ".join(titles) + " |\n" + "|---" * len(titles) + "|")
        for row in rows(program):
            print("| " + " | ".join(str(cell) for cell in row) + " |", flush=True)
