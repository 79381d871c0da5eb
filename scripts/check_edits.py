#!/usr/bin/env python3
"""Says which edits in crates/*/must-fail/ and attacks/*/ can't be applied; it proves nothing.

    scripts/check_edits.py [CRATE..]
    scripts/check_edits.py --into docs/ATTACKS.md

Each text after 'old: ' must occur exactly once in its file, with the pairs before it applied. The last line counts
the edits; status 1 where one can't be applied. `scripts/attack.sh` tries whether the prover refuses them. With --into
the table of the edits replaces the one in that page: by name those that the gate tries, by number those in attacks/.
"""

import sys
from pathlib import Path

ROOT = Path(__file__).resolve().parent.parent
BEGIN, END = "<!-- made by scripts/check_edits.py -->", "<!-- end of the edits -->"


def fault(edit, crate):
    """Why an edit can't be applied to the crate's folder, or None."""
    texts, path, old, pairs = {}, None, None, 0
    for line in edit.read_text().split("\n"):
        if line.startswith("file: "):
            path = crate / line[len("file: ") :].strip()
            if path not in texts:
                if not path.is_file():
                    return f"there is no {path.relative_to(ROOT)}"
                texts[path] = path.read_text()
        elif line.startswith("old: "):
            old = line[len("old: ") :]
        elif line.startswith("new:"):
            if path is None or not old:
                return "a 'new:' line comes before any 'file:' or 'old:' line"
            if texts[path].count(old) != 1:
                return f"its text is in {path.relative_to(ROOT)} {texts[path].count(old)} times: {old.strip()}"
            texts[path] = texts[path].replace(old, line[len("new:") :].removeprefix(" "))
            old, pairs = None, pairs + 1
    return None if pairs else "it has no pair 'old:' and 'new:'"


def table():
    """The edits of each crate, in the order of crates.txt: of the gate by name, the others by number."""
    rows, together = ["| Crate | Tried by the gate | In `attacks/` |", "|---|---|---|"], [0, 0]
    for line in (ROOT / "crates.txt").read_text().splitlines():
        if ":" in line and not line.startswith("#"):
            crate = line.split(":")[0].split()[0]
            gate = sorted(it.stem.replace("_", " ") for it in (ROOT / "crates" / crate / "must-fail").glob("*.edit"))
            attacks = len(list((ROOT / "attacks" / crate).glob("*.edit")))
            together = [together[0] + len(gate), together[1] + attacks]
            if gate or attacks:
                rows.append(f"| `{crate}` | {'; '.join(gate)} | {attacks or ''} |")
    return "\n".join([*rows, f"| together | {together[0]} | {together[1]} |"])


def put_table(page):
    """Replaces the table in a page."""
    before, _, rest = page.read_text().partition(BEGIN)
    _, found, after = rest.partition(END)
    if not found:
        sys.exit(f"check_edits: {page} has no lines '{BEGIN}' and '{END}'")
    page.write_text(f"{before}{BEGIN}\n\n{table()}\n\n{END}{after}")


def main():
    if sys.argv[1:2] == ["--into"] and len(sys.argv) == 3:
        return put_table(Path(sys.argv[2]))
    gate, attacks = sorted(ROOT.glob("crates/*/must-fail/*.edit")), sorted(ROOT.glob("attacks/*/*.edit"))
    named, bad = set(sys.argv[1:]), 0
    tried = [(it, it.parent.parent.name) for it in gate] + [(it, it.parent.name) for it in attacks]
    tried = [(edit, crate) for edit, crate in tried if not named or crate in named]
    for edit, crate in tried:
        why = fault(edit, ROOT / "crates" / crate)
        if why:
            bad += 1
            print(f"{edit.relative_to(ROOT)}: {why}")
    inside = sum(edit in gate for edit, _ in tried)
    print(f"{len(tried)} edits, {inside} in the gate and {len(tried) - inside} in attacks/; {bad} can't be applied")
    return 1 if bad else 0


if __name__ == "__main__":
    sys.exit(main())
