#!/usr/bin/env python3
"""Keeps the figures of docs/GATE.md that are counted in the sources: the first table, the sentences above it, and how many wrong bodies stand
outside the gate.

usage: docs/counts.py           writes the figures
       docs/counts.py --check   says whether they are what would be written; the status is 1 where they are not

At which commit the wrong bodies of a crate were last tried is written by hand. Where their number has changed, a dash takes its place, since
not all of them were tried then.
"""

import difflib
import re
import sys
from pathlib import Path

TOP = Path(__file__).resolve().parent.parent
CRATES = TOP / "crates"
DOCUMENT = TOP / "docs" / "GATE.md"

SUMS = re.compile(r"There are [\d,]+ wrong bodies that the gate tries and [\d,]+ that it does not, [\d,]+ tests in `src/`, and [\d,]+ cases in `tests/cases/`\.")
LINES = re.compile(r"[\d,]+ of code, the tests in them; [\d,]+ of definitions; [\d,]+ of proofs\.")
CRATE_TABLE = "| crate | wrong bodies in the gate | tests in `src/` | lines of code | lines of definitions | lines of proofs |"
TRIED_TABLE = "| crate | in `wrong/` | last tried at |"


def crate_names():
    """The crates of crates.txt, in its order."""
    lines = (TOP / "crates.txt").read_text(encoding="utf-8").splitlines()
    return [line.split(":")[0] for line in lines if ":" in line and not line.startswith("#")]


def count_in(folder, pattern, sign):
    """How often a text stands in the files of a folder and of those below it."""
    return sum(file.read_bytes().count(sign) for file in folder.rglob(pattern))


def counts_of(crate):
    """The figures of a crate, in the order of the table."""
    folder = CRATES / crate
    return [
        len(list(folder.glob("must-fail/*.edit"))),
        count_in(folder / "src", "*.rt", b"#[test]"),
        count_in(folder / "src", "*.rt", b"\n"),
        count_in(folder / "specs", "*.antt", b"\n"),
        count_in(folder / "proofs", "*.antt", b"\n"),
    ]


def replace_once(text, pattern, new):
    """The text with what the pattern finds replaced; it must be there once, as a sentence that was worded anew would else keep old figures."""
    if len(pattern.findall(text)) != 1:
        sys.exit(f"docs/GATE.md: this does not stand there once: {pattern.pattern}")
    return pattern.sub(lambda found: new, text)


def rows_of(text, head):
    """Where in the text the rows below the head of a table stand."""
    parts = re.search(re.escape(head) + r"\n[|-]+\n((?:\|.*\n)*)", text)
    if not parts:
        sys.exit(f"docs/GATE.md: there is no table {head}")
    return parts.start(1), parts.end(1)


def tried_rows(text):
    """The rows of the wrong bodies outside the gate, with their numbers as they are now."""
    numbers = {folder.name: len(list(folder.glob("*.edit"))) for folder in (TOP / "wrong").iterdir() if folder.is_dir()}
    rows, faults, named = [], [], []
    for row in text.splitlines():
        crate, number, commit = (cell.strip() for cell in row.strip("|").split("|"))
        crate = crate.strip("`")
        named.append(crate)
        if crate not in numbers:
            faults.append(f"docs/GATE.md: there is no folder wrong/{crate}, and a row of it")
        elif number != str(numbers[crate]):
            row = f"| `{crate}` | {numbers[crate]} | – |"
        rows.append(row + "\n")
    faults += [f"docs/GATE.md: no row tells when those of wrong/{crate} were last tried" for crate in sorted(numbers) if crate not in named]
    faults += [f"docs/GATE.md: two rows tell when those of wrong/{crate} were last tried" for crate in sorted(set(named)) if named.count(crate) > 1]
    if faults:
        sys.exit("\n".join(faults))
    return "".join(rows)


def main():
    if sys.argv[1:] not in ([], ["--check"]):
        sys.exit(__doc__)
    old = DOCUMENT.read_text(encoding="utf-8")
    counts = {crate: counts_of(crate) for crate in crate_names()}
    in_gate, tests, code, definitions, proofs = map(sum, zip(*counts.values()))
    outside = len(list(TOP.glob("wrong/*/*.edit")))
    cases = len(list(TOP.glob("tests/cases/*/*.case")))

    sums = f"There are {in_gate:,} wrong bodies that the gate tries and {outside:,} that it does not, {tests:,} tests in `src/`, and {cases:,} cases in `tests/cases/`."
    text = replace_once(old, SUMS, sums)
    text = replace_once(text, LINES, f"{code:,} of code, the tests in them; {definitions:,} of definitions; {proofs:,} of proofs.")

    begin, end = rows_of(text, CRATE_TABLE)
    rows = ["| " + " | ".join([f"`{crate}`", *(f"{figure:,}" for figure in figures)]) + " |\n" for crate, figures in counts.items()]
    text = text[:begin] + "".join(rows) + text[end:]
    begin, end = rows_of(text, TRIED_TABLE)
    text = text[:begin] + tried_rows(text[begin:end]) + text[end:]

    if not sys.argv[1:]:
        DOCUMENT.write_text(text, encoding="utf-8")
    elif text != old:
        changes = difflib.unified_diff(old.splitlines(), text.splitlines(), "docs/GATE.md", "what docs/counts.py writes", n=0, lineterm="")
        sys.exit("\n".join([*changes, "docs/GATE.md is stale: docs/counts.py writes its figures anew"]))


main()
