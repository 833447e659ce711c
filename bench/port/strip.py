"""Makes a Rust program of crates of this repository, with their contracts stripped.

usage: strip.py [--program FOLDER] TOP OUT CRATE..

TOP is the top of the repository, OUT a folder that is made, and each CRATE one that the program calls. These crates, and those on which they
stand by crates.txt, become modules of one Rust crate. `prelude.rs` and `table.rs`, which lie beside this script, are put beside them: they stand
for the library of the kit. The program is `main.rs`, which lies beside this script too, or that of FOLDER, with the other files `*.rs` there as
its modules. No line of code is changed but in what this text says.
"""

import pathlib
import re
import shutil
import sys

# What is cut out with the braces that follow it.
GHOST_BLOCK = re.compile(
    r"""
    ^[ \t]*                                             # at the start of a line,
    (?:
        (?P<clause> requires|ensures)\b [^{\n]*         # a clause, with the label that it may have,
      | (?:pub(?:\(crate\))?\ )?ghost\ \w+\ ?[:=]\ ?    # a ghost field, or a ghost member of an `impl` or of a trait,
      | impl\b [^{;]*? \b(?:Model|Drop)\ for\b [^{]*    # what contracts see of a type; its drop by hand, where Rust's own does the same
    )
    \{
    """,
    re.MULTILINE | re.VERBOSE,
)

# The lines at the end of a text that say what follows them.
DOC_LINES = re.compile(r"(?:^[ \t]*///[^\n]*\n)+\Z", re.MULTILINE)

# A ghost name made known: to the next semicolon, over lines.
GHOST_USE = re.compile(r"^[ \t]*(?:pub(?:\([a-z]+\))? )?ghost use [^;]*;[ \t]*\n", re.MULTILINE)

# Words to the prover, and those by which errors are derived: an attribute that is a line of its own.
ATTRIBUTE_LINE = re.compile(r"^[ \t]*#!?\[(?:tactic|cycle|error)\b.*\][ \t]*\n", re.MULTILINE)
FROM_ATTRIBUTE = re.compile(r"#\[from\]\s*")

# Names of the kit's library for which Rust has nothing to make known.
UNKNOWN_USE = re.compile(r"^use (?:std::marker::Model|thiserror::Error);[ \t]*\n", re.MULTILINE)

# What is derived in Rust too. Rust drops without a word, and nothing prints or hashes what the port runs on.
DERIVED = {"Clone", "Copy", "PartialEq", "Eq", "PartialOrd", "Ord"}
DERIVE_LINE = re.compile(r"#\[derive\(([^)]*)\)\]")

# A bound that says that a type can be dropped, which Rust has no need of: behind others, alone, or before others.
DROP_BOUND = re.compile(r"( \+ Drop\b|: Drop\b(?! \+)|(?<=: )Drop \+ )")

# The kit's `collect` is told where memory comes from, and Rust's is not: the prelude has one that is, by another name. A word behind the bracket
# tells them apart.
COLLECT = re.compile(r"\.collect\((?=\w)")

# What the prelude stands for: libraries of the kit, and the crate of files and streams, of which runs know the gate alone.
STOOD_FOR = {
    "std::alloc": "crate::prelude",
    "std::collections": "crate::prelude",
    "std::thread": "crate::prelude::thread",
    "std::snapshot": "crate::table",
    "atomic_table": "crate::table",
    "arrayvec": "crate::table",
    "indexmap": "crate::prelude",
    "oss_io": "crate::prelude",
}

# A type by which steps are told apart, in proofs alone. Rust has its neighbour.
BRAND_USE = re.compile(r"^use std::marker::(?:Brand|\{Brand, PhantomData\});", re.MULTILINE)
BRAND_KNOWN = "use crate::table::Brand;\nuse std::marker::PhantomData;"

# What no stripped line has in it.
GHOST_WORD = re.compile(r"^[ \t]*(?:pub(?:\(crate\))? )?(?:ghost|requires|ensures)\b")

# The folder of the modules.
MODULES = "src"

# What stands for the library of the kit, the first of which has macros.
STANDS_BESIDE = ["prelude", "table"]


def libraries(top):
    """What each crate stands on, by crates.txt, which names a crate behind those on which it stands."""
    found = {}
    for line in (top / "crates.txt").read_text().splitlines():
        name, colon, below = line.partition("#")[0].partition(":")
        if colon:
            found[name.split()[0]] = below.split()
    return found


def chain(top, wanted):
    """The crates of the repository that are wanted, and those on which they stand, in the order of crates.txt."""
    below = libraries(top)
    for name in wanted:
        if name not in below:
            sys.exit(f"strip.py: crates.txt names no crate {name}")
    ahead, found = list(wanted), set()
    while ahead:
        name = ahead.pop()
        if name in below and name not in found:
            found.add(name)
            ahead.extend(below[name])
    return [name for name in below if name in found and name not in STOOD_FOR]


def behind_block(text, opening):
    """The place behind the brace that closes the one at `opening`."""
    depth = 0
    for place in range(opening, len(text)):
        if text[place] == "{":
            depth += 1
        elif text[place] == "}":
            depth -= 1
            if depth == 0:
                return place + 1
    raise ValueError("a brace is not closed")


def without_blocks(text):
    """The text without the ghost blocks, nor the comma or semicolon behind a ghost member, nor the end of the line."""
    kept, begin = [], 0
    while block := GHOST_BLOCK.search(text, begin):
        before = text[begin : block.start()]
        # what is said above a ghost member goes with it
        kept.append(before if block.group("clause") else DOC_LINES.sub("", before))
        begin = behind_block(text, block.end() - 1)
        # the semicolon behind a clause ends the head of a trait's function, and stays
        if not block.group("clause") and text[begin : begin + 1] in (",", ";"):
            begin += 1
        if text[begin : begin + 1] == "\n":
            begin += 1
    return "".join(kept) + text[begin:]


def derived(line):
    """The line of derived traits, with those alone that are Rust's."""
    words = [word.strip() for word in line.group(1).split(",")]
    known = [word for word in words if word in DERIVED]
    return f"#[derive({', '.join(known)})]" if known else ""


def as_modules(text, crate, crates):
    """The text with the head of each path changed: a crate is a module now, and what stands for the kit's library is one too."""
    heads = {name: f"crate::{name}" for name in crates}
    heads["crate"] = f"crate::{crate}"
    heads.update(STOOD_FOR)
    # a head is not part of a longer word, nor behind another part of a path
    head = re.compile(r"(?<![\w:])(" + "|".join(map(re.escape, heads)) + r")(?=::|;)")
    return head.sub(lambda found: heads[found.group(1)], text)


def stripped(text, crate, crates):
    """The text of a module of the crate, as one of a Rust program."""
    text = without_blocks(GHOST_USE.sub("", text))
    text = ATTRIBUTE_LINE.sub("", text)
    text = FROM_ATTRIBUTE.sub("", text)
    text = UNKNOWN_USE.sub("", text)
    text = DERIVE_LINE.sub(derived, text)
    text = DROP_BOUND.sub("", text)
    text = COLLECT.sub(".collected(", text)
    return BRAND_USE.sub(BRAND_KNOWN, as_modules(text, crate, crates))


def with_prelude(text):
    """The text with the prelude made known, behind the words that stand at its head."""
    lines = text.split("\n")
    place = 0
    while place < len(lines) and (lines[place].startswith("//!") or not lines[place].strip()):
        place += 1
    return "\n".join(lines[:place] + ["use crate::prelude::*;"] + lines[place:])


def put_crate(top, out, crate, crates):
    """Writes the modules of a crate. Its tests are left out."""
    sources = top / "crates" / crate / "src"
    for source in sorted(sources.rglob("*.rt")):
        part = source.relative_to(sources)
        if part.parts[0] in ("tests", "tests.rt"):
            continue
        is_top = part == pathlib.Path("lib.rt")
        text = with_prelude(stripped(source.read_text(), crate, crates))
        for number, line in enumerate(text.splitlines(), 1):
            if GHOST_WORD.match(line):
                sys.exit(f"{source}: this is not stripped, in line {number} of what is left: {line.strip()}")
        target = out / MODULES / crate / (part.with_name("mod.rs") if is_top else part.with_suffix(".rs"))
        target.parent.mkdir(parents=True, exist_ok=True)
        target.write_text(text)


def put_program(out, folder, crates):
    """Writes the first file of the program of this folder, which names the modules, and what stands beside this script."""
    beside = pathlib.Path(__file__).parent
    for name in STANDS_BESIDE:
        shutil.copy(beside / f"{name}.rs", out / MODULES / f"{name}.rs")
    for part in sorted(folder.glob("*.rs")):
        if folder != beside and part.name != "main.rs":
            shutil.copy(part, out / MODULES / part.name)
    modules = "".join(f"mod {name};\n" for name in [*STANDS_BESIDE, *crates])
    program = (folder / "main.rs").read_text()
    (out / MODULES / "main.rs").write_text(f"#![allow(warnings)]\n#[macro_use]\n{modules}{program}")


def main():
    words = sys.argv[1:]
    folder = pathlib.Path(__file__).parent
    if words[0] == "--program":
        folder = pathlib.Path(words[1])
        words = words[2:]
    top, out, *wanted = words
    top, out = pathlib.Path(top), pathlib.Path(out)
    crates = chain(top, wanted)
    for crate in crates:
        put_crate(top, out, crate, crates)
    put_program(out, folder, crates)


if __name__ == "__main__":
    main()
