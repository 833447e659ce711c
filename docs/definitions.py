#!/usr/bin/env python3
"""Writes docs/DEFINITIONS.md from the sources: a row for each page of definitions, with what it says and who uses it.

usage: docs/definitions.py           writes the document
       docs/definitions.py --check   says whether the document is what would be written; the status is 1 where it is not

What a page says is the first sentence of the comment at its head, so that it is told once. Where that sentence says too little, or is too
long for a table, docs/definitions.txt has another one. Who uses a page is read off the names `Rattle.CRATE.specs.PAGE` in the sources.
"""

import re
import sys
from pathlib import Path

TOP = Path(__file__).resolve().parent.parent
CRATES = TOP / "crates"
DOCUMENT = TOP / "docs" / "DEFINITIONS.md"
DESCRIPTIONS = TOP / "docs" / "definitions.txt"

# docs/lint.sh allows a cell no more words
MOST_WORDS = 40
# of a page with more users the crates alone are named, and of more crates the first ones
MOST_USERS = 12
MOST_CRATES = 36

BEGINNING = """\
# Definitions

This page is written by `docs/definitions.py`, and not by hand.

The definitions of a crate stand in pages, the files of its `specs/`. Crates come in the order of `crates.txt`, and pages in that of
`specs/Lib.antt`. What a page says is the first sentence of the comment at its head, or a line of [definitions.txt](definitions.txt).

A page is used where it is named by its full name: by pages of its crate, by the contracts of its crate (*its code*), and by other crates.
A crate is named where its contracts or its definitions name the page; where proofs alone do, the row says so. Of a page with more than
{most_users} users the crates alone are named, and of more than {most_crates} crates the first ones.

Crates without definitions: {without}."""


def crate_names():
    """The crates of crates.txt, in its order."""
    lines = (TOP / "crates.txt").read_text(encoding="utf-8").splitlines()
    return [line.split(":")[0] for line in lines if ":" in line and not line.startswith("#")]


def pages_of(crate):
    """The pages of a crate, in the order of its Lib.antt; those in a folder with its name before them, as `formers.list.List`."""

    def pages_in(folder, listing, before):
        for name in re.findall(r"^pub mod (\w+)", listing.read_text(encoding="utf-8"), re.MULTILINE):
            if (folder / name).is_dir():
                yield from pages_in(folder / name, folder / f"{name}.antt", f"{before}{name}.")
            else:
                yield before + name

    specs = CRATES / crate / "specs"
    return list(pages_in(specs, specs / "Lib.antt", "")) if specs.is_dir() else []


def file_of(crate, page):
    return CRATES / crate / "specs" / (page.replace(".", "/") + ".antt")


def written_descriptions():
    """The lines `CRATE PAGE: TEXT` of docs/definitions.txt, and what is wrong with them."""
    descriptions, faults = {}, []
    for number, line in enumerate(DESCRIPTIONS.read_text(encoding="utf-8").splitlines(), 1):
        if line.startswith("#") or not line.strip():
            continue
        parts = re.fullmatch(r"(\w+) ([\w.]+): (\S.*)", line)
        if not parts:
            faults.append(f"docs/definitions.txt:{number}: no line `CRATE PAGE: TEXT`")
        elif parts.group(1, 2) in descriptions:
            faults.append(f"docs/definitions.txt:{number}: a second line of {parts[1]} {parts[2]}")
        else:
            descriptions[parts.group(1, 2)] = parts[3]
    return descriptions, faults


def head_sentence(crate, page):
    """The first sentence of the comment at the head of a page, fit for a row of its name; nothing where there is none."""
    head = []
    for line in file_of(crate, page).read_text(encoding="utf-8").splitlines():
        if not line.startswith("-- "):
            break
        head.append(line[3:].strip())
    sentence = re.match(r"(.*?)\.(?= |$)", " ".join(head))
    if not sentence:
        return ""
    # Where in a standard a rule stands is told at the definition.
    text = re.sub(r" \((?:C11|OmpSs-2)[^)]*\)", "", sentence[1])
    # The name stands in the row already: `Values: the numbers ..`, `Grammars: relations ..`.
    named = re.match(r"(\w+): ", text)
    if named and named[1].lower().rstrip("s") == page.lower().rstrip("s"):
        text = text[named.end() :]
    return text[:1].upper() + text[1:]


def count_words(text):
    """As docs/lint.sh counts: a piece of code is one word, and what has no letter and no digit is none."""
    plain = re.sub(r"[|*_]", " ", re.sub(r"`[^`]*`", "code", text))
    return sum(1 for word in plain.split() if re.search(r"[A-Za-z0-9]", word))


def find_users(crates, pages):
    """Of each page the places that name it: pairs of a crate and of `src`, `proofs`, or the page of `specs` in which it is named."""
    users = {(crate, page): set() for crate in crates for page in pages[crate]}
    faults = []
    for crate in crates:
        for part in "specs", "src", "proofs":
            folder = CRATES / crate / part
            for file in sorted([*folder.rglob("*.antt"), *folder.rglob("*.rt")]):
                place = ".".join(file.relative_to(folder).with_suffix("").parts) if part == "specs" else part
                code = re.sub(r"(^|\s)(--|//).*", "", file.read_text(encoding="utf-8"), flags=re.MULTILINE)
                for other, path in re.findall(r"Rattle\.(\w+)\.specs\.(\w+(?:\.\w+)*)", code):
                    # What the toolchain makes of types and contracts is no page, nor is what stands in its own libraries.
                    if other not in pages or path.startswith(("declared.", "contracts.")):
                        continue
                    named = [page for page in pages[other] if f"{path}.".startswith(f"{page}.")]
                    if not named:
                        faults.append(f"{file.relative_to(TOP)}: {other} has no page {path}")
                    for page in named:
                        if (other, page) != (crate, place):
                            users[other, page].add((crate, place))
    return users, faults


def tell_users(crate, page, users, crates, pages):
    """The cell that tells who uses a page."""
    own_pages = [f"`{other}`" for other in pages[crate] if (crate, other) in users]
    own_code = ["its code"] if (crate, "src") in users else []
    others = [f"`{other}`" for other in crates if other != crate and any(user == other and place != "proofs" for user, place in users)]
    named = own_pages + own_code + others
    if len(named) > MOST_USERS:
        told = [f"`{crate}`"] * bool(own_pages or own_code) + others
        more = len(told) - MOST_CRATES
        return ", ".join(told[:MOST_CRATES]) + (f" and {more} more" if more > 0 else "")
    if named:
        return ", ".join(named)
    proving = [f"`{other}`" for other in crates if (other, "proofs") in users]
    if proving:
        return "proofs alone: " + ", ".join(proving)
    # How a type stores values of its own kind no source names: the toolchain finds it by the names of the module and the type.
    return "its code, by the name of the type" if page.startswith("formers.") else "nothing"


def make_document():
    """The text of the document, and what is wrong with the sources of it."""
    crates = crate_names()
    pages = {crate: pages_of(crate) for crate in crates}
    descriptions, faults = written_descriptions()
    users, more_faults = find_users(crates, pages)
    faults += more_faults
    faults += [f"docs/definitions.txt: {crate} has no page {page}" for crate, page in descriptions if page not in pages.get(crate, [])]

    without = ", ".join(f"`{crate}`" for crate in crates if not pages[crate])
    lines = [BEGINNING.format(most_users=MOST_USERS, most_crates=MOST_CRATES, without=without)]
    for crate in crates:
        if not pages[crate]:
            continue
        lines += ["", f"## {crate}", "", "| page | says | used by |", "|---|---|---|"]
        for page in pages[crate]:
            says = descriptions.get((crate, page)) or head_sentence(crate, page)
            used = tell_users(crate, page, users[crate, page], crates, pages)
            name = f"{crate} {page}"
            if not says:
                faults.append(f"{name}: no line in docs/definitions.txt, and no sentence at the head of the page")
            elif count_words(says) > MOST_WORDS:
                faults.append(f"{name}: what it says has {count_words(says)} words, and {MOST_WORDS} are the most; docs/definitions.txt may say it shorter")
            if count_words(used) > MOST_WORDS:
                faults.append(f"{name}: its users are told in {count_words(used)} words, and {MOST_WORDS} are the most")
            # A bar would end the cell.
            says = says.replace("|", "\\|")
            link = f"../{file_of(crate, page).relative_to(TOP)}"
            lines.append(f"| [`{page}`]({link}) | {says} | {used} |")
    return "\n".join(lines) + "\n", faults


def main():
    if sys.argv[1:] not in ([], ["--check"]):
        sys.exit(__doc__)
    text, faults = make_document()
    if faults:
        sys.exit("\n".join(faults))
    if not sys.argv[1:]:
        DOCUMENT.write_text(text, encoding="utf-8")
    elif not DOCUMENT.is_file() or DOCUMENT.read_text(encoding="utf-8") != text:
        sys.exit("docs/DEFINITIONS.md is stale: docs/definitions.py writes it anew")


main()
