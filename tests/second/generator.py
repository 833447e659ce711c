#!/usr/bin/env python3
"""Random programs, for comparisons.

    generator.py START COUNT FOLDER [KIND]

Makes COUNT programs in the folder, NAME_N.c with N from START on. The same number gives the same program. The kinds are

    whole         programs with tasks of all kinds (the default); more than a third of them touch what they may not, and end in a fault
    expressions   programs of expressions and assignments alone: all operators, kinds and conversions
    changed       the programs of examples/ and tests/cases with some tokens changed, those that are still accepted
    texts         the same, those that are refused
"""

import pathlib
import random
import re
import sys

from rules import judge
from whole import BINARY, PREFIXES, TYPES, WIDE_NUMBERS, Whole
from words import Refused


class Expressions:
    """Makes a program of expressions and assignments alone."""

    def __init__(self, number):
        self.random = random.Random(f"expressions {number}")
        # how many of the divisions and shifts may have a fault
        self.reckless = self.random.choice([0, 0, 0, 0.1])
        self.names = []

    def choose(self, *choices):
        return self.random.choice(choices)

    def expression(self, depth):
        if depth == 0 or self.random.random() < 0.15:
            return self.choose(*WIDE_NUMBERS, *self.names * 4)
        form = self.random.randrange(12)
        if form == 0:
            return f"{self.choose(*PREFIXES)} {self.expression(depth - 1)}"
        if form == 1:
            return f"{self.choose('fi', 'fl', 'fu')}({self.expression(depth - 1)})"
        if form == 2:
            return f"({self.expression(depth - 1)})"
        if form == 3:
            return f"{self.choose('a', 'b', 'c', 'p', 'q')}[({self.expression(depth - 1)}) & 3]"
        if form == 4:
            return self.choose("*p", "*(p + 1)", "*&a[2]", "(q - 0)[1]", "m[1][2]", "*(m[0] + 4)", "*m[1]", "*(&x + 0)", "(&m[1][0])[-2]")
        operator = self.choose(*BINARY)
        left, right = self.expression(depth - 1), self.expression(depth - 1)
        if operator in ("/", "%", "<<", ">>") and self.random.random() >= self.reckless:
            right = f"(({right}) | 1)" if operator in ("/", "%") else f"(({right}) & {self.choose('63', '31', '7')})"
        brackets = self.random.random() < 0.4
        return f"({left} {operator} {right})" if brackets else f"{left} {operator} {right}"

    def value(self):
        return self.expression(self.choose(1, 2, 3, 4))

    def statement(self):
        form = self.random.randrange(4)
        if form == 0:
            values = [self.value() for _ in range(self.choose(1, 2, 3))]
            words = " ".join(self.choose("%d", "%ld", "%lu") for _ in values)
            return f'printf("{words}\\n", {", ".join(values)});'
        target = self.choose(*self.names, "a[1]", "b[2]", "c[3]", "*p", "p[2]", "q[1]", "m[1][1]", "*(m[0] + 5)", "*&x")
        if target == "*&x":
            target = "*(&x)"
        if form == 1:
            return self.choose(f"{target}++;", f"--{target};", f"{target}--;", f"++{target};")
        operator = self.choose("", "", "+", "-", "*", "/", "%", "&", "|", "^", "<<", ">>")
        value = self.value()
        if operator in ("/", "%", "<<", ">>") and self.random.random() >= self.reckless:
            value = f"({value}) | 1" if operator in ("/", "%") else f"({value}) & 63"
        return f"{target} {operator}= {value};"

    def program(self):
        lines = [
            f"int i = {self.choose('', '-')}{self.choose(*WIDE_NUMBERS)}; long x = {self.choose('', '-')}{self.choose(*WIDE_NUMBERS)};",
            f"unsigned long u = {self.choose('', '-')}{self.choose(*WIDE_NUMBERS)};",
            "long a[4], m[2][3]; int b[4]; unsigned long c[4];",
        ]
        for name, type_ in (("fi", "int"), ("fl", "long"), ("fu", "unsigned long")):
            parameter = self.choose(*TYPES)
            self.names = ["n", "x", "i", "u"]
            lines.append(f"{type_} {name}({parameter} n) {{ return {self.without_calls()}; }}")
        self.names = ["i", "x", "u", "j", "y", "v"]
        lines += ["int main() {", f"  int j = {self.choose(*WIDE_NUMBERS)}; long y = {self.choose(*WIDE_NUMBERS)}; unsigned long v = {self.choose(*WIDE_NUMBERS)};"]
        lines.append("  long *p = a; int *q = b;")
        lines += [f"  {self.statement()}" for _ in range(self.random.randint(8, 30))]
        lines += ['  printf("%ld %ld %lu %ld %ld %lu\\n", i, x, u, j, y, v);', "}", ""]
        return "\n".join(lines)

    def without_calls(self):
        operator = self.choose("+", "-", "*", "^", "|", "&", "<", ">=")
        return f"{self.choose(*PREFIXES)}n {operator} {self.choose('x', 'i', 'u', *WIDE_NUMBERS)}"


# Programs with tokens changed

TOP = pathlib.Path(__file__).resolve().parent.parent.parent


def sources():
    """The programs of examples/ and tests/cases that are accepted, in the order of their names; no large ones."""
    found = []
    for path in sorted(TOP.glob("examples/*.c")):
        found.append(path.read_text("latin-1"))
    for path in sorted(TOP.glob("tests/cases/*/*.case")):
        _, mark, program = path.read_text("latin-1").partition("\nprogram:\n")
        if mark and len(program) < 3000:
            found.append(program)
    return [program for program in found if is_accepted(program)]


SPELLINGS = ["+", "-", "*", "/", "%", "<<", ">>", "<", "<=", ">", ">=", "==", "!=", "&", "^", "|", "&&", "||"]
ASSIGNED = ["=", "+=", "-=", "*=", "/=", "%=", "&=", "|=", "^=", "<<=", ">>="]
CLAUSES = ["in", "out", "inout", "weakin", "weakout", "weakinout"]


class Changed:
    """Makes a program of one of the sources, by changes of some tokens."""

    def __init__(self, number, programs, refused):
        self.random = random.Random(f"changed {number}")
        self.programs = programs
        self.refused = refused

    def other(self, word, words):
        """Another spelling in the place of a token's."""
        for alike in (SPELLINGS, ASSIGNED, CLAUSES, ["++", "--"], ["int", "long"], ["reduction", "weakreduction", "inout"], ["if", "final", "priority"]):
            if word in alike and self.random.random() < 0.8:
                return self.random.choice(alike)
        if word[0].isdigit() and self.random.random() < 0.8:
            return self.random.choice(["0", "1", "2", "3", "4", "7", "8", "64", "-1", "18446744073709551615", str(int(word) + 1) if word.isdecimal() else "5"])
        form = self.random.randrange(4)
        if form == 0:
            return ""
        return f"{word} {word}" if form == 1 else self.random.choice(words)

    def change(self, text):
        """A text with one of its tokens changed; the tokens are found by their look alone."""
        words = pieces(text)
        places = [place for place, word in enumerate(words) if not word.isspace()]
        if not places:
            return text
        place = self.random.choice(places)
        words[place] = self.other(words[place], [words[each] for each in places])
        return "".join(words)

    def program(self):
        while True:
            text = self.random.choice(self.programs)
            changed = text
            for _ in range(self.random.choice([1, 1, 1, 2, 3])):
                changed = self.change(changed)
            if changed != text and is_accepted(changed) != self.refused:
                return changed


def pieces(text):
    """The text in pieces: words, symbols, strings and blanks."""
    return re.findall(r'[A-Za-z_0-9]+|\s+|"[^"\n]*"|<<=|>>=|[-+*/%&|^<>=!]=|<<|>>|&&|\|\||\+\+|--|.', text)


def is_accepted(text):
    try:
        judge(text)
    except Refused:
        return False
    return True


def make(kind, number, programs):
    if kind == "whole":
        return Whole(number).program()
    if kind == "expressions":
        return Expressions(number).program()
    return Changed(number, programs, kind == "texts").program()


def main(words):
    if len(words) not in (3, 4) or words[3:] and words[3] not in ("whole", "expressions", "changed", "texts"):
        sys.exit("usage: generator.py START COUNT FOLDER [whole | expressions | changed | texts]")
    kind = words[3] if words[3:] else "whole"
    folder = pathlib.Path(words[2])
    folder.mkdir(parents=True, exist_ok=True)
    programs = sources() if kind in ("changed", "texts") else None
    for number in range(int(words[0]), int(words[0]) + int(words[1])):
        (folder / f"{kind}_{number:06}.c").write_text(make(kind, number, programs), "latin-1")


if __name__ == "__main__":
    sys.setrecursionlimit(1 << 16)
    main(sys.argv[1:])
