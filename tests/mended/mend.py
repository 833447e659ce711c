#!/usr/bin/env python3
"""Mends a program by the lines of `nest6 missing`, by rule alone.

    mend.py FILE LINES

writes the program in FILE with all that the lines in the file LINES ask for. It knows the lines and the text of the program, and not what a run does.

The rule for clauses. `Task .. (line N) lacks CLAUSE` puts the clause into the pragma that creates tasks at line N: the one that begins there, or that of
the task function that is called there. A pragma serves all tasks that it creates, so it takes what any of them lacks. If its lines ask for one section by
several words, these are joined: `in` and `out` to `inout`, a reduction and another word to `inout`, and weak only if all are weak.

The rule for what is wanted. `Task .. (line N) wants CLAUSE in place of WORDS` does the same, and takes from the clauses with these words each section of
the global that is told.

The rule for waits. `.. lacks a taskwait before it reads x at line N` puts `#pragma oss taskwait` before the first statement that begins at line N. It
leaves each loop that creates no task, so that one wait serves all turns. Then it goes outwards to a statement that stands in a block and begins its line,
since a pragma before another one would belong to what stands around it. It does not leave a task.

What these rules cannot do is told on the error output, and the status is then 1: two pragmas at one line, a wait without a place, a line of another kind.
They may also do too little or too much. Where more than eight pieces are told, the others are not known. Each turn of a loop reads what its test reads, and
the wait before the loop serves the first alone. Where clauses are replaced, a cell of the same global may have been named by right.
"""

import pathlib
import re
import sys

sys.path.insert(0, str(pathlib.Path(__file__).resolve().parent.parent / "second"))

import grammar
import trees

CLAUSE = r"(?P<word>\w+)\((?:(?P<operator>\S): )?(?P<sections>[^()]+)\)(?: and \d+ more cells?)?"
LACKS = re.compile(rf"Task \S+ \(line (?P<line>\d+)\) lacks {CLAUSE}(?:;.*)?\.")
WANTS = re.compile(rf"Task \S+ \(line (?P<line>\d+)\) wants {CLAUSE} in place of (?P<places>[^;]+?)(?:;.*)?\.")
WAIT = re.compile(r".* lacks a taskwait before it .*? at line (?P<line>\d+): .*\.")
HEAD = re.compile(r"\s*#\s*pragma\s+oss\s+(?:taskloop|task)\b")
FINAL = re.compile(r"\bfinal\s*\(")
BASE = re.compile(r"(?:[{*\s]|\[[^]]*\])*(\w+)")


# Words


def word_of(word, operator):
    return f"{word}({operator})" if operator else word


def joined(words):
    """The word that does what each of these does."""
    kinds = {word.removeprefix("weak") for word in words}
    strong = any(not word.startswith("weak") for word in words)
    return ("" if strong else "weak") + (kinds.pop() if len(kinds) == 1 else "inout")


def clause_of(word, sections):
    start = f"{word[:-1]}: " if word.endswith(")") else f"{word}("
    return start + ", ".join(sections) + ")"


def parted(text):
    """The sections between the brackets of a clause."""
    found, depth = [""], 0
    for letter in text:
        depth += (letter in "([{") - (letter in ")]}")
        if letter == "," and depth == 0:
            found.append("")
        else:
            found[-1] += letter
    return [section.strip() for section in found]


# What is to be changed


class Change:
    """What a pragma is to take, the words by the sections, and to lose, the words and the globals."""

    def __init__(self):
        self.added = {}
        self.lost = set()

    def add(self, line):
        for section in parted(line["sections"]):
            self.added.setdefault(section, set()).add(word_of(line["word"], line["operator"]))

    def lose(self, line):
        for place in line["places"].split(" and "):
            self.lost.update((place, BASE.match(section)[1]) for section in parted(line["sections"]))

    def of(self, pragma):
        """The text of the pragma, changed."""
        for word, name in sorted(self.lost):
            pragma = without(pragma, word, name)
            # in a final task a weak clause counts as strong, and is told so
            if FINAL.search(pragma):
                pragma = without(pragma, "weak" + word, name)
        clauses = {}
        for section, words in self.added.items():
            clauses.setdefault(joined(words), []).append(section)
        end = HEAD.match(pragma).end()
        return pragma[:end] + "".join(" " + clause_of(word, sections) for word, sections in clauses.items()) + pragma[end:]


def without(pragma, word, name):
    """The text of a pragma whose clauses with this word have no section of this global."""
    name_of_word, _, operator = word.rstrip(")").partition("(")
    start = rf"(\s*,?\s*)\b{name_of_word}\s*\(" + (rf"\s*{re.escape(operator)}\s*:" if operator else "")

    def lessened(clause):
        left = [section for section in parted(clause[2]) if BASE.match(section)[1] != name]
        return clause[1] + clause_of(word, left) if left else ""

    return re.sub(start + r"((?:[^()]|\([^()]*\))*)\)", lessened, pragma)


# The text


def parts(tree):
    """A tree and all in it."""
    yield tree
    for field in tree.fields:
        value = getattr(tree, field)
        for part in value if isinstance(value, list) else [value]:
            if isinstance(part, trees.Tree):
                yield from parts(part)


def paths(statement, above=()):
    """The statements in a statement, and it itself, each behind those that it stands in."""
    path = (*above, statement)
    yield path
    for field in ("statements", "body", "then", "otherwise"):
        value = getattr(statement, field, None)
        for inner in value if isinstance(value, list) else [value]:
            if inner is not None:
                yield from paths(inner, path)


class Program:
    """The text of a program, and its tree."""

    def __init__(self, text):
        self.lines = text.split("\n")
        self.functions = {item.name: item for item in grammar.read(text) if isinstance(item, trees.Function)}
        self.paths = [path for function in self.functions.values() for path in paths(function.body)]
        self.creating = {name for name, function in self.functions.items() if function.pragma}
        while True:
            more = {name for name, function in self.functions.items() if self.creates(function.body)} - self.creating
            if not more:
                break
            self.creating |= more

    def creates(self, statement):
        """Whether a task may be created in a statement."""
        return any(
            isinstance(part, (trees.Task, trees.TaskLoop)) or isinstance(part, trees.Call) and part.name in self.creating
            for part in parts(statement)
        )

    def pragma_at(self, line):
        """The line of the one pragma that creates tasks at this line, or None."""
        found = set()
        for *_, statement in self.paths:
            if statement.line == line and isinstance(statement, (trees.Task, trees.TaskLoop)):
                found.add(line)
            if statement.line == line and isinstance(statement, trees.CallStatement):
                pragma = self.functions[statement.call.name].pragma
                found.update([pragma.line] if pragma else [])
        return found.pop() if len(found) == 1 else None

    def begins_its_line(self, statement):
        first = next(path[-1] for path in self.paths if path[-1].line == statement.line)
        return first is statement and not self.lines[statement.line - 1].lstrip().startswith("}")

    def wait_at(self, line):
        """The line before which a wait belongs for a touch at this line, or None."""
        path = next((path for path in self.paths if path[-1].line == line), ())
        # what stands in the innermost task, or in the function
        tasks = [place for place, statement in enumerate(path[:-1]) if isinstance(statement, (trees.Task, trees.TaskLoop))]
        path = path[tasks[-1] + 1 :] if tasks else path
        loops = [place for place, each in enumerate(path) if isinstance(each, (trees.For, trees.While)) and not self.creates(each)]
        last = loops[0] if loops else len(path) - 1
        for place in range(last, 0, -1):
            if isinstance(path[place - 1], trees.Block) and self.begins_its_line(path[place]):
                return path[place].line
        return None

    def change_pragma(self, line, change):
        end = line
        while self.lines[end - 1].endswith("\\"):
            end += 1
        pragma = "\n".join(self.lines[line - 1 : end])
        self.lines[line - 1 : end] = change.of(pragma).split("\n")


def mended(text, lines):
    """The mended text, and those of the lines that are left."""
    program, changes, waits, left = Program(text), {}, set(), []
    for told in lines:
        lacks, wants, wait = LACKS.fullmatch(told), WANTS.fullmatch(told), WAIT.fullmatch(told)
        pragma = program.pragma_at(int((lacks or wants)["line"])) if lacks or wants else None
        place = program.wait_at(int(wait["line"])) if wait else None
        if pragma:
            change = changes.setdefault(pragma, Change())
            change.add(lacks or wants)
            if wants:
                change.lose(wants)
        elif place:
            waits.add(place)
        else:
            left.append(told)
    for line, change in changes.items():
        program.change_pragma(line, change)
    for line in sorted(waits, reverse=True):
        program.lines.insert(line - 1, "#pragma oss taskwait")
    return "\n".join(program.lines), left


def main(words):
    if len(words) != 2:
        sys.exit("usage: mend.py FILE LINES")
    text, lines = (pathlib.Path(word).read_text("latin-1") for word in words)
    found, left = mended(text, [] if lines == "nothing is missing\n" else lines.splitlines())
    sys.stdout.buffer.write(found.encode("latin-1"))
    for told in left:
        print(f"no rule for: {told}", file=sys.stderr)
    return 1 if left else 0


if __name__ == "__main__":
    sys.exit(main(sys.argv[1:]))
