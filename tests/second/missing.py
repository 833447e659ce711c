"""What the clauses of a program lack.

It was written from the definition alone, by one who had not read the code of the program.

A run without the tests of clauses has left a `Body` for each task, with what it did. From the events of each task, children first, come its needs, from
these what its clauses lack of them, and its mended access to each cell. Then each body is gone through once more: its children are lent what their
mended accesses say, and a touch of what is lent wants a wait.
"""

import graph

MOST_PIECES = 8

FOLDS = ("+", "&", "|", "^")
READ, WRITE = "read", "write"
MIXED = "mixed"
WORDS = ("in", "out", "inout", *(f"reduction({fold})" for fold in FOLDS))
# the order in which the words of one task are told
ORDER = {word: place for place, word in enumerate([*WORDS, *("weak" + word for word in WORDS)])}


class Body:
    """A task, or main, with its events in their order.

    `clauses` are pairs of a clause and the cells that one of its sections names. A child that is `waited` for, or that a final task includes, is lent
    nothing. `mended` has the access to each cell with what is missing added.
    """

    def __init__(self, point, line, creator, final=False, waited=False, clauses=()):
        self.point = point
        self.line = line
        self.lent = creator is not None and not creator.final and not waited
        self.final = final
        self.clauses = clauses
        self.events = []
        self.mended = {}
        # the touches since the last event of another kind: the same touch once more on the same line asks for nothing new
        self.seen = set()

    def touch(self, cell, how, line):
        if (cell, how, line) not in self.seen:
            self.seen.add((cell, how, line))
            self.events.append(("touch", line, cell, how))

    def add(self, kind, line, *what):
        self.seen.clear()
        self.events.append((kind, line, *what))

    def name(self):
        return "task " + ".".join(map(str, self.point))

    def who(self):
        return "Main" if len(self.point) == 1 else f"T{self.name()[1:]} (line {self.line})"


class Access:
    """A mode, `read`, `write` or the operator of a fold, whether it is strong, and whether it is a write of what need not be written yet."""

    __slots__ = ("mode", "strong", "fresh")

    def __init__(self, mode, strong, fresh=False):
        self.mode = mode
        self.strong = strong
        self.fresh = fresh and mode == WRITE

    def word(self):
        word = "in" if self.mode == READ else f"reduction({self.mode})"
        if self.mode == WRITE:
            word = "out" if self.fresh else "inout"
        return word if self.strong else "weak" + word

    def joined(self, other):
        mode = self.mode if self.mode == other.mode else WRITE
        return Access(mode, self.strong or other.strong, self.fresh and other.fresh)


class Need:
    """What a task does with a cell: the demands, each a mode and whether it is strong, and what decides between `out` and `inout`."""

    def __init__(self):
        self.demands = set()
        # a wait on the cell, for which each mode will do
        self.any = False
        # whether the first demand wants no old value; a release and a wait are none here
        self.pure_first = None
        self.written = False
        # the task reads the cell before it has written it
        self.old = False

    def demand(self, mode, strong, pure):
        self.demands.add((mode, strong))
        if self.pure_first is None:
            self.pure_first = pure

    def least(self):
        """The least access that meets all demands, or None if there is no demand."""
        if self.demands:
            return self.addition(self.demands)
        return Access(READ, False) if self.any else None

    def addition(self, demands):
        return Access(joined_mode({mode for mode, _ in demands}), any(strong for _, strong in demands), bool(self.pure_first))


def joined_mode(modes):
    return next(iter(modes)) if len(modes) == 1 else WRITE


def needs(body):
    """The needs of a task, whose children are mended already."""
    found = {}

    def of(cell):
        return found.setdefault(cell, Need())

    for kind, _, *what in body.events:
        if kind == "touch":
            cell, how = what
            need = of(cell)
            need.demand(how, True, how == WRITE)
            need.old |= how != WRITE and not need.written
            need.written |= how != READ
        elif kind == "create":
            for cell, access in what[0].mended.items():
                need = of(cell)
                need.demand(access.mode, False, access.fresh)
                need.written |= access.mode == WRITE
        elif kind == "release":
            for mode, cells in what[0]:
                for cell in cells:
                    of(cell).demands.add((mode, False))
        elif kind == "wait on":
            for cell in what[0]:
                of(cell).any = True
    return found


# Clauses


def mode_of(clause):
    """The mode of a clause with sections."""
    if clause.operator:
        return clause.operator
    return READ if clause.word in ("in", "weakin") else WRITE


def word_of(clause):
    return f"{clause.word}({clause.operator})" if clause.operator else clause.word


def declared(body):
    """What the clauses of a task say of each cell: an access, or MIXED."""
    found = {}
    for clause, cells in body.clauses:
        access = Access(mode_of(clause), body.final or not clause.word.startswith("weak"), clause.word in ("out", "weakout"))
        for cell in cells:
            known = found.setdefault(cell, access)
            if known is MIXED or known.mode != access.mode and (known.mode in FOLDS or access.mode in FOLDS):
                found[cell] = MIXED
            else:
                found[cell] = known.joined(access)
    return found


def lack(known, need):
    """What is missing of an access, and whether it stands in the place of what is there."""
    least = need.least()
    if known is None:
        return least, False
    if known is MIXED:
        return least or Access(READ, False), True
    if known.mode in FOLDS:
        if any(mode != known.mode for mode, _ in need.demands):
            return least, True
        is_weak = not known.strong and (known.mode, True) in need.demands
        return Access(known.mode, True) if is_weak else None, False
    unmet = {(mode, strong) for mode, strong in need.demands if known.mode == READ != mode or strong and not known.strong}
    if known.fresh and need.old:
        unmet.add((READ, True))
    if not unmet:
        return None, False
    added = need.addition(unmet)
    if added.mode in FOLDS:
        # beside a read or a write a reduction would be mixed with it
        added = Access(WRITE, added.strong, least.fresh)
    else:
        added.fresh = added.fresh and least.fresh
    return added, False


class Lacks:
    """What a task lacks and wants: the cells by the words of the missing accesses."""

    def __init__(self):
        self.lacks = {}
        self.wants = {}


def mend(body):
    """Finds the mended accesses of a task, and gives what is missing."""
    found = Lacks()
    known, wanted = declared(body), needs(body)
    for cell in known.keys() | wanted.keys():
        access = known.get(cell)
        added, in_place = lack(access, wanted.get(cell) or Need())
        if added:
            cells = found.wants if in_place else found.lacks
            cells.setdefault(added.word(), set()).add(cell)
            access = added if in_place or access is None else access.joined(added)
        if access:
            body.mended[cell] = Access(access.mode, access.strong or body.final, access.fresh)
    return found


# The texts


def count(number, what):
    return f"{number} {what}{'' if number == 1 else 's'}"


def some(program, cells):
    """The pieces that are told of some cells, and the number of cells in the others."""
    found = graph.pieces(program, cells)
    return ", ".join(text for text, _ in found[:MOST_PIECES]), sum(size for _, size in found[MOST_PIECES:])


def clause_of(program, word, cells):
    told, more = some(program, cells)
    clause = f"{word[:-1]}: {told})" if word.endswith(")") else f"{word}({told})"
    return clause + (f" and {count(more, 'more cell')}" if more else "")


def in_order(words):
    return sorted(words, key=ORDER.get)


def sentences(program, body, found):
    """What is told behind the name of a task of its clauses."""
    for word in in_order(found.lacks):
        yield f"lacks {clause_of(program, word, found.lacks[word])}"
    for word in in_order(found.wants):
        cells = found.wants[word]
        places = [word_of(clause) for clause, named in body.clauses if not cells.isdisjoint(named)]
        yield f"wants {clause_of(program, word, cells)} in place of {' and '.join(dict.fromkeys(places))}"


class Walk:
    """The way through the events of a task once more, with its mended access and those of its children."""

    def __init__(self, program, body):
        self.program = program
        self.body = body
        self.lines = []
        self.told = set()
        self.released = set()
        # of each cell that is lent: the first child that has it, and the first that has it for more than reading
        self.holders = {}
        for kind, line, *what in body.events:
            getattr(self, kind.replace(" ", "_"))(line, *what)

    def tell(self, kind, line, text):
        """Of one kind and line the first is told."""
        if (kind, line) not in self.told:
            self.told.add((kind, line))
            self.lines.append(f"{self.body.who()} {text}.")

    def again(self, line, cells):
        """Cells that are used on a line; those that were released before are told."""
        if not self.released.isdisjoint(cells):
            told, more = some(self.program, self.released.intersection(cells))
            self.tell("use", line, f"uses {told}{', ' + count(more, 'more cell') if more else ''} at line {line} after a release")

    def touch(self, line, cell, how):
        self.again(line, [cell])
        access = self.body.mended.get(cell)
        if cell not in self.holders or access and access.mode in FOLDS:
            return
        first, writer = self.holders[cell]
        holder = writer if how == READ else first
        if holder:
            name = graph.pieces(self.program, [cell])[0][0]
            does = {READ: f"reads {name}", WRITE: f"writes {name}"}.get(how, f"folds into {name} by {how}=")
            has = f"{holder.name()} (line {holder.line}) has {name} by {holder.mended[cell].word()}"
            self.tell("wait", line, f"lacks a taskwait before it {does} at line {line}: {has}")
            self.holders.clear()

    def create(self, line, child):
        self.again(line, child.mended.keys())
        if child.lent:
            for cell, access in child.mended.items():
                holders = self.holders.setdefault(cell, [child, None])
                if access.mode != READ and not holders[1]:
                    holders[1] = child

    def wait(self, _line):
        self.holders.clear()

    def wait_on(self, line, cells):
        self.again(line, cells)
        for cell in cells:
            self.holders.pop(cell, None)

    def release(self, line, named):
        cells = [cell for _, some_cells in named for cell in some_cells]
        self.again(line, cells)
        self.released.update(cells)


def tell(program, bodies):
    """All lines of a run, of whose bodies, in the order in which they began, main is the first."""
    lacks = {body: mend(body) for body in reversed(bodies[1:])}
    # the sentences of tasks of one line that read alike are told at the first, with the number of the others
    told, alike = [], {}
    for body in sorted(bodies, key=lambda each: each.point):
        for sentence in sentences(program, body, lacks[body]) if body in lacks else ():
            key = body.line, sentence
            if key not in alike:
                alike[key] = 0
                told.append((body, key))
            else:
                alike[key] += 1
        told += [(line, None) for line in Walk(program, body).lines]
    return "".join((first if key is None else clause_line(first, key, alike[key])) + "\n" for first, key in told)


def clause_line(body, key, others):
    line, sentence = key
    more = f"; {count(others, 'more task')} of line {line} {'does' if others == 1 else 'do'} too" if others else ""
    return f"{body.who()} {sentence}{more}."
