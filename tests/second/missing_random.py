#!/usr/bin/env python3
"""Tries what `missing` tells of random programs.

    missing_random.py START COUNT [whole | changed | expressions]

Makes the programs of generator.py with these numbers, and looks at each with ample fuel and with little:

    nothing is told exactly if the run has none of the faults that a clause, a wait or a release makes, and then both end alike
    the run in which each task has its mended accesses has none of these faults, with waits where lines tell of one, and ends as the free run; it uses
        what was released where lines tell of that
    without one added access, or with a weaker one in its place, that run has such a fault; these are tried for some accesses of each program

Each program for which one of these is not so is told. The last line counts, and the status is 1 if there is one.
"""

import sys

import missing
from generator import make, sources
from interpreter import Fault, FreeRun, Run, Task, TooLong, deeply
from rules import judge
from words import Refused

FUELS = (2_000, 40, 9)
MOST_TICKS = 100_000
MOST_CELLS = 3_000
# accesses of a program without which it is run
MOST_LESSER = 12

OF_CLAUSES = ("MixedAccess", "Released", "NoRight", "NotCovered", "BadReduction", "Lent", "Unwritten")


class MendedRun(Run):
    """A run in which the tasks have these accesses, each a dictionary, in the order of their creations. What was released keeps its right, and a touch
    of what is lent waits first. The points and lines of both are noted."""

    def __init__(self, program, fuel, accesses):
        super().__init__(program, fuel, MOST_TICKS)
        self.accesses = accesses
        self.count = 0
        # of each task, by its point, what it has released
        self.given_up = {}
        self.waits = set()
        self.uses = set()

    def use(self, cells):
        if not self.given_up.get(self.task.point, set()).isdisjoint(cells):
            self.uses.add((self.task.point, self.line))

    def touch(self, place, how):
        global_, index = place
        if global_ is not None and 0 <= index < global_.size:
            self.use([global_.start + index])
            if self.task.refusal(global_.start + index, how) == "Lent":
                self.waits.add((self.task.point, self.line))
                self.task.lent.clear()
        return super().touch(place, how)

    def create(self, clauses, frame, body):
        _, values = self.evaluate(clauses, frame)
        creator = self.task
        final = creator.final or values["final"] != 0
        accesses = self.accesses[self.count]
        self.count += 1
        if not all(creator.covers(cell, access.mode) for cell, access in accesses.items()):
            self.fault("NotCovered")
        self.use(accesses.keys())
        rights = {cell: (access.mode, access.strong) for cell, access in accesses.items()}
        point = (*creator.point, creator.created)
        creator.created += 1
        creator.unwritten -= {cell for cell, access in accesses.items() if access.mode == missing.WRITE}
        if not creator.final and values["if"] != 0:
            creator.lend(rights)
        unwritten = {cell for cell, access in accesses.items() if access.fresh}
        self.begin(Task(point, creator.above + 1, final, rights, unwritten), list(frame), body)

    def test_released(self, lists):
        for cells in lists:
            self.use(cells)

    def run_Release(self, release):
        named = self.named_by(release)
        self.test_clauses(named)
        self.given_up.setdefault(self.task.point, set()).update(*(cells for _, cells in named))


def end_of(run):
    """How a run ends: its fault, if it has one, its output and its cells."""
    fault = None
    try:
        run.whole()
    except Fault as found:
        fault = found.kind, found.line
    return fault, "".join(run.output), run.cells


def is_of_clauses(end):
    return end[0] is not None and end[0][0] in OF_CLAUSES


class Trial:
    def __init__(self):
        self.programs = self.runs = self.with_lines = self.lines = self.lesser = self.left_out = self.wrong = 0

    def program(self, name, text):
        try:
            program = judge(text)
        except Refused:
            return
        if program.cells > MOST_CELLS:
            self.left_out += 1
            return
        self.programs += 1
        for fuel in FUELS:
            try:
                for problem in self.problems(program, fuel):
                    self.wrong += 1
                    print(f"{name} --fuel={fuel}: {problem}", flush=True)
            except TooLong:
                self.left_out += 1

    def problems(self, program, fuel):
        free = FreeRun(program, fuel, MOST_TICKS)
        wanted = end_of(free)
        found = missing.tell(program, free.bodies)
        ordinary = end_of(Run(program, fuel, MOST_TICKS))
        self.runs += 1
        self.with_lines += found != ""
        self.lines += found.count("\n")
        if is_of_clauses(wanted):
            yield f"the free run has {wanted[0]}"
        if (found == "") == is_of_clauses(ordinary):
            yield f"{ordinary[0]}, and {found!r} is told"
        if found == "" and ordinary != wanted:
            yield "nothing is told, and the run ends otherwise"
        yield from self.mended(program, fuel, free.bodies[1:], wanted, found)

    def mended(self, program, fuel, bodies, wanted, found):
        accesses = [body.mended for body in bodies]
        run = MendedRun(program, fuel, accesses)
        end = end_of(run)
        if end != wanted:
            yield f"the mended run ends by {end[0]}, and the free run by {wanted[0]}"
            return
        for name, wanted_lines, mark in (("waits", run.waits, " lacks a taskwait "), ("uses", run.uses, " after a release.")):
            if len(wanted_lines) != found.count(mark):
                yield f"{len(wanted_lines)} {name} of the mended run, and {found.count(mark)} are told"
        for place, cell, lesser in some_of(list(lesser_of(bodies))):
            self.lesser += 1
            less = dict(accesses[place])
            less[cell] = lesser
            if lesser is None:
                del less[cell]
            changed = [*accesses[:place], less, *accesses[place + 1:]]
            if not is_of_clauses(end_of(MendedRun(program, fuel, changed))):
                shown = lesser.word() if lesser else "nothing"
                yield f"{bodies[place].name()} does with {shown} of cell {cell} in the place of {accesses[place][cell].word()}"


def lesser_of(bodies):
    """What would be less than an added access: what the clauses say alone, and a weaker access where there was none, or one to read."""
    for place, body in enumerate(bodies):
        known = missing.declared(body)
        for cell, access in body.mended.items():
            before = known.get(cell)
            if before is missing.MIXED:
                continue
            if before is None or (before.mode, before.strong or body.final, before.fresh) != (access.mode, access.strong, access.fresh):
                yield place, cell, before
            if before is None and access.strong and not body.final:
                yield place, cell, missing.Access(access.mode, False, access.fresh)
            if before is None and access.mode != missing.READ:
                yield place, cell, missing.Access(missing.READ, access.strong)


def some_of(found):
    """Some of a list, in its whole length."""
    step = max(1, -(-len(found) // MOST_LESSER))
    return found[::step]


def main(words):
    if len(words) not in (2, 3):
        sys.exit("usage: missing_random.py START COUNT [whole | changed | expressions]")
    kind = words[2] if words[2:] else "whole"
    programs = sources() if kind == "changed" else None
    trial = Trial()
    for number in range(int(words[0]), int(words[0]) + int(words[1])):
        trial.program(f"{kind} {number}", make(kind, number, programs))
    print(
        f"{trial.programs} programs, {trial.runs} runs, {trial.with_lines} with lines, {trial.lines} lines, {trial.lesser} lesser accesses, "
        f"{trial.left_out} left out, {trial.wrong} wrong"
    )
    return 1 if trial.wrong else 0


if __name__ == "__main__":
    status = []
    deeply(lambda: status.append(main(sys.argv[1:])))
    sys.exit(status[0] if status else 70)
