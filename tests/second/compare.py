#!/usr/bin/env python3
"""Compares a program with the second interpreter, or with another build of the program, on each file of a folder.

    compare.py PROGRAM FOLDER [OTHER] [--all-fuels]

Without OTHER each file is run by the interpreter too: with a dump, with ample fuel and with little, so that each tick of a task is a place where a
run may stop. Each answer has an output, an error output and a status, and these must be the same

    for ample fuel   of `run` in the mode serial, by waves over each dependency system with 1 and with 4 workers, and by one worker; of `audit`,
                     `graph` and `missing`; of the error output of each `trace` and its number of tasks; of the `replay` of each; of the ticks of `span`
    for little fuel  of `run` in the mode serial and in one of the others, in turn; of `missing`

The traces over the dependency systems must be the same as well. Little fuels are every eighth from 1 to 40, beginning with another one for each file;
with --all-fuels each of them. A text that is refused is compared in `check` and `run` alone. With OTHER the calls are those, with `check` and all of
what `span` writes.

Each difference is told with its file and words. The last line counts, and the status is 1 if there is a difference. A program is not compared whole if
it is too long for that: more cells or ticks than stand below, or a call of more seconds.
"""

import os
import pathlib
import signal
import sys
import tempfile

from interpreter import Answer, Answers, TooLong, deeply, lacking
from rules import judge
from words import Refused

AMPLE = 2_000
MOST_TICKS = 300_000
MOST_CELLS = 10_000
LITTLE = 40
SECONDS = 10

SYSTEMS = ("regions", "plain", "words")
WAVES = [f"--mode=waves --deps={system} --workers={workers}" for system in SYSTEMS for workers in (1, 4)]
ONE_WORKER = "--mode=workers --workers=1"
OTHERS = [*WAVES, ONE_WORKER]


class Caller:
    """Calls programs, one after the other."""

    def __init__(self):
        self.count = 0
        self.files = [os.memfd_create(name) for name in ("output", "error")]
        self.nothing = os.open(os.devnull, os.O_RDONLY)
        self.called = 0
        self.is_killed = False
        signal.signal(signal.SIGALRM, lambda _signal, _frame: self.kill())

    def kill(self):
        self.is_killed = True
        os.kill(self.called, signal.SIGKILL)

    def call(self, program, words):
        """What a program answers. A call that takes too long is killed: by waves a program may do much that its sequential run does not come to."""
        self.count += 1
        actions = [(os.POSIX_SPAWN_DUP2, self.nothing, 0)]
        for place, file in enumerate(self.files, 1):
            os.ftruncate(file, 0)
            os.lseek(file, 0, os.SEEK_SET)
            actions.append((os.POSIX_SPAWN_DUP2, file, place))
        self.called = os.posix_spawn(program, [program, *words], os.environ, file_actions=actions)
        signal.alarm(SECONDS)
        _, status = os.waitpid(self.called, 0)
        signal.alarm(0)
        if self.is_killed:
            self.is_killed = False
            raise TooLong
        output, error = (os.pread(file, os.fstat(file).st_size, 0).decode("latin-1") for file in self.files)
        return Answer(os.waitstatus_to_exitcode(status), output, error)


class Comparison:
    def __init__(self, program, other, all_fuels):
        self.program = program
        self.other = other
        self.all_fuels = all_fuels
        self.caller = Caller()
        self.schedule = tempfile.NamedTemporaryFile(suffix=".schedule")
        self.files = self.left_out = self.differences = self.faults = 0

    def same(self, file, words, found, wanted, *parts):
        """Compares two answers in these parts, or in all."""
        for part in parts or ("status", "output", "error"):
            if getattr(found, part) != getattr(wanted, part):
                self.differences += 1
                print(f"{file}: {' '.join(words)}: {part}\n  found  {getattr(found, part)!r}\n  wanted {getattr(wanted, part)!r}", flush=True)
                return

    def call(self, *words):
        return self.caller.call(self.program, words)

    def little(self, place):
        return range(1, LITTLE + 1) if self.all_fuels else range(1 + place % 8, LITTLE + 1, 8)

    # With the interpreter

    def with_interpreter(self, place, file):
        try:
            program = judge(file.read_bytes().decode("latin-1"))
        except Refused as refused:
            wanted = Answer(3, "", f"refused: {refused.kind} at line {refused.line}\n")
            for command in ("check", "run"):
                self.same(file.name, [command], self.call(command, str(file)), wanted)
            return
        self.same(file.name, ["check"], self.call("check", str(file)), Answer(0, "ok\n"))
        if program.cells > MOST_CELLS:
            raise TooLong
        answers = Answers(program, AMPLE, MOST_TICKS)
        self.ample(file, answers)
        self.missing(file, program, AMPLE)
        for fuel in self.little(place):
            if answers.fault or fuel < answers.made.longest:
                wanted = Answers(program, fuel).run(True)
            else:
                wanted = answers.run(True)
            for mode in ("--mode=serial", OTHERS[(place + fuel) % len(OTHERS)]):
                self.same_run(file, mode, fuel, wanted)
            self.missing(file, program, fuel)

    def same_run(self, file, mode, fuel, wanted):
        words = ["run", *mode.split(), f"--fuel={fuel}", "--dump"]
        self.same(file.name, words, self.call(*words, str(file)), wanted)

    def ample(self, file, answers):
        wanted = answers.run(True)
        self.faults += wanted.status
        for mode in ["--mode=serial", *OTHERS]:
            self.same_run(file, mode, AMPLE, wanted)
        words = ["audit", f"--fuel={AMPLE}"]
        self.same(file.name, words, self.call(*words, str(file)), answers.audit())
        words = ["graph", f"--fuel={AMPLE}"]
        self.same(file.name, words, self.call(*words, str(file)), answers.graph())
        self.span(file, wanted)
        self.traces(file, answers.run())

    def missing(self, file, program, fuel):
        # the run without the tests of clauses may be too long where the other one is not
        wanted = lacking(program, fuel, MOST_TICKS)
        words = ["missing", f"--fuel={fuel}"]
        self.same(file.name, words, self.call(*words, str(file)), wanted)

    def span(self, file, wanted):
        words = ["span", f"--fuel={AMPLE}"]
        found = self.call(*words, str(file))
        self.same(file.name, words, found, wanted, "status", "error")
        first = f"work {wanted.work}\n" if wanted.status == 0 else ""
        found.output = found.output[:found.output.find("\n") + 1]
        self.same(file.name, words, found, Answer(0, first), "output")

    def traces(self, file, wanted):
        known = None
        for system in SYSTEMS:
            words = ["trace", f"--deps={system}", f"--fuel={AMPLE}"]
            found = self.call(*words, str(file))
            self.same(file.name, words, found, wanted, "status", "error")
            if known is None:
                known = found
                last = found.output.rpartition("# tasks ")[2].split()
                if wanted.status == 0:
                    found.tasks = int(last[0]) if last else None
                    self.same(file.name, words, found, wanted, "tasks")
                self.replay(file, found.output, wanted)
            else:
                self.same(file.name, words, found, known)

    def replay(self, file, trace, wanted):
        pathlib.Path(self.schedule.name).write_text(trace, "latin-1")
        words = ["replay", f"--fuel={AMPLE}"]
        self.same(file.name, words, self.call(*words, str(file), self.schedule.name), wanted)

    # With another build

    def with_other(self, place, file):
        self.same_call(file, "check")
        for mode in ["--mode=serial", *OTHERS]:
            self.same_call(file, "run", *mode.split(), f"--fuel={AMPLE}", "--dump")
        for command in ("audit", "graph", "span", "trace"):
            self.same_call(file, command, f"--fuel={AMPLE}")
        for system in SYSTEMS[1:]:
            self.same_call(file, "trace", f"--deps={system}", f"--fuel={AMPLE}")
        for fuel in self.little(place):
            for command in ("run --mode=serial --dump", f"run {OTHERS[(place + fuel) % len(OTHERS)]}", "trace", "audit", "span"):
                self.same_call(file, *command.split(), f"--fuel={fuel}")

    def same_call(self, file, *words):
        self.same(file.name, words, self.call(*words, str(file)), self.caller.call(self.other, (*words, str(file))))

    def folder(self, folder):
        """Compares each file of a folder, and gives the status."""
        for place, file in enumerate(sorted(folder.glob("*.c"))):
            self.files += 1
            try:
                if self.other:
                    self.with_other(place, file)
                else:
                    self.with_interpreter(place, file)
            except TooLong:
                self.left_out += 1
        known = "" if self.other else f"{self.faults} with a fault, "
        print(f"{self.files} programs, {known}{self.left_out} too long to compare whole; {self.caller.count} calls, {self.differences} differences")
        return 1 if self.differences else 0


def main(words):
    paths = [word for word in words if word != "--all-fuels"]
    if len(paths) not in (2, 3):
        sys.exit("usage: compare.py PROGRAM FOLDER [OTHER] [--all-fuels]")
    other = os.path.abspath(paths[2]) if paths[2:] else None
    # (a handler of signals is set in the main thread)
    comparison = Comparison(os.path.abspath(paths[0]), other, len(paths) != len(words))
    ends = []
    deeply(lambda: ends.append(comparison.folder(pathlib.Path(paths[1]).resolve())))
    return ends[0] if ends else 70


if __name__ == "__main__":
    sys.exit(main(sys.argv[1:]))
