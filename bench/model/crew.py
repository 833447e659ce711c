#!/usr/bin/env python3
"""Goes through all states of a small crew (crates/oss_crew): how workers take numbers, lie down, are woken and go home.

Each worker goes by single steps, as in `next`, `announce` and `work` of the crate, and any worker may go next. A number that is worked on may make others ready, so many
in all. A row tells how many states there are, and in how many of them

- nobody can go on and somebody is not home (stuck);
- everybody is sent home while a number is queued or in hand (early);
- a number is queued, a worker sleeps, nobody is about to wake it, and all others are at work (lazy).

The first four rows are the crate's way. The others leave a part of it out, and show what the part is for.

usage: bench/model/crew.py
"""

from collections import deque
from typing import NamedTuple


class State(NamedTuple):
    queued: int
    left: int  # numbers that are queued or in hand
    to_come: int  # numbers that may still become ready
    closed: bool
    asleep: int
    sleeps: tuple  # of each worker whether it sleeps, or is about to
    tokens: tuple  # of each parker whether it has its token
    at: tuple  # of each worker where it is


def put(values, worker, value):
    """The same values with another for this worker."""
    return values[:worker] + (value,) + values[worker + 1 :]


def steps(state, worker, looks_twice, passes_on):
    """The states to which a step of this worker leads."""
    at = state.at[worker]
    name, argument = at if isinstance(at, tuple) else (at, None)

    def go(place, **changes):
        return state._replace(at=put(state.at, worker, place), **changes)

    if name == "top":
        return [go("home" if state.closed else "first look")]
    if name in ("first look", "second look"):
        if state.queued > 0:
            return [go("work" if name == "first look" else ("get up", True), queued=state.queued - 1)]
        return [go("lie down" if name == "first look" else "park or not")]
    if name == "lie down":
        return [go("counted asleep", sleeps=put(state.sleeps, worker, True))]
    if name == "counted asleep":
        return [go("second look" if looks_twice else "park or not", asleep=state.asleep + 1)]
    if name == "park or not":
        return [go(("get up", False) if state.closed else "parked")]
    if name == "parked":
        return [go(("get up", False), tokens=put(state.tokens, worker, False))] if state.tokens[worker] else []
    if name == "get up":
        found = argument
        if state.sleeps[worker]:
            return [go(("counted awake", found), sleeps=put(state.sleeps, worker, False))]
        return [go("top" if not found else "wake one" if passes_on else "work")]
    if name == "counted awake":
        return [go("work" if argument else "top", asleep=state.asleep - 1)]
    if name == "work":
        more = [go("push", to_come=state.to_come - 1, left=state.left + 1)] if state.to_come > 0 else []
        return [go("done"), *more]
    if name == "push":
        return [go("wake one", queued=state.queued + 1)]
    if name == "wake one":
        return [go("work" if state.asleep == 0 else ("look for a sleeper", 0))]
    if name == "look for a sleeper":
        other = argument
        if other == len(state.at):
            return [go("work")]
        if state.sleeps[other]:
            return [go(("wake", other), sleeps=put(state.sleeps, other, False))]
        return [go(("look for a sleeper", other + 1))]
    if name == "wake":
        return [go("work", asleep=state.asleep - 1, tokens=put(state.tokens, argument, True))]
    if name == "done":
        last = state.left == 1
        return [go("ring" if last else "top", left=state.left - 1, closed=state.closed or last)]
    if name == "ring":
        return [go("top", tokens=(True,) * len(state.at))]
    return []


def is_lazy(state):
    """A number is queued and a worker sleeps for good, while the others work."""
    for_good = [at == "parked" and not token for at, token in zip(state.at, state.tokens)]
    return state.queued > 0 and any(for_good) and all(rests or at == "work" for rests, at in zip(for_good, state.at))


def explore(workers, numbers, looks_twice=True, passes_on=True):
    """How many states there are, and how many are stuck, early and lazy."""
    start = State(1, 1, numbers - 1, False, 0, (False,) * workers, (False,) * workers, ("top",) * workers)
    seen = {start}
    todo = deque([start])
    stuck = early = lazy = 0
    while todo:
        state = todo.popleft()
        ahead = [after for worker in range(workers) for after in steps(state, worker, looks_twice, passes_on)]
        stuck += not ahead and any(at != "home" for at in state.at)
        early += state.closed and (state.queued > 0 or "work" in state.at)
        lazy += is_lazy(state)
        for after in ahead:
            if after not in seen:
                seen.add(after)
                todo.append(after)
    return len(seen), stuck, early, lazy


def row(what, workers, numbers, **parts):
    states, stuck, early, lazy = explore(workers, numbers, **parts)
    print(f"{what}, {workers} workers, {numbers} numbers: {states} states, {stuck} stuck, {early} early, {lazy} lazy")


row("as it is", 1, 4)
row("as it is", 2, 4)
row("as it is", 3, 3)
row("as it is", 3, 4)
row("without a second look", 2, 4, looks_twice=False)
row("without a wake that is passed on", 3, 3, passes_on=False)
row("without a wake that is passed on", 3, 4, passes_on=False)
