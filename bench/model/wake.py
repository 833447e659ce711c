#!/usr/bin/env python3
"""Goes through all states in which a number waits for others, which is the business of whoever uses a crew (crates/oss_crew).

A job waits for flags, which others set. A worker that has the job in hand and finds a flag missing puts the job back, notes in the job's hint that it waits, and looks at
the flags again; if all are there and it takes the hint away, it queues the job's number. Whoever sets a flag takes the hint away, if it is there, and queues the number. A
row tells how many states there are, and in how many of them the job is lost: nobody can go on, and it is not done.

usage: bench/model/wake.py
"""

from collections import deque
from typing import NamedTuple


class State(NamedTuple):
    is_back: bool  # the job is put back
    hint: bool
    flags: tuple
    queued: int
    done: bool
    setters: tuple  # of each flag's setter how many of its two steps it has made
    workers: tuple  # of each worker where it is


def put(values, place, value):
    """The same values with another at this place."""
    return values[:place] + (value,) + values[place + 1 :]


def set_steps(state, flag, at_each):
    """The steps of whoever sets this flag: it sets it, and then looks at the hint, after the last flag alone or after each."""
    if state.setters[flag] == 0:
        return [state._replace(flags=put(state.flags, flag, True), setters=put(state.setters, flag, 1))]
    if state.setters[flag] == 1:
        after = state._replace(setters=put(state.setters, flag, 2))
        if at_each or all(state.flags):
            after = after._replace(hint=False, queued=state.queued + state.hint)
        return [after]
    return []


def work_steps(state, worker, order, looks_again):
    """The steps of a worker, which waits in this order."""
    at = state.workers[worker]

    def go(place, **changes):
        return [state._replace(workers=put(state.workers, worker, place), **changes)]

    if at == "has the job":
        return go("end", done=True) if all(state.flags) else go(order[0])
    if at in order:
        rest = order[order.index(at) + 1 :]
        ahead = rest[0] if rest else "look again" if looks_again else "idle"
        return go(ahead, is_back=True) if at == "put back" else go(ahead, hint=True)
    if at == "look again":
        return go("take the hint" if all(state.flags) else "idle")
    if at == "take the hint":
        return go("idle", hint=False, queued=state.queued + state.hint)
    if at == "idle":
        return go("take the job", queued=state.queued - 1) if state.queued > 0 else []
    if at == "take the job":
        return go("has the job", is_back=False) if state.is_back else go("idle")
    return go("idle") if at == "end" else []


def explore(order, workers, flags, looks_again=True, at_each=True):
    """How many states there are, and in how many the job is lost."""
    start = State(False, False, (False,) * flags, 0, False, (0,) * flags, ("has the job",) + ("idle",) * (workers - 1))
    seen = {start}
    todo = deque([start])
    lost = 0
    while todo:
        state = todo.popleft()
        ahead = [after for flag in range(flags) for after in set_steps(state, flag, at_each)]
        ahead += [after for worker in range(workers) for after in work_steps(state, worker, order, looks_again)]
        lost += not ahead and not state.done
        for after in ahead:
            if after not in seen:
                seen.add(after)
                todo.append(after)
    return len(seen), lost


def row(what, order, workers=2, flags=2, **parts):
    states, lost = explore(order, workers, flags, **parts)
    print(f"{what}, {workers} workers, {flags} flags: {states} states, {lost} in which the job is lost")


row("put back, hint, look again", ("put back", "hint"))
row("put back, hint, look again", ("put back", "hint"), workers=3, flags=3)
row("the same, woken after the last flag alone", ("put back", "hint"), workers=3, flags=3, at_each=False)
row("without a second look", ("put back", "hint"), looks_again=False)
row("hint, put back, look again", ("hint", "put back"))
