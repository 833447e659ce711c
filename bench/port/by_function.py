"""Tells what the instructions of a unit of work are spent on, by the function of the sources in which each stands.

usage: by_function.py FOLDER ONCE TWICE UNITS

ONCE and TWICE are files that callgrind wrote of one program with a piece of work and with twice that piece, which has so many UNITS; their
difference is told, so that reading and lowering of the program are not. FOLDER has the sources. Code that was put into another function in place
counts for the function in whose text it stands.
"""

import collections
import functools
import pathlib
import re
import sys

# How many functions are told, and what a function must cost to be told, in instructions a unit.
MOST_ROWS = 60
LEAST_COST = 0.5

# `fl=(7) path` begins a function's file, `fi` and `fe` change it within the function; the path stands where the number is new.
FILE_LINE = re.compile(r"(?:fl|fi|fe)=\((\d+)\)(?: (.*))?$")
# `fn=(7) name` begins a function of the compiled program.
FUNCTION_LINE = re.compile(r"fn=\((\d+)\)(?: (.*))?$")
# The same of a function that is called, and of its file.
CALLED_LINE = re.compile(r"c(fn|fi|fl)=\((\d+)\)(?: (.*))?$")
# A line of the source, as a number, as a step from the last one or as the same again, and its cost.
COST_LINE = re.compile(r"([+-]?\d+|\*) (\d+)$")

SOURCE_FUNCTION = re.compile(r"\bfn (\w+)")


def costs(path):
    """The cost of each line that callgrind tells of, by its file, its number and the function of the compiled program."""
    files, functions, found = {}, {}, collections.Counter()
    file = function = None
    line_number = 0
    is_behind_call = False
    with open(path) as told:
        for line in told:
            if named := FILE_LINE.match(line):
                file = files.setdefault(named.group(1), named.group(2))
            elif named := FUNCTION_LINE.match(line):
                function = functions.setdefault(named.group(1), named.group(2))
            elif named := CALLED_LINE.match(line):
                known = functions if named.group(1) == "fn" else files
                known.setdefault(named.group(2), named.group(3))
            elif line.startswith("calls="):
                is_behind_call = True
            elif cost := COST_LINE.match(line):
                place = cost.group(1)
                if place[0] in "+-":
                    line_number += int(place)
                elif place != "*":
                    line_number = int(place)
                # the line behind a call tells what the called function cost, which its own lines tell too
                if not is_behind_call:
                    found[file, line_number, function] += int(cost.group(2))
                is_behind_call = False
    return found


@functools.cache
def function_heads(path):
    """The lines of a source on which a function begins, with its name."""
    heads = []
    for number, line in enumerate(path.read_text().splitlines(), 1):
        if named := SOURCE_FUNCTION.search(line):
            heads.append((number, named.group(1)))
    return heads


def told_as(folder, file, line_number, function):
    """The name under which a line's cost is told."""
    path = pathlib.Path(file or "?")
    if path.is_relative_to(folder):
        name = "above its functions"
        for number, head in function_heads(path):
            if number > line_number:
                break
            name = head
        return f"{path.relative_to(folder)}: {name}"
    if path.suffix == ".rs":
        # most files of Rust's library are told apart by the folder in which they stand
        return "Rust's library: " + "/".join(path.parts[-2:])
    # memory is taken, given back and copied by functions of the C library; one that calls itself is told with the depth behind an apostrophe
    return "library: " + (function or "?").partition("'")[0]


def main():
    folder, once, twice, units = sys.argv[1:]
    folder = pathlib.Path(folder)
    spent = costs(twice)
    spent.subtract(costs(once))
    by_name = collections.Counter()
    for (file, line_number, function), cost in spent.items():
        by_name[told_as(folder, file, line_number, function)] += cost / int(units)
    whole = sum(by_name.values())
    print("instructions | share | function")
    print(f"{whole:,.0f} | 100% | all")
    for name, cost in by_name.most_common(MOST_ROWS):
        if cost >= LEAST_COST:
            print(f"{cost:,.0f} | {cost / whole:.1%} | {name}")


if __name__ == "__main__":
    main()
