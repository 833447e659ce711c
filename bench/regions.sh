#!/bin/sh
# Times runs by waves of the built program, or of PROGRAM where one is handed over, over regions and over the plain lists, and prints a table: the time over regions, that over the plain lists and their ratio, and how
# the time over regions grows with twice the tasks: a chain of tasks on one cell, tasks on cells of their own, tasks on ranges of 64 cells at random, weak tasks with children, cuts of an array behind tasks on the whole of it that are done, and generated programs.
# It wants `python3` for the clock.
# usage: regions.sh [PROGRAM]
# shellcheck source=bench/built.sh
. "$(dirname -- "$0")/built.sh"

dependency_sources
cuts_source 2000 >cuts_1.c
cuts_source 4000 >cuts_2.c

# row WHAT NAME: NAME_1.c over regions and over the plain lists, and NAME_2.c, with twice the tasks, over regions
row() {
  regions=$(timed "$program" run "$2_1.c")
  plain=$(timed "$program" run "$2_1.c" --deps=plain)
  twice=$(timed "$program" run "$2_2.c")
  echo "$1 | $regions s | $plain s | $(ratio "$regions" "$plain") | $(ratio "$twice" "$regions")"
}

echo 'what | regions | plain | ratio | twice the tasks'
dependency_rows
row '2,000 tasks on one cell of an array each, after 2,000 on the whole of it that are done' cuts
half=$(timed "$program" soak 7 4500)
whole=$(timed "$program" soak 7 9000)
echo "soak 7 9000 | $whole s | not taken | | $(ratio "$whole" "$half")"
