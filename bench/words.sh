#!/bin/sh
# Times runs by waves of the built program, or of PROGRAM where one is handed over, over words and over regions, and prints a table: the time over words, that over regions and their ratio, and how
# the time over words grows with twice the tasks: a chain of tasks on one cell, tasks on cells of their own, tasks on ranges of 64 cells at random, weak tasks with children, and generated programs.
# It wants `python3` for the clock.
# usage: words.sh [PROGRAM]
# shellcheck source=bench/built.sh
. "$(dirname -- "$0")/built.sh"

dependency_sources

# row WHAT NAME: NAME_1.c over words and over regions, and NAME_2.c, with twice the tasks, over words
row() {
  words=$(timed "$program" run "$2_1.c" --deps=words)
  regions=$(timed "$program" run "$2_1.c" --deps=regions)
  twice=$(timed "$program" run "$2_2.c" --deps=words)
  echo "$1 | $words s | $regions s | $(ratio "$words" "$regions") | $(ratio "$twice" "$words")"
}

echo 'what | words | regions | ratio | twice the tasks'
dependency_rows
half=$(timed "$program" soak 7 4500 --deps=words)
whole=$(timed "$program" soak 7 9000 --deps=words)
regions=$(timed "$program" soak 7 9000 --deps=regions)
echo "soak 7 9000 | $whole s | $regions s | $(ratio "$whole" "$regions") | $(ratio "$whole" "$half")"
