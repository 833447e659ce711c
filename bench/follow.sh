#!/bin/sh
# Times what follows a sequential run of the built program, or of PROGRAM where one is handed over: audits and longest chains. It prints a table: the time of the run in the mode serial, that of the
# audit and of the span, their ratios to the run, and how each grows with twice the tasks: a chain of tasks on one cell, tasks on cells of their own, these with one reader of all, and main's own tasks
# with children. It wants `python3` for the clock.
# usage: follow.sh [PROGRAM]
# shellcheck source=bench/built.sh
. "$(dirname -- "$0")/built.sh"

for times in 1 2; do
  chain_source $((times * 20000)) >"chain_$times.c"
  apart_source $((times * 20000)) 40000 >"apart_$times.c"
  sed 's/^}$/#pragma oss task in(x)\n  ;\n}/' "apart_$times.c" >"wide_$times.c"
  weak_source $((times * 1000)) >"weak_$times.c"
done
apart_source 60000 60000 >many_1.c
cp many_1.c many_2.c

# row WHAT NAME: NAME_1.c in the mode serial, its audit and its span, and the audit and the span of NAME_2.c, with twice the tasks
row() {
  serial=$(timed "$program" run "$2_1.c" --mode=serial)
  audit=$(timed "$program" audit "$2_1.c")
  span=$(timed "$program" span "$2_1.c")
  audits=$(timed "$program" audit "$2_2.c")
  spans=$(timed "$program" span "$2_2.c")
  echo "$1 | $serial s | $audit s | $span s | $(ratio "$audit" "$serial") | $(ratio "$span" "$serial") | $(ratio "$audits" "$audit") | $(ratio "$spans" "$span")"
}

echo 'what | serial | audit | span | audit to serial | span to serial | audit of twice the tasks | span of twice the tasks'
row 'a chain of 20,000 tasks on one cell' chain
row '20,000 tasks on cells of their own' apart
row '20,000 tasks on cells of their own, and one that reads them all' wide
row '1,000 weak tasks with 20 children each' weak
row '60,000 tasks on cells of their own; the last two columns are of as many' many
