#!/bin/sh
# Counts what runs cost by the present sources, before anything is proved: it strips the contracts from the crates, compiles what is left over a stand-in
# for the library of the kit (bench/port), which takes seconds, and prints a table: the instructions of a turn, a cell, a call and a task of sequential runs,
# of a task by waves over regions with one worker, and of one by one worker with priorities, each as the difference of a run with a piece of work and one with twice that piece, divided by the
# work. The programs are those of instructions.sh and programs.sh, with a tenth of the work. With the name of a row it prints after the table what
# the instructions of that row are spent on, by function of the sources.
# It wants `rustc`, `python3` and `valgrind`, and proves nothing.
# usage: port.sh [turns|array|cells|calls|tasks|lent|nested|chain|apart|ranked]
top=$(CDPATH='' cd -- "$(dirname -- "$0")/.." && pwd) || exit 1
asked=${1:-}
case $asked in
  '' | turns | array | cells | calls | tasks | lent | nested | chain | apart | ranked) ;;
  *)
    echo "port.sh: no row is named $asked" >&2
    exit 1
    ;;
esac
work=$(mktemp -d) || exit 1
trap 'rm -rf "$work"' EXIT
cd "$work" || exit 1
# shellcheck source=bench/sources.sh
. "$top/bench/sources.sh"

python3 "$top/bench/port/strip.py" "$top" port oss_parse oss_names oss_lower oss_serial oss_regions oss_waves oss_prior || exit 1
# In many units, as rustc does unless told otherwise: in one unit it puts more functions into others in place than the kit does, so that a turn costs
# a fifth less.
rustc --edition 2021 -C opt-level=3 -C debuginfo=1 -o port/program port/src/main.rs || exit 1

growth_sources 10
for times in 1 2; do
  mv "ticks_$times.c" "turns_$times.c"
  array_source long %ld $((times * 30)) >"array_$times.c"
  # the calls of the next Fibonacci number: more, but not twice as many
  calls_source $((19 + times)) >"calls_$times.c"
  chain_source $((times * 2000)) >"chain_$times.c"
  apart_source $((times * 2000)) 4000 >"apart_$times.c"
  ranked_source $((times * 2000)) >"ranked_$times.c"
done

# counted MODE NAME: the instructions of the run of NAME.c; the file NAME.counted tells what they are spent on
counted() {
  valgrind --tool=callgrind --callgrind-out-file="$2.counted" port/program "$1" "$2.c" 2>&1 >/dev/null | sed -n 's/.*Collected : \([0-9]*\).*/\1/p'
}

# row WHAT MODE NAME UNITS: the instructions of one of so many units of work by which NAME_2.c does more than NAME_1.c
row() {
  once=$(counted "$2" "$3_1")
  twice=$(counted "$2" "$3_2")
  echo "$1 | $(((twice - once) / $4))"
  [ "$3" != "$asked" ] || units=$4
}

echo 'what | instructions'
row 'a turn of a loop over locals' serial turns 30000
row 'a turn of a loop over an array' serial array 30000
row 'a cell of an array, written once' serial cells 20000
row 'a call of a function' serial calls 13530
row 'a task of one creator' serial tasks 3000
row 'a task on a lent cell of its own' serial lent 3000
row 'a nested task' serial nested 2550
row 'by waves, a task of a chain on one cell' waves chain 2000
row 'by waves, a task on a cell of its own' waves apart 2000
row 'by one worker with priorities, a task on a cell of its own' worker ranked 2000
[ -z "$asked" ] || python3 "$top/bench/port/by_function.py" "$work/port/src" "${asked}_1.counted" "${asked}_2.counted" "$units"
