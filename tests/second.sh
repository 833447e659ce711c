#!/bin/sh
# Compares a program with the second interpreter of tests/second on random programs: COUNT whole programs with tasks, from the number START on, about three
# sevenths as many programs of examples/ and tests/cases with some tokens changed, and an eleventh as many of expressions alone. It is called by hand, and
# needs python3. The same numbers give the same programs. The last line of each kind counts; the status is 0 only where nothing differs.
# usage: tests/second.sh PROGRAM [START COUNT]
[ "$#" = 1 ] || [ "$#" = 3 ] || {
  echo 'usage: tests/second.sh PROGRAM [START COUNT]' >&2
  exit 2
}
second=$(CDPATH='' cd -- "$(dirname -- "$0")/second" && pwd) || exit 1
start=${2:-1}
count=${3:-700}
work=$(mktemp -d) || exit 1
trap 'rm -rf "$work"' EXIT
status=0

# compare KIND COUNT
compare() {
  python3 -B "$second/generator.py" "$start" "$2" "$work/$1" "$1" || exit 1
  python3 -B "$second/compare.py" "$program" "$work/$1" >"$work/told" || status=1
  sed '$d' "$work/told"
  printf '%s: %s\n' "$1" "$(tail -n 1 "$work/told")"
}

program=$1
compare whole "$count"
compare changed $((count * 3 / 7))
compare expressions $((count / 11))
exit "$status"
