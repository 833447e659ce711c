#!/bin/sh
# Refuses memory to the program, one piece at a time: each time it is to end with its own answer, or with the status 6 and nothing on either output. It tries the programs
# of tests/refused/, one for each kind of statement and of clause, and those of examples/, in each mode and over each dependency system, and the other commands. In each
# row, and so in each mode, the status 6 has to come at least once. A row is a call: how many pieces it asks for, and how it ended with one of them refused.
# The last line counts the rows; the status is 0 only where none failed. `tests/refused.sh PROGRAM` tries another program than the one of this repository, and
# `tests/refused.sh PROGRAM PART..` these parts alone: a part is a program, by its name without `.c`, or one of `commands`, `replays` and `soaks`.
# It needs a C compiler. A call that makes no thread is copied at each piece (tests/refused/refuse.c). One that makes threads and asks for N pieces is made N times, as many at once as there are processors, which takes most of
# the time; tests/run.sh calls this script if its first word is --all.
top=$(CDPATH='' cd -- "$(dirname -- "$0")/.." && pwd) || exit 1
program=${1:-$top/crates/nest6/out/nest6}
[ $# = 0 ] || shift
case $program in
  /*) ;;
  *) program=$PWD/$program ;;
esac
command -v cc >/dev/null 2>&1 || {
  echo 'no C compiler: memory was refused to no call'
  echo '0 passed, 0 failed'
  exit 0
}
[ -x "$program" ] || {
  echo "refused.sh: there is no program $program" >&2
  exit 2
}

# programs: the names of all that are tried
programs() {
  for file in "$top"/tests/refused/*.c "$top"/examples/*.c; do
    name=$(basename -- "$file" .c)
    case $name in
      refuse | each) ;;
      *) echo "$name" ;;
    esac
  done
}

# parts: all that may be named
parts() {
  programs
  printf '%s\n' commands replays soaks
}

for part in "$@"; do
  parts | grep -qx -- "$part" || {
    echo "refused.sh: there is no part $part" >&2
    exit 2
  }
done
asked=" $* "

# is_asked PART: whether it is to be tried, as each is where none is named
is_asked() {
  case $asked in
    '  ' | *" $1 "*) true ;;
    *) false ;;
  esac
}

work=$(mktemp -d) || exit 1
trap 'rm -rf "$work"' EXIT
cc -O1 -Wall -Wextra -fPIC -shared -o "$work/refuse.so" "$top/tests/refused/refuse.c" -ldl || exit 1
cc -O1 -Wall -Wextra -o "$work/each" "$top/tests/refused/each.c" || exit 1
cp "$top"/tests/refused/*.c "$top"/examples/*.c "$top"/examples/*.schedule "$work/" || exit 1
cd "$work" || exit 1
passed=0
failed=0

# row WORD..: a call with these words
row() {
  if told=$(./each "$work/refuse.so" "$program" "$@"); then
    passed=$((passed + 1))
    echo "$*: $told"
  else
    failed=$((failed + 1))
    echo "failed: $*: $told"
  fi
}

for name in $(programs); do
  is_asked "$name" || continue
  row run "$name.c" --mode=serial
  for deps in regions plain words; do
    row run "$name.c" "--deps=$deps" --workers=1
  done
  row run "$name.c" --mode=workers --workers=1
done
if is_asked commands; then
  for name in statements clauses releases fault fork; do
    row check "$name.c"
    row trace "$name.c"
    row span "$name.c"
    row audit "$name.c"
    row explain "$name.c"
    row graph "$name.c"
    row missing "$name.c"
    row run "$name.c" --dump
  done
fi
if is_asked replays; then
  for file in *.schedule; do
    row replay "$(basename -- "$file" .schedule).c" "$file"
  done
fi
if is_asked soaks; then
  row soak 7 9
  row soak 7 9 --mode=serial
fi
# (these make threads, and take most of the time: task_fibonacci alone asks for 60,000 pieces)
for name in $(programs); do
  is_asked "$name" && row run "$name.c" --workers=4
done
echo "$passed passed, $failed failed"
[ "$failed" = 0 ]
