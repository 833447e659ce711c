#!/bin/sh
# Mends wrong programs by the lines of `nest6 missing` alone, and looks at what comes of that. `tests/mended.sh PROGRAM` calls another program than the one of this
# repository.
#
# In tests/mended/, right/NAME.c is a program, and right/NAME.out its output; wrong/NAME_MISTAKE.c is the same program with one mistake. Most are mistakes of clauses
# and waits; the others are such as users make beside them. tests/mended/mend.py adds what the lines ask for, by rules that its head tells. It does this once.
# A program is mended if its run has no fault and the output of the right program, and if `missing` says then that nothing is missing. Its verdict in tests/mended/table is
#   mended                        where the longest chain of its tasks is no longer than that of the right program
#   mended, with a longer chain   where it is: the pragma takes what each of its tasks lacks, so each waits for more than by a clause that a person writes, or a sum
#                                 that is read is no reduction any more
#   not mended: TEXT              where something is wrong after the one turn; TEXT goes on with what a second turn does
#   refused: KIND at line N       where it is no program of the language
#   fault: KIND at line N         where it has a fault that no clause mends. wrong/NAME_MISTAKE.missing are the lines until then, where there are some
#
# Each program has a line, with its verdict. The last line counts; the status is 0 only where each verdict is the one of the table. It needs python3, and says so
# if that is not there.
top=$(CDPATH='' cd -- "$(dirname -- "$0")/.." && pwd) || exit 1
program=${1:-$top/crates/nest6/out/nest6}
case $program in
  /*) ;;
  *) program=$PWD/$program ;;
esac
command -v python3 >/dev/null 2>&1 || {
  echo 'python3 is not there: no wrong program is mended'
  echo '0 mended, 0 not mended, 0 refused, 0 with another fault, 0 failed'
  exit 0
}
work=$(mktemp -d) || exit 1
trap 'rm -rf "$work"' EXIT
cd "$top/tests/mended" || exit 1
: >"$work/nothing"
echo 'nothing is missing' >"$work/all_there"

# ask COMMAND: what the program says of $work/p.c, in $work/out and $work/err
ask() { "$program" "$1" "$work/p.c" >"$work/out" 2>"$work/err" </dev/null; }

# mend: one turn of $work/p.c; where that fails, the reason is left in $work/why
mend() {
  ask missing || {
    cp "$work/err" "$work/why"
    return 1
  }
  python3 -B mend.py "$work/p.c" "$work/out" >"$work/mended" 2>"$work/why" || return 1
  mv "$work/mended" "$work/p.c"
}

# said FILE..: the first line of these, or that there is none
said() { cat "$@" | head -n 1 | grep . || echo 'no answer'; }

# fault NAME: what is wrong with $work/p.c, beside the right program of this name
fault() {
  if ! ask run; then
    said "$work/err"
  elif ! cmp -s "$work/out" "right/$1.out"; then
    echo 'another output'
  elif ! ask missing || ! cmp -s "$work/out" "$work/all_there"; then
    said "$work/err" "$work/out"
  fi
}

# chain FILE: the ticks of a longest chain
chain() { "$program" span "$1" 2>&1 </dev/null | sed -n '2s/^[a-z]* //p'; }

# verdict NAME RIGHT
verdict() {
  cp "wrong/$1.c" "$work/p.c"
  mend || {
    lines=wrong/$1.missing
    [ -e "$lines" ] || lines=$work/nothing
    cmp -s "$work/out" "$lines" || echo 'other lines; '
    said "$work/why"
    return
  }
  reason=$(fault "$2")
  if [ -n "$reason" ]; then
    echo "not mended: $reason"
    if mend && [ -z "$(fault "$2")" ]; then echo '; mended in a second turn'; fi
  elif [ "$(chain "$work/p.c")" -le "$(chain "right/$2.c")" ]; then
    echo 'mended'
  else
    echo 'mended, with a longer chain'
  fi
}

mended=0 longer=0 left=0 refused=0 others=0 failed=0
fail() {
  failed=$((failed + 1))
  echo "failed: $1"
}

for file in right/*.c; do
  name=$(basename "$file" .c)
  cp "$file" "$work/p.c"
  reason=$(fault "$name")
  [ -z "$reason" ] || fail "the right program $name: $reason"
done

for file in wrong/*.c; do
  name=$(basename "$file" .c)
  found=$(verdict "$name" "${name%%_*}" | tr -d '\n')
  wanted=$(sed -n "s/^$name: //p" table)
  [ "$found" = "$wanted" ] || {
    fail "$name: $found; wanted is: $wanted"
    continue
  }
  echo "$name: $found"
  case $found in
    mended) mended=$((mended + 1)) ;;
    mended,*) mended=$((mended + 1)) longer=$((longer + 1)) ;;
    'not mended:'*) left=$((left + 1)) ;;
    refused:*) refused=$((refused + 1)) ;;
    *) others=$((others + 1)) ;;
  esac
done
while IFS=: read -r name _; do
  [ -e "wrong/$name.c" ] || fail "there is no program $name"
done <table

echo "of those that are mended, $longer have a longer chain than the right program"
echo "$mended mended, $left not mended, $refused refused, $others with another fault, $failed failed"
[ "$failed" = 0 ]
