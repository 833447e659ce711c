#!/bin/sh
# Little memory, small stacks, few files, no threads, outputs that take nothing, and a reader that goes away: as a user meets them. Each program of examples/ is run with so little
# memory, and with so small a stack. Each call ends with its own answer, or with status 6 and nothing on either output, and never by a signal. A run that is out of
# memory on several threads is made anew on one, for which some is kept back: so it fails if a call on four threads ends with status 6 although one worker has the memory
# that it needs.
# The last line counts the calls; the status is 0 only if none failed. `tests/little.sh PROGRAM` tries another program than the one of this repository.
top=$(CDPATH='' cd -- "$(dirname -- "$0")/.." && pwd) || exit 1
program=${1:-$top/crates/nest6/out/nest6}
case $program in
  /*) ;;
  *) program=$PWD/$program ;;
esac
[ -x "$program" ] || {
  echo "little.sh: there is no program $program" >&2
  exit 2
}
work=$(mktemp -d) || exit 1
trap 'rm -rf "$work"' EXIT
cp "$top"/examples/*.c "$work/" || exit 1
cd "$work" || exit 1
passed=0
failed=0

# tell WHETHER WHAT: counts a call
tell() {
  if [ "$1" = 0 ]; then
    passed=$((passed + 1))
  else
    failed=$((failed + 1))
    echo "failed: $2"
  fi
}

# is STATUS OUTPUT ERROR: whether the last call had this status and wrote what these files have
is() {
  [ "$status" = "$1" ] && cmp -s out "$2" && cmp -s err "$3"
}

# within WORDS LIMIT..: a call with these words under these limits of `ulimit`
within() {
  words=$1
  shift
  (
    while [ $# != 0 ]; do
      ulimit "$1" "$2" || exit 99
      shift 2
    done
    # (the words are to be parted)
    # shellcheck disable=SC2086
    exec "$program" $words
  ) >out 2>err
  status=$?
}

: >nothing
for file in *.c; do
  "$program" run "$file" --mode=serial >own.out 2>own.err
  own=$?
  # KiB of memory
  for size in 4000 6000 8000 12000 16000 20000 24000 28000 32000 64000; do
    within "run $file --mode=serial" -v "$size"
    is "$own" own.out own.err || is 6 nothing nothing
    tell $? "run $file --mode=serial with $size KiB of memory: status $status"
    within "run $file --workers=1" -v "$size"
    is 6 nothing nothing
    wanting=$?
    within "run $file --workers=4" -v "$size"
    is "$own" own.out own.err || { is 6 nothing nothing && [ "$wanting" = 0 ]; }
    tell $? "run $file --workers=4 with $size KiB of memory: status $status"
  done
  # KiB of stack
  for size in 64 128 1000; do
    within "run $file" -s "$size"
    is "$own" own.out own.err || is 6 nothing nothing
    tell $? "run $file with $size KiB of stack: status $status"
  done
done

# The file that is read takes the one place that is left, or there is none.
echo 42 >answer
within 'run fork.c' -n 4
is 0 answer nothing
tell $? "a run with four open files: status $status"
# (the outputs and the input are left open, and no other; the program is started before)
"$program" run fork.c <&- >out 2>err
status=$?
is 0 answer nothing
tell $? "a run without an input: status $status"

# outputs that are closed, or full
echo 'fault: NoRight at line 11' >fault
"$program" run fork.c >&- 2>err
status=$?
: >out
is 5 nothing nothing
tell $? "a closed output: status $status"
"$program" run fork.c >out 2>&-
status=$?
: >err
is 0 answer nothing
tell $? "a closed error output that nothing is written to: status $status"
"$program" run fork_wrong.c >out 2>&-
status=$?
: >err
is 5 nothing nothing
tell $? "a closed error output: status $status"
if [ -c /dev/full ]; then
  "$program" run fork.c >/dev/full 2>err
  status=$?
  : >out
  is 5 nothing nothing
  tell $? "a full disk: status $status"
fi

# A reader that goes away after one line: the output cannot be written whole.
printf '%s\n' 'int main() { for (long i = 0; i < 100000; i++) printf("%ld\n", i); }' >many.c
echo 0 >first
{
  "$program" run many.c 2>err
  echo "$?" >ended
} | sed 1q >out
status=$(cat ended)
is 5 first nothing
tell $? "a reader that goes away: status $status"

# No thread can be made: a user who may have no more of them. A run by waves then makes all parts on one. A user who may do anything has no such limit, so he calls
# the program as nobody.
as_nobody() {
  if [ "$(id -u)" = 0 ]; then
    setpriv --reuid=65534 --regid=65534 --clear-groups prlimit --nproc=1 "$@"
  else
    prlimit --nproc=1 "$@"
  fi
}
if command -v setpriv >/dev/null && command -v prlimit >/dev/null; then
  chmod 755 "$work"
  cp "$program" "$work/nest6"
  for file in *.c; do
    "$program" run "$file" --mode=serial >own.out 2>own.err
    own=$?
    as_nobody ./nest6 run "$file" --workers=4 >out 2>err
    status=$?
    is "$own" own.out own.err
    tell $? "run $file --workers=4 without threads: status $status"
  done
else
  echo 'little.sh: setpriv and prlimit are not there, so nothing was tried without threads'
fi

echo "$passed passed, $failed failed"
[ "$failed" = 0 ]
