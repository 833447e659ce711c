#!/bin/sh
# Tries the rows of the tables of docs/LANGUAGE.md, docs/COMMANDS.md and docs/PORTING.md: it makes the program or the call that a row shows, calls the built program with
# it, and compares what the row says of it. Rows of docs/PORTING.md name cases of tests/cases, which tests/run.sh runs: of these it is looked at whether they are the
# texts of their rows. `tests/tables.sh PROGRAM` calls another program than the one of this repository.
#
# What is tried of which table stands in tests/tables.awk, which makes the tries. A table with a header that is not known there fails, and so does a row that it cannot
# try and that is not listed there with the reason. Each row that fails has its file and line; the last lines count; the status is 0 only where nothing failed.
top=$(CDPATH='' cd -- "$(dirname -- "$0")/.." && pwd) || exit 1
program=${1:-$top/crates/nest6/out/nest6}
case $program in
  /*) ;;
  *) program=$PWD/$program ;;
esac
work=$(mktemp -d) || exit 1
trap 'rm -rf "$work"' EXIT
mkdir "$work/tries" "$work/case" || exit 1

cd "$top" || exit 1
usage=$(sed -n '/^usage: nest6 /p' docs/COMMANDS.md)
kinds=$(sed -n 's/^err: [a-z]*: \([A-Za-z]*\) at line .*/\1/p' tests/cases/*/*.case | sort -u | tr '\n' ' ')
porting=$(for file in tests/cases/porting/*.case; do basename "$file" .case; done | tr '\n' ' ')
awk -v folder="$work/tries" -v usage="$usage" -v kinds_of_cases="$kinds" -v porting_cases="$porting" \
  -f tests/tables.awk docs/LANGUAGE.md docs/COMMANDS.md docs/PORTING.md >"$work/made" || exit 1
sed -n 's/^wrong /failed: /p' "$work/made"
failed=$(grep -c '^wrong ' "$work/made")

# leaves the program of a try in p.c, and what is said of it in `row`, `shows`, `words` and `status`; in the file `err` the wanted lines of the error output; and in the
# file `has` the form of a line of the output
read_try() {
  row='' shows='' words='' status=''
  : >"$work/err"
  : >"$work/has"
  {
    while IFS= read -r line; do
      case $line in
        'program:') break ;;
        'row: '*) row=${line#row: } ;;
        'shows: '*) shows=${line#shows: } ;;
        'words: '*) words=${line#words: } ;;
        'status: '*) status=${line#status: } ;;
        'has: '*) printf '%s\n' "${line#has: }" >"$work/has" ;;
        'err: '*) printf '%s\n' "${line#err: }" >>"$work/err" ;;
      esac
    done
    cat >p.c
  } <"$1"
}

# is_right TRY GOT: whether what is left in got_out and got_err is what is wanted. Of the error output one of the lines is wanted, or nothing where there is none; the
# output is looked at where a try says what it is.
is_right() {
  [ "$2" = "$status" ] || return 1
  [ ! -f "$1.out" ] || cmp -s "$1.out" "$work/got_out" || return 1
  [ ! -s "$work/has" ] || grep -Eq -f "$work/has" "$work/got_out" || return 1
  if [ -s "$work/err" ]; then
    [ "$(wc -l <"$work/got_err")" -eq 1 ] && grep -Fqx -f "$work/err" "$work/got_err"
  else
    [ ! -s "$work/got_err" ]
  fi
}

# beginning FILE: the beginning of a file, in one line
beginning() { dd if="$1" bs=100 count=1 2>/dev/null | tr '\n' ' '; }

cd "$work/case" || exit 1
echo 'int main() { }' >a.c
cp a.c b.c
: >t.txt
passed=0
for try in "$work/tries"/*.try; do
  try=${try%.try}
  read_try "$try.try"
  echo 'step 0 1' >s.txt
  [ ! -f "$try.schedule" ] || cp "$try.schedule" s.txt
  set -f
  set --
  for word in $words; do
    [ "$word" != "''" ] || word=''
    set -- "$@" "$word"
  done
  set +f
  "$program" "$@" >"$work/got_out" 2>"$work/got_err" </dev/null
  got=$?
  if is_right "$try" "$got"; then
    passed=$((passed + 1))
  else
    failed=$((failed + 1))
    wanted_out='any output'
    [ ! -f "$try.out" ] || wanted_out=$(beginning "$try.out")
    echo "failed: $row: $shows: wanted status $status [$(beginning "$work/err")] [$wanted_out]; got $got [$(beginning "$work/got_err")] [$(beginning "$work/got_out")]"
  fi
done

sed -n 's/^rows \([0-9]*\) \([0-9]*\) \([0-9]*\) \([0-9]*\) \([0-9]*\) \([0-9]*\)$/\2 rows of \1 tables of the documents tried; \3 rows of these tables and \6 pieces of the others are listed as not to be tried; \4 tables with \5 rows explain/p' "$work/made"
echo "$passed passed, $failed failed"
[ "$failed" = 0 ]
