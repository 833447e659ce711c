#!/bin/sh
# Runs the built program on the programs of examples/, on the cases of tests/cases/ and on bad words, files and bytes, and
# compares its output, its error output and its status with what is stored. The last line counts; the status is 0 only where
# nothing failed. `tests/run.sh PROGRAM` runs another program than the one of this repository. With `--all` as the first word it then refuses memory
# to the program too, one piece after the other (tests/refused.sh), which takes hours more.
#
# In examples/, NAME.c is run; NAME.out is its output, NAME.err its error output (empty where there is none), NAME.status its
# status (0 where there is none). It is run in each mode and with several numbers of workers, and its trace is replayed; NAME.trace is that
# trace, where there is such a file. Each NAME.schedule leads NAME.c to its end. Where gcc is there, it compiles each NAME.c without a
# warning, and what it compiles has the same output where the run has no fault. NAME.explained is the explanation of the fault of NAME.c; where the
# run has no fault, that is what is told. NAME.graph is the graph of NAME.c, where there is such a file. Where dot is there, it reads each graph without a complaint.
# NAME.missing is what the clauses of NAME.c lack, where there is such a file; those of the others lack nothing.
#
# In README.md and docs/GUIDE.md, each block `c` is the program of examples/ that the line before it names, and each block `console` is what
# its commands, the lines that begin with `$ `, write where they are given one after the other; so the blocks `console` of docs/COMMANDS.md. tests/tables.sh tries the
# rows of the tables of the other documents.
#
# What stands around the program, in share/, is tried by tests/share.sh. What `missing` tells of wrong programs mends them: tests/mended.sh.
#
# A case is a file tests/cases/SUBJECT/NAME.case with these lines:
#   # what the case shows
#   words: WORDS          the words of the call, parted by blanks
#   status: N
#   out: TEXT             the output, with escapes as `printf %b` reads them; more such lines are joined; none where it is empty
#   err: LINE             the one line of the error output; none where it is empty
#   schedule: LINE        a line of the schedule; each such line is one more
#   links: follow         where the output goes on, behind what is told of it, with links of a chain, which has at least as many acts as the second line tells ticks
#   end: no newline       where the newline at the end of the file does not belong to the program
#   program:              what stands behind this line is the program, to the end of the file
# It is called in a folder that holds nothing but the program, as p.c, and the schedule, where the case has one, as s.txt. A run without a mode is called in the modes
# serial and workers too, the latter with one worker where the case has no number of them, and a trace is made over the other dependency systems too, and replayed.
top=$(CDPATH='' cd -- "$(dirname -- "$0")/.." && pwd) || exit 1
all=no
[ "${1:-}" != --all ] || {
  all=yes
  shift
}
program=${1:-$top/nest6}
case $program in
  /*) ;;
  *) program=$PWD/$program ;;
esac
work=$(mktemp -d) || exit 1
trap 'rm -rf "$work"' EXIT
passed=0
failed=0

# judge NAME STATUS OUT-FILE ERR-FILE GOT: of a call that has left its outputs in $work/out and $work/err
judge() {
  if [ "$5" = "$2" ] && cmp -s "$work/out" "$3" && cmp -s "$work/err" "$4"; then
    passed=$((passed + 1))
  else
    failed=$((failed + 1))
    echo "failed: $1 (status $5, wanted $2)"
    diff "$3" "$work/out" | head -n 5
    diff "$4" "$work/err" | head -n 5
  fi
}

# expect NAME STATUS OUT-FILE ERR-FILE WORD..
expect() {
  name=$1 wanted=$2 out=$3 err=$4
  shift 4
  "$program" "$@" >"$work/out" 2>"$work/err" </dev/null
  judge "$name" "$wanted" "$out" "$err" $?
}

# expect_chain NAME STATUS OUT-FILE ERR-FILE WORD..: the same, where links follow. Any longest chain may be told, so what is looked at is that each line is a link, and that
# the acts are no fewer than the ticks of the second line.
expect_chain() {
  name=$1 wanted=$2 out=$3 err=$4
  shift 4
  "$program" "$@" >"$work/told" 2>"$work/err" </dev/null
  got=$?
  awk 'NR <= 2 { print; ticks = $2; next }
    /^acts [0-9.]+ [0-9]+ [1-9][0-9]*$/ { acts += $4; next }
    !/^(let|join) [0-9.]+ [0-9]+$/ { print }
    END { if (acts < ticks) print "acts " acts + 0 " ticks " ticks }' "$work/told" >"$work/out"
  judge "$name" "$wanted" "$out" "$err" "$got"
}

# other_systems NAME STATUS OUT-FILE ERR-FILE FILE: the trace of FILE over each dependency system that is not the one of a run where nothing is said
other_systems() {
  expect "$1 over the plain lists" "$2" "$3" "$4" trace "$5" --deps=plain
  expect "$1 over words" "$2" "$3" "$4" trace "$5" --deps=words
}

# replay_trace NAME: the replay of the trace of p.c that is left in $work/out, against its run
replay_trace() {
  cp "$work/out" t.txt
  "$program" run p.c --mode=serial >"$work/run_out" 2>"$work/run_err" </dev/null
  expect "$1, replayed" $? "$work/run_out" "$work/run_err" replay p.c t.txt
}

# leaves the program of a case in p.c, its schedule in s.txt, and what is said of them in `words`, `status`, `out_text`, `err_text` and `judged`
read_case() {
  words='' status='' out_text='' err_text='' end='' judged=expect
  rm -f s.txt
  {
    while IFS= read -r line; do
      case $line in
        'program:') break ;;
        'words:'*) words=${line#words:} ;;
        'status: '*) status=${line#status: } ;;
        'out: '*) out_text=$out_text${line#out: } ;;
        'err: '*) err_text=${line#err: }'\n' ;;
        'schedule: '*) printf '%s\n' "${line#schedule: }" >>s.txt ;;
        'schedule:') echo >>s.txt ;;
        'links: follow') judged=expect_chain ;;
        'end: no newline') end=cut ;;
        '# '*) ;;
        *) status="a number; this line is unknown: $line" ;;
      esac
    done
    cat >p.c
  } <"$1"
  if [ "$end" = cut ]; then
    size=$(wc -c <p.c)
    mv p.c "$work/whole"
    dd if="$work/whole" of=p.c bs=$((size - 1)) count=1 2>/dev/null
  fi
}

"$program" >/dev/null 2>"$work/build"
[ $? = 2 ] || cat "$work/build"
: >"$work/nothing"

# describe NAME: what an example is to write, in `status`, `out` and `err`
describe() {
  status=0 out=$1.out err=$work/nothing
  [ -f "$1.status" ] && status=$(cat "$1.status")
  [ -f "$1.err" ] && err=$1.err
}

# follow NAME: the trace of an example, against the stored one where there is one, and its replay
follow() {
  describe "$1"
  "$program" trace "$1.c" >"$work/out" 2>"$work/err" </dev/null
  got=$?
  cp "$work/out" "$work/trace"
  wanted_trace=$work/trace
  [ -f "$1.trace" ] && wanted_trace=$1.trace
  judge "the trace of examples/$1.c" "$status" "$wanted_trace" "$err" "$got"
  expect "the trace of examples/$1.c, replayed" "$status" "$out" "$err" replay "$1.c" "$work/trace"
  other_systems "the trace of examples/$1.c" "$status" "$wanted_trace" "$err" "$1.c"
}

# compile NAME: what gcc says of an example, which is nothing, and the output of what it compiles; numbers wrap round as those of the language do
compile() {
  describe "$1"
  gcc -Wall -Wno-unknown-pragmas -fwrapv -o "$work/compiled" "$1.c" >"$work/out" 2>"$work/err"
  judge "examples/$1.c, compiled" 0 "$work/nothing" "$work/nothing" $?
  [ "$status" = 0 ] || return 0
  "$work/compiled" >"$work/out" 2>"$work/err" </dev/null
  judge "what gcc makes of examples/$1.c" 0 "$out" "$work/nothing" $?
}

# drawn NAME FILE: whether dot reads a graph and says nothing
drawn() {
  [ "$drawing" = yes ] || return 0
  dot -Tsvg "$2" >"$work/picture" 2>"$work/err"
  got=$?
  : >"$work/out"
  judge "$1, drawn" 0 "$work/nothing" "$work/nothing" "$got"
}

# split FILE FOLDER: each fenced block of a document as N.KIND, and the last line before it that is not empty as N.before
split() {
  awk -v folder="$2" '
    !inside && /^```/ { inside = 1; count++; kind = substr($0, 4); block = folder "/" count "." (kind ? kind : "text")
      note = folder "/" count ".before"; print before >note; close(note); printf "" >block; next }
    inside && /^```/ { inside = 0; close(block); next }
    inside { print >block; next }
    /./ { before = $0 }
  ' "$1"
}

# open_document FILE: takes its blocks apart, into a folder from which its commands are given
open_document() {
  rm -rf "$work/blocks" "$work/reader"
  mkdir "$work/blocks" "$work/reader" || return 1
  split "$top/$1" "$work/blocks"
  [ -f "$work/blocks/1.before" ] || {
    failed=$((failed + 1))
    echo "failed: $1 has no blocks"
  }
  ln -s "$top/examples" "$work/reader/examples"
  ln -s "$program" "$work/reader/nest6"
  : >"$work/err"
}

# check_programs FILE: the blocks `c` of the document that is open
check_programs() {
  for block in "$work/blocks"/*.c; do
    [ -f "$block" ] || continue
    shown=$(sed -n 's/.*`\(examples\/[a-z0-9_]*\.c\)`:$/\1/p' "${block%.c}.before")
    cat "$block" >"$work/out"
    judge "$1, block $(basename -- "$block"), which shows ${shown:-no file}" 0 "$top/${shown:-no file}" "$work/nothing" 0
  done
}

# check_commands FILE: the blocks `console` of the document that is open
check_commands() {
  for block in "$work/blocks"/*.console; do
    [ -f "$block" ] || continue
    # The script tells each command before it gives it, so its whole output is to be the block. A command sees the status of the one before.
    {
      echo 'say() { kept=$?; sed -n "$1p" "$block"; return $kept; }'
      awk '/^\$ / { print "say " NR; print substr($0, 3) }' "$block"
    } >"$work/script"
    (cd "$work/reader" && block=$block sh "$work/script") >"$work/out" 2>&1 </dev/null
    judge "$1, block $(basename -- "$block")" 0 "$block" "$work/nothing" 0
  done
}

# check_document FILE: the blocks `c` and `console` of a document
check_document() {
  open_document "$1" || return 1
  check_programs "$1"
  check_commands "$1"
}

drawing=no
if command -v dot >/dev/null 2>&1; then drawing=yes; else echo "dot is not there: no graph is drawn"; fi

cd "$top/examples" || exit 1
for file in *.c; do
  describe "${file%.c}"
  expect "examples/$file" "$status" "${file%.c}.out" "$err" run "$file"
done

# The examples were run by the script, which looks at every source first. From here on the program is called itself.
[ "$#" -gt 0 ] || program=$top/crates/nest6/out/nest6
modes='serial waves'
for file in *.c; do
  for mode in $modes; do
    for workers in 1 2 4; do
      describe "${file%.c}"
      expect "examples/$file, --mode=$mode --workers=$workers" "$status" "$out" "$err" run "$file" --mode="$mode" --workers="$workers"
    done
  done
  expect "examples/$file, --mode=workers --workers=1" "$status" "$out" "$err" run "$file" --mode=workers --workers=1
  follow "${file%.c}"
done
echo 'no fault' >"$work/no_fault"
for file in *.c; do
  describe "${file%.c}"
  case $status in
    0) expect "examples/$file, explained" 0 "$work/no_fault" "$work/nothing" explain "$file" ;;
    1) expect "examples/$file, explained" 1 "${file%.c}.explained" "$err" explain "$file" ;;
  esac
done
for file in *.graph; do
  describe "${file%.graph}"
  expect "the graph of examples/${file%.graph}.c" "$status" "$file" "$err" graph "${file%.graph}.c"
  drawn "the graph of examples/${file%.graph}.c" "$file"
done
echo 'nothing is missing' >"$work/all_there"
for file in *.c; do
  describe "${file%.c}"
  lines=$work/all_there
  [ ! -e "${file%.c}.missing" ] || lines=${file%.c}.missing
  case $status in
    [01]) expect "what the clauses of examples/$file lack" 0 "$lines" "$work/nothing" missing "$file" ;;
  esac
done
for file in *.schedule; do
  describe "${file%.schedule}"
  expect "examples/$file" "$status" "$out" "$err" replay "${file%.schedule}.c" "$file"
done
expect "the trace of examples/tasks.c" 0 tasks.schedule "$work/nothing" trace tasks.c
if command -v gcc >/dev/null 2>&1; then
  for file in *.c; do
    # gcc takes no program that is refused.
    describe "${file%.c}"
    [ "$status" = 3 ] || compile "${file%.c}"
  done
else
  echo "gcc is not there: it is not looked at what it makes of the examples"
fi
check_document README.md
check_document docs/GUIDE.md
# (its programs are no examples)
open_document docs/COMMANDS.md && check_commands docs/COMMANDS.md
"$top/tests/tables.sh" "$program" >"$work/tables"
sed '$d' "$work/tables"
of_tables=$(sed -n '$s/^\([0-9]*\) passed, \([0-9]*\) failed$/\1 \2/p' "$work/tables")
[ -n "$of_tables" ] || of_tables='0 1'
passed=$((passed + ${of_tables% *}))
failed=$((failed + ${of_tables#* }))

mkdir "$work/case"
cd "$work/case" || exit 1
for file in "$top"/tests/cases/*/*.case; do
  read_case "$file"
  printf '%b' "$out_text" >"$work/wanted_out"
  printf '%b' "$err_text" >"$work/wanted_err"
  set -f
  # The words are parted here.
  # shellcheck disable=SC2086
  "$judged" "${file#"$top"/}" "$status" "$work/wanted_out" "$work/wanted_err" $words
  # A run by waves says what a run of one task after the other and one by a worker say, and the trace of a run is a schedule that leads to the same answer.
  case $status$words in
    2* | *--mode* | *--deps*) ;;
    *' run '*)
      # shellcheck disable=SC2086
      expect "${file#"$top"/} in serial mode" "$status" "$work/wanted_out" "$work/wanted_err" $words --mode=serial
      case $words in
        *--workers*) ;;
        *)
          # shellcheck disable=SC2086
          expect "${file#"$top"/} in workers mode" "$status" "$work/wanted_out" "$work/wanted_err" $words --mode=workers --workers=1
          ;;
      esac
      ;;
    [01]' trace p.c')
      replay_trace "${file#"$top"/}"
      # All dependency systems have the same trace.
      other_systems "${file#"$top"/}" "$status" "$work/wanted_out" "$work/wanted_err" p.c
      ;;
    [01]' graph '*) drawn "${file#"$top"/}" "$work/wanted_out" ;;
  esac
  set +f
done

mkdir "$work/words"
cd "$work/words" || exit 1
echo 'usage: nest6 run FILE | check FILE | trace FILE | replay FILE SCHEDULE | soak NUMBER SIZE | span FILE | audit FILE' >usage
echo 'refused: NoMain at line 1' >no_main
echo 'refused: Lexical at line 2' >lexical
echo 'refused: TooLarge at line 1' >too_large
echo 'cannot read missing.c' >missing
echo 'cannot read folder' >folder_line
echo 'ok' >ok
mkdir folder
: >empty.c
printf 'int main() { printf("no newline\\n"); }' >short.c
echo 'no newline' >short.out
printf 'int main() {\n\303\251 }\n' >bytes.c
printf 'int main() { printf("\303\251\377\\n"); }\n' >string.c
printf '\303\251\377\n' >string.out
awk 'BEGIN { printf "int main() { }"; for (i = 0; i < 1048562; i++) printf " " }' >full.c
{ cat full.c; printf ' '; } >long.c
awk 'BEGIN { printf "@"; for (i = 0; i < 1048576; i++) printf " " }' >long_bytes.c
expect "no words" 2 ../nothing usage
expect "one word" 2 ../nothing usage run
expect "two files" 2 ../nothing usage run short.c empty.c
expect "an option that is not listed" 2 ../nothing usage run short.c --frob
expect "an empty word" 2 ../nothing usage ''
expect "an empty command" 2 ../nothing usage '' short.c
expect "an empty file name" 2 ../nothing usage run ''
expect "an empty file name to check" 2 ../nothing usage check ''
expect "an empty second file name" 2 ../nothing usage run short.c ''
expect "a word that is not UTF-8" 2 ../nothing usage run "$(printf '\377')"
expect "a missing file" 4 ../nothing missing run missing.c
expect "a folder" 4 ../nothing folder_line run folder
expect "an empty file" 3 ../nothing no_main run empty.c
expect "an empty file to check" 3 ../nothing no_main check empty.c
expect "no newline at the end" 0 short.out ../nothing run short.c
expect "a byte above 127" 3 ../nothing lexical run bytes.c
expect "a byte above 127 to check" 3 ../nothing lexical check bytes.c
expect "bytes above 127 in a string" 0 string.out ../nothing run string.c
expect "a file of 1,048,576 bytes" 0 ../nothing ../nothing run full.c
expect "a file of 1,048,576 bytes to check" 0 ok ../nothing check full.c
expect "a file of 1,048,577 bytes" 3 ../nothing too_large run long.c
expect "a file of 1,048,577 bytes to check" 3 ../nothing too_large check long.c
expect "a file of 1,048,577 bytes with a bad byte" 3 ../nothing too_large check long_bytes.c
for command in trace span audit explain graph missing; do
  expect "a file of 1,048,577 bytes, $command" 3 ../nothing too_large "$command" long.c
done
echo 'int main() { }' >none.c
echo 'cannot read missing.txt' >missing_schedule
echo 'schedule refused at line 1' >first_line
echo '1 tasks unfinished' >one_left
dd if=/dev/zero bs=1048576 count=16 2>/dev/null | tr '\0' '\n' >full.txt
{ cat full.txt; echo; } >long.txt
printf 'step 0 1' >cut.txt
expect "a missing schedule" 4 ../nothing missing_schedule replay none.c missing.txt
expect "a schedule that is a folder" 4 ../nothing folder_line replay none.c folder
expect "a schedule of 16,777,216 bytes" 7 ../nothing one_left replay none.c full.txt
expect "a schedule of 16,777,217 bytes" 3 ../nothing first_line replay none.c long.txt
expect "a schedule of 16,777,217 bytes on a text that is refused" 3 ../nothing first_line replay empty.c long.txt
expect "a program of 1,048,577 bytes and no schedule" 3 ../nothing too_large replay long.c missing.txt
expect "a schedule whose last line lacks its newline" 0 ../nothing ../nothing replay none.c cut.txt
rm full.txt long.txt

# A generated program writes the same in each mode, and over each dependency system.
"$program" soak 7 2000 --mode=serial >soak.out 2>"$work/err" </dev/null
for deps in regions plain words; do
  expect "a generated program of 2,000 tasks, --deps=$deps" 0 soak.out ../nothing soak 7 2000 --deps="$deps"
done
for workers in 1 64; do
  expect "a generated program of 2,000 tasks, $workers workers" 0 soak.out ../nothing soak 7 2000 --workers="$workers"
done

# The creation of a task is a tick of its creator, and so is a print.
for count in 999998 999999; do
  awk -v count="$count" 'BEGIN {
    printf "int main() {"; for (i = 0; i < count; i++) printf ";"
    print "\n#pragma oss task\n{;;}\nprintf(\"a\\n\");\n}"
  }' >"ticks_$count.c"
done
echo a >letter
echo 'fault: OutOfFuel at line 4' >out_of_fuel
expect "1,000,000 ticks, one of them a creation" 0 letter ../nothing run ticks_999998.c
expect "1,000,001 ticks, one of them a creation" 1 ../nothing out_of_fuel run ticks_999999.c

# What stands outside fails: memory is wanting, and an output takes nothing.
awk 'BEGIN { printf "int main() {"; for (i = 0; i < 1000000; i++) printf ";"; printf "}" }' >statements.c
(ulimit -v 60000 && exec "$program" check statements.c) >"$work/out" 2>"$work/err"
judge "little memory to check" 6 ../nothing ../nothing $?
(ulimit -v 60000 && exec "$program" run statements.c) >"$work/out" 2>"$work/err"
judge "little memory to run" 6 ../nothing ../nothing $?
# The deepest text that the limits allow: 63 blocks, and in them a call in a call, 63 deep, around 256 operators. `check` of it takes
# 3.3 MB of memory with 0.63 MB of stack in it, where a text of one line takes 2.7 MB.
awk 'BEGIN {
  print "long x;\nlong f(long y) { return y; }\nint main() {"
  for (i = 0; i < 63; i++) printf "{"
  printf "x = "
  for (i = 0; i < 63; i++) printf "f("
  printf "1"; for (i = 0; i < 256; i++) printf "+1"
  for (i = 0; i < 63; i++) printf ")"
  printf ";"
  for (i = 0; i < 63; i++) printf "}"
  print "\n}"
}' >deepest.c
sed 's/f(/(/g; /return/d' deepest.c >deepest_run.c
(ulimit -v 5000 && ulimit -s 1000 && exec "$program" check deepest.c) >"$work/out" 2>"$work/err"
judge "the deepest text to check, on little memory" 0 ok ../nothing $?
(ulimit -v 5000 && ulimit -s 1000 && exec "$program" run deepest_run.c) >"$work/out" 2>"$work/err"
judge "the deepest text to run, on little memory" 0 ../nothing ../nothing $?
if [ -c /dev/full ]; then
  : >"$work/out"
  "$program" run short.c >/dev/full 2>"$work/err"
  judge "a full output" 5 ../nothing ../nothing $?
  : >"$work/err"
  "$program" run >"$work/out" 2>/dev/full
  judge "a full error output" 5 ../nothing ../nothing $?
fi

# counted SCRIPT WORD..: a script of its own, whose checks count here; one that does not come to its last line counts as one that failed
counted() {
  "$@" >"$work/counted" 2>&1
  sed '$d' "$work/counted"
  counts=$(sed -n '$s/^\([0-9]*\) passed, \([0-9]*\) failed$/\1 \2/p' "$work/counted")
  [ -n "$counts" ] || tail -n 1 "$work/counted"
  counts=${counts:-0 1}
  passed=$((passed + ${counts% *}))
  failed=$((failed + ${counts#* }))
}

# What stands around the program.
counted "$top/tests/share.sh" "$program"
counted "$top/tests/little.sh" "$program"
# Wrong programs that are mended by rule. A verdict that is the stored one has passed, whatever it is, and is not told here.
"$top/tests/mended.sh" "$program" >"$work/mended" 2>&1
sed '$d' "$work/mended" | grep -Ev '^[a-z_]+: (mended|not mended|refused|fault)'
of_mended=$(awk -F', ' 'END { if ($NF ~ /^[0-9]+ failed$/) { for (i = 1; i < NF; i++) sum += $i; print sum + 0, $NF + 0 } }' "$work/mended")
[ -n "$of_mended" ] || {
  tail -n 1 "$work/mended"
  of_mended='0 1'
}
passed=$((passed + ${of_mended% *}))
failed=$((failed + ${of_mended#* }))
[ "$all" = no ] || counted "$top/tests/refused.sh" "$program"

echo "$passed passed, $failed failed"
[ "$failed" = 0 ]
