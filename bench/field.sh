#!/bin/sh
# Drives `oss_field`, the table that threads of a crew share, by its public calls, over a port of the sources (bench/port): contracts are stripped, and `rustc` compiles what is left with the program of
# bench/field. It prints four lines and two tables:
# - random programs of tasks beside the core: one thread, one to four seats, each deed drawn; behind each deed what may happen next is compared with the core, and the flags with what is done;
# - the same programs by three threads in turns: before each atomic step it is drawn whose turn comes, and the core makes the same moves;
# - a tenth of the programs by four threads at once, ten times each: the output is compared with that of the sequential run;
# - the same by four threads that share a queue of ready tasks, where a task that waits is woken when what it waits for has come;
# - the instructions of a task (callgrind), and its atomic steps, by one thread with such a queue: in a chain, on a cell and on two cells of their own, with three cells each, reductions of one cell, and
#   children of weak tasks. What they print is compared with the sequential run too;
# - tasks a second, atomic steps a second and atomic steps a task, by one and by four threads with such a queue: 16 weak tasks create 60,000 tasks each, those of each in a chain on one cell or on two,
#   or each on a cell of its own. The clock tells what a machine does that has nothing else to do; processor seconds are told beside it.
# The first difference ends it with the status 1, and with the start of the program, the program and the steps. With START and COUNT it drives so many programs from START on, and counts nothing.
# It wants `rustc`, `python3` and `valgrind`, and proves nothing.
# usage: field.sh [START COUNT]
top=$(CDPATH='' cd -- "$(dirname -- "$0")/.." && pwd) || exit 1
case $# in
  0 | 2) ;;
  *)
    echo 'usage: field.sh [START COUNT]' >&2
    exit 2
    ;;
esac
work=$(mktemp -d) || exit 1
trap 'rm -rf "$work"' EXIT
cd "$work" || exit 1

python3 "$top/bench/port/strip.py" --program "$top/bench/field" "$top" port oss_parse oss_names oss_lower oss_serial oss_core oss_field || exit 1
# The driver with tests of sums and of slots, and with a hook before each atomic step.
rustc --edition 2021 --check-cfg 'cfg(steps)' -C opt-level=1 -C debug-assertions=on -C overflow-checks=on -o driver port/src/main.rs || exit 1

# failed: says why a driver failed
failed() {
  cat errors >&2
  exit 1
}

start=${1:-1}
count=${2:-20000}
./driver beside "$start" "$count" 2>errors || failed
./driver turns "$start" "$count" 3 1 2>errors || failed
./driver threads "$start" "$((count / 10 + 1))" 4 10 2>errors || failed
./driver pool "$start" "$((count / 10 + 1))" 4 10 2>errors || failed
[ $# -eq 0 ] || exit 0

rustc --edition 2021 --check-cfg 'cfg(steps)' -C opt-level=3 -o counted port/src/main.rs || exit 1
# The same with a count of steps: a step costs a few instructions more.
rustc --edition 2021 --check-cfg 'cfg(steps)' --cfg steps -C opt-level=3 -o timed port/src/main.rs || exit 1

# in_loop COUNT CLAUSES STATEMENT: a program whose main creates so many tasks
in_loop() {
  cat <<PROGRAM
long x, a[$1], b[$1];
int main() {
  for (long i = 0; i < $1; i++)
#pragma oss task $2
    $3
#pragma oss taskwait
  printf("%ld %ld %ld\\n", x, a[0], b[0]);
}
PROGRAM
}

# below COUNT: a program of so many tasks, each tenth of which has nine children and is weak
below() {
  cat <<PROGRAM
long a[$1];
int main() {
  for (long i = 0; i < $1; i += 10)
#pragma oss task weakinout(a[i; 10])
    for (long j = i; j < i + 9; j++)
#pragma oss task inout(a[j])
      a[j] += j;
#pragma oss taskwait
  printf("%ld\\n", a[8]);
}
PROGRAM
}

# row WHAT NAME ENTRIES: NAME_1000.c and so on, in fields with so many entries for each task
row() {
  steps=$(./driver count "$2_1000.c" "$((1000 * $3 + 1))" 1 2>&1 >/dev/null | sed -n 's/.* steps \([0-9]*\).*/\1/p')
  for tasks in 1000 30000 60000; do
    ./counted count "$2_$tasks.c" "$((tasks * $3 + 1))" 1 2>/dev/null >printed || exit 1
    ./counted serial "$2_$tasks.c" | cmp - printed || exit 1
    valgrind --tool=callgrind --callgrind-out-file=/dev/null ./counted count "$2_$tasks.c" "$((tasks * $3 + 1))" 1 2>&1 >/dev/null | sed -n 's/.*Collected : \([0-9]*\).*/\1/p' >"$tasks.count"
  done
  awk -v what="$1" -v a="$(cat 1000.count)" -v b="$(cat 30000.count)" -v c="$(cat 60000.count)" -v steps="$steps" 'BEGIN {
    printf "%s | %.0f | %.0f | %.0f | %.2f | %.1f\n", what, a / 1000, b / 30000, c / 60000, c / b, steps / 1000 }'
}

# by_creators NAME COUNT CELLS CLAUSE ACCESSES STATEMENT: NAME_many.c over these cells, whose main creates 16 weak tasks with this clause, each of which creates so many tasks with these accesses
by_creators() {
  cat >"$1_many.c" <<PROGRAM
long $3;
int main() {
  for (long k = 0; k < 16; k++)
#pragma oss task $4
    for (long i = k * $2; i < (k + 1) * $2; i++)
#pragma oss task $5
      $6
#pragma oss taskwait
  printf("%ld %ld\\n", x[0], x[15]);
}
PROGRAM
}

# speeds WHAT NAME ENTRIES: NAME_many.c by one thread and by four, in a field with so many entries
speeds() {
  ./counted serial "$2_many.c" >wanted || exit 1
  for threads in 1 4; do
    ./timed count "$2_many.c" "$3" "$threads" >printed 2>told || failed
    cmp wanted printed || exit 1
    awk -v what="$1" -v threads="$threads" '{
      printf "%s | %d | %.0f | %.1f | %.1f | %.0f\n", what, threads, $2 / $6, $4 / $6 / 1000000, $4 / $2, $2 / $8 }' told
  done
}

for tasks in 1000 30000 60000; do
  in_loop $tasks 'inout(x)' 'x += i;' >"chain_$tasks.c"
  in_loop $tasks 'inout(a[i])' 'a[i] = i;' >"apart_$tasks.c"
  in_loop $tasks 'in(a[i % 60], a[(i + 1) % 60]) inout(b[i % 60])' 'b[i % 60] += a[i % 60] + a[(i + 1) % 60];' >"readers_$tasks.c"
  in_loop $tasks 'in(a[i]) inout(b[i])' 'b[i] += a[i];' >"two_$tasks.c"
  in_loop $tasks 'reduction(+: x)' 'x += i;' >"folds_$tasks.c"
  below $tasks >"below_$tasks.c"
done
echo 'what | instructions for each of 1,000 tasks | of 30,000 | of 60,000 | times as many for 60,000 as for 30,000 | atomic steps for each of 1,000'
row 'tasks in a chain on one cell' chain 2
row 'tasks on a cell of their own' apart 2
row 'tasks on two cells of their own' two 3
row 'tasks with three cells each, behind others' readers 4
row 'reductions of one cell' folds 2
row 'tasks below weak ones' below 3

each=60000
all=$((16 * each))
by_creators chains "$each" 'x[16]' 'weakinout(x[k])' 'inout(x[k])' 'x[k] += i;'
by_creators pairs "$each" 'x[16], y[16]' 'weakinout(x[k], y[k])' 'inout(x[k], y[k])' '{ x[k] += i; y[k] += x[k]; }'
by_creators spread "$each" "x[$all]" "weakinout(x[k * $each; $each])" 'inout(x[i])' 'x[i] += i;'
echo
echo 'tasks of 16 creators | threads | tasks a second | million atomic steps a second | atomic steps a task | tasks a processor second'
speeds 'in chains on one cell each' chains "$((2 * all + 64))"
speeds 'in chains on two cells each' pairs "$((3 * all + 64))"
speeds 'on a cell of their own' spread "$((3 * all + 64))"
