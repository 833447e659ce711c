#!/bin/sh
# Counts the instructions of `missing` by the built program, or by PROGRAM where one is handed over: of tasks that lack nothing, of tasks that each lack three clauses which read alike, of tasks that each lack a
# clause of their own, of tasks nested 15 deep that each lack one, and of main, which waits nowhere, over one global and over many. A row tells the instructions for each of 60,000 tasks, and how many times as many 60,000 take as 30,000. A
# count is the same whatever runs beside. It wants `valgrind`.
# usage: missing.sh [PROGRAM]
# shellcheck source=bench/built.sh
. "$(dirname -- "$0")/built.sh"

command=missing
# shellcheck source=bench/counted.sh
. "$top/bench/counted.sh"

for times in 1 2; do
  count=$((times * 30000))
  chain "whole_$times" "$count"
  cat >"alike_$times.c" <<PROGRAM
long x, y, z;
int main() {
  for (long i = 0; i < $count; i++)
#pragma oss task
    { x = i; z = y; }
#pragma oss taskwait
}
PROGRAM
  cat >"apart_$times.c" <<PROGRAM
long a[$count];
int main() {
  for (long i = 0; i < $count; i++)
#pragma oss task
    a[i] = i;
#pragma oss taskwait
}
PROGRAM
  cat >"nested_$times.c" <<PROGRAM
long a[$((times * 2000))][15];
int down(long i, long depth) {
#pragma oss task
  {
    a[i][depth] = i;
    if (depth < 14) down(i, depth + 1);
  }
#pragma oss taskwait
  return 0;
}
int main() {
  for (long i = 0; i < $((times * 2000)); i++) down(i, 0);
}
PROGRAM
  cat >"unwaited_$times.c" <<PROGRAM
long x;
int main() {
  for (long i = 0; i < $count; i++) {
#pragma oss task out(x)
    x = i;
    x = x + 1;
  }
}
PROGRAM
  awk -v count="$((times * 1000))" 'BEGIN { for (i = 0; i < count; i++) print "long y" i ";" }' | cat - "unwaited_$times.c" >"behind_$times.c"
done
echo 'what | instructions for each of 60,000 tasks | times as many for twice the tasks'
told 'tasks that lack nothing' whole
told 'tasks that each lack three clauses, all alike' alike
told 'tasks that each lack a clause of their own' apart
told 'tasks nested 15 deep that each lack a clause of their own' nested
told 'a wait that is missing behind each task' unwaited
told 'the same, with 2,000 other globals' behind
