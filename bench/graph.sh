#!/bin/sh
# Counts the instructions of `graph` by the built program, or by PROGRAM where one is handed over: of tasks in a chain, of tasks on cells of their own, and of readers behind writers. A row tells
# the instructions for each of 60,000 tasks, and how many times as many 60,000 take as 30,000. Two more rows have 60,000 tasks in a chain: on an array of 2,000 rows and on one of 1,000 of four
# cells each, and on the last of 400 globals and on that of 200. A count is the same whatever runs beside. It wants `valgrind`.
# usage: graph.sh [PROGRAM]
# shellcheck source=bench/built.sh
. "$(dirname -- "$0")/built.sh"

command=graph
# shellcheck source=bench/counted.sh
. "$top/bench/counted.sh"

for times in 1 2; do
  count=$((times * 30000))
  chain "chain_$times" "$count"
  cat >"apart_$times.c" <<PROGRAM
long a[$count];
int main() {
  for (long i = 0; i < $count; i++)
#pragma oss task inout(a[i])
    a[i] = i;
}
PROGRAM
  cat >"readers_$times.c" <<PROGRAM
long a[60], b[60];
int main() {
  for (long i = 0; i < $count; i++)
#pragma oss task in(a[i % 60], a[(i + 1) % 60]) inout(b[i % 60])
    b[i % 60] += a[i % 60] + a[(i + 1) % 60];
}
PROGRAM
  cat >"rows_$times.c" <<PROGRAM
long m[$((times * 1000))][4];
int main() {
  for (long i = 0; i < 60000; i++)
#pragma oss task inout(m)
    m[0][0] += i;
}
PROGRAM
  {
    seq -f 'long x%.0f;' "$((times * 200))"
    cat <<PROGRAM
int main() {
  for (long i = 0; i < 60000; i++)
#pragma oss task inout(x$((times * 200)))
    x$((times * 200)) += i;
}
PROGRAM
  } >"globals_$times.c"
done
echo 'what | instructions for each of 60,000 tasks | times as many for twice the tasks, rows or globals'
told 'the graph of a chain' chain
told 'of tasks on cells of their own' apart
told 'of tasks with three cells each' readers
told 'of a chain on all rows of an array' rows
told 'of a chain on the last of many globals' globals
