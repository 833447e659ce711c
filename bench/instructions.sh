#!/bin/sh
# Counts the instructions of runs by waves of the built program, or of PROGRAM where one is handed over, over regions, then by one worker with priorities, and then of sequential runs, and prints a table: millions of instructions, those for twice the tasks, and their ratio. The
# programs are those of regions.sh and of programs.sh, and for the last three rows an array loop, calls and folds. A count is the same whatever runs beside, where a clock is not, and takes minutes.
# It wants `valgrind`.
# usage: instructions.sh [PROGRAM]
# shellcheck source=bench/built.sh
. "$(dirname -- "$0")/built.sh"

dependency_sources
cuts_source 2000 >cuts_1.c
cuts_source 4000 >cuts_2.c

# counted WORD..: the instructions of a call of the program
counted() { valgrind --tool=callgrind --callgrind-out-file=/dev/null "$program" "$@" 2>&1 >/dev/null | sed -n 's/.*Collected : \([0-9]*\).*/\1/p'; }

# compared WHAT FIRST SECOND: a row with these counts and their ratio
compared() { awk -v what="$1" -v a="$2" -v b="$3" 'BEGIN { printf "%s | %.0f | %.0f | %.2f\n", what, a / 1e6, b / 1e6, b / a }'; }

# sequential NAME: the instructions of the sequential run of NAME.c
sequential() { counted run --mode=serial --fuel=1000000000 "$1.c"; }

# sequentially WHAT NAME: the sequential runs of NAME_1.c, and of NAME_2.c, with twice the work
sequentially() { compared "$1" "$(sequential "$2_1")" "$(sequential "$2_2")"; }

# row WHAT NAME: NAME_1.c, and NAME_2.c, with twice the tasks
row() { compared "$1" "$(counted run "$2_1.c")" "$(counted run "$2_2.c")"; }

echo 'what | millions of instructions | for twice the tasks | ratio'
dependency_rows
row '2,000 tasks on one cell of an array each, after 2,000 on the whole of it that are done' cuts
compared 'soak 7 1000' "$(counted soak 7 1000)" "$(counted soak 7 2000)"
for times in 1 2; do ranked_source $((times * 30000)) >"ranked_$times.c"; done
# working NAME: the instructions of the run of NAME.c by one worker
working() { counted run --mode=workers --workers=1 "$1.c"; }
compared 'apart by one worker with priorities: 30,000 ready tasks of 1,000' "$(working ranked_1)" "$(working ranked_2)"
sequentially 'the same one after the other' ranked
growth_sources 1
growth_rows sequentially
for times in 1 2; do
  array_source long %ld $((times * 300)) >"array_$times.c"
  # (the calls of the next Fibonacci number are more, but not twice as many)
  calls_source $((21 + times)) >"calls_$times.c"
  cat >"folds_$times.c" <<PROGRAM
long s;
int main() {
#pragma oss task reduction(+: s)
  for (long i = 0; i < $((times * 300000)); i++) s += i;
}
PROGRAM
done
sequentially 'an array loop: 300,000 turns' array
sequentially 'calls: those of the 22nd Fibonacci number, and of the 23rd' calls
sequentially 'folds: 300,000 into a slot' folds
# Tasks with three clauses each, for which main never waits, and a fault behind them: what its explanation keeps on the way.
for times in 1 2; do
  cat >"explained_$times.c" <<PROGRAM
long a[60], b[60], c[60];
int main() {
  for (long i = 0; i < $((times * 30000)); i++)
#pragma oss task in(a[i % 60]) inout(b[i % 60]) out(c[i % 60])
    c[i % 60] = a[i % 60] + b[i % 60];
  printf("%ld\\n", c[0]);
}
PROGRAM
done
for times in 1 2; do
  counted explain "explained_$times.c" >"explained_$times.count"
  sequential "explained_$times" >"sequential_$times.count"
done
compared 'the explanation of a fault behind 30,000 tasks with three clauses each' "$(cat explained_1.count)" "$(cat explained_2.count)"
compared 'their run one after the other' "$(cat sequential_1.count)" "$(cat sequential_2.count)"
awk -v a="$(cat explained_2.count)" -v b="$(cat sequential_2.count)" 'BEGIN { printf "so the explanation takes %.0f instructions more for each of 60,000 tasks\n", (a - b) / 60000 }'
