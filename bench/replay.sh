#!/bin/sh
# Times replays of the built program, and prints a row each: the schedule, its seconds, those of one with twice the work, and their ratio. It wants `python3` for the
# clock. `bench/replay.sh PROGRAM` times another program.
# shellcheck source=bench/built.sh
. "$(dirname -- "$0")/built.sh"

# replayed NAME: the seconds of a replay of NAME.txt on NAME.c
replayed() { timed "$program" replay --fuel=1000000000 "$1.c" "$1.txt"; }

# growth WHAT NAME: of NAME_1 and NAME_2, with twice the work
growth() { grown "$1" "$(replayed "$2_1")" "$(replayed "$2_2")"; }

# one_by_one COUNT MOVE: a schedule in which so many tasks run in turn, and each gives up its cell by this move; each turn of the loop of main is four acts of it,
# and four more stand round it
one_by_one() {
  awk -v n="$1" -v move="$2" 'BEGIN {
    print "step 0 " n * 4 + 4
    for (i = 0; i < n; i++) { print "step 0." i " 3"; print move " 0." i " 0 1" }
  }'
}

for k in 1 2; do
  # one task gives up each cell of an array by a move of its own
  cells=$((k * 524288))
  printf 'long a[%s];\nint main() {\n#pragma oss task out(a)\n;\n}\n' "$cells" >cells_$k.c
  printf 'step 0 3\nstep 0.0 2\nlet 0.0 0 %s\n' "$cells" >cells_$k.txt
  # tasks that each add to the same cell, one after the other
  tasks=$((k * 10000))
  tasks_source x "$tasks" 'inout(x)' 'x += i;' >chain_$k.c
  # slots of reductions, joined in the order of the tasks
  tasks_source x "$tasks" 'reduction(+: x)' 'x += 1;' >slots_$k.c
  one_by_one "$tasks" let >chain_$k.txt
  one_by_one "$tasks" join >slots_$k.txt
done
growth "one task gives up 524,288 cells, and 1,048,576" cells
growth "10,000 tasks on one cell, and 20,000" chain
growth "10,000 slots of one cell, and 20,000" slots
