#!/bin/sh
# Times runs by waves of the built program, or of PROGRAM where one is handed over, and prints a table: how much faster two and four workers are than one on tasks that do not wait for each other, and
# how one is beside a run of one task after the other; how the time of a generated program grows with its size; and how runs by waves stand beside those of one task after the other where tasks are many.
# It wants `python3` for the clock.
# usage: waves.sh [PROGRAM]
# shellcheck source=bench/built.sh
. "$(dirname -- "$0")/built.sh"

loops_source 100000 >loops.c
chain_source 10000 >chain.c
apart_source 20000 20000 >apart.c

echo "what | first | second | ratio"
alone=$(timed "$program" run loops.c --workers=1)
grown "64 tasks of 300,000 ticks: serial, 1 worker" "$(timed "$program" run loops.c --mode=serial)" "$alone"
grown "64 tasks of 300,000 ticks: 2 workers, 1 worker" "$(timed "$program" run loops.c --workers=2)" "$alone"
grown "64 tasks of 300,000 ticks: 4 workers, 1 worker" "$(timed "$program" run loops.c --workers=4)" "$alone"
before=$(timed "$program" soak 7 100)
for size in 200 400 800; do
  now=$(timed "$program" soak 7 "$size")
  grown "soak 7 $((size / 2)), soak 7 $size" "$before" "$now"
  before=$now
done
grown "20,000 tasks apart: serial, by waves" "$(timed "$program" run apart.c --mode=serial)" "$(timed "$program" run apart.c)"
grown "a chain of 10,000 tasks: serial, by waves" "$(timed "$program" run chain.c --mode=serial)" "$(timed "$program" run chain.c)"
