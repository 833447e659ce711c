#!/bin/sh
# Measures the built program beside what one would use instead, in one run, and prints tables: serial loops beside CPython, tasks per second beside
# gcc's OpenMP, how the time of generated programs grows, and how the memory grows with the touches. What is not on the machine is skipped, and
# that is said. A ratio is what nest6 takes relative to what the other takes: below 1 nest6 is the faster one.
# usage: run.sh [PROGRAM], where nothing is said crates/nest6/out/nest6
here=$(CDPATH='' cd -- "$(dirname -- "$0")" && pwd) || exit 1
[ "$#" -gt 0 ] || set -- "$here/../crates/nest6/out/nest6"
[ -x "$1" ] || {
  echo "run.sh: there is no program $1; ./nest6 builds it" >&2
  exit 1
}
# shellcheck source=bench/built.sh
. "$here/built.sh"

has() { command -v "$1" >/dev/null 2>&1; }

# Without python3 the clock is that of date, which adds about a millisecond to each time.
if has python3; then
  python=$(interpreter)
else
  python=
  timed() {
    best=
    for _ in 1 2 3; do
      begin=$(date +%s%N)
      "$@" >/dev/null 2>&1 || echo "status $?" >&2
      took=$(($(date +%s%N) - begin))
      if [ -z "$best" ] || [ "$took" -lt "$best" ]; then best=$took; fi
    done
    awk -v t="$best" 'BEGIN { printf "%.3f", t / 1000000000 }'
  }
fi

# row CELL..: a row of a table
row() {
  printf '|'
  for cell in "$@"; do printf ' %s |' "$cell"; done
  echo
}

# rate COUNT SECONDS
rate() { awk -v n="$1" -v t="$2" 'BEGIN { if (t > 0) printf "%.0f", n / t; else printf "too many to tell" }'; }

# peak WORD..: the most memory of a call, in KiB
peak() {
  if [ -x /usr/bin/time ]; then
    /usr/bin/time -f %M "$@" 2>&1 >/dev/null | tail -n 1
  else
    python3 - "$@" <<'PROGRAM'
import resource, subprocess, sys
subprocess.call(sys.argv[1:], stdout=subprocess.DEVNULL, stderr=subprocess.DEVNULL)
print(resource.getrusage(resource.RUSAGE_CHILDREN).ru_maxrss)
PROGRAM
  fi
}

# beside WHAT NAME: the sequential run of NAME.c beside NAME.py, which print the same
beside() {
  "$program" run --mode=serial --fuel=1000000000 "$2.c" >own.out
  "$python" "$2.py" >other.out
  cmp -s own.out other.out || echo "run.sh: $2.c and $2.py do not print the same" >&2
  own=$(serially "$2")
  other=$(timed "$python" "$2.py")
  row "$1" "$own s" "$other s" "$(ratio "$own" "$other")"
}

# write_serial: the programs that are run beside CPython, NAME.c and NAME.py; numbers wrap at 64 bits where they could be greater
write_serial() {
  echo 'int main() { }' >start.c
  : >start.py
  cat >locals.c <<'PROGRAM'
int main() { long s = 0, i = 0; while (i < 1000000) { s = s + (i ^ 5); i = i + 1; } printf("%ld\n", s); }
PROGRAM
  cat >locals.py <<'PROGRAM'
def main():
    s = 0
    i = 0
    while i < 1000000:
        s = s + (i ^ 5)
        i = i + 1
    print(s)
main()
PROGRAM
  array_source 'unsigned long' %lu 1000 >array.c
  cat >array.py <<'PROGRAM'
a = [0] * 1000
def main():
    for k in range(1000):
        for i in range(1000):
            a[i] = (a[i] * 3 + i) & 0xFFFFFFFFFFFFFFFF
    print(a[999])
main()
PROGRAM
  calls_source 27 >calls.c
  calls_in_python 27 >calls.py
  cat >sieve.c <<'PROGRAM'
long marked[200001];
int main() {
  long primes = 0;
  for (long i = 2; i <= 200000; i++)
    if (marked[i] == 0) {
      primes++;
      for (long j = i + i; j <= 200000; j += i) marked[j] = 1;
    }
  printf("%ld\n", primes);
}
PROGRAM
  cat >sieve.py <<'PROGRAM'
marked = [0] * 200001
def main():
    primes = 0
    for i in range(2, 200001):
        if marked[i] == 0:
            primes += 1
            for j in range(i + i, 200001, i):
                marked[j] = 1
    print(primes)
main()
PROGRAM
}

# write_tasks KIND COUNT PRAGMA CLAUSE: KIND_COUNT.c, in which each of COUNT tasks has CLAUSE and adds to a cell. The same text is for gcc, with other pragmas
write_tasks() {
  cat >"$1_$2.c" <<PROGRAM
#include <stdio.h>
long x[65536];
int main() {
$3
  for (long i = 0; i < $2; i++) {
#pragma $4
    $5
  }
  printf("end\\n");
}
PROGRAM
}

own_chain() { write_tasks chain "$1" '' 'oss task inout(x[0])' 'x[0] = x[0] + i;'; }
own_apart() { write_tasks apart "$1" '' 'oss task out(x[i])' 'x[i] = i;'; }
other_chain() { write_tasks omp_chain "$1" "$open_mp" 'omp task depend(inout: x[0])' 'x[0] = x[0] + i;'; }
other_apart() { write_tasks omp_apart "$1" "$open_mp" 'omp task depend(out: x[i & 65535])' 'x[i & 65535] = i;'; }
open_mp='#pragma omp parallel
#pragma omp single'

# own_rate KIND COUNT MODE: tasks per second
own_rate() { rate "$2" "$(timed "$program" run --mode="$3" --fuel=1000000000 "$1_$2.c")"; }

# other_rate KIND COUNT THREADS
other_rate() { rate "$2" "$(timed env OMP_NUM_THREADS="$3" "./omp_$1_$2")"; }

# tasks_row WHAT KIND COUNT MODE THREADS: the program runs COUNT tasks in this mode, and what gcc makes 500,000 on so many threads
tasks_row() {
  own=$(own_rate "$2" "$3" "$4")
  other=none
  [ -x "./omp_$2_500000" ] && other=$(other_rate "$2" 500000 "$5")
  if [ "$other" = none ]; then row "$1" "$own" skipped ''; else row "$1" "$own" "$other" "$(ratio "$other" "$own")"; fi
}

# threads_rows: 64 tasks that do not wait, by waves on one worker and on more
threads_rows() {
  loops_source 30000 >loops.c
  alone=
  for workers in 1 2 4; do
    now=$(timed "$program" run --mode=waves --workers="$workers" loops.c)
    if [ -z "$alone" ]; then alone=$now; fi
    row "$workers" "$now s" "$(ratio "$now" "$alone")"
  done
}

# soak_rows MODE
soak_rows() {
  before=
  for size in 100 200 400 800; do
    now=$(timed "$program" soak --mode="$1" 7 "$size")
    if [ -z "$before" ]; then row "$1, $size" "$now s" ''; else row "$1, $size" "$now s" "$(ratio "$now" "$before")"; fi
    before=$now
  done
}

# memory_row WHAT NAME TOUCHES MODE: NAME_1.c with so many touches and NAME_2.c with twice as many
memory_row() {
  once=$(peak "$program" run --mode="$4" --fuel=1000000000 "$2_1.c")
  twice=$(peak "$program" run --mode="$4" --fuel=1000000000 "$2_2.c")
  row "$1, $4" "$once KiB" "$twice KiB" "$(awk -v a="$once" -v b="$twice" -v n="$3" 'BEGIN { printf "%.1f", (b - a) * 1024 / n }') bytes"
}

write_memory() {
  for times in 1 2; do
    echo "long x; int main() { for (long i = 0; i < $((times * 500000)); i++) x = i; }" >"one_$times.c"
    filled_source $((times * 250000)) >"cells_$times.c"
    cat >"tasks_$times.c" <<PROGRAM
long x[64];
int main() {
  for (long t = 0; t < 64; t++) {
#pragma oss task inout(x[t])
    for (long i = 0; i < $((times * 5000)); i++) x[t] = x[t] + i;
  }
}
PROGRAM
  done
}

echo "measured on $(date +%F), $(uname -sm), $(getconf _NPROCESSORS_ONLN 2>/dev/null || echo some) processors, load $(cut -d ' ' -f 1 /proc/loadavg 2>/dev/null || echo unknown)"
echo
echo '## Serial loops: nest6 in the mode serial, beside CPython'
echo
if [ -n "$python" ]; then
  write_serial
  echo "$("$python" --version), and the same loops in both. Each time has the start of the program in it; the first row is the start alone."
  echo
  row program nest6 CPython ratio
  echo '|---|---|---|---|'
  beside 'an empty program' start
  beside 'a loop over locals, 1,000,000 turns' locals
  beside 'a loop over an array, 1,000,000 turns' array
  beside 'calls in calls, 317,811 leaves' calls
  beside 'a sieve up to 200,000' sieve
else
  echo 'skipped: python3 is not there'
fi
echo
echo '## Tasks per second, beside gcc -O2 -fopenmp'
echo
for count in 20000 40000; do own_apart "$count"; done
for count in 10000 20000; do own_chain "$count"; done
if has gcc; then
  other_chain 500000
  other_apart 500000
  for kind in chain apart; do
    gcc -O2 -fopenmp -o "omp_${kind}_500000" "omp_${kind}_500000.c" 2>"$work/gcc" || {
      echo "skipped: gcc does not take -fopenmp here"
      rm -f "omp_${kind}_500000"
    }
  done
  echo "$(gcc --version | head -n 1), 500,000 tasks each"
else
  echo 'gcc is skipped: it is not there'
fi
echo
row tasks 'nest6, per second' 'gcc, per second' ratio
echo '|---|---|---|---|'
tasks_row '20,000 tasks apart: serial, and 1 thread' apart 20000 serial 1
tasks_row '20,000 tasks apart: waves, and 4 threads' apart 20000 waves 4
tasks_row '40,000 tasks apart: waves, and 4 threads' apart 40000 waves 4
tasks_row 'a chain of 20,000: serial, and 1 thread' chain 20000 serial 1
tasks_row 'a chain of 10,000: waves, and 4 threads' chain 10000 waves 4
tasks_row 'a chain of 20,000: waves, and 4 threads' chain 20000 waves 4
echo
echo '## Threads: 64 tasks of 90,000 ticks by waves'
echo
row workers time 'relative to the time of one'
echo '|---|---|---|'
threads_rows
echo
echo '## Generated programs: soak 7 N'
echo
row 'mode, N' time 'relative to the time of half of N'
echo '|---|---|---|'
soak_rows serial
soak_rows waves
echo
echo '## Memory per touch'
echo
if [ -x /usr/bin/time ] || has python3; then
  write_memory
  row touches 'most memory' 'with twice the touches' 'for each touch more'
  echo '|---|---|---|---|'
  for mode in serial waves; do
    memory_row '500,000 of one cell' one 500000 "$mode"
    memory_row '640,000 by 64 tasks, of a cell each' tasks 640000 "$mode"
    memory_row '250,000 of a cell each' cells 250000 "$mode"
  done
else
  echo 'skipped: neither /usr/bin/time nor python3 is there'
fi
