#!/bin/sh
# Times programs in the sequential run of the built program, and the same loops in CPython, in one and the same call, and prints a row
# each: the program, its seconds, those of CPython and their ratio. Then it prints what twice the work takes, as a ratio: the growth of ticks, of
# tasks of one creator, of nested tasks, of cells of an array and of lent ranges. It wants `python3`, for the clock too. `bench/programs.sh PROGRAM` times
# another program.
# shellcheck source=bench/built.sh
. "$(dirname -- "$0")/built.sh"
python=$(interpreter) || exit 1

# beside WHAT NAME: the sequential run of NAME.c beside NAME.py in CPython
beside() {
  own=$(serially "$2")
  other=$(timed "$python" "$2.py")
  echo "$1 | $own s | $other s | $(ratio "$own" "$other")"
}

# growth WHAT NAME: the sequential runs of NAME_1.c, and of NAME_2.c with twice the work
growth() { grown "$1" "$(serially "$2_1")" "$(serially "$2_2")"; }

array_source long %ld 300 >arrays.c
cat >arrays.py <<'PROGRAM'
a = [0] * 1000
def main():
    k = 0
    while k < 300:
        i = 0
        while i < 1000:
            a[i] = (a[i] * 3 + i) & 0xFFFFFFFFFFFFFFFF
            i += 1
        k += 1
    print(a[999])
main()
PROGRAM
calls_source 24 >calls.c
calls_in_python 24 >calls.py
cat >reduction.c <<'PROGRAM'
unsigned long s;
int main() {
  for (long k = 0; k < 10; k++) {
#pragma oss task reduction(+: s)
    for (long i = 0; i < 30000; i++) s += i ^ k;
  }
#pragma oss taskwait
  printf("%lu\n", s);
}
PROGRAM
cat >reduction.py <<'PROGRAM'
s = 0
def task(k):
    global s
    i = 0
    while i < 30000:
        s = (s + (i ^ k)) & 0xFFFFFFFFFFFFFFFF
        i += 1
def main():
    k = 0
    while k < 10:
        task(k)
        k += 1
    print(s)
main()
PROGRAM
cat >creators.c <<'PROGRAM'
long a[4];
int main() {
  for (long c = 0; c < 4; c++) {
#pragma oss task inout(a[c])
    {
      for (long i = 0; i < 25000; i++) {
#pragma oss task inout(a[c])
        a[c] = a[c] + i;
      }
    }
  }
#pragma oss taskwait
  printf("%ld\n", a[3]);
}
PROGRAM
cat >creators.py <<'PROGRAM'
a = [0] * 4
def task(c, i):
    a[c] = a[c] + i
def creator(c):
    i = 0
    while i < 25000:
        task(c, i)
        i += 1
def main():
    c = 0
    while c < 4:
        creator(c)
        c += 1
    print(a[3])
main()
PROGRAM

growth_sources 1

echo 'program | nest6 | CPython | ratio'
beside 'array loops, 300,000 turns' arrays
beside 'nested calls, 75,025 leaves' calls
beside 'a reduction in ten tasks, 300,000 folds' reduction
beside 'four creators of 25,000 tasks each' creators
echo 'growth | once | twice | ratio'
growth_rows growth
