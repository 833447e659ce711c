#include <stdio.h>
// A task loop, wrong: in the clauses i is the first turn of the task, so this names one of the four numbers that the task writes.
long a[16];

int main() {
#pragma oss taskloop grainsize(4) out(a[i])
  for (long i = 0; i < 16; i++)
    a[i] = i * i;
#pragma oss taskwait
  printf("%ld\n", a[15]);
}
