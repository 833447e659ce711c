#include <stdio.h>
// A task loop cuts its turns into tasks of 4. In the clauses i is the first turn of the task, so each names its own 4 numbers. The
// pointer of the second loop walks over the same array from behind.
long a[16];

int main() {
#pragma oss taskloop grainsize(4) out(a[i; 4])
  for (long i = 0; i < 16; i++)
    a[i] = i * i;
  long *last = &a[15];
#pragma oss taskloop grainsize(4) inout(last[-i - 3; 4])
  for (long i = 0; i < 16; i++)
    last[-i] -= 2 * (15 - i);
#pragma oss taskwait
  for (long i = 0; i < 16; i++)
    printf("%ld ", a[i]);
  printf("\n");
}
