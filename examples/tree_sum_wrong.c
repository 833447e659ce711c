#include <stdio.h>
// The sum of an array by a tree of tasks, wrong: the task in between has the counter with weakin, and its leaves fold into it. What a task
// gives to its children it has to have itself, as something to fold into and not to read.
long number[8], sum;

#pragma oss task in([n]p) reduction(+: sum)
void leaf(long *p, long n) {
  for (long i = 0; i < n; i++) sum += p[i];
}

int main() {
  for (long i = 0; i < 8; i++) number[i] = i;
#pragma oss task weakin(number, sum)
  {
    leaf(number, 4);
    leaf(number + 4, 4);
  }
#pragma oss taskwait
  printf("%ld\n", sum);
}
