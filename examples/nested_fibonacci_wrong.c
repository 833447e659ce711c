#include <stdio.h>
// Fibonacci numbers by a tree of tasks, wrong: the task adds the results of its two children itself, and does not wait for them. What it
// has lent to a child for writing it may not read before a taskwait.
long cell[70];

long cells(long n) {
  if (n < 2) return 1;
  return 1 + cells(n - 1) + cells(n - 2);
}

#pragma oss task out(r[0; cells(n)])
void fib(long *r, long n) {
  if (n < 2) {
    *r = n;
    return;
  }
  long *x = r + 1, *y = x + cells(n - 1);
  fib(x, n - 1);
  fib(y, n - 2);
  *r = *x + *y;
}

int main() {
  fib(cell, 8);
#pragma oss taskwait
  printf("fib(8) = %ld\n", cell[0]);
}
