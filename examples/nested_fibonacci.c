#include <stdio.h>
// Fibonacci numbers by a tree of tasks, each with a cell for its result. The cells of a tree lie one behind the other: its own, those
// of the left tree, those of the right one. A task `fib` names all of them by a weak access and touches none; what adds two results
// is a task of its own, which begins when both are there. So no task ever waits inside of its body.
long cell[70];

long cells(long n) {
  if (n < 2) return 1;
  return 1 + cells(n - 1) + cells(n - 2);
}

#pragma oss task out(*r) label(leaf)
void leaf(long *r, long n) { *r = n; }

#pragma oss task in(*x, *y) out(*r) label(add)
void add(long *r, long *x, long *y) { *r = *x + *y; }

#pragma oss task weakout(r[0; cells(n)]) label(fib)
void fib(long *r, long n) {
  if (n < 2) {
    leaf(r, n);
    return;
  }
  long *x = r + 1, *y = x + cells(n - 1);
  fib(x, n - 1);
  fib(y, n - 2);
  add(r, x, y);
}

int main() {
  fib(cell, 8);
#pragma oss taskwait
  printf("%ld cells, fib(8) = %ld\n", cells(8), cell[0]);
}
