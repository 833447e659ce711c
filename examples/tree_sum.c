#include <stdio.h>
// The sum of an array by a tree of tasks, and beside it how many numbers are odd. A task `half` folds into neither counter itself: it has
// both by weak reductions, for the tasks below it. The leaves fold, in whatever order they come. For a task with twelve numbers or fewer
// its creator waits, by a false if: so few are not worth a task that runs beside it.
long number[96], sum, odd;

#pragma oss task in([n]p) reduction(+: sum, odd) label(leaf)
void leaf(long *p, long n) {
  for (long i = 0; i < n; i++) {
    sum += p[i];
    odd += p[i] & 1;
  }
}

#pragma oss task weakin([n]p) weakreduction(+: sum, odd) if(n > 12) label(half)
void half(long *p, long n) {
  if (n <= 6) {
    leaf(p, n);
    return;
  }
  half(p, n / 2);
  half(p + n / 2, n - n / 2);
}

int main() {
  for (long i = 0; i < 96; i++) number[i] = i * i % 50;
  half(number, 96);
#pragma oss taskwait
  printf("sum %ld, %ld odd\n", sum, odd);
}
