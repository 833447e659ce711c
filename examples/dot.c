#include <stdio.h>
// The product of two vectors by blocks of 8. Each task adds to sum under a reduction, so none of them waits for another, and each
// finds the bits that all and that any of the products have. The task that prints names the three with in: it comes behind all.
long x[40], y[40], sum, all = -1, any;

int main() {
  for (long i = 0; i < 40; i++) {
    x[i] = 2 * i + 1;
    y[i] = 2 * i + 5;
  }
#pragma oss taskloop grainsize(8) in(x[i; 8], y[i; 8]) reduction(+: sum) reduction(&: all) reduction(|: any)
  for (long i = 0; i < 40; i++) {
    sum += x[i] * y[i];
    all &= x[i] * y[i];
    any |= x[i] * y[i];
  }
#pragma oss task in(sum, all, any)
  printf("%ld %ld %ld\n", sum, all, any);
}
