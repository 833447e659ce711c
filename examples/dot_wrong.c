#include <stdio.h>
// The product of two vectors by blocks, wrong: the clauses of the tasks say what they read, and nothing of the sum to which they add. On
// several threads an update would be lost now and then. With inout(sum) the blocks would run one after the other, and with a
// reduction side by side.
long x[40], y[40], sum;

int main() {
  for (long i = 0; i < 40; i++) {
    x[i] = 2 * i + 1;
    y[i] = 2 * i + 5;
  }
#pragma oss taskloop grainsize(8) in(x[i; 8], y[i; 8])
  for (long i = 0; i < 40; i++)
    sum += x[i] * y[i];
#pragma oss taskwait
  printf("%ld\n", sum);
}
