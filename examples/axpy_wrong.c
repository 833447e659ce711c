#include <stdio.h>
// y = 3 * x + y by blocks, wrong: the outer task names the block of y and forgets that of x. It does not read x itself, but it creates
// tasks that do, and can give them no right that it does not have.
long x[64], y[64];

#pragma oss task in([n]p) inout([n]q)
void axpy(long a, long *p, long *q, long n) {
  for (long i = 0; i < n; i++)
    q[i] += a * p[i];
}

int main() {
  for (long i = 0; i < 64; i++) {
    x[i] = i;
    y[i] = 1;
  }
  for (long b = 0; b < 64; b += 16) {
#pragma oss task weakinout(y[b; 16])
    for (long k = b; k < b + 16; k += 4)
      axpy(3, &x[k], &y[k], 4);
  }
#pragma oss taskwait
  printf("%ld %ld\n", y[0], y[63]);
}
