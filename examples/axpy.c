#include <stdio.h>
// y = 3 * x + y by blocks. An outer task names a block of 16 numbers by weak accesses: it touches none of them itself, and its
// four inner tasks, each of a call of axpy, begin as soon as their own 4 numbers are free. Nobody waits between the two sweeps.
long x[64], y[64];

#pragma oss task in([n]p) inout([n]q) label(axpy)
void axpy(long a, long *p, long *q, long n) {
  for (long i = 0; i < n; i++)
    q[i] += a * p[i];
}

void sweep(long a) {
  for (long b = 0; b < 64; b += 16) {
#pragma oss task weakin(x[b; 16]) weakinout(y[b; 16]) label(block)
    for (long k = b; k < b + 16; k += 4)
      axpy(a, &x[k], &y[k], 4);
  }
}

int main() {
  for (long i = 0; i < 64; i++) {
    x[i] = i;
    y[i] = 1;
  }
  sweep(3);
  sweep(-2);
#pragma oss taskwait
  printf("%ld %ld %ld %ld\n", y[0], y[1], y[31], y[63]);
}
