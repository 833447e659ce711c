#include <stdio.h>
// The sums of the two halves of an array. Each clause names the whole array, where its task needs one half: so all four tasks run one after the other.
long a[8], sums[2];

int main() {
  for (long half = 0; half < 2; half++) {
#pragma oss task inout(a)
    for (long i = 0; i < 4; i++) a[4 * half + i] = half + i;
#pragma oss task in(a) out(sums[half])
    {
      long sum = 0;
      for (long i = 0; i < 4; i++) sum += a[4 * half + i];
      sums[half] = sum;
    }
  }
#pragma oss taskwait
  printf("%ld %ld\n", sums[0], sums[1]);
}
