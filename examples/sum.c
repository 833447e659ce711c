#include <stdio.h>
// Three tasks add to one cell under a reduction. None waits for another: each has a slot of its own, which is joined into the cell behind
// its end.
long sum = 100;

int main() {
  for (long i = 1; i < 4; i++) {
#pragma oss task reduction(+: sum)
    sum += 10 * i;
  }
#pragma oss taskwait
  printf("%ld\n", sum);
}
