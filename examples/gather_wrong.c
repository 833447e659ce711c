#include <stdio.h>
// A gather, wrong: the multidependency has as many turns as cells are wanted less one, so the last cell is read and not named.
long value[16], every;

int main() {
  for (long i = 0; i < 16; i++) {
#pragma oss task out(value[i])
    value[i] = i * i;
  }
#pragma oss task in({value[4 * k], k = 0; 3}) out(every)
  {
    every = 0;
    for (long k = 0; k < 4; k++) every += value[4 * k];
  }
#pragma oss taskwait
  printf("%ld\n", every);
}
