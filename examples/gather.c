#include <stdio.h>
// A gather: each sum is of three cells that lie anywhere in an array. Which cells a task reads is known only when it is created, so its
// clause is a multidependency over a table. Each cell is the result of a task of its own, and a sum waits for its three
// alone. The last task gathers every fourth cell, by a multidependency with a stride.
long value[16], from[5][3], sum[5], every;

int main() {
  for (long i = 0; i < 5; i++)
    for (long k = 0; k < 3; k++) from[i][k] = (7 * i + 5 * k) % 16;
  for (long i = 0; i < 16; i++) {
#pragma oss task out(value[i]) label(value)
    value[i] = i * i;
  }
  for (long i = 0; i < 5; i++) {
#pragma oss task in(from[i], {value[from[i][k]], k = 0; 3}) out(sum[i]) label(sum)
    {
      sum[i] = 0;
      for (long k = 0; k < 3; k++) sum[i] += value[from[i][k]];
    }
  }
#pragma oss task in({value[4 * k], k = 0; 4}) out(every) label(every)
  {
    every = 0;
    for (long k = 0; k < 4; k++) every += value[4 * k];
  }
#pragma oss taskwait
  for (long i = 0; i < 5; i++) printf("%ld ", sum[i]);
  printf("%ld\n", every);
}
