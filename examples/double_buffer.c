#include <stdio.h>
// A stencil with two buffers: in each step a row of 64 numbers is read from one row of `heat` and written to the other, by blocks of 8.
// A block reads one number beyond each of its ends. Its task waits for three blocks of the step before and not for the whole step; and that
// it overwrites what the step before read is ordered too, since those tasks have named it with in.
long heat[2][66];

#pragma oss task in(heat[old][left - 1; 10]) out(heat[1 - old][left; 8]) label(block)
void step(long old, long left) {
  for (long j = left; j < left + 8; j++)
    heat[1 - old][j] = (heat[old][j - 1] + 2 * heat[old][j] + heat[old][j + 1]) / 4;
}

int main() {
  for (long j = 0; j < 66; j++) heat[0][j] = j * j % 97 * 100;
  heat[1][0] = heat[0][0];
  heat[1][65] = heat[0][65];
  for (long turn = 0; turn < 10; turn++)
    for (long left = 1; left < 65; left += 8)
      step(turn % 2, left);
#pragma oss taskwait
  for (long j = 1; j < 65; j += 16) printf("%ld %ld\n", heat[0][j], heat[0][j + 8]);
}
