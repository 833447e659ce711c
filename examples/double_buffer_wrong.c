#include <stdio.h>
// A stencil with two buffers, wrong: the clause in names the eight numbers of the block, and not the one beyond each end. In the first
// block the number on the left is the edge, which no task writes, but the judge looks at clauses: what is not named is not read.
long heat[2][18];

#pragma oss task in(heat[old][left; 8]) out(heat[1 - old][left; 8])
void step(long old, long left) {
  for (long j = left; j < left + 8; j++)
    heat[1 - old][j] = (heat[old][j - 1] + 2 * heat[old][j] + heat[old][j + 1]) / 4;
}

int main() {
  for (long j = 0; j < 18; j++) heat[0][j] = j * 100;
  for (long turn = 0; turn < 2; turn++)
    for (long left = 1; left < 17; left += 8)
      step(turn % 2, left);
#pragma oss taskwait
  printf("%ld %ld\n", heat[0][1], heat[0][16]);
}
