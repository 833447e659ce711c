#include <stdio.h>
// A stencil over a grid of 8 x 8 numbers, in place and by blocks of 2 rows: each inner number becomes the mean of its four
// neighbours. The task of a block names its own rows with inout, and the row above and the row below by a multidependency. So the
// second step of a block begins when its neighbours have done what it needs, and a diagonal of blocks can run at once.
long grid[8][8];

int main() {
  for (long j = 0; j < 8; j++)
    grid[0][j] = 1000;
  for (long step = 0; step < 3; step++)
    for (long top = 1; top < 7; top += 2) {
#pragma oss task inout(grid[top; 2]) in({grid[top - 1 + 3 * k], k = 0; 2})
      for (long i = top; i < top + 2; i++)
        for (long j = 1; j < 7; j++)
          grid[i][j] = (grid[i - 1][j] + grid[i + 1][j] + grid[i][j - 1] + grid[i][j + 1]) / 4;
    }
#pragma oss taskwait
  for (long i = 0; i < 8; i++)
    printf("%ld %ld %ld %ld\n", grid[i][0], grid[i][1], grid[i][3], grid[i][6]);
}
