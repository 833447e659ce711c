#include <stdio.h>
// Gauss-Seidel on a grid of 18 x 18 numbers, in place and by blocks of 2 x 2: each inner number becomes the mean of its four
// neighbours, those above and to the left being new already. A task has its block with inout, and of each neighbour only the two
// numbers that it reads. So the blocks of a sweep run diagonal by diagonal, and the next sweep begins in the corner that is done.
long grid[18][18];

#pragma oss task inout(grid[top; 2][left; 2]) \
  in(grid[top - 1][left; 2], grid[top + 2][left; 2], grid[top; 2][left - 1], grid[top; 2][left + 2]) label(block)
void relax(long top, long left) {
  for (long i = top; i < top + 2; i++)
    for (long j = left; j < left + 2; j++)
      grid[i][j] = (grid[i - 1][j] + grid[i + 1][j] + grid[i][j - 1] + grid[i][j + 1]) / 4;
}

int main() {
  for (long j = 0; j < 18; j++) {
    grid[0][j] = 8000;
    grid[j][0] = 4000;
  }
  for (long sweep = 0; sweep < 4; sweep++)
    for (long top = 1; top < 17; top += 2)
      for (long left = 1; left < 17; left += 2)
        relax(top, left);
#pragma oss taskwait
  for (long i = 0; i < 18; i += 3)
    printf("%ld %ld %ld %ld\n", grid[i][1], grid[i][5], grid[i][9], grid[i][16]);
}
