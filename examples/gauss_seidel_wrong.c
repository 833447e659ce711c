#include <stdio.h>
// Gauss-Seidel by blocks, wrong: the clauses of a block name the numbers above it, below it and to its left, and not those to its
// right. On one thread the result is right all the same; with threads the block on the right may be changing them.
long grid[6][6];

#pragma oss task inout(grid[top; 2][left; 2]) in(grid[top - 1][left; 2], grid[top + 2][left; 2], grid[top; 2][left - 1])
void relax(long top, long left) {
  for (long i = top; i < top + 2; i++)
    for (long j = left; j < left + 2; j++)
      grid[i][j] = (grid[i - 1][j] + grid[i + 1][j] + grid[i][j - 1] + grid[i][j + 1]) / 4;
}

int main() {
  for (long j = 0; j < 6; j++)
    grid[0][j] = 8000;
  for (long top = 1; top < 5; top += 2)
    for (long left = 1; left < 5; left += 2)
      relax(top, left);
#pragma oss taskwait
  printf("%ld %ld\n", grid[1][1], grid[4][4]);
}
