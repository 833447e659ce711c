#include <stdio.h>
// The product of two matrices of 16 x 16 numbers by tiles of 4 x 4. Each task adds one product of tiles to a tile of the result. The four
// tasks of one result are ordered by its inout; the sixteen results are apart from each other.
long a[16][16], b[16][16], c[16][16];

#pragma oss task in(a[i; 4][k; 4], b[k; 4][j; 4]) inout(c[i; 4][j; 4]) label(tile)
void multiply(long i, long j, long k) {
  for (long row = i; row < i + 4; row++)
    for (long column = j; column < j + 4; column++)
      for (long m = k; m < k + 4; m++)
        c[row][column] += a[row][m] * b[m][column];
}

int main() {
  for (long i = 0; i < 16; i++)
    for (long j = 0; j < 16; j++) {
      a[i][j] = (i + 2 * j) % 5;
      b[i][j] = (3 * i + j) % 7 - 3;
    }
  for (long i = 0; i < 16; i += 4)
    for (long j = 0; j < 16; j += 4)
      for (long k = 0; k < 16; k += 4)
        multiply(i, j, k);
#pragma oss taskwait
  long diagonal = 0;
  for (long i = 0; i < 16; i++) diagonal += c[i][i];
  printf("%ld %ld %ld %ld, diagonal %ld\n", c[0][0], c[0][15], c[15][0], c[15][15], diagonal);
}
