#include <stdio.h>
// A product by tiles, wrong: the rows and the columns of the second factor are mixed up in its section. On the diagonal both are the
// same, so the first task keeps to its clauses; the second, with another tile of b, does not.
long a[8][8], b[8][8], c[8][8];

#pragma oss task in(a[i; 4][k; 4], b[j; 4][k; 4]) inout(c[i; 4][j; 4])
void multiply(long i, long j, long k) {
  for (long row = i; row < i + 4; row++)
    for (long column = j; column < j + 4; column++)
      for (long m = k; m < k + 4; m++)
        c[row][column] += a[row][m] * b[m][column];
}

int main() {
  for (long i = 0; i < 8; i++)
    for (long j = 0; j < 8; j++) {
      a[i][j] = i + j;
      b[i][j] = i - j;
    }
  for (long i = 0; i < 8; i += 4)
    for (long j = 0; j < 8; j += 4)
      for (long k = 0; k < 8; k += 4)
        multiply(i, j, k);
#pragma oss taskwait
  printf("%ld %ld\n", c[0][0], c[7][7]);
}
