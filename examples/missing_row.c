#include <stdio.h>
// A wrong annotation: each task reads the row above its own, and names its own row alone. On one thread the values would be right
// all the same; the run tells the line of the first read without right, and what was printed before.
long m[4][4];

int main() {
  for (long j = 0; j < 4; j++)
    m[0][j] = 10 + j;
  printf("begin\n");
  for (long i = 1; i < 4; i++) {
#pragma oss task out(m[i])
    for (long j = 0; j < 4; j++)
      m[i][j] = m[i - 1][j] + 1;
  }
#pragma oss taskwait
  printf("%ld\n", m[3][3]);
}
