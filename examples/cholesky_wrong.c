#include <stdio.h>
// One step of a factorisation by tiles, wrong: the task below the diagonal divides by numbers of the diagonal tile, which its clauses
// do not name. Nothing orders it behind the task that computes them.
long tile[3][4];

#pragma oss task inout([4]d)
void factor(long *d) {
  d[2] /= d[0];
  d[3] -= d[2] * d[1];
}

#pragma oss task inout([4]t)
void solve(long *d, long *t) {
  for (long i = 0; i < 4; i += 2) {
    t[i] /= d[0];
    t[i + 1] = (t[i + 1] - t[i] * d[1]) / d[3];
  }
}

int main() {
  for (long i = 0; i < 12; i++) tile[i / 4][i % 4] = 12 - i;
  factor(tile[0]);
  solve(tile[0], tile[1]);
  solve(tile[0], tile[2]);
#pragma oss taskwait
  printf("%ld %ld\n", tile[1][1], tile[2][1]);
}
