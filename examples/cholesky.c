#include <stdio.h>
// A matrix of 16 x 16 numbers is split as l * l', where l is a lower triangle, by tiles of 2 x 2. The matrix is made from a triangle
// of small numbers, so all roots and quotients are whole. A tile is a row of four numbers of `tile`: the tile in row i and column j is
// tile[8 * i + j]. Each of the 8 steps is an outer task that names all tiles by weak accesses and creates the tasks of its step.
// It touches no tile itself, so it waits for none: all eight create their tasks at once, and these are ordered tile by tile.
long known[16][16], tile[64][4];

long root(long n) {
  long r = 0;
  while ((r + 1) * (r + 1) <= n) r++;
  return r;
}

#pragma oss task inout([4]d) label(diagonal)
void factor(long *d) {
  d[0] = root(d[0]);
  d[2] /= d[0];
  d[3] = root(d[3] - d[2] * d[2]);
  d[1] = 0;
}

#pragma oss task in([4]d) inout([4]t) label(below)
void solve(long *d, long *t) {
  for (long i = 0; i < 4; i += 2) {
    t[i] /= d[0];
    t[i + 1] = (t[i + 1] - t[i] * d[2]) / d[3];
  }
}

#pragma oss task in([4]l, [4]r) inout([4]t) label(rest)
void update(long *l, long *r, long *t) {
  for (long i = 0; i < 2; i++)
    for (long j = 0; j < 2; j++)
      t[2 * i + j] -= l[2 * i] * r[2 * j] + l[2 * i + 1] * r[2 * j + 1];
}

int main() {
  for (long i = 0; i < 16; i++) {
    for (long j = 0; j < i; j++) known[i][j] = (3 * i + 5 * j) % 7 - 3;
    known[i][i] = 1 + i % 3;
  }
  for (long i = 0; i < 16; i++)
    for (long j = 0; j <= i; j++) {
      long sum = 0;
      for (long k = 0; k <= j; k++) sum += known[i][k] * known[j][k];
      tile[8 * (i / 2) + j / 2][2 * (i % 2) + j % 2] = sum;
      if (i / 2 == j / 2) tile[8 * (i / 2) + j / 2][2 * (j % 2) + i % 2] = sum;
    }
  for (long k = 0; k < 8; k++) {
#pragma oss task weakinout(tile) label(step)
    {
      factor(tile[8 * k + k]);
      for (long i = k + 1; i < 8; i++) solve(tile[8 * k + k], tile[8 * i + k]);
      for (long i = k + 1; i < 8; i++)
        for (long j = k + 1; j <= i; j++) update(tile[8 * i + k], tile[8 * j + k], tile[8 * i + j]);
    }
  }
#pragma oss taskwait
  long wrong = 0;
  for (long i = 0; i < 16; i++)
    for (long j = 0; j <= i; j++)
      if (tile[8 * (i / 2) + j / 2][2 * (i % 2) + j % 2] != known[i][j]) wrong++;
  for (long i = 0; i < 4; i++) {
    for (long j = 0; j <= i; j++) printf("%ld ", tile[8 * (i / 2) + j / 2][2 * (i % 2) + j % 2]);
    printf("\n");
  }
  printf("%ld wrong\n", wrong);
}
