#include <stdio.h>
// An array by blocks of four. Each call of `fill` and of `twice` is a task, whose clauses speak of the parameters: [4]p is p[0] to p[3].
long a[8];

#pragma oss task out([4]p)
void fill(long *p, long first) {
  for (long i = 0; i < 4; i++) p[i] = first + i;
}

#pragma oss task inout([4]p)
void twice(long *p) {
  for (long i = 0; i < 4; i++) p[i] = 2 * p[i];
}

int main() {
  fill(a, 1);
  fill(a + 4, 5);
  twice(a);
  twice(a + 4);
#pragma oss taskwait
  for (long i = 0; i < 8; i += 4) printf("%ld %ld %ld %ld\n", a[i], a[i + 1], a[i + 2], a[i + 3]);
}
