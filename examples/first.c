#include <stdio.h>
// One task. It says with out(x) that it writes x, and main waits for it before it reads x.
long x;

int main() {
#pragma oss task out(x)
  x = 6 * 7;
#pragma oss taskwait
  printf("%ld\n", x);
}
