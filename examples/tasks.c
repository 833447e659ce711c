#include <stdio.h>
// Three statements of arithmetic in two tasks: the second reads what the first wrote.
long x, y;
int main() {
#pragma oss task out(x)
  x = 5;
#pragma oss task in(x) out(y)
  y = x + 1;
#pragma oss taskwait
  printf("%ld\n", y);
}
