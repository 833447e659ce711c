#include <stdio.h>
// Main reads what it has lent to a child, and does not wait for it: a fault.
long x, y;
int main() {
#pragma oss task out(x)
  x = 5;
#pragma oss task in(x) out(y)
  y = x + 1;
  printf("%ld\n", y);
}
