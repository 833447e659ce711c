#include <stdio.h>
int i = 2147483647;
unsigned long u;
long t = -5;
int main() {
  i = i + 1;
  u = u - 1;
  t = t + i;
  printf("%d %lu %ld\n", i, u, t);
}
