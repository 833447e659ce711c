// each kind of statement
#include <stdio.h>
long a[4], x, y;
int i;
unsigned long u;

long half(long n) {
  if (n < 2)
    return 0;
  return n / 2;
}

void twice(long *p) {
  *p *= 2;
  return;
}

int main() {
  long k, n = 3, *p = a;
  ;
  for (k = 0; k < 4; k++) {
    if (k == 2)
      continue;
    a[k] = k + half(n);
  }
  while (1) {
    n--;
    if (n < 0)
      break;
    else
      x += n;
  }
  p = &a[1];
  twice(p);
  twice(&x);
  i = 2147483647;
  i++;
  u -= 1;
  y = x > 3 && a[0] || !n;
  printf("%ld %ld %d %lu %ld %%\n", a[1], x, i, u, y);
  printf("the end\n");
}
