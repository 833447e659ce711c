#include <stdio.h>
long a, b = 1, c;
int main() {
  c = a + b; a = b; b = c; printf("%ld", a);
  c = a + b; a = b; b = c; printf(" %ld", a);
  c = a + b; a = b; b = c; printf(" %ld", a);
  c = a + b; a = b; b = c; printf(" %ld", a);
  c = a + b; a = b; b = c; printf(" %ld", a);
  c = a + b; a = b; b = c; printf(" %ld\n", a);
}
