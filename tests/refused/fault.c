// a fault inside of a task that is one of several
#include <stdio.h>
long a[4], b;

int main() {
  for (long i = 0; i < 4; i++) {
#pragma oss task out(a[i])
    {
      a[i] = i;
      printf("%ld\n", i);
    }
  }
#pragma oss task in(a) out(b)
  b = a[3] / (a[1] - 1);
#pragma oss taskwait
  printf("%ld\n", b);
}
