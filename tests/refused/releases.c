// releases, included tasks, task functions, task loops, and tasks inside of tasks
#include <stdio.h>
long a[6], x, y;

#pragma oss task inout(*p)
void more(long *p) { *p += 1; }

int main() {
#pragma oss task inout(x, y)
  {
    x = 1;
#pragma oss release out(x)
    y = 2;
#pragma oss task inout(y)
    {
      y += 3;
#pragma oss task inout(y)
      y += 4;
    }
  }
#pragma oss task inout(x) final(1)
  {
#pragma oss task inout(x)
    x += 5;
  }
  more(&x);
#pragma oss taskloop grainsize(2) out(a[i;2])
  for (long i = 0; i < 6; i++)
    a[i] = i;
#pragma oss taskwait
  printf("%ld %ld %ld\n", x, y, a[5]);
}
