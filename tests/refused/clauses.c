// each kind of clause, and each form of a section
#include <stdio.h>
long a[8], m[3][3], x, y, s, n = 2;

int main() {
#pragma oss task out(x) label("first") priority(n + 1)
  x = 1;
#pragma oss task in(x) inout(y) if(n > 5)
  y = x + 1;
#pragma oss task weakinout(a[0:3]) weakout(a[4;2]) final(n == 7)
  {
#pragma oss task out(a[0:3], a[4;2])
    for (long i = 0; i < 6; i++)
      a[i] = i;
  }
#pragma oss task reduction(+ : s)
  s += 5;
#pragma oss task weakreduction(+ : s)
  {
#pragma oss task reduction(+ : s)
    s += 6;
  }
#pragma oss task inout(m[0:1][1]) wait
  {
    m[0][1] = 3;
    m[1][1] = 4;
#pragma oss task inout(m[0][1])
    m[0][1] += 1;
  }
#pragma oss task weakin(a) in({ a[i], i = 0; 4 }, { a[i], i = 4; 2 }) inout(y)
  y += a[1];
#pragma oss taskwait on(x, s)
  printf("%ld %ld\n", x, s);
#pragma oss taskwait
  printf("%ld %ld %ld\n", y, m[0][1], a[5]);
}
