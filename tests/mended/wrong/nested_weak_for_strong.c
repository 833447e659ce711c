#include <stdio.h>
// Tasks in one another, with weak accesses.
long a, b, c, d, e, f;
int main() {
#pragma oss task weakinout(a, b) // T1
  {
    a++; b++;
#pragma oss task inout(a) // T1.1
    a += 10;
#pragma oss task inout(b) // T1.2
    b += 20;
  }
#pragma oss task in(a, b) out(c, d) label(T2)
  {
#pragma oss task in(a) out(c) // T2.1
    c = a + 1;
#pragma oss task in(b) out(d) // T2.2
    d = b + 1;
  }
#pragma oss task weakin(a, b, c) weakout(d, e, f) label(T3)
  {
#pragma oss task in(a, b) out(e) // T3.1
    e = a + b;
#pragma oss task in(c) out(f) // T3.2
    f = c;
  }
#pragma oss task in(c, d, e, f) label(T4)
  printf("%ld %ld %ld %ld\n", c, d, e, f);
#pragma oss taskwait
}
