#include <stdio.h>
// Early release across levels, wrong: `north` names the cells by weak accesses, which are for the tasks below it, and then changes one
// of them itself. With inout(left) weakinout(right) it might.
long left = 1, right = 1;

int main() {
#pragma oss task weakinout(left, right) label(north)
  {
    left += 10;
#pragma oss task inout(right)
    right += 10;
  }
#pragma oss taskwait
  printf("%ld %ld\n", left, right);
}
