#include <stdio.h>
// Two tasks that have nothing to do with each other, and a third that needs both.
long left, right, both;

int main() {
#pragma oss task out(left)
  left = 20;
#pragma oss task out(right)
  right = 22;
#pragma oss task in(left, right) out(both)
  both = left + right;
#pragma oss taskwait
  printf("%ld\n", both);
}
