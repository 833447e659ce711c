#include <stdio.h>
// The same three tasks, wrong: the third names one of the two cells that it reads.
long left, right, both;

int main() {
#pragma oss task out(left)
  left = 20;
#pragma oss task out(right)
  right = 22;
#pragma oss task in(left) out(both)
  both = left + right;
#pragma oss taskwait
  printf("%ld\n", both);
}
