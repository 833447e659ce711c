#include <stdio.h>
// The program levels.c without what makes its release early: `north` and `south` name the cells by strong accesses, and with the clause
// `wait` give them up only when all their children are complete. It prints the same. In its trace `south` acts behind the
// end of the long task, and so does all that is below it.
long left = 1, right = 1, sum;

int main() {
#pragma oss task inout(left, right) wait label(north)
  {
#pragma oss task inout(left) label(quick)
    left += 10;
#pragma oss task inout(right) label(slow)
    for (long i = 0; i < 3000; i++) right = (right * 3 + i) % 1009;
  }
#pragma oss task inout(left, right) wait label(south)
  {
#pragma oss task inout(left) label(left)
    left *= 2;
#pragma oss task inout(right) label(right)
    right *= 2;
  }
#pragma oss task in(left) label(reader)
  printf("left %ld\n", left);
#pragma oss task in(left, right) out(sum) label(sum)
  sum = left + right;
#pragma oss taskwait
  printf("sum %ld\n", sum);
}
