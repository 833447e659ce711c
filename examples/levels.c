#include <stdio.h>
// Early release across levels. Two tasks, `north` and `south`, each create one task for the cell `left` and one for the cell `right`, and
// name both cells by weak accesses alone. Below `north` the work on `left` is short and that on `right` is long. As soon as the short
// one has ended, the task on `left` below `south` may run, though `north` has another child that is still at work:
// tasks are ordered as if those of both levels stood in one list. Compare the trace with that of levels_strong.c.
long left = 1, right = 1, sum;

int main() {
#pragma oss task weakinout(left, right) label(north)
  {
#pragma oss task inout(left) label(quick)
    left += 10;
#pragma oss task inout(right) label(slow)
    for (long i = 0; i < 3000; i++) right = (right * 3 + i) % 1009;
  }
#pragma oss task weakinout(left, right) label(south)
  {
#pragma oss task inout(left) label(left)
    left *= 2;
#pragma oss task inout(right) label(right)
    right *= 2;
  }
#pragma oss task in(left) label(reader)
  printf("left %ld\n", left);
#pragma oss task in(left, right) out(sum) label(sum)
  sum = left + right;
#pragma oss taskwait
  printf("sum %ld\n", sum);
}
