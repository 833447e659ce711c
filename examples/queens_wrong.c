#include <stdio.h>
// Queens on a board of 6 x 6, wrong: the search is to end with the first solution, so each task reads the counter. Under a
// reduction a task has only its own share of the counter, and what it would read depends on which tasks have run.
long ways;

#pragma oss task reduction(+: ways)
void place(long row, long columns, long falling, long rising) {
  if (row == 6) {
    ways += 1;
    return;
  }
  if (ways > 0) return;
  for (long c = 0; c < 6; c++) {
    long queen = 1 << c;
    if (((columns | falling | rising) & queen) == 0)
      place(row + 1, columns | queen, (falling | queen) << 1, (rising | queen) >> 1);
  }
}

int main() {
  place(0, 0, 0, 0);
#pragma oss taskwait
  printf("%ld\n", ways);
}
