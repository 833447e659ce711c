#include <stdio.h>
// In how many ways seven queens stand on a board of 7 x 7 and none attacks another. Each placed queen is a task; those that are
// attacked are not placed. All add to the same counters under a reduction, one counter for each column of the first queen, so
// that no task waits for another. With three queens on the board a task is final: from there on the search runs inside of it.
long ways[7];

#pragma oss task reduction(+: ways) final(row > 2) label(place)
void place(long row, long first, long columns, long falling, long rising) {
  if (row == 7) {
    ways[first] += 1;
    return;
  }
  for (long c = 0; c < 7; c++) {
    long queen = 1 << c, from = first;
    if (row == 0) from = c;
    if (((columns | falling | rising) & queen) == 0)
      place(row + 1, from, columns | queen, (falling | queen) << 1, (rising | queen) >> 1);
  }
}

int main() {
  place(0, 0, 0, 0, 0);
#pragma oss taskwait
  long all = 0;
  for (long c = 0; c < 7; c++) {
    printf("%ld ", ways[c]);
    all += ways[c];
  }
  printf("all %ld\n", all);
}
