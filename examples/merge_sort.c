#include <stdio.h>
// Merge sort by nested tasks. A task `sort` names its part of the array by weak accesses and only creates others: two of its own kind for
// the halves and one that merges them. None of them waits for its children. The merge waits for just its own two halves, and
// what is below a `sort` may still run when that has ended.
long number[128], scratch[128];

#pragma oss task inout([n]p) label(leaf)
void insertion(long *p, long n) {
  for (long i = 1; i < n; i++) {
    long value = p[i], at = i;
    while (at > 0 && p[at - 1] > value) {
      p[at] = p[at - 1];
      at--;
    }
    p[at] = value;
  }
}

#pragma oss task inout([n]p) out([n]q) label(merge)
void merge(long *p, long *q, long n) {
  long left = 0, right = n / 2;
  for (long k = 0; k < n; k++) {
    if (right == n || (left < n / 2 && p[left] <= p[right])) {
      q[k] = p[left];
      left++;
    } else {
      q[k] = p[right];
      right++;
    }
  }
  for (long k = 0; k < n; k++) p[k] = q[k];
}

#pragma oss task weakinout([n]p) weakout([n]q) label(sort)
void sort(long *p, long *q, long n) {
  if (n <= 8) {
    insertion(p, n);
    return;
  }
  sort(p, q, n / 2);
  sort(p + n / 2, q + n / 2, n - n / 2);
  merge(p, q, n);
}

int main() {
  for (long i = 0; i < 128; i++) number[i] = (i * 77 + 13) % 128;
  sort(number, scratch, 128);
#pragma oss taskwait
  long misplaced = 0;
  for (long i = 0; i < 128; i++)
    if (number[i] != i) misplaced++;
  printf("%ld %ld %ld, %ld misplaced\n", number[0], number[1], number[127], misplaced);
}
