#include <stdio.h>
// A nested sort, wrong: the outer task says that the tasks below it only read the numbers. The creation of the first task that
// writes them is the fault: a task can give its children no more than it has itself.
long number[8];

#pragma oss task inout([n]p)
void insertion(long *p, long n) {
  for (long i = 1; i < n; i++) {
    long value = p[i], at = i;
    while (at > 0 && p[at - 1] > value) {
      p[at] = p[at - 1];
      at--;
    }
    p[at] = value;
  }
}

int main() {
  for (long i = 0; i < 8; i++) number[i] = (i * 5 + 3) % 8;
#pragma oss task weakin(number)
  {
    insertion(number, 4);
    insertion(number + 4, 4);
  }
#pragma oss taskwait
  printf("%ld %ld\n", number[0], number[4]);
}
