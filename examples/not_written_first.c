#include <stdio.h>
// A wrong annotation: the task says with out that it writes the counter without reading it, and adds to it. With inout, or with a
// reduction, it would be right.
long counter = 41;

int main() {
#pragma oss task out(counter)
  counter += 1;
#pragma oss taskwait
  printf("%ld\n", counter);
}
