#include <stdio.h>
// Tasks that create tasks: each call of fib is one, and adds its leaves to count under a reduction. From n = 5 on downwards the
// tasks are final: what they create runs at once inside of them, and a large tree does not fall apart into tiny tasks.
long count;

#pragma oss task reduction(+: count) final(n <= 5)
void fib(long n) {
  if (n < 2) {
    count += n;
    return;
  }
  fib(n - 1);
  fib(n - 2);
}

int main() {
  for (long n = 5; n <= 15; n += 5) {
    count = 0;
    fib(n);
#pragma oss taskwait
    printf("fib(%ld) = %ld\n", n, count);
  }
}
