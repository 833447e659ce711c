#include <stdio.h>
// A task fills a buffer part by part and releases each part as soon as it is full. The readers of a part name it alone, so they can
// run while the later parts are still being filled. What the task has released it may not touch again.
long buffer[12], total[3];

int main() {
#pragma oss task out(buffer) label(producer)
  for (long part = 0; part < 3; part++) {
    for (long i = 4 * part; i < 4 * part + 4; i++)
      buffer[i] = i * i;
#pragma oss release out(buffer[4 * part; 4])
  }
  for (long part = 0; part < 3; part++) {
#pragma oss task in(buffer[4 * part; 4]) out(total[part]) label(consumer)
    {
      total[part] = 0;
      for (long i = 4 * part; i < 4 * part + 4; i++)
        total[part] += buffer[i];
    }
  }
#pragma oss taskwait on(total[0])
  printf("first %ld\n", total[0]);
#pragma oss taskwait
  printf("all %ld %ld %ld\n", total[0], total[1], total[2]);
}
