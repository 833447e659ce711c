#include <stdio.h>
// A first stage, wrong: it corrects the last number of a part behind the release of that part. Who waits for the part may have read it.
long raw[3][4], total[3];

int main() {
#pragma oss task out(raw)
  for (long part = 0; part < 3; part++) {
    for (long i = 0; i < 4; i++) raw[part][i] = 4 * part + i;
#pragma oss release out(raw[part])
    raw[part][3] = 0;
  }
  for (long part = 0; part < 3; part++) {
#pragma oss task in(raw[part]) out(total[part])
    total[part] = raw[part][0] + raw[part][3];
  }
#pragma oss taskwait
  printf("%ld %ld %ld\n", total[0], total[1], total[2]);
}
