#include <stdio.h>
// A pipeline of three stages over eight parts. The first stage is one long task, which fills all parts and releases each when it is full:
// its trace has the tasks of the first parts beside it. The second stage has a task for each part. The third is in order, since its
// state is one cell with inout: each total follows the one before. Main waits for one total after the other and not for all.
long raw[8][4], cooked[8][4], state = 1, total[8];

int main() {
#pragma oss task out(raw) label(fill)
  for (long part = 0; part < 8; part++) {
    for (long i = 0; i < 4; i++) {
      raw[part][i] = 4 * part + i;
      for (long turn = 0; turn < 400; turn++) raw[part][i] = (raw[part][i] * 5 + turn) % 1013;
    }
#pragma oss release out(raw[part])
  }
  for (long part = 0; part < 8; part++) {
#pragma oss task in(raw[part]) out(cooked[part]) label(cook)
    for (long i = 0; i < 4; i++) cooked[part][i] = raw[part][i] * raw[part][i] + 1;
#pragma oss task in(cooked[part]) inout(state) out(total[part]) label(serve)
    {
      for (long i = 0; i < 4; i++) state = (state * 31 + cooked[part][i]) % 1000;
      total[part] = state;
    }
  }
  for (long part = 0; part < 8; part++) {
#pragma oss taskwait on(total[part])
    printf("part %ld: %ld\n", part, total[part]);
  }
#pragma oss taskwait
  printf("end: %ld\n", state);
}
