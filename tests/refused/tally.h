/* What is counted of a program to which memory is refused. */
#include <stdatomic.h>

enum { OUT_OF_MEMORY = 6, SECONDS = 60 };

struct tally {
    /* The pieces of memory that it asked for, and the threads that it made or wanted to make. */
    atomic_ulong asked, threads;
    /* How its copies ended: with its own answer, with the status 6 and nothing on either output, or otherwise. */
    atomic_ulong answers, refusals, others;
    /* The piece that was refused to the first copy that ended otherwise, and its status. */
    unsigned long first_other;
    int first_status;
};
