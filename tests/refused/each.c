/* Refuses a program each piece of memory that it asks for, one at a time, and looks at how it ends: with its own answer, or with the status 6 and nothing on either
 * output. A program that makes no thread is called twice: for its answer, and so that it makes a copy of itself at each piece, to which the piece is refused (refuse.c). One that
 * makes threads is called once for each piece, as many times at once as there are processors.
 *
 * each LIBRARY PROGRAM WORD..: prints how many pieces there are, and how many of its ends were of either kind; the status is 0 only where no other came. LIBRARY is
 * refuse.c, built. A call has 60 seconds. It works in the current folder, in which it leaves nothing. */
#define _GNU_SOURCE
#include <fcntl.h>
#include <signal.h>
#include <stdio.h>
#include <stdlib.h>
#include <string.h>
#include <sys/mman.h>
#include <sys/stat.h>
#include <sys/wait.h>
#include <unistd.h>

#include "tally.h"

enum { MOST = 1 << 20, NAME = 32, MOST_SIDES = 64 };

/* How a call ended. A signal counts as 128 and its number. */
struct ending {
    int status;
    size_t out_length, err_length;
    char *out, *err;
    struct tally tally;
};

/* Where a call writes and is counted. */
struct files {
    char out[NAME], err[NAME], tally[NAME];
};

static const struct files answer_files = { "each.out", "each.err", "each.tally" };
static const struct files other_files = { "other.out", "other.err", "each.tally" };

static void fail(const char *what)
{
    perror(what);
    exit(2);
}

static int open_new(const char *path)
{
    int file = open(path, O_RDWR | O_CREAT | O_TRUNC, 0600);
    if (file < 0)
        fail(path);
    return file;
}

static char *content(int file, size_t *length)
{
    struct stat about;
    char *text;
    if (fstat(file, &about) || about.st_size > MOST)
        fail("output");
    text = malloc((size_t)about.st_size + 1);
    if (!text || pread(file, text, (size_t)about.st_size, 0) != about.st_size)
        fail("output");
    *length = (size_t)about.st_size;
    return text;
}

/* Calls the program, with this in its environment. A call in which copies are made has no end of its own, since each copy has one. */
static struct ending call(const char *library, char **words, struct files files, const char *name, const char *value)
{
    struct ending ended;
    int out = open_new(files.out), err = open_new(files.err), counted = open_new(files.tally), status;
    pid_t child;
    memset(&ended.tally, 0, sizeof ended.tally);
    if (pwrite(counted, &ended.tally, sizeof ended.tally, 0) != sizeof ended.tally)
        fail(files.tally);
    child = fork();
    if (child < 0)
        fail("fork");
    if (!child) {
        if (strcmp(name, "ANSWER"))
            alarm(SECONDS);
        dup2(out, 1);
        dup2(err, 2);
        setenv("LD_PRELOAD", library, 1);
        setenv("TALLY", files.tally, 1);
        setenv(name, value, 1);
        execv(words[0], words);
        _exit(127);
    }
    if (waitpid(child, &status, 0) != child)
        fail("waitpid");
    ended.status = WIFEXITED(status) ? WEXITSTATUS(status) : 128 + WTERMSIG(status);
    ended.out = content(out, &ended.out_length);
    ended.err = content(err, &ended.err_length);
    if (pread(counted, &ended.tally, sizeof ended.tally, 0) != sizeof ended.tally)
        fail(files.tally);
    close(out);
    close(err);
    close(counted);
    return ended;
}

static void forget(const struct ending *ended)
{
    free(ended->out);
    free(ended->err);
}

static int is_same(const struct ending *a, const struct ending *b)
{
    return a->status == b->status && a->out_length == b->out_length && a->err_length == b->err_length
        && !memcmp(a->out, b->out, a->out_length) && !memcmp(a->err, b->err, a->err_length);
}

/* Notes an end that is neither of the two. */
static void note_other(struct tally *found, unsigned long piece, int status)
{
    if (atomic_fetch_add(&found->others, 1) == 0) {
        found->first_other = piece;
        found->first_status = status;
    }
}

/* Refuses each piece to a copy. The program that makes the copies has all memory, so it ends with its own answer, after as many pieces. */
static struct tally by_copies(const char *library, char **words, const struct ending *answer)
{
    char status[32];
    struct ending ended;
    snprintf(status, sizeof status, "%d", answer->status);
    ended = call(library, words, other_files, "ANSWER", status);
    if (!is_same(&ended, answer) || ended.tally.asked != answer->tally.asked)
        note_other(&ended.tally, 0, ended.status);
    forget(&ended);
    return ended.tally;
}

static void remove_all(struct files files)
{
    unlink(files.out);
    unlink(files.err);
    unlink(files.tally);
}

/* Refuses every piece whose number is one of this side's to a call of its own. */
static void by_calls_of_a_side(const char *library, char **words, const struct ending *answer, struct tally *found, unsigned long side, unsigned long sides)
{
    struct files files;
    char number[NAME];
    unsigned long at;
    snprintf(files.out, NAME, "other%lu.out", side);
    snprintf(files.err, NAME, "other%lu.err", side);
    snprintf(files.tally, NAME, "other%lu.tally", side);
    for (at = 1 + side; at <= answer->tally.asked; at += sides) {
        struct ending ended;
        snprintf(number, sizeof number, "%lu", at);
        ended = call(library, words, files, "REFUSE", number);
        if (is_same(&ended, answer))
            atomic_fetch_add(&found->answers, 1);
        else if (ended.status == OUT_OF_MEMORY && !ended.out_length && !ended.err_length)
            atomic_fetch_add(&found->refusals, 1);
        else
            note_other(found, at, ended.status);
        forget(&ended);
    }
    remove_all(files);
}

/* Refuses each piece to a call of its own, by several processes that each do a part. */
static struct tally by_calls(const char *library, char **words, const struct ending *answer)
{
    struct tally *found = mmap(NULL, sizeof *found, PROT_READ | PROT_WRITE, MAP_SHARED | MAP_ANONYMOUS, -1, 0);
    long processors = sysconf(_SC_NPROCESSORS_ONLN);
    unsigned long side, sides = processors < 1 ? 1 : processors > MOST_SIDES ? MOST_SIDES : (unsigned long)processors;
    int status;
    if (found == MAP_FAILED)
        fail("mmap");
    *found = answer->tally;
    for (side = 0; side < sides; side++) {
        pid_t child = fork();
        if (child < 0)
            fail("fork");
        if (!child) {
            by_calls_of_a_side(library, words, answer, found, side, sides);
            _exit(0);
        }
    }
    for (side = 0; side < sides; side++)
        if (wait(&status) < 0 || status)
            note_other(found, 0, 2);
    return *found;
}

int main(int count, char **words)
{
    static const struct files copy_files = { "copy.out", "copy.err", "each.tally" };
    struct ending answer;
    struct tally found;
    if (count < 3) {
        fprintf(stderr, "usage: each LIBRARY PROGRAM WORD..\n");
        return 2;
    }
    answer = call(words[1], words + 2, answer_files, "REFUSE", "0");
    found = answer.tally.threads ? by_calls(words[1], words + 2, &answer) : by_copies(words[1], words + 2, &answer);
    remove_all(answer_files);
    remove_all(other_files);
    remove_all(copy_files);
    if (found.others)
        printf("piece %lu refused: status %d; ", found.first_other, found.first_status);
    printf("%lu pieces: %lu answers, %lu with status 6, %lu others\n", answer.tally.asked, found.answers, found.refusals, found.others);
    return found.others || !found.refusals || found.answers + found.refusals != answer.tally.asked;
}
