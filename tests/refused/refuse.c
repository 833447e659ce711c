/* A library to be loaded before that of C: it counts the pieces of memory that a program asks for, and refuses one of them.
 *
 * REFUSE=N in the environment refuses the Nth of them, counted from 1; 0, or nothing, refuses none. TALLY=FILE counts in that file (tally.h): so the numbers
 * are there however the program ends. A piece that is made larger or smaller counts as one that is asked for.
 *
 * ANSWER=STATUS refuses each of them, in one call: where a piece is asked for, the process makes a copy of itself, in which this piece is refused and all others are there, waits for its
 * end, and goes on with the piece. An end of a copy is told by its status and by what it wrote, against STATUS and the files each.out and each.err. A process that has made a
 * thread can't be copied so. */
#define _GNU_SOURCE
#include <dlfcn.h>
#include <errno.h>
#include <fcntl.h>
#include <stdatomic.h>
#include <stdint.h>
#include <stdlib.h>
#include <string.h>
#include <pthread.h>
#include <signal.h>
#include <sys/mman.h>
#include <sys/stat.h>
#include <sys/wait.h>
#include <unistd.h>

#include "tally.h"

static struct tally own_tally;
static struct tally *tally = &own_tally;
static unsigned long refused;
static int is_copying;
static int own_status;
static atomic_int is_ready;

/* What is asked for before the functions of C are known comes from here, and is never given back. */
static _Alignas(16) char first_room[65536];
static size_t first_used;

static void *(*real_malloc)(size_t);
static void *(*real_calloc)(size_t, size_t);
static void *(*real_realloc)(void *, size_t);
static void (*real_free)(void *);
static void *(*real_aligned_alloc)(size_t, size_t);
static int (*real_posix_memalign)(void **, size_t, size_t);
static int (*real_pthread_create)(pthread_t *, const pthread_attr_t *, void *(*)(void *), void *);

static void *first_piece(size_t size)
{
    size_t at = (first_used + 15) & ~(size_t)15;
    if (size > sizeof first_room - at)
        abort();
    first_used = at + size;
    return first_room + at;
}

static int is_first(const void *piece)
{
    const char *at = piece;
    return at >= first_room && at < first_room + sizeof first_room;
}

__attribute__((constructor)) static void begin(void)
{
    const char *wanted = getenv("REFUSE");
    const char *answer = getenv("ANSWER");
    const char *path = getenv("TALLY");
    int file = path ? open(path, O_RDWR) : -1;
    void *place = file < 0 ? MAP_FAILED : mmap(NULL, sizeof *tally, PROT_READ | PROT_WRITE, MAP_SHARED, file, 0);
    if (place != MAP_FAILED)
        tally = place;
    if (file >= 0)
        close(file);
    real_malloc = (void *(*)(size_t))dlsym(RTLD_NEXT, "malloc");
    real_calloc = (void *(*)(size_t, size_t))dlsym(RTLD_NEXT, "calloc");
    real_realloc = (void *(*)(void *, size_t))dlsym(RTLD_NEXT, "realloc");
    real_free = (void (*)(void *))dlsym(RTLD_NEXT, "free");
    real_aligned_alloc = (void *(*)(size_t, size_t))dlsym(RTLD_NEXT, "aligned_alloc");
    real_posix_memalign = (int (*)(void **, size_t, size_t))dlsym(RTLD_NEXT, "posix_memalign");
    real_pthread_create = (int (*)(pthread_t *, const pthread_attr_t *, void *(*)(void *), void *))dlsym(RTLD_NEXT, "pthread_create");
    refused = wanted ? strtoul(wanted, NULL, 10) : 0;
    own_status = answer ? (int)strtol(answer, NULL, 10) : 0;
    is_copying = answer != NULL;
    atomic_store(&is_ready, 1);
}

/* How many bytes a file has; -1 if it can't be read. */
static off_t length(int file)
{
    struct stat about;
    return fstat(file, &about) ? -1 : about.st_size;
}

/* Whether a file has the content of another one. */
static int is_same(const char *path, const char *other_path)
{
    int file = open(path, O_RDONLY), other = open(other_path, O_RDONLY), is = 0;
    off_t size = length(file);
    if (size == 0)
        is = length(other) == 0;
    else if (size > 0 && size == length(other)) {
        void *text = mmap(NULL, (size_t)size, PROT_READ, MAP_PRIVATE, file, 0);
        void *own = mmap(NULL, (size_t)size, PROT_READ, MAP_PRIVATE, other, 0);
        is = text != MAP_FAILED && own != MAP_FAILED && !memcmp(text, own, (size_t)size);
        munmap(text, (size_t)size);
        munmap(own, (size_t)size);
    }
    close(file);
    close(other);
    return is;
}

/* Whether a file is there, and empty. */
static int is_empty(const char *path)
{
    int file = open(path, O_RDONLY), is = length(file) == 0;
    close(file);
    return is;
}

/* The copy writes in files of its own, and counts for itself. */
static void begin_copy(void)
{
    int out = open("copy.out", O_RDWR | O_CREAT | O_TRUNC, 0600), err = open("copy.err", O_RDWR | O_CREAT | O_TRUNC, 0600);
    if (out < 0 || err < 0 || dup2(out, 1) < 0 || dup2(err, 2) < 0)
        abort();
    close(out);
    close(err);
    alarm(SECONDS);
    is_copying = 0;
    tally = &own_tally;
}

/* Counts how a copy ended. */
static void count(unsigned long piece, int status)
{
    int code = WIFEXITED(status) ? WEXITSTATUS(status) : 128 + WTERMSIG(status);
    if (code == own_status && is_same("copy.out", "each.out") && is_same("copy.err", "each.err"))
        atomic_fetch_add(&tally->answers, 1);
    else if (code == OUT_OF_MEMORY && is_empty("copy.out") && is_empty("copy.err"))
        atomic_fetch_add(&tally->refusals, 1);
    else if (atomic_fetch_add(&tally->others, 1) == 0) {
        tally->first_other = piece;
        tally->first_status = code;
    }
}

/* Makes a copy in which the piece is refused, and waits for it. Says whether this is the copy. */
static int copy(unsigned long piece)
{
    int status = 0;
    pid_t child = fork();
    if (child < 0)
        abort();
    if (!child) {
        begin_copy();
        return 1;
    }
    if (waitpid(child, &status, 0) != child)
        abort();
    count(piece, status);
    return 0;
}

/* Counts a piece that is asked for, and says whether it is refused. */
static int is_refused(void)
{
    unsigned long piece = atomic_fetch_add(&tally->asked, 1) + 1;
    return is_copying ? copy(piece) : piece == refused;
}

int pthread_create(pthread_t *thread, const pthread_attr_t *how, void *(*work)(void *), void *with)
{
    atomic_fetch_add(&tally->threads, 1);
    return real_pthread_create(thread, how, work, with);
}

void *malloc(size_t size)
{
    if (!atomic_load(&is_ready))
        return first_piece(size);
    if (is_refused()) {
        errno = ENOMEM;
        return NULL;
    }
    return real_malloc(size);
}

void *calloc(size_t count, size_t size)
{
    if (!atomic_load(&is_ready))
        return count && size > SIZE_MAX / count ? NULL : first_piece(count * size);
    if (is_refused()) {
        errno = ENOMEM;
        return NULL;
    }
    return real_calloc(count, size);
}

void *realloc(void *piece, size_t size)
{
    if (!atomic_load(&is_ready) || is_first(piece)) {
        void *made = malloc(size);
        if (made && piece) {
            size_t left = (size_t)(first_room + sizeof first_room - (char *)piece);
            memcpy(made, piece, size < left ? size : left);
        }
        return made;
    }
    if (is_refused()) {
        errno = ENOMEM;
        return NULL;
    }
    return real_realloc(piece, size);
}

void *aligned_alloc(size_t alignment, size_t size)
{
    if (is_refused()) {
        errno = ENOMEM;
        return NULL;
    }
    return real_aligned_alloc(alignment, size);
}

int posix_memalign(void **piece, size_t alignment, size_t size)
{
    if (is_refused())
        return ENOMEM;
    return real_posix_memalign(piece, alignment, size);
}

void free(void *piece)
{
    if (piece && !is_first(piece))
        real_free(piece);
}
