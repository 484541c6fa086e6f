/*
 * A library that is loaded in front of the C library (LD_PRELOAD) and refuses requests for memory.
 *
 * REFUSE=N refuses the Nth request that the process makes from the begin of main to its return,
 * counted from 1; REFUSE_REST=1 refuses each one after it, too. The first refusal makes the file
 * that REFUSED names, so that whoever started the process knows that it met one, however it ended.
 * A process that hasn't ended after REFUSE_SECONDS is killed by SIGALRM.
 *
 * A request is a call of malloc, calloc, realloc, aligned_alloc, posix_memalign or memalign, from
 * the program, or from the C library on its behalf, as for a thread. What the loader and the C
 * library ask for ahead of main, or behind it, is always granted: no code of the program has begun,
 * or is left, that could answer.
 */
#define _GNU_SOURCE
#include <dlfcn.h>
#include <errno.h>
#include <fcntl.h>
#include <stdatomic.h>
#include <stdbool.h>
#include <stddef.h>
#include <stdlib.h>
#include <unistd.h>

extern void *__libc_malloc(size_t size);
extern void *__libc_calloc(size_t count, size_t size);
extern void *__libc_realloc(void *block, size_t size);
extern void *__libc_memalign(size_t alignment, size_t size);

typedef int main_function(int, char **, char **);
typedef int start_function(main_function *, int, char **, void (*)(void), void (*)(void),
                           void (*)(void), void *);

static main_function *program;
static unsigned long refused;
static bool refuses_rest;
static const char *note;

static atomic_bool is_counting;
static atomic_ulong requests;

/* Whether the request that is made now is to be refused. */
static bool is_refused(void)
{
    if (!atomic_load(&is_counting))
        return false;
    unsigned long number = atomic_fetch_add(&requests, 1) + 1;
    if (number < refused || (number > refused && !refuses_rest))
        return false;
    if (number == refused && note) {
        int file = open(note, O_WRONLY | O_CREAT | O_CLOEXEC, 0600);
        if (file < 0)
            abort();
        close(file);
    }
    errno = ENOMEM;
    return true;
}

void *malloc(size_t size)
{
    return is_refused() ? NULL : __libc_malloc(size);
}

void *calloc(size_t count, size_t size)
{
    return is_refused() ? NULL : __libc_calloc(count, size);
}

void *realloc(void *block, size_t size)
{
    return is_refused() ? NULL : __libc_realloc(block, size);
}

void *memalign(size_t alignment, size_t size)
{
    return is_refused() ? NULL : __libc_memalign(alignment, size);
}

void *aligned_alloc(size_t alignment, size_t size)
{
    return memalign(alignment, size);
}

int posix_memalign(void **block, size_t alignment, size_t size)
{
    if (alignment % sizeof(void *) || alignment & (alignment - 1) || !alignment)
        return EINVAL;
    void *made = memalign(alignment, size);
    if (!made)
        return ENOMEM;
    *block = made;
    return 0;
}

/* The number that this variable of the environment has, or 0. */
static unsigned long number_in(const char *variable)
{
    const char *number = getenv(variable);
    return number ? strtoul(number, NULL, 10) : 0;
}

static int counted_main(int count, char **words, char **environment)
{
    atomic_store(&is_counting, refused > 0);
    int status = program(count, words, environment);
    atomic_store(&is_counting, false);
    return status;
}

/* The C library's call of main, which is to count. */
int __libc_start_main(main_function *main, int count, char **words, void (*init)(void),
                      void (*fini)(void), void (*end)(void), void *stack)
{
    start_function *start = (start_function *)dlsym(RTLD_NEXT, "__libc_start_main");
    program = main;
    refused = number_in("REFUSE");
    refuses_rest = number_in("REFUSE_REST") > 0;
    note = getenv("REFUSED");
    alarm((unsigned)number_in("REFUSE_SECONDS"));
    return start(counted_main, count, words, init, fini, end, stack);
}
