/* Refuses one allocation of the program that it is linked with: number REFUSED of the environment, counted
 * from 1, or none if that is 0. In a process that the program has forked it is number REFUSED_CHILD. When a
 * process ends, the number of its allocations goes to the standard error. */
#include <stdio.h>
#include <stdlib.h>
#include <unistd.h>

void *__real_malloc(size_t size);
void *__real_realloc(void *at, size_t size);
void __real_free(void *at);

static long asked;
static pid_t first;

__attribute__((constructor)) static void begin(void)
{
    first = getpid();
}

/* Returns whether this allocation is the one to refuse. */
static int is_refused(void)
{
    const char *refused = getenv(getpid() == first ? "REFUSED" : "REFUSED_CHILD");
    return ++asked == (refused ? strtol(refused, NULL, 10) : 0);
}

void *__wrap_malloc(size_t size)
{
    return is_refused() ? NULL : __real_malloc(size);
}

void *__wrap_realloc(void *at, size_t size)
{
    return is_refused() ? NULL : __real_realloc(at, size);
}

void __wrap_free(void *at)
{
    __real_free(at);
}

__attribute__((destructor)) static void tell(void)
{
    fprintf(stderr, "%ld\n", asked);
}
