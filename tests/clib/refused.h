/* What the tests of refused calls share: a stream, the end of each call, and how many checks have failed. They
 * are linked with malloc, realloc and free wrapped: allocations are counted, and refused while a test says
 * so. */
#ifndef STRM_TEST_REFUSED_H
#define STRM_TEST_REFUSED_H

#include <stdio.h>
#include <stdlib.h>

#include "../../examples/c/said.h"
#include "strm.h"

static struct strm s = STRM_CLOSED;
static uint8_t at = STRM_A;
static int failed;

static long given;
static int is_refusing;

void *__real_malloc(size_t size);
void *__real_realloc(void *old, size_t size);
void __real_free(void *old);

void *__wrap_malloc(size_t size)
{
    given++;
    return is_refusing ? NULL : __real_malloc(size);
}

void *__wrap_realloc(void *old, size_t size)
{
    given++;
    return is_refusing ? NULL : __real_realloc(old, size);
}

void __wrap_free(void *old)
{
    __real_free(old);
}

/* Opens a stream, or ends the test. */
static void open_as(uint32_t driver)
{
    if (strm_open(&s, driver, 16, 4, 8, 2) != 0)
        exit(2);
}

/* Opens a loop that breaks, because memory runs out for the hangup of the other end. */
static void open_broken(void)
{
    open_as(STRM_LOOP);
    is_refusing = 1;
    int e = strm_close(&s, STRM_A);
    is_refusing = 0;
    if (e != ENOSR) {
        printf("the close of an end: %s\n", said(e));
        failed++;
    }
}

#endif
