/* Holds each call that copies its caller's bytes to its order. A refusal that does not depend on the bytes
 * comes before the copy; ENOSR for the copy comes last. A service call has no length that is too long, but
 * copies no byte where something else refuses it. The test is linked with malloc, realloc and free wrapped.
 *
 * A part that is too long is a gibibyte of pages that nothing has touched. A call that copied it would take
 * memory, and a tenth of a second. Each call is made a few times, and the shortest time counts. */
#include <stdio.h>
#include <stdlib.h>
#include <sys/mman.h>
#include <time.h>

#include "refused.h"

enum { GIB = 1 << 30, TIMES = 5, MOST_NANOSECONDS = 1000000 };

static char *many;

/* Calls with parts of some length. Each returns its errno. */

static int put_control(int len)
{
    struct strbuf ctl = { 0, len, many };
    return strm_putmsg(&s, at, &ctl, NULL, 0);
}

static int put_high(int len)
{
    struct strbuf ctl = { 0, len, many };
    return strm_putmsg(&s, at, &ctl, NULL, RS_HIPRI);
}

static int put_data(int len)
{
    struct strbuf dat = { 0, len, many };
    return strm_putmsg(&s, at, NULL, &dat, 0);
}

static int put_band(int len)
{
    struct strbuf dat = { 0, len, many };
    return strm_putpmsg(&s, at, NULL, &dat, 7, MSG_BAND);
}

static int put_wrong(int len)
{
    struct strbuf dat = { 0, len, many };
    return strm_putpmsg(&s, at, NULL, &dat, 1, MSG_HIPRI);
}

static int write_data(int len)
{
    size_t written = 0;
    return strm_write(&s, at, many, (size_t)len, &written);
}

static int ask(int len)
{
    struct strioctl call = { 1, 0, len, many };
    uint64_t rval = 0;
    int answer = STRM_ACK, e = strm_str_answer(&s, at, &call, &rval, &answer);
    if (answer != STRM_REFUSED) {
        printf("an ioctl of %d bytes was answered with %d\n", len, answer);
        failed++;
    }
    return e;
}

static int find(int len)
{
    int32_t found = 0;
    return strm_find_name(&s, at, many, (size_t)len, &found);
}

static int push_named(int len)
{
    return strm_push_kind(&s, at, many, (size_t)len, STRM_PASS, 0, 0, 0, 0, 0, "", 0, 0);
}

static int push_table(int len)
{
    return strm_push_kind(&s, at, "table", 5, STRM_TABLE, 0, 0, 0, 0, 0, many, (size_t)len, 0);
}

static int push_short(int len)
{
    (void)len;
    return strm_push_kind(&s, at, "pass", 4, STRM_PASS, 0, 0, 0, 0, 0, "", 0, 0);
}

static int arrive(int len)
{
    struct strbuf dat = { 0, len, many };
    return strm_arrive(&s, M_DATA, 0, NULL, &dat, 0);
}

static int arrive_control(int len)
{
    struct strbuf ctl = { 0, len, many };
    return strm_arrive(&s, M_PROTO, 0, &ctl, NULL, 0);
}

static int arrive_options(int len)
{
    struct strbuf dat = { 0, len, many };
    return strm_arrive(&s, M_SETOPTS, 0, NULL, &dat, 0);
}

static int ask_later(int len)
{
    struct strioctl call = { 1, 0, len, many };
    uint64_t id = 0;
    return strm_strput(&s, at, &call, &id);
}

/* Service calls on the module "m". */

static struct strm_msgb message(int kind, int ctl_len, int dat_len)
{
    struct strm_msgb m = { kind, 0, { 0, ctl_len, many }, { 0, dat_len, many }, 0, 0, 0, 0, 0 };
    return m;
}

static int putnext(int side, struct strm_msgb m)
{
    return strm_putnext(&s, at, "m", side, &m);
}

static int putnext_data(int len)
{
    return putnext(STRM_WR, message(M_DATA, -1, len));
}

static int putnext_control(int len)
{
    return putnext(STRM_RD, message(M_PROTO, len, len));
}

static int putnext_options(int len)
{
    return putnext(STRM_RD, message(M_SETOPTS, -1, len));
}

static int qreply_answer(int len)
{
    struct strm_msgb m = message(M_IOCACK, -1, len);
    return strm_qreply(&s, at, "m", STRM_WR, &m);
}

static int putbq(struct strm_msgb m)
{
    return strm_putbq(&s, at, "m", STRM_WR, &m);
}

static int putbq_data(int len)
{
    return putbq(message(M_DATA, -1, len));
}

static int putbq_control(int len)
{
    return putbq(message(M_PCPROTO, len, len));
}

static int putbq_error(int len)
{
    return putbq(message(M_ERROR, -1, len));
}

/* Calls with a name of some length. */

static int putnext_named(int len)
{
    struct strm_whole whole = { 0, 0, M_DATA, 0, 0, 0, 0, -1, 0 };
    return strm_putnext_parts(&s, at, many, (size_t)len, STRM_WR, &whole, false, "", 0, true, "", 0);
}

static int putbq_named(int len)
{
    struct strm_whole whole = { 0, 0, M_DATA, 0, 0, 0, 0, -1, 0 };
    return strm_putbq_parts(&s, at, many, (size_t)len, STRM_WR, &whole, false, "", 0, true, "", 0);
}

static int qsize_named(int len)
{
    int32_t messages = 0;
    return strm_qsize_name(&s, at, many, (size_t)len, STRM_WR, &messages);
}

static long nanoseconds(void)
{
    struct timespec now;
    clock_gettime(CLOCK_MONOTONIC, &now);
    return now.tv_sec * 1000000000L + now.tv_nsec;
}

/* Holds a call with a part of some length to an errno. It must take at most a millisecond, and no memory
 * unless allocations are refused. */
static void hold(const char *what, int (*call)(int), int len, int errno_wanted)
{
    long least = MOST_NANOSECONDS + 1L, before = given;
    int e = 0;
    for (int i = 0; i < TIMES; i++) {
        long begun = nanoseconds();
        e = call(len);
        long took = nanoseconds() - begun;
        least = took < least ? took : least;
    }
    int is_right = e == errno_wanted && least <= MOST_NANOSECONDS && (given == before || is_refusing);
    if (!is_right)
        printf("%s of %d bytes: %s for %s, in %ld ns, %ld times memory\n", what, len, said(e), said(errno_wanted), least, given - before);
    failed += !is_right;
}

/* Each call with a part that is too long. `before` is an errno that comes before EINVAL and ERANGE, or 0. */
static void hold_long(int before)
{
    hold("putmsg, control", put_control, GIB, before ? before : ERANGE);
    hold("putmsg, control", put_control, 1025, before ? before : ERANGE);
    hold("putmsg, high", put_high, GIB, before ? before : ERANGE);
    hold("putmsg, data", put_data, GIB, before ? before : ERANGE);
    hold("putmsg, data", put_data, 4097, before ? before : ERANGE);
    hold("putpmsg", put_band, GIB, before ? before : ERANGE);
    hold("putpmsg, wrong", put_wrong, GIB, before ? before : EINVAL);
    hold("write", write_data, GIB, before ? before : ERANGE);
    hold("write", write_data, 4097, before ? before : ERANGE);
    hold("str", ask, GIB, before ? before : EINVAL);
    hold("str", ask, 4097, before ? before : EINVAL);
    hold("strput", ask_later, GIB, before ? before : EINVAL);
    hold("strput", ask_later, 4097, before ? before : EINVAL);
    hold("find", find, GIB, before ? before : EINVAL);
    hold("push, name", push_named, GIB, EINVAL);
    hold("push, table", push_table, GIB, EINVAL);
}

/* Service calls that are refused, whatever the length of a part is: with this errno where the message and the
 * name are ones, and else with EINVAL. */
static void hold_services(int errno_wanted)
{
    hold("putnext", putnext_data, GIB, errno_wanted);
    hold("putnext, control", putnext_control, GIB, errno_wanted);
    hold("putnext, options", putnext_options, GIB, EINVAL);
    hold("putnext, name", putnext_named, GIB, EINVAL);
    hold("qreply", qreply_answer, GIB, errno_wanted);
    hold("putbq", putbq_data, GIB, errno_wanted);
    hold("putbq, control", putbq_control, GIB, errno_wanted);
    hold("putbq, error", putbq_error, GIB, EINVAL);
    hold("putbq, name", putbq_named, GIB, EINVAL);
    hold("qsize, name", qsize_named, GIB, EINVAL);
}

static void hold_arrivals(int before)
{
    hold("arrive", arrive, GIB, before ? before : ERANGE);
    hold("arrive", arrive, 4097, before ? before : ERANGE);
    hold("arrive, control", arrive_control, GIB, before ? before : ERANGE);
    hold("arrive, control", arrive_control, 1025, before ? before : ERANGE);
    hold("arrive, options", arrive_options, GIB, before ? before : ERANGE);
}

static void hold_open_and_closed(void)
{
    open_as(STRM_LINE);
    hold_long(0);
    hold_services(EINVAL);
    hold_arrivals(0);
    strm_close(&s, STRM_A);
    hold_long(EBADF);
    hold_services(EBADF);
    hold_arrivals(EBADF);
    strm_free(&s);
    open_as(STRM_ECHO);
    hold_arrivals(EINVAL);
    strm_free(&s);
}

/* The errno of an M_ERROR comes before a length, and a hangup after it. A line takes what comes in, whatever
 * the state of its head is. */
static void hold_error_and_hangup(void)
{
    open_as(STRM_LINE);
    strm_arrive(&s, M_HANGUP, 0, NULL, NULL, 0);
    hold_long(0);
    hold("write, hung up", write_data, 1, ENXIO);
    hold("str, hung up", ask, 1, ENXIO);
    hold("strput, hung up", ask_later, 1, ENXIO);
    hold("push, hung up", push_short, 0, ENXIO);
    strm_arrive(&s, M_ERROR, 0, NULL, NULL, EPROTO);
    hold_long(EPROTO);
    hold_services(EINVAL);
    hold_arrivals(0);
    strm_free(&s);
}

/* ENOSR for a copy is returned only if nothing else refuses the call. */
static void hold_wants(void)
{
    open_as(STRM_LINE);
    is_refusing = 1;
    hold("putmsg, no memory", put_control, 1024, ENOSR);
    hold("putmsg, no memory", put_data, 4096, ENOSR);
    hold("putpmsg, no memory", put_band, 1, ENOSR);
    hold("write, no memory", write_data, 4096, ENOSR);
    hold("str, no memory", ask, 4096, ENOSR);
    hold("strput, no memory", ask_later, 4096, ENOSR);
    hold("find, no memory", find, 8, ENOSR);
    hold("push, no memory", push_short, 0, ENOSR);
    hold("arrive, no memory", arrive, 4096, ENOSR);
    hold_long(0);
    hold_services(EINVAL);
    hold_arrivals(0);
    is_refusing = 0;
    strm_arrive(&s, M_HANGUP, 0, NULL, NULL, 0);
    is_refusing = 1;
    hold("putmsg, no memory, hung up", put_data, 4096, ENXIO);
    hold("putpmsg, no memory, hung up", put_band, 4096, ENXIO);
    hold("write, no memory, hung up", write_data, 4096, ENXIO);
    hold("str, no memory, hung up", ask, 4096, ENXIO);
    hold("strput, no memory, hung up", ask_later, 4096, ENXIO);
    hold("push, no memory, hung up", push_short, 0, ENXIO);
    is_refusing = 0;
    strm_free(&s);
}

/* On a broken stream no length is looked at. */
static void hold_broken(void)
{
    open_broken();
    at = STRM_B;
    hold_long(ENOSR);
    hold_services(ENOSR);
    at = STRM_A;
    strm_free(&s);
}

/* A full queue comes before ENOSR for a copy. */
static void hold_full(void)
{
    open_as(STRM_ECHO);
    while (write_data(8) == 0)
        ;
    is_refusing = 1;
    hold("putmsg, no memory, full", put_data, 8, EAGAIN);
    hold("write, no memory, full", write_data, 8, EAGAIN);
    hold("putpmsg, no memory, another band", put_band, 8, ENOSR);
    hold("putmsg, no memory, high", put_high, 8, ENOSR);
    is_refusing = 0;
    strm_free(&s);
}

/* A full queue comes before ENOSR for a copy in a putnext, too. A putbq asks for no room. */
static void hold_module(void)
{
    struct strm_module module = { "m", STRM_PASS, 0, 0, 8, 4, 0, NULL, 0, STRM_NOENABLE };
    open_as(STRM_WIRE);
    if (strm_push(&s, STRM_A, &module) != 0)
        exit(2);
    hold("putnext, options", putnext_options, GIB, EINVAL);
    hold("putbq, error", putbq_error, GIB, EINVAL);
    while (putnext_data(8) == 0)
        ;
    hold("putnext, full", putnext_data, GIB, EAGAIN);
    is_refusing = 1;
    hold("putnext, no memory, full", putnext_data, 8, EAGAIN);
    hold("putnext, no memory, the other side", putnext_control, 8, ENOSR);
    hold("qreply, no memory", qreply_answer, 8, ENOSR);
    hold("putbq, no memory", putbq_data, 8, ENOSR);
    hold("putbq, no memory, high", putbq_control, 8, ENOSR);
    is_refusing = 0;
    strm_free(&s);
}

/* So does, in a strput, an answer that is asked for already. */
static void hold_asked(void)
{
    struct strm_module module = { "m", STRM_PASS, 0, 0, 8, 4, 0, NULL, 0, STRM_NOENABLE };
    open_as(STRM_LINE);
    if (strm_push(&s, STRM_A, &module) != 0 || ask_later(8) != 0)
        exit(2);
    hold("strput, asked", ask_later, 4096, EAGAIN);
    is_refusing = 1;
    hold("strput, no memory, asked", ask_later, 4096, EAGAIN);
    is_refusing = 0;
    strm_free(&s);
}

int main(void)
{
    many = mmap(NULL, GIB, PROT_READ, MAP_PRIVATE | MAP_ANONYMOUS | MAP_NORESERVE, -1, 0);
    if (many == MAP_FAILED)
        return 2;
    hold_open_and_closed();
    hold_error_and_hangup();
    hold_wants();
    hold_broken();
    hold_full();
    hold_module();
    hold_asked();
    return failed != 0;
}
