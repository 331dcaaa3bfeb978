/* Messages go round over a wire. One thread writes numbers. A second takes them out and hands them to a
 * third, which feeds them back in. The main thread reads what comes up. Each must come up once, in order. The
 * one argument is the number of messages.
 *
 * All calls are made under one mutex. A thread that can do nothing sleeps on a condition. Each thread wakes
 * the others after its turn, of up to AT_ONCE calls. */
#include <pthread.h>
#include <stdio.h>
#include <stdlib.h>

#include "strm.h"

#define BETWEEN 16
#define AT_ONCE 64

static struct strm s = STRM_CLOSED;
static pthread_mutex_t lock = PTHREAD_MUTEX_INITIALIZER;
static pthread_cond_t changed = PTHREAD_COND_INITIALIZER;

/* The number of all messages, and the number that each thread has had so far. */
static uint32_t many, written, taken, fed, read_up;

/* Whether a call of some thread was refused for good. */
static int has_failed;

/* The numbers that were taken and not yet fed back. */
static uint32_t between[BETWEEN];

/* The step of each thread for one message. Returns 0, or the errno for which the thread has to wait or to
 * end. */
static int write_one(void)
{
    size_t len = 0;
    int code = strm_write(&s, STRM_A, &written, sizeof written, &len);
    written += code == 0;
    return code;
}

static int take_one(void)
{
    uint32_t number = 0;
    int kind = 0, band = 0, code;
    struct strbuf dat = { sizeof number, 0, (char *)&number };
    if (taken - fed == BETWEEN)
        return EAGAIN;
    code = strm_take(&s, STRM_A, &kind, &band, NULL, &dat);
    if (code == 0 && (kind != M_DATA || dat.len != (int)sizeof number))
        return EINVAL;
    if (code == 0)
        between[taken++ % BETWEEN] = number;
    return code;
}

static int feed_one(void)
{
    struct strbuf dat = { 0, sizeof between[0], (char *)&between[fed % BETWEEN] };
    int code;
    if (taken == fed)
        return EAGAIN;
    code = strm_arrive(&s, M_DATA, 0, NULL, &dat, 0);
    fed += code == 0;
    return code;
}

static int read_one(void)
{
    uint32_t number = 0;
    size_t len = 0;
    int code = strm_read(&s, STRM_A, (char *)&number, sizeof number, &len);
    if (code == 0 && (len != sizeof number || number != read_up))
        return EINVAL;
    read_up += code == 0;
    return code;
}

/* Does this step with all messages, AT_ONCE at a time, until a thread has failed. */
static int do_all(int (*one)(void), const uint32_t *done)
{
    int is_short;
    pthread_mutex_lock(&lock);
    while (*done < many && !has_failed) {
        int code = 0;
        for (int i = 0; i < AT_ONCE && *done < many && code == 0; i++)
            code = one();
        has_failed = code != 0 && code != EAGAIN;
        pthread_cond_broadcast(&changed);
        if (code == EAGAIN)
            pthread_cond_wait(&changed, &lock);
        pthread_mutex_unlock(&lock);
        pthread_mutex_lock(&lock);
    }
    is_short = *done < many;
    pthread_mutex_unlock(&lock);
    return is_short;
}

static void *write_all(void *arg)
{
    return do_all(write_one, &written) ? arg : NULL;
}

static void *take_all(void *arg)
{
    return do_all(take_one, &taken) ? arg : NULL;
}

static void *feed_all(void *arg)
{
    return do_all(feed_one, &fed) ? arg : NULL;
}

int main(int argc, char **argv)
{
    void *(*const threads[3])(void *) = { write_all, take_all, feed_all };
    pthread_t started[3];
    int failed = 0;
    many = argc == 2 ? (uint32_t)strtoul(argv[1], NULL, 10) : 0;
    failed += strm_open(&s, STRM_WIRE, 256, 64, 256, 64) != 0;
    for (int i = 0; i < 3; i++)
        failed += pthread_create(&started[i], NULL, threads[i], &many) != 0;
    failed += do_all(read_one, &read_up) != 0;
    for (int i = 0; i < 3; i++) {
        void *result = NULL;
        pthread_join(started[i], &result);
        failed += result != NULL;
    }
    printf("%u written, %u taken, %u fed back, %u read in order, %d failed\n", written, taken, fed, read_up, failed);
    strm_free(&s);
    return failed != 0;
}
