/* A program that waits, by a mutex and a condition of its own and by strm_poll. Two writers send numbers,
 * each down a loop of its own. A server waits for either of the two, and sends what it gets down a third,
 * from which main takes it. Whoever waits for a stream sleeps on the condition until strm_poll shows what it
 * waits for. Whoever made a call that returned 0 wakes all before it gives the mutex back. */
#include <pthread.h>
#include <stdio.h>

#include "said.h"
#include "strm.h"

#define EACH 1000

static struct strm in[2] = { STRM_CLOSED, STRM_CLOSED }, out = STRM_CLOSED;
static pthread_mutex_t lock = PTHREAD_MUTEX_INITIALIZER;
static pthread_cond_t changed = PTHREAD_COND_INITIALIZER;

/* A number, and the writer that has sent it. */
struct number {
    int writer, value;
};

/* Sleeps until an end shows one of these events, or is hung up, closed or in error. */
static void wait_for(struct strm *s, uint8_t end, uint32_t events)
{
    uint32_t told = 0;
    for (strm_poll(s, end, events, &told); !told; strm_poll(s, end, events, &told))
        pthread_cond_wait(&changed, &lock);
}

/* Gives the mutex back. If the call returned 0, first wakes those that sleep, and they look again. */
static int done(int code)
{
    if (!code)
        pthread_cond_broadcast(&changed);
    pthread_mutex_unlock(&lock);
    return code;
}

/* Sends a message as putmsg does, and waits for room. */
static int put(struct strm *s, uint8_t end, struct number sent)
{
    struct strbuf dat = { 0, sizeof sent, (char *)&sent };
    pthread_mutex_lock(&lock);
    wait_for(s, end, STRM_POLLOUT);
    return done(strm_putmsg(s, end, NULL, &dat, 0));
}

/* Takes a message as getmsg does, and waits for one. At a hung up end whose messages were all taken, *len
 * becomes 0. */
static int get(struct strm *s, uint8_t end, struct number *got, int *len)
{
    struct strbuf dat = { sizeof *got, 0, (char *)got };
    int flags = 0, more = 0, code;
    pthread_mutex_lock(&lock);
    wait_for(s, end, STRM_POLLIN);
    code = strm_getmsg(s, end, NULL, &dat, &flags, &more);
    *len = dat.len;
    return done(code);
}

/* Waits for either loop. Returns the one that has a message for the server, or -1 once both are hung up and
 * empty. */
static int select_in(void)
{
    int found = -1, hung = 0;
    pthread_mutex_lock(&lock);
    for (;;) {
        for (int i = hung = 0; i < 2 && found < 0; i++) {
            uint32_t told = 0;
            strm_poll(&in[i], STRM_B, STRM_POLLIN, &told);
            found = told & STRM_POLLIN ? i : -1;
            hung += told == STRM_POLLHUP;
        }
        if (found >= 0 || hung == 2)
            break;
        pthread_cond_wait(&changed, &lock);
    }
    pthread_mutex_unlock(&lock);
    return found;
}

static int hang_up(struct strm *s)
{
    pthread_mutex_lock(&lock);
    return done(strm_close(s, STRM_A));
}

static void *write_all(void *arg)
{
    struct number sent = { *(int *)arg, 0 };
    for (; sent.value < EACH; sent.value++) {
        if (put(&in[sent.writer], STRM_A, sent) != 0)
            return arg;
    }
    return hang_up(&in[sent.writer]) ? arg : NULL;
}

static void *serve(void *arg)
{
    for (int i = select_in(); i >= 0; i = select_in()) {
        struct number passed = { 0, 0 };
        int len = 0;
        if (get(&in[i], STRM_B, &passed, &len) != 0 || len != sizeof passed || put(&out, STRM_A, passed) != 0)
            return arg;
    }
    return hang_up(&out) ? arg : NULL;
}

int main(void)
{
    int writers[2] = { 0, 1 }, next[2] = { 0, 0 }, disordered = 0, failed = 0, len = 0;
    long sum = 0;
    struct number got = { 0, 0 };
    pthread_t threads[3];
    for (int i = 0; i < 3; i++) {
        int opened = strm_open(i < 2 ? &in[i] : &out, STRM_LOOP, 32, 8, 32, 8);
        printf("open %s\n", said(opened));
        if (opened)
            return 1;
    }
    pthread_create(&threads[0], NULL, write_all, &writers[0]);
    pthread_create(&threads[1], NULL, write_all, &writers[1]);
    pthread_create(&threads[2], NULL, serve, &failed);
    while (get(&out, STRM_B, &got, &len) == 0 && len > 0) {
        sum += got.value;
        disordered += next[got.writer]++ != got.value;
    }
    for (int i = 0; i < 3; i++) {
        void *result = NULL;
        pthread_join(threads[i], &result);
        failed += result != NULL;
    }
    printf("%d and %d numbers with the sum %ld, %d out of order, %d threads failed\n", next[0], next[1], sum, disordered, failed);
    strm_free(&in[0]);
    strm_free(&in[1]);
    strm_free(&out);
    return 0;
}
