/* One stream that four threads use, each call under a mutex. Three writers send numbers, and a reader takes
 * them. A call that would have to wait returns EAGAIN. Its thread then waits on a condition, and each call
 * wakes those that wait. */
#include <pthread.h>
#include <stdio.h>

#include "said.h"
#include "strm.h"

#define WRITERS 3
#define EACH 1000

static struct strm stream = STRM_CLOSED;
static pthread_mutex_t lock = PTHREAD_MUTEX_INITIALIZER;
static pthread_cond_t changed = PTHREAD_COND_INITIALIZER;
static int numbers[WRITERS] = { 0, 1, 2 };

/* Sends a message of four bytes, and waits for room. The first byte is the writer, the others are the number
 * of messages that it has sent before. */
static int put(int writer, int sent)
{
    unsigned char bytes[4] = { (unsigned char)writer, (unsigned char)(sent >> 16), (unsigned char)(sent >> 8), (unsigned char)sent };
    size_t written = 0;
    int code;
    pthread_mutex_lock(&lock);
    while ((code = strm_write(&stream, STRM_A, bytes, 4, &written)) == EAGAIN)
        pthread_cond_wait(&changed, &lock);
    pthread_cond_broadcast(&changed);
    pthread_mutex_unlock(&lock);
    return code;
}

/* Takes the next four bytes, and waits for a message. */
static int get(unsigned char bytes[4], size_t *len)
{
    int code;
    pthread_mutex_lock(&lock);
    while ((code = strm_read(&stream, STRM_A, bytes, 4, len)) == EAGAIN)
        pthread_cond_wait(&changed, &lock);
    pthread_cond_broadcast(&changed);
    pthread_mutex_unlock(&lock);
    return code;
}

static void *write_all(void *arg)
{
    int writer = *(int *)arg;
    for (int sent = 0; sent < EACH; sent++) {
        if (put(writer, sent) != 0)
            return arg;
    }
    return NULL;
}

/* Takes what all have sent, and counts the messages that come out of their writer's order. */
static void *read_all(void *arg)
{
    int next[WRITERS] = { 0, 0, 0 };
    int *disordered = (int *)arg;
    for (int taken = 0; taken < WRITERS * EACH; taken++) {
        unsigned char bytes[4];
        size_t len = 0;
        if (get(bytes, &len) != 0 || len != 4 || bytes[0] >= WRITERS)
            return arg;
        *disordered += next[bytes[0]]++ != (bytes[1] << 16 | bytes[2] << 8 | bytes[3]);
    }
    return NULL;
}

int main(void)
{
    int opened;
    pthread_t threads[WRITERS + 1];
    int disordered = 0, failed = 0;
    opened = strm_open(&stream, STRM_ECHO, 64, 16, 64, 16);
    printf("open %s\n", said(opened));
    if (opened)
        return 1;
    pthread_create(&threads[WRITERS], NULL, read_all, &disordered);
    for (int i = 0; i < WRITERS; i++)
        pthread_create(&threads[i], NULL, write_all, &numbers[i]);
    for (int i = 0; i <= WRITERS; i++) {
        void *result = NULL;
        pthread_join(threads[i], &result);
        failed += result != NULL;
    }
    printf("%d messages, %d out of order, %d threads failed\n", WRITERS * EACH, disordered, failed);
    strm_free(&stream);
    return 0;
}
