/* Stop and wait, with a timer (timeout(9F)). Two stations have a wire each. Above each is a module "arq" whose
 * service procedures are the program's. The network is the program too: it takes from one wire, hands in at the
 * other, and loses every third message from station 0 to station 1. The clock is a counter.
 *
 * - Data goes in frames: d, a bit of 0 or 1, and at most 8 bytes. The answer to a frame is a, and its bit. All
 *   else goes as it is, and has no answer.
 * - While a frame has no answer only high messages are taken from the write side. So data waits in its queue,
 *   and once that is full the user gets EAGAIN.
 * - A frame without answer goes again after three ticks. One that was taken before is only answered again.
 * - After five tries the station gives up: a hangup goes up to its user.
 * - A flush empties the queues, and not the frame that is on its way: its answer must still come. */
#include <stdio.h>

#include "said.h"
#include "strm.h"

#define ARQ "arq"

enum { STATIONS = 2, WAIT = 3, TRIES = 5, MOST = 8 };

struct station {
    struct strm s;
    char frame[2 + MOST]; /* what was sent, and has no answer */
    int len;              /* its length, -1 for none */
    int tries, due;       /* how often it was sent, and when it goes again */
    char bit, awaited;    /* those of the frame to send, and of the frame to come */
    int is_down;          /* the station has given up */
};

static struct station stations[STATIONS];
static int opened, now, carried, is_cut, is_wrong, ran_out;

/* ---- The stations. ---- */

enum service { GETQ, PUTBQ, PUTNEXT };

/* Makes a service call. After ENOSR it tries once more; a program that may lose nothing would keep the message,
 * and try again at its next run. */
static int serve(enum service service, struct station *it, int side, int flag, struct strm_msgb *m)
{
    int e = ENOSR;
    for (int i = 0; i < 2 && e == ENOSR; i++) {
        e = service == GETQ ? strm_getq(&it->s, STRM_A, ARQ, side, flag, m)
            : service == PUTBQ ? strm_putbq(&it->s, STRM_A, ARQ, side, m)
                               : strm_putnext(&it->s, STRM_A, ARQ, side, m);
    }
    ran_out |= e == ENOSR;
    return e;
}

/* Sends bytes past a side. Returns 0 if they went. */
static int send_data(struct station *it, int side, char *bytes, int len)
{
    struct strm_msgb m = { M_DATA, 0, { 0, -1, NULL }, { 0, len, bytes }, 0, 0, 0, 0, 0 };
    return serve(PUTNEXT, it, side, 0, &m);
}

/* Sends the frame, and sets the timer. If the wire has no room the frame is lost, as others are. */
static void send_frame(struct station *it)
{
    send_data(it, STRM_WR, it->frame, it->len);
    it->tries++;
    it->due = now + WAIT;
}

/* Sends on what is no data. Returns whether there was room for it; else it is put back. */
static int pass(struct station *it, int side, struct strm_msgb *m)
{
    if (serve(PUTNEXT, it, side, 0, m) != EAGAIN)
        return 1;
    serve(PUTBQ, it, side, 0, m);
    return 0;
}

/* The service procedure of the read side. A frame for which the user has no room is lost, too. */
static int from_below(struct station *it)
{
    char ctl[1024], dat[4096];
    struct strm_msgb m = { 0, 0, { sizeof ctl, -1, ctl }, { sizeof dat, -1, dat }, 0, 0, 0, 0, 0 };
    if (serve(GETQ, it, STRM_RD, 0, &m))
        return 0;
    if (m.db_type != M_DATA)
        return pass(it, STRM_RD, &m);
    if (m.dat.len == 2 && dat[0] == 'a' && it->len >= 0 && dat[1] == it->bit) {
        it->len = -1;
        it->bit ^= 1;
    } else if (m.dat.len >= 2 && dat[0] == 'd') {
        if (dat[1] == it->awaited) {
            if (send_data(it, STRM_RD, dat + 2, m.dat.len - 2))
                return 1;
            it->awaited ^= 1;
        }
        dat[0] = 'a';
        send_data(it, STRM_WR, dat, 2);
    }
    return 1;
}

/* The service procedure of the write side. */
static int from_above(struct station *it)
{
    char ctl[1024], dat[4096];
    struct strm_msgb m = { 0, 0, { sizeof ctl, -1, ctl }, { sizeof dat, -1, dat }, 0, 0, 0, 0, 0 };
    if (serve(GETQ, it, STRM_WR, it->len >= 0 || it->is_down ? RS_HIPRI : 0, &m))
        return 0;
    if (m.db_type != M_DATA)
        return pass(it, STRM_WR, &m);
    int some = m.dat.len < MOST ? m.dat.len : MOST;
    it->frame[0] = 'd';
    it->frame[1] = it->bit;
    memcpy(it->frame + 2, dat, (size_t)some);
    it->len = 2 + some;
    it->tries = 0;
    send_frame(it);
    m.dat.buf += some;
    m.dat.len -= some;
    if (m.dat.len > 0)
        serve(PUTBQ, it, STRM_WR, 0, &m);
    return 1;
}

/* Does what there is to do. It is called after each call on the stream of a station. */
static void run(struct station *it)
{
    while (from_below(it) | from_above(it))
        ;
}

/* The frame has had no answer in time. */
static void expire(struct station *it)
{
    struct strm_msgb hangup = { M_HANGUP, 0, { 0, -1, NULL }, { 0, -1, NULL }, 0, 0, 0, 0, 0 };
    if (it->tries < TRIES) {
        send_frame(it);
    } else {
        printf("tick %d: station %d gives up\n", now, (int)(it - stations));
        it->len = -1;
        it->is_down = 1;
        serve(PUTNEXT, it, STRM_RD, 0, &hangup);
    }
}

static int open_stations(void)
{
    struct strm_module arq = { ARQ, STRM_PASS, 64, 32, 16, 8, 0, NULL, 0, STRM_NOENABLE };
    int e = 0;
    for (int i = 0; i < STATIONS && !e; i++) {
        stations[i].len = -1;
        stations[i].bit = stations[i].awaited = '0';
        e = strm_open(&stations[i].s, STRM_WIRE, 64, 32, 64, 32);
        opened += e == 0;
        e = e ? e : strm_push(&stations[i].s, STRM_A, &arq);
    }
    return e;
}

/* ---- The network. ---- */

/* Takes a message from a wire. ENOSR may hold for this once, so the call is then made again. */
static int take(int from, int *kind, int *band, struct strbuf *ctl, struct strbuf *dat)
{
    int e = strm_take(&stations[from].s, STRM_A, kind, band, ctl, dat);
    if (e == ENOSR)
        e = strm_take(&stations[from].s, STRM_A, kind, band, ctl, dat);
    ran_out |= e == ENOSR;
    return e;
}

/* Carries what a station has sent to the other one. */
static void carry(int from)
{
    char ctl_bytes[1024], bytes[4096];
    struct strbuf ctl = { sizeof ctl_bytes, -1, ctl_bytes }, dat = { sizeof bytes, -1, bytes };
    int kind = 0, band = 0;
    while (take(from, &kind, &band, &ctl, &dat) == 0) {
        int is_lost = is_cut || (from == 0 && ++carried % 3 == 0);
        int is_high = kind == M_PCPROTO, len = is_high ? ctl.len : dat.len;
        printf("tick %d: %d to %d %s", now, from, 1 - from, is_high ? "high " : "");
        printf("\"%.*s\"%s\n", len, is_high ? ctl_bytes : bytes, is_lost ? " lost" : "");
        if (!is_lost)
            ran_out |= strm_arrive(&stations[1 - from].s, kind, (unsigned char)band, &ctl, &dat, 0) == ENOSR;
        run(&stations[1 - from]);
    }
}

/* Lets the clock tick until a time. */
static void wait_until(int time)
{
    while (now < time) {
        now++;
        for (int i = 0; i < STATIONS; i++) {
            if (stations[i].len >= 0 && now >= stations[i].due)
                expire(&stations[i]);
            run(&stations[i]);
        }
        carry(0);
        carry(1);
    }
}

/* ---- The users. ---- */

/* Notes whether a call returned what it must. Once memory has run out, nothing is certain. */
static const char *must(int code, int wanted)
{
    ran_out |= code == ENOSR;
    is_wrong |= code != wanted && !ran_out;
    return said(code);
}

/* Ends a line with a text, and notes whether it is the one that must come. */
static void show(const char *bytes, int len, const char *wanted)
{
    is_wrong |= (len != (int)strlen(wanted) || memcmp(bytes, wanted, strlen(wanted)) != 0) && !ran_out;
    printf(" \"%.*s\"\n", len, bytes);
}

static void writes(int i, const char *text, int code)
{
    size_t written = 0;
    printf("user %d writes \"%s\" %s\n", i, text, must(strm_write(&stations[i].s, STRM_A, text, strlen(text), &written), code));
    run(&stations[i]);
}

static void reads(int i, const char *wanted)
{
    char bytes[64];
    size_t len = 0;
    printf("user %d reads %s", i, must(strm_read(&stations[i].s, STRM_A, bytes, sizeof bytes, &len), 0));
    show(bytes, (int)len, wanted);
    run(&stations[i]);
}

static void sends_high(int i, const char *text)
{
    char bytes[16];
    struct strbuf ctl = { 0, (int)strlen(text), bytes };
    memcpy(bytes, text, strlen(text));
    printf("user %d sends high \"%s\" %s\n", i, text, must(strm_putmsg(&stations[i].s, STRM_A, &ctl, NULL, RS_HIPRI), 0));
    run(&stations[i]);
}

static void gets_high(int i, const char *wanted)
{
    char bytes[16];
    struct strbuf ctl = { sizeof bytes, 0, bytes };
    int flags = RS_HIPRI, more = 0;
    printf("user %d gets high %s", i, must(strm_getmsg(&stations[i].s, STRM_A, &ctl, NULL, &flags, &more), 0));
    show(bytes, ctl.len, wanted);
    run(&stations[i]);
}

/* ---- What is played. ---- */

/* A frame gets lost, and goes again. Meanwhile the user's queue is full. */
static void sends(void)
{
    writes(0, "one", 0);
    writes(0, "two", 0);
    writes(0, "three and four", 0);
    writes(0, "five", EAGAIN);
    sends_high(0, "now");
    wait_until(1);
    gets_high(1, "now");
    reads(1, "one");
    wait_until(8);
    reads(1, "twothree and four");
}

/* An answer gets lost. So its frame comes twice, and is read once. */
static void answers(void)
{
    writes(1, "hello", 0);
    wait_until(10);
    writes(1, "again", 0);
    wait_until(14);
    reads(0, "helloagain");
}

static void gives_up(void)
{
    is_cut = 1;
    writes(0, "lost", 0);
    writes(0, "more", 0);
    wait_until(29);
    writes(0, "gone", ENXIO);
    reads(0, "");
}

int main(void)
{
    int e = open_stations();
    printf("open %s\n", must(e, 0));
    if (!e) {
        sends();
        answers();
        gives_up();
    }
    while (opened > 0)
        strm_free(&stations[--opened].s);
    return e || is_wrong;
}
