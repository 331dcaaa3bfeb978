/* A multiplexer that is the program's own, as I_LINK would set one up (Programmer's Guide: STREAMS,
 * "Multiplexing"). Two users have a stream each, a line with nothing behind it. The third stream is the link, a
 * wire. Each has a module "mux" at its bottom, whose service procedures are mux_run.
 *
 * - What a user sends goes down the link, with the number of the user's channel in front of its data. Long data
 *   goes in frames, and the channels take turns.
 * - What comes up the link goes up the stream of its channel. What has no channel is dropped.
 * - Who cannot go on waits in the queue of its "mux". That is a user whose frames find no room on the link, and
 *   a link whose frames a user does not read. So they fill, and whoever sends gets EAGAIN.
 *
 * The far end of the link is outside of the wire. It takes frames, and hands others in. */
#include <stdio.h>

#include "said.h"
#include "strm.h"

#define MUX "mux"

enum { USERS = 2, LINK = USERS, MOST = 8 }; /* MOST: the most bytes of data in a frame */

static struct strm at[USERS + 1]; /* the streams of the users, by their channels, and that of the link */
static int opened;                /* how many of them are open */
static int turn;                  /* the channel whose turn it is */
static int is_wrong, ran_out;

/* ---- The multiplexer. ---- */

enum service { GETQ, PUTBQ, PUTNEXT };

/* Makes a service call. After ENOSR it tries once more; a program that may lose nothing would keep the message,
 * and try again at its next run. */
static int serve(enum service service, int stream, int side, struct strm_msgb *m)
{
    int e = ENOSR;
    for (int i = 0; i < 2 && e == ENOSR; i++) {
        e = service == GETQ ? strm_getq(&at[stream], STRM_A, MUX, side, 0, m)
            : service == PUTBQ ? strm_putbq(&at[stream], STRM_A, MUX, side, m)
                               : strm_putnext(&at[stream], STRM_A, MUX, side, m);
    }
    ran_out |= e == ENOSR;
    return e;
}

/* Whether a message is one of a user, and not one of the stream. */
static int is_users(const struct strm_msgb *m)
{
    return m->db_type == M_DATA || m->db_type == M_PROTO || m->db_type == M_PCPROTO;
}

/* Sends a frame of a user down the link. Flushes and ioctls stay with the line below, which answers them. */
static int from_user(int channel)
{
    char ctl[1024], dat[1 + 4096];
    struct strm_msgb m = { 0, 0, { sizeof ctl, -1, ctl }, { 4096, -1, dat + 1 }, 0, 0, 0, 0, 0 }, frame, rest;
    if (serve(GETQ, channel, STRM_WR, &m))
        return 0;
    if (!is_users(&m)) {
        serve(PUTNEXT, channel, STRM_WR, &m);
        return 1;
    }
    frame = rest = m;
    rest.dat.len = m.db_type == M_DATA && m.dat.len > MOST ? m.dat.len - MOST : 0;
    rest.dat.buf = m.dat.buf + MOST;
    dat[0] = (char)channel;
    frame.dat.buf = dat;
    frame.dat.len = 1 + (m.dat.len > 0 ? m.dat.len - rest.dat.len : 0);
    if (serve(PUTNEXT, LINK, STRM_WR, &frame) == EAGAIN) {
        serve(PUTBQ, channel, STRM_WR, &m);
        return 0;
    }
    if (rest.dat.len > 0)
        serve(PUTBQ, channel, STRM_WR, &rest);
    return 1;
}

/* Sends one frame, of the next channel that can send one. */
static int from_users(void)
{
    for (int i = 0; i < USERS; i++) {
        int channel = (turn + i) % USERS;
        if (from_user(channel)) {
            turn = (channel + 1) % USERS;
            return 1;
        }
    }
    return 0;
}

/* Sends a frame up to its user. While it waits for room, all frames behind it wait too. A hangup or an error of
 * the link is one of each user. */
static int from_link(void)
{
    char ctl[1024], dat[1 + 4096];
    struct strm_msgb m = { 0, 0, { sizeof ctl, -1, ctl }, { sizeof dat, -1, dat }, 0, 0, 0, 0, 0 }, plain;
    if (serve(GETQ, LINK, STRM_RD, &m))
        return 0;
    if (m.db_type == M_HANGUP || m.db_type == M_ERROR) {
        for (int channel = 0; channel < USERS; channel++)
            serve(PUTNEXT, channel, STRM_RD, &m);
        return 1;
    }
    if (!is_users(&m)) {
        serve(PUTNEXT, LINK, STRM_RD, &m);
        return 1;
    }
    if (m.dat.len < 1 || (unsigned char)dat[0] >= USERS) {
        printf("    mux drops what has no channel\n");
        return 1;
    }
    plain = m;
    plain.dat.buf = dat + 1;
    plain.dat.len = m.db_type != M_DATA && m.dat.len == 1 ? -1 : m.dat.len - 1;
    if (serve(PUTNEXT, dat[0], STRM_RD, &plain) == EAGAIN) {
        serve(PUTBQ, LINK, STRM_RD, &m);
        return 0;
    }
    return 1;
}

/* Does what there is to do. It is called after each call on one of the streams. */
static void mux_run(void)
{
    while (from_link() | from_users())
        ;
}

/* Opens the streams, and pushes the module on each: to serve the write side of a user, and the read side of the
 * link. */
static int mux_open(void)
{
    int e = 0;
    for (int i = 0; i <= LINK && !e; i++) {
        uint32_t rd = i == LINK ? 16 : 0, wr = 16 - rd;
        struct strm_module mux = { MUX, STRM_PASS, rd, rd / 2, wr, wr / 2, 0, NULL, 0, STRM_NOENABLE };
        e = strm_open(&at[i], i == LINK ? STRM_WIRE : STRM_LINE, 16, 8, 16, 8);
        opened += e == 0;
        e = e ? e : strm_push(&at[i], STRM_A, &mux);
    }
    return e;
}

/* ---- The users, and the far end of the link. ---- */

/* Notes whether a call returned what it must. Once memory has run out, nothing is certain. */
static const char *must(int code, int wanted)
{
    ran_out |= code == ENOSR;
    is_wrong |= code != wanted && !ran_out;
    return said(code);
}

/* Prints a text, and notes whether it is the one that must come. */
static void show(const char *bytes, int len, const char *wanted)
{
    is_wrong |= ((size_t)len != strlen(wanted) || memcmp(bytes, wanted, strlen(wanted)) != 0) && !ran_out;
    printf("\"%.*s\"", len, bytes);
}

static void writes(int channel, const char *text, int code)
{
    size_t written = 0;
    int e = strm_write(&at[channel], STRM_A, text, strlen(text), &written);
    printf("user %d writes \"%s\" %s\n", channel, text, must(e, code));
    mux_run();
}

static void sends_high(int channel, const char *text)
{
    char bytes[16];
    struct strbuf ctl = { 0, (int)strlen(text), bytes };
    memcpy(bytes, text, strlen(text));
    printf("user %d sends high \"%s\" %s\n", channel, text, must(strm_putmsg(&at[channel], STRM_A, &ctl, NULL, RS_HIPRI), 0));
    mux_run();
}

static void reads(int channel, const char *wanted)
{
    char bytes[64];
    size_t len = 0;
    int e = strm_read(&at[channel], STRM_A, bytes, sizeof bytes, &len);
    printf("user %d reads %s", channel, must(e, wanted ? 0 : EAGAIN));
    if (!e) {
        putchar(' ');
        show(bytes, (int)len, wanted ? wanted : "");
    }
    putchar('\n');
    mux_run();
}

/* The far end takes a frame. */
static void takes(int channel, const char *wanted)
{
    char ctl[64], dat[64];
    struct strbuf control = { sizeof ctl, -1, ctl }, data = { sizeof dat, -1, dat };
    int kind = 0, band = 0, e = strm_take(&at[LINK], STRM_A, &kind, &band, &control, &data);
    printf("    link %s", must(e, wanted ? 0 : EAGAIN));
    if (!e && data.len > 0) {
        is_wrong |= dat[0] != channel && !ran_out;
        printf(" channel %d %s", dat[0], kind == M_PCPROTO ? "high " : "");
        show(kind == M_DATA ? dat + 1 : ctl, kind == M_DATA ? data.len - 1 : control.len, wanted ? wanted : "");
    }
    putchar('\n');
    mux_run();
}

static void far_sends(int channel, const char *text, int code)
{
    char bytes[64];
    struct strbuf dat = { 0, 1 + (int)strlen(text), bytes };
    bytes[0] = (char)channel;
    memcpy(bytes + 1, text, strlen(text));
    printf("far end sends channel %d \"%s\" %s\n", channel, text, must(strm_arrive(&at[LINK], M_DATA, 0, NULL, &dat, 0), code));
    mux_run();
}

/* ---- What is played. ---- */

static void passes(void)
{
    writes(0, "hello", 0);
    writes(1, "hi", 0);
    takes(0, "hello");
    takes(1, "hi");
    takes(0, NULL);
    far_sends(1, "welcome", 0);
    reads(0, NULL);
    reads(1, "welcome");
    far_sends(7, "lost", 0);
    writes(0, "some data", 0);
    sends_high(1, "now");
    takes(1, "now");
    takes(0, "some dat");
    takes(0, "a");
}

/* The link is full from 16 bytes on, and so is the queue of a user. */
static void fills_the_link(void)
{
    writes(0, "abcdefghijklmnopqrst", 0);
    writes(1, "one", 0);
    writes(0, "0123456789ab", 0);
    writes(0, "more", EAGAIN);
    writes(1, "two", 0);
    takes(0, "abcdefgh");
    writes(0, "more", 0);
    takes(0, "ijklmnop");
    takes(1, "one");
    takes(0, "qrst");
    takes(1, "two");
    takes(0, "01234567");
    takes(0, "89ab");
    takes(0, "more");
    takes(0, NULL);
}

/* User 0 does not read. Once its head is full, what comes behind waits, for user 1 too. */
static void fills_a_user(void)
{
    far_sends(0, "0123456789abcdef", 0);
    far_sends(0, "next", 0);
    far_sends(1, "hi", 0);
    reads(1, NULL);
    far_sends(1, "abcdefgh", 0);
    far_sends(1, "0123456789abcdef", 0);
    far_sends(1, "y", EAGAIN);
    reads(0, "0123456789abcdef");
    reads(0, "next");
    far_sends(1, "y", 0);
    reads(1, "hiabcdefgh0123456789abcdef");
    reads(1, "y");
}

static void ends(void)
{
    writes(0, "abcdefghijklmnop", 0);
    writes(1, "old", 0);
    printf("user 1 flushes %s\n", must(strm_flush(&at[1], STRM_A, FLUSHRW), 0));
    mux_run();
    takes(0, "abcdefgh");
    takes(0, "ijklmnop");
    takes(0, NULL);
    printf("far end hangs up %s\n", must(strm_arrive(&at[LINK], M_HANGUP, 0, NULL, NULL, 0), 0));
    mux_run();
    writes(0, "gone", ENXIO);
    reads(1, "");
}

int main(void)
{
    int e = mux_open();
    printf("open %s\n", must(e, 0));
    if (!e) {
        passes();
        fills_the_link();
        fills_a_user();
        ends();
    }
    while (opened > 0)
        strm_free(&at[--opened]);
    return e || is_wrong;
}
