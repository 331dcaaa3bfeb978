/* Holds each call to what include/strm.h says of its arguments alone (step 1): EBADF for a number that is no
 * end, then EINVAL for a flag, a band, a mode, a kind, a side, a name, marks or a message that are none. They
 * come before the state of the stream, with memory or without. A call that is refused so takes no memory and
 * writes nothing. The test is linked with malloc, realloc and free wrapped.
 *
 * Each row is a call and the errno that it must return, first at an open end. An arrival has an order of its
 * own. The name of a find is judged after the stream, and so is the module that a service call names. Takes,
 * nexts, service calls, strputs and strgets are held to all that refuses them, and polls to the events that
 * they return. None of these takes memory here.
 *
 * A getq and a strget without room take nothing. Each kind of message is put back, and got as it was. */
#include <stdio.h>
#include <stdlib.h>

#include "refused.h"

/* Calls by their arguments: one number, or two. */

static int putmsg(int flags, int unused)
{
    struct strbuf ctl = { 0, 3, (char[]){ "ctl" } }, dat = { 0, 3, (char[]){ "dat" } };
    (void)unused;
    return strm_putmsg(&s, at, &ctl, &dat, flags);
}

static int putmsg_bare(int flags, int unused)
{
    (void)unused;
    return strm_putmsg(&s, at, NULL, NULL, flags);
}

static int putpmsg(int flags, int band)
{
    struct strbuf ctl = { 0, 3, (char[]){ "ctl" } }, dat = { 0, 3, (char[]){ "dat" } };
    return strm_putpmsg(&s, at, &ctl, &dat, band, flags);
}

static int putpmsg_bare(int flags, int band)
{
    return strm_putpmsg(&s, at, NULL, NULL, band, flags);
}

/* Counts a failure if a call that was refused has written something. */
static void hold_unwritten(const char *what, int is_unwritten)
{
    if (!is_unwritten) {
        printf("%s has written something\n", what);
        failed++;
    }
}

static int getmsg(int flags, int unused)
{
    char room[8];
    struct strbuf ctl = { 4, -2, room }, dat = { 4, -2, room + 4 };
    int told = flags, more = -2;
    (void)unused;
    int e = strm_getmsg(&s, at, &ctl, &dat, &told, &more);
    hold_unwritten("getmsg", ctl.len == -2 && dat.len == -2 && told == flags && more == -2);
    return e;
}

static int getpmsg(int flags, int band)
{
    char room[8];
    struct strbuf ctl = { 4, -2, room }, dat = { 4, -2, room + 4 };
    int told = flags, told_band = band, more = -2;
    int e = strm_getpmsg(&s, at, &ctl, &dat, &told_band, &told, &more);
    hold_unwritten("getpmsg", ctl.len == -2 && dat.len == -2 && told == flags && told_band == band && more == -2);
    return e;
}

static int peek(int flags, int unused)
{
    char room[8];
    struct strpeek peek = { { 4, -2, room }, { 4, -2, room + 4 }, flags };
    int found = -2;
    (void)unused;
    int e = strm_peek(&s, at, &peek, &found);
    hold_unwritten("peek", peek.ctlbuf.len == -2 && peek.databuf.len == -2 && peek.flags == flags && found == -2);
    return e;
}

static int flush(int flags, int unused)
{
    (void)unused;
    return strm_flush(&s, at, (uint32_t)flags);
}

static int flushband(int flags, int band)
{
    struct bandinfo info = { (unsigned char)band, flags };
    return strm_flushband(&s, at, &info);
}

static int setread(int mode, int unused)
{
    (void)unused;
    return strm_setread(&s, at, (uint32_t)mode);
}

/* Pushes of a kind that is none, of marks that are none, or of a number that the kind does not take. */

static int push(int kind, int number)
{
    return strm_push_kind(&s, at, "name", 4, (uint32_t)kind, 0, 0, 0, 0, (uint32_t)number, "", 0, 0);
}

static int push_marks(int hi, int lo)
{
    struct strm_module module = { "name", STRM_PASS, (uint32_t)hi, (uint32_t)lo, 8, 4, 0, NULL, 0, 0 };
    return strm_push(&s, at, &module);
}

static int push_table(int len, int unused)
{
    static const char table[512];
    (void)unused;
    return strm_push_kind(&s, at, "name", 4, STRM_TABLE, 0, 0, 0, 0, 0, table, (size_t)len, 0);
}

static int push_flags(int flags, int unused)
{
    struct strm_module module = { "name", STRM_PASS, 8, 4, 8, 4, 0, NULL, 0, (unsigned)flags };
    (void)unused;
    return strm_push(&s, at, &module);
}

/* Names that are none: of no byte, of nine, and with a byte that is no letter, no digit and no _. */
static const char *const wrong_names[] = { "", "ninebytes", "a b", "a-b", "a/b", "a.b", "\x80", "a\n" };
enum { WRONG_NAMES = sizeof wrong_names / sizeof *wrong_names };

static int push_name(int i, int unused)
{
    struct strm_module module = { wrong_names[i], STRM_PASS, 8, 4, 8, 4, 0, NULL, 0, 0 };
    (void)unused;
    return strm_push(&s, at, &module);
}

static int find_name(int i, int unused)
{
    int found = -2;
    (void)unused;
    int e = strm_find(&s, at, wrong_names[i], &found);
    hold_unwritten("find", found == -2);
    return e;
}

/* An arrival without parts, of a kind and with a number. */
static int arrive(int kind, int number)
{
    return strm_arrive(&s, kind, 0, NULL, NULL, number);
}

/* A take with room for n bytes of each part; -1 means no room. */
static int take(int ctl_room, int dat_room)
{
    char room[32] = "";
    struct strbuf ctl = { ctl_room, -2, room }, dat = { dat_room, -2, room + 16 };
    int kind = -2, band = -2;
    int e = strm_take(&s, at, &kind, &band, &ctl, &dat);
    hold_unwritten("take", kind == -2 && band == -2 && ctl.len == -2 && dat.len == -2 && room[0] == 0 && room[16] == 0);
    return e;
}

/* A take with NULL in place of both parts. */
static int take_bare(int unused, int unused_too)
{
    int kind = -2, band = -2;
    (void)unused, (void)unused_too;
    int e = strm_take(&s, at, &kind, &band, NULL, NULL);
    hold_unwritten("take", kind == -2 && band == -2);
    return e;
}

static int next(int unused, int unused_too)
{
    int kind = -2, band = -2, ctl_len = -2, dat_len = -2;
    (void)unused, (void)unused_too;
    int e = strm_next(&s, at, &kind, &band, &ctl_len, &dat_len);
    hold_unwritten("next", kind == -2 && band == -2 && ctl_len == -2 && dat_len == -2);
    return e;
}

/* ---- Messages of service calls. ---- */

#define NO_PART { 0, -1, NULL }
#define BYTES(text) { 0, sizeof text - 1, text }

static const struct strm_msgb plain = { M_DATA, 0, NO_PART, BYTES("data"), 0, 0, 0, 0, 0 };

struct named_message {
    const char *what;
    struct strm_msgb m;
};

/* Numbers and parts that make no message. */
static const struct named_message wrong_messages[] = {
    { "M_DATA without data", { M_DATA, 0, BYTES("ctl"), NO_PART, 0, 0, 0, 0, 0 } },
    { "M_PROTO without control", { M_PROTO, 0, NO_PART, BYTES("dat"), 0, 0, 0, 0, 0 } },
    { "M_PCPROTO without control", { M_PCPROTO, 0, NO_PART, BYTES("dat"), 0, 0, 0, 0, 0 } },
    { "M_DATA of band 256", { M_DATA, 256, NO_PART, BYTES("dat"), 0, 0, 0, 0, 0 } },
    { "M_DATA of band -1", { M_DATA, -1, NO_PART, BYTES("dat"), 0, 0, 0, 0, 0 } },
    { "M_PCPROTO of band 256", { M_PCPROTO, 256, BYTES("ctl"), NO_PART, 0, 0, 0, 0, 0 } },
    { "M_HANGUP of band 256", { M_HANGUP, 256, NO_PART, NO_PART, 0, 0, 0, 0, 0 } },
    { "M_FLUSH of flags 8", { M_FLUSH, 0, NO_PART, NO_PART, 8, 0, 0, 0, 0 } },
    { "M_FLUSH of flags -1", { M_FLUSH, 0, NO_PART, NO_PART, -1, 0, 0, 0, 0 } },
    { "M_FLUSH of band 256", { M_FLUSH, 256, NO_PART, NO_PART, FLUSHRW | FLUSHBAND, 0, 0, 0, 0 } },
    { "M_SETOPTS without data", { M_SETOPTS, 0, NO_PART, NO_PART, 0, 0, 0, 0, 0 } },
    { "M_SETOPTS of 2 bytes", { M_SETOPTS, 0, NO_PART, BYTES("\0\0"), 0, 0, 0, 0, 0 } },
    { "M_SETOPTS of read mode 4", { M_SETOPTS, 0, NO_PART, BYTES("\4\0\0"), 0, 0, 0, 0, 0 } },
    { "M_SETOPTS of marks 1/1", { M_SETOPTS, 0, NO_PART, BYTES("\0\0\1\0\0\0\1\0\0\0\1"), 0, 0, 0, 0, 0 } },
    { "M_ERROR of no errno", { M_ERROR, 0, NO_PART, NO_PART, 0, 0, 0, 0, 1 } },
    { "M_ERROR of no byte", { M_ERROR, 0, NO_PART, BYTES(""), 0, 0, 0, 0, EIO } },
    { "M_ERROR of 3 bytes", { M_ERROR, 0, NO_PART, BYTES("\5\5\5"), 0, 0, 0, 0, EIO } },
    { "M_ERROR of byte 1", { M_ERROR, 0, NO_PART, BYTES("\1"), 0, 0, 0, 0, EIO } },
    { "M_IOCNAK of errno 1", { M_IOCNAK, 0, NO_PART, NO_PART, 0, 0, 1, 0, 1 } },
    { "M_IOCNAK of errno 0", { M_IOCNAK, 0, NO_PART, NO_PART, 0, 0, 1, 0, 0 } },
    { "type 2", { 2, 0, BYTES("ctl"), BYTES("dat"), 0, 0, 0, 0, EIO } },
    { "type 256", { 256, 0, BYTES("ctl"), BYTES("dat"), 0, 0, 0, 0, EIO } },
    { "type -1", { -1, 0, BYTES("ctl"), BYTES("dat"), 0, 0, 0, 0, EIO } },
};
enum { PLAIN = -1, WRONG_MESSAGES = sizeof wrong_messages / sizeof *wrong_messages };

/* The message that a service call sends: a wrong one, by its number, or `PLAIN`. */
static const struct strm_msgb *sent(int i)
{
    return i == PLAIN ? &plain : &wrong_messages[i].m;
}

/* Messages that are put back, and what a getq then gives. What is not for a kind is not looked at. */
static const struct round {
    const char *what;
    struct strm_msgb sent, given;
} rounds[] = {
    { "M_DATA", { M_DATA, 7, BYTES("ctl"), BYTES("data"), 8, 1, 2, 3, 4 }, { M_DATA, 7, NO_PART, BYTES("data"), 0, 0, 0, 0, 0 } },
    { "M_DATA of no byte", { M_DATA, 255, NO_PART, BYTES(""), 0, 0, 0, 0, 0 },
      { M_DATA, 255, NO_PART, BYTES(""), 0, 0, 0, 0, 0 } },
    { "M_PROTO", { M_PROTO, 3, BYTES("c"), NO_PART, 0, 0, 0, 0, 0 }, { M_PROTO, 3, BYTES("c"), NO_PART, 0, 0, 0, 0, 0 } },
    { "M_PROTO with data", { M_PROTO, 0, BYTES(""), BYTES("dat"), 0, 0, 0, 0, 0 },
      { M_PROTO, 0, BYTES(""), BYTES("dat"), 0, 0, 0, 0, 0 } },
    { "M_PCPROTO", { M_PCPROTO, 9, BYTES("ctl"), BYTES("\0"), 0, 0, 0, 0, 0 },
      { M_PCPROTO, 0, BYTES("ctl"), BYTES("\0"), 0, 0, 0, 0, 0 } },
    { "M_IOCTL", { M_IOCTL, 256, BYTES("c"), BYTES("dat"), 8, UINT32_MAX, UINT64_MAX, 3, 4 },
      { M_IOCTL, 0, NO_PART, BYTES("dat"), 0, UINT32_MAX, UINT64_MAX, 0, 0 } },
    { "M_IOCTL without data", { M_IOCTL, 0, NO_PART, NO_PART, 0, 16, 1, 0, 0 },
      { M_IOCTL, 0, NO_PART, NO_PART, 0, 16, 1, 0, 0 } },
    { "M_IOCACK", { M_IOCACK, -1, NO_PART, BYTES("dat"), 0, 5, 6, UINT64_MAX, 1 },
      { M_IOCACK, 0, NO_PART, BYTES("dat"), 0, 0, 6, UINT64_MAX, 0 } },
    { "M_IOCNAK", { M_IOCNAK, 256, NO_PART, BYTES("dat"), 0, 5, 6, 7, EPROTO },
      { M_IOCNAK, 0, NO_PART, NO_PART, 0, 0, 6, 0, EPROTO } },
    { "M_SETOPTS of 3 bytes", { M_SETOPTS, 9, NO_PART, BYTES("\2\0\0"), 0, 0, 0, 0, 0 },
      { M_SETOPTS, 0, NO_PART, BYTES("\2\0\0"), 0, 0, 0, 0, 0 } },
    { "M_SETOPTS of 11 bytes", { M_SETOPTS, 0, NO_PART, BYTES("\0\3\1\0\0\1\2\0\0\0\xff"), 0, 0, 0, 0, 0 },
      { M_SETOPTS, 0, NO_PART, BYTES("\0\3\1\0\0\1\2\0\0\0\xff"), 0, 0, 0, 0, 0 } },
    { "M_FLUSH", { M_FLUSH, 9, BYTES("c"), BYTES("d"), FLUSHRW, 0, 0, 0, 0 },
      { M_FLUSH, 0, NO_PART, NO_PART, FLUSHRW, 0, 0, 0, 0 } },
    { "M_FLUSH of neither side", { M_FLUSH, 0, NO_PART, NO_PART, 0, 0, 0, 0, 0 },
      { M_FLUSH, 0, NO_PART, NO_PART, 0, 0, 0, 0, 0 } },
    { "M_FLUSH of a band", { M_FLUSH, 9, NO_PART, NO_PART, FLUSHW | FLUSHBAND, 0, 0, 0, 0 },
      { M_FLUSH, 9, NO_PART, NO_PART, FLUSHW | FLUSHBAND, 0, 0, 0, 0 } },
    { "M_HANGUP", { M_HANGUP, 9, NO_PART, BYTES("d"), 8, 1, 2, 3, 4 }, { M_HANGUP, 0, NO_PART, NO_PART, 0, 0, 0, 0, 0 } },
    { "M_ERROR without data", { M_ERROR, 9, BYTES("c"), NO_PART, 8, 1, 2, 3, EIO },
      { M_ERROR, 0, NO_PART, BYTES("\5\5"), 0, 0, 0, 0, 0 } },
    { "M_ERROR of a byte", { M_ERROR, 0, NO_PART, BYTES("\5"), 0, 0, 0, 0, 1 },
      { M_ERROR, 0, NO_PART, BYTES("\5\5"), 0, 0, 0, 0, 0 } },
    { "M_ERROR of 2 bytes", { M_ERROR, 0, NO_PART, BYTES("\xff\x47"), 0, 0, 0, 0, 0 },
      { M_ERROR, 0, NO_PART, BYTES("\xff\x47"), 0, 0, 0, 0, 0 } },
};
enum { ROUNDS = sizeof rounds / sizeof *rounds };

static int is_same_part(const struct strbuf *a, const struct strbuf *b)
{
    return a->len == b->len && (a->len <= 0 || memcmp(a->buf, b->buf, (size_t)a->len) == 0);
}

static int is_same(const struct strm_msgb *a, const struct strm_msgb *b)
{
    return a->db_type == b->db_type && a->b_band == b->b_band && is_same_part(&a->ctl, &b->ctl) && is_same_part(&a->dat, &b->dat) &&
           a->flags == b->flags && a->ioc_cmd == b->ioc_cmd && a->ioc_id == b->ioc_id && a->ioc_rval == b->ioc_rval &&
           a->ioc_error == b->ioc_error;
}

/* ---- Service calls on a side of a module. ---- */

static const char *module_name = "m";

/* A getq with room for n bytes of each part, -1 for no part. If it is refused it must write nothing. */
static int getq_into(int side, int flag, int ctl_room, int dat_room)
{
    char room[32] = "";
    const struct strm_msgb before = { -2, -2, { ctl_room, -2, room }, { dat_room, -2, room + 16 }, -2, 7, 7, 7, -2 };
    struct strm_msgb m = before;
    int e = strm_getq(&s, at, module_name, side, flag, &m);
    if (e)
        hold_unwritten("getq", is_same(&m, &before) && room[0] == 0 && room[16] == 0);
    return e;
}

static int getq(int flag, int side)
{
    return getq_into(side, flag, 16, 16);
}

static int getq_short(int ctl_room, int dat_room)
{
    return getq_into(STRM_RD, 0, ctl_room, dat_room);
}

static int putbq(int i, int side)
{
    return strm_putbq(&s, at, module_name, side, sent(i));
}

static int putnext(int i, int side)
{
    return strm_putnext(&s, at, module_name, side, sent(i));
}

static int qreply(int i, int side)
{
    return strm_qreply(&s, at, module_name, side, sent(i));
}

static int bcanputnext(int band, int side)
{
    int can = -2;
    int e = strm_bcanputnext(&s, at, module_name, side, (unsigned char)band, &can);
    if (e)
        hold_unwritten("bcanputnext", can == -2);
    return e;
}

static int qsize(int unused, int side)
{
    int messages = -2;
    (void)unused;
    int e = strm_qsize(&s, at, module_name, side, &messages);
    if (e)
        hold_unwritten("qsize", messages == -2);
    return e;
}

/* ---- Ioctls whose answer is asked for later. ---- */

static int strput(int len, int unused)
{
    static char dat[4097];
    struct strioctl call = { 7, 0, len, dat };
    uint64_t id = 77;
    (void)unused;
    int e = strm_strput(&s, at, &call, &id);
    hold_unwritten("strput", id == 77 && call.ic_len == len);
    return e;
}

/* A strget that must not be answered. */
static int strget(int drops, int room)
{
    char bytes[16] = "";
    struct strbuf dat = { room, -2, bytes };
    uint64_t rval = 77;
    int answer = -2;
    int e = strm_strget(&s, at, drops != 0, &dat, &rval, &answer);
    hold_unwritten("strget", dat.len == -2 && bytes[0] == 0 && rval == 77 && answer == STRM_REFUSED);
    return e;
}

static int strget_bare(int drops, int unused)
{
    uint64_t rval = 77;
    int answer = -2;
    (void)unused;
    int e = strm_strget(&s, at, drops != 0, NULL, &rval, &answer);
    hold_unwritten("strget", rval == 77 && answer == STRM_REFUSED);
    return e;
}

/* A poll for some events, which must return these flags. */
static int poll(int events, int told_wanted)
{
    uint32_t told = 0xdead;
    int e = strm_poll(&s, at, (uint32_t)events, &told);
    return e ? e : told == (uint32_t)told_wanted ? 0 : ERANGE;
}

static int open_driver(int driver, int unused)
{
    struct strm other = STRM_CLOSED;
    (void)unused;
    int e = strm_open(&other, (uint32_t)driver, 16, 4, 16, 4);
    hold_unwritten("open", other.at == NULL);
    return e;
}

static int open_head(int hi, int lo)
{
    struct strm other = STRM_CLOSED;
    int e = strm_open(&other, STRM_ECHO, (uint32_t)hi, (uint32_t)lo, 16, 4);
    hold_unwritten("open", other.at == NULL);
    return e;
}

static int open_lists(int hi, int lo)
{
    struct strm other = STRM_CLOSED;
    int e = strm_open(&other, STRM_ECHO, 16, 4, (uint32_t)hi, (uint32_t)lo);
    hold_unwritten("open", other.at == NULL);
    return e;
}

struct row {
    const char *what;
    int (*call)(int, int);
    int first, second;
};

/* EINVAL by the arguments alone, at each end. */
static const struct row rows[] = {
    { "putmsg, MSG_ANY", putmsg, MSG_ANY, 0 },
    { "putmsg, MSG_BAND", putmsg, MSG_BAND, 0 },
    { "putmsg, flags -1", putmsg, -1, 0 },
    { "putmsg without parts, flags 2", putmsg_bare, 2, 0 },
    { "putpmsg, MSG_ANY", putpmsg, MSG_ANY, 0 },
    { "putpmsg, MSG_HIPRI and MSG_BAND", putpmsg, MSG_HIPRI | MSG_BAND, 0 },
    { "putpmsg, flags 8", putpmsg, 8, 0 },
    { "putpmsg, band 256", putpmsg, MSG_BAND, 256 },
    { "putpmsg, band -1", putpmsg, MSG_BAND, -1 },
    { "putpmsg, MSG_HIPRI and band 256", putpmsg, MSG_HIPRI, 256 },
    { "putpmsg, no flag and band 256", putpmsg, 0, 256 },
    { "putpmsg without parts, band 256", putpmsg_bare, MSG_BAND, 256 },
    { "putpmsg without parts, flags 3", putpmsg_bare, 3, 0 },
    { "getmsg, MSG_ANY", getmsg, MSG_ANY, 0 },
    { "getmsg, flags -1", getmsg, -1, 0 },
    { "getpmsg, flags 3", getpmsg, MSG_HIPRI | MSG_ANY, 0 },
    { "getpmsg, flags 8", getpmsg, 8, 0 },
    { "getpmsg, band 256", getpmsg, MSG_BAND, 256 },
    { "getpmsg, band -1", getpmsg, MSG_ANY, -1 },
    { "peek, flags 2", peek, 2, 0 },
    { "peek, flags -1", peek, -1, 0 },
    { "flush, flags 4", flush, 4, 0 },
    { "flush, flags 7", flush, FLUSHRW | FLUSHBAND, 0 },
    { "flushband, flags 4", flushband, FLUSHBAND, 1 },
    { "flushband, flags -1", flushband, -1, 1 },
    { "setread, modes 1 and 2", setread, RMSGD | RMSGN, 0 },
    { "setread, treatments 4 and 8", setread, RPROTDAT | RPROTDIS, 0 },
    { "setread, 32", setread, 32, 0 },
    { "push, kind 9", push, STRM_SPLIT + 1, 1 },
    { "push, kind -1", push, -1, 1 },
    { "push, band 256", push, STRM_BAND, 256 },
    { "push, a split of 0", push, STRM_SPLIT, 0 },
    { "push, a split of 4097", push, STRM_SPLIT, 4097 },
    { "push, no table", push, STRM_TABLE, 0 },
    { "push, a table of 255", push_table, 255, 0 },
    { "push, a table of 257", push_table, 257, 0 },
    { "push, marks 4 and 4", push_marks, 4, 4 },
    { "push, marks 4 and 5", push_marks, 4, 5 },
    { "push, flags 2", push_flags, 2, 0 },
    { "push, flags -1", push_flags, -1, 0 },
    { "getq, flags 2", getq, 2, STRM_RD },
    { "getq, flags -1", getq, -1, STRM_WR },
    { "getq, side 2", getq, 0, 2 },
    { "getq, side -1", getq, 0, -1 },
    { "putbq, side 2", putbq, PLAIN, 2 },
    { "putnext, side 2", putnext, PLAIN, 2 },
    { "putnext, side -1", putnext, PLAIN, -1 },
    { "qreply, side 2", qreply, PLAIN, 2 },
    { "qreply, side -1", qreply, PLAIN, -1 },
    { "bcanputnext, side 2", bcanputnext, 0, 2 },
    { "qsize, side 2", qsize, 0, 2 },
};
enum { ROWS = sizeof rows / sizeof *rows };

/* EINVAL by the arguments alone, of calls that open a stream. */
static const struct row openings[] = {
    { "open, driver 4", open_driver, STRM_WIRE + 1, 0 },
    { "open, driver -1", open_driver, -1, 0 },
    { "open, the head's marks 4 and 4", open_head, 4, 4 },
    { "open, the lists' marks 4 and 5", open_lists, 4, 5 },
    { "open, the lists' marks 0 and 0", open_lists, 0, 0 },
};
enum { OPENINGS = sizeof openings / sizeof *openings };

/* Arrivals that make no message, or lack a part. */
static const struct row arrivals[] = {
    { "arrive, kind 2", arrive, 2, 0 },
    { "arrive, kind 256", arrive, 256, 0 },
    { "arrive, kind -1", arrive, -1, 0 },
    { "arrive, M_DATA without data", arrive, M_DATA, 0 },
    { "arrive, M_PROTO without control", arrive, M_PROTO, 0 },
    { "arrive, M_PCPROTO without control", arrive, M_PCPROTO, 0 },
    { "arrive, M_SETOPTS without data", arrive, M_SETOPTS, 0 },
    { "arrive, M_FLUSH with 8", arrive, M_FLUSH, 8 },
    { "arrive, M_ERROR with 1", arrive, M_ERROR, 1 },
};
enum { ARRIVALS = sizeof arrivals / sizeof *arrivals };

/* Each way to take the output of a wire, and to ask for it. */
static const struct row takes[] = {
    { "take", take, 16, 16 },
    { "take with no room", take, -1, -1 },
    { "take with neither part", take_bare, 0, 0 },
    { "next", next, 0, 0 },
};
enum { TAKES = sizeof takes / sizeof *takes };

/* Each service call, on a side. The first three need a queue there. */
static const struct row services[] = {
    { "getq", getq, 0, STRM_RD },
    { "putbq", putbq, PLAIN, STRM_RD },
    { "qsize", qsize, 0, STRM_RD },
    { "getq of a high message", getq, RS_HIPRI, STRM_WR },
    { "putnext", putnext, PLAIN, STRM_WR },
    { "qreply", qreply, PLAIN, STRM_WR },
    { "bcanputnext", bcanputnext, 1, STRM_WR },
};
enum { NEED_QUEUE = 3, SERVICES = sizeof services / sizeof *services };

/* Calls of an ioctl in two. */
static const struct row laters[] = {
    { "strget", strget, 0, 16 },
    { "strget that drops", strget, 1, 16 },
    { "strget with no room", strget_bare, 0, 0 },
    { "strput", strput, 3, 0 },
    { "strput without data", strput, -1, 0 },
};
enum { STRGETS = 3, LATERS = sizeof laters / sizeof *laters };

/* Rooms that are too small for control of 3 bytes and data of 4. */
static const struct row short_rooms[] = {
    { "take, control a byte short", take, 2, 16 },
    { "take, data a byte short", take, 16, 3 },
    { "take, room for no byte", take, 0, 0 },
    { "take, no room for control", take, -1, 16 },
    { "take, no room for data", take, 16, -1 },
    { "take with neither part", take_bare, 0, 0 },
};
enum { SHORT_ROOMS = sizeof short_rooms / sizeof *short_rooms };

/* Holds a call to an errno, and to taking no memory. */
static void hold(const struct row *row, int errno_wanted, const char *where)
{
    long before = given;
    int e = row->call(row->first, row->second);
    if (e != errno_wanted || given != before) {
        printf("%s, %s: %s for %s, %ld times memory\n", row->what, where, said(e), said(errno_wanted), given - before);
        failed++;
    }
}

static void hold_all(const struct row *all, int count, int errno_wanted, const char *where)
{
    for (int i = 0; i < count; i++) {
        hold(&all[i], errno_wanted, where);
        is_refusing = 1;
        hold(&all[i], errno_wanted, "with no memory");
        is_refusing = 0;
    }
}

/* Pushes each name that is none, and looks for it. */
static void hold_names(int pushed, int found, const char *where)
{
    for (int i = 0; i < WRONG_NAMES; i++) {
        struct row push = { "push, a name that is none", push_name, i, 0 };
        struct row find = { "find, a name of no byte or of nine", find_name, i, 0 };
        hold_all(&push, 1, pushed, where);
        if (i < 2)
            hold_all(&find, 1, found, where);
    }
}

/* Holds each call that sends a message to those that are none. */
static void hold_messages(int errno_wanted, const char *where)
{
    for (int i = 0; i < WRONG_MESSAGES; i++) {
        const struct row sends[] = {
            { wrong_messages[i].what, putbq, i, STRM_RD },
            { wrong_messages[i].what, putnext, i, STRM_WR },
            { wrong_messages[i].what, qreply, i, STRM_WR },
        };
        hold_all(sends, 3, errno_wanted, where);
    }
}

/* Holds all that is judged by its arguments alone. */
static void hold_arguments(int errno_wanted, const char *where)
{
    hold_all(rows, ROWS, errno_wanted, where);
    hold_messages(errno_wanted, where);
    module_name = "ninebytes";
    hold_all(services, SERVICES, errno_wanted, where);
    module_name = "m";
}

/* Holds service calls on modules that are not there. */
static void hold_nobody(int errno_wanted, const char *where)
{
    static const char *const names[] = { "m", "", "eightbyt" };
    for (int i = 0; i < 3; i++) {
        module_name = names[i];
        hold_all(services, SERVICES, errno_wanted, where);
    }
    module_name = "m";
}

/* Arguments come before the stream, but for the name of a find, the module of a service call and arrivals. */
static void hold_ends(void)
{
    open_as(STRM_LINE);
    hold_arguments(EINVAL, "at an open end");
    hold_names(EINVAL, EINVAL, "at an open end");
    hold_nobody(EINVAL, "at an open end");
    hold_all(arrivals, ARRIVALS, EINVAL, "at an open end");
    hold_all(laters, STRGETS, EINVAL, "where no answer is asked for");
    at = STRM_B;
    hold_arguments(EINVAL, "at an end that the driver lacks");
    hold_names(EINVAL, EBADF, "at an end that the driver lacks");
    hold_nobody(EBADF, "at an end that the driver lacks");
    hold_all(laters, LATERS, EBADF, "at an end that the driver lacks");
    at = STRM_A;
    strm_close(&s, STRM_A);
    hold_arguments(EINVAL, "at a closed end");
    hold_names(EINVAL, EBADF, "at a closed end");
    hold_nobody(EBADF, "at a closed end");
    hold_all(arrivals, ARRIVALS, EBADF, "at a closed end");
    hold_all(laters, LATERS, EBADF, "at a closed end");
    strm_free(&s);
}

/* A number that is no end comes before all. */
static void hold_no_end(void)
{
    open_as(STRM_LOOP);
    at = STRM_B + 1;
    hold_arguments(EBADF, "at no end");
    hold_names(EBADF, EBADF, "at no end");
    hold_nobody(EBADF, "at no end");
    hold_all(laters, LATERS, EBADF, "at no end");
    at = STRM_A;
    hold_all(arrivals, ARRIVALS, EINVAL, "where there is no line");
    strm_free(&s);
}

/* Arguments come before an error that came up, a hangup, and a broken stream. Service calls look at no error
 * and no hangup. */
static void hold_states(void)
{
    open_as(STRM_LINE);
    strm_arrive(&s, M_HANGUP, 0, NULL, NULL, 0);
    hold_all(laters + STRGETS, LATERS - STRGETS, ENXIO, "behind a hangup");
    strm_arrive(&s, M_ERROR, 0, NULL, NULL, EPROTO);
    hold_arguments(EINVAL, "behind an error");
    hold_names(EINVAL, EPROTO, "behind an error");
    hold_nobody(EINVAL, "behind an error");
    hold_all(arrivals, ARRIVALS, EINVAL, "behind an error");
    hold_all(laters, LATERS, EPROTO, "behind an error");
    strm_free(&s);
    open_broken();
    at = STRM_B;
    hold_arguments(EINVAL, "on a broken stream");
    hold_names(EINVAL, ENOSR, "on a broken stream");
    hold_nobody(ENOSR, "on a broken stream");
    hold_all(laters, LATERS, ENOSR, "on a broken stream");
    at = STRM_A;
    strm_free(&s);
}

/* Takes with just the room that is needed. The message must be whole, and as strm_next has said. */
static void take_whole(int ctl_wanted, int dat_wanted, int kind_wanted)
{
    char room[16];
    struct strbuf ctl = { ctl_wanted, -2, room }, dat = { dat_wanted, -2, room + 8 };
    int kind = -2, band = -2, ctl_len = -2, dat_len = -2;
    int e = strm_next(&s, at, &kind, &band, &ctl_len, &dat_len);
    int is_told = e == 0 && kind == kind_wanted && band == 0 && ctl_len == ctl_wanted && dat_len == dat_wanted;
    kind = band = -2;
    e = strm_take(&s, at, &kind, &band, &ctl, &dat);
    int is_taken = e == 0 && kind == kind_wanted && band == 0 && ctl.len == ctl_wanted && dat.len == dat_wanted;
    if (!is_told || !is_taken) {
        printf("a take of %d and %d bytes: %s, kind %d\n", ctl_wanted, dat_wanted, said(e), kind);
        failed++;
    }
}

/* Sends control and data of these lengths down; -1 means no part. */
static void send_down(int ctl_len, int dat_len)
{
    struct strbuf ctl = { 0, ctl_len, (char[]){ "ctl" } }, dat = { 0, dat_len, (char[]){ "data" } };
    if (strm_putmsg(&s, STRM_A, &ctl, &dat, 0) != 0)
        exit(2);
}

static void hold_poll(int told, const char *where)
{
    struct row row = { "poll for all", poll, 0x3ff, told };
    hold_all(&row, 1, 0, where);
    row = (struct row){ "poll for nothing", poll, 0, told & (STRM_POLLERR | STRM_POLLHUP | STRM_POLLNVAL) };
    hold_all(&row, 1, 0, where);
}

/* The refusals of a take from a wire, in their order, and a message that stays because it has no room. */
static void hold_wires(void)
{
    enum { OUT = STRM_POLLOUT | STRM_POLLWRNORM };
    open_as(STRM_WIRE);
    hold_all(takes, TAKES, EAGAIN, "at a wire of no output");
    hold_poll(OUT, "at a wire of no output");
    send_down(3, 4);
    hold_all(short_rooms, SHORT_ROOMS, ERANGE, "with too little room");
    at = STRM_B;
    hold_all(takes, TAKES, EBADF, "at an end that the driver lacks");
    hold_poll(STRM_POLLNVAL, "at an end that the driver lacks");
    at = STRM_B + 1;
    hold_all(takes, TAKES, EBADF, "at no end");
    hold_poll(STRM_POLLNVAL, "at no end");
    at = STRM_A;
    send_down(-1, 0);
    hold_poll(0, "at a wire that is full");
    take_whole(3, 4, M_PROTO);
    hold_all(takes + 1, 1, ERANGE, "with no room for a part of no byte");
    take_whole(-1, 0, M_DATA);
    strm_arrive(&s, M_ERROR, 0, NULL, NULL, EPROTO);
    hold_all(takes, TAKES, EAGAIN, "behind an error");
    hold_poll(STRM_POLLERR, "behind an error");
    strm_close(&s, STRM_A);
    take_whole(-1, -1, M_HANGUP);
    take_whole(-1, -1, M_HANGUP);
    hold_poll(STRM_POLLNVAL, "at a closed wire");
    strm_free(&s);
}

/* Takes where the driver is no wire. A closed end and a broken stream come before that. */
static void hold_no_wire(void)
{
    open_as(STRM_LOOP);
    hold_all(takes, TAKES, EINVAL, "where there is no wire");
    strm_close(&s, STRM_B);
    hold_poll(STRM_POLLHUP, "at an end that is hung up");
    is_refusing = 1;
    strm_close(&s, STRM_A);
    is_refusing = 0;
    hold_all(takes, TAKES, EBADF, "at a closed end");
    strm_free(&s);
    open_as(STRM_LOOP);
    is_refusing = 1;
    strm_close(&s, STRM_A);
    is_refusing = 0;
    hold_all(takes, TAKES, EBADF, "at a closed end of a broken stream");
    hold_poll(STRM_POLLNVAL, "at a closed end of a broken stream");
    at = STRM_B;
    hold_all(takes, TAKES, ENOSR, "on a broken stream");
    hold_poll(STRM_POLLERR, "on a broken stream");
    at = STRM_A;
    strm_free(&s);
}

/* Pushes a module whose service procedures are the program's, or ends the test. */
static void push_served(const char *name, uint32_t rd_hi, uint32_t wr_hi)
{
    struct strm_module module = { name, STRM_PASS, rd_hi, rd_hi / 2, wr_hi, wr_hi / 2, 0, NULL, 0, STRM_NOENABLE };
    if (strm_push(&s, STRM_A, &module) != 0)
        exit(2);
}

/* Counts a failure if something of a message is not as it must be. */
static void hold_true(const char *what, int is_true)
{
    if (!is_true) {
        printf("%s is not as it must be\n", what);
        failed++;
    }
}

/* Counts the messages in a queue of the module. */
static int waiting(int side)
{
    int messages = -2;
    return strm_qsize(&s, at, module_name, side, &messages) ? -1 : messages;
}

/* Takes a message with just the room that is needed. */
static void get_whole(const char *what, int side, const struct strm_msgb *given)
{
    char ctl[8], dat[16];
    struct strm_msgb got = { -2, -2, { given->ctl.len, -2, ctl }, { given->dat.len, -2, dat }, -2, 7, 7, 7, -2 };
    int e = strm_getq(&s, at, module_name, side, 0, &got);
    hold_true(what, e == 0 && is_same(&got, given));
}

/* Puts a message back, and takes it. With too little room for a part it stays. Without memory it is not put
 * back. */
static void hold_round(const struct round *it)
{
    struct row ctl = { it->what, getq_short, it->given.ctl.len - 1, 16 }, dat = { it->what, getq_short, 16, it->given.dat.len - 1 };
    is_refusing = 1;
    int e = strm_putbq(&s, at, module_name, STRM_RD, &it->sent);
    is_refusing = 0;
    hold_true(it->what, e == ENOSR && waiting(STRM_RD) == 0);
    e = strm_putbq(&s, at, module_name, STRM_RD, &it->sent);
    hold_true(it->what, e == 0 && waiting(STRM_RD) == 1);
    if (it->given.ctl.len >= 0)
        hold_all(&ctl, 1, ERANGE, "control a byte short");
    if (it->given.dat.len >= 0)
        hold_all(&dat, 1, ERANGE, "data a byte short");
    hold_true(it->what, waiting(STRM_RD) == 1);
    get_whole(it->what, STRM_RD, &it->given);
    hold_true(it->what, waiting(STRM_RD) == 0);
}

/* What refuses service calls at a module that is there, and messages that go round. */
static void hold_services(void)
{
    struct row full = { "putnext", putnext, PLAIN, STRM_WR }, reply = { "qreply", qreply, PLAIN, STRM_RD };
    struct row empty = { "getq", getq, 0, STRM_RD }, high = { "getq of a high message", getq, RS_HIPRI, STRM_RD };
    open_as(STRM_LINE);
    push_served("below", 0, 4);
    push_served("m", 8, 0);
    hold_all(&empty, 1, EAGAIN, "where no message waits");
    putbq(PLAIN, STRM_RD);
    hold_all(&high, 1, EAGAIN, "where data are first");
    get_whole("what was put back", STRM_RD, &plain);
    for (int i = 0; i < ROUNDS; i++)
        hold_round(&rounds[i]);
    hold_true("a putnext", putnext(PLAIN, STRM_WR) == 0);
    hold_all(&full, 1, EAGAIN, "where the next queue is full");
    hold_all(&reply, 1, EAGAIN, "where the next queue is full");
    module_name = "below";
    get_whole("what was sent on", STRM_WR, &plain);
    hold_all(services, NEED_QUEUE, EINVAL, "on a side without a queue");
    module_name = "m";
    hold_true("a qreply", qreply(PLAIN, STRM_RD) == 0);
    strm_pop(&s, STRM_A);
    hold_nobody(EINVAL, "at a module that was popped");
    strm_free(&s);
}

/* A module whose service procedures the stream has is none of the program's. */
static void hold_served_by_the_stream(void)
{
    struct strm_module module = { "m", STRM_PASS, 8, 4, 8, 4, 0, NULL, 0, 0 };
    open_as(STRM_ECHO);
    strm_push(&s, STRM_A, &module);
    hold_all(services, SERVICES, EINVAL, "at a module of the stream");
    strm_free(&s);
}

/* The output of a wire by the driver's name. */
static void hold_output(void)
{
    static const struct row unsuited[] = {
        { "getq", getq, 0, STRM_RD },
        { "putbq", putbq, PLAIN, STRM_RD },
        { "qsize", qsize, 0, STRM_RD },
        { "putnext", putnext, PLAIN, STRM_WR },
        { "qreply", qreply, PLAIN, STRM_RD },
        { "bcanputnext", bcanputnext, 0, STRM_WR },
    };
    enum { UNSUITED = sizeof unsuited / sizeof *unsuited };
    struct row empty = { "getq", getq, 0, STRM_WR };
    static const struct strm_msgb hangup = { M_HANGUP, 0, NO_PART, NO_PART, 0, 0, 0, 0, 0 };
    open_as(STRM_WIRE);
    module_name = "wire";
    hold_all(unsuited, UNSUITED, EINVAL, "at the output of a wire");
    hold_all(&empty, 1, EAGAIN, "at a wire of no output");
    hold_true("a putbq of a hangup", strm_putbq(&s, at, "wire", STRM_WR, &hangup) == EINVAL);
    hold_true("a putbq", putbq(PLAIN, STRM_WR) == 0 && waiting(STRM_WR) == 1);
    strm_close(&s, STRM_A);
    hold_all(unsuited, UNSUITED, EINVAL, "at the output of a closed wire");
    get_whole("the output of a closed wire", STRM_WR, &plain);
    get_whole("the end of the output", STRM_WR, &hangup);
    hold_true("a putbq at a closed wire", putbq(PLAIN, STRM_WR) == 0);
    at = STRM_B;
    hold_all(services, SERVICES, EBADF, "at an end that the driver lacks");
    at = STRM_A;
    module_name = "m";
    strm_free(&s);
}

/* Sends the answer to an ioctl up from the module. */
static void answer_by(int kind, uint64_t id)
{
    struct strm_msgb m = { kind, 0, NO_PART, BYTES("data"), 0, 0, id, 5, EPROTO };
    hold_true("an answer", strm_qreply(&s, at, "m", STRM_WR, &m) == 0);
}

/* Makes a strget that is answered so. */
static void get_answer(bool drops, int room, int code_wanted, int answer_wanted)
{
    char bytes[16];
    struct strbuf dat = { room, -2, bytes }, sent = BYTES("data");
    uint64_t rval = 77;
    int answer = -2;
    int e = strm_strget(&s, at, drops, &dat, &rval, &answer);
    hold_true("a strget", e == code_wanted && answer == answer_wanted);
    hold_true("what a strget gives", e ? dat.len == -2 && rval == 77 : is_same_part(&dat, &sent) && rval == 5);
}

/* An ioctl in two calls. An answer that has no room stays. */
static void hold_later(void)
{
    static const struct row shorts[] = {
        { "strget, data a byte short", strget, 0, 3 },
        { "strget that drops, no room", strget, 1, -1 },
        { "strget with no room", strget_bare, 1, 0 },
    };
    struct row asked = { "strput", strput, 3, 0 }, too_long = { "strput of 4097 bytes", strput, 4097, 0 };
    struct strioctl call = { 7, 0, 3, (char[]){ "dat" } };
    uint64_t id = 0;
    open_as(STRM_LINE);
    push_served("m", 0, 16);
    hold_all(&too_long, 1, EINVAL, "where none is asked for");
    hold_true("a strput", strm_strput(&s, at, &call, &id) == 0 && id == 1);
    hold_all(&asked, 1, EAGAIN, "where an answer is asked for");
    hold_all(laters, 1, EAGAIN, "where no answer has come");
    answer_by(M_IOCACK, id);
    hold_all(shorts, 3, ERANGE, "of data of 4 bytes");
    get_answer(false, 4, 0, STRM_ACK);
    hold_all(laters, STRGETS, EINVAL, "where no answer is asked for");
    hold_true("a strput", strm_strput(&s, at, &call, &id) == 0 && id == 2);
    answer_by(M_IOCNAK, id);
    get_answer(false, -1, EPROTO, STRM_NAK);
    hold_true("a strput", strm_strput(&s, at, &call, &id) == 0 && id == 3);
    get_answer(true, -1, ETIME, STRM_TIMEOUT);
    strm_free(&s);
}

int main(void)
{
    hold_all(openings, OPENINGS, EINVAL, "at no stream");
    hold_ends();
    hold_no_end();
    hold_states();
    hold_wires();
    hold_no_wire();
    hold_services();
    hold_served_by_the_stream();
    hold_output();
    hold_later();
    return failed != 0;
}
