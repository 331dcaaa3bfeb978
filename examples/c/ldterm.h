/* A line discipline that is the program's own, as a module "ldterm" of a stream (ldterm(7M)). It is pushed with
 * STRM_NOENABLE, so ld_run is its service procedures. What waits is in its queues. The line that is typed, the
 * modes and the cursor are in a struct ldterm. */
#ifndef LDTERM_H
#define LDTERM_H

#include "strm.h"

#define LD_NAME "ldterm"
#define LD_KEY(letter) ((letter) & 0x1f)

/* The modes. Without any of them all bytes go through unchanged. */
enum ld_mode {
    LD_CANON = 1, /* keys go up in lines, in which DEL or ^H erases a key, ^U all of them; ^D ends a line */
    LD_ECHO = 2,  /* keys are shown */
    LD_KEYS = 4,  /* ^S stops the output, ^Q starts it, and ^C flushes all that waits */
    LD_CRNL = 8,  /* a CR that is typed is an NL. To the terminal an NL is a CR LF, and a tab is blanks */
    LD_COOKED = 15
};

/* The ioctls. The modes are data of 4 bytes, the greatest byte first. All others are sent on down. */
enum ld_ioctl { LD_GET = 1, LD_SET = 2 };

/* The most bytes from above that go down in one message, and the most that such a byte becomes. */
enum { LD_MOST = 64, LD_WIDTH = 8 };

struct ldterm {
    struct strm *s;
    unsigned modes;
    char line[256]; /* what was typed, and has not gone up */
    int len;
    int is_whole;   /* the line goes up as soon as there is room */
    int is_stopped; /* by ^S: nothing ordinary goes down but echo */
    unsigned column, start; /* where the cursor of the terminal is, and where it was before the line */
};

/* Sends a message past a side. After ENOSR it tries once more; a program that may lose nothing would keep the
 * message, and try again at its next run. */
static int ld_send(struct ldterm *t, int side, const struct strm_msgb *m)
{
    int e = strm_putnext(t->s, STRM_A, LD_NAME, side, m);
    return e == ENOSR ? strm_putnext(t->s, STRM_A, LD_NAME, side, m) : e;
}

/* Takes the first message of a side, or only a high one, in the same way. */
static int ld_take(struct ldterm *t, int side, int flag, struct strm_msgb *m)
{
    int e = strm_getq(t->s, STRM_A, LD_NAME, side, flag, m);
    return e == ENOSR ? strm_getq(t->s, STRM_A, LD_NAME, side, flag, m) : e;
}

/* Puts a message back, in the same way. */
static void ld_put_back(struct ldterm *t, int side, const struct strm_msgb *m)
{
    if (strm_putbq(t->s, STRM_A, LD_NAME, side, m) == ENOSR)
        strm_putbq(t->s, STRM_A, LD_NAME, side, m);
}

static struct strm_msgb ld_data(char *bytes, int len)
{
    struct strm_msgb m = { M_DATA, 0, { 0, -1, NULL }, { 0, len, bytes }, 0, 0, 0, 0, 0 };
    return m;
}

/* Forgets what was typed. */
static void ld_forget(struct ldterm *t)
{
    t->len = 0;
    t->is_whole = 0;
}

/* Sends the line up if it is whole. Returns whether none waits any longer. */
static int ld_line_up(struct ldterm *t)
{
    struct strm_msgb m = ld_data(t->line, t->len);
    if (!t->is_whole)
        return 1;
    if (ld_send(t, STRM_RD, &m) == EAGAIN)
        return 0;
    ld_forget(t);
    return 1;
}

/* Returns where a byte moves the cursor. */
static unsigned ld_column(unsigned column, char byte)
{
    switch (byte) {
    case '\n':
    case '\r': return 0;
    case '\b': return column > 0 ? column - 1 : 0;
    case '\t': return (column / LD_WIDTH + 1) * LD_WIDTH;
    default: return (unsigned char)byte < ' ' ? column : column + 1;
    }
}

/* Makes of at most LD_MOST bytes what the terminal gets. `out` has room for LD_WIDTH times as much. */
static int ld_output(struct ldterm *t, const char *bytes, int len, char *out)
{
    int n = 0;
    for (int i = 0; i < len; i++) {
        unsigned column = ld_column(t->column, bytes[i]);
        if ((t->modes & LD_CRNL) && bytes[i] == '\t') {
            for (; t->column < column; t->column++)
                out[n++] = ' ';
        } else {
            if ((t->modes & LD_CRNL) && bytes[i] == '\n')
                out[n++] = '\r';
            out[n++] = bytes[i];
        }
        t->column = column;
    }
    return n;
}

/* Shows keys at the terminal. If there is no room on the way, the echo is lost. */
static void ld_echo(struct ldterm *t, const char *bytes, int len)
{
    char out[LD_MOST * LD_WIDTH];
    if (t->modes & LD_ECHO) {
        struct strm_msgb m = ld_data(out, ld_output(t, bytes, len, out));
        ld_send(t, STRM_WR, &m);
    }
}

/* Takes keys off the end of the line, and rubs out each column that they have at the terminal. */
static void ld_erase(struct ldterm *t, int left)
{
    unsigned kept = t->start, all;
    for (int i = 0; i < left; i++)
        kept = ld_column(kept, t->line[i]);
    all = kept;
    for (int i = left; i < t->len; i++)
        all = ld_column(all, t->line[i]);
    for (; all > kept; all--)
        ld_echo(t, "\b \b", 3);
    t->len = left;
}

/* Adds a key to the line and shows it. The last place of a line is for its end. */
static void ld_add(struct ldterm *t, char key, int places)
{
    if (t->len >= places) {
        ld_echo(t, "\a", 1);
        return;
    }
    if (t->len == 0)
        t->start = t->column;
    t->line[t->len++] = key;
    ld_echo(t, &key, 1);
}

/* Sends on the first message of a side if it is high: a flush, a hangup, the answer to an ioctl. Returns
 * whether there was one. A flush of the read side empties what is kept here, too. */
static int ld_pass(struct ldterm *t, int side)
{
    char ctl[1024], dat[4096];
    struct strm_msgb m = { 0, 0, { sizeof ctl, -1, ctl }, { sizeof dat, -1, dat }, 0, 0, 0, 0, 0 };
    if (ld_take(t, side, RS_HIPRI, &m))
        return 0;
    if (m.db_type == M_FLUSH && (m.flags & FLUSHR) && (!(m.flags & FLUSHBAND) || m.b_band == 0))
        ld_forget(t);
    ld_send(t, side, &m);
    return 1;
}

/* Flushes both sides, up and down. The flushes that the head and the wire send back are passed on here, so that
 * they empty nothing that comes later. */
static void ld_interrupt(struct ldterm *t)
{
    struct strm_msgb m = { M_FLUSH, 0, { 0, -1, NULL }, { 0, -1, NULL }, FLUSHRW, 0, 0, 0, 0 };
    ld_forget(t);
    t->is_stopped = 0;
    ld_send(t, STRM_WR, &m);
    ld_send(t, STRM_RD, &m);
    while (ld_pass(t, STRM_WR) | ld_pass(t, STRM_RD))
        ;
    ld_echo(t, "^C\n", 3);
}

static void ld_key(struct ldterm *t, char key)
{
    int last = (int)sizeof t->line - 1, is_canon = (t->modes & LD_CANON) != 0;
    if ((t->modes & LD_CRNL) && key == '\r')
        key = '\n';
    if ((t->modes & LD_KEYS) && (key == LD_KEY('S') || key == LD_KEY('Q'))) {
        t->is_stopped = key == LD_KEY('S');
    } else if ((t->modes & LD_KEYS) && key == LD_KEY('C')) {
        ld_interrupt(t);
    } else if (!is_canon || key == '\n') {
        ld_add(t, key, last + 1);
        t->is_whole = is_canon || t->len > last;
    } else if (key == 0x7f || key == '\b') {
        ld_erase(t, t->len > 0 ? t->len - 1 : 0);
    } else if (key == LD_KEY('U')) {
        ld_erase(t, 0);
    } else if (key == LD_KEY('D')) {
        t->is_whole = 1;
    } else if (key == '\t' || (unsigned char)key >= ' ') {
        ld_add(t, key, last);
    }
}

/* The service procedure of the read side. While a line waits for room above, keys wait in the queue. */
static int ld_from_below(struct ldterm *t)
{
    char ctl[1024], dat[4096];
    struct strm_msgb m = { 0, 0, { sizeof ctl, -1, ctl }, { sizeof dat, -1, dat }, 0, 0, 0, 0, 0 };
    int done = 0;
    if (ld_pass(t, STRM_RD))
        return 1;
    if (!ld_line_up(t) || ld_take(t, STRM_RD, 0, &m))
        return 0;
    if (m.db_type != M_DATA) {
        if (ld_send(t, STRM_RD, &m) != EAGAIN)
            return 1;
        ld_put_back(t, STRM_RD, &m);
        return 0;
    }
    while (done < m.dat.len && ld_line_up(t))
        ld_key(t, dat[done++]);
    t->is_whole |= !(t->modes & LD_CANON) && t->len > 0;
    if (done < m.dat.len) {
        struct strm_msgb rest = ld_data(dat + done, m.dat.len - done);
        rest.b_band = m.b_band;
        ld_put_back(t, STRM_RD, &rest);
    }
    return 1;
}

/* Answers an ioctl of the discipline, and returns whether it is one. */
static int ld_answer(struct ldterm *t, struct strm_msgb *m)
{
    unsigned modes = 0;
    if (m->ioc_cmd != LD_GET && m->ioc_cmd != LD_SET)
        return 0;
    for (int i = 0; m->ioc_cmd == LD_SET && i < m->dat.len && i < 4; i++)
        modes = modes << 8 | (unsigned char)m->dat.buf[i];
    m->db_type = m->ioc_cmd == LD_GET || (m->dat.len == 4 && modes <= LD_COOKED) ? M_IOCACK : M_IOCNAK;
    m->ioc_error = EINVAL;
    m->ioc_rval = 0;
    m->dat.len = m->ioc_cmd == LD_GET ? 4 : -1;
    for (int i = 0; i < m->dat.len; i++)
        m->dat.buf[i] = (char)(t->modes >> (8 * (3 - i)));
    if (m->ioc_cmd == LD_SET && m->db_type == M_IOCACK) {
        t->modes = modes;
        t->is_stopped &= (modes & LD_KEYS) != 0;
        t->is_whole |= !(modes & LD_CANON) && t->len > 0;
    }
    if (strm_qreply(t->s, STRM_A, LD_NAME, STRM_WR, m) == ENOSR)
        strm_qreply(t->s, STRM_A, LD_NAME, STRM_WR, m);
    return 1;
}

/* The service procedure of the write side. */
static int ld_from_above(struct ldterm *t)
{
    char ctl[1024], dat[4096], out[LD_MOST * LD_WIDTH];
    struct strm_msgb m = { 0, 0, { sizeof ctl, -1, ctl }, { sizeof dat, -1, dat }, 0, 0, 0, 0, 0 };
    int can = 0, some;
    if (ld_pass(t, STRM_WR))
        return 1;
    if (ld_take(t, STRM_WR, 0, &m))
        return 0;
    if (m.db_type == M_IOCTL && ld_answer(t, &m))
        return 1;
    if (t->is_stopped || strm_bcanputnext(t->s, STRM_A, LD_NAME, STRM_WR, (unsigned char)m.b_band, &can) || !can) {
        ld_put_back(t, STRM_WR, &m);
        return 0;
    }
    if (m.db_type != M_DATA) {
        ld_send(t, STRM_WR, &m);
        return 1;
    }
    some = m.dat.len < LD_MOST ? m.dat.len : LD_MOST;
    struct strm_msgb shown = ld_data(out, ld_output(t, dat, some, out)), rest = ld_data(dat + some, m.dat.len - some);
    shown.b_band = rest.b_band = m.b_band;
    ld_send(t, STRM_WR, &shown);
    if (rest.dat.len > 0)
        ld_put_back(t, STRM_WR, &rest);
    return 1;
}

/* Does what there is to do. It is called after each call on the stream, and after each arrival and take. */
static void ld_run(struct ldterm *t)
{
    while (ld_from_below(t) | ld_from_above(t))
        ;
}

/* Pushes the module. */
static int ld_push(struct ldterm *t, struct strm *s)
{
    static const struct ldterm fresh = { NULL, LD_COOKED, { 0 }, 0, 0, 0, 0, 0 };
    struct strm_module module = { LD_NAME, STRM_PASS, 16, 8, 16, 8, 0, NULL, 0, STRM_NOENABLE };
    *t = fresh;
    t->s = s;
    return strm_push(s, STRM_A, &module);
}

#endif
