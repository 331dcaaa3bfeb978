/* Plays a script of one stream and one process (docs/SCRIPTS.md) through the C calls, and prints its
 * transcript as strsh does.
 *
 *   play FILE     prints the transcript, and the expected replies that were not met
 *   play -n FILE  plays the script with each allocation refused in turn, and holds each transcript to that of
 *                 a play in which none is refused; prints the first that is wrong. Expected replies do not
 *                 matter
 *
 * The program is linked with malloc, realloc and free wrapped.
 *
 * A call that returns ENOSR is made again, once. Then it answers as it would have. Or it is refused again,
 * with ENOSR, or with EBADF if it was a close: then the stream is broken, and each later call but close and
 * poll returns ENOSR. At the end all blocks that were given are freed. */
#include <stdio.h>
#include <stdlib.h>

#include "../../examples/c/said.h"
#include "strm.h"

enum { MOST = 1 << 17, FIELDS = 64 };

static long countdown = -1, blocks, refused;

void *__real_malloc(size_t size);
void *__real_realloc(void *old, size_t size);
void __real_free(void *old);

static int is_refused(void)
{
    if (countdown < 0 || countdown-- > 0)
        return 0;
    refused++;
    return 1;
}

void *__wrap_malloc(size_t size)
{
    void *made = is_refused() ? NULL : __real_malloc(size);
    blocks += made != NULL;
    return made;
}

void *__wrap_realloc(void *old, size_t size)
{
    void *made = is_refused() ? NULL : __real_realloc(old, size);
    blocks += made != NULL && old == NULL;
    return made;
}

void __wrap_free(void *old)
{
    blocks -= old != NULL;
    __real_free(old);
}

/* A text that is built up, as a transcript. */
struct text {
    char bytes[MOST];
    size_t len;
};

static struct text told, wanted, line, missed;
static struct strm stream = STRM_CLOSED;
static char stream_name[32], driver_name[16];

/* The number of the line that is played, its fields and those of the replies that it expects, and the end
 * that it names. */
static unsigned long line_number;
static char *fields[FIELDS];
static int fields_n, replies_n;
static char **replies;
static uint8_t end;

static void add(struct text *to, const char *text)
{
    size_t n = strlen(text);
    if (to->len + n < MOST) {
        memcpy(to->bytes + to->len, text, n + 1);
        to->len += n;
    }
}

static void add_number(struct text *to, unsigned long number)
{
    char text[32];
    snprintf(text, sizeof text, "%lu", number);
    add(to, text);
}

static void add_part(struct text *to, const char *bytes, int len)
{
    if (len < 0) {
        add(to, "-");
        return;
    }
    add(to, "=");
    for (int i = 0; i < len; i++) {
        char text[4] = { bytes[i], 0, 0, 0 };
        if (bytes[i] < '!' || bytes[i] > '~' || bytes[i] == '%')
            snprintf(text, sizeof text, "%%%02x", (unsigned char)bytes[i]);
        add(to, text);
    }
}

/* A part of the script, in room of its own. */
static struct strbuf part(const char *field, char *room)
{
    struct strbuf part = { 0, -1, room };
    unsigned times, byte;
    if (sscanf(field, "*%u:%2x", &times, &byte) == 2) {
        memset(room, (int)byte, times);
        part.len = (int)times;
    } else if (*field == '=') {
        part.len = 0;
        for (field++; *field; field++) {
            byte = (unsigned char)*field;
            if (*field == '%' && sscanf(field + 1, "%2x", &byte) == 1)
                field += 2;
            room[part.len++] = (char)byte;
        }
    }
    return part;
}

static int is(const char *field, const char *word)
{
    return strcmp(field, word) == 0;
}

static unsigned number(const char *field)
{
    return (unsigned)strtoul(field, NULL, 10);
}

static int sides(const char *field)
{
    return is(field, "r") ? FLUSHR : is(field, "w") ? FLUSHW : is(field, "rw") ? FLUSHRW : 0;
}

static int band_flag(const char *field)
{
    return is(field, "any") ? MSG_ANY : is(field, "band") ? MSG_BAND : is(field, "hipri") ? MSG_HIPRI : 0;
}

static char ctl_room[MOST], dat_room[MOST];

static void add_more(int more)
{
    static const char *const words[] = { " 0", " ctl", " data", " both" };
    add(&line, words[more]);
}

/* Reads the marks of a side; 0 and 0 are none. */
static void marks(const char *field, uint32_t *hi, uint32_t *lo)
{
    unsigned high = 0, low = 0;
    sscanf(field, "%u/%u", &high, &low);
    *hi = high;
    *lo = low;
}

/* The words of messages, each with its kind and its fields: the band (b), control (c), data (d), sides of a
 * flush (s), an id (i), a command (m), a value (v), an errno (e); the errnos of an error, in bytes (r, w); and
 * the read mode, treatment of control and marks of options, in bytes (R, P, M). */
static const struct word {
    const char *name;
    int kind;
    const char *fields;
} words[] = {
    { "data", M_DATA, "bd" },       { "proto", M_PROTO, "bcd" },   { "pcproto", M_PCPROTO, "cd" },
    { "ioctl", M_IOCTL, "imd" },    { "iocack", M_IOCACK, "ivd" }, { "iocnak", M_IOCNAK, "ie" },
    { "setopts", M_SETOPTS, "RPM" }, { "flush", M_FLUSH, "s" },     { "flushband", M_FLUSH, "bs" },
    { "hangup", M_HANGUP, "" },     { "error", M_ERROR, "e" },     { "error2", M_ERROR, "rw" },
};
enum { WORDS = sizeof words / sizeof *words };

static const char *const read_modes[] = { "-", "rnorm", "rmsgn", "rmsgd" }, *const treatments[] = { "-", "norm", "dat", "dis" };

/* The place of a word among four. */
static unsigned place(const char *field, const char *const *of)
{
    unsigned i = 0;
    while (i < 3 && !is(field, of[i]))
        i++;
    return i;
}

/* The number of an errno, or NOERROR for none. */
static unsigned errno_of(const char *name)
{
    static const unsigned all[] = { EBADF, ENOSR, EINVAL, ERANGE, ENXIO, EBADMSG, ENODATA, EAGAIN, ETIME, EIO, EPROTO };
    for (size_t i = 0; i < sizeof all / sizeof *all; i++) {
        if (is(name, said((int)all[i])))
            return all[i];
    }
    return NOERROR;
}

/* The name of an errno that is a byte. */
static const char *errno_name(char byte)
{
    return (unsigned char)byte == NOERROR ? "-" : said((unsigned char)byte);
}

/* A message of nothing, with room for parts of some length. */
static struct strm_msgb empty_message(int room)
{
    struct strm_msgb m = { -1, 0, { room, -1, ctl_room }, { room, -1, dat_room }, 0, 0, 0, 0, 0 };
    return m;
}

static void put_byte(struct strbuf *dat, unsigned byte)
{
    dat->len = dat->len < 0 ? 1 : dat->len + 1;
    dat->buf[dat->len - 1] = (char)byte;
}

/* Adds the marks of options to their data: 0 for none, or 1 and both of them, the greatest byte first. */
static void put_marks(struct strbuf *dat, const char *field)
{
    uint32_t both[2];
    marks(field, &both[0], &both[1]);
    put_byte(dat, !is(field, "-"));
    for (int i = 0; i < 8 && !is(field, "-"); i++)
        put_byte(dat, both[i / 4] >> (8 * (3 - i % 4)));
}

static void read_field(struct strm_msgb *m, char form, const char *field)
{
    switch (form) {
    case 'b': m->b_band = (int)number(field); break;
    case 'c': m->ctl = part(field, ctl_room); break;
    case 'd': m->dat = part(field, dat_room); break;
    case 's': m->flags |= sides(field); break;
    case 'i': m->ioc_id = strtoull(field, NULL, 10); break;
    case 'm': m->ioc_cmd = number(field); break;
    case 'v': m->ioc_rval = strtoull(field, NULL, 10); break;
    case 'e': m->ioc_error = (int)errno_of(field); break;
    case 'R': put_byte(&m->dat, place(field, read_modes)); break;
    case 'P': put_byte(&m->dat, place(field, treatments)); break;
    case 'M': put_marks(&m->dat, field); break;
    default: put_byte(&m->dat, errno_of(field));
    }
}

/* The message of some fields, the first of which is its word. */
static struct strm_msgb message(char *const *from)
{
    struct strm_msgb m = empty_message(0);
    for (int i = 0; i < WORDS; i++) {
        if (!is(from[0], words[i].name))
            continue;
        m.db_type = words[i].kind;
        m.flags = is(from[0], "flushband") ? FLUSHBAND : 0;
        for (int n = 0; words[i].fields[n]; n++)
            read_field(&m, words[i].fields[n], from[n + 1]);
    }
    return m;
}

static void add_marks(const char *bytes)
{
    unsigned long both[2] = { 0, 0 };
    for (int i = 0; i < 8; i++)
        both[i / 4] = both[i / 4] << 8 | (unsigned char)bytes[i];
    add_number(&line, both[0]);
    add(&line, "/");
    add_number(&line, both[1]);
}

static void add_field(const struct strm_msgb *m, char form)
{
    static const char *const flushed[] = { "none", "r", "w", "rw" };
    switch (form) {
    case 'b': add_number(&line, (unsigned long)m->b_band); break;
    case 'c': add_part(&line, m->ctl.buf, m->ctl.len); break;
    case 'd': add_part(&line, m->dat.buf, m->dat.len); break;
    case 's': add(&line, flushed[m->flags & FLUSHRW]); break;
    case 'i': add_number(&line, (unsigned long)m->ioc_id); break;
    case 'm': add_number(&line, m->ioc_cmd); break;
    case 'v': add_number(&line, (unsigned long)m->ioc_rval); break;
    case 'e': add(&line, m->db_type == M_ERROR ? errno_name(m->dat.buf[0]) : said(m->ioc_error)); break;
    case 'r': add(&line, errno_name(m->dat.buf[0])); break;
    case 'w': add(&line, errno_name(m->dat.buf[1])); break;
    case 'R': add(&line, read_modes[m->dat.buf[0] & 3]); break;
    case 'P': add(&line, treatments[m->dat.buf[1] & 3]); break;
    default:
        if (m->dat.len == 11)
            add_marks(m->dat.buf + 3);
        else
            add(&line, "-");
    }
}

/* Whether a message is spelled with this word. */
static int is_spelled(const struct strm_msgb *m, const struct word *word)
{
    int is_one_error = m->db_type == M_ERROR && m->dat.buf[0] == m->dat.buf[1] && (unsigned char)m->dat.buf[0] != NOERROR;
    return m->db_type == word->kind && is(word->name, "flushband") == (m->flags >= FLUSHBAND) &&
           (m->db_type != M_ERROR || is(word->name, "error") == is_one_error);
}

/* Adds a message, as a feed and a service call spell it. */
static void add_message(const struct strm_msgb *m)
{
    for (int i = 0; i < WORDS; i++) {
        if (!is_spelled(m, &words[i]))
            continue;
        add(&line, words[i].name);
        for (const char *form = words[i].fields; *form; form++) {
            add(&line, " ");
            add_field(m, *form);
        }
    }
}

/* Adds the reply of a call that returns nothing, if it was done. */
static int add_done(int e)
{
    if (!e)
        add(&line, "0");
    return e;
}

/* Each verb makes its call, and adds the reply to the line if the call returns 0. */

static int do_putmsg(void)
{
    struct strbuf ctl = part(fields[2], ctl_room), dat = part(fields[3], dat_room);
    return add_done(strm_putmsg(&stream, end, &ctl, &dat, is(fields[4], "hipri") ? RS_HIPRI : 0));
}

static int do_putpmsg(void)
{
    struct strbuf ctl = part(fields[2], ctl_room), dat = part(fields[3], dat_room);
    return add_done(strm_putpmsg(&stream, end, &ctl, &dat, (int)number(fields[4]), band_flag(fields[5])));
}

static void room_for(struct strbuf *ctl, struct strbuf *dat)
{
    *ctl = (struct strbuf){ atoi(fields[2]), -2, ctl_room };
    *dat = (struct strbuf){ atoi(fields[3]), -2, dat_room };
}

static void add_parts(const struct strbuf *ctl, const struct strbuf *dat)
{
    add_part(&line, ctl->buf, ctl->len);
    add(&line, " ");
    add_part(&line, dat->buf, dat->len);
}

static int do_getmsg(void)
{
    struct strbuf ctl, dat;
    int flags = is(fields[4], "hipri") ? RS_HIPRI : 0, more = 0;
    room_for(&ctl, &dat);
    int e = strm_getmsg(&stream, end, &ctl, &dat, &flags, &more);
    if (e)
        return e;
    add_parts(&ctl, &dat);
    add(&line, flags == RS_HIPRI ? " hipri" : " norm");
    add_more(more);
    return 0;
}

static int do_getpmsg(void)
{
    struct strbuf ctl, dat;
    int band = (int)number(fields[4]), flags = band_flag(fields[5]), more = 0;
    room_for(&ctl, &dat);
    int e = strm_getpmsg(&stream, end, &ctl, &dat, &band, &flags, &more);
    if (e)
        return e;
    add_parts(&ctl, &dat);
    if (flags == MSG_HIPRI) {
        add(&line, " hipri");
    } else {
        add(&line, " band ");
        add_number(&line, (unsigned long)band);
    }
    add_more(more);
    return 0;
}

static int do_peek(void)
{
    struct strpeek peek = { { 0, 0, NULL }, { 0, 0, NULL }, is(fields[4], "hipri") ? RS_HIPRI : 0 };
    int found = 0;
    room_for(&peek.ctlbuf, &peek.databuf);
    int e = strm_peek(&stream, end, &peek, &found);
    if (e)
        return e;
    if (!found) {
        add(&line, "none");
        return 0;
    }
    add_parts(&peek.ctlbuf, &peek.databuf);
    add(&line, peek.flags == RS_HIPRI ? " hipri" : " norm");
    return 0;
}

static int do_read(void)
{
    size_t len = 0;
    int e = strm_read(&stream, end, dat_room, number(fields[2]), &len);
    if (!e)
        add_part(&line, dat_room, (int)len);
    return e;
}

static int do_write(void)
{
    struct strbuf dat = part(fields[2], dat_room);
    size_t written = 0;
    int e = strm_write(&stream, end, dat.buf, (size_t)dat.len, &written);
    if (!e)
        add_number(&line, written);
    return e;
}

/* The modules that were pushed at each end, the topmost last: after an M_ERROR no call lists them. */
static struct {
    char names[8][FMNAMESZ + 1];
    int n;
} pushed[2];

static int do_push(void)
{
    static const char *const kinds[] = { "pass", "table", "crnl", "line", "count", "band", "tee", "mute", "split" };
    static unsigned char table[256];
    int is_programs = is(fields[2], "noenable");
    char **kind = fields + 2 + is_programs;
    struct strm_module module = { kind[1], STRM_PASS, 0, 0, 0, 0, 0, table, 0, is_programs ? STRM_NOENABLE : 0 };
    for (int i = 0; i < 9; i++) {
        if (is(kind[0], kinds[i]))
            module.kind = (enum strm_kind)i;
    }
    marks(kind[2], &module.rd_hi, &module.rd_lo);
    marks(kind[3], &module.wr_hi, &module.wr_lo);
    if (module.kind == STRM_BAND)
        module.band = (unsigned char)number(kind[4]);
    if (module.kind == STRM_SPLIT)
        module.split = (unsigned short)number(kind[4]);
    for (int i = 0; i < 256; i++)
        table[i] = (unsigned char)i;
    if (module.kind == STRM_TABLE) {
        struct strbuf from = part(kind[4], ctl_room), to = part(kind[5], dat_room);
        for (int i = 0; i < from.len; i++)
            table[(unsigned char)from.buf[i]] = (unsigned char)to.buf[i];
    }
    int e = strm_push(&stream, end, &module);
    if (!e) {
        snprintf(pushed[end].names[pushed[end].n++], FMNAMESZ + 1, "%s", module.name);
        add(&line, "0");
    }
    return e;
}

static int do_pop(void)
{
    char name[FMNAMESZ + 1];
    int looked = strm_look(&stream, end, name);
    int e = strm_pop(&stream, end);
    pushed[end].n -= e == 0;
    if (!e && !looked) {
        add(&line, "popped ");
        add(&line, name);
    }
    return e;
}

static int do_look(void)
{
    char name[FMNAMESZ + 1];
    int e = strm_look(&stream, end, name);
    if (!e)
        add(&line, name);
    return e;
}

/* Adds the names of the modules, and if asked for also that of the driver. */
static int add_names(struct text *to, int with_driver)
{
    struct str_mlist names[9];
    struct str_list list = { 9, names };
    int e = strm_list(&stream, end, &list, NULL);
    for (int i = 0; !e && i < list.sl_nmods - !with_driver; i++) {
        add(to, with_driver && i == 0 ? "" : " ");
        add(to, names[i].l_name);
    }
    return e;
}

static int do_list(void)
{
    return add_names(&line, 1);
}

static int do_find(void)
{
    struct strbuf name = part(fields[2], dat_room);
    int found = 0;
    name.buf[name.len] = 0;
    int e = strm_find(&stream, end, name.buf, &found);
    if (!e)
        add_number(&line, (unsigned long)found);
    return e;
}

/* Adds the answer to an ioctl. Returns the code of the call. */
static int add_answer(int e, int answer, uint64_t rval, const char *bytes, int len)
{
    if (answer == STRM_NAK)
        add(&line, "nak ");
    if (!e) {
        add_number(&line, (unsigned long)rval);
        add(&line, " ");
        add_part(&line, bytes, len);
    }
    return e;
}

static int do_str(void)
{
    struct strbuf dat = part(fields[3], dat_room);
    struct strioctl call = { (int)number(fields[2]), 0, dat.len, dat.buf };
    uint64_t rval = 0;
    int answer = STRM_REFUSED, e = strm_str_answer(&stream, end, &call, &rval, &answer);
    return add_answer(e, answer, rval, call.ic_dp, call.ic_len);
}

static int do_strput(void)
{
    struct strbuf dat = part(fields[3], dat_room);
    struct strioctl call = { (int)number(fields[2]), 0, dat.len, dat.buf };
    uint64_t id = 0;
    int e = strm_strput(&stream, end, &call, &id);
    if (!e)
        add_number(&line, (unsigned long)id);
    return e;
}

static int do_strget(void)
{
    struct strbuf dat = { MOST, -2, dat_room };
    uint64_t rval = 0;
    int answer = STRM_REFUSED, e = strm_strget(&stream, end, is(fields[2], "drop"), &dat, &rval, &answer);
    return add_answer(e, answer, rval, dat.buf, dat.len);
}

static int do_flush(void)
{
    return add_done(strm_flush(&stream, end, (uint32_t)sides(fields[2])));
}

static int do_flushband(void)
{
    struct bandinfo info = { (unsigned char)number(fields[2]), sides(fields[3]) };
    return add_done(strm_flushband(&stream, end, &info));
}

static int do_nread(void)
{
    int bytes = 0, messages = 0;
    int e = strm_nread(&stream, end, &bytes, &messages);
    if (!e) {
        add_number(&line, (unsigned long)messages);
        add(&line, " ");
        add_number(&line, (unsigned long)bytes);
    }
    return e;
}

static int do_setread(void)
{
    uint32_t mode = is(fields[2], "rnorm") ? RNORM : is(fields[2], "rmsgn") ? RMSGN : RMSGD;
    uint32_t prot = is(fields[3], "norm") ? RPROTNORM : is(fields[3], "dat") ? RPROTDAT : RPROTDIS;
    return add_done(strm_setread(&stream, end, mode | prot));
}

static int do_getread(void)
{
    int mode = 0;
    int e = strm_getread(&stream, end, &mode);
    if (!e) {
        add(&line, (mode & 3) == RNORM ? "rnorm" : (mode & 3) == RMSGN ? "rmsgn" : "rmsgd");
        add(&line, mode & RPROTNORM ? " norm" : mode & RPROTDAT ? " dat" : " dis");
    }
    return e;
}

static int add_value(int e, int value)
{
    if (!e)
        add_number(&line, (unsigned long)value);
    return e;
}

static int do_tick(void)
{
    return add_done(strm_tick(&stream, end, (uint32_t)number(fields[2])));
}

static int do_canput(void)
{
    int can = 0;
    int e = strm_canput(&stream, end, (uint8_t)number(fields[2]), &can);
    return add_value(e, can);
}

static int do_ckband(void)
{
    int waits = 0;
    int e = strm_ckband(&stream, end, (uint8_t)number(fields[2]), &waits);
    return add_value(e, waits);
}

static int do_getband(void)
{
    int band = 0;
    int e = strm_getband(&stream, end, &band);
    return add_value(e, band);
}

/* Adds the message that is taken. The take is held to what strm_next has said before it. */
static int do_take(void)
{
    struct strm_msgb m = empty_message(MOST);
    int next_kind = m.db_type, next_band = m.b_band, next_ctl = m.ctl.len, next_dat = m.dat.len;
    int told_before = strm_next(&stream, end, &next_kind, &next_band, &next_ctl, &next_dat);
    int e = strm_take(&stream, end, &m.db_type, &m.b_band, &m.ctl, &m.dat);
    int is_told = e == told_before && m.db_type == next_kind && m.b_band == next_band && m.ctl.len == next_ctl && m.dat.len == next_dat;
    if (!is_told && !(e == ENOSR && told_before == 0))
        add(&line, "not what strm_next told: ");
    if (!e)
        add_message(&m);
    return e;
}

static int side(const char *field)
{
    return is(field, "rd") ? STRM_RD : STRM_WR;
}

static int do_getq(void)
{
    struct strm_msgb m = empty_message(MOST);
    int e = strm_getq(&stream, end, fields[2], side(fields[3]), is(fields[4], "hipri") ? RS_HIPRI : 0, &m);
    if (!e)
        add_message(&m);
    return e;
}

static int do_putbq(void)
{
    struct strm_msgb m = message(fields + 4);
    return add_done(strm_putbq(&stream, end, fields[2], side(fields[3]), &m));
}

static int do_putnext(void)
{
    struct strm_msgb m = message(fields + 4);
    return add_done(strm_putnext(&stream, end, fields[2], side(fields[3]), &m));
}

static int do_bcanputnext(void)
{
    int can = 0;
    int e = strm_bcanputnext(&stream, end, fields[2], side(fields[3]), (unsigned char)number(fields[4]), &can);
    return add_value(e, can);
}

static int do_qsize(void)
{
    int messages = 0;
    int e = strm_qsize(&stream, end, fields[2], side(fields[3]), &messages);
    return add_value(e, messages);
}

static int do_poll(void)
{
    static const struct {
        uint32_t flag;
        const char *word;
    } flags[] = {
        { STRM_POLLIN, "in" },         { STRM_POLLRDNORM, "rdnorm" }, { STRM_POLLRDBAND, "rdband" },
        { STRM_POLLPRI, "pri" },       { STRM_POLLOUT, "out" },       { STRM_POLLWRBAND, "wrband" },
        { STRM_POLLERR, "err" },       { STRM_POLLHUP, "hup" },       { STRM_POLLNVAL, "nval" },
    };
    uint32_t told = 0, events = 0, words = 0;
    for (size_t i = 0; i < sizeof flags / sizeof *flags; i++)
        events |= flags[i].flag;
    int e = strm_poll(&stream, end, events | STRM_POLLWRNORM, &told);
    for (size_t i = 0; i < sizeof flags / sizeof *flags; i++) {
        if (told & flags[i].flag) {
            add(&line, words ? "+" : "");
            add(&line, flags[i].word);
            words |= flags[i].flag;
        }
    }
    if (words & STRM_POLLOUT)
        words |= STRM_POLLWRNORM;
    add(&line, told != words ? " and another flag" : words ? "" : "0");
    return e;
}

static int do_close(void)
{
    int e = strm_close(&stream, end);
    if (e)
        return e;
    add(&line, "closed");
    while (pushed[end].n > 0) {
        add(&line, " ");
        add(&line, pushed[end].names[--pushed[end].n]);
    }
    return 0;
}

static const struct verb {
    const char *name;
    int (*call)(void);
} verbs[] = {
    { "putmsg", do_putmsg },   { "putpmsg", do_putpmsg }, { "getmsg", do_getmsg }, { "getpmsg", do_getpmsg },     { "peek", do_peek },
    { "read", do_read },       { "write", do_write },     { "push", do_push },     { "pop", do_pop },             { "look", do_look },
    { "list", do_list },       { "find", do_find },       { "str", do_str },       { "flush", do_flush },         { "flushband", do_flushband },
    { "nread", do_nread },     { "setread", do_setread }, { "getread", do_getread }, { "canput", do_canput },     { "ckband", do_ckband },
    { "getband", do_getband }, { "close", do_close },     { "take", do_take },     { "poll", do_poll },           { "strput", do_strput },
    { "strget", do_strget },   { "getq", do_getq },       { "putbq", do_putbq },   { "putnext", do_putnext },     { "qsize", do_qsize },
    { "bcanputnext", do_bcanputnext }, { "tick", do_tick },
};

/* Makes the call of the line once. Returns its code, and adds its reply to the end of `line`. */
static int make_call(void)
{
    const char *target = strchr(fields[1], ':');
    end = target && target[1] == 'b' ? STRM_B : STRM_A;
    for (size_t i = 0; i < sizeof verbs / sizeof *verbs; i++) {
        if (is(fields[0], verbs[i].name))
            return verbs[i].call();
    }
    fprintf(stderr, "no call %s\n", fields[0]);
    exit(2);
}

static char script[MOST * 8];
static char process_name[32];

/* Keeps the fields of a call apart from the replies that it expects, which are behind a `:`. The name of the
 * stream is none. */
static void split_replies(void)
{
    int n = 2;
    while (n < fields_n && !is(fields[n], ":"))
        n++;
    replies = fields + n + 1;
    replies_n = n < fields_n ? fields_n - n - 1 : 0;
    fields_n = n < fields_n ? n : fields_n;
}

/* Reads the fields of a line, and puts a zero at its end. Returns where the next line begins. */
static char *split(char *from)
{
    char *next = strchr(from, '\n');
    if (next)
        *next++ = 0;
    else
        next = from + strlen(from);
    fields_n = 0;
    for (char *field = strtok(from, " \t\r"); field && fields_n < FIELDS; field = strtok(NULL, " \t\r"))
        fields[fields_n++] = field;
    split_replies();
    line_number++;
    return next;
}

/* Opens the stream that a line declares. Returns 0 or an errno. */
static int declare(void)
{
    unsigned hi, lo, drv_hi, drv_lo;
    snprintf(stream_name, sizeof stream_name, "%s", fields[1]);
    snprintf(driver_name, sizeof driver_name, "%s", fields[2]);
    if (sscanf(fields[3], "%u/%u", &hi, &lo) != 2 || sscanf(fields[4], "%u/%u", &drv_hi, &drv_lo) != 2)
        return EINVAL;
    uint32_t driver = is(driver_name, "echo") ? STRM_ECHO : is(driver_name, "loop") ? STRM_LOOP : is(driver_name, "wire") ? STRM_WIRE : STRM_LINE;
    int e = strm_open(&stream, driver, hi, lo, drv_hi, drv_lo);
    if (e == ENOSR)
        e = strm_open(&stream, driver, hi, lo, drv_hi, drv_lo);
    return e;
}

/* Begins the line of a call with all that comes before its reply. Returns how many bytes that is. */
static size_t begin_line(void)
{
    line.len = 0;
    add(&line, process_name);
    for (int i = 0; i < fields_n; i++) {
        add(&line, " ");
        add(&line, fields[i]);
    }
    add(&line, " : ");
    return line.len;
}

/* Returns whether a reply is one of those that the line expects, which have a `|` between two. */
static int is_met(const char *reply)
{
    static struct text choice;
    int met = replies_n == 0;
    for (int i = 0; i < replies_n; i++) {
        choice.len = choice.bytes[0] = 0;
        for (; i < replies_n && !is(replies[i], "|"); i++) {
            add(&choice, choice.len ? " " : "");
            add(&choice, replies[i]);
        }
        met |= is(choice.bytes, reply);
    }
    return met;
}

/* Adds a line to `missed`, as strsh prints it, if a reply is none of those that the line expects. */
static void check(const char *reply)
{
    if (is_met(reply))
        return;
    add(&missed, "strsh: line ");
    add_number(&missed, line_number);
    add(&missed, ": expected");
    for (int i = 0; i < replies_n; i++) {
        add(&missed, " ");
        add(&missed, replies[i]);
    }
    add(&missed, ", was ");
    add(&missed, reply);
    add(&missed, "\n");
}

/* Plays a call. Returns whether the stream is broken. */
static int play_call(int broken)
{
    size_t before = begin_line();
    int e = make_call();
    if (e == ENOSR && !broken) {
        begin_line();
        e = make_call();
        broken = e == ENOSR || (e == EBADF && is(fields[0], "close"));
    }
    if (e)
        add(&line, said(e));
    check(line.bytes + before);
    add(&line, "\n");
    add(&told, line.bytes);
    return broken;
}

static void tell_end(uint8_t which, const char *name)
{
    struct text names = { "", 0 };
    end = which;
    int is_closed = add_names(&names, 0) == EBADF;
    add(&told, is_closed ? "closed " : "open ");
    add(&told, name);
    add(&told, names.bytes);
    add(&told, "\n");
}

/* Plays a script into `told`. Returns 0, or 1 if the stream broke. */
static int play(const char *text)
{
    int broken = 0;
    told.len = missed.len = line_number = 0;
    missed.bytes[0] = 0;
    pushed[STRM_A].n = pushed[STRM_B].n = 0;
    snprintf(script, sizeof script, "%s", text);
    for (char *from = script; *from;) {
        from = split(from);
        if (fields_n == 0 || *fields[0] == '#')
            continue;
        if (is(fields[0], "stream")) {
            int e = declare();
            if (e) {
                fprintf(stderr, "not opened: %s\n", said(e));
                exit(2);
            }
            add(&told, "stream ");
            add(&told, stream_name);
            add(&told, "\n");
        } else if (is(fields[0], "process")) {
            snprintf(process_name, sizeof process_name, "%s", fields[1]);
        } else {
            broken = play_call(broken);
        }
    }
    if (!broken) {
        tell_end(STRM_A, "a");
        if (is(driver_name, "loop"))
            tell_end(STRM_B, "b");
        if (is(driver_name, "line") || is(driver_name, "wire"))
            add(&told, "feed accepted 0 arrived 0 overrun 0\n");
    }
    strm_free(&stream);
    return broken;
}

/* Returns whether the first `len` bytes of a line contain a text. */
static int has(const char *from, size_t len, const char *text)
{
    size_t n = strlen(text);
    for (size_t i = 0; i + n <= len; i++) {
        if (memcmp(from + i, text, n) == 0)
            return 1;
    }
    return 0;
}

/* Returns whether a line of `len` bytes has a reply of a broken stream: a refusal, a close, or a poll that
 * shows an error or a closed end. */
static int is_of_broken(const char *from, size_t len)
{
    return has(from, len, " : ENOSR") || has(from, len, " : closed") || has(from, len, " : EBADF") || has(from, len, " : err") ||
           has(from, len, " : nval");
}

/* Returns whether `told` is as `wanted` up to some call, from which on each reply is one of a broken
 * stream. */
static int is_broken_off(void)
{
    const char *found = told.bytes, *as = wanted.bytes;
    int same = 1;
    while (*found) {
        size_t n = strcspn(found, "\n"), m = strcspn(as, "\n");
        same = same && n == m && memcmp(found, as, n) == 0;
        if (!same && !is_of_broken(found, n))
            return 0;
        found += n + (found[n] == '\n');
        as += m + (as[m] == '\n');
    }
    return 1;
}

/* Plays a script with each allocation refused in turn, until a play meets no refusal. Returns 1 if one is
 * wrong. */
static int refuse(const char *text)
{
    play(text);
    wanted = told;
    for (long n = 0;; n++) {
        countdown = n;
        refused = 0;
        int broken = play(text);
        countdown = -1;
        int is_right = broken ? is_broken_off() : strcmp(told.bytes, wanted.bytes) == 0;
        if (!is_right || blocks != 0) {
            printf("allocation %ld, %ld blocks left:\n%s", n, blocks, told.bytes);
            return 1;
        }
        if (!refused)
            return 0;
    }
}

static char text[MOST * 8];

int main(int argc, char **argv)
{
    int only_refuses = argc == 3 && strcmp(argv[1], "-n") == 0;
    FILE *file = argc > 1 ? fopen(argv[argc - 1], "r") : NULL;
    if (!file)
        return 2;
    text[fread(text, 1, sizeof text - 1, file)] = 0;
    fclose(file);
    blocks = 0;
    if (only_refuses)
        return refuse(text);
    play(text);
    fputs(told.bytes, stdout);
    fputs(missed.bytes, stdout);
    return 0;
}
