/* Two programs whose wires are joined by a socket: a client, and a server that it forks. Each has a stream, and
 * is the device outside of its wire: it sends what comes down to the wire, and lets in there what it receives.
 *
 * - A SOCK_SEQPACKET keeps the bounds of messages: a packet comes whole, or not at all. A SOCK_STREAM would need
 *   packets to be put together. Linux, whose errnos the header asks for, has both.
 * - An ordinary message goes when the one before it is in at the other wire. So who does not read stops who
 *   writes, whatever the socket holds. What is in a higher band waits for the one that is on its way.
 * - A high message waits for none of these. It is sent at once, and let in at once.
 * - A close goes over as M_HANGUP, behind all that was written. So does the end of a program.
 *
 * The server says when its wire is full, and reads once it is told to. Each program prints at its end, the
 * server first. */
#include <poll.h>
#include <stdio.h>
#include <sys/socket.h>
#include <sys/wait.h>
#include <unistd.h>

#include "said.h"
#include "strm.h"

enum { LINES = 9, ROOM = 64, CONTROL = 1024, DATA = 4096 }; /* lines to send; bytes of a line, and of each part */

/* What goes over the socket: a message, or that one is in. Both ends are of one program, so the numbers go as
 * they are in memory. */
struct packet {
    int32_t kind, band, ctl_len, dat_len; /* M_DATA and so on, or one of the next line; -1 for no part */
    char bytes[CONTROL + DATA];           /* the control, and the data behind it */
};
enum { NONE = -1, IS_IN = -2 };

struct side {
    const char *name;
    int (*use)(struct side *); /* does what the user can do now; returns whether it did something */
    struct strm s;
    int socket;
    struct packet out, in;               /* what the socket has no room for, and what the wire has none for */
    int awaits, owes;                    /* an IS_IN of the other side; one to the other side */
    enum { OPEN, COMES, CAME } hangup;   /* of the other side: none yet; received; let in */
    int is_closed, has_left, has_failed; /* the stream is closed; the other side is told so; a call has failed */
    /* Of the user: the lines written and read, whether it has met a full wire, and what it got last. Of the server:
     * whether it was told to read, and what it has yet to write. */
    int asked, lines, has_waited, may_read;
    char high[ROOM], line[ROOM], answer[ROOM + 8];
};

static int fail(struct side *it, const char *what, int e)
{
    fprintf(stderr, "%s: %s: %s\n", it->name, what, e ? strerror(e) : "failed");
    it->has_failed = 1;
    return 0;
}

static size_t length(int32_t len)
{
    return len > 0 ? (size_t)len : 0;
}

static int is_ordinary(const struct packet *p)
{
    return p->kind == M_DATA || p->kind == M_PROTO;
}

/* ---- The bridge. Each step returns whether it did something. ---- */

/* Sends a packet. What is sent to a program that has ended is lost. */
static int send_packet(struct side *it, const struct packet *p)
{
    size_t len = offsetof(struct packet, bytes) + length(p->ctl_len) + length(p->dat_len);
    int e = send(it->socket, p, len, MSG_DONTWAIT | MSG_NOSIGNAL) < 0 ? errno : 0;
    return e == 0 || e == EPIPE || e == ECONNRESET || (e != EAGAIN && fail(it, "send", e));
}

/* Takes a message that came down to the wire; only a high one while another is on its way. A closed wire gives
 * M_HANGUP behind the last. */
static int take(struct side *it)
{
    struct packet *p = &it->out;
    struct strm_msgb m = { 0, 0, { CONTROL, -1, p->bytes }, { DATA, -1, p->bytes + CONTROL }, 0, 0, 0, 0, 0 };
    int e = strm_getq(&it->s, STRM_A, "wire", STRM_WR, it->awaits ? RS_HIPRI : 0, &m);
    if (e || (m.db_type == M_HANGUP && it->awaits))
        return e && e != EAGAIN && fail(it, "getq", e);
    p->kind = m.db_type;
    p->band = m.b_band;
    p->ctl_len = m.ctl.len;
    p->dat_len = m.dat.len;
    memmove(p->bytes + length(m.ctl.len), m.dat.buf, length(m.dat.len));
    return 1;
}

/* Sends what is owed, or else the next message. */
static int send_out(struct side *it)
{
    static const struct packet is_in = { IS_IN, 0, -1, -1, "" };
    if (it->owes) {
        it->owes = !send_packet(it, &is_in);
        return !it->owes;
    }
    if (it->has_left || (it->out.kind == NONE && !take(it)) || !send_packet(it, &it->out))
        return 0;
    it->awaits |= is_ordinary(&it->out) && it->hangup == OPEN;
    it->has_left = it->out.kind == M_HANGUP;
    it->out.kind = NONE;
    return 1;
}

/* Lets a message in at the wire. A full one takes an ordinary message later. A closed stream drops what comes. */
static int arrive(struct side *it, struct packet *p)
{
    struct strbuf ctl = { 0, p->ctl_len, p->bytes }, dat = { 0, p->dat_len, p->bytes + length(p->ctl_len) };
    int e = it->is_closed ? 0 : strm_arrive(&it->s, p->kind, (unsigned char)p->band, &ctl, &dat, 0);
    return e == 0 || (e != EAGAIN && fail(it, "arrive", e));
}

/* Offers what is not in yet, and the hangup behind it. */
static int let_in(struct side *it)
{
    static struct packet hangup = { M_HANGUP, 0, -1, -1, "" };
    int is_last = it->in.kind == NONE;
    if ((is_last && it->hangup != COMES) || !arrive(it, is_last ? &hangup : &it->in))
        return 0;
    it->in.kind = NONE;
    it->owes |= !is_last;
    it->hangup = is_last ? CAME : it->hangup;
    return 1;
}

/* Whether bytes are a packet: the lengths are right, and no ordinary message comes before the last is in. */
static int is_packet(const struct side *it, const struct packet *p, size_t len)
{
    size_t head = offsetof(struct packet, bytes);
    return len >= head && p->ctl_len >= -1 && p->ctl_len <= CONTROL && p->dat_len >= -1 && p->dat_len <= DATA &&
           len == head + length(p->ctl_len) + length(p->dat_len) && !(is_ordinary(p) && it->in.kind != NONE);
}

/* Receives a packet. A program that has ended has hung up. */
static void receive(struct side *it)
{
    struct packet p = { M_HANGUP, 0, -1, -1, "" };
    ssize_t len = recv(it->socket, &p, sizeof p, 0);
    if (len < 0 && errno != ECONNRESET) {
        fail(it, "recv", errno);
    } else if (len > 0 && !is_packet(it, &p, (size_t)len)) {
        fail(it, "recv", EPROTO);
    } else if (p.kind == IS_IN || p.kind == M_HANGUP) {
        it->awaits = 0;
        it->hangup = p.kind == M_HANGUP ? COMES : OPEN;
    } else if (is_ordinary(&p)) {
        it->in = p;
    } else {
        arrive(it, &p);
    }
}

/* Does what there is to do, and waits for the socket, until each side has closed and knows it of the other. */
static void run(struct side *it)
{
    while (!it->has_failed && !(it->has_left && it->hangup == CAME)) {
        struct pollfd fd = { it->socket, POLLIN, 0 };
        int did = let_in(it);
        did |= !it->is_closed && it->use(it);
        did |= send_out(it);
        if (did || it->has_failed)
            continue;
        fd.events |= it->owes || it->out.kind != NONE ? POLLOUT : 0;
        if (poll(&fd, 1, -1) < 0 && errno != EINTR)
            fail(it, "poll", errno);
        else if ((fd.revents & ~POLLOUT) && it->hangup == OPEN)
            receive(it);
    }
}

/* ---- The users. ---- */

enum { NOTHING, HIGH, LINE, END };

/* Takes a message, or with RS_HIPRI only a high one, and prints it. Returns what it is. */
static int get(struct side *it, int flags)
{
    struct strbuf ctl = { ROOM - 1, -1, it->high }, dat = { ROOM - 1, -1, it->line };
    int more = 0, e = strm_getmsg(&it->s, STRM_A, &ctl, &dat, &flags, &more);
    if (e || more)
        return e == EAGAIN ? 0 : fail(it, "getmsg", e ? e : ERANGE);
    if (ctl.len == 0 && dat.len == 0)
        return END;
    it->high[length(ctl.len)] = it->line[length(dat.len)] = 0;
    printf("%s %s \"%s\"\n", it->name, flags ? "hears" : "reads", flags ? it->high : it->line);
    it->lines += !flags;
    return flags ? HIGH : LINE;
}

/* Sends a text: data, or with RS_HIPRI a high message. Returns 0, EAGAIN, or ENXIO behind a hangup. */
static int put(struct side *it, int flags, char *text)
{
    struct strbuf part = { 0, (int)strlen(text), text };
    int e = strm_putmsg(&it->s, STRM_A, flags ? &part : NULL, flags ? NULL : &part, flags);
    if (e && e != EAGAIN && e != ENXIO)
        fail(it, "putmsg", e);
    return e;
}

static void close_stream(struct side *it)
{
    int e = strm_close(&it->s, STRM_A);
    it->is_closed = 1;
    if (e || it->lines != LINES)
        fail(it, e ? "close" : "the other side has left too early", e ? e : EPROTO);
}

/* The client writes as long as it may, and reads the answers. */
static int ask(struct side *it)
{
    char text[ROOM], go[] = "go";
    int e = 0, before = it->asked, got;
    while (it->asked < LINES && !e) {
        snprintf(text, sizeof text, "line %d of %d", it->asked + 1, LINES);
        e = put(it, 0, text);
        it->asked += !e;
    }
    if (e == EAGAIN && !it->has_waited++)
        printf("client waits with line %d\n", it->asked + 1);
    got = get(it, 0);
    if (got == HIGH)
        put(it, RS_HIPRI, go);
    if (got == END || (got == LINE && it->lines == LINES))
        close_stream(it);
    return got != NOTHING || it->asked != before;
}

/* The server answers each line before it reads another. Behind a hangup a write has nowhere to go. */
static int serve(struct side *it)
{
    char full[] = "full", late[] = "late";
    int got;
    if (it->in.kind != NONE && !it->has_waited++)
        put(it, RS_HIPRI, full);
    if (it->answer[0] && put(it, 0, it->answer) == EAGAIN)
        return 0;
    it->answer[0] = 0;
    got = get(it, it->may_read || it->hangup != OPEN ? 0 : RS_HIPRI);
    it->may_read |= got == HIGH;
    if (got == LINE)
        snprintf(it->answer, sizeof it->answer, "got %s", it->line);
    if (got == END) {
        printf("server is at the end, and a write is refused: %s\n", said(put(it, 0, late)));
        close_stream(it);
    }
    return got != NOTHING;
}

int main(void)
{
    static char words[4096];
    static struct side client = { .name = "client", .use = ask }, server = { .name = "server", .use = serve }, *it;
    int ends[2], status = 0, e;
    pid_t child;
    setvbuf(stdout, words, _IOFBF, sizeof words); /* all at the end */
    if (socketpair(AF_UNIX, SOCK_SEQPACKET, 0, ends) || (child = fork()) < 0) {
        perror("bridge");
        return 1;
    }
    it = child ? &client : &server;
    it->in.kind = it->out.kind = NONE;
    it->socket = ends[child == 0];
    close(ends[child != 0]);
    e = strm_open(&it->s, STRM_WIRE, 16, 8, 16, 8);
    if (e) {
        fail(it, "open", e);
    } else {
        run(it);
        strm_free(&it->s);
    }
    close(it->socket); /* a hangup, if none was sent */
    if (child && (waitpid(child, &status, 0) < 0 || status != 0))
        fail(it, "server", 0);
    return it->has_failed;
}
