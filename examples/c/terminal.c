/* An emulator that hears its terminal. Above a wire are a line discipline and a module that makes CR LF of
 * LF. A host reads and writes at the head. The emulator is outside: it hands in by strm_arrive what is typed,
 * and takes by strm_take what the host has written, a message at a time. The wire is full from 5 bytes on.
 * Then the host has to wait, as behind an XOFF, until at most 4 are left. */
#include <stdio.h>

#include "said.h"
#include "strm.h"

static struct strm tty = STRM_CLOSED;

static void push(const char *name, enum strm_kind kind)
{
    struct strm_module module = { name, kind, 0, 0, 0, 0, 0, NULL, 0, 0 };
    printf("push %s %s\n", name, said(strm_push(&tty, STRM_A, &module)));
}

/* Ends a line with the bytes that were got, if any. CR and LF are shown as C writes them. */
static void show(const char *bytes, int len)
{
    if (len > 0)
        printf(" ");
    for (int i = 0; i < len; i++) {
        if (bytes[i] == '\r' || bytes[i] == '\n')
            printf("\\%c", bytes[i] == '\r' ? 'r' : 'n');
        else
            printf("%c", bytes[i]);
    }
    printf("\n");
}

/* The terminal's side. */

static void type(const char *keys)
{
    char bytes[8];
    struct strbuf dat = { 0, (int)strlen(keys), bytes };
    memcpy(bytes, keys, strlen(keys));
    printf("type %s\n", said(strm_arrive(&tty, M_DATA, 0, NULL, &dat, 0)));
}

static void take(int room)
{
    char ctl_bytes[8], bytes[16];
    struct strbuf ctl = { sizeof ctl_bytes, 0, ctl_bytes }, dat = { room, 0, bytes };
    int kind = -1, band = -1;
    int e = strm_take(&tty, STRM_A, &kind, &band, &ctl, &dat);
    printf("take %s%s", said(e), e ? "" : kind == M_DATA ? " data" : kind == M_PCPROTO ? " high" : kind == M_HANGUP ? " hangup" : " other");
    if (kind == M_PCPROTO)
        show(ctl_bytes, ctl.len);
    else
        show(bytes, e ? 0 : dat.len);
}

static void look(void)
{
    int kind = -1, band = -1, ctl_len = 0, dat_len = 0;
    int e = strm_next(&tty, STRM_A, &kind, &band, &ctl_len, &dat_len);
    printf("next %s kind %d, band %d, control %d, data %d\n", said(e), kind, band, ctl_len, dat_len);
}

/* The host's side. */

static void host_polls(void)
{
    uint32_t told = 0;
    strm_poll(&tty, STRM_A, STRM_POLLIN | STRM_POLLOUT, &told);
    printf("  host polls%s%s%s%s%s\n", told ? "" : " nothing", told & STRM_POLLIN ? " in" : "", told & STRM_POLLOUT ? " out" : "",
           told & STRM_POLLHUP ? " hangup" : "", told & STRM_POLLNVAL ? " closed" : "");
}

static void host_reads(void)
{
    char bytes[64];
    size_t len = 0;
    printf("  host reads %s", said(strm_read(&tty, STRM_A, bytes, sizeof bytes, &len)));
    show(bytes, (int)len);
}

static void host_writes(const char *text)
{
    size_t written = 0;
    printf("  host writes %s\n", said(strm_write(&tty, STRM_A, text, strlen(text), &written)));
}

static void host_rings(void)
{
    char bell[4] = { 'b', 'e', 'l', 'l' };
    struct strbuf ctl = { 0, sizeof bell, bell };
    printf("  host rings %s\n", said(strm_putmsg(&tty, STRM_A, &ctl, NULL, RS_HIPRI)));
}

int main(void)
{
    int opened;
    opened = strm_open(&tty, STRM_WIRE, 64, 16, 5, 4);
    printf("open %s\n", said(opened));
    if (opened)
        return 1;
    push("crnl", STRM_CRNL);
    push("ldterm", STRM_LINES);

    type("ls");
    host_reads();
    type("\r\n");
    host_polls();
    host_reads();

    host_writes("a\n");
    host_writes("b\n");
    host_writes("c\n");
    host_polls();
    take(8);
    host_polls();
    host_writes("a longer\n");
    host_rings();
    take(8);
    take(8);
    take(8);
    look();
    take(16);
    take(16);

    host_writes("bye\n");
    printf("hang up %s\n", said(strm_arrive(&tty, M_HANGUP, 0, NULL, NULL, 0)));
    host_polls();
    host_writes("c\n");
    host_reads();
    printf("  host closes %s\n", said(strm_close(&tty, STRM_A)));
    host_polls();
    type("x");
    take(8);
    take(8);
    look();
    strm_free(&tty);
    return 0;
}
