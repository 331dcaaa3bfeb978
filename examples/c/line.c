/* Messages come in from a line faster than they are read. A message for which the head has no room waits in
 * the line's list. Once that is full too, the line is held up for now (EAGAIN). A message of high priority
 * passes. A message that can never come in gets another errno, so that whoever feeds the line stops. */
#include <stdio.h>

#include "said.h"
#include "strm.h"

static int arrive(struct strm *s, int kind, const char *text)
{
    char bytes[64];
    struct strbuf part = { 0, (int)strlen(text), bytes };
    memcpy(bytes, text, strlen(text));
    return strm_arrive(s, kind, 0, kind == M_PCPROTO ? &part : NULL, kind == M_DATA ? &part : NULL, 0);
}

/* Hands in a byte more than a message may have. None of it is copied. */
static int arrive_long(struct strm *s)
{
    static char bytes[4097];
    struct strbuf part = { 0, sizeof bytes, bytes };
    return strm_arrive(s, M_DATA, 0, NULL, &part, 0);
}

/* Sets the read mode of the head and its marks, in the format of docs/MODEL.md ("Options"). */
static int set_options(struct strm *s, const char *bytes, int len)
{
    char room[16];
    struct strbuf part = { 0, len, room };
    memcpy(room, bytes, (size_t)len);
    return strm_arrive(s, M_SETOPTS, 0, NULL, &part, 0);
}

/* Reports an error for reading and one for writing. NOERROR leaves a side as it is. */
static int report(struct strm *s, unsigned char reading, unsigned char writing)
{
    char sides[2];
    struct strbuf part = { 0, 2, sides };
    sides[0] = (char)reading;
    sides[1] = (char)writing;
    return strm_arrive(s, M_ERROR, 0, NULL, &part, 0);
}

static void tell(struct strm *s)
{
    int messages = 0, bytes = 0;
    printf("nread %s", said(strm_nread(s, STRM_A, &bytes, &messages)));
    printf(" %d messages, %d bytes in the first\n", messages, bytes);
}

static void read_some(struct strm *s, size_t most)
{
    char bytes[64];
    size_t len = 0;
    printf("read %s", said(strm_read(s, STRM_A, bytes, most, &len)));
    printf(" %.*s\n", (int)len, bytes);
}

int main(void)
{
    int opened;
    struct strm s = STRM_CLOSED;
    char room[8];
    struct strbuf ctl = { 8, 0, room };
    int flags = RS_HIPRI, more = 0;
    int32_t mode = 0;
    size_t written = 0;

    opened = strm_open(&s, STRM_LINE, 16, 4, 8, 2);
    printf("open %s\n", said(opened));
    if (opened)
        return 1;
    printf("arrive %s\n", said(arrive(&s, M_DATA, "12345678")));
    printf("arrive %s\n", said(arrive(&s, M_DATA, "abcdefgh")));
    printf("arrive %s\n", said(arrive(&s, M_DATA, "ijklmnop")));
    tell(&s);
    printf("arrive %s\n", said(arrive(&s, M_DATA, "q")));
    printf("arrive %s\n", said(arrive(&s, M_PCPROTO, "!")));
    tell(&s);
    printf("getmsg %s", said(strm_getmsg(&s, STRM_A, &ctl, NULL, &flags, &more)));
    printf(" control %.*s flags %d\n", ctl.len, room, flags);
    read_some(&s, 12);
    tell(&s);
    printf("arrive %s\n", said(arrive(&s, M_DATA, "q")));
    read_some(&s, 64);
    printf("no message %s\n", said(strm_arrive(&s, 0x05, 0, NULL, NULL, 0)));
    printf("too long %s\n", said(arrive_long(&s)));
    printf("no options %s\n", said(set_options(&s, "\4\0\0", 3)));
    printf("options %s\n", said(set_options(&s, "\2\0\1\0\0\0\4\0\0\0\1", 11)));
    printf("getread %s", said(strm_getread(&s, STRM_A, &mode)));
    printf(" message nondiscard %s\n", mode == (RMSGN | RPROTNORM) ? "yes" : "no");
    printf("hangup %s\n", said(strm_arrive(&s, M_HANGUP, 0, NULL, NULL, 0)));
    read_some(&s, 64);
    printf("write %s\n", said(strm_write(&s, STRM_A, "r", 1, &written)));
    printf("no error %s\n", said(report(&s, NOERROR, 1)));
    printf("error in writing %s\n", said(report(&s, NOERROR, EPROTO)));
    printf("write %s\n", said(strm_write(&s, STRM_A, "r", 1, &written)));
    read_some(&s, 64);
    printf("error %s\n", said(strm_arrive(&s, M_ERROR, 0, NULL, NULL, EIO)));
    printf("write %s\n", said(strm_write(&s, STRM_A, "r", 1, &written)));
    printf("close %s\n", said(strm_close(&s, STRM_A)));
    printf("arrive %s\n", said(arrive(&s, M_DATA, "s")));
    strm_free(&s);

    opened = strm_open(&s, STRM_ECHO, 16, 4, 8, 2);
    printf("open %s\n", said(opened));
    if (opened)
        return 1;
    printf("no line %s\n", said(arrive(&s, M_DATA, "t")));
    strm_free(&s);
    return 0;
}
