/* A message goes down a stream, comes back from its echo driver, and is taken at the head. */
#include <stdio.h>

#include "said.h"
#include "strm.h"

int main(void)
{
    int opened;
    struct strm s = STRM_CLOSED;
    char control[] = "c", data[] = "hello", ctl_room[64], dat_room[64];
    struct strbuf ctl = { 0, 1, control }, dat = { 0, 5, data };
    struct strbuf taken_ctl = { 64, 0, ctl_room }, taken_dat = { 64, 0, dat_room };
    int flags = 0, more = 0;

    opened = strm_open(&s, STRM_ECHO, 16, 4, 16, 4);
    printf("open %s\n", said(opened));
    if (opened)
        return 1;
    printf("putmsg %s\n", said(strm_putmsg(&s, STRM_A, &ctl, &dat, 0)));
    printf("getmsg %s", said(strm_getmsg(&s, STRM_A, &taken_ctl, &taken_dat, &flags, &more)));
    printf(" control %.*s", taken_ctl.len, ctl_room);
    printf(" data %.*s flags %d more %d\n", taken_dat.len, dat_room, flags, more);
    printf("getmsg %s\n", said(strm_getmsg(&s, STRM_A, &taken_ctl, &taken_dat, &flags, &more)));
    printf("close %s\n", said(strm_close(&s, STRM_A)));
    printf("putmsg %s\n", said(strm_putmsg(&s, STRM_A, &ctl, &dat, 0)));
    strm_free(&s);
    return 0;
}
