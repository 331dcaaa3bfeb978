/* Two ends of a loop, and two modules on the first. One counts what goes down, the other turns LF into CR LF.
 * An ioctl is answered by one of them, refused by the driver, or refused before it is sent. */
#include <stdio.h>

#include "said.h"
#include "strm.h"

static void print_bytes(const char *bytes, size_t len)
{
    for (size_t i = 0; i < len; i++) {
        if (bytes[i] >= ' ' && bytes[i] <= '~')
            putchar(bytes[i]);
        else
            printf("\\%02x", (unsigned char)bytes[i]);
    }
}

static void read_at(struct strm *s, uint8_t end, size_t most)
{
    char bytes[64];
    size_t len = 0;
    printf("read at %c %s ", end == STRM_A ? 'a' : 'b', said(strm_read(s, end, bytes, most, &len)));
    print_bytes(bytes, len);
    putchar('\n');
}

static void write_at(struct strm *s, uint8_t end, const char *text)
{
    size_t written = 0;
    int code = strm_write(s, end, text, strlen(text), &written);
    printf("write at %c %s %zu\n", end == STRM_A ? 'a' : 'b', said(code), written);
}

static void list(struct strm *s, uint8_t end)
{
    struct str_mlist names[9];
    struct str_list all = { 9, names };
    printf("list %s", said(strm_list(s, end, &all, NULL)));
    for (int i = 0; i < all.sl_nmods; i++)
        printf(" %s", names[i].l_name);
    putchar('\n');
}

int main(void)
{
    int opened;
    struct strm s = STRM_CLOSED;
    struct strm_module term = { "term", STRM_CRNL, 64, 16, 64, 16, 0, NULL, 0, 0 };
    struct strm_module tally = { "tally", STRM_COUNT, 0, 0, 0, 0, 0, NULL, 0, 0 };
    struct strm_module wrong = { "no name", STRM_PASS, 0, 0, 0, 0, 0, NULL, 0, 0 };
    struct strioctl ask = { 1, 0, -1, NULL };
    static char bytes[4097];
    char name[FMNAMESZ + 1];
    uint64_t count = 0;
    int found = 0, answer = STRM_REFUSED;

    opened = strm_open(&s, STRM_LOOP, 64, 16, 64, 16);
    printf("open %s\n", said(opened));
    if (opened)
        return 1;
    printf("push %s", said(strm_push(&s, STRM_A, &term)));
    printf(" %s", said(strm_push(&s, STRM_A, &tally)));
    printf(" %s\n", said(strm_push(&s, STRM_A, &wrong)));
    list(&s, STRM_A);
    write_at(&s, STRM_A, "one\ntwo\n");
    read_at(&s, STRM_B, 5);
    read_at(&s, STRM_B, 64);
    read_at(&s, STRM_B, 64);
    write_at(&s, STRM_B, "three\r\n");
    read_at(&s, STRM_A, 64);
    printf("count %s", said(strm_str(&s, STRM_A, &ask, &count)));
    printf(" %lu with data of length %d\n", (unsigned long)count, ask.ic_len);
    ask.ic_cmd = 9;
    printf("an ioctl that is nobody's %s", said(strm_str_answer(&s, STRM_A, &ask, &count, &answer)));
    printf(" refused by the driver: %s\n", answer == STRM_NAK ? "yes" : "no");
    ask.ic_dp = bytes;
    ask.ic_len = sizeof bytes;
    printf("an ioctl of 4097 bytes %s", said(strm_str_answer(&s, STRM_A, &ask, &count, &answer)));
    printf(" refused by the driver: %s\n", answer == STRM_NAK ? "yes" : "no");
    printf("look %s", said(strm_look(&s, STRM_A, name)));
    printf(" %s\n", name);
    printf("pop %s\n", said(strm_pop(&s, STRM_A)));
    printf("find tally %s", said(strm_find(&s, STRM_A, "tally", &found)));
    printf(" %d\n", found);
    printf("close %s\n", said(strm_close(&s, STRM_A)));
    read_at(&s, STRM_B, 64);
    write_at(&s, STRM_B, "four");
    strm_free(&s);
    return 0;
}
