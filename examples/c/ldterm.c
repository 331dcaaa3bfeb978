/* A terminal with a line discipline that is the program's own (ldterm.h), above a wire. At the head a process
 * reads and writes. Outside of the wire is the terminal: its keys come in by strm_arrive, and strm_take gives
 * what it shows. Played here are keys that are erased, a stop and a start, an interrupt, lines that nobody
 * reads, ioctls that the module answers, and the end.
 *
 *     ldterm        plays that, and prints it; its status is 1 if something is not as it must be
 *     ldterm pty    is such a terminal: opens a pseudo terminal, prints its name, and sends each line back */
#define _XOPEN_SOURCE 600 /* for pseudo terminals */
#include <fcntl.h>
#include <poll.h>
#include <stdio.h>
#include <stdlib.h>
#include <termios.h>
#include <unistd.h>

#include "ldterm.h"
#include "said.h"

static struct strm tty = STRM_CLOSED;
static struct ldterm term;
static int is_wrong, ran_out;

/* Notes whether a call returned what it must. Once memory has run out, nothing is certain. */
static const char *must(int code, int wanted)
{
    ran_out |= code == ENOSR;
    is_wrong |= code != wanted && !ran_out;
    return said(code);
}

/* Prints bytes as C writes them, and notes whether they are those that must come. */
static void show(const char *bytes, int len, const char *wanted)
{
    is_wrong |= wanted && ((size_t)len != strlen(wanted) || memcmp(bytes, wanted, strlen(wanted)) != 0) && !ran_out;
    putchar('"');
    for (int i = 0; i < len; i++) {
        const char *at = bytes[i] ? strchr("\aa\bb\tt\nn\rr", bytes[i]) : NULL;
        if (bytes[i] < ' ' && at)
            printf("\\%c", at[1]);
        else if (bytes[i] < ' ' || bytes[i] == 0x7f)
            printf("\\%03o", (unsigned char)bytes[i]);
        else
            putchar(bytes[i]);
    }
    putchar('"');
}

/* ---- The terminal. ---- */

/* Takes a message that has come down. ENOSR may hold for this once, so the call is then made again. */
static int take(struct strbuf *dat)
{
    int kind = 0, band = 0, e = strm_take(&tty, STRM_A, &kind, &band, NULL, dat);
    if (e == ENOSR)
        e = strm_take(&tty, STRM_A, &kind, &band, NULL, dat);
    ran_out |= e == ENOSR;
    return e;
}

/* Takes all that has come down. What waits above moves on meanwhile. */
static void shows(const char *wanted)
{
    char screen[256], bytes[LD_MOST * LD_WIDTH];
    struct strbuf dat = { sizeof bytes, -1, bytes };
    int len = 0;
    ld_run(&term);
    while (len < (int)sizeof screen && take(&dat) == 0) {
        int some = (int)sizeof screen - len < dat.len ? (int)sizeof screen - len : dat.len;
        memcpy(screen + len, bytes, (size_t)some);
        len += some;
        ld_run(&term);
    }
    printf("    it shows ");
    show(screen, len, wanted);
    putchar('\n');
}

static void types(const char *keys, const char *wanted)
{
    char bytes[64];
    struct strbuf dat = { 0, (int)strlen(keys), bytes };
    memcpy(bytes, keys, strlen(keys));
    printf("terminal types ");
    show(keys, dat.len, NULL);
    printf(" %s\n", must(strm_arrive(&tty, M_DATA, 0, NULL, &dat, 0), 0));
    shows(wanted);
}

/* ---- The process. ---- */

static void reads(int code, const char *wanted)
{
    char bytes[64];
    size_t len = 0;
    printf("process reads %s%s", must(strm_read(&tty, STRM_A, bytes, sizeof bytes, &len), code), code ? "" : " ");
    if (!code)
        show(bytes, (int)len, wanted);
    putchar('\n');
    ld_run(&term);
}

static void writes(const char *text, int code)
{
    size_t written = 0;
    printf("process writes ");
    show(text, (int)strlen(text), NULL);
    printf(" %s\n", must(strm_write(&tty, STRM_A, text, strlen(text), &written), code));
    ld_run(&term);
}

/* Makes an ioctl in two calls, with the service procedures in between. */
static void asks(const char *what, int command, const char *bytes, int len, int code)
{
    char sent[4], got[4] = { 0, 0, 0, 0 };
    struct strioctl call = { command, 0, len, sent };
    struct strbuf dat = { sizeof got, -1, got };
    uint64_t id = 0, value = 0;
    int answer = STRM_REFUSED, e;
    if (len > 0)
        memcpy(sent, bytes, (size_t)len);
    printf("process asks %s %s\n", what, must(strm_strput(&tty, STRM_A, &call, &id), 0));
    ld_run(&term);
    e = strm_strget(&tty, STRM_A, true, &dat, &value, &answer);
    printf("    ioctl %d: %s", (int)id, must(e, code));
    printf("%s", answer == STRM_ACK ? ", acknowledged" : answer == STRM_NAK ? ", refused" : ", no answer");
    if (!e && dat.len == 4)
        printf(", modes %d", got[3]);
    putchar('\n');
}

/* ---- What is played. ---- */

static void edits(void)
{
    types("lx\177s\r", "lx\b \bs\r\n");
    reads(0, "ls\n");
    writes("login:", 0);
    shows("login:");
    types("\t\177rot\bot\r", "  \b \b\b \brot\b \bot\r\n");
    reads(0, "root\n");
    types("rm -r\025date\r", "rm -r\b \b\b \b\b \b\b \b\b \bdate\r\n");
    reads(0, "date\n");
    writes("a\tb\n", 0);
    shows("a       b\r\n");
}

static void stops(void)
{
    types("\023", "");
    writes("one\n", 0);
    writes("two\n", 0);
    writes("three and more\n", 0);
    writes("four\n", EAGAIN);
    shows("");
    types("\021", "one\r\ntwo\r\nthree and more\r\n");
    writes("four\n", 0);
    shows("four\r\n");
}

static void interrupts(void)
{
    types("ahead\r", "ahead\r\n");
    types("\023", "");
    writes("a long answer\n", 0);
    types("half", "half");
    types("\003", "^C\r\n");
    reads(EAGAIN, "");
    writes("still here\n", 0);
    shows("still here\r\n");
    types("old", "old");
    printf("process flushes %s\n", must(strm_flush(&tty, STRM_A, FLUSHRW), 0));
    ld_run(&term);
    types("new\r", "new\r\n");
    reads(0, "new\n");
}

/* The head is full from 16 bytes on. The next line is kept in the module, and the one after it in its queue. */
static void fills(void)
{
    int waits = 0;
    types("the first long line\r", "the first long line\r\n");
    types("second\r", "second\r\n");
    types("third\r", "");
    printf("keys wait %s", must(strm_qsize(&tty, STRM_A, LD_NAME, STRM_RD, &waits), 0));
    printf(" in %d message\n", waits);
    reads(0, "the first long line\n");
    shows("third\r\n");
    reads(0, "second\n");
    reads(0, "third\n");
}

static void changes_modes(void)
{
    asks("for the modes", LD_GET, "", -1, 0);
    asks("for modes of 3 bytes", LD_SET, "\0\0\0", 3, EINVAL);
    asks("what no module knows", 99, "", -1, EINVAL);
    types("a", "a");
    asks("for no modes", LD_SET, "\0\0\0\0", 4, 0);
    reads(0, "a");
    types("q\003\r", "");
    reads(0, "q\003\r");
    writes("\n", 0);
    shows("\n");
    asks("for all modes", LD_SET, "\0\0\0\017", 4, 0);
}

static void ends(void)
{
    types("bye\004", "bye");
    reads(0, "bye");
    types("\004", "");
    reads(0, "");
    printf("terminal hangs up %s\n", must(strm_arrive(&tty, M_HANGUP, 0, NULL, NULL, 0), 0));
    ld_run(&term);
    writes("gone\n", ENXIO);
    reads(0, "");
}

/* ---- A pseudo terminal. ---- */

/* Opens one, and its other side too, so that it stays when nobody is attached. That side has a discipline of
 * the system, which must leave all to this one. Returns -1 if it cannot. */
static int open_pty(void)
{
    struct termios modes;
    int pty = posix_openpt(O_RDWR | O_NOCTTY), other = -1;
    const char *name = pty < 0 || grantpt(pty) || unlockpt(pty) ? NULL : ptsname(pty);
    if (name)
        other = open(name, O_RDWR | O_NOCTTY);
    if (other < 0 || tcgetattr(other, &modes))
        return -1;
    modes.c_iflag = modes.c_oflag = modes.c_lflag = 0;
    if (tcsetattr(other, TCSANOW, &modes))
        return -1;
    printf("attach to %s, as with: screen %s\n", name, name);
    fflush(stdout);
    return pty;
}

/* Sends each line back, and shows what came down. A line for which there is no room is lost. Returns 0 at the
 * end of the file, and else the errno of a read. */
static int serve(int pty)
{
    char bytes[LD_MOST * LD_WIDTH];
    struct strbuf dat = { sizeof bytes, -1, bytes };
    size_t len = 1, written = 0;
    int e = 0;
    while (len > 0 && e == 0) {
        e = strm_read(&tty, STRM_A, bytes, sizeof bytes, &len);
        if (e == 0 && len > 0)
            strm_write(&tty, STRM_A, bytes, len, &written);
        ld_run(&term);
        while (take(&dat) == 0) {
            if (write(pty, bytes, (size_t)dat.len) < 0)
                return EIO;
            ld_run(&term);
        }
    }
    return e;
}

static int play_pty(void)
{
    int pty = open_pty(), e = pty < 0 ? EIO : EAGAIN;
    while (e == EAGAIN) {
        char keys[16];
        struct pollfd ready = { pty, POLLIN, 0 };
        struct strbuf dat = { 0, 0, keys };
        if (poll(&ready, 1, -1) < 0 || (dat.len = (int)read(pty, keys, sizeof keys)) <= 0)
            return 1;
        strm_arrive(&tty, M_DATA, 0, NULL, &dat, 0);
        ld_run(&term);
        e = serve(pty);
    }
    printf("end %s\n", said(e));
    return e != 0;
}

int main(int argc, char **argv)
{
    int opened = strm_open(&tty, STRM_WIRE, 16, 8, 64, 32);
    printf("open %s\n", said(opened));
    if (opened)
        return 1;
    printf("push %s", must(ld_push(&term, &tty), 0));
    printf(" setread %s\n", must(strm_setread(&tty, STRM_A, RMSGN), 0));
    if (argc > 1 && strcmp(argv[1], "pty") == 0) {
        is_wrong = play_pty();
    } else {
        edits();
        stops();
        interrupts();
        fills();
        changes_modes();
        ends();
    }
    strm_free(&tty);
    return is_wrong;
}
