/* measure-recall.c KIND call N: on a log of 255 calls the 256th, N times; between them it is taken back by a zero over its mark.
 * measure-recall.c KIND run N: all 256 calls from fresh, N times. measure-recall.c KIND stack: the bytes of stack that the deepest of them
 * reached. For instructions take the difference of two Ns. Each writes a line; the log that the calls leave is held to the one that is made
 * here. tools/measure-recall.sh runs it. KIND:
 *   i  ticks with many instants: 52, then three times 64 sessions one behind the other, each lot in one tick, the last the 256th call
 *   n  the same with ten sessions over each other, each lot's latest first
 *   c  chains of 20, 20, 14 and 10 links, each ended by an abort of its first, on air in the first and in the last call
 *   f  such chains whose first fail at their start, in ticks
 *   e  123 sessions that are ended, then ExtendedData_Requests for one that is not among the last sixteen
 *   d  Splice_Requests full of descriptors, as many as the log takes, then Alive_Requests
 *   p  opens and closes of a connection in turn */
#include "splicer_bench.h"

int printf(const char *form, ...);
int atoi(const char *text);
int memcmp(const void *a, const void *b, size_t n);
void *memset(void *to, int byte, size_t n);
_Noreturn void exit(int status);

#define APART __attribute__((noinline))
enum { CALLS = 256, DEEP = 120000, SECOND = 90000, NONE = 0xFFFFFFFF };

static uint8_t log[SPLICER_LOG], made[SPLICER_LOG], out[SPLICER_OUT];

/* Where each call stands in `made`, and where the last one ends. */
static size_t at[CALLS + 1];
static uint32_t calls;

/* ---- the calls, as the log keeps them */

static uint8_t *begin(uint8_t mark, uint32_t conn, size_t span) {
    uint8_t *to = made + at[calls];
    if (calls == CALLS) {
        printf("more calls than 256\n");
        exit(1);
    }
    to[0] = mark;
    to[1] = (uint8_t)conn;
    at[calls + 1] = at[calls] + span;
    calls++;
    return to + 2;
}

static uint8_t *put4(uint8_t *to, uint32_t n) {
    for (int i = 0; i < 4; i++) {
        to[i] = (uint8_t)(n >> (24 - 8 * i));
    }
    return to + 4;
}

static uint8_t *message(uint32_t conn, uint32_t id, uint32_t size) {
    uint8_t *to = begin(0x4D, conn, 10 + (size_t)size);
    put4(to, id << 16 | size);
    put4(to + 4, NONE);
    return to + SPLICER_HEADER;
}

static void tick(uint32_t seconds) {
    put4(put4(begin(0x54, 0, 10), seconds), 0);
}

static void ask(uint32_t conn, uint32_t message_id, uint32_t id, uint32_t size) {
    uint8_t *to = message(conn, message_id, size);
    memset(to, 0xFF, size);
    put4(to, id);
}

static void splice(uint32_t conn, uint32_t id, uint32_t prior, uint32_t start, uint32_t seconds, uint32_t access, uint32_t more) {
    uint8_t *to = message(conn, SPLICER_SPLICE_REQUEST, 33 + 6 * more);
    to = put4(put4(put4(put4(to, id), prior), start), 0);
    *to++ = 0;
    *to++ = 1;
    to = put4(put4(put4(to, seconds * SECOND), id), 0);
    *to++ = (uint8_t)access;
    *to++ = 1; /* OverridePlaying */
    *to++ = 1;
    for (uint32_t i = 0; i < more; i++) { /* descriptors without private bytes */
        *to++ = 2;
        *to++ = 4;
        to = put4(to, 0x43554549);
    }
}

static void ready(void) {
    for (uint32_t conn = 0; conn < SPLICER_CONNECTIONS; conn++) {
        uint8_t *to;
        begin(0x4F, conn, 2);
        to = message(conn, SPLICER_INIT_REQUEST, 68);
        memset(to, 0, 68);
        to[1] = 2;
        to[2] = 'C';
        to[3] = 'H';
        to[4] = '1';
    }
}

/* The connection of the i-th of 64 sessions: 20, 20, 14 and 10 of them. */
static uint32_t of(uint32_t i) {
    return i < 20 ? 0 : i < 40 ? 1 : i < 54 ? 2 : 3;
}

/* A lot of sessions and the tick that plays them: each a second long and a second apart, or ten over each other. */
static void lot(uint32_t n, uint32_t from, int nested) {
    for (uint32_t i = 0; i < n; i++) {
        uint32_t k = n - 1 - i, ten = k / 10 * 30 + k % 10; /* the latest first */
        if (nested) {
            splice(of(i), i, NONE, from + 3 + ten, 25 - 2 * (k % 10), k % 10, 0);
        } else {
            splice(of(i), i, NONE, from + 3 + 2 * k, 1, 5, 0);
        }
    }
    tick(from + 300);
}

static void lots(int nested) {
    ready();
    lot(52, 0, nested);
    for (uint32_t from = 300; calls < CALLS; from += 300) {
        lot(64, from, nested);
    }
}

/* A chain of n links from `start` on. */
static void chain(uint32_t conn, uint32_t n, uint32_t start) {
    for (uint32_t i = 0; i < n; i++) {
        splice(conn, i, i == 0 ? NONE : i - 1, start, 1, 3, 0);
    }
}

/* A chain of 20 whose first is on air, so that one more may wait, aborted: 21 ends. 64 sessions in four chains, aborted one by one, three
 * times. Then a chain of 19 whose first is on air, to be aborted by the last call. */
static void aborted(void) {
    static const uint32_t links[] = {20, 20, 14, 10};
    ready();
    chain(0, 20, 1000);
    tick(1000);
    splice(0, 20, 19, 0, 1, 3, 0);
    ask(0, SPLICER_ABORT_REQUEST, 0, 4);
    for (int round = 0; round < 3; round++) {
        for (uint32_t conn = 0; conn < SPLICER_CONNECTIONS; conn++) {
            chain(conn, links[conn], 2000 + 100 * conn);
        }
        for (uint32_t conn = 0; conn < SPLICER_CONNECTIONS; conn++) {
            ask(conn, SPLICER_ABORT_REQUEST, 0, 4);
        }
    }
    chain(0, 19, 3000);
    tick(3000);
    ask(0, SPLICER_ABORT_REQUEST, 0, 4);
}

/* One that is on air over the starts of three chains: they fail with all their links. */
static void failed(void) {
    uint32_t from = 0;
    ready();
    for (; calls + 66 <= CALLS; from += 100) {
        splice(3, 99, NONE, from + 3, 50, 9, 0);
        chain(0, 20, from + 10);
        chain(1, 20, from + 11);
        chain(2, 14, from + 12);
        chain(3, 9, from + 13);
        tick(from + 90);
    }
    while (calls < CALLS - 21) {
        tick(from);
    }
    splice(3, 99, NONE, from + 3, 50, 9, 0);
    chain(0, CALLS - 1 - calls, from + 10);
    tick(from + 90);
}

static void extended(void) {
    ready();
    lot(60, 0, 0);
    lot(60, 300, 0);
    while (calls < CALLS) {
        ask(3, SPLICER_EXTENDED_DATA_REQUEST, NONE - 1, 8);
    }
}

static void described(void) {
    ready();
    for (uint32_t i = 0; at[calls] + (10 + 33 + 6 * 675) + CALLS * 18 + 4098 <= SPLICER_LOG; i++) {
        splice(0, i, NONE, 1000 + i, 1, 3, 675);
    }
    while (calls < CALLS) {
        ask(0, SPLICER_ALIVE_REQUEST, 0, 8);
    }
}

static void pairs(void) {
    while (calls < CALLS) {
        begin(calls % 2 ? 0x43 : 0x4F, 0, 2);
    }
}

static int make(char kind) {
    switch (kind) {
    case 'i':
    case 'n':
        lots(kind == 'n');
        break;
    case 'c':
        aborted();
        break;
    case 'f':
        failed();
        break;
    case 'e':
        extended();
        break;
    case 'd':
        described();
        break;
    case 'p':
        pairs();
        break;
    default:
        return 0;
    }
    return 1;
}

/* ---- made by the engine */

static struct splicer_reply play(uint32_t i) {
    const uint8_t *p = made + at[i];
    switch (p[0]) {
    case 0x4F:
        return splicer_recall_open(log, sizeof log, p[1]);
    case 0x43:
        return splicer_recall_close(log, sizeof log, p[1], out, sizeof out);
    case 0x4D:
        return splicer_recall_message(log, sizeof log, p[1], p + 2, at[i + 1] - at[i] - 2, 0, 0, 0, 0, out, sizeof out);
    default:
        return splicer_recall_tick(log, sizeof log, splicer_u32(p + 2), splicer_u32(p + 6), out, sizeof out);
    }
}

static size_t good(uint32_t i) {
    struct splicer_reply r = play(i);
    if (r.refused != SPLICER_GOOD) {
        printf("call %u: refused %u\n", i + 1, r.refused);
        exit(1);
    }
    return r.written;
}

static void fresh(void) {
    if (splicer_recall_fresh(log, sizeof log).refused != SPLICER_GOOD) {
        exit(1);
    }
}

/* The sessions that were accepted: so many rows the engine looks through. */
static uint32_t accepted(size_t written) {
    struct splicer_record r;
    uint32_t n = 0;
    for (size_t from = 0; splicer_next_record(out, written, &from, &r);) {
        n += r.message_id == SPLICER_SPLICE_RESPONSE && r.result == SPLICER_SUCCESSFUL;
    }
    return n;
}

static void run(int n) {
    size_t written = 0;
    uint32_t rows = 0;
    for (int k = 0; k < n; k++) {
        fresh();
        rows = 0;
        for (uint32_t i = 0; i < CALLS; i++) {
            written = good(i);
            rows += accepted(written);
        }
    }
    printf("%u sessions, %zu bytes by the last call\n", rows, written);
}

static void last(int n) {
    size_t written = 0;
    for (size_t i = 0; i < at[CALLS - 1]; i++) {
        log[i] = made[i];
    }
    for (int k = 0; k < n; k++) {
        log[at[CALLS - 1]] = 0;
        written = good(CALLS - 1);
    }
    printf("%zu bytes by the last call\n", written);
}

/* paints the stack below this frame; returns its end */
APART static uint8_t *paint(uint8_t colour) {
    volatile uint8_t below[DEEP];
    uint8_t *end;
    for (size_t i = 0; i < DEEP; i++) {
        below[i] = colour;
    }
    __asm__ volatile("" : "=r"(end) : "0"(below) : "memory");
    return end;
}

APART static size_t reached(uint32_t i, uint8_t colour) {
    volatile uint8_t *end = paint(colour);
    size_t deep = 0;
    good(i);
    while (deep < DEEP && end[deep] == colour) {
        deep++;
    }
    return (size_t)((uint8_t *)__builtin_frame_address(0) - (end + deep));
}

/* two colours, since a call may write one of them */
static void stack(void) {
    size_t most = 0;
    uint32_t by = 0;
    for (int k = 0; k < 2; k++) {
        fresh();
        for (uint32_t i = 0; i < CALLS; i++) {
            size_t n = reached(i, k == 0 ? 0xA5 : 0x5A);
            if (most < n) {
                most = n;
                by = i + 1;
            }
        }
    }
    printf("%zu by call %u\n", most, by);
}

int main(int argc, char **argv) {
    int n = argc == 4 ? atoi(argv[3]) : 0;
    if (argc < 3 || !make(argv[1][0])) {
        return 2;
    }
    switch (argv[2][0]) {
    case 'c':
        last(n);
        break;
    case 'r':
        run(n);
        break;
    default:
        stack();
    }
    if (memcmp(log, made, at[CALLS]) != 0) {
        printf("the log is another\n");
        return 1;
    }
    return 0;
}
