/* recall.c [wrong]: both engines in one program, the card's over libdoor.a and the one that only remembers (02, CR 12) over libbench.a. A
 * small day goes through both, again and again until the second one says 13: once till 256 calls are kept, once, with long messages
 * between, till fewer than 4,098 bytes are free. Then just so many bytes, or one less, are left for the largest message. Compared are every
 * reply, every byte of both output buffers, and every byte of the log with what the good calls make it. Writes a line for each part, or the
 * first call that differs. With `wrong` the card is not told of connection 2's good Init_Request, call 13, which must be noticed at call
 * 17, its GetConfig_Request. tools/bench.sh builds and runs it. The kit has no C headers: what is called of the C library is declared
 * here. */
#include "splicer.h"
#include "splicer_bench.h"

int printf(const char *form, ...);
int memcmp(const void *a, const void *b, size_t n);
void *memcpy(void *to, const void *from, size_t n);
void *memset(void *to, int byte, size_t n);
_Noreturn void exit(int status);

/* 02: "256 calls are kept or under 4,098 of its bytes are free" */
enum { MOST = 256, LONGEST = 4098 };

/* A buffer is longer than the records of any call: what stands behind them must stay. */
enum { LENT = SPLICER_OUT + 100, COLOUR = 0x33, NONE = 0xFFFFFFFF };

struct call {
    uint8_t mark; /* the card program's */
    uint32_t conn;
    const uint8_t *in;
    size_t length;
    struct splicer_maps maps;
    uint32_t seconds, micros;
    size_t room;
};

static struct splicer card;
static uint8_t log[SPLICER_LOG + 1], wanted[SPLICER_LOG + 1];
static uint8_t ours[LENT], theirs[LENT];
static size_t taken;
static unsigned kept, number, untold;

static void differs(const char *what) {
    printf("call %u: %s\n", number, what);
    exit(1);
}

static struct splicer_reply by_card(const struct call *c) {
    switch (c->mark) {
    case 0x4F:
        return splicer_call_open(&card, c->conn);
    case 0x43:
        return splicer_call_close(&card, c->conn, theirs, c->room);
    case 0x4D:
        return splicer_call_message_maps(&card, c->conn, c->in, c->length, &c->maps, theirs, c->room);
    default:
        return splicer_call_tick(&card, c->seconds, c->micros, theirs, c->room);
    }
}

static struct splicer_reply by_log(const struct call *c, size_t size) {
    switch (c->mark) {
    case 0x4F:
        return splicer_recall_open(log, size, c->conn);
    case 0x43:
        return splicer_recall_close(log, size, c->conn, ours, c->room);
    case 0x4D:
        return splicer_recall_message(log, size, c->conn, c->in, c->length, c->maps.primary, c->maps.primary_length, c->maps.insertion,
                                      c->maps.insertion_length, ours, c->room);
    default:
        return splicer_recall_tick(log, size, c->seconds, c->micros, ours, c->room);
    }
}

static size_t put4(uint8_t *to, uint32_t n) {
    for (int i = 0; i < 4; i++) {
        to[i] = (uint8_t)(n >> (24 - 8 * i));
    }
    return 4;
}

/* A good call as the log keeps it, and a zero behind it if there is room. */
static void keep(const struct call *c) {
    uint8_t *to = wanted + taken;
    to[0] = c->mark;
    to[1] = (uint8_t)(c->mark == 0x54 ? 0 : c->conn);
    taken += 2;
    kept++;
    if (c->mark == 0x4D) {
        size_t n = SPLICER_HEADER + splicer_u16(c->in + 2);
        memcpy(to + 2, c->in, n);
        taken += n;
    } else if (c->mark == 0x54) {
        put4(to + 2, c->seconds);
        put4(to + 6, c->micros);
        taken += 8;
    }
    if (taken < SPLICER_LOG) {
        wanted[taken] = 0;
    }
}

static void clean(void) {
    memset(ours, COLOUR, sizeof ours);
    memset(theirs, COLOUR, sizeof theirs);
}

/* 13, and nothing else: no byte of log and buffer has changed. */
static void refused_full(struct splicer_reply r) {
    if (r.refused != SPLICER_LOG_FULL || r.moved != 0 || r.consumed != 0 || r.written != 0) {
        differs("no 13");
    }
    if (memcmp(ours, theirs, sizeof ours) != 0 || memcmp(log, wanted, sizeof log) != 0) {
        differs("something changed at 13");
    }
}

static int is_full(void) {
    return kept >= MOST || SPLICER_LOG - taken < LONGEST;
}

static void both(const struct call *c) {
    struct splicer_reply mine, its;
    number++;
    clean();
    mine = by_log(c, SPLICER_LOG);
    if (is_full()) {
        refused_full(mine);
        return;
    }
    if (number == untold) {
        keep(c);
        return;
    }
    its = by_card(c);
    if (mine.refused != its.refused || mine.moved != its.moved || mine.consumed != its.consumed || mine.written != its.written) {
        differs("the replies differ");
    }
    if (memcmp(ours, theirs, sizeof ours) != 0) {
        differs("the buffers differ");
    }
    if (its.refused == SPLICER_GOOD) {
        keep(c);
    }
    if (memcmp(log, wanted, sizeof log) != 0) {
        differs("the log differs");
    }
}

/* ---- the day */

/* What a row does: o open; c close; i Init_Request, id its last byte of Hardware_Config; r, m, h the same with another Revision_Num, for
 * another channel, without a Hardware_Config; a Alive_Request with bytes behind it; s Splice_Request, a start so many seconds into the day
 * or linked; x Abort_Request; e ExtendedData_Request; g GetConfig_Request with two sections; l the same with a section that is too long;
 * u an unknown message; q one that gets no answer; d one with wrong data; b one into a buffer that is too short; k a piece of one; v one
 * with a MessageSize above 4,088; t tick; w, y, z ticks back, with wrong MicroSeconds and into a buffer that is too short. */
struct row {
    char what;
    uint32_t conn, id, prior, start, ticks;
    uint8_t access, overrides;
};

static const struct row day[] = {
    {'o', 0, 0, 0, 0, 0, 0, 0},
    {'o', 1, 0, 0, 0, 0, 0, 0},
    {'o', 2, 0, 0, 0, 0, 0, 0},
    {'o', 2, 0, 0, 0, 0, 0, 0},
    {'o', 4, 0, 0, 0, 0, 0, 0},
    {'o', 256, 0, 0, 0, 0, 0, 0},
    {'a', 0, 0, 0, 0, 0, 0, 0},
    {'i', 0, 7, 0, 0, 0, 0, 0},
    {'i', 1, 8, 0, 0, 0, 0, 0},
    {'r', 2, 1, 0, 0, 0, 0, 0},
    {'m', 2, 2, 0, 0, 0, 0, 0},
    {'h', 2, 3, 0, 0, 0, 0, 0},
    {'i', 2, 9, 0, 0, 0, 0, 0},
    {'i', 0, 6, 0, 0, 0, 0, 0},
    {'r', 0, 5, 0, 0, 0, 0, 0},
    {'g', 0, 0, 0, 0, 0, 0, 0},
    {'g', 2, 0, 0, 0, 0, 0, 0},
    {'l', 0, 0, 0, 0, 0, 0, 0},
    {'t', 0, 0, 0, 0, 0, 0, 0},
    {'w', 0, 0, 0, 0, 0, 0, 0},
    {'y', 0, 0, 0, 0, 0, 0, 0},
    {'z', 0, 0, 0, 0, 0, 0, 0},
    {'s', 2, 5, NONE, 5, 90000, 4, 0},    /* 5 s to 6 s, and one that starts at its end */
    {'s', 2, 6, 5, 0, 90000, 4, 0},
    {'s', 0, 1, NONE, 10, 1800000, 3, 0}, /* 10 s to 30 s, and three behind it */
    {'s', 0, 2, 1, 0, 900000, 3, 0},
    {'s', 0, 3, 2, 0, 900000, 3, 0},
    {'s', 0, 4, 3, 0, 900000, 3, 0},
    {'s', 0, 2, NONE, 90, 900000, 3, 0},  /* 121: held */
    {'s', 0, 5, 99, 0, 900000, 3, 0},     /* 121: no such prior session */
    {'s', 0, 5, NONE, 2, 900000, 3, 0},   /* 112 */
    {'s', 1, 1, NONE, 15, 450000, 5, 1},  /* 15 s to 20 s, higher */
    {'s', 2, 1, NONE, 15, 450000, 5, 0},  /* 109 */
    {'s', 2, 1, NONE, 16, 90001, 8, 1},   /* 16 s to 17 s and a tick, higher still */
    {'s', 2, 2, NONE, 18, 90000, 1, 1},   /* fails at its start */
    {'s', 2, 3, 2, 0, 90000, 1, 1},       /* and this with it */
    {'s', 1, 2, NONE, 25, 1350000, 3, 1}, /* 25 s, an equal one: ends 1 at once, and those behind it */
    {'s', 1, 3, NONE, 60, 90000, 2, 0},   /* evicted by the next, with its follower */
    {'s', 1, 4, 3, 0, 90000, 2, 0},
    {'s', 2, 4, NONE, 60, 90000, 4, 0},
    {'a', 1, 0, 0, 0, 0, 0, 0},
    {'t', 0, 0, 0, 16, 0, 0, 0},
    {'a', 1, 0, 0, 0, 0, 0, 0},
    {'g', 1, 0, 0, 0, 0, 0, 0},
    {'e', 1, 3, 0, 0, 0, 0, 0},
    {'t', 0, 0, 0, 30, 0, 0, 0},
    {'e', 0, 1, 0, 0, 0, 0, 0},
    {'e', 2, 2, 0, 0, 0, 0, 0},
    {'e', 3, 2, 0, 0, 0, 0, 0},
    {'x', 1, 2, 0, 0, 0, 0, 0},           /* on air */
    {'x', 1, 2, 0, 0, 0, 0, 0},           /* 121 */
    {'u', 0, 0, 0, 0, 0, 0, 0},
    {'d', 0, 0, 0, 0, 0, 0, 0},
    {'b', 0, 0, 0, 0, 0, 0, 0},
    {'k', 0, 0, 0, 0, 0, 0, 0},
    {'v', 0, 0, 0, 0, 0, 0, 0},
    {'s', 0, 7, NONE, 40, 8100000, 2, 0}, /* three that lie over each other, and one that waits, when 0 and 1 go */
    {'s', 1, 7, NONE, 41, 8100000, 4, 1},
    {'s', 0, 8, NONE, 42, 8100000, 6, 1},
    {'s', 0, 9, NONE, 70, 90000, 6, 1},
    {'t', 0, 0, 0, 50, 0, 0, 0},
    {'c', 0, 0, 0, 0, 0, 0, 0},
    {'c', 0, 0, 0, 0, 0, 0, 0},
    {'a', 0, 0, 0, 0, 0, 0, 0},
    {'a', 1, 0, 0, 0, 0, 0, 0},
    {'t', 0, 0, 0, 80, 0, 0, 0},
    {'c', 1, 0, 0, 0, 0, 0, 0},
    {'c', 2, 0, 0, 0, 0, 0, 0},
    {'c', 4, 0, 0, 0, 0, 0, 0},
};

enum { ROWS = sizeof day / sizeof day[0], DAY = 100 };

static uint8_t wire[SPLICER_MESSAGE + 16];

/* A message of the `size` bytes behind the header in `wire`. */
static void framed(struct call *c, uint32_t id, size_t size) {
    memset(wire, 0xFF, SPLICER_HEADER);
    wire[0] = 0;
    wire[1] = (uint8_t)id;
    wire[2] = (uint8_t)(size >> 8);
    wire[3] = (uint8_t)size;
    c->mark = 0x4D;
    c->length = SPLICER_HEADER + size;
}

static void splice(struct call *c, const struct row *r, uint32_t from) {
    uint8_t *to = wire + SPLICER_HEADER;
    to += put4(to, r->id);
    to += put4(to, r->prior);
    to += put4(to, r->prior == NONE ? from + r->start : 0);
    to += put4(to, 0);
    *to++ = 0;
    *to++ = 1; /* ServiceID */
    to += put4(to, r->ticks);
    to += put4(to, 1000 + r->id); /* SpliceEventID */
    to += put4(to, 0);
    *to++ = r->access;
    *to++ = r->overrides;
    *to++ = 1;
    framed(c, SPLICER_SPLICE_REQUEST, 33);
}

static void init(struct call *c, const struct row *r) {
    uint8_t *data = wire + SPLICER_HEADER;
    memset(data, 0, 70);
    data[1] = r->what == 'r' ? 3 : 2;
    memcpy(data + 2, r->what == 'm' ? "CH2" : "CH1", 3);
    memcpy(data + 34, "SERVER", 6);
    data[67] = 2; /* Length of the Hardware_Config */
    data[69] = (uint8_t)r->id;
    framed(c, SPLICER_INIT_REQUEST, r->what == 'h' ? 66 : 70);
}

static void message(struct call *c, const struct row *r, uint32_t from) {
    static const uint8_t primary[] = {2, 0xB0, 1}, insertion[SPLICER_MAP_SECTION + 1] = {2, 0xB1};
    memset(wire, 0, sizeof wire);
    put4(wire + SPLICER_HEADER, r->id);
    switch (r->what) {
    case 'i':
    case 'r':
    case 'm':
    case 'h':
        init(c, r);
        break;
    case 's':
        splice(c, r, from);
        break;
    case 'x':
        framed(c, SPLICER_ABORT_REQUEST, 4);
        break;
    case 'e':
        put4(wire + SPLICER_HEADER + 4, NONE);
        framed(c, SPLICER_EXTENDED_DATA_REQUEST, 8);
        break;
    case 'g':
    case 'l':
        framed(c, SPLICER_GET_CONFIG_REQUEST, 0);
        c->maps.primary = primary;
        c->maps.primary_length = sizeof primary;
        c->maps.insertion = insertion;
        c->maps.insertion_length = sizeof insertion - (r->what == 'g');
        break;
    case 'u':
        framed(c, 0x10, 5);
        break;
    case 'q':
        framed(c, SPLICER_GENERAL_RESPONSE, r->ticks);
        break;
    case 'v':
        framed(c, SPLICER_ALIVE_REQUEST, SPLICER_MESSAGE - SPLICER_HEADER + 1);
        c->length = SPLICER_HEADER;
        break;
    default:
        framed(c, SPLICER_ALIVE_REQUEST, r->what == 'd' ? 7 : 8);
        wire[SPLICER_HEADER + 8] = 0x4F; /* the bytes behind it could be taken for a call */
        wire[SPLICER_HEADER + 9] = 3;
        c->length += r->what == 'a' ? 2 : 0;
        c->length -= r->what == 'k' ? 1 : 0;
    }
}

static void play(const struct row *r, uint32_t from) {
    struct call c = {0x4F, r->conn, wire, 0, {wire, 0, wire, 0}, from + r->start, 0, LENT};
    switch (r->what) {
    case 'o':
        break;
    case 'c':
        c.mark = 0x43;
        break;
    case 't':
    case 'w':
    case 'y':
    case 'z':
        c.mark = 0x54;
        c.seconds -= r->what == 'w' ? 1 : 0;
        c.micros = r->what == 'y' ? 1000000 : 0;
        break;
    default:
        message(&c, r, from);
    }
    if (r->what == 'z' || r->what == 'b') {
        c.room = SPLICER_OUT - 1;
    }
    both(&c);
}

/* Both engines fresh. The second one by its call; or its log has a zero at its beginning and something else behind, which is no call. */
static void anew(int by_call) {
    static const uint8_t name[SPLICER_NAME] = "CH1";
    memset(log, 0x4F, sizeof log);
    memset(wanted, by_call ? 0 : 0x4F, SPLICER_LOG);
    log[0] = wanted[0] = 0;
    wanted[SPLICER_LOG] = 0x4F;
    taken = 0;
    kept = number = 0;
    if (splicer_call_fresh(&card, name).refused != SPLICER_GOOD) {
        differs("fresh of the card");
    }
    if ((by_call && splicer_recall_fresh(log, SPLICER_LOG).refused != SPLICER_GOOD) || memcmp(log, wanted, sizeof log) != 0) {
        differs("fresh");
    }
}

/* A message to connection 1 that gets no answer. */
static void quiet(uint32_t size) {
    const struct row r = {'q', 1, 0xEEEEEEEE, 0, 0, size, 0, 0};
    play(&r, 0);
}

/* Days, one behind the other, until the log is full, and one of which every call gets 13; with messages of `size` between, or none. */
static void days(uint32_t size) {
    int full = 0;
    for (uint32_t from = 1000; !full; from += DAY) {
        full = is_full();
        for (size_t i = 0; i < ROWS; i++) {
            play(&day[i], from);
            if (size != 0 && i % 8 == 7) {
                quiet(size);
            }
        }
    }
}

/* 2 + 14 * 4,098 + 10 + `last` bytes are taken, then comes the largest message, and an open. */
static void filled(uint32_t last) {
    anew(0);
    play(&day[1], 0);
    for (int i = 0; i < 14; i++) {
        quiet(SPLICER_MESSAGE - SPLICER_HEADER);
    }
    quiet(last);
    quiet(SPLICER_MESSAGE - SPLICER_HEADER);
    play(&day[0], 0);
}

/* A log of another length gets 13 from all five, and stays. */
static void another_length(size_t size) {
    static const uint8_t marks[] = {0x4F, 0x43, 0x4D, 0x54};
    struct call c = {0x4F, 0, wire, SPLICER_HEADER + 8, {wire, 0, wire, 0}, 1000, 0, LENT};
    number = 0;
    for (int i = 0; i < 2; i++) {
        memset(log, i == 0 ? 0 : 0x4F, sizeof log);
        memcpy(wanted, log, sizeof wanted);
        clean();
        refused_full(splicer_recall_fresh(log, size));
        for (size_t k = 0; k < sizeof marks; k++) {
            number++;
            c.mark = marks[k];
            refused_full(by_log(&c, size));
        }
    }
}

int main(int argc, char **argv) {
    (void)argv;
    untold = argc > 1 ? 13 : 0;
    anew(1);
    days(0);
    printf("alike until 13: %u calls\n", kept);
    anew(0);
    days(SPLICER_MESSAGE - SPLICER_HEADER);
    printf("alike until 13: %s\n", kept < MOST ? "under 4,098 bytes free" : "256 calls");
    filled(4054);
    printf("4,098 bytes free: %u free at the end\n", (unsigned)(SPLICER_LOG - taken));
    filled(4055);
    printf("4,097 bytes free: %u free at the end\n", (unsigned)(SPLICER_LOG - taken));
    another_length(0);
    another_length(SPLICER_LOG - 1);
    another_length(SPLICER_LOG + 1);
    printf("13: 0, 65,535 and 65,537 bytes\n");
    return 0;
}
