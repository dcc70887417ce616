/* The states that are measured, each made by calls that all engines take, and the call that is measured on it.
 *
 * All start at 1,000 s with the four connections initialised. So that the waiting sessions favour no engine, they are accepted in a mixed
 * order (every 11th place, round and round), and along their starts connections 0 to 3, AccessTypes 0 to 9 and OverridePlaying 0 and 1 take
 * turns; a new request falls in the middle of them, or, where the case says so, in front of or behind them. An engine that keeps them by
 * start, by arrival or by connection has none of them where it would be cheapest. */
#include "engines.h"

int strcmp(const char *a, const char *b);

enum { TIMED = 0xFFFFFFFF, SECOND = 90000 };

static uint8_t *put(uint8_t *p, uint32_t value, int bytes) {
    for (int i = bytes - 1; i >= 0; i--) {
        *p++ = (uint8_t)(value >> (8 * i));
    }
    return p;
}

static struct call plain(enum kind kind, uint32_t conn, uint32_t seconds) {
    return (struct call){kind, conn, seconds, 0, 0, GOOD_ROOM, {0}};
}

static struct call message(uint32_t conn, uint32_t id, uint32_t size) {
    struct call c = plain(MESSAGE, conn, 0);
    c.length = 8 + size;
    put(put(put(c.in, id, 2), size, 2), 0xFFFFFFFF, 4);
    return c;
}

static struct call fresh(void) {
    struct call c = plain(FRESH, 0, 0);
    memcpy(c.in, "CH1", 4);
    return c;
}

static struct call init(uint32_t conn) {
    struct call c = message(conn, SPLICER_INIT_REQUEST, 76);
    memcpy(c.in + 8, "\0\2CH1", 5);
    /* Hardware_Config: Length 8, Chassis 1, Card 1, Port 1, Logical_Multiplex_Type 0 */
    memcpy(c.in + 74, "\0\10\0\1\0\1\0\1\0", 10);
    return c;
}

static struct call aborting(uint32_t conn, uint32_t session) {
    struct call c = message(conn, SPLICER_ABORT_REQUEST, 4);
    put(c.in + 8, session, 4);
    return c;
}

static struct call splice(uint32_t conn, uint32_t session, uint32_t prior, uint32_t seconds, uint32_t ticks) {
    struct call c = message(conn, SPLICER_SPLICE_REQUEST, 33);
    uint8_t *p = put(put(c.in + 8, session, 4), prior, 4);
    p = put(put(put(p, seconds, 4), 0, 4), 1, 2);
    p = put(put(put(p, ticks, 4), 0xFFFFFFFF, 4), 0, 4);
    put(put(put(p, 1, 1), 0, 1), 1, 1);
    return c;
}

static struct call ranked(struct call c, uint32_t access, uint32_t over) {
    c.in[38] = (uint8_t)access;
    c.in[39] = (uint8_t)over;
    return c;
}

static void run(struct call c) {
    wrong |= all(&c).refused != 0;
}

/* a request that must get 100 and nothing else */
static void accepted(struct call c) {
    struct splicer_reply r = all(&c);
    wrong |= r.refused != 0 || r.written != 14 || splicer_u16(outs[CORE] + 6) != SPLICER_SUCCESSFUL;
}

static struct call tick(uint32_t seconds) { return plain(TICK, 0, seconds); }

/* n timed sessions of 5 s, 10 s apart from 1,010 s on */
static void waiting(uint32_t n) {
    for (uint32_t i = 0; i < n; i++) {
        uint32_t k = 11 * i % n;
        accepted(ranked(splice(k % 4, k, TIMED, 1010 + 10 * k, 5 * SECOND), k % 10, k % 2));
    }
}

/* n sessions of 10 s, linked to one another; the first timed at `seconds`, or linked to `prior` */
static void chain(uint32_t conn, uint32_t first, uint32_t n, uint32_t prior, uint32_t seconds) {
    for (uint32_t i = 0; i < n; i++) {
        accepted(splice(conn, first + i, i ? first + i - 1 : prior, seconds, 10 * SECOND));
    }
}

/* session 1000 from 1,003 s on; the clock goes to 1,004 s */
static void on_air(uint32_t conn, uint32_t ticks) {
    accepted(splice(conn, 1000, TIMED, 1003, ticks));
    run(tick(1004));
}

/* n started, AccessTypes 0 and up, all but the last covered; the last plays `ticks`, the others 4,000 s */
static void stacked(uint32_t n, uint32_t ticks) {
    for (uint32_t a = 0; a < n; a++) {
        accepted(ranked(splice(a % 4, 2000 + a, TIMED, 1003 + a, a + 1 < n ? 4000 * SECOND : ticks), a, 1));
    }
    run(tick(1003 + n));
}

/* ten started, nine of them covered; then chains of 20, 20, 14 and `last` wait */
static void full(uint32_t last) {
    static const uint32_t counts[3] = {20, 20, 14};
    stacked(10, 4000 * SECOND);
    for (uint32_t c = 0; c < 4; c++) {
        chain(c, 100 * c, c < 3 ? counts[c] : last, TIMED, 1020 + c);
    }
}

static struct call case_idle(uint32_t n) {
    waiting(n);
    return tick(1001);
}

/* nothing due, 1000 on air */
static struct call case_airidle(uint32_t n) {
    on_air(0, 1000 * SECOND);
    waiting(n);
    return tick(1005);
}

/* nothing on air; of the n that wait the first starts at 1,010 s */
static struct call case_start(uint32_t n) {
    waiting(n);
    return tick(1011);
}

/* 1000 is on air and ends at 1,008 s, before the first start */
static struct call case_end(uint32_t n) {
    on_air(0, 5 * SECOND);
    waiting(n);
    return tick(1009);
}

/* nothing due, n started; and the one on air of them ends */
static struct call case_deepidle(uint32_t n) {
    stacked(n, 4000 * SECOND);
    return tick(1100);
}

static struct call case_deepend(uint32_t n) {
    stacked(n, 60 * SECOND);
    return tick(1100);
}

/* 1000 is on air and ends at 1,008 s; of the n that wait the first starts at 1,010 s */
static struct call case_busy(uint32_t n) {
    on_air(0, 5 * SECOND);
    waiting(n);
    return tick(1011);
}

/* the four counts, with n in all */
static struct call case_read(uint32_t n) {
    waiting(n);
    wrong |= counts[CORE][0] + counts[CORE][1] + counts[CORE][2] + counts[CORE][3] != n;
    return plain(WAITING, 0, 0);
}

static struct call case_splice(uint32_t n) {
    waiting(n);
    return ranked(splice(3, 1000, TIMED, 1015 + 10 * (n / 2), SECOND), 5, 0);
}

static struct call case_front(uint32_t n) {
    waiting(n);
    return ranked(splice(3, 1000, TIMED, 1005, SECOND), 5, 0);
}

static struct call case_behind(uint32_t n) {
    waiting(n);
    return ranked(splice(3, 1000, TIMED, 1015 + 10 * n, SECOND), 5, 0);
}

/* separate PIDs in the request (02, CR 1): n plain structures; nothing waits */
static struct call case_pids(uint32_t n) {
    struct call c = ranked(splice(3, 1000, TIMED, 1015, SECOND), 5, 0);
    uint8_t tail[15];
    memcpy(tail, c.in + 26, sizeof tail);
    uint8_t *p = put(put(put(c.in + 24, 0xFFFF, 2), 0x31, 2), n, 4);
    for (uint32_t i = 0; i < n; i++) {
        p = put(put(put(p, 21, 1), 0x100 + i, 2), 2, 2);
        p = put(put(put(p, 4000000, 4), 6000000, 4), 0xFFFFFFFF, 4);
        p = put(put(p, 720, 2), 480, 2);
    }
    memcpy(p, tail, sizeof tail);
    c.length = 8 + 18 + 6 + 21 * n + sizeof tail;
    put(c.in + 2, (uint32_t)c.length - 8, 2);
    return c;
}

static struct call case_abort(uint32_t n) {
    chain(0, 0, n + 1, TIMED, 1010);
    return aborting(0, 0);
}

static struct call case_close(uint32_t n) {
    on_air(0, 1000 * SECOND);
    for (uint32_t i = 0; i < n; i++) {
        uint32_t k = 11 * i % n;
        accepted(ranked(splice(0, k, TIMED, 1010 + 10 * k, 5 * SECOND), k % 10, k % 2));
    }
    return plain(CLOSE, 0, 0);
}

static struct call case_init(uint32_t n) { return init(n); }
static struct call case_alive(uint32_t n) { return message(n, SPLICER_ALIVE_REQUEST, 8); }
static struct call case_fresh(uint32_t n) { return n ? plain(NOTHING, 0, 0) : fresh(); }

static struct call case_open(uint32_t n) {
    run(plain(CLOSE, n, 0));
    return plain(OPEN, n, 0);
}

/* deep ones: the session on air aborted, n followers */
static struct call case_air(uint32_t n) {
    on_air(0, 100 * SECOND);
    chain(0, 0, n, 1000, 0);
    return aborting(0, 1000);
}

/* a start that fails, n followers */
static struct call case_fail(uint32_t n) {
    on_air(1, 1000 * SECOND);
    chain(0, 0, n + 1, TIMED, 1010);
    return tick(1011);
}

/* a start with the flag over an equal one on air, which ends at once, with n followers */
static struct call case_equal(uint32_t n) {
    on_air(1, 1000 * SECOND);
    chain(1, 0, n, 1000, 0);
    accepted(ranked(splice(0, 1001, TIMED, 1010, 5 * SECOND), 1, 1));
    return tick(1011);
}

/* the first of the n that wait fails, since 1000 is on air; it has no follower */
static struct call case_clash(uint32_t n) {
    on_air(0, 1000 * SECOND);
    waiting(n);
    return tick(1011);
}

/* a start that fails and its 19 followers, and among them, by start and by arrival, 44 of the other connections: 64 wait */
static struct call case_amid(uint32_t n) {
    on_air(1, 1000 * SECOND);
    for (uint32_t i = 0; i < n; i++) {
        uint32_t k = 13 * i % n;
        if (i % 2 == 0 && i / 2 < 20) {
            accepted(splice(0, 100 + i / 2, i ? 99 + i / 2 : TIMED, 1010, 10 * SECOND));
        }
        accepted(ranked(splice(1 + k % 3, k, TIMED, 1015 + 10 * k, 5 * SECOND), k % 10, k % 2));
    }
    return tick(1011);
}

/* a request that evicts one with n followers */
static struct call case_evict(uint32_t n) {
    chain(0, 0, n + 1, TIMED, 1010);
    return ranked(splice(1, 1000, TIMED, 1010, SECOND), 2, 0);
}

/* n sessions start and end in one tick */
static struct call case_play(uint32_t n) {
    waiting(n);
    return tick(5000);
}

static struct call case_fulltick(uint32_t n) {
    full(n);
    return tick(100000);
}

static struct call case_fullclose(uint32_t n) {
    full(n);
    return plain(CLOSE, 0, 0);
}

static struct call case_fullabort(uint32_t n) {
    full(n);
    return aborting(0, 0);
}

static struct call case_fullevict(uint32_t n) {
    full(n);
    return ranked(splice(3, 5000, TIMED, 1020, SECOND), 2, 0);
}

static const struct {
    const char *name;
    struct call (*prepare)(uint32_t n);
} cases[] = {{"idle", case_idle},         {"busy", case_busy},           {"splice", case_splice},       {"abort", case_abort},
             {"close", case_close},       {"init", case_init},           {"alive", case_alive},         {"fresh", case_fresh},
             {"open", case_open},         {"air", case_air},             {"fail", case_fail},           {"evict", case_evict},
             {"play", case_play},         {"fulltick", case_fulltick},   {"fullclose", case_fullclose}, {"fullabort", case_fullabort},
             {"fullevict", case_fullevict}, {"airidle", case_airidle},   {"start", case_start},         {"end", case_end},
             {"front", case_front},       {"behind", case_behind},       {"clash", case_clash},         {"amid", case_amid},
             {"deepidle", case_deepidle}, {"deepend", case_deepend},     {"read", case_read},
             {"equal", case_equal},       {"pids", case_pids}};

/* the state of a case, and its call */
static struct call prepared(const char *name, uint32_t n) {
    run(fresh());
    for (uint32_t c = 0; c < 4; c++) {
        run(plain(OPEN, c, 0));
        run(init(c));
    }
    run(tick(1000));
    for (size_t i = 0; i < sizeof cases / sizeof *cases; i++) {
        if (strcmp(name, cases[i].name) == 0) {
            return cases[i].prepare(n);
        }
    }
    wrong = 1;
    return plain(NOTHING, 0, 0);
}
