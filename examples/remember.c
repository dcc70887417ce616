/* The engine that only remembers, for a bench: its whole state is a log that the driver lends, the good calls one
 * behind the other in the card program's marks. So a log is a recording of calls: the card is fed with it here and answers alike, and a
 * call is taken back by a zero over its mark. A printed line stands for what would be sent. */
#include "splicer.h"
#include "splicer_bench.h"
#include "splicer_text.h"

#ifdef SPLICER_NO_STANDARD_HEADERS
/* the proof kit's compiler has none: what is called is declared */
int printf(const char *format, ...);
#else
#include <stdio.h>
#endif

static uint8_t log[SPLICER_LOG];
static struct splicer card;
static uint8_t out[SPLICER_OUT];

static void deliver(size_t written) {
    struct splicer_record r;
    struct splicer_alive_response alive;
    struct splicer_splice_complete complete;
    uint32_t session;
    size_t at = 0;
    while (splicer_next_record(out, written, &at, &r)) {
        printf("  send to %u: %s %u", r.connection, splicer_message_text(r.message_id), r.result);
        if (splicer_read_alive(&r, &alive)) {
            printf(", %s, session %u, time %u s", splicer_state_text(alive.state), alive.session, alive.seconds);
        } else if (splicer_read_complete(&r, &complete)) {
            printf(", session %u, flag %u, played %u", complete.session, complete.flag, complete.played);
        } else if (splicer_read_session(&r, &session)) {
            printf(", session %u", session);
        }
        printf("\n");
    }
}

/* Says what came of a call. 13 is told apart from the card's numbers: the log is full, or not one. */
static void report(const char *call, struct splicer_reply reply) {
    if (reply.refused == SPLICER_LOG_FULL) {
        printf("%s: refused %u by this engine alone, %s\n", call, reply.refused, splicer_refusal_text(reply.refused));
    } else if (reply.refused != SPLICER_GOOD) {
        printf("%s: refused %u, %s\n", call, reply.refused, splicer_refusal_text(reply.refused));
    } else {
        printf("%s: good\n", call);
    }
    deliver(reply.written);
}

/* No section of the feeds is lent: a GetConfig_Request would get none. */
static void message(const char *call, const uint8_t *wire, size_t length) {
    report(call, splicer_recall_message(log, sizeof log, 0, wire, length, 0, 0, 0, 0, out, sizeof out));
}

static void tick(const char *call, uint32_t seconds) {
    report(call, splicer_recall_tick(log, sizeof log, seconds, 0, out, sizeof out));
}

/* The bytes of the call at `at`, or 0 if none begins there. The card program stops at the same place. */
static size_t call_at(size_t at) {
    size_t left = sizeof log - at, span = 0;
    if (left >= 2 && (log[at] == 0x4F || log[at] == 0x43)) {
        span = 2;
    } else if (left >= 10 && log[at] == 0x54) {
        span = 10;
    } else if (left >= 10 && log[at] == 0x4D && splicer_u16(log + at + 4) <= SPLICER_MESSAGE - SPLICER_HEADER) {
        span = 10 + (size_t)splicer_u16(log + at + 4);
    }
    return span <= left ? span : 0;
}

/* The calls in the log, and where the last one begins. */
static size_t kept(void) {
    size_t at = 0, last = 0, span;
    unsigned calls = 0;
    while ((span = call_at(at)) > 0) {
        last = at;
        at += span;
        calls++;
    }
    printf("the log: %u calls, %u bytes, the last one begins with %02X\n", calls, (unsigned)at, log[last]);
    return last;
}

/* The card, from fresh through all calls of the log. Its records were written before, by the other engine. */
static void feed_card(void) {
    static const uint8_t name[SPLICER_NAME] = "CH1";
    size_t span;
    splicer_call_fresh(&card, name);
    for (size_t at = 0; (span = call_at(at)) > 0; at += span) {
        const uint8_t *p = log + at;
        if (p[0] == 0x4F) {
            splicer_call_open(&card, p[1]);
        } else if (p[0] == 0x43) {
            splicer_call_close(&card, p[1], out, sizeof out);
        } else if (p[0] == 0x54) {
            splicer_call_tick(&card, splicer_u32(p + 2), splicer_u32(p + 6), out, sizeof out);
        } else {
            splicer_call_message(&card, p[1], p + 2, span - 2, out, sizeof out);
        }
    }
}

int main(void) {
    /* a Hardware_Config of Length 0 behind the two names */
    static const uint8_t init[SPLICER_HEADER + 68] = {0, SPLICER_INIT_REQUEST, 0, 68, 0xFF, 0xFF, 0xFF, 0xFF, 0, 2, 'C', 'H', '1'};
    static const uint8_t alive[SPLICER_HEADER + 8] = {0, SPLICER_ALIVE_REQUEST, 0, 8, 0xFF, 0xFF, 0xFF, 0xFF};
    /* session 7: at 1,003 s (0x3EB) for 180,000 ticks (0x2BF20), 2 s */
    static const uint8_t splice[SPLICER_HEADER + 33] = {0, SPLICER_SPLICE_REQUEST, 0, 33, 0xFF, 0xFF, 0xFF, 0xFF, 0, 0, 0, 7, 0xFF, 0xFF,
                                                        0xFF, 0xFF, 0, 0, 3, 0xEB, 0, 0, 0, 0, 0, 1, 0, 2, 0xBF, 0x20, 0xFF, 0xFF, 0xFF,
                                                        0xFF, 0, 0, 0, 0, 5, 0, 1};
    size_t last;
    report("fresh", splicer_recall_fresh(log, sizeof log));
    report("open", splicer_recall_open(log, sizeof log, 0));
    message("Init_Request", init, sizeof init);
    tick("tick 1000 s", 1000);
    message("Splice_Request", splice, sizeof splice);
    report("open again", splicer_recall_open(log, sizeof log, 0)); /* refused, so not kept */
    tick("tick 1004 s", 1004);
    last = kept();
    feed_card();
    report("Alive_Request to the card, fed with the log", splicer_call_message(&card, 0, alive, sizeof alive, out, sizeof out));
    message("Alive_Request to the log itself", alive, sizeof alive);
    log[last] = 0;
    printf("the last tick is taken back, and all that came after it\n");
    kept();
    tick("tick 1006 s instead", 1006);
    report("open with half a log", splicer_recall_open(log, sizeof log / 2, 1));
    report("fresh with half a log", splicer_recall_fresh(log, sizeof log / 2));
    report("fresh", splicer_recall_fresh(log, sizeof log));
    tick("tick 999 s", 999);
    return 0;
}
