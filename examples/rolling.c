/* A driver of the card with a rolling counter: its 90 kHz counter is near its rollover when the UTC instant is given, a spot starts before
 * the rollover and ends after it, and the readings that are refused. Sockets are left out: a printed line stands for what would be sent. */
#include "splicer.h"
#include "splicer_text.h"

#ifdef SPLICER_NO_STANDARD_HEADERS
/* the proof kit's compiler has none: what is called is declared */
int printf(const char *format, ...);
#else
#include <stdio.h>
#endif

enum {
    TICKS = 90000 /* of a second */
};

static struct splicer_rolling card;
static uint8_t out[SPLICER_OUT];

/* The counter, as the hardware would have it: 32 bits, so it rolls over by itself. */
static uint32_t counter;

static void deliver(size_t written) {
    struct splicer_record r;
    struct splicer_alive_response alive;
    struct splicer_splice_complete complete;
    struct splicer_extended_data ended;
    size_t at = 0;
    while (splicer_next_record(out, written, &at, &r)) {
        printf("  send to %u: %s %u", r.connection, splicer_message_text(r.message_id), r.result);
        if (splicer_read_alive(&r, &alive)) {
            printf(", state %u, time %u s %u us", alive.state, alive.seconds, alive.micros);
        } else if (splicer_read_complete(&r, &complete)) {
            printf(", session %u, flag %u, played %u", complete.session, complete.flag, complete.played);
        } else if (splicer_read_extended(&r, &ended) && ended.found) {
            printf(", session %u, event %u, result %u, played %u", ended.session, ended.event, ended.result, ended.played);
        }
        printf("\n");
    }
    if (at != written) {
        printf("  unread output\n");
    }
}

static void report(const char *call, struct splicer_reply reply) {
    if (reply.refused != SPLICER_GOOD) {
        printf("%s: refused %u, %s\n", call, reply.refused, splicer_refusal_text(reply.refused));
    } else {
        printf("%s: good\n", call);
    }
    deliver(reply.written);
}

/* The counter is read: when something is due, or once a frame. */
static void reads(void) {
    printf("at %u: ", counter);
    report("reading", splicer_call_reading(&card, counter, out, sizeof out));
}

/* The card sleeps until something is due, so many ticks after the last good reading, which is where the counter stands here; with nothing
 * due it is read by then. */
static void sleeps(void) {
    uint32_t ticks;
    int due = splicer_call_rolling_due(&card, &ticks);
    printf("asleep for %u ticks%s\n", ticks, due ? "" : ", nothing is due");
    counter += ticks;
}

/* What a server would send. */
static uint8_t *put(uint8_t *p, uint32_t value, int bytes) {
    for (int i = bytes - 1; i >= 0; i--) {
        *p++ = (uint8_t)(value >> (8 * i));
    }
    return p;
}

static uint8_t *header(uint8_t *p, uint32_t id, uint32_t size) {
    return put(put(put(p, id, 2), size, 2), 0xFFFFFFFF, 4);
}

static void heard(const char *what, const uint8_t *wire, const uint8_t *end) {
    report(what, splicer_call_message(&card.core, 0, wire, (size_t)(end - wire), out, sizeof out));
}

static void init(void) {
    uint8_t wire[SPLICER_HEADER + 76], *p = put(header(wire, SPLICER_INIT_REQUEST, 76), 2, 2);
    for (int i = 0; i < 2 * SPLICER_NAME; i++) {
        p[i] = i < 3 ? (uint8_t) "CH1"[i] : 0;
    }
    /* Hardware_Config: Length 8, Chassis 1, Card 1, Port 1, Logical_Multiplex_Type 0 */
    heard("Init_Request", wire, put(put(put(p + 2 * SPLICER_NAME, 0x00080001, 4), 0x00010001, 4), 0, 2));
}

/* A timed spot of AccessType 1. */
static void splice(uint32_t session, uint32_t seconds, uint32_t duration) {
    uint8_t wire[SPLICER_HEADER + 33], *p = put(put(header(wire, SPLICER_SPLICE_REQUEST, 33), session, 4), 0xFFFFFFFF, 4);
    p = put(put(put(p, seconds, 4), 0, 4), 1, 2);
    p = put(put(put(p, duration, 4), 4711, 4), 0, 4);
    heard("Splice_Request", wire, put(put(put(p, 1, 1), 0, 1), 1, 1));
}

static void alive(void) {
    uint8_t wire[SPLICER_HEADER + 8], *p = header(wire, SPLICER_ALIVE_REQUEST, 8);
    heard("Alive_Request", wire, put(put(p, 0, 4), 0, 4));
}

/* What ended of a session, asked by its server. */
static void extended(uint32_t session) {
    uint8_t wire[SPLICER_HEADER + 8], *p = header(wire, SPLICER_EXTENDED_DATA_REQUEST, 8);
    heard("ExtendedData_Request", wire, put(put(p, session, 4), 0xFFFFFFFF, 4));
}

/* The desk's page, from the newest down. */
static void page(void) {
    struct splicer_row rows[SPLICER_ROWS];
    if (splicer_call_ended(&card.core, rows, SPLICER_ROWS) == SPLICER_GOOD) {
        for (uint32_t i = 0; i < SPLICER_ROWS && rows[i].kept; i++) {
            printf("ended: connection %u, session %u, event %u, result %u, played %u\n", rows[i].connection, rows[i].session, rows[i].event,
                   rows[i].result, rows[i].played);
        }
    }
}

int main(void) {
    static const uint8_t name[SPLICER_NAME] = "CH1";
    counter = 0U - 10 * TICKS; /* 10 s before the rollover */
    report("fresh", splicer_call_rolling_fresh(&card, name));
    report("open", splicer_call_open(&card.core, 0));
    init();
    /* a reading before the instant, then the instant, once */
    reads();
    report("instant", splicer_call_instant(&card, 1000, 0, counter, out, sizeof out));
    report("instant", splicer_call_instant(&card, 1000, 0, counter, out, sizeof out));
    /* a spot from 1,005 s for 8 s, over the rollover at 1,010 s */
    splice(1, 1005, 8 * TICKS);
    sleeps();
    reads();
    counter += 5 * TICKS - 1;
    reads();
    alive();
    counter += 1;
    reads();
    alive();
    sleeps();
    extended(1);
    reads();
    extended(1);
    page();
    /* not read for 90 s and a tick: refused, and no base for the next; 90 s are good */
    counter += 90 * TICKS + 1;
    reads();
    counter -= 1;
    reads();
    alive();
    return 0;
}
