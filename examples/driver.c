/* A small driver: four connections whose bytes come in pieces, a clock, and the core's records sent or logged. It sleeps until something is
 * due, and its output follows the session on air. Every call is recorded.
 * Sockets are left out: `heard` stands for what was read, and a printed line for what would be sent.
 * driver [NAME [RECORDING]]: the channel's name, CH1 if it is not given, and the file that gets the recording. */
#include "splicer.h"
#include "splicer_record.h"
#include "splicer_text.h"

#if SPLICER_VERSION != 7
#error "written for version 7 of struct splicer"
#endif

#ifdef SPLICER_NO_STANDARD_HEADERS
/* the proof kit's compiler has none: what is called is declared */
int printf(const char *format, ...);
int creat(const char *path, unsigned mode);
long write(int file, const void *bytes, size_t n);
void *memcpy(void *to, const void *from, size_t n);
void *memmove(void *to, const void *from, size_t n);
#else
#include <fcntl.h>
#include <stdio.h>
#include <string.h>
#include <unistd.h>
#endif

/* What was read from a connection and not yet handled. Room for one message is enough: the core consumes each when it is whole. */
struct inbox {
    uint8_t bytes[SPLICER_MESSAGE];
    size_t length;
};

static struct splicer channel;
static struct inbox inboxes[SPLICER_CONNECTIONS];
static uint8_t out[SPLICER_OUT];

/* The recording's sink: a file, or none. A driver that must not wait keeps the bytes in a ring and writes them elsewhere. */
static int recording = -1;

static void keep(void *to, const uint8_t *bytes, size_t n) {
    int file = *(int *)to;
    if (file >= 0 && write(file, bytes, n) != (long)n) {
        printf("the recording is cut here\n");
        *(int *)to = -1;
    }
}

static const struct splicer_sink sink = {keep, &recording};

/* The fields of a record. */
static void fields(const struct splicer_record *r) {
    struct splicer_init_response named;
    struct splicer_alive_response alive;
    struct splicer_splice_complete complete;
    uint32_t session;
    if (splicer_read_init(r, &named)) {
        printf(", revision %u, name %s", named.revision, (const char *)named.name);
    } else if (splicer_read_alive(r, &alive)) {
        printf(", state %u, session %u, time %u s %u us", alive.state, alive.session, alive.seconds, alive.micros);
    } else if (splicer_read_complete(r, &complete)) {
        printf(", session %u, flag %u, played %u", complete.session, complete.flag, complete.played);
    } else if (splicer_read_session(r, &session)) {
        printf(", session %u", session);
    }
}

/* Hands on each record: to its connection (send), or after a close to the log. */
static void deliver(const char *how, size_t written) {
    struct splicer_record r;
    size_t at = 0;
    while (splicer_next_record(out, written, &at, &r)) {
        printf("  %s %u: %s %u", how, r.connection, splicer_message_text(r.message_id), r.result);
        fields(&r);
        printf("\n");
    }
    if (at != written) {
        printf("  unread output\n");
    }
}

static void report(const char *call, uint32_t of, struct splicer_reply reply) {
    if (reply.refused != SPLICER_GOOD) {
        printf("%s %u: refused %u, %s\n", call, of, reply.refused, splicer_refusal_text(reply.refused));
    } else {
        printf("%s %u: good\n", call, of);
    }
}

/* How many sessions of each connection wait: cheap at any time between two calls. */
static void counts(void) {
    struct splicer_waiting w = splicer_call_waiting(&channel);
    printf("waiting:");
    for (uint32_t conn = 0; conn < SPLICER_CONNECTIONS; conn++) {
        printf(" %u", (unsigned)w.count[conn]);
    }
    printf("\n");
}

/* The desk's page: the sessions that ended lately, the newest first. Cheap at any time between two calls. */
static void page(void) {
    struct splicer_row rows[SPLICER_ROWS];
    uint32_t refused = splicer_call_ended(&channel, rows, SPLICER_ROWS - 1);
    printf("page of fifteen: refused %u, %s\n", refused, splicer_refusal_text(refused));
    if (splicer_call_ended(&channel, rows, SPLICER_ROWS) == SPLICER_GOOD) {
        for (uint32_t i = 0; i < SPLICER_ROWS && rows[i].kept; i++) {
            printf("ended: connection %u, session %u, result %u, played %u\n", rows[i].connection, rows[i].session, rows[i].result,
                   rows[i].played);
        }
    }
}

/* The output follows the session on air, which is read after every call: a covered one that is on air again writes no record. With none all
 * of it is 0. */
static void switched(void) {
    static struct splicer_air shown;
    struct splicer_air now;
    int some = splicer_call_air(&channel, &now);
    if (now.connection == shown.connection && now.session == shown.session && now.start == shown.start) {
        return;
    }
    shown = now;
    if (some) {
        printf("  on air: connection %u, session %u, %u ms played\n", now.connection, now.session, (unsigned)(now.played / 9000));
    } else {
        printf("  on air: nobody\n");
    }
}

static void connected(uint32_t conn) {
    report("open", conn, splicer_recorded_open(&channel, &sink, conn));
}

/* The server has gone, or must go: what was half read is dropped, and the ends of its sessions are logged. */
static void dropped(uint32_t conn) {
    struct splicer_reply reply = splicer_recorded_close(&channel, &sink, conn, out, sizeof out);
    inboxes[conn].length = 0;
    report("close", conn, reply);
    deliver("log", reply.written);
    switched();
}

static void ticks(uint32_t seconds, uint32_t micros) {
    struct splicer_reply reply = splicer_recorded_tick(&channel, &sink, seconds, micros, out, sizeof out);
    report("tick", seconds, reply);
    deliver("send to", reply.written);
    switched();
}

/* Nothing will be read before a time: the driver sleeps till then, and wakes for what is due before it. On a card that is one wait for
 * bytes with a time limit; here the clock is only told. With 0 or 1 no tick would do anything. */
static void sleeps(uint32_t seconds, uint32_t micros) {
    struct splicer_due due;
    while (splicer_call_due(&channel, &due) == 2 && (due.seconds < seconds || (due.seconds == seconds && due.micros < micros))) {
        printf("asleep until %u s %u us\n", due.seconds, due.micros);
        ticks(due.seconds, due.micros);
    }
    ticks(seconds, micros);
}

/* Hands on each whole message of an inbox until more must be read (house number 5). 0 if what was read with them must be dropped too: at 4,
 * where no message boundary follows, the connection is given up. */
static int handled(uint32_t conn, struct inbox *box) {
    for (;;) {
        struct splicer_reply reply = splicer_recorded_message(&channel, &sink, conn, box->bytes, box->length, out, sizeof out);
        if (reply.refused == SPLICER_SHORT) {
            return 1;
        }
        report("message from", conn, reply);
        if (reply.refused == SPLICER_OVERSIZE) {
            dropped(conn);
            return 0;
        }
        if (reply.refused != SPLICER_GOOD) {
            box->length = 0;
            return 0;
        }
        if (reply.moved != 0) {
            printf("  places shifted: %u\n", reply.moved);
        }
        deliver("send to", reply.written);
        switched();
        box->length -= reply.consumed;
        memmove(box->bytes, box->bytes + reply.consumed, box->length);
    }
}

/* n bytes were read from a connection, any number: the inbox takes as many as it has room for at a time. After 5 it always has room, since
 * no message is longer than the inbox. */
static void heard(uint32_t conn, const uint8_t *bytes, size_t n) {
    struct inbox *box = &inboxes[conn];
    int more = 1;
    while (more && n > 0) {
        size_t room = sizeof box->bytes - box->length;
        size_t part = n < room ? n : room;
        memcpy(box->bytes + box->length, bytes, part);
        box->length += part;
        bytes += part;
        n -= part;
        more = handled(conn, box);
    }
}

/* What a server would send. */
static uint8_t *put(uint8_t *p, uint32_t value, int bytes) {
    for (int i = bytes - 1; i >= 0; i--) {
        *p++ = (uint8_t)(value >> (8 * i));
    }
    return p;
}

static uint8_t *header(uint8_t *p, uint32_t id, uint32_t size) {
    return put(put(put(p, id, 2), size, 2), 0xFFFFFFFF, 4);
}

static uint8_t *init(uint8_t *p, const char *name) {
    p = put(header(p, SPLICER_INIT_REQUEST, 76), 2, 2);
    for (int i = 0; i < SPLICER_NAME; i++) {
        p[i] = (uint8_t)*name;
        p[SPLICER_NAME + i] = 0;
        name += *name != 0;
    }
    /* Hardware_Config: Length 8, Chassis 1, Card 1, Port 1, Logical_Multiplex_Type 0 */
    return put(put(put(p + 2 * SPLICER_NAME, 0x00080001, 4), 0x00010001, 4), 0, 2);
}

static uint8_t *splice(uint8_t *p, uint32_t session, uint32_t prior, uint32_t seconds, uint32_t duration, uint32_t access,
                       uint32_t override) {
    p = put(put(header(p, SPLICER_SPLICE_REQUEST, 33), session, 4), prior, 4);
    p = put(put(put(p, seconds, 4), 0, 4), 1, 2);
    p = put(put(put(p, duration, 4), 0xFFFFFFFF, 4), 0, 4);
    return put(put(put(p, access, 1), override, 1), 1, 1);
}

static uint8_t *alive(uint8_t *p) {
    return put(put(header(p, SPLICER_ALIVE_REQUEST, 8), 0, 4), 0, 4);
}

static uint8_t *abort_request(uint8_t *p, uint32_t session) {
    return put(header(p, SPLICER_ABORT_REQUEST, 4), session, 4);
}

/* A name in a field of its own, zeros behind its end; of one that is too long the last byte is a zero too. */
static void configured(uint8_t *field, const char *name) {
    for (int i = 0; i < SPLICER_NAME; i++) {
        field[i] = i < SPLICER_NAME - 1 ? (uint8_t)*name : 0;
        name += *name != 0;
    }
}

/* Two servers connect and initialise, one with the wrong name first; and calls that are refused. */
static void beginning(const char *name) {
    uint8_t wire[256], *end;
    connected(0);
    connected(1);
    connected(0);
    connected(4);
    /* empty buffers, as some languages hand them over: a null pointer and length 0 */
    report("message from", 0, splicer_call_message(&channel, 0, 0, 0, out, sizeof out));
    report("tick", 1, splicer_call_tick(&channel, 1, 0, 0, 0));
    end = alive(wire);
    heard(0, wire, (size_t)(end - wire));
    end = init(wire, name);
    heard(0, wire, (size_t)(end - wire));
    end = init(wire, "CH2");
    heard(1, wire, (size_t)(end - wire));
    end = init(wire, name);
    heard(1, wire, (size_t)(end - wire));
    ticks(1000, 0);
}

/* An avail of both servers: two linked spots, one of them covered for a while. */
static void avail(void) {
    uint8_t wire[256], *end;
    const uint32_t timed = 0xFFFFFFFF;
    /* two linked spots in one read, the second cut in the middle: 1 from 1,010 s for 30 s, 2 behind it for 10 s */
    end = splice(splice(wire, 1, timed, 1010, 2700000, 1, 0), 2, 1, 0, 900000, 1, 0);
    heard(0, wire, 50);
    printf("the rest of the message\n");
    heard(0, wire + 50, (size_t)(end - wire) - 50);
    /* a higher AccessType of another server over the first: 7 from 1,020 s for 10 s */
    end = splice(wire, 7, timed, 1020, 900000, 2, 1);
    heard(1, wire, (size_t)(end - wire));
    counts();
    sleeps(1010, 0);
    /* busy elsewhere for 5 s too long: a late tick does all that was due, each at its instant */
    ticks(1025, 0);
    ticks(1024, 999999);
    end = alive(wire);
    heard(0, wire, (size_t)(end - wire));
    end = abort_request(wire, 7);
    heard(1, wire, (size_t)(end - wire));
    counts();
    sleeps(1043, 0);
}

/* What goes wrong: a connection is lost, a read is longer than the inbox, a header is wrong. */
static void trouble(void) {
    static uint8_t longest[2 * SPLICER_MESSAGE];
    uint8_t wire[SPLICER_HEADER], *end;
    /* the first server is gone while its second spot is on air */
    dropped(0);
    counts();
    dropped(0);
    /* a read of 8,192 bytes: two messages of the longest kind, which nobody answers */
    header(longest, SPLICER_GENERAL_RESPONSE, SPLICER_MESSAGE - SPLICER_HEADER);
    header(longest + SPLICER_MESSAGE, SPLICER_GENERAL_RESPONSE, SPLICER_MESSAGE - SPLICER_HEADER);
    heard(1, longest, sizeof longest);
    /* a header that announces more than a message may hold */
    end = header(wire, SPLICER_ALIVE_REQUEST, 4089);
    heard(1, wire, (size_t)(end - wire));
    sleeps(1050, 0);
}

int main(int words, char **word) {
    const char *name = words > 1 ? word[1] : "CH1";
    uint8_t field[SPLICER_NAME];
    configured(field, name);
    if (words > 2 && (recording = creat(word[2], 0644)) < 0) {
        printf("%s cannot be written\n", word[2]);
        return 2;
    }
    report("fresh", 1, splicer_call_fresh(&channel, field));
    beginning(name);
    page();
    avail();
    trouble();
    page();
    return 0;
}
