/* Cues from the feed: the sections that a driver collects from the PID of stream_type 0x86, each handed to the core
 * with a PTS of the feed's time base and the UTC instant that belongs to it. Connections 0 and 2 are initialised, 1 is open only. Sockets
 * are left out: a printed line stands for what would be sent. The two sections are those of docs/SCTE35.md. */
#include "splicer.h"
#include "splicer_text.h"

#ifdef SPLICER_NO_STANDARD_HEADERS
/* the proof kit's compiler has none: what is called is declared */
int printf(const char *format, ...);
#else
#include <stdio.h>
#endif

static struct splicer channel;
static uint8_t out[SPLICER_OUT];

/* splice_insert with pts_time 3,582,534,591 */
static const uint8_t insert[] = {0xFC, 0x30, 0x20, 0x00, 0x00, 0x00, 0x00, 0x00, 0x00, 0x00, 0xFF, 0xF0, 0x0F, 0x05, 0x00, 0x02, 0x8C, 0xE8,
                                 0x7F, 0xCF, 0xFE, 0xD5, 0x89, 0x23, 0xBF, 0x55, 0x66, 0x00, 0x00, 0x00, 0x00, 0x1D, 0x80, 0xD8, 0x5D};

/* time_signal whose PTS, with its pts_adjustment, is 591,751,065 */
static const uint8_t signal[] = {0xFC, 0x30, 0x16, 0x00, 0x01, 0x00, 0x00, 0x00, 0x10, 0x00, 0xFF, 0xF0, 0x05,
                                 0x06, 0xFF, 0x23, 0x45, 0x67, 0x89, 0x00, 0x00, 0x71, 0x3B, 0x22, 0xBD};

/* bandwidth_reservation: no cue */
static const uint8_t reservation[] = {0xFC, 0x30, 0x11, 0x00, 0x00, 0x00, 0x00, 0x00, 0x00, 0x00,
                                      0xFF, 0xF0, 0x00, 0xFF, 0x00, 0x00, 0xCD, 0x63, 0xA6, 0x82};

static void deliver(size_t written) {
    struct splicer_record r;
    struct splicer_cue_request cue;
    size_t at = 0;
    while (splicer_next_record(out, written, &at, &r)) {
        printf("  send to %u: %s %u", r.connection, splicer_message_text(r.message_id), r.result);
        if (splicer_read_cue(&r, &cue)) {
            if (cue.micros == 0xFFFFFFFF) {
                printf(", no time, %u bytes", (uint32_t)cue.length);
            } else {
                printf(", time %u s %u us, %u bytes", cue.seconds, cue.micros, (uint32_t)cue.length);
            }
        }
        printf("\n");
    }
    if (at != written) {
        printf("  unread output\n");
    }
}

static void report(const char *call, struct splicer_reply reply) {
    if (reply.refused != SPLICER_GOOD) {
        printf("%s: refused %u, %s\n", call, reply.refused, splicer_refusal_text(reply.refused));
    } else {
        printf("%s: good\n", call);
    }
    deliver(reply.written);
}

/* A whole section of the feed. The PTS is never later than a cue that is still expected: the driver takes that of the last frame. */
static void section(const char *what, const uint8_t *bytes, size_t length, uint64_t pts, uint32_t seconds, uint32_t micros) {
    report(what, splicer_call_cue(&channel, bytes, length, pts, seconds, micros, out, sizeof out));
}

static void init(uint32_t conn) {
    /* a Hardware_Config of Length 0 behind the two names */
    uint8_t wire[SPLICER_HEADER + 68] = {0, SPLICER_INIT_REQUEST, 0, 68, 0xFF, 0xFF, 0xFF, 0xFF, 0, 2, 'C', 'H', '1'};
    report("Init_Request", splicer_call_message(&channel, conn, wire, sizeof wire, out, sizeof out));
}

int main(void) {
    static const uint8_t name[SPLICER_NAME] = "CH1";
    uint8_t wrong[sizeof signal];
    report("fresh", splicer_call_fresh(&channel, name));
    section("time_signal before anybody is there", signal, sizeof signal, 591651064, 1000, 0);
    for (uint32_t conn = 0; conn < 3; conn++) {
        report("open", splicer_call_open(&channel, conn));
    }
    init(0);
    init(2);
    section("time_signal", signal, sizeof signal, 591651064, 1000, 0);
    section("time_signal, its own PTS", signal, sizeof signal, 591751065, 1000, 999999);
    section("time_signal, a PTS one tick too late", signal, sizeof signal, 591751066, 1000, 0);
    section("splice_insert", insert, sizeof insert, 3582444591, 2000, 500000);
    section("splice_insert past the last second", insert, sizeof insert, 0, 0xFFFFFFFF, 0);
    section("bandwidth_reservation", reservation, sizeof reservation, 0, 1000, 0);
    for (size_t i = 0; i < sizeof signal; i++) {
        wrong[i] = signal[i];
    }
    wrong[18] ^= 1;
    section("time_signal with a wrong bit", wrong, sizeof wrong, 591651064, 1000, 0);
    section("a section cut short", signal, sizeof signal - 1, 591651064, 1000, 0);
    section("MicroSeconds above 999,999", signal, sizeof signal - 1, 591651064, 1000, 1000000);
    return 0;
}
