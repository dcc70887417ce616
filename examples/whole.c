/* A driver that records all it does: the channel's name, the map sections that it lends and when they change, cues, and its calls. Each
 * line is what the recorder hands to the sink for one of them. Sockets are left out. `desk` reads such a recording; `checker` and `referee`
 * know no mark for names, sections and cues. */
#include "splicer.h"
#include "splicer_record.h"

#ifdef SPLICER_NO_STANDARD_HEADERS
/* the proof kit's compiler has none: what is called is declared */
int printf(const char *format, ...);
#else
#include <stdio.h>
#endif

static struct splicer channel;
static uint8_t out[SPLICER_OUT];

/* docs/SCTE35.md, "Two worked sections" */
static const uint8_t signal[] = {0xFC, 0x30, 0x16, 0x00, 0x01, 0x00, 0x00, 0x00, 0x10, 0x00, 0xFF, 0xF0, 0x05,
                                 0x06, 0xFF, 0x23, 0x45, 0x67, 0x89, 0x00, 0x00, 0x71, 0x3B, 0x22, 0xBD};

/* The sections of the two feeds: a real one has its table_id, lengths and CRC, which the splicer does not read. */
static const uint8_t primary[] = {0xAA, 0xBB, 0xCC}, insertion[] = {0xDD}, changed[] = {0xEE, 0xFF};
static struct splicer_maps maps = {primary, sizeof primary, insertion, sizeof insertion};

/* A driver writes to a file here, and never in the midst of a call's bytes. */
static void put(void *to, const uint8_t *bytes, size_t n) {
    (void)to;
    for (size_t i = 0; i < n; i++) {
        printf("%02X", bytes[i]);
    }
}

static const struct splicer_sink sink = {put, 0};

static void done(void) {
    printf("\n");
}

static void message(const uint8_t *bytes, size_t length) {
    splicer_recorded_message_maps(&channel, &sink, 0, bytes, length, &maps, out, sizeof out);
    done();
}

static void config(void) {
    static const uint8_t wire[SPLICER_HEADER] = {0, SPLICER_GET_CONFIG_REQUEST, 0, 0, 0xFF, 0xFF, 0xFF, 0xFF};
    message(wire, sizeof wire);
}

static void tick(uint32_t seconds) {
    splicer_recorded_tick(&channel, &sink, seconds, 0, out, sizeof out);
    done();
}

int main(void) {
    static const uint8_t name[SPLICER_NAME] = "SPORT";
    /* a Hardware_Config of Length 0 behind the two names */
    static const uint8_t init[SPLICER_HEADER + 68] = {0, SPLICER_INIT_REQUEST, 0, 68, 0xFF, 0xFF, 0xFF, 0xFF, 0, 2, 'S', 'P',
                                                      'O', 'R', 'T'};
    /* session 7 at 1,003 s, timed, for one second; AccessType 5 */
    static const uint8_t splice[SPLICER_HEADER + 33] = {0, SPLICER_SPLICE_REQUEST, 0, 33, 0xFF, 0xFF, 0xFF, 0xFF, 0, 0, 0, 7,
                                                        0xFF, 0xFF, 0xFF, 0xFF, 0, 0, 0x03, 0xEB, 0, 0, 0, 0, 0, 1, 0, 1, 0x5F, 0x90,
                                                        0, 0, 0, 0, 0, 0, 0, 0, 5};
    splicer_call_fresh(&channel, name);
    splicer_record_name(&sink, name);
    done();
    splicer_record_section(&sink, 0, maps.primary, maps.primary_length);
    done();
    splicer_record_section(&sink, 1, maps.insertion, maps.insertion_length);
    done();
    splicer_recorded_open(&channel, &sink, 0);
    done();
    message(init, sizeof init);
    tick(1000);
    config();
    splicer_recorded_cue(&channel, &sink, signal, sizeof signal, 591651064, 1000, 0, out, sizeof out);
    done();
    message(splice, sizeof splice);
    tick(1003);
    config();
    /* the inserted feed's map changes while it is on air */
    maps.insertion = changed;
    maps.insertion_length = sizeof changed;
    splicer_record_section(&sink, 1, maps.insertion, maps.insertion_length);
    done();
    config();
    splicer_recorded_close(&channel, &sink, 0, out, sizeof out);
    done();
    return 0;
}
