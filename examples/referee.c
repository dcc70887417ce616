/* A referee beside a running card: the recorder's sink hands every call and its records to the proved referee, so a wrong record is told
 * when it is written. Here the driver is wrong once: it writes down another answer than the card's. Then a recording that breaks off. */
#include "splicer.h"
#include "splicer_bench.h"
#include "splicer_record.h"

#ifdef SPLICER_NO_STANDARD_HEADERS
/* the proof kit's compiler has none: what is called is declared */
int printf(const char *format, ...);
#else
#include <stdio.h>
#endif

static struct splicer card;
static struct splicer_referee referee;
static uint8_t out[SPLICER_OUT];

/* A driver with a bad cable, once it is broken, changes the Result of each record. */
static int broken;

static void tell(const char *what, struct splicer_verdict verdict) {
    static const char *const kinds[] = {"in order", "a call is wrong", "unknown mark", "cut"};
    printf("%s: %s, number %lu, place %lu, good %lu\n", what, kinds[verdict.kind], (unsigned long)verdict.number,
           (unsigned long)verdict.place, (unsigned long)verdict.good);
}

/* The sink: a file would be written here too. The verdict may be asked for at any time; a driver sounds its alarm at kind 1 or 2. */
static void hear(void *to, const uint8_t *bytes, size_t length) {
    struct splicer_referee *own = (struct splicer_referee *)to;
    size_t i;
    if (broken && bytes[0] == 0x52) {
        for (i = 0; i < length; i++) {
            uint8_t byte = i == 7 ? (uint8_t)(bytes[i] ^ 1) : bytes[i];
            splicer_referee_feed(own, &byte, 1);
        }
        return;
    }
    splicer_referee_feed(own, bytes, length);
}

int main(void) {
    static const uint8_t alive[] = {0, 5, 0, 8, 0xFF, 0xFF, 0xFF, 0xFF, 0, 0, 0, 100, 0, 0, 0, 0};
    static const uint8_t name[SPLICER_NAME] = {'S', 'P', 'O', 'R', 'T'};
    struct splicer_sink sink;
    const uint8_t *due;
    size_t length, i;
    sink.put = hear;
    sink.to = &referee;
    splicer_call_fresh(&card, name);
    printf("fresh: %u\n", (unsigned)splicer_referee_fresh(&referee, name));

    splicer_recorded_open(&card, &sink, 0);
    splicer_recorded_tick(&card, &sink, 100, 0, out, sizeof out);
    splicer_recorded_message(&card, &sink, 0, alive, sizeof alive, out, sizeof out);
    tell("three calls", splicer_referee_end(&referee));

    broken = 1;
    splicer_recorded_message(&card, &sink, 0, alive, sizeof alive, out, sizeof out);
    tell("a wrong answer", splicer_referee_end(&referee));
    splicer_referee_due(&referee, &due, &length);
    printf("due was:");
    for (i = 0; i < length; i++) {
        printf(" %02X", due[i]);
    }
    printf("\n");
    broken = 0;
    splicer_recorded_close(&card, &sink, 0, out, sizeof out);
    tell("it stays said", splicer_referee_end(&referee));

    /* a recording that breaks off in the midst of a tick, in two pieces */
    splicer_referee_fresh(&referee, name);
    splicer_referee_feed(&referee, (const uint8_t *)"O\0T", 3);
    tell("broken off", splicer_referee_end(&referee));
    splicer_referee_feed(&referee, (const uint8_t *)"\0\0\0\0d\0\0\0\0", 9);
    tell("and gone on", splicer_referee_end(&referee));
    return 0;
}
