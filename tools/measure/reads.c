/* The reads for drivers, counted. reads WHAT STARTED WAITING CALLS: so many calls of WHAT on a splicer with so many sessions started and
 * waiting: none, tick (idle), reading (idle), waiting, air, due, rolling. With BASE defined the archive has no such reads. */
#include "splicer.h"

int atoi(const char *text);
int strcmp(const char *a, const char *b);
void *memcpy(void *to, const void *from, size_t n);
void *memset(void *to, int byte, size_t n);

#define APART __attribute__((noinline)) static

static uint8_t in[256], out[SPLICER_OUT];
static struct splicer_rolling card;
static uint64_t row[9], reply[4];

static uint8_t *put(uint8_t *p, uint32_t value, int bytes) {
    for (int i = bytes - 1; i >= 0; i--) {
        *p++ = (uint8_t)(value >> (8 * i));
    }
    return p;
}

static void say(uint32_t conn, uint32_t id, uint32_t size) {
    put(put(put(in, id, 2), size, 2), 0xFFFFFFFF, 4);
    splicer_call_message(&card.core, conn, in, SPLICER_HEADER + size, out, sizeof out);
}

static void splice(uint32_t conn, uint32_t session, uint32_t seconds, uint32_t duration, uint32_t access) {
    uint8_t *p = put(put(put(put(in + SPLICER_HEADER, session, 4), 0xFFFFFFFF, 4), seconds, 4), 0, 4);
    p = put(put(put(put(p, 1, 2), duration, 4), 0xFFFFFFFF, 4), 0, 4);
    put(put(put(p, access, 1), 1, 1), 1, 1);
    say(conn, SPLICER_SPLICE_REQUEST, 33);
}

/* Those that have started have fallen ends; those that wait came in no order. Clock 1,100 s. */
static int ready(uint32_t started, uint32_t waiting) {
    static const uint8_t name[SPLICER_NAME] = "CH1";
    splicer_7_fresh(name, card.core.words, card.core.bytes, reply);
    splicer_call_tick(&card.core, 1000, 0, out, sizeof out);
    for (uint32_t conn = 0; conn < SPLICER_CONNECTIONS; conn++) {
        splicer_call_open(&card.core, conn);
        memset(in, 0, sizeof in);
        memcpy(in + SPLICER_HEADER, "\0\2CH1", 5);
        say(conn, SPLICER_INIT_REQUEST, 68);
    }
    for (uint32_t i = 0; i < started; i++) {
        splice(i % 4, 100 + i, 1003 + i, 36000000, i);
    }
    splicer_call_tick(&card.core, 1100, 0, out, sizeof out);
    for (uint32_t i = 0; i < waiting; i++) {
        splice(i % 4, i, 2000 + 10 * (11 * i % 64), 90000, 1);
    }
    card.counter[0] = 1, card.counter[1] = 77;
    return card.core.words[1] == waiting && card.core.words[2] == started;
}

APART void none(void) { __asm__ volatile("" ::: "memory"); }
APART void tick(void) { splicer_7_tick(card.core.words, card.core.bytes, 1100, 0, out, sizeof out, reply); }
APART void waiting(void) { splicer_7_waiting(card.core.words, card.core.bytes, row); }
#ifndef BASE
APART void reading(void) { splicer_7_reading(card.core.words, card.core.bytes, card.counter, 77, out, sizeof out, reply); }
APART void air(void) { splicer_7_air(card.core.words, card.core.bytes, row); }
APART void due(void) { splicer_7_due(card.core.words, card.core.bytes, row); }
APART void rolling(void) { splicer_7_rolling_due(card.core.words, card.core.bytes, card.counter, row); }
#endif

/* what is taken off: a call of the bench's own, by the same pointer */
static void (*named(const char *what))(void) {
#ifndef BASE
    if (strcmp(what, "reading") == 0) {
        return reading;
    }
    if (strcmp(what, "air") == 0) {
        return air;
    }
    if (strcmp(what, "due") == 0) {
        return due;
    }
    if (strcmp(what, "rolling") == 0) {
        return rolling;
    }
#endif
    return strcmp(what, "tick") == 0 ? tick : strcmp(what, "waiting") == 0 ? waiting : none;
}

int main(int words, char **word) {
    if (words != 5 || !ready((uint32_t)atoi(word[2]), (uint32_t)atoi(word[3]))) {
        return 2;
    }
    void (*volatile call)(void) = named(word[1]);
    int calls = atoi(word[4]);
    for (int i = 0; i < calls; i++) {
        call();
    }
    return 0;
}
