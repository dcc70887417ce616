/* The reads for drivers against the calls themselves, over random calls. In each state: `air` is what an Alive_Response and `mux` say; the
 * tick one microsecond before the time that `due` names writes nothing and leaves the read as it is, the tick to it is good and writes, and
 * with 0 or 1 the last tick of the time field writes nothing; the same of `rolling due` with readings. Ends with 1 if one differs. */
#include "splicer.h"

int printf(const char *format, ...);
int memcmp(const void *a, const void *b, size_t n);
void *memcpy(void *to, const void *from, size_t n);
void *memset(void *to, int byte, size_t n);

enum { RUNS = 120, CALLS = 300 };

static struct splicer channel, other;
static struct splicer_rolling card;
static uint8_t in[256], out[SPLICER_OUT];
static uint32_t seconds, micros;
static unsigned states, aired, dues, beyond, rolled, unlike;
static uint64_t seed = 280;

static uint32_t below(uint32_t n) {
    seed ^= seed << 13, seed ^= seed >> 7, seed ^= seed << 17;
    return (uint32_t)((seed >> 16) % n);
}

static void expect(const char *what, int holds) {
    if (!holds && unlike++ < 10) {
        printf("state %u: %s\n", states, what);
    }
}

static uint8_t *put(uint8_t *p, uint32_t value, int bytes) {
    for (int i = bytes - 1; i >= 0; i--) {
        *p++ = (uint8_t)(value >> (8 * i));
    }
    return p;
}

static struct splicer_reply say(struct splicer *s, uint32_t conn, uint32_t id, uint32_t size) {
    put(put(put(in, id, 2), size, 2), 0xFFFFFFFF, 4);
    return splicer_call_message(s, conn, in, SPLICER_HEADER + size, out, sizeof out);
}

static void initialise(uint32_t conn) {
    splicer_call_open(&channel, conn);
    memset(in, 0, sizeof in);
    memcpy(in + SPLICER_HEADER, "\0\2CH1", 5);
    say(&channel, conn, SPLICER_INIT_REQUEST, 68);
}

/* Short ones and long ones, some past the time field; timed and linked. */
static void request(uint32_t conn) {
    uint32_t duration = below(4) == 0 ? 1 + below(3000000) : (1 + below(60)) * 9000 + below(7);
    uint8_t *p = put(put(in + SPLICER_HEADER, below(30), 4), below(2) ? 0xFFFFFFFF : below(30), 4);
    p = put(put(put(p, seconds + below(30), 4), below(2) ? below(1000000) : 0, 4), 1, 2);
    p = put(put(put(p, below(12) == 0 ? 0xFFFFFFFF - below(5) : duration, 4), below(1000), 4), 0, 4);
    put(put(put(p, below(10), 1), below(2), 1), 1, 1);
    say(&channel, conn, SPLICER_SPLICE_REQUEST, 33);
}

static void time_goes_on(void) {
    struct splicer_due due;
    uint64_t at = (uint64_t)seconds * 1000000 + micros + below(3000000);
    if (splicer_call_due(&channel, &due) == 2 && below(2)) {
        at = (uint64_t)due.seconds * 1000000 + due.micros;
    }
    if (at / 1000000 <= 0xFFFFFFFF) {
        seconds = (uint32_t)(at / 1000000), micros = (uint32_t)(at % 1000000);
    }
    expect("a tick is refused", splicer_call_tick(&channel, seconds, micros, out, sizeof out).refused == SPLICER_GOOD);
}

static void any_call(void) {
    uint32_t kind = below(100), conn = below(4);
    if (kind < 60) {
        request(conn);
    } else if (kind < 66) {
        put(in + SPLICER_HEADER, below(30), 4);
        say(&channel, conn, SPLICER_ABORT_REQUEST, 4);
    } else if (kind < 68) {
        splicer_call_close(&channel, conn, out, sizeof out);
        initialise(conn);
    } else {
        time_goes_on();
    }
}

/* Alive's State and SessionID, the value of the multiplexer, and times that can be. */
static void held_air(void) {
    struct splicer_air air;
    uint64_t now = (uint64_t)seconds * 9000000 + (uint64_t)micros * 9;
    uint32_t some = (uint32_t)splicer_call_air(&channel, &air);
    other = channel;
    memset(in + SPLICER_HEADER, 0, 8);
    struct splicer_reply r = say(&other, 0, SPLICER_ALIVE_REQUEST, 8);
    const uint8_t *data = out + SPLICER_MARK + SPLICER_HEADER;
    expect("Alive is not answered", r.refused == SPLICER_GOOD && r.written == 26);
    expect("air and Alive's State", splicer_u32(data) == 1 + some);
    expect("air and Alive's SessionID", splicer_u32(data + 4) == (some ? air.session : 0xFFFFFFFF));
    expect("air and mux", splicer_call_mux(&channel) == (some ? air.mux : (uint32_t)SPLICER_MUX_AVERAGE));
    if (some) {
        aired++;
        expect("times of air", air.start <= now && now < air.end && air.start + air.played <= now);
    } else {
        /* but for the four bytes that fill the struct up */
        static const struct splicer_air none;
        expect("none, and not all 0", memcmp(&air, &none, sizeof air - 4) == 0);
    }
}

/* What a tick of a copy writes, in microseconds; it must be good. */
static size_t tried(uint64_t at) {
    other = channel;
    struct splicer_reply r = splicer_call_tick(&other, (uint32_t)(at / 1000000), (uint32_t)(at % 1000000), out, sizeof out);
    expect("a tick on a copy is refused", r.refused == SPLICER_GOOD);
    return r.written;
}

static void held_due(void) {
    struct splicer_due due, again;
    int kind = splicer_call_due(&channel, &due);
    if (kind != 2) {
        beyond += kind == 1;
        expect("nothing is due, and the last tick writes", tried((uint64_t)0xFFFFFFFF * 1000000 + 999999) == 0);
        return;
    }
    uint64_t at = (uint64_t)due.seconds * 1000000 + due.micros;
    dues++;
    expect("rounding", at * 9 >= due.instant && at * 9 < due.instant + 9);
    if (at - 1 >= (uint64_t)seconds * 1000000 + micros) {
        expect("a tick before it writes", tried(at - 1) == 0);
        expect("a quiet tick moves it", splicer_call_due(&other, &again) == 2 && memcmp(&due, &again, sizeof due) == 0);
    }
    expect("the tick to it writes nothing", tried(at) > 0);
}

/* A reading so many ticks after the last good one, on a copy: what it writes; it must be good. */
static size_t read_after(uint32_t ticks) {
    struct splicer_rolling copy = card;
    struct splicer_reply r = splicer_call_reading(&copy, (uint32_t)copy.counter[1] + ticks, out, sizeof out);
    expect("a reading is refused", r.refused == SPLICER_GOOD);
    return r.written;
}

static void held_rolling(void) {
    uint32_t ticks = 7;
    card.core = channel;
    card.counter[0] = card.counter[1] = 0;
    expect("before the instant", splicer_call_rolling_due(&card, &ticks) == 0 && ticks == SPLICER_LONGEST_STEP);
    card.counter[0] = 1, card.counter[1] = (uint32_t)seed;
    if (splicer_call_rolling_due(&card, &ticks) == 0) {
        struct splicer_rolling copy = card;
        uint32_t late = (uint32_t)copy.counter[1] + SPLICER_LONGEST_STEP;
        expect("no longest step", ticks == SPLICER_LONGEST_STEP);
        expect("nothing is due, and a reading writes", splicer_call_reading(&copy, late, out, sizeof out).written == 0);
        return;
    }
    rolled++;
    expect("a reading before it writes", read_after(ticks - 1) == 0);
    expect("the reading of it writes nothing", read_after(ticks) > 0);
}

int main(void) {
    static const uint8_t name[SPLICER_NAME] = "CH1";
    for (uint32_t run = 0; run < RUNS; run++) {
        splicer_call_fresh(&channel, name);
        seconds = run % 3 == 0 ? 4294967200u : 1000, micros = 0;
        splicer_call_tick(&channel, seconds, micros, out, sizeof out);
        for (uint32_t conn = 0; conn < SPLICER_CONNECTIONS; conn++) {
            initialise(conn);
        }
        for (uint32_t i = 0; i < CALLS; i++) {
            any_call();
            states++;
            held_air();
            held_due();
            held_rolling();
        }
    }
    printf("%u states, %u with one on air, %u due, %u due past the time field, %u due by readings; %u differ\n", states, aired, dues,
           beyond, rolled, unlike);
    return unlike != 0 || !aired || !dues || !beyond || !rolled;
}
