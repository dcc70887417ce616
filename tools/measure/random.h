/* Random calls, good and bad, that all engines take in turn. Times and SessionIDs are few, so that starts meet, chains
 * grow and queues fill. */
static uint64_t seed;

static uint32_t below(uint32_t n) {
    seed ^= seed << 13, seed ^= seed >> 7, seed ^= seed << 17;
    return (uint32_t)((seed >> 16) % n);
}

static int once_in(uint32_t n) { return below(n) == 0; }

static uint32_t clock_now;

/* what a run leans to, drawn anew from time to time: SessionIDs and starts in use, ticks in a thousand */
static struct {
    uint32_t ids, spread, ticks, step;
} mood;

static void new_mood(void) {
    mood.ids = 8 + below(60);
    mood.spread = 5 + below(once_in(2) ? 20 : 2000);
    mood.ticks = once_in(2) ? 30 : 250;
    mood.step = 1 + below(once_in(3) ? 40 : 4);
}

/* descriptors behind the 33 bytes, mostly good */
static void with_descriptors(struct call *c) {
    uint32_t size = 33;
    for (uint32_t i = below(4); i > 0; i--) {
        uint32_t length = once_in(30) ? below(256) : 4 + below(30);
        uint32_t tag = below(256);
        if (once_in(2)) {
            /* muxpriority (02, CR 5) or almost: tag, length, identifier and value may each be another */
            tag = once_in(10) ? 1 + below(3) : 2;
            length = once_in(20) ? 4 + below(3) : 5;
            put(c->in + 10 + size, once_in(10) ? 0x49504153 : 0x53415049, 4);
            c->in[14 + size] = (uint8_t)(once_in(10) ? below(13) : 1 + below(10));
        }
        c->in[8 + size] = (uint8_t)tag;
        c->in[9 + size] = (uint8_t)length;
        size += 2 + length;
    }
    size -= once_in(20) ? 1 + below(3) : 0;
    put(c->in + 2, size, 2);
    c->length = 8 + size;
}

/* ServiceID 0xFFFF and separate PIDs before the tail, mostly good; at times none, where the tail is then read as a list */
static void with_streams(struct call *c) {
    put(c->in + 24, 0xFFFF, 2);
    if (once_in(12)) {
        return;
    }
    uint8_t tail[BUFFER];
    size_t size = c->length - 26;
    memcpy(tail, c->in + 26, size);
    uint32_t count = once_in(8) ? 15 + below(3) : below(4);
    uint8_t *p = put(c->in + 26, once_in(30) ? 0x1FFF + below(2) : below(0x2000), 2);
    p = put(p, once_in(30) ? count + 1 : once_in(60) ? 0xFFFFFFFF : count, 4);
    for (uint32_t i = 0; i < count; i++) {
        uint32_t kept = once_in(3) ? below(30) : 0;
        p = put(p, once_in(40) ? 19 + below(4) : 21 + kept, 1);
        p = put(put(p, once_in(40) ? 0x1FFF + below(2) : below(0x2000), 2), once_in(40) ? 0xFFFE + below(2) : below(256), 2);
        for (uint32_t j = 0; j < 16 + kept; j++) {
            *p++ = (uint8_t)(once_in(2) ? 0xFF : below(256));
        }
    }
    memcpy(p, tail, size);
    c->length = (size_t)(p - c->in) + size;
    c->length -= once_in(40) ? 1 : 0;
    put(c->in + 2, (uint32_t)c->length - 8, 2);
}

static struct call any_splice(void) {
    uint32_t prior = once_in(2) ? TIMED : once_in(40) ? below(0xFFFFFFFF) : below(mood.ids);
    uint32_t ticks = once_in(60) ? 0 : once_in(60) ? 0xFFFFFFFF : once_in(4) ? 1 + below(3000000) : (1 + below(6)) * SECOND;
    struct call c = splice(below(4), once_in(60) ? TIMED : below(mood.ids), prior, clock_now + below(mood.spread), ticks);
    put(c.in + 30, below(4) ? below(1000) : 0xFFFFFFFF, 4);
    put(c.in + 20, once_in(3) ? 500000 : once_in(50) ? 999999 + below(2) : 0, 4);
    c = ranked(c, once_in(60) ? 10 : below(10), once_in(60) ? 2 : below(2));
    c.in[40] = (uint8_t)(once_in(60) ? 2 : below(2));
    if (once_in(6)) {
        with_descriptors(&c);
    }
    if (once_in(10)) {
        with_streams(&c);
    }
    return c;
}

static struct call any_init(void) {
    struct call c = init(below(4));
    if (once_in(4)) {
        c.in[9] = (uint8_t)below(4);
        c.in[10 + below(6)] ^= (uint8_t)(once_in(2) ? 0 : 1);
        memset(c.in + 14, 0x41, below(29));
        memset(c.in + 42, 0x41, below(33));
    }
    if (once_in(2)) {
        /* another Hardware_Config (02, CR 6): as long as it says, or a byte or two less or more */
        uint32_t length = once_in(3) ? 252 + below(5) : below(20), size = 68 + length;
        put(c.in + 74, length, 2);
        for (uint32_t i = 0; i < length; i++) {
            c.in[76 + i] = (uint8_t)below(256);
        }
        size += once_in(4) ? below(5) - 2 : 0;
        put(c.in + 2, size, 2);
        c.length = 8 + size;
    }
    return c;
}

static struct call any_message(void) {
    uint32_t r = below(100);
    if (r < 70) {
        return any_splice();
    }
    if (r < 80) {
        return aborting(below(4), below(mood.ids));
    }
    if (r < 86) {
        return any_init();
    }
    if (r < 88) {
        return message(below(4), 0x000A, once_in(10) ? 1 : 0);
    }
    if (r < 90) {
        /* ExtendedData_Request (02, CR 8), at times of another type or size */
        struct call c = message(below(4), 0x0003, once_in(10) ? 7 + below(3) : 8);
        put(put(c.in + 8, below(mood.ids), 4), once_in(10) ? 0x7FFFFFFF + below(2) : 0xFFFFFFFF, 4);
        return c;
    }
    return message(below(4), r < 96 ? SPLICER_ALIVE_REQUEST : below(20), r < 96 ? 8 : below(40));
}

/* a message cut, too long, of another size or followed by more */
static struct call spoilt(struct call c) {
    switch (below(4)) {
    case 0: c.length = below((uint32_t)c.length + 1); break;
    case 1: put(c.in + 2, 4080 + below(20), 2), c.length = BUFFER; break;
    case 2: put(c.in + 2, below(80), 2), c.length = BUFFER; break;
    default: c.length += below(50); break;
    }
    return c;
}

static struct call any_tick(void) {
    struct call c = tick(clock_now + below(mood.step));
    c.micros = once_in(2) ? 0 : once_in(20) ? 1000000 : below(1000000);
    c.seconds -= once_in(30) ? 3 : 0;
    c.seconds += once_in(200) ? 5000 : 0;
    return c;
}

static struct call any_call(void) {
    uint32_t r = below(1000);
    struct call c = r < 2 ? fresh() : r < 30 ? plain(OPEN, below(4), 0) : r < 36 ? plain(CLOSE, below(4), 0) : any_message();
    if (r >= 1000 - mood.ticks) {
        c = any_tick();
    } else if (c.kind == MESSAGE && once_in(40)) {
        c = spoilt(c);
    }
    if (c.kind == FRESH && once_in(20)) {
        memset(c.in, 0x41, 32 - below(2));
    }
    c.conn += once_in(200) ? 4 : 0;
    c.room = once_in(100) ? 4095 : GOOD_ROOM + below(2) * 50;
    return c;
}

static uint32_t refusals[10], results[200];

/* the engines that are unlike the core */
static void say_unlike(void) {
    for (int who = 0; who < ENGINES; who++) {
        if (differ >> who & 1) {
            printf(" %s", names[who]);
        }
    }
    printf("\n");
}

static void tally(struct splicer_reply r) {
    struct splicer_record record;
    size_t at = 0;
    refusals[r.refused]++;
    while (splicer_next_record(outs[CORE], r.written, &at, &record)) {
        results[record.result]++;
    }
}

static void say_tally(void) {
    for (uint32_t i = 0; i < 10; i++) {
        printf("%s%u:%u", i ? " " : "replies ", i, refusals[i]);
    }
    printf("\nresults");
    for (uint32_t i = 0; i < 200; i++) {
        if (results[i]) {
            printf(" %u:%u", i, results[i]);
        }
    }
    printf("\n");
}

/* a connection opened and initialised, if it is closed */
static void greet(uint32_t conn) {
    struct call a = plain(OPEN, conn, 0), b = init(conn);
    all(&a);
    all(&b);
}

/* CALLS calls of a seed; 1 where replies, buffers or reads differ */
static int random_run(uint32_t from, uint32_t calls) {
    seed = from * 0x9E3779B97F4A7C15u + 1;
    prepared("alive", 0);
    clock_now = 1000;
    for (uint32_t i = 0; i < calls && !differ; i++) {
        if (i % 500 == 0) {
            new_mood();
        }
        if (once_in(15)) {
            greet(below(4));
        }
        struct call c = any_call();
        struct splicer_reply r = all(&c);
        tally(r);
        clock_now = r.refused && c.kind != FRESH ? clock_now : c.kind == TICK ? c.seconds : c.kind == FRESH ? 0 : clock_now;
        if (differ) {
            printf("call %u of seed %u DIFFERS: kind %d", i, from, c.kind);
            say_unlike();
        }
    }
    say_tally();
    return differ;
}
