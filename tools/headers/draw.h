/* Random numbers and random calls. Times, SessionIDs and connections are few, so that sessions wait, start, cover each other and end. */
static uint64_t seed = 0x9E3779B97F4A7C15u;

static uint64_t drawn(void) {
    seed ^= seed << 13, seed ^= seed >> 7, seed ^= seed << 17;
    return seed * 0x2545F4914F6CDD1Du;
}

static uint32_t below(uint32_t n) {
    return (uint32_t)((drawn() >> 16) % n);
}

static int once_in(uint32_t n) {
    return below(n) == 0;
}

static void fill(void *to, size_t n) {
    uint8_t *p = (uint8_t *)to;
    for (size_t i = 0; i < n; i++) {
        p[i] = (uint8_t)(drawn() >> 40);
    }
}

/* A big-endian number. */
static uint8_t *put(uint8_t *p, uint64_t value, int bytes) {
    for (int i = bytes - 1; i >= 0; i--) {
        *p++ = (uint8_t)(value >> (8 * i));
    }
    return p;
}

static uint64_t number(const uint8_t *p, int bytes) {
    uint64_t value = 0;
    for (int i = 0; i < bytes; i++) {
        value = value * 256 + p[i];
    }
    return value;
}

/* Each time from a name of its own: most have a zero byte and are "CH1". */
static void named(uint8_t *name) {
    fill(name, 32);
    if (!once_in(4)) {
        memset(name, 0, 32);
        memcpy(name, "CH1", 3);
    }
}

static uint32_t now = 1000;

static uint8_t *header(uint8_t *p, uint32_t id, uint32_t size) {
    return put(put(put(p, id, 2), size, 2), 0xFFFFFFFF, 4);
}

static uint8_t *init(uint8_t *p) {
    p = put(header(p, 1, 78), 2, 2);
    memset(p, 0, 64);
    memcpy(p, "CH1", 3);
    p = put(p + 64, 10, 2);
    fill(p, 10);
    return p + 10;
}

/* Some seconds ahead, some seconds long, of any AccessType, with a muxpriority_descriptor. */
static uint8_t *splice(uint8_t *p) {
    p = put(put(header(p, 7, 40), below(30), 4), once_in(3) ? below(30) : 0xFFFFFFFF, 4);
    p = put(put(put(p, now + 3 + below(6), 4), below(1000000), 4), 1, 2);
    p = put(put(put(p, 90000 * (1 + below(6)) + below(90000), 4), below(1000), 4), 0, 4);
    p = put(put(put(p, below(10), 1), below(2), 1), 1, 1);
    return put(put(put(put(p, 2, 1), 5, 1), 0x53415049, 4), 1 + below(10), 1);
}

/* A message, mostly good and whole, at times cut, by one byte too; its length. */
static size_t message(uint8_t *in) {
    uint8_t *end;
    uint32_t kind = below(16);
    if (kind < 7) {
        end = splice(in);
    } else if (kind < 10) {
        end = init(in);
    } else if (kind < 12) {
        end = header(in, 10, 0);
    } else if (kind == 12) {
        end = put(put(header(in, 5, 8), now, 4), 0, 4);
    } else if (kind == 13) {
        end = put(header(in, 14, 4), below(30), 4);
    } else if (kind == 14) {
        end = put(put(header(in, 3, 8), below(30), 4), 0xFFFFFFFF, 4);
    } else {
        end = header(in, below(20), once_in(2) ? 4089 : below(20)) + below(20);
    }
    if (once_in(24)) {
        return (size_t)(end - in) - 1;
    }
    return once_in(12) ? below((uint32_t)(end - in)) : (size_t)(end - in) + below(3);
}

/* A buffer's length: mostly enough, at times one short. */
static size_t room(void) {
    return once_in(12) ? 4095 : 4096 + below(2) * 40;
}
