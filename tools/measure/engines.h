/* The engines behind one form of call: the proved core through its C door; two in place in plain Rust, with its waiting sessions by start
 * (inplace.rs) and without order (unordered.rs); the second program's own (second/); a tuned one in plain C (peer.h). All but the last are
 * called by their C names, each state begins at a multiple of 64. */
#include "peer.h"

int memcmp(const void *a, const void *b, size_t n);

/* the C names of an engine in Rust */
#define NAMED(engine)                                                                                                                     \
    size_t engine##_size(void);                                                                                                           \
    struct splicer_reply engine##_fresh(void *s, const uint8_t *name);                                                                    \
    struct splicer_reply engine##_open(void *s, uint32_t conn);                                                                           \
    struct splicer_reply engine##_close(void *s, uint32_t conn, uint8_t *out, size_t room);                                               \
    struct splicer_reply engine##_message(void *s, uint32_t conn, const uint8_t *in, size_t length, uint8_t *out, size_t room);           \
    struct splicer_reply engine##_tick(void *s, uint32_t seconds, uint32_t micros, uint8_t *out, size_t room);                            \
    void engine##_waiting(const void *s, uint64_t *counts);                                                                               \
    uint32_t engine##_mux(const void *s);                                                                                                 \
    uint64_t engine##_primary(const void *s)

NAMED(inplace);
NAMED(unordered);
NAMED(second);
/* its state holds a list elsewhere, so it copies itself */
void second_keep(void *base, const void *s);
void second_restore(void *s, const void *base);

enum kind { NOTHING, FRESH, OPEN, CLOSE, MESSAGE, TICK, WAITING };
enum who { CORE, RUST, PLAIN_C, UNORDERED, MODEL, ENGINES };
enum { BUFFER = 4200, RUST_WORDS = 1024, GOOD_ROOM = 4096 };

static const char *const names[ENGINES] = {"core", "rust", "c", "unordered", "second"};

/* one call, whoever takes it; in: the message, or the name for fresh */
struct call {
    enum kind kind;
    uint32_t conn, seconds, micros;
    size_t length, room;
    uint8_t in[BUFFER];
};

#define STATE static _Alignas(64)
STATE struct splicer core;
STATE struct splicer core_base;
STATE uint64_t rust[RUST_WORDS];
STATE uint64_t rust_base[RUST_WORDS];
STATE struct peer peer;
STATE struct peer peer_base;
STATE uint64_t unordered[RUST_WORDS];
STATE uint64_t unordered_base[RUST_WORDS];
STATE uint64_t second[1];
STATE uint64_t second_base[1];
static uint8_t outs[ENGINES][BUFFER];
/* what the read of the waiting counts gave; its reply is that of no call */
static uint64_t counts[ENGINES][SPLICER_CONNECTIONS];

#define INLINE static inline __attribute__((always_inline))
#define APART __attribute__((noinline)) static

/* the reply goes to lent words; the others return theirs, through memory as well */
INLINE void core_call(uint64_t *reply, const struct call *c) {
    switch (c->kind) {
    case FRESH: splicer_7_fresh(c->in, core.words, core.bytes, reply); break;
    case OPEN: splicer_7_open(core.words, core.bytes, c->conn, reply); break;
    case CLOSE: splicer_7_close(core.words, core.bytes, c->conn, outs[CORE], c->room, reply); break;
    case MESSAGE:
        splicer_7_message(core.words, core.bytes, c->conn, c->in, c->length, c->in, 0, c->in, 0, outs[CORE], c->room, reply);
        break;
    case TICK: splicer_7_tick(core.words, core.bytes, c->seconds, c->micros, outs[CORE], c->room, reply); break;
    case WAITING: splicer_7_waiting(core.words, core.bytes, counts[CORE]); /* fall through: no reply */
    default: reply[0] = reply[1] = reply[2] = reply[3] = 0; break;
    }
}

#define BY_NAME(function, engine, state, who)                                                                                             \
    INLINE struct splicer_reply function(const struct call *c) {                                                                          \
        switch (c->kind) {                                                                                                                \
        case FRESH: return engine##_fresh(state, c->in);                                                                                  \
        case OPEN: return engine##_open(state, c->conn);                                                                                  \
        case CLOSE: return engine##_close(state, c->conn, outs[who], c->room);                                                            \
        case MESSAGE: return engine##_message(state, c->conn, c->in, c->length, outs[who], c->room);                                      \
        case TICK: return engine##_tick(state, c->seconds, c->micros, outs[who], c->room);                                                \
        case WAITING: engine##_waiting(state, counts[who]); /* fall through: no reply */                                                  \
        default: return (struct splicer_reply){0, 0, 0, 0};                                                                               \
        }                                                                                                                                 \
    }

BY_NAME(rust_call, inplace, rust, RUST)
BY_NAME(unordered_call, unordered, unordered, UNORDERED)
BY_NAME(second_call, second, second, MODEL)

/* peer.h has neither fresh nor open: these only make the state, and their figures say nothing */
APART struct splicer_reply peer_fresh(const uint8_t *name) {
    size_t n = 0;
    memset(&peer, 0, sizeof peer);
    while (n < 32 && name[n]) {
        n++;
    }
    if (n == 32) {
        return (struct splicer_reply){9, 0, 0, 0};
    }
    memcpy(peer.name, name, n);
    return (struct splicer_reply){0, 0, 0, 0};
}

APART struct splicer_reply peer_open(uint32_t conn) {
    if (conn > 3 || peer.link[conn]) {
        return (struct splicer_reply){conn > 3 ? 1 : 6, 0, 0, 0};
    }
    peer.link[conn] = 1;
    return (struct splicer_reply){0, 0, 0, 0};
}

INLINE struct splicer_reply peer_call(const struct call *c) {
    switch (c->kind) {
    case FRESH: return peer_fresh(c->in);
    case OPEN: return peer_open(c->conn);
    case CLOSE: return peer_close(&peer, c->conn, outs[PLAIN_C], c->room);
    case MESSAGE: return peer_message(&peer, c->conn, c->in, c->length, outs[PLAIN_C], c->room);
    case TICK: return peer_tick(&peer, c->seconds, c->micros, outs[PLAIN_C], c->room);
    case WAITING: peer_waiting(&peer, counts[PLAIN_C]); /* fall through: no reply */
    default: return (struct splicer_reply){0, 0, 0, 0};
    }
}

APART void by_core(uint64_t *reply, const struct call *c) { core_call(reply, c); }
APART struct splicer_reply by_rust(const struct call *c) { return rust_call(c); }
APART struct splicer_reply by_peer(const struct call *c) { return peer_call(c); }
APART struct splicer_reply by_unordered(const struct call *c) { return unordered_call(c); }
APART struct splicer_reply by_second(const struct call *c) { return second_call(c); }

static void keep_states(void) {
    core_base = core;
    memcpy(rust_base, rust, inplace_size());
    peer_base = peer;
    memcpy(unordered_base, unordered, unordered_size());
    second_keep(second_base, second);
}

INLINE void restore(enum who who) {
    switch (who) {
    case CORE: core = core_base; break;
    case RUST: memcpy(rust, rust_base, inplace_size()); break;
    case UNORDERED: memcpy(unordered, unordered_base, unordered_size()); break;
    case MODEL: second_restore(second, second_base); break;
    default: peer = peer_base; break;
    }
    __asm__ volatile("" ::: "memory");
}

/* differ: a bit for each engine that is unlike the core */
static int differ, wrong;

static void compare(enum who who, struct splicer_reply a, struct splicer_reply b) {
    int unlike = a.refused != b.refused || a.consumed != b.consumed || a.written != b.written || a.moved != b.moved;
    differ |= (unlike || memcmp(outs[CORE], outs[who], BUFFER)) << who;
}

/* the waiting counts by all, from words that are not alike */
static void compare_counts(void) {
    static const struct call read = {.kind = WAITING};
    uint64_t reply[SPLICER_REPLY];
    for (int i = 0; i < ENGINES; i++) {
        memset(counts[i], 0xE0 + i, sizeof counts[i]);
    }
    by_core(reply, &read);
    by_rust(&read);
    by_peer(&read);
    by_unordered(&read);
    by_second(&read);
    for (int i = 1; i < ENGINES; i++) {
        differ |= (memcmp(counts[CORE], counts[i], sizeof counts[i]) != 0) << i;
    }
}

/* the value of the one on air by all (02, CR 5) */
static void compare_mux(void) {
    const uint32_t read[ENGINES] = {[CORE] = splicer_call_mux(&core),
                                    [RUST] = inplace_mux(rust),
                                    [PLAIN_C] = peer_mux(&peer),
                                    [UNORDERED] = unordered_mux(unordered),
                                    [MODEL] = second_mux(second)};
    for (int i = 1; i < ENGINES; i++) {
        differ |= (read[i] != read[CORE]) << i;
    }
}

/* the primary sum by all (02, CR 13) */
static void compare_primary(void) {
    const uint64_t read[ENGINES] = {[CORE] = splicer_call_primary(&core),
                                    [RUST] = inplace_primary(rust),
                                    [PLAIN_C] = peer_primary(&peer),
                                    [UNORDERED] = unordered_primary(unordered),
                                    [MODEL] = second_primary(second)};
    for (int i = 1; i < ENGINES; i++) {
        differ |= (read[i] != read[CORE]) << i;
    }
}

/* the call by all from buffers that are alike; replies and whole buffers are compared, and after it the waiting counts, the value on air
 * and the primary sum */
static struct splicer_reply all(const struct call *c) {
    for (int i = 0; i < ENGINES; i++) {
        memset(outs[i], 0xEE, BUFFER);
    }
    uint64_t reply[SPLICER_REPLY] = {99, 99, 99, 99};
    by_core(reply, c);
    struct splicer_reply a = splicer_reply_of(reply);
    compare(RUST, a, by_rust(c));
    compare(PLAIN_C, a, by_peer(c));
    compare(UNORDERED, a, by_unordered(c));
    compare(MODEL, a, by_second(c));
    compare_counts();
    compare_mux();
    compare_primary();
    return a;
}
