/* A splicer in plain C, in place, as one would write it by hand: what the proved core's instruction counts are held against.
 * Document 01's rules in full, with 02's CR 1, 4, 5, 6, 8 and 13, sections empty; waiting sessions in an array by start and counted by
 * connection, started ones in an array by AccessType. */
#include "splicer.h"

void *memset(void *to, int byte, size_t n);
void *memcpy(void *to, const void *from, size_t n);
void *memmove(void *to, const void *from, size_t n);
void *memchr(const void *s, int c, size_t n);
int strncmp(const char *a, const char *b, size_t n);

struct session {
    uint64_t start, end, played;
    uint32_t id, prior, event;
    uint8_t conn, access, over, mux;
};

/* an ended session (02, CR 8); result 0: none */
struct past {
    uint32_t id, event, played, result;
    uint8_t conn;
};

enum { PASTS = 16 };

struct peer {
    uint64_t clock, primary, counts[4];
    uint32_t waits, starts;
    uint8_t link[4], name[32], hardware[4][256]; /* with its Length */
    struct session waiting[64], started[10];
    struct past ended[PASTS]; /* a ring; `next` is the place of the next end */
    uint32_t next;
};

/* the records, and the places that an acceptance shifts */
struct sink {
    uint8_t *out;
    size_t length;
    uint32_t moved;
};

static const uint32_t nobody = 0xFFFFFFFF;

static void put32(uint8_t *p, uint32_t v) {
    p[0] = (uint8_t)(v >> 24), p[1] = (uint8_t)(v >> 16), p[2] = (uint8_t)(v >> 8), p[3] = (uint8_t)v;
}

/* a record's mark and header; returns where its data goes */
static uint8_t *framed(struct sink *o, uint8_t conn, uint32_t id, uint32_t result, size_t size) {
    uint8_t *p = o->out + o->length;
    p[0] = 0x52, p[1] = conn;
    put32(p + 2, id << 16 | (uint32_t)size);
    put32(p + 6, result << 16 | 0xFFFF);
    o->length += 10 + size;
    return p + 10;
}

static void says(struct sink *o, const struct session *s, uint32_t result) {
    put32(framed(o, s->conn, SPLICER_SPLICE_RESPONSE, result, 4), s->id);
}

static void completes(struct sink *o, const struct session *s, uint8_t flag, uint32_t result) {
    uint8_t *p = framed(o, s->conn, SPLICER_SPLICE_COMPLETE_RESPONSE, result, 13);
    put32(p, s->id);
    p[4] = flag;
    put32(p + 5, 0);
    put32(p + 9, flag ? (uint32_t)(s->played / 100) : 0);
}

/* an end is kept over the oldest one */
static void remember(struct peer *p, const struct session *s, uint32_t result) {
    p->ended[p->next++ % PASTS] = (struct past){s->id, s->event, (uint32_t)(s->played / 100), result, s->conn};
}

static void ends_by(struct peer *p, struct sink *o, const struct session *s, uint32_t result) {
    says(o, s, result);
    remember(p, s, result);
}

static void ends_out(struct peer *p, struct sink *o, const struct session *s, uint8_t flag, uint32_t result) {
    completes(o, s, flag, result);
    remember(p, s, result);
}

static void drop(struct session *from, uint32_t *n, uint32_t at) {
    *n -= 1;
    memmove(from + at, from + at + 1, (*n - at) * sizeof *from);
}

/* followers stand behind their prior, so one pass over the waiting ones finds them in order */
static void end_followers(struct peer *p, struct sink *o, uint8_t conn, uint32_t id, uint32_t result) {
    uint32_t gone[21], n = 1, kept = 0;
    gone[0] = id;
    for (uint32_t i = 0; i < p->waits; i++) {
        struct session *s = &p->waiting[i];
        int follows = 0;
        if (s->conn == conn && s->prior != nobody) {
            for (uint32_t j = 0; j < n && !follows; j++) {
                follows = gone[j] == s->prior;
            }
        }
        if (follows) {
            ends_by(p, o, s, result);
            gone[n++] = s->id;
        } else {
            if (kept != i) {
                p->waiting[kept] = *s;
            }
            kept++;
        }
    }
    p->counts[conn] -= p->waits - kept;
    p->waits = kept;
}

static void starts_now(struct peer *p, struct sink *o) {
    struct session s = p->waiting[0];
    drop(p->waiting, &p->waits, 0);
    p->counts[s.conn]--;
    if (p->starts == 0 || (s.over && s.access >= p->started[0].access)) {
        if (p->starts && s.access == p->started[0].access) {
            struct session old = p->started[0];
            ends_out(p, o, &old, 1, 125);
            drop(p->started, &p->starts, 0);
            end_followers(p, o, old.conn, old.id, 125);
        }
        memmove(p->started + 1, p->started, p->starts * sizeof s);
        p->started[0] = s;
        p->starts++;
        completes(o, &s, 0, 100);
    } else {
        ends_out(p, o, &s, 0, 109);
        end_followers(p, o, s.conn, s.id, 109);
    }
}

static void ends_at(struct peer *p, struct sink *o, uint64_t t) {
    uint32_t kept = 0;
    for (uint32_t i = 0; i < p->starts; i++) {
        if (p->started[i].end == t) {
            ends_out(p, o, &p->started[i], 1, i == 0 ? 100 : 125);
        } else {
            if (kept != i) {
                p->started[kept] = p->started[i];
            }
            kept++;
        }
    }
    p->starts = kept;
}

/* time passes for the one on air or, with none, for the primary channel (02, CR 13) */
static void passes(struct peer *p, uint64_t time) {
    if (p->starts) {
        p->started[0].played += time;
    } else {
        p->primary += time;
    }
}

__attribute__((noinline)) struct splicer_reply peer_tick(struct peer *p, uint32_t seconds, uint32_t micros, uint8_t *out, size_t room) {
    struct sink o = {out, 0, 0};
    uint64_t until = (uint64_t)seconds * 9000000 + (uint64_t)micros * 9, now = p->clock;
    if (room < 4096 || micros > 999999 || until < now) {
        return (struct splicer_reply){room < 4096 ? 2 : micros > 999999 ? 8 : 3, 0, 0, 0};
    }
    for (;;) {
        uint64_t t = p->waits ? p->waiting[0].start : ~(uint64_t)0;
        for (uint32_t i = 0; i < p->starts; i++) {
            t = p->started[i].end < t ? p->started[i].end : t;
        }
        if (t > until) {
            break;
        }
        passes(p, t - now);
        now = t;
        ends_at(p, &o, t);
        if (p->waits && p->waiting[0].start == t) {
            starts_now(p, &o);
        }
    }
    passes(p, until - now);
    p->clock = until;
    return (struct splicer_reply){0, 0, 0, o.length};
}

static struct session *held(struct peer *p, uint8_t conn, uint32_t id) {
    for (uint32_t i = 0; i < p->waits; i++) {
        if (p->waiting[i].conn == conn && p->waiting[i].id == id) {
            return &p->waiting[i];
        }
    }
    for (uint32_t i = 0; i < p->starts; i++) {
        if (p->started[i].conn == conn && p->started[i].id == id) {
            return &p->started[i];
        }
    }
    return 0;
}

static void cancel_started(struct peer *p, struct sink *o, uint32_t at, int on_air) {
    if (on_air) {
        ends_out(p, o, &p->started[at], 1, 116);
    } else {
        ends_by(p, o, &p->started[at], 116);
    }
    drop(p->started, &p->starts, at);
}

static void answer_abort(struct peer *p, struct sink *o, uint8_t conn, const uint8_t *d) {
    uint32_t id = splicer_u32(d);
    struct session *s = held(p, conn, id);
    put32(framed(o, conn, SPLICER_ABORT_RESPONSE, s ? 100 : 121, 4), id);
    if (!s) {
        return;
    }
    if (s >= p->started && s < p->started + p->starts) {
        cancel_started(p, o, (uint32_t)(s - p->started), s == p->started);
    } else {
        ends_by(p, o, s, 116);
        drop(p->waiting, &p->waits, (uint32_t)(s - p->waiting));
        p->counts[conn]--;
    }
    end_followers(p, o, conn, id, 116);
}

__attribute__((noinline)) struct splicer_reply peer_close(struct peer *p, uint32_t conn, uint8_t *out, size_t room) {
    struct sink o = {out, 0, 0};
    if (conn > 3 || room < 4096 || p->link[conn] == 0) {
        return (struct splicer_reply){conn > 3 ? 1 : room < 4096 ? 2 : 7, 0, 0, 0};
    }
    int first = 1;
    for (uint32_t i = 0; i < p->starts; first = 0) {
        if (p->started[i].conn == conn) {
            cancel_started(p, &o, i, first);
        } else {
            i++;
        }
    }
    uint32_t kept = 0;
    for (uint32_t i = 0; i < p->waits; i++) {
        if (p->waiting[i].conn == conn) {
            ends_by(p, &o, &p->waiting[i], 116);
        } else {
            p->waiting[kept++] = p->waiting[i];
        }
    }
    p->waits = kept;
    p->counts[conn] = 0;
    p->link[conn] = 0;
    p->hardware[conn][0] = p->hardware[conn][1] = 0;
    return (struct splicer_reply){0, 0, 0, o.length};
}

/* the value of the last muxpriority_descriptor (02, CR 5), 5 without one; 0 if one of them is bad or the descriptors are ill-formed */
static uint8_t mux_of(const uint8_t *d, size_t n) {
    uint8_t mux = 5;
    while (n) {
        if (n < 2 || d[1] < 4 || d[1] == 255 || n < 2u + d[1]) {
            return 0;
        }
        if (d[0] == 2 && splicer_u32(d + 2) == 0x53415049) {
            if (d[1] != 5 || d[6] < 1 || d[6] > 10) {
                return 0;
            }
            mux = d[6];
        }
        n -= 2u + d[1], d += 2u + d[1];
    }
    return mux;
}

/* the bytes of PcrPID, PIDCount and that many structures (02, CR 1) at the front of n; 0 if they are not good */
static size_t streams_length(const uint8_t *d, size_t n) {
    size_t at = 6;
    if (n < 6 || splicer_u16(d) > 0x1FFF || splicer_u32(d + 2) > 16) {
        return 0;
    }
    for (uint32_t left = splicer_u32(d + 2); left > 0; left--) {
        if (n < at + 21 || d[at] < 21 || n < at + d[at] || splicer_u16(d + at + 1) > 0x1FFF || splicer_u16(d + at + 3) == 0xFFFF) {
            return 0;
        }
        at += d[at];
    }
    return at;
}

static uint32_t splice_result(struct peer *p, const struct session *s, const struct session *prior) {
    uint64_t own = p->counts[s->conn], sum = 0;
    if (s->id == nobody || held(p, s->conn, s->id) || (s->prior != nobody && !prior)) {
        return 121;
    }
    if (s->prior == nobody && s->start < p->clock + 27000000) {
        return 112;
    }
    for (uint32_t i = 0; i < p->waits && p->waiting[i].start <= s->start; i++) {
        if (p->waiting[i].start == s->start && p->waiting[i].access + !s->over > s->access) {
            return 109;
        }
    }
    for (int c = 0; c < 4 && own >= 10; c++) {
        sum += p->counts[c] < 10 ? 10 : p->counts[c];
    }
    return own >= 20 || sum >= 64 ? 114 : 100;
}

/* 1 if the data is readable */
static int answer_splice(struct peer *p, struct sink *o, uint8_t conn, const uint8_t *d, size_t n) {
    if (n < 18) {
        return 0;
    }
    struct session s = {0, 0, 0, splicer_u32(d), splicer_u32(d + 4), 0, conn, 0, 0, 0};
    size_t separate = splicer_u16(d + 16) == 0xFFFF;
    size_t list = separate ? streams_length(d + 18, n - 18) : 0;
    const uint8_t *t = d + 18 + list;
    if ((separate && list == 0) || n < 33 + list || splicer_u32(t) == 0 || t[12] > 9 || t[13] > 1 || t[14] > 1 ||
        (s.prior == nobody && splicer_u32(d + 12) > 999999)) {
        return 0;
    }
    s.mux = mux_of(t + 15, n - 33 - list);
    if (s.mux == 0) {
        return 0;
    }
    const struct session *prior = s.prior == nobody ? 0 : held(p, conn, s.prior);
    s.event = splicer_u32(t + 4), s.access = t[12], s.over = t[13];
    s.start = prior ? prior->end : (uint64_t)splicer_u32(d + 8) * 9000000 + (uint64_t)splicer_u32(d + 12) * 9;
    s.end = s.start + (uint64_t)splicer_u32(t) * 100;
    uint32_t result = splice_result(p, &s, prior), at = 0;
    if (result == 100) {
        while (at < p->waits && p->waiting[at].start < s.start) {
            at++;
        }
        if (at < p->waits && p->waiting[at].start == s.start) {
            struct session old = p->waiting[at];
            ends_by(p, o, &old, 109);
            drop(p->waiting, &p->waits, at);
            p->counts[old.conn]--;
            end_followers(p, o, old.conn, old.id, 109);
        }
        o->moved = p->waits - at;
        memmove(p->waiting + at + 1, p->waiting + at, o->moved * sizeof s);
        p->waiting[at] = s;
        p->waits++;
        p->counts[conn]++;
    }
    says(o, &s, result);
    return 1;
}

/* how many sessions of each connection wait */
__attribute__((noinline)) void peer_waiting(const struct peer *p, uint64_t *counts) { memcpy(counts, p->counts, sizeof p->counts); }

/* what the one on air asked of the multiplexer, 5 with none */
__attribute__((noinline)) uint32_t peer_mux(const struct peer *p) { return p->starts ? p->started[0].mux : 5; }

/* the primary channel's time, in ninths */
__attribute__((noinline)) uint64_t peer_primary(const struct peer *p) { return p->primary; }

static int answer_init(struct peer *p, struct sink *o, uint8_t conn, const uint8_t *d, size_t n) {
    if (n < 68 || !memchr(d + 2, 0, 32) || !memchr(d + 34, 0, 32)) {
        return 0;
    }
    size_t kept = 2 + splicer_u16(d + 66);
    if (kept > 256 || n < 66 + kept) {
        return 0;
    }
    uint32_t result = splicer_u16(d) != 2 ? 102 : strncmp((const char *)d + 2, (const char *)p->name, 32) ? 104 : 100;
    uint8_t *q = framed(o, conn, SPLICER_INIT_RESPONSE, result, 34);
    q[0] = 0, q[1] = 2;
    memcpy(q + 2, p->name, 32);
    if (result == 100) {
        p->link[conn] = 2;
        memcpy(p->hardware[conn], d + 66, kept);
    }
    return 1;
}

static void answer_alive(struct peer *p, struct sink *o, uint8_t conn) {
    uint8_t *q = framed(o, conn, SPLICER_ALIVE_RESPONSE, 100, 16);
    put32(q, p->starts ? 2 : 1);
    put32(q + 4, p->starts ? p->started[0].id : nobody);
    put32(q + 8, (uint32_t)(p->clock / 9000000));
    put32(q + 12, (uint32_t)(p->clock % 9000000 / 9));
}

/* ChannelName and the kept Hardware_Config (02, CR 6); the map sections are empty */
static void answer_config(struct peer *p, struct sink *o, uint8_t conn) {
    size_t kept = 2 + splicer_u16(p->hardware[conn]);
    uint8_t *q = framed(o, conn, 0x000B, 100, 32 + kept);
    memcpy(q, p->name, 32);
    memcpy(q + 32, p->hardware[conn], kept);
}

/* the latest end of this number that is kept of the asking connection, as the card's descriptor (02, CR 8) */
static int answer_extended(struct peer *p, struct sink *o, uint8_t conn, const uint8_t *d, size_t n) {
    if (n != 8 || splicer_u32(d + 4) != nobody) {
        return 0;
    }
    for (uint32_t i = 1; i <= PASTS; i++) {
        const struct past *e = &p->ended[(p->next - i) % PASTS];
        if (e->result && e->conn == conn && e->id == splicer_u32(d)) {
            uint8_t *q = framed(o, conn, 0x0004, 100, 20);
            memcpy(q, d, 4);
            memcpy(q + 4, "\1\16CARD", 6);
            put32(q + 10, e->event);
            q[14] = (uint8_t)(e->result >> 8), q[15] = (uint8_t)e->result;
            put32(q + 16, e->played);
            return 1;
        }
    }
    memcpy(framed(o, conn, 0x0004, 121, 4), d, 4);
    return 1;
}

__attribute__((noinline)) struct splicer_reply peer_message(struct peer *p, uint32_t conn, const uint8_t *in, size_t length, uint8_t *out,
                                                            size_t room) {
    struct sink o = {out, 0, 0};
    if (conn > 3 || room < 4096 || p->link[conn] == 0) {
        return (struct splicer_reply){conn > 3 ? 1 : room < 4096 ? 2 : 7, 0, 0, 0};
    }
    size_t n = length < 8 ? 0 : splicer_u16(in + 2);
    if (length < 8 || n > 4088 || length < 8 + n) {
        return (struct splicer_reply){length >= 8 && n > 4088 ? 4 : 5, 0, 0, 0};
    }
    uint32_t id = splicer_u16(in);
    const uint8_t *d = in + 8;
    int readable = 1;
    if (id == SPLICER_GENERAL_RESPONSE) {
    } else if (p->link[conn] != 2 && id != SPLICER_INIT_REQUEST) {
        framed(&o, (uint8_t)conn, SPLICER_GENERAL_RESPONSE, 103, 0);
    } else if (id == SPLICER_INIT_REQUEST) {
        readable = answer_init(p, &o, (uint8_t)conn, d, n);
    } else if (id == SPLICER_ALIVE_REQUEST) {
        readable = n == 8;
        if (readable) {
            answer_alive(p, &o, (uint8_t)conn);
        }
    } else if (id == SPLICER_SPLICE_REQUEST) {
        readable = answer_splice(p, &o, (uint8_t)conn, d, n);
    } else if (id == SPLICER_ABORT_REQUEST) {
        readable = n == 4;
        if (readable) {
            answer_abort(p, &o, (uint8_t)conn, d);
        }
    } else if (id == 0x000A) {
        readable = n == 0;
        if (readable) {
            answer_config(p, &o, (uint8_t)conn);
        }
    } else if (id == 0x0003) {
        readable = answer_extended(p, &o, (uint8_t)conn, d, n);
    } else if (id != 0x000D) {
        framed(&o, (uint8_t)conn, SPLICER_GENERAL_RESPONSE, 120, 0);
    }
    if (!readable) {
        framed(&o, (uint8_t)conn, SPLICER_GENERAL_RESPONSE, 123, 0);
    }
    return (struct splicer_reply){0, o.moved, 8 + n, o.length};
}
