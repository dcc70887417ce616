/* The cue call of the proved core beside a plain one in C, as one would write it by hand: the register bit by bit, no table, memcpy for the
 * section.
 * cues agree SEED CALLS: random sections, some right, by both; replies and buffers are compared.
 * cues count WHO CASE CALLS DO: the call of a case, CALLS times if DO is 1, by WHO (core or c). CASE: 50 (a section of 50 bytes, four
 *   connections), 512, bad (50 bytes and a wrong CRC_32), none (nobody is initialised), crc50, crc512: the register alone, of c only.
 * cues stack CASE: bytes of stack that the call of core and c reached. */
#include "splicer.h"

int printf(const char *format, ...);
int atoi(const char *s);
int strcmp(const char *a, const char *b);
int memcmp(const void *a, const void *b, size_t n);
void *memcpy(void *to, const void *from, size_t n);
void *memset(void *to, int byte, size_t n);

#define APART __attribute__((noinline)) static

/* ---- the plain one: what it knows of the connections is their states, 2 for initialised */
static uint8_t link[4];

APART uint32_t plain_crc(const uint8_t *l, size_t n) {
    uint32_t c = 0xFFFFFFFF;
    for (size_t i = 0; i < n; i++) {
        c ^= (uint32_t)l[i] << 24;
        for (int k = 0; k < 8; k++) {
            c = c & 0x80000000 ? c << 1 ^ 0x04C11DB7 : c << 1;
            __asm__("" : "+r"(c)); /* else the kit's clang sees a CRC in the loop, and takes a table of 1,024 bytes for it */
        }
    }
    return c;
}

enum { BAD, SILENT, TIMELESS, TIMED };

static uint64_t pts_at(const uint8_t *p) { return (uint64_t)(p[0] & 1) << 32 | splicer_u32(p + 1); }

/* what comes of a section of n bytes, and its PTS */
static int plain_read(const uint8_t *l, size_t n, uint64_t *pts) {
    if (plain_crc(l, n)) {
        return BAD;
    }
    if (l[0] != 0xFC || l[4] & 0x80) {
        return SILENT;
    }
    const uint8_t *time = 0;
    size_t size, room = n - 20;
    if (l[13] == 0) {
        size = 0;
    } else if (l[13] == 6) {
        time = l + 14;
        size = time[0] & 0x80 ? 5 : 1;
    } else if (l[13] == 5) {
        if (room < 5) {
            return BAD;
        }
        size = 5;
        if (!(l[18] & 0x80)) {
            if (room < 6) {
                return BAD;
            }
            if (!(l[19] & 0x40)) {
                return SILENT;
            }
            size = 10 + (l[19] & 0x20 ? 5 : 0);
            if (!(l[19] & 0x10)) {
                time = l + 20;
                size += time[0] & 0x80 ? 5 : 1;
            }
        }
    } else {
        return SILENT;
    }
    uint32_t given = splicer_u16(l + 11) & 0xFFF;
    if (size > room || (given != 0xFFF && given != size) || size + splicer_u16(l + 14 + size) > room) {
        return BAD;
    }
    if (!time || !(time[0] & 0x80)) {
        return TIMELESS;
    }
    *pts = (pts_at(time) + pts_at(l + 4)) & 0x1FFFFFFFF;
    return TIMED;
}

static void put32(uint8_t *p, uint32_t v) {
    p[0] = (uint8_t)(v >> 24), p[1] = (uint8_t)(v >> 16), p[2] = (uint8_t)(v >> 8), p[3] = (uint8_t)v;
}

APART struct splicer_reply plain_cue(const uint8_t *l, size_t n, uint64_t pts, uint32_t seconds, uint32_t micros, uint8_t *out,
                                     size_t room) {
    if (room < 4096 || micros > 999999 || n < 20 || n > 512 || n != 3 + (splicer_u16(l + 1) & 0xFFF)) {
        return (struct splicer_reply){room < 4096 ? 2 : micros > 999999 ? 8 : 11, 0, 0, 0};
    }
    uint64_t p = 0;
    int came = plain_read(l, n, &p);
    if (came == SILENT) {
        return (struct splicer_reply){0, 0, 0, 0};
    }
    uint64_t time = 0xFFFFFFFF, rest = 0xFFFFFFFF;
    if (came == TIMED) {
        uint64_t ninths = ((uint64_t)seconds * 1000000 + micros) * 9 + ((p - pts) & 0x1FFFFFFFF) * 100, whole = ninths / 9;
        if (whole / 1000000 <= 0xFFFFFFFF) {
            time = whole / 1000000, rest = whole % 1000000;
        }
    }
    uint8_t *q = out;
    for (uint8_t conn = 0; conn < 4; conn++) {
        if (link[conn] != 2) {
            continue;
        }
        size_t size = came == BAD ? 0 : 8 + n;
        q[0] = 0x52, q[1] = conn;
        put32(q + 2, (came == BAD ? 0u : (uint32_t)SPLICER_CUE_REQUEST << 16) | (uint32_t)size);
        put32(q + 6, came == BAD ? 117u << 16 | 0xFFFF : 0xFFFFFFFF);
        if (came != BAD) {
            put32(q + 10, (uint32_t)time);
            put32(q + 14, (uint32_t)rest);
            memcpy(q + 18, l, n);
        }
        q += 10 + size;
    }
    return (struct splicer_reply){0, 0, 0, (size_t)(q - out)};
}

/* ---- both */
static struct splicer core;
static uint8_t section[520], out[2][4200];
static size_t length;
static uint64_t pts = 591651064;
static uint32_t seconds = 1000, micros;

APART struct splicer_reply core_cue(void) { return splicer_call_cue(&core, section, length, pts, seconds, micros, out[0], 4096); }
APART struct splicer_reply c_cue(void) { return plain_cue(section, length, pts, seconds, micros, out[1], 4096); }
APART struct splicer_reply c_crc(void) { return (struct splicer_reply){plain_crc(section, length), 0, 0, 0}; }
APART struct splicer_reply nothing(void) { return (struct splicer_reply){0, 0, 0, 0}; }

static void init(uint32_t conn) {
    uint8_t wire[SPLICER_HEADER + 68] = {0, SPLICER_INIT_REQUEST, 0, 68, 0xFF, 0xFF, 0xFF, 0xFF, 0, 2, 'C', 'H', '1'};
    splicer_call_message(&core, conn, wire, sizeof wire, out[0], 4096);
    link[conn] = 2;
}

static void ready(int conns) {
    static const uint8_t name[SPLICER_NAME] = "CH1";
    splicer_call_fresh(&core, name);
    memset(link, 0, sizeof link);
    for (uint32_t conn = 0; conn < 4; conn++) {
        splicer_call_open(&core, conn);
        link[conn] = 1;
        if (conns >> conn & 1) {
            init(conn);
        }
    }
}

static void close_section(void) {
    section[1] = (uint8_t)(0x30 | (length - 3) >> 8);
    section[2] = (uint8_t)(length - 3);
    put32(section + length - 4, plain_crc(section, length - 4));
}

/* a splice_insert of 15 bytes with a time, descriptors up to n bytes */
static void insert(size_t n) {
    static const uint8_t head[31] = {0xFC, 0, 0, 0, 0, 0, 0, 0, 0, 0, 0xFF, 0xF0, 0x0F, 0x05, 0, 2,
                                     0x8C, 0xE8, 0x7F, 0xCF, 0xFE, 0xD5, 0x89, 0x23, 0xBF, 0x55, 0x66};
    memcpy(section, head, sizeof head);
    length = n;
    section[29] = (uint8_t)((n - 35) >> 8), section[30] = (uint8_t)(n - 35);
    for (size_t i = 31; i < n - 4; i++) {
        section[i] = (uint8_t)(7 * i);
    }
    close_section();
}

static struct splicer_reply (*prepared(const char *who, const char *name))(void) {
    ready(strcmp(name, "none") == 0 ? 0 : 15);
    insert(strcmp(name, "512") == 0 || strcmp(name, "crc512") == 0 ? 512 : 50);
    if (strcmp(name, "bad") == 0) {
        section[20] ^= 1;
    }
    return name[0] == 'c' ? c_crc : strcmp(who, "core") == 0 ? core_cue : c_cue;
}

/* ---- random sections */
static uint64_t state;

static uint32_t next(uint32_t below) {
    state = state * 6364136223846793005u + 1442695040888963407u;
    return (uint32_t)((state >> 33) % below);
}

static void draw(void) {
    length = next(20) ? 20 + next(next(4) ? 30 : 493) : next(520);
    for (size_t i = 0; i < length; i++) {
        section[i] = (uint8_t)next(256);
    }
    section[0] = next(20) ? 0xFC : section[0];
    section[4] &= next(20) ? 0x7F : 0xFF;
    section[13] = next(10) ? (uint8_t)"\0\5\6\5"[next(4)] : section[13];
    size_t size = section[13] == 0 ? 0 : section[13] == 6 ? (section[14] & 0x80 ? 5 : 1) : section[18] & 0x80 ? 5 : 10;
    if (section[13] == 5 && !(section[18] & 0x80)) {
        section[19] |= next(8) ? 0x40 : 0;
        size += (section[19] & 0x20 ? 5 : 0) + (section[19] & 0x10 ? 0 : section[20] & 0x80 ? 5 : 1);
    }
    size += next(8) == 0;
    uint32_t given = next(8) ? (uint32_t)size : 0xFFF;
    section[11] = (uint8_t)((section[11] & 0xF0) | given >> 8), section[12] = (uint8_t)given;
    if (length >= 20 + size && next(8)) {
        uint32_t loop = next(3) ? (uint32_t)(length - 20 - size) : next((uint32_t)(length - 18 - size));
        section[14 + size] = (uint8_t)(loop >> 8), section[15 + size] = (uint8_t)loop;
    }
    if (length >= 20 && next(20)) {
        close_section();
    }
    if (!next(10)) {
        section[next((uint32_t)(length ? length : 1))] ^= (uint8_t)(1 << next(8));
    }
    pts = next(3) ? next(0x7FFFFFFF) * 5ull : (uint64_t)next(0x7FFFFFFF) << 32 | next(0x7FFFFFFF);
    seconds = next(4) ? next(0x7FFFFFFF) : 0xFFFFFFFF - next(100000);
    micros = next(20) ? next(1000000) : next(0x7FFFFFFF);
}

static int agree(uint32_t seed, int calls) {
    int told[4] = {0, 0, 0, 0};
    state = seed;
    for (int i = 0; i < calls; i++) {
        if (i % 16 == 0) {
            ready((int)next(16));
        }
        draw();
        memset(out[0], 0xEE, sizeof out[0]);
        memset(out[1], 0xEE, sizeof out[1]);
        struct splicer_reply a = core_cue(), b = c_cue();
        if (a.refused != b.refused || a.written != b.written || a.consumed || a.moved || memcmp(out[0], out[1], sizeof out[0])) {
            printf("call %d of seed %u DIFFERS\n", i, seed);
            return 1;
        }
        told[a.refused ? 0 : a.written == 0 ? 1 : out[0][3] ? 2 : 3]++;
    }
    printf("seed %u, %d cue calls: both agree; %d refused, %d without a record, %d passed on, %d complained of\n", seed, calls, told[0],
           told[1], told[2], told[3]);
    return 0;
}

enum { PAINTED = 65536 };

APART size_t stack_of(struct splicer_reply (*call)(void)) {
    uint8_t *sp;
    __asm__ volatile("mov %%rsp, %0" : "=r"(sp));
    for (size_t i = 1; i <= PAINTED; i++) {
        *(volatile uint8_t *)(sp - i) = 0xA5;
    }
    call();
    size_t deep = PAINTED;
    while (deep && *(volatile uint8_t *)(sp - deep) == 0xA5) {
        deep--;
    }
    return deep;
}

int main(int argc, char **argv) {
    if (argc == 4 && strcmp(argv[1], "agree") == 0) {
        return agree((uint32_t)atoi(argv[2]), atoi(argv[3]));
    }
    if (argc == 3 && strcmp(argv[1], "stack") == 0) {
        size_t a = stack_of(prepared("core", argv[2])), b = stack_of(prepared("c", argv[2]));
        printf("%zu %zu\n", a, b);
        return 0;
    }
    if (argc != 6) {
        return 2;
    }
    struct splicer_reply (*volatile call)(void) = prepared(argv[2], argv[3]);
    if (atoi(argv[5]) == 0) {
        call = nothing;
    }
    for (int i = 0; i < atoi(argv[4]); i++) {
        call();
    }
    return 0;
}
