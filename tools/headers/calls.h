/* The calls on a splicer: by the header on a struct, by the archive alone on words and bytes. */
void splicer_7_fresh(const uint8_t *, uint64_t *, uint8_t *, uint64_t *);
void splicer_7_open(uint64_t *, uint8_t *, uint32_t, uint64_t *);
void splicer_7_close(uint64_t *, uint8_t *, uint32_t, uint8_t *, size_t, uint64_t *);
void splicer_7_message(uint64_t *, uint8_t *, uint32_t, const uint8_t *, size_t, const uint8_t *, size_t, const uint8_t *, size_t,
                       uint8_t *, size_t, uint64_t *);
void splicer_7_tick(uint64_t *, uint8_t *, uint32_t, uint32_t, uint8_t *, size_t, uint64_t *);
void splicer_7_waiting(const uint64_t *, const uint8_t *, uint64_t *);
uint64_t splicer_7_primary(const uint64_t *, const uint8_t *);
uint64_t splicer_7_mux(const uint64_t *, const uint8_t *);
uint64_t splicer_7_map(const uint64_t *, const uint8_t *);
void splicer_7_air(const uint64_t *, const uint8_t *, uint64_t *);
void splicer_7_due(const uint64_t *, const uint8_t *, uint64_t *);
void splicer_7_rolling_due(const uint64_t *, const uint8_t *, const uint64_t *, uint64_t *);
void splicer_7_cue(const uint64_t *, const uint8_t *, const uint8_t *, size_t, const uint32_t *, uint8_t *, size_t, uint64_t *);
void splicer_7_rolling_fresh(const uint8_t *, uint64_t *, uint8_t *, uint64_t *, uint64_t *);
void splicer_7_instant(uint64_t *, uint8_t *, uint64_t *, const uint32_t *, uint8_t *, size_t, uint64_t *);
void splicer_7_reading(uint64_t *, uint8_t *, uint64_t *, uint32_t, uint8_t *, size_t, uint64_t *);
size_t splicer_7_read_streams(const uint8_t *, size_t, uint64_t *, uint8_t *);
size_t splicer_7_write_streams(const uint64_t *, const uint8_t *, uint8_t *, size_t);
size_t splicer_7_sessions(const uint64_t *, const uint8_t *, struct splicer_session *, size_t);
uint64_t splicer_7_version(void);

static struct splicer card;
static struct splicer_rolling rolling;
/* the same as the archive has it: 686 words and 1,056 bytes, and a counter's two words */
static uint64_t words[686], bare[4], rolling_words[686], counter[2];
static uint8_t bytes[1056], rolling_bytes[1056];
static uint8_t out[5000], bare_out[5000], in[5000];

static void expect(const char *function, int holds) {
    if (!holds) {
        printf("%s differs\n", function);
        exit(1);
    }
}

/* The four words of a bare reply are the struct's fields: house number, consumed, written, moved. */
static void expect_reply(const char *function, struct splicer_reply r) {
    expect(function, r.refused == bare[0] && r.consumed == bare[1] && r.written == bare[2] && r.moved == bare[3]);
}

/* After a call: its reply, what it wrote and what stands behind it, and the splicer. */
static void expect_call(const char *function, struct splicer_reply r) {
    expect_reply(function, r);
    expect(function, memcmp(out, bare_out, sizeof out) == 0);
    expect(function, memcmp(card.words, words, sizeof words) == 0 && memcmp(card.bytes, bytes, sizeof bytes) == 0);
}

static void expect_rolled(const char *function, struct splicer_reply r) {
    expect_reply(function, r);
    expect(function, memcmp(out, bare_out, sizeof out) == 0 && memcmp(rolling.counter, counter, sizeof counter) == 0);
    expect(function, memcmp(rolling.core.words, rolling_words, sizeof words) == 0);
    expect(function, memcmp(rolling.core.bytes, rolling_bytes, sizeof bytes) == 0);
}

static void held_reply_of(void) {
    fill(bare, sizeof bare);
    struct splicer_reply r = splicer_reply_of(bare);
    expect("splicer_reply_of",
           r.refused == (uint32_t)bare[0] && r.consumed == bare[1] && r.written == bare[2] && r.moved == (uint32_t)bare[3]);
}

static void held_fresh(void) {
    uint8_t name[32];
    named(name);
    fill(&card, sizeof card);
    splicer_7_fresh(name, words, bytes, bare);
    expect_call("splicer_call_fresh", splicer_call_fresh(&card, name));
}

static void held_open(uint32_t conn) {
    splicer_7_open(words, bytes, conn, bare);
    expect_call("splicer_call_open", splicer_call_open(&card, conn));
}

static void held_close(uint32_t conn) {
    size_t n = room();
    splicer_7_close(words, bytes, conn, bare_out, n, bare);
    expect_call("splicer_call_close", splicer_call_close(&card, conn, out, n));
}

static void held_message(uint32_t conn) {
    size_t length = message(in), n = room();
    splicer_7_message(words, bytes, conn, in, length, in, 0, in, 0, bare_out, n, bare);
    expect_call("splicer_call_message", splicer_call_message(&card, conn, in, length, out, n));
}

/* Two sections that differ in their bytes and their lengths. */
static uint8_t primary[1100], insertion[1100];

static struct splicer_maps any_maps(void) {
    struct splicer_maps maps;
    fill(primary, sizeof primary);
    fill(insertion, sizeof insertion);
    maps.primary = primary;
    maps.primary_length = once_in(8) ? 1020 + below(10) : below(200);
    maps.insertion = insertion;
    maps.insertion_length = once_in(8) ? 1020 + below(10) : 200 + below(200);
    return maps;
}

static void held_message_maps(uint32_t conn) {
    struct splicer_maps maps = any_maps();
    size_t length = message(in), n = room(), first = maps.primary_length, second = maps.insertion_length;
    splicer_7_message(words, bytes, conn, in, length, primary, first, insertion, second, bare_out, n, bare);
    expect_call("splicer_call_message_maps", splicer_call_message_maps(&card, conn, in, length, &maps, out, n));
}

static void held_tick(void) {
    uint32_t seconds = now + below(2) - (uint32_t)once_in(30), micros = once_in(30) ? 1000000 : below(1000000);
    size_t n = room();
    splicer_7_tick(words, bytes, seconds, micros, bare_out, n, bare);
    expect_call("splicer_call_tick", splicer_call_tick(&card, seconds, micros, out, n));
    now = bare[0] == 0 ? seconds : now;
}

/* A section whose PTS is in it, at times with a wrong bit or a byte less; its length. */
static size_t cue_section(uint8_t *to) {
    static const uint8_t signal[] = {0xFC, 0x30, 0x16, 0x00, 0x01, 0x00, 0x00, 0x00, 0x10, 0x00, 0xFF, 0xF0, 0x05,
                                     0x06, 0xFF, 0x23, 0x45, 0x67, 0x89, 0x00, 0x00, 0x71, 0x3B, 0x22, 0xBD};
    memcpy(to, signal, sizeof signal);
    to[4 + below(40)] ^= (uint8_t)once_in(6);
    return sizeof signal - (size_t)once_in(8);
}

/* With the PTS and the UTC instant. */
static void held_cue(void) {
    uint64_t pts = drawn() >> once_in(2) * 31;
    uint32_t seconds = (uint32_t)drawn(), micros = below(1000010);
    uint32_t given[4] = {(uint32_t)(pts >> 32), (uint32_t)pts, seconds, micros};
    size_t n = room(), length = cue_section(in);
    splicer_7_cue(words, bytes, in, length, given, bare_out, n, bare);
    expect_call("splicer_call_cue", splicer_call_cue(&card, in, length, pts, seconds, micros, out, n));
}

/* The one on air, and what is due: each word of the archive's row in its field. */
static void held_air(void) {
    uint64_t row[9];
    struct splicer_air air;
    fill(&air, sizeof air);
    splicer_7_air(words, bytes, row);
    expect("splicer_call_air", splicer_call_air(&card, &air) == (int)row[0]);
    expect("splicer_call_air", air.connection == row[1] && air.session == row[2] && air.start == row[3] && air.end == row[4]);
    expect("splicer_call_air", air.played == row[5] && air.event == row[6] && air.access == row[7] && air.mux == row[8]);
}

static void held_due(void) {
    uint64_t row[4];
    struct splicer_due due;
    fill(&due, sizeof due);
    splicer_7_due(words, bytes, row);
    expect("splicer_call_due", splicer_call_due(&card, &due) == (int)row[0]);
    expect("splicer_call_due", due.instant == row[1] && due.seconds == row[2] && due.micros == row[3]);
}

static void held_rolling_due(void) {
    uint64_t row[2];
    uint32_t ticks = (uint32_t)drawn();
    splicer_7_rolling_due(rolling_words, rolling_bytes, counter, row);
    expect("splicer_call_rolling_due", splicer_call_rolling_due(&rolling, &ticks) == (int)row[0] && ticks == row[1]);
}

/* What only reads. */
static void held_reads(void) {
    uint64_t counts[4];
    struct splicer_waiting w = splicer_call_waiting(&card);
    splicer_7_waiting(words, bytes, counts);
    expect("splicer_call_waiting", memcmp(counts, w.count, sizeof counts) == 0);
    expect("splicer_call_primary", splicer_call_primary(&card) == splicer_7_primary(words, bytes));
    expect("splicer_call_mux", splicer_call_mux(&card) == splicer_7_mux(words, bytes));
    struct splicer_maps maps = any_maps();
    size_t length = 77, second = splicer_7_map(words, bytes);
    const uint8_t *map = splicer_call_map(&card, &maps, &length);
    expect("splicer_call_map", map == (second ? insertion : primary));
    expect("splicer_call_map", length == (second ? maps.insertion_length : maps.primary_length));
}

/* The page, over words 605 to 685; 17 rows are lent. */
static void held_ended(void) {
    struct splicer_row rows[17], page[17];
    size_t count = once_in(4) ? 15 + 2 * below(2) : 16;
    fill(rows, sizeof rows);
    memcpy(page, rows, sizeof rows);
    uint64_t refused = splicer_7_ended(words + 605, 81, page, count);
    expect("splicer_call_ended", splicer_call_ended(&card, rows, count) == refused);
    expect("splicer_call_ended", memcmp(rows, page, sizeof rows) == 0);
}

/* Whether a row has the seven words w: three times, then two numbers in each, the first in the low half. */
static int row_is(const struct splicer_session *s, const uint64_t *w) {
    return s->start == w[0] && s->end == w[1] && s->played == w[2] && s->connection == (uint32_t)w[3] && s->session == w[3] >> 32
           && s->event == (uint32_t)w[4] && s->prior == w[4] >> 32 && s->access == (uint32_t)w[5] && s->override == w[5] >> 32
           && s->mux == (uint32_t)w[6] && s->state == w[6] >> 32;
}

/* The sessions; 76 rows are lent, of which 74 are used at most. */
static void held_sessions(void) {
    static struct splicer_session rows[76];
    static uint64_t lent[76 * 7];
    size_t count = once_in(4) ? below(77) : once_in(4) ? 76 : below(6);
    fill(rows, sizeof rows);
    memcpy(lent, rows, sizeof rows);
    size_t held = splicer_7_sessions(words, bytes, (struct splicer_session *)(void *)lent, 7 * (count < 74 ? count : 74));
    expect("splicer_call_sessions", splicer_call_sessions(&card, rows, count) == held);
    for (size_t i = 0; i < 76; i++) {
        expect("splicer_call_sessions", row_is(&rows[i], &lent[7 * i]));
    }
}

static void held_card(void) {
    uint32_t kind = below(64), conn = once_in(20) ? 4 + below(2) : below(4);
    if (kind == 0) {
        held_fresh();
    } else if (kind < 8) {
        held_open(conn);
    } else if (kind < 10) {
        held_close(conn);
    } else if (kind < 24) {
        held_message(conn);
    } else if (kind < 40) {
        held_message_maps(conn);
    } else if (kind < 60) {
        held_tick();
    } else {
        held_cue();
    }
    held_reads();
    held_air();
    held_due();
    held_ended();
    held_sessions();
    held_reply_of();
}

/* A rolling card: made, given its instant, read; between them a session that falls due. */
static uint32_t reading;

static void held_rolling_fresh(void) {
    uint8_t name[32];
    named(name);
    fill(&rolling, sizeof rolling);
    splicer_7_rolling_fresh(name, rolling_words, rolling_bytes, counter, bare);
    expect_rolled("splicer_call_rolling_fresh", splicer_call_rolling_fresh(&rolling, name));
}

static void held_instant(void) {
    uint32_t given[3] = {now, once_in(8) ? 1000000 : below(1000000), (uint32_t)drawn()};
    size_t n = room();
    splicer_7_instant(rolling_words, rolling_bytes, counter, given, bare_out, n, bare);
    expect_rolled("splicer_call_instant", splicer_call_instant(&rolling, given[0], given[1], given[2], out, n));
    reading = bare[0] == 0 ? given[2] : reading;
}

static void held_reading(void) {
    uint32_t next = reading + (once_in(10) ? (uint32_t)drawn() : below(500000));
    size_t n = room();
    splicer_7_reading(rolling_words, rolling_bytes, counter, next, bare_out, n, bare);
    expect_rolled("splicer_call_reading", splicer_call_reading(&rolling, next, out, n));
    reading = bare[0] == 0 ? next : reading;
}

static void held_rolling(void) {
    uint64_t reply[4];
    uint32_t kind = below(16);
    if (kind == 0) {
        held_rolling_fresh();
    } else if (kind < 4) {
        held_instant();
    } else {
        held_reading();
    }
    splicer_7_open(rolling_words, rolling_bytes, 0, reply);
    splicer_7_message(rolling_words, rolling_bytes, 0, in, message(in), in, 0, in, 0, bare_out, 4096, reply);
    memcpy(rolling.core.words, rolling_words, sizeof words);
    memcpy(rolling.core.bytes, rolling_bytes, sizeof bytes);
    memcpy(out, bare_out, sizeof out);
    held_rolling_due();
}

/* Lists of streams: the archive's words are count, PcrPID and 16 rows of 8. */
static uint64_t list[130];
static uint8_t kept[3744];

static void any_list(void) {
    fill(kept, sizeof kept);
    fill(list, sizeof list);
    list[0] = below(17);
    list[1] = below(0x2000);
    for (uint32_t i = 0; i < 16; i++) {
        uint64_t *row = list + 2 + 8 * i;
        row[0] = below(0x2000), row[1] = below(0xFFFF), row[2] = (uint32_t)drawn(), row[3] = (uint32_t)drawn();
        row[4] = (uint32_t)drawn(), row[5] = below(0x10000), row[6] = below(0x10000), row[7] = once_in(2) ? 0 : below(100);
    }
}

/* The struct is the list and the kept bytes, field by field. */
static int is_list(const struct splicer_streams *s) {
    return s->count == list[0] && s->pcr_pid == list[1] && memcmp(s->row, list + 2, sizeof s->row) == 0 &&
           memcmp(s->kept, kept, sizeof kept) == 0;
}

static void held_streams(void) {
    struct splicer_streams s;
    any_list();
    size_t needed = splicer_7_write_streams(list, kept, bare_out, 5000), spare = once_in(3) ? 0 : below(3);
    s.count = list[0], s.pcr_pid = list[1];
    memcpy(s.row, list + 2, sizeof s.row);
    memcpy(s.kept, kept, sizeof kept);
    memcpy(out, bare_out, sizeof out);
    size_t n = needed + spare - (size_t)(needed > 0 && once_in(4));
    size_t written = splicer_7_write_streams(list, kept, bare_out, n);
    expect("splicer_call_write_streams", splicer_call_write_streams(&s, out, n) == written && memcmp(out, bare_out, sizeof out) == 0);
    memcpy(in, out, sizeof in);
    any_list();
    s.count = list[0], s.pcr_pid = list[1];
    memcpy(s.row, list + 2, sizeof s.row);
    memcpy(s.kept, kept, sizeof kept);
    size_t taken = splicer_7_read_streams(in, n, list, kept);
    expect("splicer_call_read_streams", splicer_call_read_streams(in, n, &s) == taken && is_list(&s));
}
