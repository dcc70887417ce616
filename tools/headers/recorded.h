/* The recorder, whose bytes are worked out here by the format of 02, CR 14; and what is for the bench, beside libbench.a alone. */
void splicer_bench_2_check(const uint8_t *, size_t, uint64_t *);
void splicer_bench_2_referee_fresh(const uint8_t *, uint64_t *, uint8_t *, uint64_t *, uint64_t *);
void splicer_bench_2_referee_feed(uint64_t *, uint8_t *, uint8_t *, uint8_t *, uint64_t *, const uint8_t *, size_t, uint64_t *);
void splicer_bench_2_referee_end(const uint64_t *, uint64_t *);
void splicer_bench_2_referee_due(const uint64_t *, uint64_t *);
void splicer_bench_2_recall_fresh(uint8_t *, size_t, uint64_t *);
void splicer_bench_2_recall_open(uint8_t *, size_t, uint32_t, uint64_t *);
void splicer_bench_2_recall_close(uint8_t *, size_t, uint32_t, uint8_t *, size_t, uint64_t *);
void splicer_bench_2_recall_message(uint8_t *, size_t, uint32_t, const uint8_t *, size_t, const uint8_t *, size_t, const uint8_t *, size_t,
                                    uint8_t *, size_t, uint64_t *);
void splicer_bench_2_recall_tick(uint8_t *, size_t, uint32_t, uint32_t, uint8_t *, size_t, uint64_t *);

/* What a sink got, and what is due to it. */
static uint8_t tape[70000], due[70000];
static size_t taped, dues;

static void keep(void *to, const uint8_t *p, size_t n) {
    expect("a sink's n", n > 0 && to == &taped && taped + n <= sizeof tape);
    memcpy(tape + taped, p, n);
    taped += n;
}

static const struct splicer_sink sink = {keep, &taped};

static void owe(const uint8_t *p, size_t n) {
    memcpy(due + dues, p, n);
    dues += n;
}

static void owe_mark(uint8_t mark, uint32_t conn) {
    uint8_t two[2] = {mark, (uint8_t)(conn < 255 ? conn : 255)};
    owe(two, 2);
}

/* The records, or 45 and the house number. */
static void owe_reply(void) {
    if (bare[0] != 0) {
        owe_mark(0x45, (uint32_t)bare[0]);
    } else {
        owe(bare_out, bare[2]);
    }
}

static void expect_tape(const char *function) {
    expect(function, taped == dues && memcmp(tape, due, dues) == 0);
}

/* All of the first message; of one above 4,088 its header; of one that is not whole nothing. */
static size_t whole(size_t length) {
    size_t size = length < 8 ? 0 : (size_t)number(in + 2, 2);
    return length < 8 ? 0 : size > 4088 ? 8 : length < 8 + size ? 0 : 8 + size;
}

static void held_parts(void) {
    struct splicer_reply r = {once_in(2) ? 1 + below(16) : 0, 0, 0, once_in(3) ? 0 : below(60)};
    uint32_t conn = once_in(4) ? (uint32_t)drawn() : below(300);
    size_t length = message(in);
    expect("splicer_record_length", splicer_record_length(in, length) == whole(length));
    uint8_t mark = (uint8_t)below(256);
    splicer_record_mark(&sink, mark, conn);
    owe_mark(mark, conn);
    expect_tape("splicer_record_mark");
    bare[0] = r.refused, bare[2] = r.written;
    fill(bare_out, 60);
    splicer_record_reply(&sink, r, bare_out);
    owe_reply();
    expect_tape("splicer_record_reply");
    memcpy(out, bare_out, sizeof out);
}

static void held_recorded_open(uint32_t conn) {
    splicer_7_open(words, bytes, conn, bare);
    owe_mark(0x4F, conn);
    owe_reply();
    expect_call("splicer_recorded_open", splicer_recorded_open(&card, &sink, conn));
}

static void held_recorded_close(uint32_t conn) {
    size_t n = room();
    splicer_7_close(words, bytes, conn, bare_out, n, bare);
    if (bare[0] != 2) {
        owe_mark(0x43, conn);
        owe_reply();
    }
    expect_call("splicer_recorded_close", splicer_recorded_close(&card, &sink, conn, out, n));
}

static void held_recorded_message(uint32_t conn) {
    size_t length = message(in), n = room();
    splicer_7_message(words, bytes, conn, in, length, in, 0, in, 0, bare_out, n, bare);
    if (bare[0] != 2 && bare[0] != 5 && whole(length) > 0) {
        owe_mark(0x4D, conn);
        owe(in, whole(length));
        owe_reply();
    }
    expect_call("splicer_recorded_message", splicer_recorded_message(&card, &sink, conn, in, length, out, n));
}

static void held_recorded_tick(void) {
    uint32_t seconds = now + below(2), micros = once_in(8) ? 1000000 : below(1000000);
    size_t n = room();
    splicer_7_tick(words, bytes, seconds, micros, bare_out, n, bare);
    if (bare[0] != 2) {
        uint8_t time[8];
        put(put(time, seconds, 4), micros, 4);
        owe_mark(0x54, 0);
        owe(time, 8);
        owe_reply();
    }
    expect_call("splicer_recorded_tick", splicer_recorded_tick(&card, &sink, seconds, micros, out, n));
    now = bare[0] == 0 ? seconds : now;
}

static void held_recorded(void) {
    static const char *const functions[] = {"splicer_recorded_open", "splicer_recorded_close", "splicer_recorded_message",
                                            "splicer_recorded_tick"};
    uint32_t kind = below(16), conn = once_in(8) ? 4 + below(300) : below(4), at = kind < 4 ? 0 : kind < 5 ? 1 : kind < 11 ? 2 : 3;
    if (at == 0) {
        held_recorded_open(conn);
    } else if (at == 1) {
        held_recorded_close(conn);
    } else if (at == 2) {
        held_recorded_message(conn);
    } else {
        held_recorded_tick();
    }
    expect_tape(functions[at]);
}

/* A number of so many bytes. */
static void owe_number(uint64_t value, size_t n) {
    uint8_t number[8];
    put(number, value, (int)n);
    owe(number, n);
}

/* A section of at most so many bytes behind its length. */
static void owe_section(const uint8_t *section, size_t length, size_t most) {
    size_t taken = length < most ? length : most;
    owe_number(taken, 2);
    owe(section, taken);
}

/* Parts of the further marks. */
static void held_marks(void) {
    static uint8_t section[2000];
    uint8_t name[32], mark = (uint8_t)below(256);
    uint32_t numbers[3] = {(uint32_t)drawn(), (uint32_t)drawn(), (uint32_t)drawn()}, which = below(256);
    size_t length = once_in(4) ? 0 : once_in(2) ? 1023 + below(5) : below(2000), count = below(4), most = below(700);
    fill(section, sizeof section);
    named(name);
    splicer_record_words(&sink, numbers, count);
    for (size_t i = 0; i < count; i++) {
        owe_number(numbers[i], 4);
    }
    expect_tape("splicer_record_words");
    splicer_record_lent(&sink, mark, which, section, length, most);
    owe_mark(mark, which);
    owe_section(section, length, most);
    expect_tape("splicer_record_lent");
    splicer_record_name(&sink, name);
    owe_mark(0x4E, 0);
    owe(name, 32);
    expect_tape("splicer_record_name");
    which = below(2);
    splicer_record_section(&sink, which, section, length);
    owe_mark(0x4C, which);
    owe_section(section, length, 1025);
    expect_tape("splicer_record_section");
}

static void held_recorded_message_maps(uint32_t conn) {
    struct splicer_maps maps = any_maps();
    size_t length = message(in), n = room(), first = maps.primary_length, second = maps.insertion_length;
    splicer_7_message(words, bytes, conn, in, length, primary, first, insertion, second, bare_out, n, bare);
    if (bare[0] != 2 && bare[0] != 5 && whole(length) > 0) {
        owe_mark(0x4D, conn);
        owe(in, whole(length));
        owe_reply();
    }
    expect_call("splicer_recorded_message_maps", splicer_recorded_message_maps(&card, &sink, conn, in, length, &maps, out, n));
    expect_tape("splicer_recorded_message_maps");
}

static void held_recorded_cue(void) {
    uint64_t pts = drawn() >> once_in(2) * 31;
    uint32_t seconds = (uint32_t)drawn(), micros = below(1000010);
    uint32_t given[4] = {(uint32_t)(pts >> 32), (uint32_t)pts, seconds, micros};
    size_t n = room(), length = cue_section(in);
    length = once_in(4) ? 510 + below(6) : length;
    splicer_7_cue(words, bytes, in, length, given, bare_out, n, bare);
    if (bare[0] != 2) {
        owe_mark(0x51, 0);
        owe_section(in, length, 513);
        owe_number(pts, 8);
        owe_number(seconds, 4);
        owe_number(micros, 4);
        owe_reply();
    }
    expect_call("splicer_recorded_cue", splicer_recorded_cue(&card, &sink, in, length, pts, seconds, micros, out, n));
    expect_tape("splicer_recorded_cue");
}

static void held_recorded_instant(void) {
    uint32_t seconds = now + below(2), micros = once_in(8) ? 1000000 : below(1000000), reading = (uint32_t)drawn();
    uint32_t given[3] = {seconds, micros, reading};
    size_t n = room();
    splicer_7_instant(rolling_words, rolling_bytes, counter, given, bare_out, n, bare);
    if (bare[0] != 2) {
        owe_mark(0x49, 0);
        owe_number(seconds, 4);
        owe_number(micros, 4);
        owe_number(reading, 4);
        owe_reply();
    }
    expect_rolled("splicer_recorded_instant", splicer_recorded_instant(&rolling, &sink, seconds, micros, reading, out, n));
    expect_tape("splicer_recorded_instant");
}

static void held_recorded_reading(void) {
    uint32_t reading = once_in(4) ? (uint32_t)drawn() : (uint32_t)counter[1] + below(90000);
    size_t n = room();
    splicer_7_reading(rolling_words, rolling_bytes, counter, reading, bare_out, n, bare);
    if (bare[0] != 2) {
        owe_mark(0x57, 0);
        owe_number(reading, 4);
        owe_reply();
    }
    expect_rolled("splicer_recorded_reading", splicer_recorded_reading(&rolling, &sink, reading, out, n));
    expect_tape("splicer_recorded_reading");
}

/* The calls of the further marks, and of the sections that a message call lends. */
static void held_recorded_further(void) {
    uint32_t kind = below(8), conn = once_in(8) ? 4 + below(300) : below(4);
    if (kind < 3) {
        held_recorded_message_maps(conn);
    } else if (kind < 5) {
        held_recorded_cue();
    } else if (kind < 6) {
        held_recorded_instant();
    } else {
        held_recorded_reading();
    }
}

/* A recording: the tape, whole or cut, at times with a wrong byte or too long. */
static void held_check(void) {
    static uint8_t recording[65540];
    uint64_t found[3];
    size_t length = taped < 65536 ? taped : 65536;
    memcpy(recording, tape, length);
    if (once_in(2) && length > 0) {
        recording[below((uint32_t)length)] ^= (uint8_t)(1 + below(255));
    }
    length = once_in(6) ? 65535 + below(3) : once_in(3) ? below((uint32_t)length + 1) : length;
    splicer_bench_2_check(recording, length, found);
    struct splicer_finding f = splicer_check(recording, length);
    expect("splicer_check", f.refused == found[0] && f.differs == found[1] && f.number == found[2]);
}

/* A referee, by the header and by the archive: the same tape in pieces, at times with a wrong byte. */
static struct splicer_referee umpire, bare_umpire;

static void expect_verdict(const char *function, struct splicer_verdict v, const uint64_t *words) {
    expect("splicer_verdict_of", splicer_verdict_of(words).good == words[3] && splicer_verdict_of(words).number == words[1]);
    expect(function, v.kind == words[0] && v.number == words[1] && v.place == words[2] && v.good == words[3]);
    expect(function, memcmp(&umpire, &bare_umpire, sizeof umpire) == 0);
}

static void held_referee_end(void) {
    uint64_t words[4], part[2];
    const uint8_t *from;
    size_t length;
    splicer_bench_2_referee_end(bare_umpire.stage, words);
    expect_verdict("splicer_referee_end", splicer_referee_end(&umpire), words);
    splicer_bench_2_referee_due(bare_umpire.stage, part);
    splicer_referee_due(&umpire, &from, &length);
    expect("splicer_referee_due", from == umpire.due + part[0] && length == part[1]);
}

static void held_referee(void) {
    static uint8_t recording[70000];
    uint8_t name[32] = "CH1";
    uint64_t words[4];
    size_t at = 0;
    memcpy(recording, tape, taped);
    if (once_in(2) && taped > 0) {
        recording[below((uint32_t)taped)] ^= (uint8_t)(1 + below(255));
    }
    if (once_in(4)) {
        memset(name, 'x', sizeof name);
    }
    memset(&umpire, 0xA5, sizeof umpire);
    bare_umpire = umpire;
    splicer_bench_2_referee_fresh(name, bare_umpire.core.words, bare_umpire.core.bytes, bare_umpire.stage, words);
    expect("splicer_referee_fresh", splicer_referee_fresh(&umpire, name) == words[0]);
    expect("splicer_referee_fresh", memcmp(&umpire, &bare_umpire, sizeof umpire) == 0);
    held_referee_end();
    while (at < taped) {
        size_t left = taped - at, n = 1 + below(once_in(3) ? 5000 : 7);
        n = n < left ? n : left;
        splicer_bench_2_referee_feed(bare_umpire.core.words, bare_umpire.core.bytes, bare_umpire.due, bare_umpire.kept, bare_umpire.stage,
                                     recording + at, n, words);
        expect_verdict("splicer_referee_feed", splicer_referee_feed(&umpire, recording + at, n), words);
        held_referee_end();
        at += n;
    }
}

/* The second engine's log, by the header and by the archive. */
static uint8_t book[65536], bare_book[65536];

static void expect_recall(const char *function, struct splicer_reply r) {
    expect_reply(function, r);
    expect(function, memcmp(out, bare_out, sizeof out) == 0 && memcmp(book, bare_book, sizeof book) == 0);
}

static void held_recall_message(size_t size, uint32_t conn, size_t n) {
    struct splicer_maps maps = any_maps();
    size_t length = message(in), first = maps.primary_length, second = maps.insertion_length;
    splicer_bench_2_recall_message(bare_book, size, conn, in, length, primary, first, insertion, second, bare_out, n, bare);
    expect_recall("splicer_recall_message",
                  splicer_recall_message(book, size, conn, in, length, primary, first, insertion, second, out, n));
}

static void held_recall_tick(size_t size, size_t n) {
    uint32_t seconds = now + below(2), micros = once_in(8) ? 1000000 : below(1000000);
    splicer_bench_2_recall_tick(bare_book, size, seconds, micros, bare_out, n, bare);
    expect_recall("splicer_recall_tick", splicer_recall_tick(book, size, seconds, micros, out, n));
    now = bare[0] == 0 ? seconds : now;
}

static void held_recall_fresh(void) {
    size_t size = once_in(2) ? 65535 : 65536;
    splicer_bench_2_recall_fresh(bare_book, size, bare);
    expect_recall("splicer_recall_fresh", splicer_recall_fresh(book, size));
}

static void held_recall(void) {
    size_t size = once_in(12) ? 65535 : 65536, n = room();
    uint32_t kind = below(32), conn = once_in(8) ? 4 : below(2);
    if (kind < 6) {
        splicer_bench_2_recall_open(bare_book, size, conn, bare);
        expect_recall("splicer_recall_open", splicer_recall_open(book, size, conn));
    } else if (kind < 8) {
        splicer_bench_2_recall_close(bare_book, size, conn, bare_out, n, bare);
        expect_recall("splicer_recall_close", splicer_recall_close(book, size, conn, out, n));
    } else if (kind < 22) {
        held_recall_message(size, conn, n);
    } else {
        held_recall_tick(size, n);
    }
}
