/* Records, their fields and the words for their numbers: by hand from the layouts of J.280 and documents 01 and 02. words.h, the words of
 * the Rust wrapper, is made by headers.sh. */
#include "words.h"

static void held_numbers(void) {
    uint8_t p[4];
    fill(p, sizeof p);
    expect("splicer_u16", splicer_u16(p) == number(p, 2));
    expect("splicer_u32", splicer_u32(p) == number(p, 4));
}

/* A record: 52, connection, MessageID 2, MessageSize 2, Result 2, Result_Extension 2, data. */
static uint8_t *record(uint8_t *p, uint32_t id, uint32_t size) {
    p = put(put(p, 0x52, 1), below(4), 1);
    p = put(put(put(p, id, 2), size, 2), below(0x10000), 2);
    fill(p, 2 + size);
    return p + 2 + size;
}

static void expect_record(const uint8_t *p, size_t size, const struct splicer_record *r) {
    const char *function = "splicer_next_record";
    expect(function, r->connection == p[1] && r->message_id == number(p + 2, 2) && r->result == number(p + 6, 2));
    expect(function, r->size == size && r->length == 8 + size && r->message == p + 2 && r->data == p + 10);
}

/* Two records, then none: at the end, where the second is cut, or where another mark stands. */
static void held_next_record(void) {
    const char *function = "splicer_next_record";
    struct splicer_record r;
    size_t first = below(300), second = below(300), at = 0, both = 20 + first + second, cut = once_in(3);
    int is = !cut && !once_in(3);
    record(record(in, below(20), (uint32_t)first), below(20), (uint32_t)second);
    expect(function, splicer_next_record(in, both - cut, &at, &r) == 1 && at == 10 + first);
    expect_record(in, first, &r);
    in[at] = is || cut ? 0x52 : 0x45;
    expect(function, splicer_next_record(in, both - cut, &at, &r) == is && at == (is ? both : 10 + first));
    if (is) {
        expect_record(in + 10 + first, second, &r);
        expect(function, splicer_next_record(in, both, &at, &r) == 0 && at == both);
    }
}

/* A record of a kind and size, mostly those of ID and SIZE. */
static struct splicer_record any_record(uint32_t id, uint32_t size) {
    struct splicer_record r;
    fill(&r, sizeof r);
    fill(in, 600);
    r.message_id = once_in(4) ? below(20) : id;
    r.size = once_in(4) ? size + below(3) - 1 : size;
    r.data = in;
    return r;
}

/* Init_Response: Revision_Num 2, ChannelName 32. */
static void held_read_init(void) {
    struct splicer_record r = any_record(2, 34);
    struct splicer_init_response to = {77, 0};
    int is = r.message_id == 2 && r.size == 34;
    expect("splicer_read_init", splicer_read_init(&r, &to) == is);
    expect("splicer_read_init", to.revision == (is ? number(in, 2) : 77) && to.name == (is ? in + 2 : (const uint8_t *)0));
}

/* Alive_Response: State 4, SessionID 4, Seconds 4, MicroSeconds 4. */
static void held_read_alive(void) {
    struct splicer_record r = any_record(6, 16);
    struct splicer_alive_response to = {77, 77, 77, 77};
    int is = r.message_id == 6 && r.size == 16;
    expect("splicer_read_alive", splicer_read_alive(&r, &to) == is);
    expect("splicer_read_alive", to.state == (is ? number(in, 4) : 77) && to.session == (is ? number(in + 4, 4) : 77));
    expect("splicer_read_alive", to.seconds == (is ? number(in + 8, 4) : 77) && to.micros == (is ? number(in + 12, 4) : 77));
}

/* SpliceComplete_Response: SessionID 4, SpliceTypeFlag 1, Bitrate 4, PlayedDuration 4. */
static void held_read_complete(void) {
    struct splicer_record r = any_record(9, 13);
    struct splicer_splice_complete to = {77, 777, 77, 77};
    int is = r.message_id == 9 && r.size == 13;
    expect("splicer_read_complete", splicer_read_complete(&r, &to) == is);
    expect("splicer_read_complete", to.session == (is ? number(in, 4) : 77) && to.flag == (is ? number(in + 4, 1) : 777));
    expect("splicer_read_complete", to.bitrate == (is ? number(in + 5, 4) : 77) && to.played == (is ? number(in + 9, 4) : 77));
}

/* Cue_Request: Seconds 4, MicroSeconds 4, the section. */
static void held_read_cue(void) {
    struct splicer_record r = any_record(12, once_in(4) ? 8 : 8 + below(500));
    struct splicer_cue_request to = {77, 77, 0, 77};
    int is = r.message_id == 12 && r.size >= 8;
    expect("splicer_read_cue", splicer_read_cue(&r, &to) == is);
    expect("splicer_read_cue", to.seconds == (is ? number(in, 4) : 77) && to.micros == (is ? number(in + 4, 4) : 77));
    expect("splicer_read_cue", to.section == (is ? in + 8 : (const uint8_t *)0) && to.length == (is ? r.size - 8 : 77));
}

/* Splice_Response and Abort_Response: SessionID 4. */
static void held_read_session(void) {
    struct splicer_record r = any_record(once_in(2) ? 8 : 15, 4);
    uint32_t to = 77;
    int is = (r.message_id == 8 || r.message_id == 15) && r.size == 4;
    expect("splicer_read_session", splicer_read_session(&r, &to) == is && to == (is ? number(in, 4) : 77));
}

/* ExtendedData_Response: SessionID 4; with 16 more tag 1, length 1, identifier 4, SpliceEventID 4, result 2, PlayedDuration 4. */
static void held_read_extended(void) {
    const char *function = "splicer_read_extended";
    struct splicer_record r = any_record(4, once_in(2) ? 4 : 20);
    struct splicer_extended_data to = {77, 77, 77, 77, 77};
    int is = r.message_id == 4 && (r.size == 4 || r.size == 20), found = is && r.size == 20;
    uint64_t none = is ? 0 : 77;
    expect(function, splicer_read_extended(&r, &to) == is && to.session == (is ? number(in, 4) : 77));
    expect(function, to.found == (found ? 1 : none) && to.event == (found ? number(in + 10, 4) : none));
    expect(function, to.result == (found ? number(in + 14, 2) : none) && to.played == (found ? number(in + 16, 4) : none));
}

/* A word of a list that begins at a number, or what is said of all others. */
static void expect_word(const char *function, const char *said, const char *const *list_of, uint32_t at, uint32_t count,
                        const char *other) {
    expect(function, strcmp(said, at < count ? list_of[at] : other) == 0);
}

static void held_words(uint32_t n) {
    expect_word("splicer_refusal_text", splicer_refusal_text(n), refusals, n, 17, "no house number");
    expect_word("splicer_result_text", splicer_result_text(n), results, n - 100, 36, "no result code of J.280");
    expect_word("splicer_message_text", splicer_message_text(n), messages, n, 18, "no message of J.280");
    expect_word("splicer_state_text", splicer_state_text(n), states, n, 3, "no state of J.280");
}

static void held_texts(void) {
    held_numbers();
    held_next_record();
    held_read_init();
    held_read_alive();
    held_read_complete();
    held_read_cue();
    held_read_session();
    held_read_extended();
    held_words(below(140));
    held_words((uint32_t)drawn());
}
