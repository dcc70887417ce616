/* splicer_record.h: a recorder for drivers, beside splicer.h. Each call goes to a sink in the card program's mark, and behind it what was
 * written for it: the format that checker, referee and the desk's program read. Nothing is allocated, no file is opened: where the
 * bytes go is the sink's. All numbers are big-endian.
 *
 *     open    4F connection                      close   43 connection
 *     message 4D connection, the whole message   tick    54 00 Seconds 4 MicroSeconds 4
 *     then the records as they stand in `out`, or 45 and the house number of a refusal
 *
 * Checker and referee know these marks alone, and take the further ones for unknown; desk and the second program read all:
 *
 *     name    4E 00 name 32, first of all        section 4C 0 or 1 (the primary's, the insertion's) length 2, bytes
 *     cue     51 00 length 2, section, PTS 8 Seconds 4 MicroSeconds 4
 *     instant 49 00 Seconds 4 MicroSeconds 4 reading 4     reading 57 00 reading 4
 *
 * A recording is that of one channel from splicer_call_fresh on; without splicer_record_name the ChannelName is kept beside it, as in the
 * file's name. Left out are calls that the marks cannot hold and that changed nothing: those refused with 2 or 5, and a message to a
 * connection that is not there or not open of which not all bytes were read. A connection above 255 is written as 255. Refused, Cost and
 * Threads as splicer.h says. What a sink's `put` takes comes to each cost; one call at a time on a sink. */
#ifndef SPLICER_RECORD_H
#define SPLICER_RECORD_H

#include "splicer.h"

#ifdef __cplusplus
extern "C" {
#endif

/* The bytes that are recorded of a longer section, 1,025 and 513: the answer is the same as for all of it. */
enum { SPLICER_RECORDED_MAP = SPLICER_MAP_SECTION + 1, SPLICER_RECORDED_CUE = SPLICER_CUE_SECTION + 1 };

/* Where a recording goes: `put` gets `to` and the next n bytes, in order. It must take them all; n is never 0. */
struct splicer_sink {
    void (*put)(void *to, const uint8_t *bytes, size_t n);
    void *to;
};

/* What a call wrote, or its refusal.
 * Refused: never. Cost: a few. Threads: alone on the sink. */
static inline void splicer_record_reply(const struct splicer_sink *sink, struct splicer_reply reply, const uint8_t *out) {
    uint8_t refused[2];
    if (reply.refused != SPLICER_GOOD) {
        refused[0] = 0x45;
        refused[1] = (uint8_t)reply.refused;
        sink->put(sink->to, refused, sizeof refused);
    } else if (reply.written > 0) {
        sink->put(sink->to, out, reply.written);
    }
}

/* A mark and a connection.
 * Refused: never. Cost: a few. Threads: alone on the sink. */
static inline void splicer_record_mark(const struct splicer_sink *sink, uint8_t mark, uint32_t conn) {
    uint8_t bytes[SPLICER_MARK];
    bytes[0] = mark;
    bytes[1] = (uint8_t)(conn > 255 ? 255 : conn);
    sink->put(sink->to, bytes, sizeof bytes);
}

/* Numbers of four bytes.
 * Refused: never. Cost: a few. Threads: alone on the sink. */
static inline void splicer_record_words(const struct splicer_sink *sink, const uint32_t *words, size_t count) {
    for (size_t i = 0; i < count; i++) {
        uint8_t word[4];
        for (int k = 0; k < 4; k++) {
            word[k] = (uint8_t)(words[i] >> (24 - 8 * k));
        }
        sink->put(sink->to, word, sizeof word);
    }
}

/* A mark, its second byte, and a section of at most so many bytes behind its length.
 * Refused: never. Cost: a few. Threads: alone on the sink. */
static inline void splicer_record_lent(const struct splicer_sink *sink, uint8_t mark, uint32_t which, const uint8_t *section, size_t length,
                                       size_t most) {
    size_t taken = length < most ? length : most;
    uint8_t two[2];
    two[0] = (uint8_t)(taken >> 8);
    two[1] = (uint8_t)taken;
    splicer_record_mark(sink, mark, which);
    sink->put(sink->to, two, sizeof two);
    if (taken > 0) {
        sink->put(sink->to, section, taken);
    }
}

/* The ChannelName (SPLICER_NAME bytes) that splicer_call_fresh was given: before all else that is recorded, or not at all.
 * Refused: never. Cost: a few. Threads: alone on the sink. */
static inline void splicer_record_name(const struct splicer_sink *sink, const uint8_t *name) {
    splicer_record_mark(sink, 0x4E, 0);
    sink->put(sink->to, name, SPLICER_NAME);
}

/* To be called when a section changes, before the next message call that lends it: the primary's (0) or the insertion's (1). Before any
 * call of it both are empty.
 * Refused: never. Cost: a few. Threads: alone on the sink. */
static inline void splicer_record_section(const struct splicer_sink *sink, uint32_t which, const uint8_t *section, size_t length) {
    splicer_record_lent(sink, 0x4C, which != 0, section, length, SPLICER_RECORDED_MAP);
}

/* The bytes of the first message that a recording takes: all of it, of one with a MessageSize above 4,088 the header, of one that is not
 * there as a whole none.
 * Refused: never. Cost: a few. Threads: free. */
static inline size_t splicer_record_length(const uint8_t *in, size_t length) {
    size_t whole;
    if (length < SPLICER_HEADER) {
        return 0;
    }
    whole = SPLICER_HEADER + (size_t)splicer_u16(in + 2);
    if (whole > SPLICER_MESSAGE) {
        return SPLICER_HEADER;
    }
    return length < whole ? 0 : whole;
}

/* splicer_call_open, recorded.
 * Refused: 1, 6. Cost: the call's and a few. Threads: alone, on the sink too. */
static inline struct splicer_reply splicer_recorded_open(struct splicer *s, const struct splicer_sink *sink, uint32_t conn) {
    struct splicer_reply reply = splicer_call_open(s, conn);
    splicer_record_mark(sink, 0x4F, conn);
    splicer_record_reply(sink, reply, 0);
    return reply;
}

/* splicer_call_close, recorded.
 * Refused: 1, 2, 7. Cost: the call's and a few. Threads: alone, on the sink too. */
static inline struct splicer_reply splicer_recorded_close(struct splicer *s, const struct splicer_sink *sink, uint32_t conn, uint8_t *out,
                                                          size_t room) {
    struct splicer_reply reply = splicer_call_close(s, conn, out, room);
    if (reply.refused != SPLICER_NO_ROOM) {
        splicer_record_mark(sink, 0x43, conn);
        splicer_record_reply(sink, reply, out);
    }
    return reply;
}

/* splicer_call_message_maps, recorded. The sections are not in its entry: splicer_record_section says when they change.
 * Refused: 1, 2, 7, 10, 5, 4. Cost: the call's and a few. Threads: alone, on the sink too. */
static inline struct splicer_reply splicer_recorded_message_maps(struct splicer *s, const struct splicer_sink *sink, uint32_t conn,
                                                                 const uint8_t *in, size_t length, const struct splicer_maps *maps,
                                                                 uint8_t *out, size_t room) {
    struct splicer_reply reply = splicer_call_message_maps(s, conn, in, length, maps, out, room);
    size_t taken = splicer_record_length(in, length);
    if (reply.refused != SPLICER_NO_ROOM && reply.refused != SPLICER_SHORT && taken > 0) {
        splicer_record_mark(sink, 0x4D, conn);
        sink->put(sink->to, in, taken);
        splicer_record_reply(sink, reply, out);
    }
    return reply;
}

/* splicer_call_message, recorded: with two empty sections.
 * Refused: 1, 2, 7, 5, 4. Cost: the call's and a few. Threads: alone, on the sink too. */
static inline struct splicer_reply splicer_recorded_message(struct splicer *s, const struct splicer_sink *sink, uint32_t conn,
                                                            const uint8_t *in, size_t length, uint8_t *out, size_t room) {
    struct splicer_maps none = {in, 0, in, 0};
    return splicer_recorded_message_maps(s, sink, conn, in, length, &none, out, room);
}

/* splicer_call_tick, recorded.
 * Refused: 2, 8, 3. Cost: the call's and a few. Threads: alone, on the sink too. */
static inline struct splicer_reply splicer_recorded_tick(struct splicer *s, const struct splicer_sink *sink, uint32_t seconds,
                                                         uint32_t micros, uint8_t *out, size_t room) {
    struct splicer_reply reply = splicer_call_tick(s, seconds, micros, out, room);
    if (reply.refused != SPLICER_NO_ROOM) {
        uint8_t time[8];
        for (int i = 0; i < 4; i++) {
            time[i] = (uint8_t)(seconds >> (24 - 8 * i));
            time[4 + i] = (uint8_t)(micros >> (24 - 8 * i));
        }
        splicer_record_mark(sink, 0x54, 0);
        sink->put(sink->to, time, sizeof time);
        splicer_record_reply(sink, reply, out);
    }
    return reply;
}

/* splicer_call_cue, recorded.
 * Refused: 2, 8, 11. Cost: the call's and a few. Threads: alone on the sink, and shared on the splicer. */
static inline struct splicer_reply splicer_recorded_cue(const struct splicer *s, const struct splicer_sink *sink, const uint8_t *section,
                                                        size_t length, uint64_t pts, uint32_t seconds, uint32_t micros, uint8_t *out,
                                                        size_t room) {
    struct splicer_reply reply = splicer_call_cue(s, section, length, pts, seconds, micros, out, room);
    if (reply.refused != SPLICER_NO_ROOM) {
        uint32_t words[4] = {(uint32_t)(pts >> 32), (uint32_t)pts, seconds, micros};
        splicer_record_lent(sink, 0x51, 0, section, length, SPLICER_RECORDED_CUE);
        splicer_record_words(sink, words, 4);
        splicer_record_reply(sink, reply, out);
    }
    return reply;
}

/* splicer_call_instant, recorded.
 * Refused: 2, 8, 12. Cost: the call's and a few. Threads: alone, on the sink too. */
static inline struct splicer_reply splicer_recorded_instant(struct splicer_rolling *r, const struct splicer_sink *sink, uint32_t seconds,
                                                            uint32_t micros, uint32_t reading, uint8_t *out, size_t room) {
    struct splicer_reply reply = splicer_call_instant(r, seconds, micros, reading, out, room);
    if (reply.refused != SPLICER_NO_ROOM) {
        uint32_t words[3] = {seconds, micros, reading};
        splicer_record_mark(sink, 0x49, 0);
        splicer_record_words(sink, words, 3);
        splicer_record_reply(sink, reply, out);
    }
    return reply;
}

/* splicer_call_reading, recorded.
 * Refused: 2, 12. Cost: the call's and a few. Threads: alone, on the sink too. */
static inline struct splicer_reply splicer_recorded_reading(struct splicer_rolling *r, const struct splicer_sink *sink, uint32_t reading,
                                                            uint8_t *out, size_t room) {
    struct splicer_reply reply = splicer_call_reading(r, reading, out, room);
    if (reply.refused != SPLICER_NO_ROOM) {
        splicer_record_mark(sink, 0x57, 0);
        splicer_record_words(sink, &reading, 1);
        splicer_record_reply(sink, reply, out);
    }
    return reply;
}

#ifdef __cplusplus
}
#endif

#endif
