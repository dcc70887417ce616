/* splicer.h: the proved splicer core for drivers in C99, C11 and C++11 or later. Link with libdoor.a; a driver of the card with a rolling
 * counter also with librolldoor.a.
 *
 * One struct splicer is one output channel with its connections 0 to 3. The driver owns its memory; the core keeps none of its own,
 * allocates nothing and has no globals. Every call borrows its arguments until it returns and keeps no pointer.
 *
 * What the driver owes, and nothing checks: docs/INTEGRATION.md, "What the driver owes". In short: a splicer is made first, then only the
 * calls write to the struct; what is lent does not overlap; no null pointer but for a buffer of length 0. Everything else is tested by the
 * call and answered by a house number: any connection, any bytes, any time, any length of a buffer.
 *
 * In order of subject: numbers and types; making; connections; time; messages and records; reads; bench. Of each function:
 *   Refused  the house numbers that it gives, in the order in which they are tested. A refused call wrote nothing and changed nothing.
 *   Cost     x86-64 instructions, as measured (docs/MEASURES.md). Every loop is bounded.
 *   Threads  "alone": no other call on this struct at the same time. "shared": calls that say so too may run on this struct at the same
 *            time, each with buffers of its own. "free": no struct, so beside anything. Other structs are always free.
 *
 * A compiler without standard headers (the proof kit's) defines SPLICER_NO_STANDARD_HEADERS. */
#ifndef SPLICER_H
#define SPLICER_H

/* The version of struct splicer and of the archive's functions, whose names carry it: every call below refers to such a name, so a header
 * and an archive of two versions do not link. The second number counts what was added since. */
#define SPLICER_VERSION 7
#define SPLICER_VERSION_MINOR 0
#define SPLICER_VERSION_STRING "7.0"

#ifdef SPLICER_NO_STANDARD_HEADERS
typedef __UINT8_TYPE__ uint8_t;
typedef __UINT32_TYPE__ uint32_t;
typedef __UINT64_TYPE__ uint64_t;
typedef __SIZE_TYPE__ size_t;
#define SPLICER_OFFSET(type, field) __builtin_offsetof(type, field)
#else
#include <stddef.h>
#include <stdint.h>
#define SPLICER_OFFSET(type, field) offsetof(type, field)
#endif

#if defined(__cplusplus)
extern "C" {
#define SPLICER_ASSERT(test, why) static_assert(test, why)
#define SPLICER_ALIGN(type) alignof(type)
#elif __STDC_VERSION__ >= 201112L
#define SPLICER_ASSERT(test, why) _Static_assert(test, why)
#define SPLICER_ALIGN(type) _Alignof(type)
#else
/* C99 has neither: an array of -1 elements is refused, and a char before the type takes its alignment. */
#define SPLICER_ASSERT(test, why) extern const char splicer_holds[(test) ? 1 : -1]
#define SPLICER_ALIGN(type) (sizeof(struct { char before; type it; }) - sizeof(type))
#endif

/* ---- Numbers ---- */

/* Sizes. A message is a header of 8 bytes and at most 4,088 bytes of data. A buffer of SPLICER_OUT bytes takes the records of any
 * call; a shorter one is refused (2), a longer one is not used beyond them. */
enum {
    SPLICER_CONNECTIONS = 4,
    SPLICER_NAME = 32,
    SPLICER_HEADER = 8,
    SPLICER_MESSAGE = 4096,
    SPLICER_OUT = 4096,
    SPLICER_MARK = 2,
    SPLICER_WORDS = 686,
    SPLICER_BYTES = 1056,
    SPLICER_REPLY = 4,
    SPLICER_CUE_SECTION = 512, /* the longest section of cues; the shortest has 20 bytes */
    SPLICER_MAP_SECTION = 1024 /* the longest section that a message call may be lent */
};

/* The page of what ended lately: its rows, and where in the words what ended is kept. */
enum {
    SPLICER_ROWS = 16,
    SPLICER_ENDED = 605,
    SPLICER_ENDED_WORDS = 81
};

/* The card with a rolling counter: the most ticks of 90 kHz from one good reading to the next. */
enum {
    SPLICER_LONGEST_STEP = 8100000
};

/* The sessions that are held: the most of them, the 64-bit words of a row, and what a session is. */
enum {
    SPLICER_SESSIONS = 74,
    SPLICER_SESSION_WORDS = 7
};

enum {
    SPLICER_ON_AIR = 1,
    SPLICER_COVERED = 2,
    SPLICER_WAITING = 3
};

/* Lists of streams: the most of them, the words of a row, and the bytes that all together may keep. */
enum {
    SPLICER_STREAMS = 16,
    SPLICER_STREAM_WORDS = 8,
    SPLICER_KEPT = 3744
};

/* The house numbers: why a call was refused. A refused call wrote nothing, consumed nothing and changed nothing; only a refused fresh gives
 * a splicer, that of an empty name. */
enum splicer_refusal {
    SPLICER_GOOD = 0,
    SPLICER_NO_CONNECTION = 1, /* connection above 3 */
    SPLICER_NO_ROOM = 2,       /* output buffer below 4,096 bytes */
    SPLICER_CLOCK_BACK = 3,    /* clock earlier than the present one */
    SPLICER_OVERSIZE = 4,      /* MessageSize above 4,088: no message boundary can be found behind it; close the connection */
    SPLICER_SHORT = 5,         /* not yet a whole message: read on and call again with more */
    SPLICER_ALREADY_OPEN = 6,
    SPLICER_NOT_OPEN = 7,
    SPLICER_BAD_MICROS = 8,    /* MicroSeconds above 999,999 */
    SPLICER_BAD_NAME = 9,      /* name without a zero byte */
    SPLICER_LONG_SECTION = 10, /* a lent section over 1,024 bytes */
    SPLICER_BAD_SECTION = 11,  /* section not 3 + section_length bytes long, under 20 or over 512 */
    SPLICER_COUNTER = 12,      /* a second instant; or a reading before it, over 90 s after the last good one or past the last second */
    SPLICER_NOT_SIXTEEN = 16   /* other than sixteen rows */
};

/* MessageIDs of the records that the core writes, and of the requests that it reads. */
enum splicer_message_id {
    SPLICER_GENERAL_RESPONSE = 0x0000,         /* no data */
    SPLICER_INIT_REQUEST = 0x0001,
    SPLICER_INIT_RESPONSE = 0x0002,            /* Revision_Num 2, ChannelName 32 */
    SPLICER_EXTENDED_DATA_REQUEST = 0x0003,
    SPLICER_EXTENDED_DATA_RESPONSE = 0x0004,   /* SessionID 4; with 100 a descriptor of 16 */
    SPLICER_ALIVE_REQUEST = 0x0005,
    SPLICER_ALIVE_RESPONSE = 0x0006,           /* State 4, SessionID 4, Seconds 4, MicroSeconds 4 */
    SPLICER_SPLICE_REQUEST = 0x0007,
    SPLICER_SPLICE_RESPONSE = 0x0008,          /* SessionID 4 */
    SPLICER_SPLICE_COMPLETE_RESPONSE = 0x0009, /* SessionID 4, SpliceTypeFlag 1, Bitrate 4, PlayedDuration 4 */
    SPLICER_GET_CONFIG_REQUEST = 0x000A,
    SPLICER_GET_CONFIG_RESPONSE = 0x000B,      /* ChannelName 32, Hardware_Config with its Length 2, program map section */
    SPLICER_CUE_REQUEST = 0x000C,              /* Seconds 4, MicroSeconds 4, the section; Result 0xFFFF, as it is no answer */
    SPLICER_CUE_RESPONSE = 0x000D,             /* read, and not answered */
    SPLICER_ABORT_REQUEST = 0x000E,
    SPLICER_ABORT_RESPONSE = 0x000F            /* SessionID 4 */
};

/* Result codes of J.280, Appendix I, that the core gives. */
enum splicer_result {
    SPLICER_SUCCESSFUL = 100,
    SPLICER_INVALID_VERSION = 102,
    SPLICER_ACCESS_DENIED = 103,    /* the connection is not initialised */
    SPLICER_UNKNOWN_CHANNEL = 104,
    SPLICER_COLLISION = 109,
    SPLICER_TOO_LATE = 112,
    SPLICER_QUEUE_FULL = 114,
    SPLICER_ABORTED = 116,
    SPLICER_INVALID_CUE = 117,
    SPLICER_UNKNOWN_MESSAGE = 120,
    SPLICER_INVALID_SESSION = 121,
    SPLICER_INVALID_DATA = 123,
    SPLICER_OVERRIDDEN = 125        /* ended while covered, or ended at once by an equal one */
};

/* The MuxPriorityValue (J.280, Table 8-11) that changes nothing: what a session without a muxpriority_descriptor asks. */
enum {
    SPLICER_MUX_AVERAGE = 5
};

/* ---- Types ---- */

/* One output channel. Opaque: its content is the core's, and unused places are zero. words: 0 the clock in ninths of a microsecond, 1 how
 * many wait, 2 how many have started, 3 the place where the ring of those that wait ends, 4 the primary channel's ninths, 5 to 8 how many
 * wait of each connection, 9 to 12 the connections; then 64 places of 8 words for those that wait, then 10 for those that have started,
 * then 16 of 5 for those that ended lately, then which of the 16 is written next. Those that wait stand in order of start in a ring, the
 * last of them before the place of word 3, which goes one on with each acceptance; those that have started stand at the end of their
 * places, the first next to the free ones. bytes: the ChannelName 32, then for each connection 256, the Hardware_Config of its Init_Request
 * with zeros behind it, all zeros where none is kept. */
struct splicer {
    uint64_t words[SPLICER_WORDS];
    uint8_t bytes[SPLICER_BYTES];
};

/* One output channel of the card with a rolling counter: a splicer, and beside it whether the instant was given and the last reading.
 * Opaque. All calls but tick are made on `core` by their known names; in place of tick it has splicer_call_instant and
 * splicer_call_reading. The core is proved for these calls: splicer_call_tick on `core`, and splicer_call_fresh in place of
 * splicer_call_rolling_fresh, are not among them. */
struct splicer_rolling {
    struct splicer core;
    uint64_t counter[2];
};

/* What a call answers: the house number of its refusal, or 0 and the bytes consumed of `in` and written to `out`. moved: for a
 * Splice_Request answered with 100 how many places its acceptance shifted, which is how many sessions that wait, after any eviction, start
 * later than the new one, at most 63; 0 for all else. */
struct splicer_reply {
    uint32_t refused;
    uint32_t moved;
    size_t consumed;
    size_t written;
};

/* What a message call is lent beside its buffers: the program map sections of the two feeds, each of any length; one over
 * SPLICER_MAP_SECTION is refused (10). They are the driver's, are read during the call only, and may be others at the next call. A pointer
 * may be null where its length is 0. */
struct splicer_maps {
    const uint8_t *primary;
    size_t primary_length;
    const uint8_t *insertion;
    size_t insertion_length;
};

/* A record in an output buffer: whom it is for, what it says, and the message as it is sent. The pointers lead into the buffer. */
struct splicer_record {
    uint32_t connection;
    uint32_t message_id;
    uint32_t result;
    const uint8_t *data;
    size_t size; /* of data */
    const uint8_t *message;
    size_t length; /* of message: 8 + size */
};

/* The streams that a Splice_Request with ServiceID 0xFFFF names itself. A row: PID, StreamType, AvgBitrate, MaxBitrate, MinBitrate,
 * HResolution, VResolution, and how many bytes the structure keeps behind its first 21. kept: these bytes, all streams' in a row.
 * 0xFFFFFFFF is an unknown rate and 0xFFFF an unknown resolution. */
struct splicer_streams {
    uint64_t count, pcr_pid;
    uint64_t row[SPLICER_STREAMS * SPLICER_STREAM_WORDS];
    uint8_t kept[SPLICER_KEPT];
};

/* For each connection the sessions that wait: accepted, and neither started nor ended. */
struct splicer_waiting {
    uint64_t count[SPLICER_CONNECTIONS];
};

/* One of the last 16 sessions that ended. kept is 1; in a row that is unused it is 0 and so are all the others. result: that of its end,
 * 100, 109, 116 or 125. played: its time on air in ticks of 90 kHz, rounded down, also where its record shows none. */
struct splicer_row {
    uint32_t kept;
    uint32_t connection;
    uint32_t session;
    uint32_t event;
    uint32_t result;
    uint32_t played;
};

/* The session on air. In ninths of a microsecond: its start and end, as accepted, and its time on air so far. event: its SpliceEventID; mux
 * as splicer_call_mux has it. */
struct splicer_air {
    uint64_t start, end, played;
    uint32_t connection, session, event, access, mux;
};

/* When a tick would next do anything: the instant in ninths of a microsecond, and Seconds and MicroSeconds of the first tick that reaches
 * it. */
struct splicer_due {
    uint64_t instant;
    uint32_t seconds, micros;
};

/* A session that is held. start, end, played: in ninths of a microsecond; played is its time on air up to the clock. prior: the
 * PriorSession that was asked for, also of one that has started; 0xFFFFFFFF for a timed one. access, override: AccessType, OverridePlaying.
 * mux: what it asks of the multiplexer. state: SPLICER_ON_AIR, SPLICER_COVERED or SPLICER_WAITING. The archive writes it as seven words,
 * two 32-bit numbers in one, the first in the low half. */
struct splicer_session {
    uint64_t start, end, played;
    uint32_t connection, session, event, prior, access, override, mux, state;
};

/* The archive is made for machines on which these hold. */
SPLICER_ASSERT(sizeof(size_t) == 8, "a length is 8 bytes");
#ifdef __BYTE_ORDER__
SPLICER_ASSERT(__BYTE_ORDER__ == __ORDER_LITTLE_ENDIAN__, "the low half of a word stands first");
#endif
SPLICER_ASSERT(sizeof(struct splicer) == 6544, "size of struct splicer");
SPLICER_ASSERT(SPLICER_ALIGN(struct splicer) == 8, "alignment of struct splicer");
SPLICER_ASSERT(SPLICER_OFFSET(struct splicer, bytes) == 5488, "layout of struct splicer");
SPLICER_ASSERT(sizeof(struct splicer_rolling) == sizeof(struct splicer) + 16, "size of struct splicer_rolling");
SPLICER_ASSERT(SPLICER_OFFSET(struct splicer_rolling, counter) == sizeof(struct splicer), "layout of struct splicer_rolling");
SPLICER_ASSERT(sizeof(struct splicer_reply) == 24, "size of struct splicer_reply");
SPLICER_ASSERT(SPLICER_OFFSET(struct splicer_reply, refused) == 0, "layout of struct splicer_reply");
SPLICER_ASSERT(SPLICER_OFFSET(struct splicer_reply, moved) == 4, "layout of struct splicer_reply");
SPLICER_ASSERT(SPLICER_OFFSET(struct splicer_reply, consumed) == 8, "layout of struct splicer_reply");
SPLICER_ASSERT(SPLICER_OFFSET(struct splicer_reply, written) == 16, "layout of struct splicer_reply");
SPLICER_ASSERT(sizeof(struct splicer_waiting) == 32, "size of struct splicer_waiting");
SPLICER_ASSERT(sizeof(struct splicer_streams) == 4784, "size of struct splicer_streams");
SPLICER_ASSERT(SPLICER_OFFSET(struct splicer_streams, pcr_pid) == 8, "layout of struct splicer_streams");
SPLICER_ASSERT(SPLICER_OFFSET(struct splicer_streams, row) == 16, "layout of struct splicer_streams");
SPLICER_ASSERT(SPLICER_OFFSET(struct splicer_streams, kept) == 1040, "layout of struct splicer_streams");
SPLICER_ASSERT(sizeof(struct splicer_row) == 24, "size of struct splicer_row");
SPLICER_ASSERT(SPLICER_OFFSET(struct splicer_row, connection) == 4, "layout of struct splicer_row");
SPLICER_ASSERT(SPLICER_OFFSET(struct splicer_row, session) == 8, "layout of struct splicer_row");
SPLICER_ASSERT(SPLICER_OFFSET(struct splicer_row, event) == 12, "layout of struct splicer_row");
SPLICER_ASSERT(SPLICER_OFFSET(struct splicer_row, result) == 16, "layout of struct splicer_row");
SPLICER_ASSERT(SPLICER_OFFSET(struct splicer_row, played) == 20, "layout of struct splicer_row");
SPLICER_ASSERT(sizeof(struct splicer_air) == 48, "size of struct splicer_air");
SPLICER_ASSERT(SPLICER_OFFSET(struct splicer_air, connection) == 24, "layout of struct splicer_air");
SPLICER_ASSERT(sizeof(struct splicer_due) == 16, "size of struct splicer_due");
SPLICER_ASSERT(SPLICER_OFFSET(struct splicer_due, seconds) == 8, "layout of struct splicer_due");
SPLICER_ASSERT(SPLICER_ENDED + SPLICER_ENDED_WORDS == SPLICER_WORDS, "what ended stands last in the words");
SPLICER_ASSERT(sizeof(struct splicer_session) == 8 * SPLICER_SESSION_WORDS, "size of struct splicer_session");
SPLICER_ASSERT(SPLICER_OFFSET(struct splicer_session, end) == 8, "layout of struct splicer_session");
SPLICER_ASSERT(SPLICER_OFFSET(struct splicer_session, played) == 16, "layout of struct splicer_session");
SPLICER_ASSERT(SPLICER_OFFSET(struct splicer_session, connection) == 24, "layout of struct splicer_session");
SPLICER_ASSERT(SPLICER_OFFSET(struct splicer_session, session) == 28, "layout of struct splicer_session");
SPLICER_ASSERT(SPLICER_OFFSET(struct splicer_session, event) == 32, "layout of struct splicer_session");
SPLICER_ASSERT(SPLICER_OFFSET(struct splicer_session, prior) == 36, "layout of struct splicer_session");
SPLICER_ASSERT(SPLICER_OFFSET(struct splicer_session, access) == 40, "layout of struct splicer_session");
SPLICER_ASSERT(SPLICER_OFFSET(struct splicer_session, override) == 44, "layout of struct splicer_session");
SPLICER_ASSERT(SPLICER_OFFSET(struct splicer_session, mux) == 48, "layout of struct splicer_session");
SPLICER_ASSERT(SPLICER_OFFSET(struct splicer_session, state) == 52, "layout of struct splicer_session");

/* ---- The archive's functions ----
 * Drivers use the splicer_call_ functions below, which are inline. These take the parts of a struct splicer, pointers and numbers only:
 * nothing is passed or returned by value that two compilers could pass in two ways. reply, SPLICER_REPLY words, gets the house number or 0,
 * the bytes consumed, the bytes written and the places shifted. air gets nine words: 1, or 0 and all 0; connection, SessionID, start, end,
 * played, SpliceEventID, AccessType, MuxPriorityValue. due gets four: 0, 1 or 2, the instant, Seconds, MicroSeconds; of the rolling card
 * two: 0 or 1, and ticks. */
void splicer_7_fresh(const uint8_t *name, uint64_t *words, uint8_t *bytes, uint64_t *reply);
void splicer_7_rolling_fresh(const uint8_t *name, uint64_t *words, uint8_t *bytes, uint64_t *counter, uint64_t *reply);
void splicer_7_open(uint64_t *words, uint8_t *bytes, uint32_t conn, uint64_t *reply);
void splicer_7_close(uint64_t *words, uint8_t *bytes, uint32_t conn, uint8_t *out, size_t room, uint64_t *reply);
void splicer_7_tick(uint64_t *words, uint8_t *bytes, uint32_t seconds, uint32_t micros, uint8_t *out, size_t room, uint64_t *reply);
void splicer_7_instant(uint64_t *words, uint8_t *bytes, uint64_t *counter, const uint32_t *given, uint8_t *out, size_t room,
                       uint64_t *reply);
void splicer_7_reading(uint64_t *words, uint8_t *bytes, uint64_t *counter, uint32_t reading, uint8_t *out, size_t room, uint64_t *reply);
void splicer_7_message(uint64_t *words, uint8_t *bytes, uint32_t conn, const uint8_t *in, size_t length, const uint8_t *primary,
                       size_t primary_length, const uint8_t *insertion, size_t insertion_length, uint8_t *out, size_t room,
                       uint64_t *reply);
void splicer_7_cue(const uint64_t *words, const uint8_t *bytes, const uint8_t *section, size_t length, const uint32_t *given, uint8_t *out,
                   size_t room, uint64_t *reply);
size_t splicer_7_read_streams(const uint8_t *in, size_t length, uint64_t *list, uint8_t *kept);
void splicer_7_waiting(const uint64_t *words, const uint8_t *bytes, uint64_t *counts);
uint64_t splicer_7_primary(const uint64_t *words, const uint8_t *bytes);
uint64_t splicer_7_mux(const uint64_t *words, const uint8_t *bytes);
uint64_t splicer_7_map(const uint64_t *words, const uint8_t *bytes);
void splicer_7_air(const uint64_t *words, const uint8_t *bytes, uint64_t *air);
void splicer_7_due(const uint64_t *words, const uint8_t *bytes, uint64_t *due);
void splicer_7_rolling_due(const uint64_t *words, const uint8_t *bytes, const uint64_t *counter, uint64_t *due);
uint64_t splicer_7_ended(const uint64_t *ended, size_t words, struct splicer_row *page, size_t rows);
size_t splicer_7_sessions(const uint64_t *words, const uint8_t *bytes, struct splicer_session *rows, size_t row_words);
size_t splicer_7_write_streams(const uint64_t *list, const uint8_t *kept, uint8_t *out, size_t room);

/* The version of the archive that was linked: SPLICER_VERSION * 1000 + SPLICER_VERSION_MINOR of its own header.
 * Refused: never. Cost: 1. Threads: free. */
uint64_t splicer_7_version(void);

/* The words of a reply as a struct.
 * Refused: never. Cost: a few. Threads: free. */
static inline struct splicer_reply splicer_reply_of(const uint64_t *reply) {
    struct splicer_reply r;
    r.refused = (uint32_t)reply[0];
    r.moved = (uint32_t)reply[3];
    r.consumed = (size_t)reply[1];
    r.written = (size_t)reply[2];
    return r;
}

/* ---- Making ---- */

/* Makes a splicer, whatever s held: clock 0, all connections closed. name: 32 bytes, a zero among them; without one it is refused and s is
 * the splicer of an empty name.
 * Refused: 9. Cost: clears 6,544 bytes. Threads: alone. */
static inline struct splicer_reply splicer_call_fresh(struct splicer *s, const uint8_t *name) {
    uint64_t reply[SPLICER_REPLY];
    splicer_7_fresh(name, s->words, s->bytes, reply);
    return splicer_reply_of(reply);
}

/* Makes a rolling splicer, whatever r held: clock 0, all connections closed, no instant given. name as above.
 * Refused: 9. Cost: clears the struct. Threads: alone. */
static inline struct splicer_reply splicer_call_rolling_fresh(struct splicer_rolling *r, const uint8_t *name) {
    uint64_t reply[SPLICER_REPLY];
    splicer_7_rolling_fresh(name, r->core.words, r->core.bytes, r->counter, reply);
    return splicer_reply_of(reply);
}

/* ---- Connections ---- */

/* A server has connected.
 * Refused: 1, 6. Cost: 20. Threads: alone. */
static inline struct splicer_reply splicer_call_open(struct splicer *s, uint32_t conn) {
    uint64_t reply[SPLICER_REPLY];
    splicer_7_open(s->words, s->bytes, conn, reply);
    return splicer_reply_of(reply);
}

/* The connection is gone: its sessions end. The records are not sent but logged.
 * Refused: 1, 2, 7. Cost: 970 with 20 waiting and one on air. Threads: alone. */
static inline struct splicer_reply splicer_call_close(struct splicer *s, uint32_t conn, uint8_t *out, size_t room) {
    uint64_t reply[SPLICER_REPLY];
    splicer_7_close(s->words, s->bytes, conn, out, room, reply);
    return splicer_reply_of(reply);
}

/* ---- Time ---- */

/* Brings the clock to a time, Seconds since 1970-01-01 00:00 UTC and MicroSeconds, and does what is due until then. A tick to the present
 * time is good and does nothing.
 * Refused: 2, 8, 3. Cost: 55 to 76 where nothing is due and at most one is on air, however many wait; 255 for an end and a start; 2,537 for
 * a start that fails with 19 followers among 64 that wait. Threads: alone. */
static inline struct splicer_reply splicer_call_tick(struct splicer *s, uint32_t seconds, uint32_t micros, uint8_t *out, size_t room) {
    uint64_t reply[SPLICER_REPLY];
    splicer_7_tick(s->words, s->bytes, seconds, micros, out, room, reply);
    return splicer_reply_of(reply);
}

/* The card with a rolling counter, once: the UTC time, and what the counter reads at it. Brings the clock there and does what is due until
 * then. docs/INTEGRATION.md says when to give it.
 * Refused: 2, 8, 12. Cost: a tick's and some 40. Threads: alone. */
static inline struct splicer_reply splicer_call_instant(struct splicer_rolling *r, uint32_t seconds, uint32_t micros, uint32_t reading,
                                                        uint8_t *out, size_t room) {
    uint64_t reply[SPLICER_REPLY];
    uint32_t given[3] = {seconds, micros, reading};
    splicer_7_instant(r->core.words, r->core.bytes, r->counter, given, out, room, reply);
    return splicer_reply_of(reply);
}

/* What the 90 kHz counter reads now: moves the clock on by the ticks since the last good reading, at most 8,100,000 (90 s), through the
 * rollover, and does what is due until then. A refused reading is not kept.
 * Refused: 2, 12. Cost: a tick's and some 40. Threads: alone. */
static inline struct splicer_reply splicer_call_reading(struct splicer_rolling *r, uint32_t reading, uint8_t *out, size_t room) {
    uint64_t reply[SPLICER_REPLY];
    splicer_7_reading(r->core.words, r->core.bytes, r->counter, reading, out, room, reply);
    return splicer_reply_of(reply);
}

/* ---- Messages and records ---- */

/* Handles the first message of the `length` bytes read so far from conn; `consumed` says how many it was. A GetConfig_Request is answered
 * with the section of the feed that is on air.
 * Refused: 1, 2, 7, 10, 5, 4. Cost: 120 for an Alive_Request, 224 for an Init_Request; an accepted Splice_Request 260 and some 16 for each
 * place of `moved`; an Abort_Request 1,430 with 19 followers. Threads: alone. */
static inline struct splicer_reply splicer_call_message_maps(struct splicer *s, uint32_t conn, const uint8_t *in, size_t length,
                                                             const struct splicer_maps *maps, uint8_t *out, size_t room) {
    uint64_t reply[SPLICER_REPLY];
    splicer_7_message(s->words, s->bytes, conn, in, length, maps->primary, maps->primary_length, maps->insertion, maps->insertion_length,
                      out, room, reply);
    return splicer_reply_of(reply);
}

/* The same with two empty sections: a driver that has no maps, or whose servers ask for none.
 * Refused: 1, 2, 7, 5, 4. Cost: the same. Threads: alone. */
static inline struct splicer_reply splicer_call_message(struct splicer *s, uint32_t conn, const uint8_t *in, size_t length, uint8_t *out,
                                                        size_t room) {
    struct splicer_maps none = {in, 0, in, 0};
    return splicer_call_message_maps(s, conn, in, length, &none, out, room);
}

/* A section of cues (SCTE 35) from the feed, whole, and a PTS of its time base with the UTC instant that belongs to it; the PTS counts
 * modulo 2^33, and every cue still expected is at or after it. A Cue_Request to every initialised connection, with the cue's UTC time or
 * all ones; 117 for a section that is bad; nothing for one that concerns no server. It only reads the splicer, and `consumed` is 0.
 * docs/INTEGRATION.md says where sections and PTS come from.
 * Refused: 2, 8, 11. Cost: some 46 for each byte of the section, 2,830 for one of 50 to four connections. Threads: shared. */
static inline struct splicer_reply splicer_call_cue(const struct splicer *s, const uint8_t *section, size_t length, uint64_t pts,
                                                    uint32_t seconds, uint32_t micros, uint8_t *out, size_t room) {
    uint64_t reply[SPLICER_REPLY];
    uint32_t given[4] = {(uint32_t)(pts >> 32), (uint32_t)pts, seconds, micros};
    splicer_7_cue(s->words, s->bytes, section, length, given, out, room, reply);
    return splicer_reply_of(reply);
}

/* Numbers on the wire are big-endian: one of two bytes.
 * Refused: never. Cost: a few. Threads: free. */
static inline uint32_t splicer_u16(const uint8_t *p) {
    return (uint32_t)p[0] << 8 | (uint32_t)p[1];
}

/* One of four bytes.
 * Refused: never. Cost: a few. Threads: free. */
static inline uint32_t splicer_u32(const uint8_t *p) {
    return splicer_u16(p) << 16 | splicer_u16(p + 2);
}

/* The record at *at of the `written` bytes; moves *at behind it. 1, or 0 at the end. Start with *at == 0.
 * Refused: never. Cost: a few tens. Threads: free. */
static inline int splicer_next_record(const uint8_t *out, size_t written, size_t *at, struct splicer_record *r) {
    size_t left = written - *at;
    if (left < SPLICER_MARK + SPLICER_HEADER || out[*at] != 0x52) {
        return 0;
    }
    const uint8_t *p = out + *at;
    r->connection = p[1];
    r->message = p + SPLICER_MARK;
    r->message_id = splicer_u16(r->message);
    r->size = splicer_u16(r->message + 2);
    r->result = splicer_u16(r->message + 4);
    r->data = r->message + SPLICER_HEADER;
    r->length = SPLICER_HEADER + r->size;
    if (left < SPLICER_MARK + r->length) {
        return 0;
    }
    *at += SPLICER_MARK + r->length;
    return 1;
}

/* The list of a Splice_Request that names its PIDs itself. in: from PcrPID on, which is data + 18 of the request. The bytes taken, or 0 for
 * a bad one: then s stays as it was. Rows behind the last are zeroed; kept bytes behind the last stay.
 * Refused: never; 0 says that it is bad. Cost: some 230 for one stream, some 1,090 for sixteen. Threads: free. */
static inline size_t splicer_call_read_streams(const uint8_t *in, size_t length, struct splicer_streams *s) {
    return splicer_7_read_streams(in, length, (uint64_t *)(void *)s, s->kept);
}

/* ---- Reads: nothing changes, and none but the page of what ended is refused ---- */

/* How many sessions of each connection wait: at most 20 of one, 64 in all.
 * Refused: never. Cost: 13, however many wait. Threads: shared. */
static inline struct splicer_waiting splicer_call_waiting(const struct splicer *s) {
    struct splicer_waiting w;
    splicer_7_waiting(s->words, s->bytes, w.count);
    return w;
}

/* The time on the primary channel, in which nothing was on air, up to the clock: in ninths of a microsecond since clock 0, so the first
 * tick adds its whole time. Of a stretch, take the difference of two reads.
 * Refused: never. Cost: 2. Threads: shared. */
static inline uint64_t splicer_call_primary(const struct splicer *s) {
    return splicer_7_primary(s->words, s->bytes);
}

/* What the one on air asked of the multiplexer: 1 to 10; 5 if it asked nothing or nothing is on air. It changes with starts, ends, aborts
 * and closes: a covered session that is on air again writes no record.
 * Refused: never. Cost: some 15. Threads: shared. */
static inline uint32_t splicer_call_mux(const struct splicer *s) {
    return (uint32_t)splicer_7_mux(s->words, s->bytes);
}

/* Of the lent sections the one of the feed that is on air, the pointer that was lent, and its length: the insertion's exactly when a
 * session is on air (Alive's State 2). A section over SPLICER_MAP_SECTION is given too.
 * Refused: never. Cost: some 15. Threads: shared. */
static inline const uint8_t *splicer_call_map(const struct splicer *s, const struct splicer_maps *maps, size_t *length) {
    if (splicer_7_map(s->words, s->bytes) == 0) {
        *length = maps->primary_length;
        return maps->primary;
    }
    *length = maps->insertion_length;
    return maps->insertion;
}

/* The session on air: 1; or 0 and all of *air 0. It changes with starts, ends, aborts and closes: a covered session that is on air again
 * writes no record.
 * Refused: never. Cost: 13 with none, 33 with one. Threads: shared. */
static inline int splicer_call_air(const struct splicer *s, struct splicer_air *air) {
    uint64_t row[9];
    splicer_7_air(s->words, s->bytes, row);
    air->connection = (uint32_t)row[1];
    air->session = (uint32_t)row[2];
    air->start = row[3];
    air->end = row[4];
    air->played = row[5];
    air->event = (uint32_t)row[6];
    air->access = (uint32_t)row[7];
    air->mux = (uint32_t)row[8];
    return (int)row[0];
}

/* When a tick would next do anything. 0: nothing is due, and all of *due is 0. 1: an instant is, but no tick's time reaches it; seconds and
 * micros are 0. 2: the instant, and the time of the first tick that reaches it: an earlier tick writes nothing and leaves this as it is,
 * that tick is good and writes. To be read before every sleep: other calls than ticks can move it.
 * Refused: never. Cost: 19 to 52 with at most one on air, however many wait; 150 with 10 started. Threads: shared. */
static inline int splicer_call_due(const struct splicer *s, struct splicer_due *due) {
    uint64_t row[4];
    splicer_7_due(s->words, s->bytes, row);
    due->instant = row[1];
    due->seconds = (uint32_t)row[2];
    due->micros = (uint32_t)row[3];
    return (int)row[0];
}

/* The card with a rolling counter: when a reading would next do anything. 1, and in *ticks how many ticks after the last good reading:
 * fewer write nothing, so many are good and write. 0 and SPLICER_LONGEST_STEP, by when the counter must be read anyway: no good reading
 * before that writes anything, or the instant is not yet given. To be read before every sleep, so after every good reading and the instant.
 * Refused: never. Cost: that of splicer_call_due. Threads: shared. */
static inline int splicer_call_rolling_due(const struct splicer_rolling *r, uint32_t *ticks) {
    uint64_t row[2];
    splicer_7_rolling_due(r->core.words, r->core.bytes, r->counter, row);
    *ticks = (uint32_t)row[1];
    return (int)row[0];
}

/* The last 16 sessions that ended, of all connections, from the newest down: rows[0] is the one whose end was written last. 0, or 16 if
 * `count` is not SPLICER_ROWS: then no row is written. A close and an open drop nothing; fresh has none.
 * Refused: 16. Cost: some 400. Threads: shared. */
static inline uint32_t splicer_call_ended(const struct splicer *s, struct splicer_row *rows, size_t count) {
    return (uint32_t)splicer_7_ended(s->words + SPLICER_ENDED, SPLICER_ENDED_WORDS, rows, count);
}

/* Every session that is held, at most SPLICER_SESSIONS: the started ones from the highest AccessType down, so that the first is on air and
 * the others are covered, then those that wait, in order of start. How many are held is returned, whatever `count` is; of `count` rows the
 * first so many are written, and those behind them stay as they were. rows may be null with a count of 0. A count above SPLICER_SESSIONS,
 * as the largest size_t for "enough", is taken as that: no product passes 64 bits.
 * Refused: never. Cost: 31 for each row written, and some 45. Threads: shared. */
static inline size_t splicer_call_sessions(const struct splicer *s, struct splicer_session *rows, size_t count) {
    size_t most = count < (size_t)SPLICER_SESSIONS ? count : (size_t)SPLICER_SESSIONS;
    return splicer_7_sessions(s->words, s->bytes, rows, most * SPLICER_SESSION_WORDS);
}

/* ---- Bench: splicer_bench.h has more ---- */

/* A list of streams written, from PcrPID on. The bytes written, or 0 for a list that could not be read back or an output that is too short:
 * then out stays as it was. Bytes behind those written stay.
 * Refused: never; 0 says so. Cost: some 120 for one stream, some 960 for sixteen. Threads: free. */
static inline size_t splicer_call_write_streams(const struct splicer_streams *s, uint8_t *out, size_t room) {
    return splicer_7_write_streams((const uint64_t *)(const void *)s, s->kept, out, room);
}

#ifdef __cplusplus
}
#endif

#endif
