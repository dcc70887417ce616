/* splicer_bench.h: for the bench and the desk, over an archive of its own. Link with libbench.a. It holds
 *   the proved checker of bench recordings: splicer_check;
 *   the referee, which follows a recording of any length as it comes: splicer_referee_fresh, _feed, _end and _due;
 *   the engine that only remembers: splicer_recall_fresh, _open, _close, _message and _tick.
 *
 * splicer.h is included for its types: the calls of the second engine answer with its struct splicer_reply. libdoor.a is not needed, and
 * may stand beside libbench.a in one program.
 *
 * A recording is entries one behind the other, as splicer_record.h writes them: calls (4F, 43, 54, 4D) and behind each the records that a
 * splicer wrote for it (52), or 45 and the house number. The further marks of splicer_record.h (4E, 4C, 51, 49, 57) are unknown marks to
 * checker and referee. docs/BENCH.md says how a recording is made, and when to use the second engine. Refused, Cost and Threads as
 * splicer.h says.
 *
 * A compiler without standard headers (the proof kit's) defines SPLICER_NO_STANDARD_HEADERS. */
#ifndef SPLICER_BENCH_H
#define SPLICER_BENCH_H

#include "splicer.h"

#ifdef __cplusplus
extern "C" {
#endif

/* The longest recording that is read, and the house numbers of the two refusals. */
enum { SPLICER_RECORDING = 65536, SPLICER_UNKNOWN_MARK = 14, SPLICER_LONG_RECORDING = 15 };

/* The log of the second engine: its length, and the house number that this engine alone gives. */
enum { SPLICER_LOG = 65536, SPLICER_LOG_FULL = 13 };

/* The version of the archive's functions, whose names carry it. */
#define SPLICER_BENCH_VERSION 2

/* The words of the checker's reply. */
enum { SPLICER_BENCH_REPLY = 3 };

/* refused: 14 or 15, or 0. differs: 1 if a call's records are not those that the rules give, or 0. number: that call, counted from 1, the
 * records before any call being call 0's; for 14 the place of the mark, counted from 0; else 0. All three are 0 where nothing differs. */
struct splicer_finding {
    uint32_t refused;
    uint32_t differs;
    size_t number;
};

/* What a referee tells: all is in order; a call's records are not those that the rules give; an unknown mark; the recording ends in the
 * midst of an entry, which is left out, and the last call before it needs only the beginning of its records. */
enum { SPLICER_IN_ORDER = 0, SPLICER_WRONG_CALL = 1, SPLICER_STRANGE_MARK = 2, SPLICER_CUT_ENTRY = 3 };

/* A verdict. Of a wrong call: its number, counted from 1, the records before any call being call 0's; the place of its mark, counted from 0
 * (0 for call 0); and the calls before it. Else number and good are the calls so far, and place is that of the unknown mark, of the cut
 * entry, or of the next entry: how many bytes were gone through. Numbers and places are counted modulo 2^64. */
struct splicer_verdict {
    uint32_t kind;
    uint64_t number;
    uint64_t place;
    uint64_t good;
};

/* The words of a referee's stage and of a verdict, and the longest entry: a mark and a message. */
enum { SPLICER_STAGE = 7, SPLICER_VERDICT = 4, SPLICER_ENTRY = 4098 };

/* A referee: a splicer that makes the recording's calls, what is known between two pieces, the records that are due of the last call, and
 * the bytes of an entry that is not whole yet. Opaque; 14,800 bytes. A copy of it is another referee. */
struct splicer_referee {
    struct splicer core;
    uint64_t stage[SPLICER_STAGE];
    uint8_t due[SPLICER_OUT];
    uint8_t kept[SPLICER_ENTRY];
};

/* The archive's functions. Drivers use splicer_check, the splicer_referee_ and the splicer_recall_ functions. The checker's reply,
 * SPLICER_BENCH_REPLY words, gets refused, differs and number; a referee's, SPLICER_VERDICT words, kind, number, place and good, and part,
 * two words, where in due it stands and how long it is; the others', SPLICER_REPLY words, what the card's does. */
void splicer_bench_2_check(const uint8_t *recording, size_t length, uint64_t *reply);
void splicer_bench_2_referee_fresh(const uint8_t *name, uint64_t *words, uint8_t *bytes, uint64_t *stage, uint64_t *reply);
void splicer_bench_2_referee_feed(uint64_t *words, uint8_t *bytes, uint8_t *due, uint8_t *kept, uint64_t *stage, const uint8_t *in,
                                  size_t length, uint64_t *reply);
void splicer_bench_2_referee_end(const uint64_t *stage, uint64_t *reply);
void splicer_bench_2_referee_due(const uint64_t *stage, uint64_t *part);
void splicer_bench_2_recall_fresh(uint8_t *log, size_t size, uint64_t *reply);
void splicer_bench_2_recall_open(uint8_t *log, size_t size, uint32_t conn, uint64_t *reply);
void splicer_bench_2_recall_close(uint8_t *log, size_t size, uint32_t conn, uint8_t *out, size_t room, uint64_t *reply);
void splicer_bench_2_recall_message(uint8_t *log, size_t size, uint32_t conn, const uint8_t *in, size_t length, const uint8_t *primary,
                                    size_t primary_length, const uint8_t *insertion, size_t insertion_length, uint8_t *out, size_t room,
                                    uint64_t *reply);
void splicer_bench_2_recall_tick(uint8_t *log, size_t size, uint32_t seconds, uint32_t micros, uint8_t *out, size_t room, uint64_t *reply);

/* What is found in a recording of a splicer from fresh on, with the name "CH1" and buffers of 4,096 bytes: 15 for more than
 * SPLICER_RECORDING bytes; then 14 for an unknown mark anywhere; then the first call that differs. The recording is only read; nothing is
 * kept or allocated. A null pointer may stand only for a length of 0.
 * Refused: 15, 14. Cost: up to some 4 million for 65,536 bytes; some 11 KB of stack. Threads: free. */
static inline struct splicer_finding splicer_check(const uint8_t *recording, size_t length) {
    uint64_t reply[SPLICER_BENCH_REPLY];
    struct splicer_finding found;
    splicer_bench_2_check(recording, length, reply);
    found.refused = (uint32_t)reply[0];
    found.differs = (uint32_t)reply[1];
    found.number = (size_t)reply[2];
    return found;
}

/* The referee: the checker's judgement of a recording of any length, handed in in pieces of any cut. It tells what stands first: a call
 * whose records are not those due, as soon as that is seen, or an unknown mark; at an unknown mark, as at the end, nothing may be due any
 * more. (splicer_check refuses an unknown mark anywhere before any finding, and reads no more than SPLICER_RECORDING bytes.) The card's
 * buffers have 4,096 bytes. Nothing is allocated and nothing global. What is lent does not overlap. */

/* A referee of which nothing was recorded yet, of a card of this name: 32 bytes, a zero among them. 0, or 9 for a name without a zero byte:
 * then it is the referee of an empty name. Whatever the memory held.
 * Refused: 9. Cost: some 600. Threads: alone on the referee. */
static inline uint32_t splicer_referee_fresh(struct splicer_referee *referee, const uint8_t *name) {
    uint64_t reply[SPLICER_REPLY];
    splicer_bench_2_referee_fresh(name, referee->core.words, referee->core.bytes, referee->stage, reply);
    return (uint32_t)reply[0];
}

/* A verdict of its words.
 * Refused: never. Cost: a few. Threads: free. */
static inline struct splicer_verdict splicer_verdict_of(const uint64_t *reply) {
    struct splicer_verdict verdict;
    verdict.kind = (uint32_t)reply[0];
    verdict.number = reply[1];
    verdict.place = reply[2];
    verdict.good = reply[3];
    return verdict;
}

/* The next bytes of the recording. The verdict so far: SPLICER_IN_ORDER, as long as nothing is told; SPLICER_WRONG_CALL or
 * SPLICER_STRANGE_MARK, once and for good: further bytes change nothing. A null pointer may stand only for a length of 0.
 * Refused: never. Cost: the calls', and some 50 for an entry that lies whole in the piece. Threads: alone on the referee. */
static inline struct splicer_verdict splicer_referee_feed(struct splicer_referee *referee, const uint8_t *in, size_t length) {
    uint64_t reply[SPLICER_VERDICT];
    splicer_bench_2_referee_feed(referee->core.words, referee->core.bytes, referee->due, referee->kept, referee->stage, in, length, reply);
    return splicer_verdict_of(reply);
}

/* The verdict if the recording ended here: what was told; else the last call, if something of it is still due and no cut entry follows;
 * else SPLICER_CUT_ENTRY or SPLICER_IN_ORDER. It only reads: more may be fed.
 * Refused: never. Cost: a few. Threads: beside other reads. */
static inline struct splicer_verdict splicer_referee_end(const struct splicer_referee *referee) {
    uint64_t reply[SPLICER_VERDICT];
    splicer_bench_2_referee_end(referee->stage, reply);
    return splicer_verdict_of(reply);
}

/* What is still due of the last call, without the records that were found already, in the referee's own bytes; good until the next feed or
 * fresh. Once something is told, what was due then.
 * Refused: never. Cost: a few. Threads: beside other reads. */
static inline void splicer_referee_due(const struct splicer_referee *referee, const uint8_t **due, size_t *length) {
    uint64_t part[2];
    splicer_bench_2_referee_due(referee->stage, part);
    *due = referee->due + part[0];
    *length = (size_t)part[1];
}

/* The engine that only remembers. Its whole state is the log that the caller lends: the good calls one behind the other in the card
 * program's marks, a zero behind the last if there is room. Each call works out its answer from the whole list, by the rules of the card
 * with the name "CH1", and answers as the card's call does: house number, bytes consumed and written, moved, every byte of out. A good call
 * is put behind the last one; a refused one leaves the log as it was.
 *
 * SPLICER_LOG_FULL (13), before all other house numbers: the log is not SPLICER_LOG bytes long, 256 calls or more are in it, or fewer than
 * 4,098 of its bytes are free; for fresh only the length counts. Then nothing is written and the log stays.
 *
 * Any SPLICER_LOG bytes are a log, read up to the first byte that begins no call. What is lent does not overlap, and each pointer leads to
 * as many bytes as its length says; a null pointer may stand only for a length of 0. One call at a time on a log. Nothing is allocated and
 * nothing global; stack: docs/MEASURES.md. */

/* Clears the log, whatever it held: no call is kept.
 * Refused: 13. Cost: a few. Threads: alone on the log. */
static inline struct splicer_reply splicer_recall_fresh(uint8_t *log, size_t size) {
    uint64_t reply[SPLICER_REPLY];
    splicer_bench_2_recall_fresh(log, size, reply);
    return splicer_reply_of(reply);
}

/* splicer_call_open.
 * Refused: 13, 1, 6. Cost: up to some 5 million on a full log; 36 KB of stack. Threads: alone on the log. */
static inline struct splicer_reply splicer_recall_open(uint8_t *log, size_t size, uint32_t conn) {
    uint64_t reply[SPLICER_REPLY];
    splicer_bench_2_recall_open(log, size, conn, reply);
    return splicer_reply_of(reply);
}

/* splicer_call_close.
 * Refused: 13, 1, 2, 7. Cost: up to some 5 million on a full log; 36 KB of stack. Threads: alone on the log. */
static inline struct splicer_reply splicer_recall_close(uint8_t *log, size_t size, uint32_t conn, uint8_t *out, size_t room) {
    uint64_t reply[SPLICER_REPLY];
    splicer_bench_2_recall_close(log, size, conn, out, room, reply);
    return splicer_reply_of(reply);
}

/* splicer_call_message_maps, with the two feeds' sections one by one; both of length 0 is splicer_call_message. Of what was read the first
 * message is kept, and no section.
 * Refused: 13, 1, 2, 7, 10, 5, 4. Cost: up to some 5 million on a full log; 36 KB of stack. Threads: alone on the log. */
static inline struct splicer_reply splicer_recall_message(uint8_t *log, size_t size, uint32_t conn, const uint8_t *in, size_t length,
                                                          const uint8_t *primary, size_t primary_length, const uint8_t *insertion,
                                                          size_t insertion_length, uint8_t *out, size_t room) {
    uint64_t reply[SPLICER_REPLY];
    splicer_bench_2_recall_message(log, size, conn, in, length, primary, primary_length, insertion, insertion_length, out, room, reply);
    return splicer_reply_of(reply);
}

/* splicer_call_tick.
 * Refused: 13, 2, 8, 3. Cost: up to some 5 million on a full log; 36 KB of stack. Threads: alone on the log. */
static inline struct splicer_reply splicer_recall_tick(uint8_t *log, size_t size, uint32_t seconds, uint32_t micros, uint8_t *out,
                                                       size_t room) {
    uint64_t reply[SPLICER_REPLY];
    splicer_bench_2_recall_tick(log, size, seconds, micros, out, room, reply);
    return splicer_reply_of(reply);
}

#ifdef __cplusplus
}
#endif

#endif
