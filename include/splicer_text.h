/* splicer_text.h: what stands in a record, by its fields, and words for its numbers; beside splicer.h. No archive is needed.
 *
 * A reader gives 1 and fills its struct if the record is of its kind and size, else it gives 0 and changes nothing. Pointers lead into the
 * buffer of the record. Refused, Cost and Threads as splicer.h says: no call here is refused. */
#ifndef SPLICER_TEXT_H
#define SPLICER_TEXT_H

#include "splicer.h"

#ifdef __cplusplus
extern "C" {
#endif

struct splicer_init_response {
    uint32_t revision;
    const uint8_t *name; /* SPLICER_NAME bytes; the core's names have a zero among them */
};

struct splicer_alive_response {
    uint32_t state;   /* 1: on the primary channel, 2: on an insertion */
    uint32_t session; /* that on air, of any connection; 0xFFFFFFFF with state 1 */
    uint32_t seconds; /* since 1970-01-01 UTC */
    uint32_t micros;
};

struct splicer_splice_complete {
    uint32_t session;
    uint32_t flag; /* SpliceTypeFlag. 0: splice-in, a start; 1: splice-out, an end */
    uint32_t bitrate;
    uint32_t played; /* PlayedDuration: time on air in ticks of 90 kHz */
};

/* Init_Response.
 * Refused: never. Cost: a few. Threads: free. */
static inline int splicer_read_init(const struct splicer_record *r, struct splicer_init_response *to) {
    if (r->message_id != SPLICER_INIT_RESPONSE || r->size != 2 + SPLICER_NAME) {
        return 0;
    }
    to->revision = splicer_u16(r->data);
    to->name = r->data + 2;
    return 1;
}

/* Alive_Response.
 * Refused: never. Cost: a few. Threads: free. */
static inline int splicer_read_alive(const struct splicer_record *r, struct splicer_alive_response *to) {
    if (r->message_id != SPLICER_ALIVE_RESPONSE || r->size != 16) {
        return 0;
    }
    to->state = splicer_u32(r->data);
    to->session = splicer_u32(r->data + 4);
    to->seconds = splicer_u32(r->data + 8);
    to->micros = splicer_u32(r->data + 12);
    return 1;
}

/* SpliceComplete_Response.
 * Refused: never. Cost: a few. Threads: free. */
static inline int splicer_read_complete(const struct splicer_record *r, struct splicer_splice_complete *to) {
    if (r->message_id != SPLICER_SPLICE_COMPLETE_RESPONSE || r->size != 13) {
        return 0;
    }
    to->session = splicer_u32(r->data);
    to->flag = r->data[4];
    to->bitrate = splicer_u32(r->data + 5);
    to->played = splicer_u32(r->data + 9);
    return 1;
}

struct splicer_cue_request {
    uint32_t seconds; /* since 1970-01-01 UTC; 0xFFFFFFFF in both without a pts_time or past the field: test micros */
    uint32_t micros;
    const uint8_t *section; /* as it came */
    size_t length;
};

/* Cue_Request.
 * Refused: never. Cost: a few. Threads: free. */
static inline int splicer_read_cue(const struct splicer_record *r, struct splicer_cue_request *to) {
    if (r->message_id != SPLICER_CUE_REQUEST || r->size < 8) {
        return 0;
    }
    to->seconds = splicer_u32(r->data);
    to->micros = splicer_u32(r->data + 4);
    to->section = r->data + 8;
    to->length = r->size - 8;
    return 1;
}

/* Splice_Response or Abort_Response: the SessionID.
 * Refused: never. Cost: a few. Threads: free. */
static inline int splicer_read_session(const struct splicer_record *r, uint32_t *session) {
    if ((r->message_id != SPLICER_SPLICE_RESPONSE && r->message_id != SPLICER_ABORT_RESPONSE) || r->size != 4) {
        return 0;
    }
    *session = splicer_u32(r->data);
    return 1;
}

/* found: 1, with what is kept of the session's end, or 0 (result 121), where the others are 0. */
struct splicer_extended_data {
    uint32_t session;
    uint32_t found;
    uint32_t event;
    uint32_t result;
    uint32_t played;
};

/* ExtendedData_Response.
 * Refused: never. Cost: a few. Threads: free. */
static inline int splicer_read_extended(const struct splicer_record *r, struct splicer_extended_data *to) {
    if (r->message_id != SPLICER_EXTENDED_DATA_RESPONSE || (r->size != 4 && r->size != 20)) {
        return 0;
    }
    to->session = splicer_u32(r->data);
    to->found = r->size == 20;
    to->event = to->found ? splicer_u32(r->data + 10) : 0;
    to->result = to->found ? splicer_u16(r->data + 14) : 0;
    to->played = to->found ? splicer_u32(r->data + 16) : 0;
    return 1;
}

/* House numbers, of the bench too.
 * Refused: never. Cost: a few. Threads: free. */
static inline const char *splicer_refusal_text(uint32_t number) {
    static const char *const words[] = {
        "good", "connection above 3", "output buffer below 4,096 bytes", "clock earlier than the present one",
        "MessageSize above 4,088", "not yet a whole message", "already open", "not open", "MicroSeconds above 999,999",
        "name without a zero byte", "lent section over 1,024 bytes",
        "section of another length than it says, under 20 or over 512 bytes",
        "step of the counter too long or past the last second, or no instant or a second one given",
        "log of the remembering engine full or of another size", "unknown mark in the recording",
        "recording longer than 65,536 bytes", "other than sixteen rows",
    };
    return number < 17 ? words[number] : "no house number";
}

/* Result codes, J.280, Appendix I.
 * Refused: never. Cost: a few. Threads: free. */
static inline const char *splicer_result_text(uint32_t result) {
    static const char *const words[] = {
        "Successful Response", "Unknown Failure", "Invalid Version", "Access Denied", "Invalid/Unknown ChannelName",
        "Invalid Physical Connection", "No Configuration Found", "Invalid Configuration", "Splice Failed - Unknown Failure",
        "Splice Collision", "No Insertion Channel Found", "No Primary Channel Found", "Splice_Request Was Too Late",
        "No Splice Point Was Found", "Splice Queue Full", "Session Playback Suspect", "Insertion Aborted", "Invalid Cue Message",
        "Splicing Device Does Not Exist", "Init_Request Refused", "Unknown MessageID", "Invalid SessionID",
        "Session Did Not Complete", "Invalid Request Message data( )", "Descriptor Not Implemented", "Channel Override",
        "Insertion Channel Started Early", "Playback Rate Below Threshold", "PMT changed", "Invalid message size",
        "Invalid message syntax", "Port Collision Error", "Splice Failed - EAS active", "Insertion Component Not Found",
        "Resources Not Available", "Component Mismatch",
    };
    return result >= 100 && result < 136 ? words[result - 100] : "no result code of J.280";
}

/* MessageIDs, J.280, Table 7-2.
 * Refused: never. Cost: a few. Threads: free. */
static inline const char *splicer_message_text(uint32_t id) {
    static const char *const words[] = {
        "General_Response", "Init_Request", "Init_Response", "ExtendedData_Request", "ExtendedData_Response", "Alive_Request",
        "Alive_Response", "Splice_Request", "Splice_Response", "SpliceComplete_Response", "GetConfig_Request",
        "GetConfig_Response", "Cue_Request", "Cue_Response", "Abort_Request", "Abort_Response", "TearDownFeed_Request",
        "TearDownFeed_Response",
    };
    return id < 18 ? words[id] : "no message of J.280";
}

/* The State of an Alive_Response, J.280, Table 7-11.
 * Refused: never. Cost: a few. Threads: free. */
static inline const char *splicer_state_text(uint32_t state) {
    static const char *const words[] = {
        "no output", "primary channel", "insertion",
    };
    return state < 3 ? words[state] : "no state of J.280";
}

#ifdef __cplusplus
}
#endif

#endif
