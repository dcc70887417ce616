/* The referee's functions of splicer_bench.h, by names that another language can call; the verdict as four words. */
#include "splicer_bench.h"

static void words_of(struct splicer_verdict verdict, uint64_t *words) {
    words[0] = verdict.kind;
    words[1] = verdict.number;
    words[2] = verdict.place;
    words[3] = verdict.good;
}

size_t held_size(void) {
    return sizeof(struct splicer_referee);
}

uint32_t held_fresh(struct splicer_referee *referee, const uint8_t *name) {
    return splicer_referee_fresh(referee, name);
}

void held_feed(struct splicer_referee *referee, const uint8_t *in, size_t length, uint64_t *words) {
    words_of(splicer_referee_feed(referee, in, length), words);
}

void held_end(const struct splicer_referee *referee, uint64_t *words) {
    words_of(splicer_referee_end(referee), words);
}

void held_due(const struct splicer_referee *referee, const uint8_t **due, size_t *length) {
    splicer_referee_due(referee, due, length);
}
