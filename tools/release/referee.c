/* The referee as a program, in C over the proved functions of libbench.a: a recording of any length on standard input, of a splicer with
 * the name "CH1". One line as the checker's as soon as it is known: none, call N, or refused 14 at PLACE; behind a call two more, the
 * records that were still due of it and the one that stood there in place of them. It gives no status: judged.sh does. */
#include "splicer_bench.h"

#include <stdio.h>
#include <string.h>
#include <unistd.h>

enum { PIECE = 65536 };

static struct splicer_referee referee, before;
/* in front of each piece the bytes of an entry that began in the one before */
static uint8_t bytes[SPLICER_ENTRY + PIECE];

static void line(const char *word, const uint8_t *from, size_t length) {
    size_t i;
    printf("%s", word);
    for (i = 0; i < length; i++) {
        printf("%s%02X", i == 0 ? " " : "", (unsigned)from[i]);
    }
    printf("\n");
}

/* The line of what was found; of a call also what was due, and of the entry found there, `length` bytes, a record; a call is none. */
static void told(struct splicer_verdict verdict, const uint8_t *found, size_t length) {
    const uint8_t *due;
    size_t wanted;
    if (verdict.kind == SPLICER_STRANGE_MARK) {
        printf("refused %u at %llu\n", (unsigned)SPLICER_UNKNOWN_MARK, (unsigned long long)verdict.place);
    } else if (verdict.kind == SPLICER_WRONG_CALL) {
        printf("call %llu\n", (unsigned long long)verdict.number);
        splicer_referee_due(&referee, &due, &wanted);
        line("wanted", due, wanted);
        line("found", found, length > 0 && (found[0] == 0x52 || found[0] == 0x45) ? length : 0);
    } else {
        printf("none\n");
    }
    fflush(stdout);
}

/* The piece in which something is told, again byte by byte: where its last entry begins and ends. `at` bytes were read before it. */
static void again(const uint8_t *piece, size_t length, uint64_t at) {
    struct splicer_verdict verdict;
    uint64_t begin;
    size_t i = 0;
    referee = before;
    /* a cut entry's place, if one is kept; of a call whose records are due the end would tell its mark's */
    verdict = splicer_referee_end(&referee);
    begin = verdict.kind == SPLICER_CUT_ENTRY ? verdict.place : at;
    verdict = splicer_referee_feed(&referee, piece, 1);
    while (verdict.kind == SPLICER_IN_ORDER && i + 1 < length) {
        i++;
        begin = verdict.place;
        verdict = splicer_referee_feed(&referee, piece + i, 1);
    }
    /* an entry is at most SPLICER_ENTRY bytes, so it begins in what was kept or in the piece */
    told(verdict, piece + i + 1 - (size_t)(at + i + 1 - begin), (size_t)(at + i + 1 - begin));
}

int main(void) {
    static const uint8_t name[SPLICER_NAME] = {'C', 'H', '1'};
    uint8_t *piece = bytes + SPLICER_ENTRY;
    struct splicer_verdict verdict;
    uint64_t at = 0;
    ssize_t got;
    int over = 0;
    splicer_referee_fresh(&referee, name);
    /* read as it comes: stdio would wait for a whole piece */
    while ((got = read(0, piece, PIECE)) > 0) {
        size_t length = (size_t)got;
        /* what is behind a finding is read to its end */
        if (!over) {
            before = referee;
            verdict = splicer_referee_feed(&referee, piece, length);
            over = verdict.kind != SPLICER_IN_ORDER;
            if (over) {
                again(piece, length, at);
            }
            at += length;
            memmove(bytes, piece + length - SPLICER_ENTRY, SPLICER_ENTRY);
        }
    }
    if (!over) {
        told(splicer_referee_end(&referee), 0, 0);
    }
    return 0;
}
