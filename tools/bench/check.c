/* check.c: a program over both archives. It makes a splicer by libdoor.a, checks the recording on standard input by libbench.a, and writes
 * the checker's line. tools/bench.sh builds and runs it. The kit has no C headers: what is called of the C library is declared here. */
#include "splicer.h"
#include "splicer_bench.h"

long read(int file, void *to, size_t n);
int printf(const char *form, ...);

static uint8_t recording[SPLICER_RECORDING + 1];

int main(void) {
    static const uint8_t name[SPLICER_NAME] = "CH1";
    struct splicer card;
    struct splicer_finding found;
    size_t length = 0;
    long got;
    if (splicer_call_fresh(&card, name).refused != SPLICER_GOOD || splicer_call_open(&card, 0).refused != SPLICER_GOOD) {
        return 1;
    }
    while (length < sizeof recording && (got = read(0, recording + length, sizeof recording - length)) > 0) {
        length += (size_t)got;
    }
    found = splicer_check(recording, length);
    if (found.refused == SPLICER_UNKNOWN_MARK) {
        printf("refused %u at %zu\n", found.refused, found.number);
    } else if (found.refused != 0) {
        printf("refused %u\n", found.refused);
    } else if (found.differs != 0) {
        printf("call %zu\n", found.number);
    } else {
        printf("none\n");
    }
    return 0;
}
