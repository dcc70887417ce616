/* The checker for processors that the kit makes no programs for: the recording on standard input, judged by the proved splicer_check of
 * libbench.a; the program's own line. It gives no status: judged.sh does, as for the kit's program. */
#include "splicer_bench.h"

#include <stdio.h>

static uint8_t recording[SPLICER_RECORDING + 1];

int main(void) {
    size_t length = fread(recording, 1, sizeof recording, stdin);
    struct splicer_finding found = splicer_check(recording, length);
    if (found.refused == SPLICER_UNKNOWN_MARK) {
        printf("refused %u at %lu\n", (unsigned)found.refused, (unsigned long)found.number);
    } else if (found.refused != 0) {
        printf("refused %u\n", (unsigned)found.refused);
    } else if (found.differs != 0) {
        printf("call %lu\n", (unsigned long)found.number);
    } else {
        printf("none\n");
    }
    return 0;
}
