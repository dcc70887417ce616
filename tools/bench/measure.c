/* measure.c KIND N: checks a recording of 65,536 bytes N times, for instructions (the difference of two Ns), or for N = 0 once, and writes
 * the bytes of stack that the call reached. KIND: o opens of connection 0; p opens and closes of it in turn, 32,768 calls that are all
 * good; r opens of connection 4 with their refusals; t ticks. tools/measure-check.sh runs it. */
#include "splicer_bench.h"

int printf(const char *form, ...);
int atoi(const char *text);

#define APART __attribute__((noinline))
enum { DEEP = 60000 };

static uint8_t recording[SPLICER_RECORDING];

static void fill(char kind) {
    static const uint8_t opens[] = {0x4F, 0}, pairs[] = {0x4F, 0, 0x43, 0}, refused[] = {0x4F, 4, 0x45, 1};
    for (size_t i = 0; i < sizeof recording; i++) {
        recording[i] = kind == 'o' ? opens[i % 2] : kind == 'p' ? pairs[i % 4] : kind == 'r' ? refused[i % 4] : i % 10 == 0 ? 0x54 : 0;
    }
}

/* paints the stack below this frame; returns its end */
APART static uint8_t *paint(uint8_t colour) {
    volatile uint8_t below[DEEP];
    uint8_t *end;
    for (size_t i = 0; i < DEEP; i++) {
        below[i] = colour;
    }
    __asm__ volatile("" : "=r"(end) : "0"(below) : "memory");
    return end;
}

APART static size_t reached(uint8_t colour) {
    volatile uint8_t *end = paint(colour);
    struct splicer_finding found = splicer_check(recording, sizeof recording);
    size_t at = 0;
    (void)found;
    while (at < DEEP && end[at] == colour) {
        at++;
    }
    return (size_t)((uint8_t *)__builtin_frame_address(0) - (end + at));
}

int main(int argc, char **argv) {
    struct splicer_finding found = {0, 0, 0};
    int n = argc == 3 ? atoi(argv[2]) : -1;
    if (n < 0) {
        return 2;
    }
    fill(argv[1][0]);
    if (n == 0) {
        size_t a = reached(0xA5), b = reached(0x5A);
        printf("%zu\n", a > b ? a : b);
        return 0;
    }
    for (int i = 0; i < n; i++) {
        found = splicer_check(recording, sizeof recording);
    }
    printf("%u %u %zu\n", found.refused, found.differs, found.number);
    return 0;
}
