/* held.c: every inline function of include/ beside the bare archives, on random input: headers.sh builds and runs it with the headers as
 * they are, and with each wrong one. It names the first function that differs and ends with 1. What is due comes from the archives'
 * functions, called as they are, and from the layouts written out here; of the headers nothing is taken but what is held. */
#include "splicer.h"
#include "splicer_bench.h"
#include "splicer_record.h"
#include "splicer_text.h"

/* the kit has no C headers */
int printf(const char *form, ...);
void exit(int status);
int memcmp(const void *a, const void *b, size_t n);
int strcmp(const char *a, const char *b);
void *memcpy(void *to, const void *from, size_t n);
void *memset(void *to, int byte, size_t n);

#include "draw.h"

#include "calls.h"

#include "texts.h"

#include "recorded.h"

/* times TEST N: n times */
static void times(void (*test)(void), uint32_t n) {
    for (uint32_t i = 0; i < n; i++) {
        test();
    }
}

/* Some of each. What a sink got is a recording of one splicer from fresh on. */
static void some(void) {
    times(held_card, 150);
    times(held_rolling, 50);
    times(held_streams, 15);
    times(held_texts, 50);
    taped = dues = 0;
    times(held_parts, 10);
    taped = dues = 0;
    times(held_fresh, 1);
    times(held_recorded, 60);
    times(held_check, 6);
    times(held_referee, 4);
    taped = dues = 0;
    times(held_marks, 10);
    taped = dues = 0;
    times(held_rolling_fresh, 1);
    times(held_recorded_further, 60);
    times(held_recall_fresh, 2);
    times(held_recall, 40);
}

/* The header's version is the archive's. */
static void held_version(void) {
    expect("SPLICER_VERSION", splicer_7_version() == SPLICER_VERSION * 1000 + SPLICER_VERSION_MINOR);
}

int main(void) {
    held_version();
    held_fresh();
    held_rolling_fresh();
    times(some, 20);
    printf("as the archives\n");
    return 0;
}
