/* sleeping RECORDING: the calls of a recording, made by three drivers: one that ticks when the recording does, one that sleeps until what
 * is due and wakes for that alone, and one that ticks each millisecond. All three must write the records of the recording, byte for byte,
 * and leave the same splicer; the sleeper's every waking must write, at the time that was read, and no tick of the third may write before
 * it. Ends with 1 and a line for the first difference. */
#include "splicer.h"

#ifdef SPLICER_NO_STANDARD_HEADERS
int printf(const char *format, ...);
int open(const char *path, int flags, ...);
long read(int file, void *bytes, size_t n);
int memcmp(const void *a, const void *b, size_t n);
void *memcpy(void *to, const void *from, size_t n);
#else
#include <fcntl.h>
#include <stdio.h>
#include <string.h>
#include <unistd.h>
#endif

enum { DAY = 65536, RECORDED, SLEEPING, MILLISECONDS };

static uint8_t day[DAY], due_records[DAY], records[DAY], out[SPLICER_OUT];
static size_t length, due_length, written;
static struct splicer channel, after_day;
static uint64_t clock_at, ticks;
static int wrong;

static void differs(const char *what) {
    if (!wrong) {
        printf("%s, at %u s\n", what, (unsigned)(clock_at / 1000000));
    }
    wrong = 1;
}

/* What a call gives, as a recording has it: its records, or 45 and the house number of its refusal. */
static void keep(struct splicer_reply r) {
    if (r.refused != SPLICER_GOOD) {
        out[0] = 0x45;
        out[1] = (uint8_t)r.refused;
        r.written = 2;
    }
    if (written + r.written > DAY) {
        differs("too many records");
        return;
    }
    memcpy(records + written, out, r.written);
    written += r.written;
}

/* The clock to a time in microseconds; how many bytes it wrote. */
static size_t tick(uint64_t at) {
    struct splicer_reply r = splicer_call_tick(&channel, (uint32_t)(at / 1000000), (uint32_t)(at % 1000000), out, sizeof out);
    clock_at = at;
    ticks++;
    keep(r);
    return r.written;
}

/* The time of the first tick that does anything, in microseconds; none is later than any. */
static uint64_t due_at(void) {
    struct splicer_due due;
    return splicer_call_due(&channel, &due) == 2 ? (uint64_t)due.seconds * 1000000 + due.micros : (uint64_t)-1;
}

static void sleep_until(uint64_t at) {
    for (uint64_t due = due_at(); due < at; due = due_at()) {
        if (tick(due) == 0) {
            differs("woken for nothing");
        }
    }
}

static void milliseconds_until(uint64_t at) {
    for (uint64_t next = clock_at + 1000; next < at; next += 1000) {
        uint64_t due = due_at();
        if ((tick(next) != 0) != (due <= next)) {
            differs("not when it was due");
        }
    }
}

/* The time of a tick of the recording: what the driver does until then, from the first one on. */
static void time_comes(int how, uint64_t at) {
    if (ticks > 0 && how == SLEEPING) {
        sleep_until(at);
    } else if (ticks > 0 && how == MILLISECONDS) {
        milliseconds_until(at);
    }
    tick(at);
}

/* One entry of the recording, and how long it is; 0 for a mark that is none. */
static size_t entry(int how, const uint8_t *p, size_t left) {
    size_t size = left < 10 ? 0 : SPLICER_MARK + SPLICER_HEADER + splicer_u16(p + 4);
    switch (p[0]) {
    case 0x4F:
        keep(splicer_call_open(&channel, p[1]));
        return 2;
    case 0x43:
        keep(splicer_call_close(&channel, p[1], out, sizeof out));
        return 2;
    case 0x4D:
        keep(splicer_call_message(&channel, p[1], p + SPLICER_MARK, size - SPLICER_MARK, out, sizeof out));
        return size;
    case 0x54:
        time_comes(how, (uint64_t)splicer_u32(p + 2) * 1000000 + splicer_u32(p + 6));
        return 10;
    case 0x45:
        return 2;
    case 0x52:
        return size;
    default:
        return 0;
    }
}

/* What the calls gave, from the recording: the mark and the message of each record, as an output buffer has them, and refusals. */
static void collect(void) {
    for (size_t at = 0; at < length;) {
        size_t size = day[at] == 0x54 ? 10 : 2;
        if (day[at] == 0x4D || day[at] == 0x52) {
            size = SPLICER_MARK + SPLICER_HEADER + splicer_u16(day + at + 4);
        }
        if (day[at] == 0x52 || day[at] == 0x45) {
            memcpy(due_records + due_length, day + at, size);
            due_length += size;
        }
        at += size;
    }
}

static void play(int how, const char *name) {
    static const uint8_t channel_name[SPLICER_NAME] = {'C', 'H', '1'};
    written = ticks = clock_at = 0;
    keep(splicer_call_fresh(&channel, channel_name));
    for (size_t at = 0, size; at < length; at += size) {
        size = entry(how, day + at, length - at);
        if (size == 0) {
            differs("no mark");
            return;
        }
    }
    if (written != due_length || memcmp(records, due_records, written) != 0) {
        differs("other records");
    }
    if (how == RECORDED) {
        after_day = channel;
    } else if (memcmp(&after_day, &channel, sizeof channel) != 0) {
        differs("another splicer");
    }
    printf("%s: %u ticks, %u bytes of records\n", name, (unsigned)ticks, (unsigned)written);
}

int main(int words, char **word) {
    int file = words == 2 ? open(word[1], 0) : -1;
    long n = file < 0 ? -1 : read(file, day, DAY);
    if (n <= 0) {
        printf("no recording\n");
        return 2;
    }
    length = (size_t)n;
    collect();
    play(RECORDED, "as recorded");
    play(SLEEPING, "asleep until something is due");
    play(MILLISECONDS, "each millisecond");
    return wrong;
}
