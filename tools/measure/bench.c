/* WHO is core, rust, c, unordered or second.
 * bench agree CASE N: says whether replies, buffers and reads (waiting counts, value on air, primary sum) of all engines are equal over a
 *   case of cases.h and all calls that led to it.
 * bench count CASE N WHO CALLS DO: restores the state and, if DO is 1, makes the call, CALLS times, by WHO. The
 *   difference of DO 1 and 0 in instructions is the call's own.
 * bench time CASE N WHO..: nanoseconds of a call by each of them: blocks in turns, least times, the restoring taken off.
 * bench stack CASE N: bytes of stack that the call of core, rust and c reached.
 * bench random SEED CALLS: random calls by all, compared.
 * bench size: bytes of the states of core, rust and c. */
int printf(const char *format, ...);
int atoi(const char *s);
#include "cases.h"
#include "random.h"

struct moment {
    long seconds, nanoseconds;
};
int clock_gettime(int clock, struct moment *at);

enum { BLOCK = 2000, SECOND_BLOCK = 100, ROUNDS = 60, PAINTED = 65536, MONOTONIC = 1 };

INLINE void repeat(const struct call *c, enum who who, int calls) {
    uint64_t reply[SPLICER_REPLY];
    for (int i = 0; i < calls; i++) {
        restore(who);
        if (who == CORE) {
            by_core(reply, c);
        } else if (who == RUST) {
            by_rust(c);
        } else if (who == UNORDERED) {
            by_unordered(c);
        } else if (who == MODEL) {
            by_second(c);
        } else {
            by_peer(c);
        }
    }
}

/* apart, so that the loop is the same with a call and with none */
APART void repeat_core(const struct call *c, int calls) { repeat(c, CORE, calls); }
APART void repeat_rust(const struct call *c, int calls) { repeat(c, RUST, calls); }
APART void repeat_peer(const struct call *c, int calls) { repeat(c, PLAIN_C, calls); }
APART void repeat_unordered(const struct call *c, int calls) { repeat(c, UNORDERED, calls); }
APART void repeat_second(const struct call *c, int calls) { repeat(c, MODEL, calls); }
static void (*const repeats[ENGINES])(const struct call *c, int calls) = {repeat_core, repeat_rust, repeat_peer, repeat_unordered,
                                                                         repeat_second};

static double block(const struct call *c, int who) {
    struct moment from, to;
    int calls = who == MODEL ? SECOND_BLOCK : BLOCK;
    clock_gettime(MONOTONIC, &from);
    repeats[who](c, calls);
    clock_gettime(MONOTONIC, &to);
    return ((double)(to.seconds - from.seconds) * 1e9 + (double)(to.nanoseconds - from.nanoseconds)) / calls;
}

static int engine_of(const char *name) {
    int who = CORE;
    while (who < ENGINES && strcmp(name, names[who]) != 0) {
        who++;
    }
    return who;
}

static void say_times(const struct call *c, int n, char **asked) {
    const struct call none = plain(NOTHING, 0, 0), *calls[2] = {&none, c};
    double least[ENGINES][2];
    for (int i = 0; i < 2 * ENGINES; i++) {
        least[i / 2][i % 2] = 1e9;
    }
    for (int round = 0; round < ROUNDS; round++) {
        for (int i = 0; i < 2 * n; i++) {
            int who = engine_of(asked[i / 2]);
            double t = block(calls[i % 2], who), *l = &least[who][i % 2];
            *l = t < *l ? t : *l;
        }
    }
    for (int i = 0; i < n; i++) {
        const double *l = least[engine_of(asked[i])];
        printf("%.0f%c", l[1] - l[0], i + 1 < n ? ' ' : '\n');
    }
}

/* fills the stack below this frame; returns its end */
INLINE uint8_t *paint(uint8_t colour) {
    uint8_t *sp;
    __asm__ volatile("mov %%rsp, %0" : "=r"(sp));
    for (size_t i = 1; i <= PAINTED; i++) {
        *(volatile uint8_t *)(sp - i) = colour;
    }
    return sp;
}

/* how far below sp the colour was changed */
INLINE size_t reached(const uint8_t *sp, uint8_t colour) {
    size_t deep = PAINTED;
    while (deep && *(const volatile uint8_t *)(sp - deep) == colour) {
        deep--;
    }
    return deep;
}

APART size_t core_stack(const struct call *c, uint8_t colour) {
    uint64_t reply[SPLICER_REPLY];
    uint8_t *sp = paint(colour);
    core_call(reply, c);
    return reached(sp, colour);
}

APART size_t rust_stack(const struct call *c, uint8_t colour) {
    uint8_t *sp = paint(colour);
    rust_call(c);
    return reached(sp, colour);
}

APART size_t peer_stack(const struct call *c, uint8_t colour) {
    uint8_t *sp = paint(colour);
    peer_call(c);
    return reached(sp, colour);
}

/* two colours, since a call may write one of them */
static void say_stack(const struct call *c) {
    enum { SHOWN = 3 };
    static size_t (*const stacks[SHOWN])(const struct call *c, uint8_t colour) = {core_stack, rust_stack, peer_stack};
    for (int who = 0; who < SHOWN; who++) {
        restore((enum who)who);
        size_t a = stacks[who](c, 0xA5);
        restore((enum who)who);
        size_t b = stacks[who](c, 0x5A);
        printf("%zu%c", a > b ? a : b, who + 1 < SHOWN ? ' ' : '\n');
    }
}

static int say_agreement(const char *name, const char *n, size_t written) {
    uint32_t result = written ? splicer_u16(outs[CORE] + 6) : 0;
    printf("%s %s: %zu bytes, first result %u, %s%s", name, n, written, result, differ ? "the engines DIFFER:" : "all agree",
           wrong ? ", the state is NOT as meant" : "");
    say_unlike();
    return differ || wrong;
}

/* a case: its state is made, its call taken once by all and compared, then what is asked for */
static int take(int argc, char **argv) {
    struct call c = prepared(argv[2], (uint32_t)atoi(argv[3])), none = plain(NOTHING, 0, 0);
    keep_states();
    size_t written = all(&c).written;
    if (differ || wrong || strcmp(argv[1], "agree") == 0) {
        return say_agreement(argv[2], argv[3], written);
    }
    for (int i = 4; i < (strcmp(argv[1], "count") == 0 ? 5 : argc); i++) {
        if (engine_of(argv[i]) == ENGINES) {
            return 2;
        }
    }
    if (strcmp(argv[1], "time") == 0) {
        say_times(&c, argc - 4 < ENGINES ? argc - 4 : ENGINES, argv + 4);
    } else if (strcmp(argv[1], "stack") == 0) {
        say_stack(&c);
    } else if (argc == 7) {
        repeats[engine_of(argv[4])](atoi(argv[6]) ? &c : &none, atoi(argv[5]));
    }
    return 0;
}

int main(int argc, char **argv) {
    if (inplace_size() > sizeof rust || unordered_size() > sizeof unordered || second_size() > sizeof second) {
        return 3;
    }
    if (argc == 2 && strcmp(argv[1], "size") == 0) {
        printf("%zu %zu %zu\n", sizeof core, inplace_size(), sizeof peer);
        return 0;
    }
    if (argc == 4 && strcmp(argv[1], "random") == 0) {
        return random_run((uint32_t)atoi(argv[2]), (uint32_t)atoi(argv[3]));
    }
    return argc < 4 ? 2 : take(argc, argv);
}
