// Times the pair operations of crate pair (through libpair_c.a) beside plain C on the same operands.
// Both must agree on every operand of the run. Prints ns for one operation and the ratio, for
// operations that do not depend on each other, and for a chain where each waits for the one before.
#define ROOTS_OF_DOUBLES
#include "pair_calls.h"
#include "timing.h"
#include <stdio.h>

#define ALONE __attribute__((noinline))

// ---- plain C

static ALONE u64 c_floor_of(u64 a, u64 b, u64 d) { return quotient_down((u128)a * b, d); }
static ALONE u64 c_ceil_of(u64 a, u64 b, u64 d) { return quotient_up((u128)a * b, d); }

static ALONE Ends c_times(u64 lo, u64 hi, u64 least, u64 most, u64 s) {
    return ends_times((Ends){lo, hi}, (Ends){least, most}, s);
}

static ALONE Ends c_over(u64 lo, u64 hi, u64 least, u64 most, u64 s) {
    return ends_over((Ends){lo, hi}, (Ends){least, most}, s);
}

static ALONE Ends c_root(u64 lo, u64 hi, u64 s) { return ends_root((Ends){lo, hi}, s); }
static ALONE Ends c_cube_root(u64 lo, u64 hi, u64 s) { return ends_cube_root((Ends){lo, hi}, s); }

// ---- operands

enum { N = 4096, PASSES = 200, TRIES = 7 };

typedef struct { Ends p[N], q[N]; } Operands;

// Between least and most, each power of ten as likely as the next.
static u64 spread(double least, double most) {
    double part = (double)(draw() >> 11) / 9007199254740992.0;
    return (u64)(least * pow(most / least, part));
}

// Ends 0 to 4 units apart.
static void fill(Ends *p, double least, double most) {
    for (int i = 0; i < N; i++) {
        u64 lo = spread(least, most);
        p[i] = (Ends){lo, lo + draw() % 5};
    }
}

// ---- timing

static u64 scale = 1000000;

// The best of some tries, in ns for one operation. `wait` is what the next operand takes from the
// result before: its highest bit, which is 0 in this run, and the compiler does not know it.
#define TIME(CHAINED, CALL)                                            \
    ({                                                                 \
        double best = 1e9;                                             \
        for (int t = 0; t < TRIES; t++) {                              \
            u64 sum = 0, wait = 0;                                     \
            double began = seconds();                                  \
            for (int k = 0; k < PASSES; k++)                           \
                for (int i = 0; i < N; i++) {                          \
                    u64 got = CALL;                                    \
                    sum += got;                                        \
                    if (CHAINED) wait = got >> 63;                     \
                }                                                      \
            double took = (seconds() - began) / PASSES / N * 1e9;      \
            if (took < best) best = took;                              \
            sink = sum;                                                \
        }                                                              \
        best;                                                          \
    })

// So that both ends are waited for.
static inline u64 both(Ends e) { return e.lo | e.hi; }

static void differ(const char *name, int i) {
    printf("%s: the two differ at operand %d\n", name, i);
    exit(1);
}

static void print_row(const char *name, double c, double pair, double c_chain, double pair_chain) {
    printf("%-34s %7.2f %7.2f %6.2f   %7.2f %7.2f %6.2f\n", name, c, pair, pair / c, c_chain, pair_chain,
           pair_chain / c_chain);
}

// One row: the ends that C and PAIR give must agree on every operand, then both are timed.
#define ROW(NAME, C, PAIR)                                              \
    do {                                                                \
        for (int i = 0; i < N; i++) {                                   \
            u64 wait = 0;                                               \
            Ends a = C, b = PAIR;                                       \
            if (a.lo != b.lo || a.hi != b.hi) differ(NAME, i);          \
        }                                                               \
        double c = TIME(0, both(C)), pair = TIME(0, both(PAIR));        \
        double c_chain = TIME(1, both(C)), pair_chain = TIME(1, both(PAIR)); \
        print_row(NAME, c, pair, c_chain, pair_chain);                  \
    } while (0)

// An operation on the pair o->p[i] and more, and one on the words A, B and D.
#define ON_PAIR(F, ...) F(o->p[i].lo + wait, o->p[i].hi + wait, __VA_ARGS__)
#define RUN(NAME, C, PAIR, ...) ROW(NAME, ON_PAIR(C, __VA_ARGS__), ON_PAIR(PAIR, __VA_ARGS__))
#define ON_WORDS(F, A, B, D) ((Ends){F((A) + wait, B, D), 0})
#define RUN_WORDS(NAME, C, PAIR, A, B, D) ROW(NAME, ON_WORDS(C, A, B, D), ON_WORDS(PAIR, A, B, D))

static Operands lengths, large, larger;

static void run(Operands *o, const char *floor_name, const char *ceil_name, const char *times_name) {
    RUN_WORDS(floor_name, c_floor_of, pair_floor_of, o->p[i].lo, o->q[i].lo, scale);
    RUN_WORDS(ceil_name, c_ceil_of, pair_ceil_of, o->p[i].lo, o->q[i].lo, scale);
    RUN(times_name, c_times, pair_times, o->q[i].lo, o->q[i].hi, scale);
}

int main(void) {
    // In units of 1/scale mm. Lengths of 0.05 to 500 mm have products within 64 bits; products by 4e10
    // to 4e12 units (areas, section moduli) and quotients of 2e13 to 1e15 units pass 64 bits.
    fill(lengths.p, 5e4, 5e8);
    fill(lengths.q, 5e4, 5e8);
    fill(large.p, 4e10, 4e12);
    fill(large.q, 4.9e8, 5e8);
    fill(larger.p, 2e13, 1e15);
    fill(larger.q, 5e4, 5e8);
    printf("%-34s %23s   %23s\n", "", "not waiting", "chained");
    printf("%-34s %7s %7s %6s   %7s %7s %6s\n", "ns for one operation", "C", "pair", "ratio", "C", "pair", "ratio");
    run(&lengths, "floor_of", "ceil_of", "times");
    run(&large, "floor_of, past 64 bits", "ceil_of, past 64 bits", "times, past 64 bits");
    Operands *o = &lengths;
    RUN("over", c_over, pair_over, o->q[i].lo, o->q[i].hi, scale);
    o = &larger;
    RUN("over, past 64 bits", c_over, pair_over, o->q[i].lo, o->q[i].hi, scale);
    o = &lengths;
    RUN("root", c_root, pair_root, scale);
    RUN("cube_root", c_cube_root, pair_cube_root, scale);
    return 0;
}
