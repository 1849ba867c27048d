// Time and chance for the benchmarks.
#pragma once
#include <stdint.h>
#include <stdlib.h>
#include <time.h>

typedef uint64_t u64;

// Of this thread alone, so that other work on the machine counts little.
static inline double seconds(void) {
    struct timespec t;
    clock_gettime(CLOCK_THREAD_CPUTIME_ID, &t);
    return (double)t.tv_sec + (double)t.tv_nsec * 1e-9;
}

// The seed is fixed: every run draws the same numbers.
static u64 state = 88172645463325252u;

static inline u64 draw(void) {
    state ^= state << 13;
    state ^= state >> 7;
    state ^= state << 17;
    return state;
}

static inline u64 between(u64 least, u64 most) { return least + draw() % (most - least + 1); }

// Takes a sum of the results, so that the compiler leaves nothing out.
static volatile u64 sink;
