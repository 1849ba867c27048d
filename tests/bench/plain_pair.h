// The pair operations in plain C: 128-bit integers, each end by itself.
// (Document 01, "Pairs and the scale".)
#pragma once
#include <math.h>
#include <stdint.h>

typedef uint64_t u64;
typedef unsigned __int128 u128;
typedef struct { u64 lo, hi; } Ends;

static inline u64 quotient_down(u128 n, u64 d) { return (u64)(n / d); }
static inline u64 quotient_up(u128 n, u64 d) { return (u64)((n + (d - 1)) / d); }

static inline Ends ends_plus(Ends p, Ends q) { return (Ends){p.lo + q.lo, p.hi + q.hi}; }
static inline Ends ends_minus(Ends p, Ends q) { return (Ends){p.lo - q.hi, p.hi - q.lo}; }

static inline Ends ends_times(Ends p, Ends q, u64 s) {
    return (Ends){quotient_down((u128)p.lo * q.lo, s), quotient_up((u128)p.hi * q.hi, s)};
}

static inline Ends ends_over(Ends p, Ends q, u64 s) {
    return (Ends){quotient_down((u128)p.lo * s, q.hi), quotient_up((u128)p.hi * s, q.lo)};
}

// How many bits n has.
static inline int bits(u128 n) {
    u64 high = (u64)(n >> 64);
    return high ? 128 - __builtin_clzll(high) : n ? 64 - __builtin_clzll((u64)n) : 0;
}

// Whole roots, rounded down, in one of three usual ways.
#if defined ROOTS_OF_DOUBLES

// The processor's root of a double, corrected in whole numbers.
static inline u64 square_down(u128 n) {
    u64 r = (u64)sqrt((double)n);
    while ((u128)r * r > n) r--;
    while ((u128)(r + 1) * (r + 1) <= n) r++;
    return r;
}

static inline u64 cube_down(u128 n) {
    u64 r = (u64)cbrt((double)n);
    while ((u128)r * r * r > n) r--;
    while ((u128)(r + 1) * (r + 1) * (r + 1) <= n) r++;
    return r;
}

#elif defined ROOTS_BY_BITS

// One bit of the root after the other.
static inline u64 square_down(u128 n) {
    u128 r = 0;
    for (u128 bit = n ? (u128)1 << (bits(n) - 1) / 2 * 2 : 0; bit; bit >>= 2) {
        if (n >= r + bit) {
            n -= r + bit;
            r = r / 2 + bit;
        } else {
            r /= 2;
        }
    }
    return (u64)r;
}

static inline u64 cube_down(u128 n) {
    u64 r = 0;
    for (u64 bit = 1ull << (bits(n) + 2) / 3; bit; bit >>= 1) {
        u64 next = r | bit;
        if ((u128)next * next * next <= n) r = next;
    }
    return r;
}

#else

// By Newton in whole numbers, from a power of two that is not below the root.
static inline u64 square_down(u128 n) {
    if (n == 0) return 0;
    u64 r = 1ull << (bits(n) + 1) / 2;
    for (;;) {
        u64 next = (r + (u64)(n / r)) / 2;
        if (next >= r) return r;
        r = next;
    }
}

static inline u64 cube_down(u128 n) {
    if (n == 0) return 0;
    u64 r = 1ull << (bits(n) + 2) / 3;
    for (;;) {
        u64 next = (2 * r + (u64)(n / ((u128)r * r))) / 3;
        if (next >= r) return r;
        r = next;
    }
}

#endif

static inline u64 square_up(u128 n) {
    u64 r = square_down(n);
    return r + ((u128)r * r < n);
}

static inline Ends ends_root(Ends p, u64 s) {
    return (Ends){square_down((u128)p.lo * s), square_up((u128)p.hi * s)};
}

static inline u64 cube_up(u128 n) {
    u64 r = cube_down(n);
    return r + ((u128)r * r * r < n);
}

static inline Ends ends_cube_root(Ends p, u64 s) {
    return (Ends){cube_down((u128)p.lo * s * s), cube_up((u128)p.hi * s * s)};
}
