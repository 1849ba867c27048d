// The lines of a sheet, and the four calls in each version that is measured.
// (Document 01, "Sheet and certificate".)
#pragma once
#include "honemagenta.h"

// What a value may be: from the first number to the second, both included, or one of the two.
typedef enum { UPTO, ONE_OF } Kind;
typedef struct { Kind kind; uint64_t first, second; } Range;

// Key, place and range of each line, in order. Only here do they stand one by one.
#define SHEET(LINE)                   \
    LINE(form, FORM, UPTO, 0, 1)      \
    LINE(h, H, UPTO, 4000, 50000)     \
    LINE(b1, B1, UPTO, 2000, 20000)   \
    LINE(b2, B2, UPTO, 2000, 20000)   \
    LINE(c, C, UPTO, 500, 12000)      \
    LINE(r, R, UPTO, 0, 3000)         \
    LINE(tnom, TNOM, UPTO, 50, 600)   \
    LINE(t, T, UPTO, 45, 600)         \
    LINE(fyb, FYB, UPTO, 200, 700)    \
    LINE(gm0, GM0, UPTO, 1000, 1500)  \
    LINE(rounds, ROUNDS, UPTO, 0, 8)  \
    LINE(allow, ALLOW, UPTO, 0, 1000) \
    LINE(fine, FINE, ONE_OF, 1, 10)

#define PLACE(key, place, ...) place,
#define RANGE(key, place, ...) {__VA_ARGS__},
#define PARAMETER(key, ...) uint64_t key,
#define SHEET_KEY(key, ...) #key "=",

enum { SHEET(PLACE) SHEET_LINES };

static const Range RANGES[SHEET_LINES] = {SHEET(RANGE)};

static inline int within(const Range *r, uint64_t value) {
    return r->kind == UPTO ? r->first <= value && value <= r->second : value == r->first || value == r->second;
}

typedef hm_answer Answer;
typedef Answer Write(const uint8_t *sheet, size_t sheet_length, uint8_t *buffer, size_t room);
typedef Answer Check(const uint8_t *certificate, size_t length);
typedef Answer FromNumbers(SHEET(PARAMETER) uint8_t *buffer, size_t room);
// Of sheets joined end to end.
typedef Write Report;

// The ratios of the table of lip coefficients, in millionths. (Request W-203.)
enum { RATIO_LEAST = 350000, RATIO_MOST = 600000, RATIO_STEP = 1000 };
