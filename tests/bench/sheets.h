// Random sheets for the benchmarks, and their texts.
#include "versions.h"

// A certificate fits into ROOM, as README.md asks callers to pass; so do the lines of any sheet.
enum { ROOM = HM_CERTIFICATE_LONGEST };

typedef struct { u64 n[SHEET_LINES]; } Sheet;

static inline Sheet with(Sheet sheet, int place, u64 value) {
    sheet.n[place] = value;
    return sheet;
}

static inline Answer from_numbers(const Version *v, Sheet sheet, uint8_t *buffer, size_t room) {
#define NUMBER(key, place, ...) sheet.n[place],
    return v->from_numbers(SHEET(NUMBER) buffer, room);
}

static inline u64 refusal_of(Sheet sheet) {
    uint8_t buffer[ROOM];
    return from_numbers(&versions[NEWTON * PLACES], sheet, buffer, ROOM).refusal;
}

// A value of line i + 1.
static inline u64 in_range(int i) {
    u64 first = RANGES[i].first, second = RANGES[i].second;
    return RANGES[i].kind == UPTO ? between(first, second) : draw() % 2 ? first : second;
}

// Each value anywhere in its range.
static inline Sheet any_sheet(void) {
    Sheet sheet;
    for (int i = 0; i < SHEET_LINES; i++) sheet.n[i] = in_range(i);
    return sheet;
}

// One that meets questions 2 to 10, by rejection: it is accepted, or refused by question 11.
static inline Sheet sound_sheet(int equal_flanges) {
    for (;;) {
        Sheet sheet = any_sheet();
        if (equal_flanges) sheet.n[B2] = sheet.n[B1];
        u64 refusal = refusal_of(sheet);
        if (refusal == 0 || refusal == 11) return sheet;
    }
}

// At both scales.
static inline int accepted(Sheet sheet, u64 rounds) {
    Sheet coarse = with(with(sheet, ROUNDS, rounds), FINE, RANGES[FINE].first);
    return !refusal_of(coarse) && !refusal_of(with(coarse, FINE, RANGES[FINE].second));
}

// One that is accepted with an allowance of 10 mm², whether its rounds are 0, 3 or 8, at both scales.
static inline Sheet accepted_sheet(int equal_flanges) {
    for (;;) {
        Sheet sheet = with(sound_sheet(equal_flanges), ALLOW, 1000);
        if (accepted(sheet, 0) && accepted(sheet, 3) && accepted(sheet, 8)) return sheet;
    }
}

// One that meets questions 2 to 10, with some allowance.
static inline Sheet allowed_sheet(int equal_flanges) {
    static const u64 allowances[] = {0, 1, 10, 100, 1000};
    return with(sound_sheet(equal_flanges), ALLOW, allowances[draw() % 5]);
}

// Thin, with flanges and lips up to just past what questions 4 to 9 leave them.
static inline Sheet thin_sheet(void) {
    Sheet sheet = any_sheet();
    u64 *n = sheet.n;
    n[T] = between(45, 120);
    n[TNOM] = between(n[T], 180);
    n[B1] = between(2000, 60 * n[T] + 100);
    n[B2] = draw() % 2 ? n[B1] : between(n[B1] - 100, n[B1] + 100);
    n[C] = between(n[B1] / 5, n[B1] * 3 / 5 + 5);
    n[R] = between(0, 5 * n[T] / 2);
    return sheet;
}

// With another value of one line.
static inline Sheet one_moved(Sheet sheet) {
    int i = (int)(draw() % SHEET_LINES);
    return with(sheet, i, in_range(i));
}

// With a value of line i + 1 that is out of its range: below it, above it, or between two that it has.
static inline Sheet out_of_range(Sheet sheet, int i) {
    u64 first = RANGES[i].first, second = RANGES[i].second;
    for (;;) {
        u64 above[] = {second + 1, second + between(1, 100000), UINT64_MAX - between(0, 9)};
        u64 values[] = {between(0, first), between(first, second), above[draw() % 3]};
        u64 value = values[draw() % 3];
        if (!within(&RANGES[i], value)) return with(sheet, i, value);
    }
}

// ---- texts

// Writes the lines of a sheet whose form is C or Z, and returns their length.
static inline size_t put_sheet(Sheet sheet, uint8_t *bytes) {
    static const char *const keys[SHEET_LINES] = {SHEET(SHEET_KEY)};
    char text[ROOM + 1];
    int length = sprintf(text, "%s%c\n", keys[0], sheet.n[0] ? 'Z' : 'C');
    for (int i = 1; i < SHEET_LINES; i++)
        length += sprintf(text + length, "%s%llu\n", keys[i], (unsigned long long)sheet.n[i]);
    memcpy(bytes, text, (size_t)length);
    return (size_t)length;
}

// Changes one byte, leaves it out or puts one in, and returns the length.
static inline size_t damaged(uint8_t *bytes, size_t length) {
    static const char others[] = "0123456789-=\nCZah12f ";
    size_t at = draw() % length;
    char byte = others[draw() % (sizeof others - 1)];
    u64 damage = draw() % 4;
    if (damage == 0) memmove(bytes + at, bytes + at + 1, --length - at);
    if (damage == 1) memmove(bytes + at + 1, bytes + at, length++ - at);
    if (damage != 0) bytes[at] = (uint8_t)byte;
    return length;
}
