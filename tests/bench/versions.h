// The versions that are measured: the archive, and plain C with each way to take roots, at several places
// of the program, and the reference. All must give the same answers and the same buffers, byte by byte.
#include "calls.h"
#include "turns.h"
#include <stdio.h>
#include <string.h>

typedef struct {
    const char *name;
    Write *write;
    Check *check;
    FromNumbers *from_numbers;
    Report *report;
} Version;

#define DECLARE(NAME, END)                       \
    extern Write NAME##_write##END;              \
    extern Check NAME##_check##END;              \
    extern FromNumbers NAME##_from_numbers##END; \
    extern Report NAME##_report##END;
#define ENTRY(NAME, END) \
    {#NAME #END, NAME##_write##END, NAME##_check##END, NAME##_from_numbers##END, NAME##_report##END},

AT_PLACES(DECLARE, honemagenta)
AT_PLACES(DECLARE, newton)
AT_PLACES(DECLARE, bits)
AT_PLACES(DECLARE, doubles)
DECLARE(reference, )

static const Version versions[] = {
    AT_PLACES(ENTRY, honemagenta)
    AT_PLACES(ENTRY, newton)
    AT_PLACES(ENTRY, bits)
    AT_PLACES(ENTRY, doubles)
    ENTRY(reference, )
};

enum { OURS, NEWTON, BITS, DOUBLES, REFERENCE, VERSIONS = REFERENCE * PLACES + 1 };

// ---- agreement

enum { REFUSALS = HM_SHEET_MISSPELT };

// A call of a version on some input.
typedef Answer Called(const Version *v, const void *input, uint8_t *buffer, size_t room);

// How the versions are compared: by a call, in so many bytes of the buffer. Where two differ the input is shown.
typedef struct {
    Called *called;
    void (*show)(const void *input);
    size_t bytes;
} Comparison;

static u64 refusals[REFUSALS + 1];

static inline void differ(const Comparison *c, int version, const void *input) {
    printf("%s differs from %s on\n", versions[version].name, versions[0].name);
    c->show(input);
    exit(1);
}

// Makes the call of every version; what the first has written is kept.
static inline Answer agreed(const Comparison *c, const void *input, size_t room, uint8_t *kept) {
    static uint8_t buffer[HM_REPORT_LONGEST];
    Answer first;
    for (int v = 0; v < VERSIONS; v++) {
        uint8_t *lent = v == 0 ? kept : buffer;
        for (size_t i = 0; i < c->bytes; i++) lent[i] = (uint8_t)(i * 37 + 11);
        Answer answer = c->called(&versions[v], input, lent, room);
        if (v == 0) first = answer;
        else if (memcmp(&answer, &first, sizeof answer) || memcmp(lent, kept, c->bytes)) differ(c, v, input);
    }
    refusals[first.refusal]++;
    return first;
}

static inline void print_agreement(void) {
    u64 calls = 0;
    for (int i = 0; i <= REFUSALS; i++) calls += refusals[i];
    printf("The same answers and buffers of all versions in %llu calls; refusals", (unsigned long long)calls);
    for (int i = 1; i <= REFUSALS; i++)
        if (refusals[i]) printf(" %d: %llu", i, (unsigned long long)refusals[i]);
    printf("; not refused: %llu.\n\n", (unsigned long long)refusals[0]);
}
