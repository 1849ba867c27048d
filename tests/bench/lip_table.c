// Times lookups in the table of lip coefficients by the archive libhonemagenta.a beside working k, by the
// operations of crate pair (own_k.c) and in plain C (plain.c), and the table's text beside plain C that works and
// writes it, in one run with their turns interleaved. Before that all must agree: k at every ratio of the range,
// the lookup's ends, which are those of k at the entries beside the ratio and have k between them, and the texts.
// The first difference stops the run.
#include "calls.h"
#include "columns.h"
#include "plain_pair.h"

enum { COUNT = 4096, ENTRIES = (RATIO_MOST - RATIO_LEAST) / RATIO_STEP + 1, ROWS = 3 };

typedef hm_coefficient Lookup(u64 ratio);
typedef Ends Working(u64 ratio);
typedef Answer WriteTable(uint8_t *buffer, size_t room);

#define DECLARE_LOOKUP(NAME, END) extern Lookup NAME##_lookup##END;
#define DECLARE_WORKING(NAME, END) extern Working NAME##_k##END;
#define DECLARE_WRITER(NAME, END) extern WriteTable NAME##_table##END;
#define LOOKUP(NAME, END) NAME##_lookup##END,
#define WORKING(NAME, END) NAME##_k##END,
#define WRITER(NAME, END) NAME##_table##END,

// Plain C with each way to take roots.
#define IN_C(EACH) AT_PLACES(EACH, newton) AT_PLACES(EACH, bits) AT_PLACES(EACH, doubles)

AT_PLACES(DECLARE_LOOKUP, honemagenta)
AT_PLACES(DECLARE_WORKING, own)
IN_C(DECLARE_WORKING)
AT_PLACES(DECLARE_WRITER, honemagenta)
IN_C(DECLARE_WRITER)

static Lookup *const lookups[] = {AT_PLACES(LOOKUP, honemagenta)};
static Working *const workings[] = {AT_PLACES(WORKING, own) IN_C(WORKING)};
static WriteTable *const writers[] = {AT_PLACES(WRITER, honemagenta) IN_C(WRITER)};

// The groups of runs at a ratio, where k is worked behind the lookup, and those of the table.
enum { LOOKUPS, OWN, GROUPS = 5, WRITERS = 4 };

static const char *const group_names[GROUPS] = {
    "lookup", "k, our operations", "k in C, Newton", "k in C, by bits", "k in C, processor's",
};

static const char *const writer_names[WRITERS] = {"this table", "C, Newton", "C, by bits", "C, processor's"};

// ---- agreement

// k at the ratios of the table.
static Ends entries[ENTRIES];

static void differ(const char *what, u64 ratio) {
    printf("%s: not as worked by our operations, at ratio %llu\n", what, (unsigned long long)ratio);
    exit(1);
}

// k, the same in all workings.
static Ends agreed_k(u64 ratio) {
    Ends k = workings[0](ratio);
    for (int i = 1; i < (GROUPS - OWN) * PLACES; i++) {
        Ends other = workings[i](ratio);
        if (other.lo != k.lo || other.hi != k.hi) differ(group_names[OWN + i / PLACES], ratio);
    }
    return k;
}

static void agree_on_lookup(u64 ratio, hm_coefficient expected) {
    for (int place = 0; place < PLACES; place++) {
        hm_coefficient told = lookups[place](ratio);
        if (memcmp(&told, &expected, sizeof told)) differ(group_names[LOOKUPS], ratio);
    }
}

static void agree_inside(u64 ratio) {
    u64 past = ratio - RATIO_LEAST;
    u64 lower = entries[past / RATIO_STEP].lo, upper = entries[(past + RATIO_STEP - 1) / RATIO_STEP].hi;
    Ends k = agreed_k(ratio);
    if (k.lo < lower || upper < k.hi) differ("the entries beside it, between which k lies", ratio);
    agree_on_lookup(ratio, (hm_coefficient){0, 0, 0, lower, upper});
}

static void agree_outside(u64 ratio) { agree_on_lookup(ratio, (hm_coefficient){HM_OUTSIDE_TABLE, 0, 0, 0, 0}); }

static void agree_on_text(void) {
    char text[HM_LIP_TABLE_LENGTH + 1];
    uint8_t buffer[HM_LIP_TABLE_LENGTH];
    size_t length = 0;
    for (int i = 0; i < ENTRIES; i++)
        length += (size_t)snprintf(text + length, sizeof text - length, "%llu %llu\n",
                                   (unsigned long long)entries[i].lo, (unsigned long long)entries[i].hi);
    for (int i = 0; i < WRITERS * PLACES; i++) {
        memset(buffer, 0, sizeof buffer);
        Answer answer = writers[i](buffer, sizeof buffer);
        if (answer.refusal || answer.length != length || memcmp(buffer, text, sizeof buffer)) {
            printf("%s: not the text of k as worked by our operations\n", writer_names[i / PLACES]);
            exit(1);
        }
    }
}

static void agree(void) {
    for (u64 i = 0; i < ENTRIES; i++) entries[i] = agreed_k(RATIO_LEAST + i * RATIO_STEP);
    for (u64 ratio = RATIO_LEAST; ratio <= RATIO_MOST; ratio++) agree_inside(ratio);
    for (int i = 0; i < COUNT; i++) {
        agree_outside(between(0, RATIO_LEAST - 1));
        agree_outside(between(RATIO_MOST + 1, UINT64_MAX));
    }
    agree_outside(RATIO_LEAST - 1);
    agree_outside(RATIO_MOST + 1);
    agree_on_text();
    printf("The same k by all workings at all %d ratios, between the lookup's ends; the same text of all tables.\n\n",
           RATIO_MOST - RATIO_LEAST + 1);
}

// ---- times

// A call at a ratio, which gives all that a caller reads in one word, so that all is waited for.
typedef u64 Told(int run, u64 ratio);

static inline u64 looked_up(int run, u64 ratio) {
    hm_coefficient told = lookups[run](ratio);
    return told.refusal | told.lower | told.upper;
}

static inline u64 worked(int run, u64 ratio) {
    Ends k = workings[run - OWN * PLACES](ratio);
    return k.lo | k.hi;
}

// Where calls wait, a ratio takes the highest bit of what the call before gave: it is 0 in this run, and the
// compiler does not know it.
static inline __attribute__((always_inline)) void over_ratios(Told *told, int run, const uint32_t *ratios, int wait) {
    u64 sum = 0, before = 0;
    for (int i = 0; i < COUNT; i++) {
        u64 got = told(run, ratios[i] + before);
        sum += got;
        if (wait) before = got >> 63;
    }
    sink = sum;
}

static void not_waiting(int run, const void *ratios) {
    if (run / PLACES == LOOKUPS) over_ratios(looked_up, run, ratios, 0);
    else over_ratios(worked, run, ratios, 0);
}

static void waiting(int run, const void *ratios) {
    if (run / PLACES == LOOKUPS) over_ratios(looked_up, run, ratios, 1);
    else over_ratios(worked, run, ratios, 1);
}

// The lent buffer is one and the same, as the call before left it.
static void write_table(int run, const void *none) {
    static uint8_t buffer[HM_LIP_TABLE_LENGTH];
    (void)none;
    sink = writers[run](buffer, sizeof buffer).length;
}

static const Columns of_ratios = {"lookup", GROUPS, group_names, 1};
static const Columns of_tables = {"this table", WRITERS, writer_names, 0};

// What is timed, and how many calls a pass has.
typedef struct {
    const char *name;
    const Columns *columns;
    Pass *pass;
    int calls;
} Row;

static Times measure(const Row *row, const void *work) {
    Times t = measured(row->pass, row->columns->groups * PLACES, work, row->calls);
    printf("| %s | %.*f |", row->name, row->columns->digits, group_ns(&t, 0));
    print_others(row->columns, &t);
    return t;
}

static void times(void) {
    static const Row rows[ROWS] = {
        {"one ratio", &of_ratios, not_waiting, COUNT},
        {"one ratio, waiting for the call before", &of_ratios, waiting, COUNT},
        {"the whole table", &of_tables, write_table, 1},
    };
    static uint32_t ratios[COUNT];
    Times t[ROWS];
    for (int i = 0; i < COUNT; i++) ratios[i] = (uint32_t)between(RATIO_LEAST, RATIO_MOST);
    printf("%d ratios drawn from the whole range, in the order drawn; one buffer of %d bytes for all tables.\n"
           "ns for one call: the median of %d interleaved turns, then of %d places of the code in memory; behind\n"
           "it the ratio of the lookup, or of this table, to that.\n",
           COUNT, HM_LIP_TABLE_LENGTH, TURNS, PLACES);
    for (int i = 0; i < ROWS; i++) {
        if (i == 0 || rows[i].columns != rows[i - 1].columns) {
            printf("\n");
            print_head(rows[i].columns);
        }
        t[i] = measure(&rows[i], ratios);
    }
    printf("\nThe least and the most of the places, ns for one call:\n");
    for (int i = 0; i < ROWS; i++) print_spreads(rows[i].columns, rows[i].name, &t[i]);
}

int main(void) {
    agree();
    times();
    return 0;
}
