// Times reports on catalogues by the archive libhonemagenta.a beside a call of hm_certificate_write for each
// sheet and beside the same reports in plain C (plain.c), in one run with their turns interleaved. Before that
// all versions, and the reference (tests/reference), must give the same answers and the same buffers, byte by
// byte: the first difference stops the run.
#include "columns.h"
#include "sheets.h"

enum { POOL = 3000, SMALL = 400, ROWS = 5 };

// Sheets joined end to end, and where each of them begins; the last one ends where another would begin.
typedef struct {
    int count;
    size_t starts[HM_SHEETS_MOST + 2];
    uint8_t bytes[(HM_SHEETS_MOST + 2) * ROOM];
} Catalogue;

static size_t *end_of(Catalogue *c) { return &c->starts[c->count]; }

static void append(Catalogue *c, Sheet sheet) {
    size_t at = c->starts[c->count++];
    *end_of(c) = at + put_sheet(sheet, c->bytes + at);
}

// ---- agreement

static Answer called(const Version *v, const void *input, uint8_t *buffer, size_t room) {
    const Catalogue *c = input;
    return v->report(c->bytes, c->starts[c->count], buffer, room);
}

static void show(const void *input) {
    const Catalogue *c = input;
    fwrite(c->bytes, 1, c->starts[c->count], stdout);
}

static const Comparison reports = {called, show, HM_REPORT_LONGEST};

// With room for every report, for this one alone (for none where it is refused), for a byte less, and for less.
static void agree_on(const Catalogue *c) {
    static uint8_t kept[HM_REPORT_LONGEST];
    size_t length = agreed(&reports, c, HM_REPORT_LONGEST, kept).length;
    agreed(&reports, c, length, kept);
    if (length == 0) return;
    agreed(&reports, c, length - 1, kept);
    agreed(&reports, c, draw() % length, kept);
}

// Each value has ten digits at most.
static int spelt(Sheet sheet) {
    for (int i = 0; i < SHEET_LINES; i++)
        if (sheet.n[i] > 9999999999) return 0;
    return 1;
}

static Sheet of_some_sort(void) {
    int equal_flanges = (int)(draw() % 2);
    switch (draw() % 6) {
    case 0: return any_sheet();
    case 1: return thin_sheet();
    case 2: return one_moved(sound_sheet(equal_flanges));
    case 3: return out_of_range(any_sheet(), (int)between(1, SHEET_LINES - 1));
    case 4: return allowed_sheet(equal_flanges);
    default: return accepted_sheet(equal_flanges);
    }
}

// One that can be spelt.
static Sheet mixed_sheet(void) {
    for (;;) {
        Sheet sheet = of_some_sort();
        if (spelt(sheet)) return sheet;
    }
}

static Sheet pool[POOL];

// Fills the pool, and says what becomes of its sheets.
static void fill_pool(void) {
    u64 under[REFUSALS + 1] = {0};
    for (int i = 0; i < POOL; i++) {
        pool[i] = mixed_sheet();
        under[refusal_of(pool[i])]++;
    }
    printf("Catalogues drawn from %llu accepted sheets and", (unsigned long long)under[0]);
    for (int i = 2; i <= 11; i++) printf(" %llu%s", (unsigned long long)under[i], i < 11 ? "," : "");
    printf(" under the refusals 2 to 11.\n");
}

static Catalogue *drawn(int count) {
    static Catalogue c;
    c.count = 0;
    c.starts[0] = 0;
    while (c.count < count) append(&c, pool[draw() % POOL]);
    return &c;
}

// So many sheets and some bytes behind them.
static void agree_with_rest(int count, const char *rest) {
    Catalogue *c = drawn(count);
    memcpy(c->bytes + *end_of(c), rest, strlen(rest));
    *end_of(c) += strlen(rest);
    agree_on(c);
}

// So many sheets but for their last bytes.
static void agree_without(int count, size_t bytes) {
    Catalogue *c = drawn(count);
    *end_of(c) -= bytes;
    agree_on(c);
}

// Lines with nothing in them.
static void agree_on_lines(size_t lines) {
    Catalogue *c = drawn(1);
    memset(c->bytes, '\n', lines);
    *end_of(c) = lines;
    agree_on(c);
}

static void agree_on_damaged(int count) {
    Catalogue *c = drawn(count);
    for (u64 i = between(1, 3); i; i--) *end_of(c) = damaged(c->bytes, *end_of(c));
    agree_on(c);
}

static void agree(void) {
    static const int counts[] = {0, 1, 2, HM_SHEETS_MOST - 1, HM_SHEETS_MOST, HM_SHEETS_MOST + 1};
    for (size_t i = 0; i < sizeof counts / sizeof *counts; i++) {
        agree_on(drawn(counts[i]));
        agree_with_rest(counts[i], "\n");
        agree_with_rest(counts[i], "f");
        agree_with_rest(counts[i], "form=C\nh=20000\n");
        if (counts[i]) agree_without(counts[i], 1);
        if (counts[i]) agree_without(counts[i], 12);
    }
    for (size_t lines = SHEET_LINES - 1; lines <= SHEET_LINES + 1; lines++) {
        agree_on_lines(lines);
        agree_on_lines(HM_SHEETS_MOST * lines);
    }
    agree_on_lines(HM_SHEETS_MOST * SHEET_LINES + 1);
    for (int i = 0; i < SMALL; i++) agree_on(drawn((int)between(1, 12)));
    for (int i = 0; i < SMALL; i++) agree_on_damaged((int)between(1, 12));
}

// ---- times

// The groups of runs: a report, a call for each sheet, and a report in plain C.
enum { REPORT, CALLS, IN_NEWTON, IN_BITS, IN_DOUBLES, GROUPS };

static const char *const group_names[GROUPS] = {
    "this report", "`hm_certificate_write` each", "C, Newton", "C, by bits", "C, processor's",
};

static const Columns columns = {"ns for one report | ns for one sheet", GROUPS, group_names, 0};

// All sheets of the catalogue, so many in a report.
typedef struct {
    const char *name;
    const Catalogue *catalogue;
    int size;
} Work;

// A call for each so many sheets. The lent buffer is one and the same, as the call before left it.
static void calls(Report *call, const Catalogue *c, int size, size_t room) {
    static uint8_t buffer[HM_REPORT_LONGEST];
    u64 sum = 0;
    for (int i = 0; i < c->count; i += size) {
        Answer answer = call(c->bytes + c->starts[i], c->starts[i + size] - c->starts[i], buffer, room);
        sum += answer.length + answer.line;
    }
    sink = sum;
}

// The second group is the archive again; behind it is plain C.
static void pass(int run, const void *work) {
    const Work *w = work;
    const Version *v = &versions[run < PLACES ? run : run - PLACES];
    if (run / PLACES == CALLS) calls(v->write, w->catalogue, 1, ROOM);
    else calls(v->report, w->catalogue, w->size, HM_REPORT_LONGEST);
}

static Sheet refused_sheet(void) {
    for (;;) {
        Sheet sheet = mixed_sheet();
        if (refusal_of(sheet)) return sheet;
    }
}

static Catalogue all_accepted, third_refused, all_fine;

// Accepted sheets with fine=1, a third of them replaced by refused ones, and all of them with fine=10.
static void fill_catalogues(void) {
    static Sheet sheets[HM_SHEETS_MOST];
    for (int i = 0; i < HM_SHEETS_MOST; i++) sheets[i] = with(with(accepted_sheet(i % 2), ROUNDS, 3), FINE, 1);
    for (int i = 0; i < HM_SHEETS_MOST; i++) append(&all_accepted, sheets[i]);
    for (int i = 0; i < HM_SHEETS_MOST; i++) append(&third_refused, i % 3 == 2 ? refused_sheet() : sheets[i]);
    for (int i = 0; i < HM_SHEETS_MOST; i++) append(&all_fine, with(sheets[i], FINE, 10));
}

static Times measure(const Work *w) {
    Times t = measured(pass, GROUPS * PLACES, w, w->catalogue->count);
    printf("| %s | %.0f | %.0f |", w->name, group_ns(&t, REPORT) * w->size, group_ns(&t, REPORT));
    print_others(&columns, &t);
    return t;
}

static void times(void) {
    static const Work rows[ROWS] = {
        {"10 sheets", &all_accepted, 10},
        {"100 sheets", &all_accepted, 100},
        {"1,000 sheets", &all_accepted, HM_SHEETS_MOST},
        {"1,000 sheets, a third refused", &third_refused, HM_SHEETS_MOST},
        {"1,000 sheets, fine=10", &all_fine, HM_SHEETS_MOST},
    };
    Times t[ROWS];
    printf("%d accepted sheets over the whole ranges, both forms, half of them with equal flanges, rounds=3, fine=1, in\n"
           "reports of so many. One buffer is lent to all calls and not cleared between them, %d bytes to a report\n"
           "and %d to hm_certificate_write, which is called for each sheet. But for the first column ns for one\n"
           "sheet: the median of %d interleaved turns, then of %d places of the code in memory; behind it the ratio\n"
           "of this report to that.\n\n",
           HM_SHEETS_MOST, HM_REPORT_LONGEST, ROOM, TURNS, PLACES);
    print_head(&columns);
    for (int i = 0; i < ROWS; i++) t[i] = measure(&rows[i]);
    printf("\nThe least and the most of the places, ns for one sheet:\n");
    for (int i = 0; i < ROWS; i++) print_spreads(&columns, rows[i].name, &t[i]);
}

int main(void) {
    fill_catalogues();
    fill_pool();
    agree();
    agree_on(&all_accepted);
    agree_on(&third_refused);
    agree_on(&all_fine);
    print_agreement();
    times();
    return 0;
}
