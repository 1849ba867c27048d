// Times certificates by the archive libhonemagenta.a beside plain C (plain.c) and the reference
// (tests/reference), with fine=1 and fine=10, in one run with their turns interleaved. Before that all of them
// must give the same answers and the same buffers, byte by byte: the first difference stops the run.
#include "columns.h"
#include "sheets.h"

enum { SHEETS = 400, GROUPS = REFERENCE + 1, SCALES = 2 };

static const char *const group_names[GROUPS] = {
    "this program", "C, Newton", "C, by bits", "C, processor's", "reference",
};

static const Columns columns = {"this program", GROUPS, group_names, 0};

static const Sheet SHEET_B = {{0, 20000, 7400, 6600, 2080, 300, 200, 196, 350, 1000, 3, 10, 1}};

// ---- agreement

// A text has room for a byte more than a certificate, which damage may put in.
typedef struct {
    uint8_t bytes[ROOM + 1];
    size_t length;
} Text;

typedef enum { FROM_NUMBERS, WRITE, CHECK } Call;

// The sheet where the call takes numbers, else the text.
typedef struct {
    Call call;
    const Sheet *sheet;
    const Text *text;
} Input;

static Answer called(const Version *v, const void *input, uint8_t *buffer, size_t room) {
    const Input *in = input;
    return in->call == FROM_NUMBERS ? from_numbers(v, *in->sheet, buffer, room)
           : in->call == WRITE      ? v->write(in->text->bytes, in->text->length, buffer, room)
                                    : v->check(in->text->bytes, in->text->length);
}

static void show(const void *input) {
    const Input *in = input;
    for (int i = 0; in->sheet && i < SHEET_LINES; i++) printf("%llu ", (unsigned long long)in->sheet->n[i]);
    if (in->text) fwrite(in->text->bytes, 1, in->text->length, stdout);
    printf("\n");
}

static const Comparison certificates = {called, show, ROOM};

static void agree_on_numbers(Sheet sheet, size_t room) {
    uint8_t kept[ROOM];
    agreed(&certificates, &(Input){FROM_NUMBERS, &sheet, 0}, room, kept);
}

static void agree_on_text(Call call, Text text, size_t room) {
    uint8_t kept[ROOM];
    agreed(&certificates, &(Input){call, 0, &text}, room, kept);
}

static Text certificate_of(Sheet sheet) {
    Text text;
    text.length = agreed(&certificates, &(Input){FROM_NUMBERS, &sheet, 0}, ROOM, text.bytes).length;
    return text;
}

static Text sheet_text(Sheet sheet) {
    Text text;
    text.length = put_sheet(sheet, text.bytes);
    return text;
}

static Text with_damage(Text text) {
    text.length = damaged(text.bytes, text.length);
    return text;
}

static void agree(void) {
    for (int i = 0; i < 2000; i++) agree_on_numbers(any_sheet(), ROOM);
    for (int i = 0; i < 2000; i++) agree_on_numbers(thin_sheet(), ROOM);
    for (int i = 0; i < 2000; i++) agree_on_numbers(one_moved(sound_sheet(i % 2)), ROOM);
    for (int i = 0; i < 2000; i++) agree_on_numbers(out_of_range(any_sheet(), (int)(draw() % SHEET_LINES)), ROOM);
    for (int i = 0; i < 4000; i++) {
        Sheet sheet = allowed_sheet(i % 2);
        agree_on_numbers(sheet, between(0, ROOM));
    }
    for (int i = 0; i < 2000; i++) {
        Sheet sheet = accepted_sheet(i % 2);
        Text certificate = certificate_of(sheet), text = sheet_text(sheet);
        agree_on_text(CHECK, certificate, 0);
        agree_on_text(WRITE, text, between(0, ROOM));
        agree_on_text(CHECK, with_damage(certificate), 0);
        agree_on_text(WRITE, with_damage(text), ROOM);
    }
    print_agreement();
}

// ---- times

typedef struct {
    const char *name;
    Call call;
    int count;
    Sheet sheets[SHEETS];
    Text texts[SHEETS];
} Work;

// One pass over the sheets. The lent buffer is one and the same, as the call before left it.
static void pass(int version, const void *work) {
    static uint8_t buffer[ROOM];
    const Work *w = work;
    u64 sum = 0;
    for (int i = 0; i < w->count; i++) {
        Answer answer = called(&versions[version], &(Input){w->call, &w->sheets[i], &w->texts[i]}, buffer, ROOM);
        sum += answer.length + answer.line;
    }
    sink = sum;
}

static Sheet sheets[SHEETS];

// There is one work for each scale.
static Work *on_numbers(const char *name, u64 fine, u64 rounds, u64 allow) {
    static Work works[SCALES];
    Work *w = &works[fine != RANGES[FINE].first];
    w->name = name;
    w->call = FROM_NUMBERS;
    w->count = SHEETS;
    for (int i = 0; i < SHEETS; i++)
        w->sheets[i] = with(with(with(sheets[i], FINE, fine), ROUNDS, rounds), ALLOW, allow);
    return w;
}

static Work *on_texts(const char *name, u64 fine, Call call) {
    Work *w = on_numbers(name, fine, 3, 1000);
    w->call = call;
    for (int i = 0; i < SHEETS; i++) {
        Sheet sheet = w->sheets[i];
        w->texts[i] = call == CHECK ? certificate_of(sheet) : sheet_text(sheet);
    }
    return w;
}

static int unequal_flanges(Sheet sheet) { return sheet.n[B1] != sheet.n[B2]; }

static u64 scale_of(int i) { return i ? RANGES[FINE].second : RANGES[FINE].first; }

// At both scales.
static int not_allowed(Sheet sheet) {
    return refusal_of(with(sheet, FINE, scale_of(0))) == 11 && refusal_of(with(sheet, FINE, scale_of(1))) == 11;
}

// Those of the sheets alone that are so.
static Work *only(int (*so)(Sheet), Work *w) {
    w->count = 0;
    for (int i = 0; i < SHEETS; i++)
        if (so(w->sheets[i])) w->sheets[w->count++] = w->sheets[i];
    return w;
}

// The rows of the table, each made for a scale.
typedef Work *Made(u64 fine);

static Work *no_round(u64 fine) { return on_numbers("rounds=0", fine, 0, 1000); }
static Work *three_rounds(u64 fine) { return on_numbers("rounds=3", fine, 3, 1000); }
static Work *eight_rounds(u64 fine) { return on_numbers("rounds=8", fine, 8, 1000); }

static Work *unequal_alone(u64 fine) {
    return only(unequal_flanges, on_numbers("the unequal alone, rounds=3", fine, 3, 1000));
}

static Work *sheet_b_alone(u64 fine) {
    Work *w = on_numbers("sheet B alone, rounds=3", fine, 3, 1000);
    w->count = 1;
    w->sheets[0] = with(SHEET_B, FINE, fine);
    return w;
}

static Work *from_text(u64 fine) { return on_texts("from text, rounds=3", fine, WRITE); }
static Work *checked(u64 fine) { return on_texts("check, rounds=3", fine, CHECK); }

// Every line in its turn is out of range, by the same values at both scales.
static Work *refused_at_question_2(u64 fine) {
    Work *w = on_numbers("refusal at question 2", fine, 3, 1000);
    u64 before = state;
    for (int i = 0; i < SHEETS; i++) w->sheets[i] = out_of_range(w->sheets[i], i % SHEET_LINES);
    state = before;
    return w;
}

static Work *refused_at_question_11(u64 fine) {
    return only(not_allowed, on_numbers("refusal at question 11", fine, 3, 0));
}

enum { NONE, THREE, EIGHT, ROWS = 9 };

static Made *const rows[ROWS] = {
    no_round,  three_rounds, eight_rounds,          unequal_alone,          sheet_b_alone,
    from_text, checked,      refused_at_question_2, refused_at_question_11,
};

// What was measured of a row, at each scale; the name of it there.
typedef struct {
    const char *name;
    char named[SCALES][64];
    Times at[SCALES];
} Row;

// Times every version at both scales and prints the two lines.
static Row measure(Made *made) {
    Row row;
    Job jobs[SCALES];
    for (int i = 0; i < SCALES; i++) {
        const Work *w = made(scale_of(i));
        row.name = w->name;
        snprintf(row.named[i], sizeof row.named[i], "%s, fine=%d", w->name, (int)scale_of(i));
        jobs[i] = (Job){w, w->count};
    }
    measured_beside(pass, VERSIONS, jobs, SCALES, row.at);
    for (int i = 0; i < SCALES; i++) {
        printf("| %s | %.0f |", row.named[i], group_ns(&row.at[i], OURS));
        print_others(&columns, &row.at[i]);
    }
    return row;
}

// How far the ratio with fine=10 is from that with fine=1, turn by turn. Request W-204 asks that it is within 15 %
// of it, beside plain C.
static void print_scales(const Row *measured_rows) {
    double least = 1, most = 1;
    printf("\nThe ratio with fine=10 to that with fine=1, the median of the turns:\n\n| |");
    for (int g = NEWTON; g < REFERENCE; g++) printf(" %s |", group_names[g]);
    printf("\n|---|");
    for (int g = NEWTON; g < REFERENCE; g++) printf("---|");
    for (int i = 0; i < ROWS; i++) {
        printf("\n| %s |", measured_rows[i].name);
        for (int g = NEWTON; g < REFERENCE; g++) {
            double quotient = measured_rows[i].at[1].to_first[g];
            if (quotient < least) least = quotient;
            if (quotient > most) most = quotient;
            printf(" %.2f |", quotient);
        }
    }
    printf("\n\nFrom %.2f to %.2f: %s.\n", least, most, least >= 0.85 && most <= 1.15 ? "all within 15 %" : "NOT all within 15 %");
}

static void print_round(const Row *measured_rows, int scale) {
    printf("\nns for a refining round with fine=%d, from 0 to 8 (from 0 to 3):", (int)scale_of(scale));
    for (int g = 0; g < GROUPS; g++) {
        double none = group_ns(&measured_rows[NONE].at[scale], g);
        printf("%s %s %.0f (%.0f)", g ? ";" : "", group_names[g], (group_ns(&measured_rows[EIGHT].at[scale], g) - none) / 8,
               (group_ns(&measured_rows[THREE].at[scale], g) - none) / 3);
    }
    printf("\n");
}

static void times(void) {
    static Row measured_rows[ROWS];
    printf("%d accepted sheets over the whole ranges, both forms, half of them with equal flanges. One buffer of %d bytes is\n"
           "lent to all calls and not cleared between them. ns for one call: the median of %d interleaved turns, then of %d\n"
           "places of the code in memory; behind it the ratio of this program to that version. In every turn a version works\n"
           "at both scales, fine=1 first in one turn and fine=10 first in the next.\n\n",
           SHEETS, ROOM, TURNS, PLACES);
    print_head(&columns);
    for (int i = 0; i < ROWS; i++) measured_rows[i] = measure(rows[i]);
    print_scales(measured_rows);
    for (int i = 0; i < SCALES; i++) print_round(measured_rows, i);
    printf("\nThe least and the most of the places:\n");
    for (int i = 0; i < ROWS; i++)
        for (int k = 0; k < SCALES; k++) print_spreads(&columns, measured_rows[i].named[k], &measured_rows[i].at[k]);
}

// For a profile: certificates by one version alone.
static void repeat(const char *name, int passes, u64 fine, u64 rounds) {
    Work *w = on_numbers(name, fine, rounds, 1000);
    for (int v = 0; v < VERSIONS; v++)
        if (strcmp(versions[v].name, name) == 0) printf("%s: %.0f ns\n", name, timed(pass, v, w, passes) / w->count);
}

// certificates                              agreement, then the table of times
// certificates VERSION PASSES FINE ROUNDS   one version alone, as honemagenta_0 1 10 3
int main(int count, char **words) {
    for (int i = 0; i < SHEETS; i++) sheets[i] = accepted_sheet(i % 2);
    if (count == 5) {
        repeat(words[1], atoi(words[2]), (u64)atoi(words[3]), (u64)atoi(words[4]));
        return 0;
    }
    agree();
    times();
    return 0;
}
