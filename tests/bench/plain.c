// Document 01 in plain C with 128-bit integers: what the crates are measured beside.
#include "calls.h"
#include "plain_pair.h"
#include <string.h>

typedef __int128 i128;
typedef int64_t i64;

// Key and type of a certificate's further lines, in order.
#define FIGURES(LINE) \
    LINE(area, u64) LINE(axial, u64) LINE(chi1, u64) LINE(chi2, u64) LINE(shiftlo, i64) LINE(shifthi, i64)

#define ONE(key, type) +1

// From place SHIFTS on, a value may be below zero.
enum { LINES = SHEET_LINES FIGURES(ONE), SHIFTS = LINES - 2 };

#define NUMBER(key, ...) u64 key;
#define FIGURE(key, type) type key;
typedef struct { SHEET(NUMBER) } Sheet;
typedef struct { FIGURES(FIGURE) } Figures;

// What they have, in order.
#define OF_SHEET(key, ...) (i64)sheet->key,
#define OF_FIGURES(key, type) (i64)f->key,

static Answer refused(u64 number, u64 line) { return (Answer){number, line, 0}; }
static Answer in_order(size_t length) { return (Answer){0, 0, length}; }

// ---- pairs, in units of 1/(n * 1,000,000): n is the sheet's line fine

#define MILLION 1000000u

// Compiled for each scale by itself, n being a constant: faster than with a scale that is read.
#define AT_SCALE static inline __attribute__((always_inline))

static inline Ends exact(u64 a, u64 b, u64 n) { return (Ends){a * (n * MILLION) / b, a * (n * MILLION) / b}; }
static inline Ends whole(u64 a, u64 n) { return exact(a, 1, n); }
static inline Ends plus(Ends p, Ends q) { return ends_plus(p, q); }
static inline Ends minus(Ends p, Ends q) { return ends_minus(p, q); }
static inline Ends times(Ends p, Ends q, u64 n) { return ends_times(p, q, n * MILLION); }
static inline Ends over(Ends p, Ends q, u64 n) { return ends_over(p, q, n * MILLION); }
static inline Ends root(Ends p, u64 n) { return ends_root(p, n * MILLION); }

static inline u64 smaller(u64 a, u64 b) { return a < b ? a : b; }
static inline u64 larger(u64 a, u64 b) { return a < b ? b : a; }

// Pairs that may lie below zero: the distance of the neutral axis, and what it is made of.
typedef struct { i64 lo, hi; } SignedEnds;

static inline i64 signed_down(i128 x, i64 d) {
    i128 q = x / d;
    return (i64)(q - (q * d > x));
}

static inline i64 signed_up(i128 x, i64 d) {
    i128 q = x / d;
    return (i64)(q + (q * d < x));
}

static inline SignedEnds signed_of(Ends p) { return (SignedEnds){(i64)p.lo, (i64)p.hi}; }
static inline SignedEnds signed_plus(SignedEnds a, SignedEnds b) { return (SignedEnds){a.lo + b.lo, a.hi + b.hi}; }
static inline SignedEnds signed_minus(SignedEnds a, SignedEnds b) { return (SignedEnds){a.lo - b.hi, a.hi - b.lo}; }

// By a pair that has nothing below zero.
static inline SignedEnds signed_times(SignedEnds a, Ends p, u64 n) {
    i64 s = (i64)(n * MILLION);
    return (SignedEnds){signed_down((i128)a.lo * (a.lo < 0 ? p.hi : p.lo), s),
                        signed_up((i128)a.hi * (a.hi < 0 ? p.lo : p.hi), s)};
}

static inline SignedEnds signed_over(SignedEnds a, Ends p, u64 n) {
    i64 s = (i64)(n * MILLION);
    return (SignedEnds){signed_down((i128)a.lo * s, (i64)(a.lo < 0 ? p.lo : p.hi)),
                        signed_up((i128)a.hi * s, (i64)(a.hi < 0 ? p.hi : p.lo))};
}

// ---- widths and slenderness

AT_SCALE Ends slenderness_squared(Ends w, Ends t, Ends fyb, Ends k, u64 n) {
    Ends ratio = over(w, t, n);
    return over(over(times(times(ratio, ratio, n), fyb, n), exact(1895416, 10, n), n), k, n);
}

// rho falls with u: its lower end comes from the upper end of u. limit and less are in millionths.
AT_SCALE Ends share(Ends u, u64 limit, u64 less, u64 n) {
    u64 s = n * MILLION;
    Ends rho = {s, s};
    if (u.hi > n * limit) rho.lo = smaller(s, quotient_down((u128)(u.hi - n * less) * s * s, u.hi * u.hi));
    if (u.lo > n * limit) rho.hi = smaller(s, quotient_up((u128)(u.lo - n * less) * s * s, u.lo * u.lo));
    return rho;
}

AT_SCALE Ends plane_share(Ends u_squared, u64 n) { return share(root(u_squared, n), 673000, 220000, n); }
AT_SCALE Ends lip_share(Ends u_squared, u64 n) { return share(root(u_squared, n), 748000, 188000, n); }

AT_SCALE Ends coefficient_at(u64 q, u64 n) {
    if (q <= n * 350000) return exact(1, 2, n);
    Ends past = {q - n * 350000, q - n * 350000};
    return plus(exact(1, 2, n), times(exact(83, 100, n), ends_cube_root(times(past, past, n), n * MILLION), n));
}

AT_SCALE Ends coefficient(Ends q, u64 n) { return (Ends){coefficient_at(q.lo, n).lo, coefficient_at(q.hi, n).hi}; }

// ---- stiffener of each flange

typedef struct { Ends bp, plane, lip; } Flange;
typedef struct { Ends be2, c, a, g, chi; } Stiffener;
typedef struct { Ends hp, cp, t, fyb; Flange flange[2]; } Section;

AT_SCALE Ends half_kept(Ends rho, Ends w, u64 n) { return times(times(exact(1, 2, n), rho, n), w, n); }

AT_SCALE u64 factor_down(u64 ud, u64 n) {
    u64 s = n * MILLION;
    if (ud <= n * 650000) return s;
    if (ud < n * 1380000) return smaller(s, (1470 * s - 723 * ud) / 1000);
    return 66 * s * s / (100 * ud);
}

AT_SCALE u64 factor_up(u64 ud, u64 n) {
    u64 s = n * MILLION;
    if (ud <= n * 650000) return s;
    if (ud < n * 1380000) return smaller(s, (1470 * s - 723 * ud + 999) / 1000);
    return (66 * s * s + 100 * ud - 1) / (100 * ud);
}

AT_SCALE Ends factor(Ends ud, u64 n) {
    u64 jump = n * 1380000;
    Ends chi = {factor_down(ud.hi, n), factor_up(ud.lo, n)};
    if (ud.lo < jump && ud.hi >= jump) {
        chi.lo = smaller(n * 472260, chi.lo);
        chi.hi = larger(factor_up(jump, n), chi.hi);
    }
    return chi;
}

// be2, c_eff, a and g, from u^2 of flange and lip.
AT_SCALE void widths(const Section *section, Stiffener *s, Ends bp, Ends plane, Ends lip, u64 n) {
    s->be2 = half_kept(plane_share(plane, n), bp, n);
    s->c = times(lip_share(lip, n), section->cp, n);
    s->a = plus(s->be2, s->c);
    s->g = minus(bp, over(times(s->be2, s->be2, n), times(whole(2, n), s->a, n), n));
}

AT_SCALE Ends thickness_factor(const Section *section, const Stiffener *s, const Stiffener *other, u64 n) {
    Ends cube = times(times(s->c, s->c, n), s->c, n);
    Ends flat = over(times(times(s->be2, section->t, n), section->t, n), whole(12, n), n);
    Ends far = over(times(cube, s->be2, n), times(whole(4, n), s->a, n), n);
    Ends j = plus(plus(flat, over(cube, whole(12, n), n)), far);
    Ends load = over(over(times(section->fyb, s->a, n), section->t, n), whole(210, n), n);
    Ends square = times(s->g, s->g, n);
    Ends kf = over(other->a, s->a, n);
    Ends cross = times(times(times(times(exact(1, 2, n), s->g, n), other->g, n), section->hp, n), kf, n);
    Ends d = plus(plus(times(square, section->hp, n), times(square, s->g, n)), cross);
    Ends product = times(times(over(d, j, n), load, n), load, n);
    Ends fourth = over(times(product, exact(91, 100, n), n), whole(1000000, n), n);
    return factor(root(root(fourth, n), n), n);
}

AT_SCALE void factors(const Section *section, Stiffener s[2], u64 n) {
    for (int i = 0; i < 2; i++) s[i].chi = thickness_factor(section, &s[i], &s[1 - i], n);
}

// Each flange keeps the smaller of its new chi and the old one, end by end (request W-205).
AT_SCALE void refine(const Section *section, Stiffener s[2], u64 n) {
    Ends old[2] = {s[0].chi, s[1].chi};
    for (int i = 0; i < 2; i++) {
        const Flange *f = &section->flange[i];
        widths(section, &s[i], f->bp, times(f->plane, old[i], n), times(f->lip, old[i], n), n);
    }
    factors(section, s, n);
    for (int i = 0; i < 2; i++) s[i].chi = (Ends){smaller(s[i].chi.lo, old[i].lo), smaller(s[i].chi.hi, old[i].hi)};
}

// ---- area, resistance, shift

typedef struct { Ends be1[2], be2[2], c[2], a[2], chi[2], he; } Kept;

AT_SCALE Ends length_of(const Kept *k, u64 n) {
    Ends sum = plus(plus(plus(k->be1[0], k->be1[1]), k->he), k->he);
    return plus(plus(sum, times(k->a[0], k->chi[0], n)), times(k->a[1], k->chi[1], n));
}

AT_SCALE SignedEnds axis(const Kept *k, Ends hp, Ends length, u64 n) {
    Ends two = whole(2, n), he = k->he;
    SignedEnds arm = signed_minus(signed_of(hp), signed_of(over(k->c[1], two, n)));
    SignedEnds sum = signed_times(arm, times(k->c[1], k->chi[1], n), n);
    sum = signed_plus(sum, signed_of(times(hp, plus(times(k->be2[1], k->chi[1], n), k->be1[1]), n)));
    sum = signed_plus(sum, signed_of(times(he, minus(hp, over(he, two, n)), n)));
    sum = signed_plus(sum, signed_of(over(times(he, he, n), two, n)));
    sum = signed_plus(sum, signed_of(over(times(times(k->c[0], k->c[0], n), k->chi[0], n), two, n)));
    return signed_over(sum, length, n);
}

AT_SCALE void flange_of(Section *section, int i, u64 b, Ends tnom, u64 n) {
    Flange *f = &section->flange[i];
    f->bp = minus(exact(b, 100, n), tnom);
    f->plane = slenderness_squared(f->bp, section->t, section->fyb, whole(4, n), n);
    f->lip = slenderness_squared(section->cp, section->t, section->fyb, coefficient(over(section->cp, f->bp, n), n), n);
}

AT_SCALE Kept effective(const Section *section, u64 rounds, u64 n) {
    Kept k;
    Stiffener s[2];
    for (int i = 0; i < 2; i++) {
        widths(section, &s[i], section->flange[i].bp, section->flange[i].plane, section->flange[i].lip, n);
        k.be1[i] = s[i].be2;
    }
    factors(section, s, n);
    for (u64 i = 0; i < rounds; i++) refine(section, s, n);
    for (int i = 0; i < 2; i++) {
        k.be2[i] = s[i].be2;
        k.c[i] = s[i].c;
        k.a[i] = s[i].a;
        k.chi[i] = s[i].chi;
    }
    Ends web = slenderness_squared(section->hp, section->t, section->fyb, whole(4, n), n);
    k.he = half_kept(plane_share(web, n), section->hp, n);
    return k;
}

AT_SCALE Kept gross(const Section *section, u64 n) {
    Kept k;
    for (int i = 0; i < 2; i++) {
        k.be1[i] = k.be2[i] = over(section->flange[i].bp, whole(2, n), n);
        k.c[i] = section->cp;
        k.a[i] = plus(k.be2[i], k.c[i]);
        k.chi[i] = whole(1, n);
    }
    k.he = over(section->hp, whole(2, n), n);
    return k;
}

// The figures, and whether they meet question 11.
AT_SCALE int work_at(const Sheet *sheet, Figures *f, u64 n) {
    u64 s = n * MILLION;
    Section section;
    Ends tnom = exact(sheet->tnom, 100, n);
    section.hp = minus(exact(sheet->h, 100, n), tnom);
    section.cp = minus(exact(sheet->c, 100, n), over(tnom, whole(2, n), n));
    section.t = exact(sheet->t, 100, n);
    section.fyb = whole(sheet->fyb, n);
    flange_of(&section, 0, sheet->b1, tnom, n);
    flange_of(&section, 1, sheet->b2, tnom, n);
    Kept kept = effective(&section, sheet->rounds, n), all = gross(&section, n);
    Ends length = length_of(&kept, n);
    Ends area = times(section.t, length, n);
    SignedEnds shift = signed_minus(axis(&kept, section.hp, length, n), axis(&all, section.hp, length_of(&all, n), n));
    f->area = area.lo * 100 / s;
    f->axial = area.lo * sheet->fyb * 1000 / (sheet->gm0 * s);
    f->chi1 = kept.chi[0].lo * 1000 / s;
    f->chi2 = kept.chi[1].lo * 1000 / s;
    f->shiftlo = signed_down((i128)shift.lo * 100, (i64)s);
    f->shifthi = signed_up((i128)shift.hi * 100, (i64)s);
    return area.hi * 100 <= (f->area + sheet->allow) * s;
}

static int work(const Sheet *sheet, Figures *f) {
    return sheet->fine == 1 ? work_at(sheet, f, 1) : work_at(sheet, f, 10);
}

// ---- questions 2 to 11

static Answer judged(const Sheet *sheet, Figures *f) {
    const i64 values[SHEET_LINES] = {SHEET(OF_SHEET)};
    for (int i = 0; i < SHEET_LINES; i++)
        if (!within(&RANGES[i], (u64)values[i])) return refused(2, i + 1);
    const u64 b[2] = {sheet->b1, sheet->b2};
    if (sheet->t > sheet->tnom) return refused(3, 8);
    for (int i = 0; i < 2; i++)
        if (b[i] > 60 * sheet->t) return refused(4, 3 + i);
    if (sheet->c > 50 * sheet->t) return refused(5, 5);
    if (sheet->h > 500 * sheet->t) return refused(6, 2);
    for (int i = 0; i < 2; i++)
        if (b[i] > 5 * sheet->c || 5 * sheet->c > 3 * b[i]) return refused(7, 3 + i);
    if (sheet->r > 5 * sheet->t) return refused(8, 6);
    if (10 * sheet->r > b[0] - sheet->tnom || 10 * sheet->r > b[1] - sheet->tnom) return refused(8, 6);
    for (int i = 0; i < 2; i++)
        if (5 * (2 * sheet->c - sheet->tnom) > 6 * (b[i] - sheet->tnom)) return refused(9, 3 + i);
    if (sheet->form == 0 && 2 * sheet->c > sheet->h) return refused(10, 5);
    if (!work(sheet, f)) return refused(11, ALLOW + 1);
    return in_order(0);
}

// ---- text

#define FIGURE_KEY(key, type) #key "=",
static const char *const KEYS[LINES] = {SHEET(SHEET_KEY) FIGURES(FIGURE_KEY)};

static char *put_text(char *at, const char *text) {
    while (*text) *at++ = *text++;
    return at;
}

static inline char *put_number(char *at, u64 n) {
    char digits[20];
    int count = 0;
    do {
        digits[count++] = (char)('0' + n % 10);
        n /= 10;
    } while (n);
    while (count) *at++ = digits[--count];
    return at;
}

// Question 12: the text goes to the buffer if that has room for it.
static inline Answer lent(const char *text, const char *end, uint8_t *buffer, size_t room) {
    size_t length = (size_t)(end - text);
    if (length > room) return (Answer){12, 0, length};
    memcpy(buffer, text, length);
    return in_order(length);
}

static Answer put(const Sheet *sheet, const Figures *f, uint8_t *buffer, size_t room) {
    const i64 values[LINES] = {SHEET(OF_SHEET) FIGURES(OF_FIGURES)};
    char text[HM_CERTIFICATE_LONGEST], *at = text;
    for (int i = 0; i < LINES; i++) {
        at = put_text(at, KEYS[i]);
        if (i == 0) {
            *at++ = values[i] ? 'Z' : 'C';
        } else {
            if (values[i] < 0) *at++ = '-';
            at = put_number(at, (u64)(values[i] < 0 ? -values[i] : values[i]));
        }
        *at++ = '\n';
    }
    return lent(text, at, buffer, room);
}

// The number of line i at *at, which moves behind its newline; 0 where the line is bad.
static inline int read_line(const uint8_t **at, const uint8_t *end, int i, i64 *value) {
    const uint8_t *p = *at;
    for (const char *key = KEYS[i]; *key; key++)
        if (p == end || *p++ != (uint8_t)*key) return 0;
    if (i == 0) {
        if (p == end || (*p != 'C' && *p != 'Z')) return 0;
        *value = *p++ == 'Z';
    } else {
        int negative = i >= SHIFTS && p != end && *p == '-';
        if (negative) p++;
        const uint8_t *first = p;
        i64 n = 0;
        while (p != end && *p >= '0' && *p <= '9' && p - first < 10) n = n * 10 + (*p++ - '0');
        if (p == first || (*first == '0' && (p - first > 1 || negative))) return 0;
        *value = negative ? -n : n;
    }
    if (p == end || *p++ != '\n') return 0;
    *at = p;
    return 1;
}

// The first lines at *at, which moves behind them: 0, or the first bad line.
static inline u64 read_first(const uint8_t **at, const uint8_t *end, int count, i64 values[]) {
    for (int i = 0; i < count; i++)
        if (!read_line(at, end, i, &values[i])) return (u64)i + 1;
    return 0;
}

// Question 1: 0, or the first bad line.
static u64 read_lines(const uint8_t *text, size_t length, int count, i64 values[]) {
    const uint8_t *at = text, *end = text + length;
    u64 bad = read_first(&at, end, count, values);
    return bad || at == end ? bad : (u64)count + 1;
}

static Sheet sheet_of(const i64 values[]) {
#define VALUE(key, place, ...) (u64)values[place],
    return (Sheet){SHEET(VALUE)};
}

// ---- the calls

static Answer certify(const Sheet *sheet, uint8_t *buffer, size_t room) {
    Figures f;
    Answer answer = judged(sheet, &f);
    return answer.refusal ? answer : put(sheet, &f, buffer, room);
}

Answer plain_write(const uint8_t *text, size_t length, uint8_t *buffer, size_t room) {
    i64 values[SHEET_LINES];
    u64 bad = read_lines(text, length, SHEET_LINES, values);
    if (bad) return refused(1, bad);
    Sheet sheet = sheet_of(values);
    return certify(&sheet, buffer, room);
}

Answer plain_check(const uint8_t *certificate, size_t length) {
    i64 values[LINES];
    u64 bad = read_lines(certificate, length, LINES, values);
    if (bad) return refused(1, bad);
    Sheet sheet = sheet_of(values);
    Figures figures, *f = &figures;
    Answer answer = judged(&sheet, f);
    if (answer.refusal) return answer;
    const i64 worked[LINES - SHEET_LINES] = {FIGURES(OF_FIGURES)};
    for (int i = SHEET_LINES; i < LINES; i++)
        if (values[i] != worked[i - SHEET_LINES]) return refused(13, i + 1);
    return in_order(length);
}

Answer plain_from_numbers(SHEET(PARAMETER) uint8_t *buffer, size_t room) {
#define NAMED(key, ...) key,
    Sheet sheet = {SHEET(NAMED)};
    return certify(&sheet, buffer, room);
}

// ---- the report on a catalogue (request W-202)

typedef struct { u64 place, area, axial; } Row;

// How many sheets there are under each refusal, 0 for the accepted ones, of which each has a row.
typedef struct {
    u64 sheets, under[12], area, axial;
    Row *rows;
} Tally;

// How many lines; what stands behind the last newline is one too.
static size_t lines_of(const uint8_t *text, size_t length) {
    size_t count = length && text[length - 1] != '\n';
    for (size_t i = 0; i < length; i++) count += text[i] == '\n';
    return count;
}

static void enter(Tally *t, u64 place, const Sheet *sheet) {
    Figures f;
    u64 refusal = judged(sheet, &f).refusal;
    if (refusal == 0) {
        t->rows[t->under[0]] = (Row){place, f.area, f.axial};
        t->area += f.area;
        t->axial += f.axial;
    }
    t->under[refusal]++;
}

static inline char *put_ended(char *at, u64 n, char end) {
    at = put_number(at, n);
    *at++ = end;
    return at;
}

static Answer put_report(const Tally *t, uint8_t *buffer, size_t room) {
    char text[HM_REPORT_LONGEST], *at = text;
    at = put_ended(at, t->sheets, '\n');
    at = put_ended(at, t->under[0], '\n');
    for (int question = 2; question <= 11; question++) at = put_ended(at, t->under[question], '\n');
    at = put_ended(at, t->area, '\n');
    at = put_ended(at, t->axial, '\n');
    for (const Row *row = t->rows; row != t->rows + t->under[0]; row++) {
        at = put_ended(at, row->place, ' ');
        at = put_ended(at, row->area, ' ');
        at = put_ended(at, row->axial, '\n');
    }
    return lent(text, at, buffer, room);
}

Answer plain_report(const uint8_t *text, size_t length, uint8_t *buffer, size_t room) {
    Row rows[HM_SHEETS_MOST];
    Tally t = {.sheets = (lines_of(text, length) + SHEET_LINES - 1) / SHEET_LINES, .rows = rows};
    if (t.sheets == 0 || t.sheets > HM_SHEETS_MOST) return refused(14, 0);
    const uint8_t *at = text, *end = text + length;
    for (u64 place = 1; place <= t.sheets; place++) {
        i64 values[SHEET_LINES];
        if (read_first(&at, end, SHEET_LINES, values)) return refused(15, place);
        Sheet sheet = sheet_of(values);
        enter(&t, place, &sheet);
    }
    return put_report(&t, buffer, room);
}

// ---- the table of lip coefficients (request W-203)

Ends plain_k(u64 ratio) { return coefficient_at(ratio, 1); }

Answer plain_table(uint8_t *buffer, size_t room) {
    char text[HM_LIP_TABLE_LENGTH], *at = text;
    for (u64 ratio = RATIO_LEAST; ratio <= RATIO_MOST; ratio += RATIO_STEP) {
        Ends k = coefficient_at(ratio, 1);
        at = put_ended(at, k.lo, ' ');
        at = put_ended(at, k.hi, '\n');
    }
    return lent(text, at, buffer, room);
}
