/*
 * Certificates of lipped C and Z sections, reports on catalogues of them, and a
 * table of lip coefficients: the calls of libhonemagenta.a, which
 * `tools/build.sh honemagenta` writes to target/staticlib/.
 *
 * What a caller owes. Nothing checks a caller in C:
 *  - A pointer is not null, also where its length is 0, and points to as many
 *    bytes as the length says. Those of sheets or a certificate may be read,
 *    and are not written by anyone else during the call; those of a buffer may
 *    be read and written, and are used by no one else during the call.
 *  - A buffer does not overlap the sheets.
 * Every length and every content is allowed. The calls keep nothing between
 * them, allocate nothing and may run in several threads at a time.
 *
 * What is answered. `refusal` is 0 where a text is written, a certificate passes
 * or a coefficient is found; `line` is then 0, and `length` counts the bytes of
 * the text, which is not ended by a zero byte. Otherwise `refusal` is the number of
 * the first question that is not met (enum hm_refusal), and `line` the line
 * concerned, at 15 the sheet's place in its catalogue, 1 for the first. `length`
 * is 0 at every refusal but 12, where it is the length needed. A refusal leaves
 * every byte of the buffer as it was; bytes behind what is written are kept too.
 * Of a coefficient `length` is always 0, and at a refusal both ends are 0.
 *
 * README.md says what the lines of a sheet, a certificate, a report and the
 * table are, and what to do about a refusal.
 */
#ifndef HONEMAGENTA_H
#define HONEMAGENTA_H

#include <stddef.h>
#include <stdint.h>

/* A buffer of so many bytes takes every certificate. */
#define HM_CERTIFICATE_LONGEST 289

/* A catalogue has at most so many sheets, and a buffer of so many bytes takes every report. */
#define HM_SHEETS_MOST 1000
#define HM_REPORT_LONGEST 27088

/* How long the table of lip coefficients is. */
#define HM_LIP_TABLE_LENGTH 3514

/* The two forms, as numbers. */
#define HM_FORM_C 0
#define HM_FORM_Z 1

#ifdef __cplusplus
extern "C" {
#endif

typedef struct hm_answer {
    uint64_t refusal;
    uint64_t line;
    uint64_t length;
} hm_answer;

/* What a lookup answers: a lip's coefficient k lies from lower to upper, in millionths. */
typedef struct hm_coefficient {
    uint64_t refusal;
    uint64_t line;
    uint64_t length;
    uint64_t lower;
    uint64_t upper;
} hm_coefficient;

/* The refusals, each with the line that is reported; hm_refusal_words says what is wrong. */
enum hm_refusal {
    HM_NOT_REFUSED = 0,           /* line 0 */
    HM_MISSPELT = 1,              /* 1 to 20, the first such line; 14 for bytes behind a sheet, 20 behind a certificate */
    HM_OUT_OF_RANGE = 2,          /* 1 to 13, the first such value; 1, the form, only from numbers */
    HM_CORE_TOO_THICK = 3,        /* 8, t */
    HM_FLANGE_TOO_WIDE = 4,       /* 3 or 4, b1 or b2 */
    HM_LIP_TOO_LONG = 5,          /* 5, c */
    HM_WEB_TOO_DEEP = 6,          /* 2, h */
    HM_LIP_UNSUITABLE = 7,        /* 3 or 4, the flange that it does not suit */
    HM_RADIUS_TOO_LARGE = 8,      /* 6, r */
    HM_MID_LINE_LIP_TOO_LONG = 9, /* 3 or 4, the flange that it is too long for */
    HM_LIPS_OVERLAP = 10,         /* 5, c */
    HM_ALLOWANCE_EXCEEDED = 11,   /* 12, allow */
    HM_BUFFER_TOO_SHORT = 12,     /* 0; length is the length needed */
    HM_WRONG_FIGURE = 13,         /* 14 to 19, the first such figure; only when checking */
    HM_WRONG_SHEET_COUNT = 14,    /* 0; only of a catalogue */
    HM_SHEET_MISSPELT = 15,       /* 1 to 1000, the place of the first such sheet; only of a catalogue */
    HM_OUTSIDE_TABLE = 16         /* 0; only of a coefficient */
};

/* What is wrong, in the words of README.md's table. */
static inline const char *hm_refusal_words(uint64_t refusal) {
    switch (refusal) {
    case HM_NOT_REFUSED: return "nothing is wrong";
    case HM_MISSPELT: return "a line is missing or misspelt";
    case HM_OUT_OF_RANGE: return "a value is out of its range";
    case HM_CORE_TOO_THICK: return "the core is thicker than the nominal thickness";
    case HM_FLANGE_TOO_WIDE: return "a flange is wider than 60 t";
    case HM_LIP_TOO_LONG: return "the lip is longer than 50 t";
    case HM_WEB_TOO_DEEP: return "the web is deeper than 500 t";
    case HM_LIP_UNSUITABLE: return "the lip is shorter than a fifth or longer than three fifths of a flange";
    case HM_RADIUS_TOO_LARGE: return "the inside radius is above 5 t or above a tenth of a flange's mid-line";
    case HM_MID_LINE_LIP_TOO_LONG: return "the lip is longer than three fifths of a flange, on the mid-lines";
    case HM_LIPS_OVERLAP: return "the lips of a C would overlap: 2 c is more than h";
    case HM_ALLOWANCE_EXCEEDED: return "the area cannot be given as closely as allow asks";
    case HM_BUFFER_TOO_SHORT: return "the buffer is too short";
    case HM_WRONG_FIGURE: return "a figure is not the one worked from the first thirteen lines";
    case HM_WRONG_SHEET_COUNT: return "there are no sheets, or more than 1,000";
    case HM_SHEET_MISSPELT: return "a sheet of the catalogue is missing lines or misspelt";
    case HM_OUTSIDE_TABLE: return "the ratio is outside 0.350 to 0.600";
    default: return "no such refusal";
    }
}

/* Writes the certificate of a sheet, thirteen lines key=value, to the start of the buffer. */
hm_answer hm_certificate_write(const uint8_t *sheet, size_t sheet_len, uint8_t *buffer, size_t buffer_len);

/* Checks a certificate, nineteen lines: it passes if it is the one that is written for its own sheet. */
hm_answer hm_certificate_check(const uint8_t *certificate, size_t certificate_len);

/*
 * The same as hm_certificate_write, from the thirteen numbers of a sheet. form is HM_FORM_C or HM_FORM_Z; fine is 1 or
 * 10, and with 10 the section is worked to one decimal more, for an allow that refusal 11 says is too close.
 */
hm_answer hm_certificate_from_numbers(uint64_t form, uint64_t h, uint64_t b1, uint64_t b2, uint64_t c, uint64_t r,
                                      uint64_t tnom, uint64_t t, uint64_t fyb, uint64_t gm0, uint64_t rounds,
                                      uint64_t allow, uint64_t fine, uint8_t *buffer, size_t buffer_len);

/*
 * Writes the report on a catalogue, 1 to 1,000 sheets joined end to end, to the start of the buffer. Each run of
 * thirteen lines is one sheet, and a shorter rest one that is cut short. One number to a line, the report has the
 * number of sheets, of those accepted, of those under each refusal from 2 to 11, the sum of the accepted ones' areas
 * and that of their axial resistances; then a line for each accepted sheet, in the catalogue's order: its place from
 * 1, its area and its axial resistance, one blank between. The call takes some 25 KB of stack.
 */
hm_answer hm_catalogue_report(const uint8_t *sheets, size_t sheets_len, uint8_t *buffer, size_t buffer_len);

/*
 * Writes the table of lip coefficients to the start of the buffer: for each ratio of a lip to its flange, on the
 * mid-lines, from 0.350 to 0.600 in steps of 0.001, a line with the lower and the upper end of k in millionths, one
 * blank between. Only a buffer that is too short is refused.
 */
hm_answer hm_lip_table(uint8_t *buffer, size_t buffer_len);

/*
 * Looks up k in that table, for a ratio in millionths, 350000 to 600000: the lower end of the entry at or below it and
 * the upper end of the entry at or above it. k lies between, however finely it is worked. For a ratio of more than
 * six places take the lower end at the ratio rounded down to six, and the upper end at the ratio rounded up.
 */
hm_coefficient hm_lip_coefficient(uint64_t ratio);

#ifdef __cplusplus
}
#endif

#endif
