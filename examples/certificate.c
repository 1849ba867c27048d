/*
 * The calls of include/honemagenta.h, from C. In the repository's folder:
 *
 *   tools/build.sh honemagenta
 *   cc -std=c99 -Iinclude examples/certificate.c target/staticlib/libhonemagenta.a -o certificate
 *   ./certificate
 *
 * It prints what examples/output.txt says.
 */
#include <stdio.h>
#include <string.h>

#include "honemagenta.h"

/* A sheet as text: thirteen lines, each ended by a newline. Lengths are in 0.01 mm. allow=1 asks for
 * the area to 0.01 mm2. Worked with fine=1 it cannot be given so closely, with fine=10 it can. */
#define UP_TO_FINE \
    "form=C\nh=20000\nb1=7400\nb2=6600\nc=2080\nr=300\ntnom=200\nt=196\nfyb=350\ngm0=1000\nrounds=1\nallow=1\n"
static const char coarse_sheet[] = UP_TO_FINE "fine=1\n";
static const char fine_sheet[] = UP_TO_FINE "fine=10\n";

/* A catalogue: sheets joined end to end. */
static const char catalogue[] = UP_TO_FINE "fine=1\n" UP_TO_FINE "fine=10\n";

/* A call answers three numbers: refusal is 0, or the number of the question that is not met. Of a
 * catalogue, line may be the place of a sheet. */
static void say(const char *what, hm_answer answer) {
    const char *words = hm_refusal_words(answer.refusal);
    const char *place = answer.refusal == HM_SHEET_MISSPELT ? "sheet" : "line";
    printf("%s: ", what);
    if (answer.refusal == HM_NOT_REFUSED)
        printf("in order, %llu bytes\n", (unsigned long long)answer.length);
    else if (answer.refusal == HM_BUFFER_TOO_SHORT)
        printf("%s, %llu bytes are needed\n", words, (unsigned long long)answer.length);
    else
        printf("refused, question %llu, %s %llu: %s\n", (unsigned long long)answer.refusal, place,
               (unsigned long long)answer.line, words);
}

/* The certificate of a sheet's text. */
static hm_answer from_text(const char *sheet, uint8_t *buffer, size_t room) {
    return hm_certificate_write((const uint8_t *)sheet, strlen(sheet), buffer, room);
}

/* The same sheet as thirteen numbers, with allow 10 and fine 1: the area may be off by 0.1 mm2. */
static hm_answer from_numbers(uint8_t *buffer, size_t room) {
    return hm_certificate_from_numbers(HM_FORM_C, 20000, 7400, 6600, 2080, 300, 200, 196, 350, 1000, 1, 10, 1, buffer,
                                       room);
}

/* The report on the first so many bytes of the catalogue. */
static hm_answer report(size_t length, uint8_t *buffer, size_t room) {
    return hm_catalogue_report((const uint8_t *)catalogue, length, buffer, room);
}

/* How many sheets are accepted and how many each question refuses, both sums, and a line for each
 * accepted sheet. A catalogue that breaks off is not reported on. */
static int report_on_catalogue(void) {
    static uint8_t buffer[HM_REPORT_LONGEST];
    hm_answer written = report(strlen(catalogue), buffer, sizeof buffer);
    say("Report on a catalogue of two sheets", written);
    if (written.refusal != HM_NOT_REFUSED)
        return 1;
    fwrite(buffer, 1, (size_t)written.length, stdout);
    say("Report without the last byte", report(strlen(catalogue) - 1, buffer, sizeof buffer));
    return 0;
}

/* A lip's coefficient at a ratio in millionths: it lies between the two ends. */
static void look_up(const char *what, uint64_t ratio) {
    hm_coefficient k = hm_lip_coefficient(ratio);
    if (k.refusal == HM_NOT_REFUSED)
        printf("%s: %llu to %llu millionths\n", what, (unsigned long long)k.lower, (unsigned long long)k.upper);
    else
        say(what, (hm_answer){k.refusal, k.line, k.length});
}

/* The table has the ratios from 0.350 to 0.600. Outside them a lookup is refused. */
static void lip_coefficients(void) {
    uint8_t table[HM_LIP_TABLE_LENGTH];
    say("Table of lip coefficients", hm_lip_table(table, sizeof table));
    look_up("Lip coefficient at 0.412345", 412345);
    look_up("Lip coefficient at 0.610000", 610000);
}

int main(void) {
    /* The caller passes the buffer. So many bytes take every certificate. */
    uint8_t buffer[HM_CERTIFICATE_LONGEST];

    hm_answer written = from_numbers(buffer, sizeof buffer);
    say("Certificate from thirteen numbers", written);
    if (written.refusal != HM_NOT_REFUSED)
        return 1;

    /* The certificate is text, and no zero byte ends it: print as many bytes as were answered. */
    fwrite(buffer, 1, (size_t)written.length, stdout);

    /* Whoever is handed the certificate can check it. */
    say("Checked", hm_certificate_check(buffer, (size_t)written.length));

    /* Its last digit changed, it is no longer the one that follows from its first thirteen lines. */
    buffer[written.length - 2] ^= 1;
    say("Checked with a digit changed", hm_certificate_check(buffer, (size_t)written.length));

    /* From text. What is refused leaves the buffer as it was. */
    say("Certificate of the sheet with allow=1", from_text(coarse_sheet, buffer, sizeof buffer));
    say("Certificate of the same with fine=10", from_text(fine_sheet, buffer, sizeof buffer));

    /* A buffer that is too short is not written to either, and the length needed is reported. */
    say("Certificate in a buffer of 100 bytes", from_numbers(buffer, 100));
    if (report_on_catalogue() != 0)
        return 1;
    lip_coefficients();
    return 0;
}
