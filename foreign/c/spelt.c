/*
 * Carries the sheet of each case of a stream on standard input over, as the program `second --spelt` does; with the word --drop it drops
 * its strays, as `second --drop` does. What begins with RU is a rule.
 *
 * A case is as for many.c; the output buffer has the length of the answer buffer, the working buffer does not count. The line of a case
 * is number, place and written length, and every byte of the output buffer: those written one by one, the others in a word where they are
 * as they were lent, and one by one where not. A line says so where a count is told, or where other lengths give something else: just
 * enough bytes, one less, as many as are always enough.
 */
#include "streams.h"

enum { OUT_FILL = 165 };

typedef uint32_t (*speller)(const uint8_t *, size_t, uint8_t *, size_t, uint64_t *, size_t);

/* Whether strays are dropped. */
static bool drops;

static speller speller_of(bool rule) {
    if (drops) {
        return rule ? bradovusc_drop_strays_rule : bradovusc_drop_strays;
    }
    return rule ? bradovusc_spell_open_rule : bradovusc_spell_open;
}

static bool is_rule(const uint8_t *sheet, size_t length) { return length >= 2 && sheet[0] == 'R' && sheet[1] == 'U'; }

/* Whether a buffer of so many bytes is answered with this number, and these bytes at its front, the rest unchanged. */
static bool gives(speller spell, const uint8_t *sheet, size_t sheet_length, size_t length, uint32_t number, const uint8_t *front,
                  size_t front_length) {
    uint8_t *out = lend(length, OUT_FILL);
    uint64_t told[BRADOVUSC_TOLD];
    bool same = spell(sheet, sheet_length, out, length, told, BRADOVUSC_TOLD) == number && told[BRADOVUSC_COUNT] == 0 &&
                told[BRADOVUSC_PLACE] == 0 && told[BRADOVUSC_WRITTEN] == front_length && memcmp(out, front, front_length) == 0 &&
                all(out + front_length, length - front_length, OUT_FILL);
    free(out);
    return same;
}

/* A sheet without a fault, in buffers of other lengths. */
static void try_lengths(speller spell, const uint8_t *sheet, size_t sheet_length, size_t enough) {
    uint8_t *out = lend(enough, OUT_FILL);
    uint64_t told[BRADOVUSC_TOLD];
    uint32_t number = spell(sheet, sheet_length, out, enough, told, BRADOVUSC_TOLD);
    size_t written = (size_t)told[BRADOVUSC_WRITTEN];
    if (number != BRADOVUSC_DONE || written > enough) {
        fputs(", not in the bytes that are always enough", stdout);
    } else if (!gives(spell, sheet, sheet_length, enough, BRADOVUSC_DONE, out, written) ||
               !gives(spell, sheet, sheet_length, written, BRADOVUSC_DONE, out, written)) {
        fputs(", not in just enough bytes", stdout);
    } else if (!gives(spell, sheet, sheet_length, written - 1, BRADOVUSC_OUTPUT_TOO_SHORT, out, 0)) {
        fputs(", no 41 for a byte less", stdout);
    }
    free(out);
}

static void carry_case(const struct stream_case *given) {
    const uint8_t *sheet = given->sheet;
    size_t sheet_length = given->sheet_length, out_length = given->answer_length;
    bool rule = is_rule(sheet, sheet_length);
    speller spell = speller_of(rule);
    uint8_t *out = lend(out_length, OUT_FILL);
    uint64_t told[BRADOVUSC_TOLD];
    uint32_t number = spell(sheet, sheet_length, out, out_length, told, BRADOVUSC_TOLD);
    uint64_t written = told[BRADOVUSC_WRITTEN];
    printf("%" PRIu32 " %" PRIu64 " %" PRIu64, number, told[BRADOVUSC_PLACE], written);
    if (written <= out_length) {
        fputs(", written", stdout);
        print_each(out, written);
        fputs(", rest", stdout);
        print_lent(out + written, out_length - written, OUT_FILL);
    } else {
        fputs(", more than the output buffer", stdout);
        print_each(out, out_length);
    }
    if (told[BRADOVUSC_COUNT] != 0) {
        fputs(", a count", stdout);
    }
    if (number == BRADOVUSC_DONE || number == BRADOVUSC_OUTPUT_TOO_SHORT) {
        try_lengths(spell, sheet, sheet_length, rule ? BRADOVUSC_RULE_BYTES : BRADOVUSC_SHEET_BYTES);
    }
    putchar('\n');
    free(out);
}

int main(int count, char **words) {
    drops = count == 2 && strcmp(words[1], "--drop") == 0;
    if (count != 1 && !drops) {
        fputs("usage: spelt [--drop]\n", stderr);
        return 2;
    }
    return each_case("spelt", carry_case);
}
