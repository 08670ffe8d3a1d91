/*
 * Spells the text of each case of a stream on standard input, or reads the spelt text back, as the program `second --ascii` does.
 *
 * A case is the letter S of a text to be spelt or R of a spelt text, the bytes, with their number in two bytes before them, and the length of
 * the output buffer in two bytes, the low byte first. The line of a case is number, count, place and written length, and every byte of the
 * output buffer: those written one by one, the others in a word where they are as they were lent, and one by one where not. A line says so
 * where other lengths of the buffer give something else: just enough bytes, one less, as many as are always enough, none; or where what was
 * written does not lead back.
 */
#include "streams.h"

enum { OUT_FILL = 165, MOST_BYTES = 65535 };

typedef uint32_t (*speller)(const uint8_t *, size_t, uint8_t *, size_t, uint64_t *, size_t);

static uint8_t bytes[MOST_BYTES];

/* Whether a buffer of so many bytes is answered with this number, and these bytes at its front, the rest unchanged. */
static bool gives(speller spell, const uint8_t *from, size_t from_length, size_t length, uint32_t number, const uint8_t *front,
                  size_t front_length) {
    uint8_t *out = lend(length, OUT_FILL);
    uint64_t told[BRADOVUSC_TOLD];
    bool same = spell(from, from_length, out, length, told, BRADOVUSC_TOLD) == number && told[BRADOVUSC_COUNT] == 0 &&
                told[BRADOVUSC_PLACE] == 0 && told[BRADOVUSC_WRITTEN] == front_length && memcmp(out, front, front_length) == 0 &&
                all(out + front_length, length - front_length, OUT_FILL);
    free(out);
    return same;
}

/* What the table gives, in buffers of other lengths, and back. */
static void try_lengths(speller spell, speller back, size_t length, size_t enough) {
    uint8_t *out = lend(enough, OUT_FILL);
    uint64_t told[BRADOVUSC_TOLD];
    uint32_t number = spell(bytes, length, out, enough, told, BRADOVUSC_TOLD);
    size_t written = (size_t)told[BRADOVUSC_WRITTEN];
    if (number != BRADOVUSC_DONE || written > enough) {
        fputs(", not in the bytes that are always enough", stdout);
    } else if (!gives(spell, bytes, length, enough, BRADOVUSC_DONE, out, written) ||
               !gives(spell, bytes, length, written, BRADOVUSC_DONE, out, written)) {
        fputs(", not in just enough bytes", stdout);
    } else if (written > 0 && !gives(spell, bytes, length, written - 1, BRADOVUSC_SPELT_TOO_SHORT, out, 0)) {
        fputs(", no 46 for a byte less", stdout);
    } else if (!gives(back, out, written, length, BRADOVUSC_DONE, bytes, length)) {
        fputs(", not back", stdout);
    }
    free(out);
}

static void spell_case(bool to_spell, size_t length, size_t out_length) {
    speller spell = to_spell ? bradovusc_spell : bradovusc_read_spelt, back = to_spell ? bradovusc_read_spelt : bradovusc_spell;
    uint8_t *out = lend(out_length, OUT_FILL);
    uint64_t told[BRADOVUSC_TOLD];
    uint32_t number = spell(bytes, length, out, out_length, told, BRADOVUSC_TOLD);
    print_written(number, told, out, out_length, OUT_FILL);
    if (number != BRADOVUSC_NOT_IN_TABLE) {
        try_lengths(spell, back, length, to_spell ? BRADOVUSC_SPELT_BYTES(length) : length);
    } else if (!gives(spell, bytes, length, 0, number, out, 0)) {
        fputs(", something else without a buffer", stdout);
    }
    putchar('\n');
    free(out);
}

static bool take_number(size_t *number) {
    uint8_t two[2];
    bool there = fread(two, 1, sizeof two, stdin) == sizeof two;
    *number = there ? (size_t)low_first(two, sizeof two) : 0;
    return there;
}

int main(void) {
    int letter;
    while ((letter = getchar()) != EOF) {
        size_t length, out_length;
        if (!take_number(&length) || fread(bytes, 1, length, stdin) != length || !take_number(&out_length)) {
            fputs("ascii: the stream stops inside a case\n", stderr);
            return EXIT_FAILURE;
        }
        spell_case(letter == 'S', length, out_length);
    }
    return EXIT_SUCCESS;
}
