/*
 * Writes the sheet of each case of a stream on standard input, as the program `second --write` does; with the word --edition as `second
 * --write-edition` does.
 *
 * A case is, with that word, the edition in eight bytes; the number of lengths in one byte, each length in eight; the patterns, the left side and the right one, each with its length in
 * two bytes before it; the length of the output buffer in two bytes. In each number the low byte is first. The line of a case is number,
 * count, place and written length, and every byte of the output buffer: those written one by one, the others in a word where they are as
 * they were lent, and one by one where not. A line says so where other lengths of the buffer give something else: just enough bytes, one
 * less, as many as are always enough; and after a fault, none.
 */
#include "streams.h"

enum { OUT_FILL = 165, MOST_LENGTHS = 255, MOST_BYTES = 65535 };

/* What a case hands over. */
struct part {
    uint8_t bytes[MOST_BYTES];
    size_t length;
};
static struct part patterns, left, right;
static uint64_t lengths[MOST_LENGTHS];
static size_t lengths_length;
/* Whether each case has its edition in front, and that. */
static bool with_edition;
static uint64_t edition;

static uint32_t write_into(uint8_t *out, size_t out_length, uint64_t *told) {
    return with_edition ? bradovusc_write_edition((size_t)edition, patterns.bytes, patterns.length, lengths, lengths_length, left.bytes,
                                                  left.length, right.bytes, right.length, out, out_length, told, BRADOVUSC_TOLD)
                        : bradovusc_write(patterns.bytes, patterns.length, lengths, lengths_length, left.bytes, left.length, right.bytes,
                                          right.length, out, out_length, told, BRADOVUSC_TOLD);
}

/* Whether a buffer of so many bytes is answered with these numbers, and these bytes at its front, the rest unchanged. */
static bool gives(size_t length, uint32_t number, uint64_t place, const uint8_t *front, size_t front_length) {
    uint8_t *out = lend(length, OUT_FILL);
    uint64_t told[BRADOVUSC_TOLD];
    bool same = write_into(out, length, told) == number && told[BRADOVUSC_COUNT] == 0 && told[BRADOVUSC_PLACE] == place &&
                told[BRADOVUSC_WRITTEN] == front_length && memcmp(out, front, front_length) == 0 &&
                all(out + front_length, length - front_length, OUT_FILL);
    free(out);
    return same;
}

/* Sides and patterns without a fault, in buffers of other lengths. */
static void try_lengths(void) {
    uint8_t *out = lend(BRADOVUSC_SHEET_BYTES, OUT_FILL);
    uint64_t told[BRADOVUSC_TOLD];
    uint32_t number = write_into(out, BRADOVUSC_SHEET_BYTES, told);
    size_t written = (size_t)told[BRADOVUSC_WRITTEN];
    if (number != BRADOVUSC_DONE || written == 0 || written > BRADOVUSC_SHEET_BYTES) {
        fputs(", not in the bytes that are always enough", stdout);
    } else if (!gives(BRADOVUSC_SHEET_BYTES, BRADOVUSC_DONE, 0, out, written) || !gives(written, BRADOVUSC_DONE, 0, out, written)) {
        fputs(", not in just enough bytes", stdout);
    } else if (!gives(written - 1, BRADOVUSC_OUTPUT_TOO_SHORT, 0, out, 0)) {
        fputs(", no 41 for a byte less", stdout);
    }
    free(out);
}

static void write_case(size_t out_length) {
    uint8_t *out = lend(out_length, OUT_FILL);
    uint64_t told[BRADOVUSC_TOLD];
    uint32_t number = write_into(out, out_length, told);
    print_written(number, told, out, out_length, OUT_FILL);
    if (number == BRADOVUSC_DONE || number == BRADOVUSC_OUTPUT_TOO_SHORT) {
        try_lengths();
    } else if (!gives(0, number, told[BRADOVUSC_PLACE], out, 0)) {
        fputs(", something else without a buffer", stdout);
    }
    putchar('\n');
    free(out);
}

static bool take(uint8_t *bytes, size_t length) { return fread(bytes, 1, length, stdin) == length; }

static bool take_number(size_t length, uint64_t *number) {
    uint8_t bytes[sizeof *number];
    bool there = take(bytes, length);
    *number = there ? low_first(bytes, length) : 0;
    return there;
}

static bool take_part(struct part *part) {
    uint64_t length;
    if (!take_number(2, &length)) {
        return false;
    }
    part->length = (size_t)length;
    return take(part->bytes, part->length);
}

static bool take_case(uint64_t *out_length) {
    uint64_t several;
    if ((with_edition && !take_number(sizeof edition, &edition)) || !take_number(1, &several)) {
        return false;
    }
    lengths_length = (size_t)several;
    for (size_t field = 0; field < lengths_length; field++) {
        if (!take_number(sizeof *lengths, &lengths[field])) {
            return false;
        }
    }
    return take_part(&patterns) && take_part(&left) && take_part(&right) && take_number(2, out_length);
}

int main(int count, char **words) {
    int first;
    with_edition = count == 2 && strcmp(words[1], "--edition") == 0;
    if (count != 1 && !with_edition) {
        fputs("usage: written [--edition]\n", stderr);
        return 2;
    }
    while ((first = getchar()) != EOF) {
        uint64_t out_length;
        ungetc(first, stdin);
        if (!take_case(&out_length)) {
            fputs("written: the stream stops inside a case\n", stderr);
            return EXIT_FAILURE;
        }
        write_case((size_t)out_length);
    }
    return EXIT_SUCCESS;
}
