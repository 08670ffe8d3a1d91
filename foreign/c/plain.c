/*
 * Asks the engine for plain rules about the sheet of each case of a stream on standard input, as the program `second --plain` does.
 *
 * A case is as for many.c; the bit buffer has the length of the working buffer, the answer buffer does not count. The line of a case is
 * number, count and place, and every byte of the bit buffer, in a word where they are all zero or as they were lent; then what the sheet
 * needs: number, place and bytes. A line says so where a count is told of that, or where other lengths give something else: just enough
 * bytes, one less, as many as are always enough; after another refusal, none.
 */
#include "streams.h"

static bool is_fault(uint32_t number) {
    return (number >= BRADOVUSC_CUT_SHORT && number <= BRADOVUSC_WRONG_TOKEN) || number == BRADOVUSC_WRONG_EDITION;
}

/* Whether a bit buffer of so many bytes is answered with this number and this place, and is then as it must be. */
static bool gives(const struct stream_case *given, size_t length, uint32_t number, uint64_t place) {
    uint8_t *bits = lend(length, WORK_FILL);
    uint64_t told[BRADOVUSC_PLAIN_TOLD];
    bool same = bradovusc_plain(given->sheet, given->sheet_length, bits, length, told, BRADOVUSC_PLAIN_TOLD) == number &&
                told[BRADOVUSC_COUNT] == 0 && told[BRADOVUSC_PLACE] == place &&
                all(bits, length, is_fault(number) ? WORK_FILL : 0);
    free(bits);
    return same;
}

/* A plain sheet, in buffers of other lengths. */
static void try_lengths(const struct stream_case *given, uint64_t needed) {
    uint64_t told[BRADOVUSC_PLAIN_TOLD];
    uint8_t *bits = lend(BRADOVUSC_PLAIN_BYTES, WORK_FILL);
    uint32_t number = bradovusc_plain(given->sheet, given->sheet_length, bits, BRADOVUSC_PLAIN_BYTES, told, BRADOVUSC_PLAIN_TOLD);
    free(bits);
    if (number > BRADOVUSC_NO_CLASH || needed == 0 || needed > BRADOVUSC_PLAIN_BYTES) {
        fputs(", not in the bytes that are always enough", stdout);
    } else if (!gives(given, BRADOVUSC_PLAIN_BYTES, number, 0) || !gives(given, (size_t)needed, number, 0)) {
        fputs(", not in just enough bytes", stdout);
    } else if (!gives(given, (size_t)needed - 1, BRADOVUSC_BITS_TOO_SHORT, 0)) {
        fputs(", no 43 for a byte less", stdout);
    }
}

static void ask_case(const struct stream_case *given) {
    uint8_t *bits = lend(given->work_length, WORK_FILL);
    uint64_t told[BRADOVUSC_PLAIN_TOLD], needs[BRADOVUSC_PLAIN_NEEDED_TOLD];
    uint32_t number = bradovusc_plain(given->sheet, given->sheet_length, bits, given->work_length, told, BRADOVUSC_PLAIN_TOLD);
    uint32_t measured = bradovusc_plain_bytes(given->sheet, given->sheet_length, needs, BRADOVUSC_PLAIN_NEEDED_TOLD);
    printf("%" PRIu32 " %" PRIu64 " %" PRIu64, number, told[BRADOVUSC_COUNT], told[BRADOVUSC_PLACE]);
    print_work(bits, given->work_length);
    printf(", needs %" PRIu32 " %" PRIu64 " %" PRIu64, measured, needs[BRADOVUSC_PLACE], needs[BRADOVUSC_PLAIN_NEEDED]);
    if (needs[BRADOVUSC_COUNT] != 0) {
        fputs(", a count", stdout);
    }
    if (measured == BRADOVUSC_DONE) {
        try_lengths(given, needs[BRADOVUSC_PLAIN_NEEDED]);
    } else if (!gives(given, 0, number, told[BRADOVUSC_PLACE])) {
        fputs(", something else without a buffer", stdout);
    }
    putchar('\n');
    free(bits);
}

int main(void) { return each_case("plain", ask_case); }
