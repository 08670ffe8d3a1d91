/*
 * Writes the sheets of a stream of cases on standard input out as scripts, as the program `test_sheets` does in a part `SC`; `second
 * --scripts` reads them.
 *
 * A case is as for many.c; of it only the sheet counts. For each there is a line with number, place and written length; after number 0
 * so many bytes of script, and a line with the number for a buffer of exactly so many bytes, the number for one of a byte less, and how
 * many bytes of that one changed. Where a byte changed that should not, there is a line that says so, and the reader stops at it.
 */
#include "streams.h"

enum { SCRIPT_FILL = 165 };

static size_t changed(const uint8_t *bytes, size_t length) {
    size_t found = 0;
    for (size_t i = 0; i < length; i++) {
        found += bytes[i] != SCRIPT_FILL;
    }
    return found;
}

/* The number for a buffer of so many bytes, and how many of them changed. */
static uint32_t in_length(const uint8_t *sheet, size_t sheet_length, size_t length, size_t *bytes_changed) {
    uint8_t *script = lend(length, SCRIPT_FILL);
    uint32_t number = bradovusc_write_script(sheet, sheet_length, script, length).number;
    *bytes_changed = changed(script, length);
    free(script);
    return number;
}

static void write_case(const struct stream_case *given) {
    const uint8_t *sheet = given->sheet;
    size_t sheet_length = given->sheet_length;
    uint8_t *script = lend(BRADOVUSC_SCRIPT_BYTES, SCRIPT_FILL);
    uint64_t told[BRADOVUSC_TOLD];
    uint32_t number = bradovusc_script(sheet, sheet_length, script, BRADOVUSC_SCRIPT_BYTES, told, BRADOVUSC_TOLD);
    size_t written = (size_t)told[BRADOVUSC_WRITTEN], exact_changed, short_changed;
    printf("%" PRIu32 " %" PRIu64 " %zu\n", number, told[BRADOVUSC_PLACE], written);
    if (told[BRADOVUSC_COUNT] != 0 || written > BRADOVUSC_SCRIPT_BYTES) {
        puts("a count, or more than the buffer");
    } else if (changed(script + written, BRADOVUSC_SCRIPT_BYTES - written) != 0) {
        puts("a byte changed that should not");
    } else if (number == BRADOVUSC_DONE) {
        uint32_t exact = in_length(sheet, sheet_length, written, &exact_changed);
        uint32_t less = in_length(sheet, sheet_length, written - 1, &short_changed);
        fwrite(script, 1, written, stdout);
        printf("%" PRIu32 " %" PRIu32 " %zu\n", exact, less, short_changed);
    }
    free(script);
}

int main(void) { return each_case("scripts", write_case); }
