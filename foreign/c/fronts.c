/*
 * Tells the two sides of each case of a stream on standard input apart by what is fixed in them, as the program `second --fronts` does.
 *
 * A case is the number of the edition in eight bytes, then the left side and the right side, each with its length in two bytes before it, the
 * low byte first. The line of a case is 1 or 0. A line says so where the sides exchanged give something else, or where a call of the header
 * does.
 */
#include "streams.h"

enum { MOST_BYTES = 65535, HEAD = 8 };

static uint8_t left[MOST_BYTES], right[MOST_BYTES];

static bool take_side(uint8_t *side, size_t *length) {
    uint8_t two[2];
    bool there = fread(two, 1, sizeof two, stdin) == sizeof two;
    *length = there ? (size_t)low_first(two, sizeof two) : 0;
    return there && fread(side, 1, *length, stdin) == *length;
}

static void tell_case(size_t edition, size_t left_length, size_t right_length) {
    uint32_t told = bradovusc_fronts_differ(edition, left, left_length, right, right_length);
    printf("%" PRIu32, told);
    if (bradovusc_fronts_differ(edition, right, right_length, left, left_length) != told) {
        fputs(", something else with the sides exchanged", stdout);
    }
    if (bradovusc_tell_apart(edition, left_length > 0 ? left : NULL, left_length, right_length > 0 ? right : NULL, right_length) != told) {
        fputs(", something else by the header", stdout);
    }
    putchar('\n');
}

int main(void) {
    uint8_t head[HEAD];
    size_t read, left_length, right_length;
    while ((read = fread(head, 1, sizeof head, stdin)) == sizeof head) {
        if (!take_side(left, &left_length) || !take_side(right, &right_length)) {
            break;
        }
        tell_case((size_t)low_first(head, sizeof head), left_length, right_length);
    }
    if (read != 0) {
        fputs("fronts: the stream stops inside a case\n", stderr);
        return EXIT_FAILURE;
    }
    return EXIT_SUCCESS;
}
