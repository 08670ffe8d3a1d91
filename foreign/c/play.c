/*
 * Plays the steps of each case of a stream on standard input, as the program `second --play` does.
 *
 * A case is as for many.c, and behind it the steps with their length in two bytes before them (low byte first); no working buffer is
 * lent. The line of a case is number, count, place and written length, and every byte of the answer buffer: those written one by one,
 * the others in a word where they are as they were lent, and one by one where not. A line says so where other lengths of the answer
 * buffer give something else: after 0 or 20 just enough bytes and one less, after a refusal none.
 */
#include "streams.h"

enum { ANSWER_FILL = 165 };

static struct handed steps;

/* Whether an answer buffer of so many bytes is answered with these numbers, and is unchanged behind the written ones. */
static bool gives(const struct stream_case *given, size_t length, uint32_t number, uint64_t place, uint64_t written) {
    uint8_t *answer = lend(length, ANSWER_FILL);
    uint64_t told[BRADOVUSC_TOLD];
    bool same = bradovusc_play(given->sheet, given->sheet_length, steps.bytes, steps.length, answer, length, told, BRADOVUSC_TOLD) ==
                    number &&
                told[BRADOVUSC_COUNT] == 0 && told[BRADOVUSC_PLACE] == place && told[BRADOVUSC_WRITTEN] == written &&
                written <= length && all(answer + written, length - (size_t)written, ANSWER_FILL);
    free(answer);
    return same;
}

/* A way to the finish, in answer buffers of other lengths: no text is longer than there are steps. */
static void try_lengths(const struct stream_case *given) {
    size_t most = BRADOVUSC_ANSWER_BYTES(steps.length);
    uint8_t *answer = lend(most, ANSWER_FILL);
    uint64_t told[BRADOVUSC_TOLD];
    uint32_t number = bradovusc_play(given->sheet, given->sheet_length, steps.bytes, steps.length, answer, most, told, BRADOVUSC_TOLD);
    size_t written = (size_t)told[BRADOVUSC_WRITTEN];
    free(answer);
    if (number != BRADOVUSC_CLASH || !gives(given, written, BRADOVUSC_CLASH, 0, written)) {
        fputs(", not in just enough bytes", stdout);
    } else if (written > 0 && !gives(given, written - 1, BRADOVUSC_ANSWER_TOO_SHORT, 0, 0)) {
        fputs(", no 20 for a byte less", stdout);
    }
}

static void play_case(const struct stream_case *given) {
    uint8_t *answer = lend(given->answer_length, ANSWER_FILL);
    uint64_t told[BRADOVUSC_TOLD];
    uint32_t number;
    read_handed("play", &steps);
    number = bradovusc_play(given->sheet, given->sheet_length, steps.bytes, steps.length, answer, given->answer_length, told,
                            BRADOVUSC_TOLD);
    print_written(number, told, answer, given->answer_length, ANSWER_FILL);
    if (number == BRADOVUSC_CLASH || number == BRADOVUSC_ANSWER_TOO_SHORT) {
        try_lengths(given);
    } else if (!gives(given, 0, number, told[BRADOVUSC_PLACE], 0)) {
        fputs(", something else without a buffer", stdout);
    }
    putchar('\n');
    free(answer);
}

int main(void) { return each_case("play", play_case); }
