/*
 * Writes the way of the texts of each case of a stream on standard input, as the program `second --way` does.
 *
 * A case is as for many.c, and behind it the texts with their length in two bytes before them (low byte first); the answer buffer is
 * the steps buffer, and no working buffer is lent. The line of a case is number, count, place and written length, and every byte of
 * the steps buffer: those written one by one, the others in a word where they are as they were lent, and one by one where not. A line
 * says so where other lengths of the steps buffer give something else: after 0 or 51 just enough bytes and one less, after a refusal
 * none; and where the player does not accept the way, or does not give the texts back.
 */
#include "streams.h"

enum { ANSWER_FILL = 165, STEPS_FILL = 195 };

static struct handed texts;

/* What was told, and what the steps buffer then holds. */
struct tried {
    uint32_t number;
    uint64_t told[BRADOVUSC_TOLD];
    uint8_t *steps;
    size_t length;
};

static struct tried try_case(const struct stream_case *given, size_t length) {
    struct tried tried = {0, {0}, lend(length, STEPS_FILL), length};
    tried.number = bradovusc_way(given->sheet, given->sheet_length, texts.bytes, texts.length, tried.steps, length, tried.told,
                                 BRADOVUSC_TOLD);
    return tried;
}

/* Whether a steps buffer of so many bytes is answered with these numbers, and is unchanged behind the written ones. */
static bool gives(const struct stream_case *given, size_t length, uint32_t number, uint64_t place, uint64_t written) {
    struct tried tried = try_case(given, length);
    bool same = tried.number == number && tried.told[BRADOVUSC_COUNT] == 0 && tried.told[BRADOVUSC_PLACE] == place &&
                tried.told[BRADOVUSC_WRITTEN] == written && written <= length &&
                all(tried.steps + written, length - (size_t)written, STEPS_FILL);
    free(tried.steps);
    return same;
}

/* Whether the player accepts the way, and writes the texts into a buffer of their length. */
static bool played(const struct stream_case *given, const struct tried *way) {
    uint8_t *answer = lend(texts.length, ANSWER_FILL);
    uint64_t told[BRADOVUSC_TOLD];
    bool same = bradovusc_play(given->sheet, given->sheet_length, way->steps, (size_t)way->told[BRADOVUSC_WRITTEN], answer,
                               texts.length, told, BRADOVUSC_TOLD) == BRADOVUSC_CLASH &&
                told[BRADOVUSC_WRITTEN] == texts.length && memcmp(answer, texts.bytes, texts.length) == 0;
    free(answer);
    return same;
}

/* Texts that solve the question, in steps buffers of other lengths: 65,534 steps have at most so many bytes. */
static void try_lengths(const struct stream_case *given) {
    struct tried way = try_case(given, BRADOVUSC_STEPS_BYTES(BRADOVUSC_MOST_SITUATIONS));
    size_t written = (size_t)way.told[BRADOVUSC_WRITTEN];
    if (way.number != BRADOVUSC_CLASH || !gives(given, written, BRADOVUSC_CLASH, 0, written)) {
        fputs(", not in just enough bytes", stdout);
    } else if (written == 0 || !gives(given, written - 1, BRADOVUSC_STEPS_TOO_SHORT, 0, 0)) {
        fputs(", no 51 for a byte less", stdout);
    } else if (!played(given, &way)) {
        fputs(", not played", stdout);
    }
    free(way.steps);
}

static void write_way(const struct stream_case *given) {
    struct tried way;
    read_handed("ways", &texts);
    way = try_case(given, given->answer_length);
    print_written(way.number, way.told, way.steps, way.length, STEPS_FILL);
    if (way.number == BRADOVUSC_CLASH || way.number == BRADOVUSC_STEPS_TOO_SHORT) {
        try_lengths(given);
    } else if (!gives(given, 0, way.number, way.told[BRADOVUSC_PLACE], 0)) {
        fputs(", something else without a buffer", stdout);
    }
    putchar('\n');
    free(way.steps);
}

int main(void) { return each_case("ways", write_way); }
