/*
 * tools/once.c: calls one function of the library once for each case of a stream on standard input, for tools/measure. The word says which:
 * `clash`, `steps` and `decide`, with the program's 65,520 bytes of work and 4,096 of answer; `play`, the way that `steps` wrote, where there is
 * one; `plain`, with a bit buffer of the case's working length; `most`, the same with as many as are always enough; `bytes`,
 * bradovusc_plain_bytes, which reads the sheet and does no more. Prints the numbers returned.
 */
#include "../foreign/c/streams.h"

static uint8_t work[65520], answer[4096], steps[BRADOVUSC_STEPS_BYTES(65520 / BRADOVUSC_SITUATION_BYTES)];
static const char *word;

static bool is(const char *name) { return strcmp(word, name) == 0; }

static uint32_t plain(const struct stream_case *given, size_t length) {
    uint64_t told[BRADOVUSC_PLAIN_TOLD];
    uint8_t *bits = lend(length, WORK_FILL);
    uint32_t number = bradovusc_plain(given->sheet, given->sheet_length, bits, length, told, BRADOVUSC_PLAIN_TOLD);
    free(bits);
    return number;
}

static uint32_t stepped(const struct stream_case *given, uint64_t *told) {
    return bradovusc_steps(given->sheet, given->sheet_length, work, sizeof work, answer, sizeof answer, steps, sizeof steps, told,
                           BRADOVUSC_STEPS_TOLD);
}

static uint32_t played(const struct stream_case *given) {
    uint64_t told[BRADOVUSC_STEPS_TOLD];
    uint32_t number = stepped(given, told);
    return number != BRADOVUSC_CLASH ? number
                                     : bradovusc_play(given->sheet, given->sheet_length, steps, told[BRADOVUSC_STEPS_WRITTEN], answer,
                                                      sizeof answer, told, BRADOVUSC_TOLD);
}

static uint32_t asked(const struct stream_case *given) {
    uint64_t told[BRADOVUSC_STEPS_TOLD];
    if (is("clash")) {
        return bradovusc_clash(given->sheet, given->sheet_length, work, sizeof work, answer, sizeof answer, told, BRADOVUSC_TOLD);
    }
    if (is("decide")) {
        return bradovusc_decide(given->sheet, given->sheet_length, work, sizeof work, answer, sizeof answer, told, BRADOVUSC_TOLD);
    }
    if (is("steps")) {
        return stepped(given, told);
    }
    if (is("play")) {
        return played(given);
    }
    if (is("plain") || is("most")) {
        return plain(given, is("most") ? BRADOVUSC_PLAIN_BYTES : given->work_length);
    }
    return bradovusc_plain_bytes(given->sheet, given->sheet_length, told, BRADOVUSC_TOLD);
}

static void ask_case(const struct stream_case *given) { printf("%" PRIu32 "\n", asked(given)); }

int main(int count, char **words) {
    if (count != 2) {
        fputs("usage: once clash|steps|decide|play|plain|most|bytes < CASES\n", stderr);
        return 2;
    }
    word = words[1];
    return each_case("once", ask_case);
}
