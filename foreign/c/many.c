/*
 * Answers a stream of cases on standard input, as the program `second --many` does.
 *
 * The line of a case is number, count, place and written length, and every byte of the two buffers: those written one by one, the others
 * in a word where they are as they were lent, or all zero, and one by one where they are neither.
 */
#include "streams.h"

enum { ANSWER_FILL = 165 };

static void answer_case(const struct stream_case *given) {
    uint8_t *work = lend(given->work_length, WORK_FILL);
    uint8_t *answer = lend(given->answer_length, ANSWER_FILL);
    uint64_t told[BRADOVUSC_TOLD];
    uint32_t number = bradovusc_clash(given->sheet, given->sheet_length, work, given->work_length, answer, given->answer_length,
                                      told, BRADOVUSC_TOLD);
    print_answer(number, told, answer, given->answer_length, ANSWER_FILL, work, given->work_length);
    putchar('\n');
    free(work);
    free(answer);
}

int main(void) { return each_case("many", answer_case); }
