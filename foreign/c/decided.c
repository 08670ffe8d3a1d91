/*
 * Decides a stream of cases on standard input, as the program `second --decide` does.
 *
 * The line of a case is that of many.c, and behind it the attempt that decided.
 */
#include "streams.h"

enum { ANSWER_FILL = 165 };

static void decide_case(const struct stream_case *given) {
    uint8_t *work = lend(given->work_length, WORK_FILL);
    uint8_t *answer = lend(given->answer_length, ANSWER_FILL);
    uint64_t told[BRADOVUSC_DECIDED_TOLD];
    uint32_t number = bradovusc_decide(given->sheet, given->sheet_length, work, given->work_length, answer, given->answer_length,
                                       told, BRADOVUSC_DECIDED_TOLD);
    print_answer(number, told, answer, given->answer_length, ANSWER_FILL, work, given->work_length);
    printf(", search %" PRIu64 "\n", told[BRADOVUSC_DECIDED_SEARCH]);
    free(work);
    free(answer);
}

int main(void) { return each_case("decided", decide_case); }
