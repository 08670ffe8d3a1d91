/*
 * Answers each case of a stream on standard input with its steps, as the program `second --steps` does.
 *
 * A case is as for many.c, and behind it the length of the steps buffer in two bytes (low byte first). The line of a case is that of
 * many.c, then the bytes of steps, and every byte of the steps buffer. A line says so where bradovusc_clash, lent the same, gives
 * something else; after a clash, where the way is not accepted by the player with the same answer buffer and the same texts; and where
 * other lengths of the steps buffer give something else: just enough bytes, one less, as many as are always enough.
 */
#include "streams.h"

enum { ANSWER_FILL = 165, STEPS_FILL = 195 };

/* What was lent and told, and what the buffers then hold. */
struct tried {
    uint32_t number;
    uint64_t told[BRADOVUSC_STEPS_TOLD];
    uint8_t *work, *answer, *steps;
    size_t steps_length;
};

static struct tried try_case(const struct stream_case *given, size_t steps_length) {
    struct tried tried = {0, {0}, NULL, NULL, NULL, steps_length};
    tried.work = lend(given->work_length, WORK_FILL);
    tried.answer = lend(given->answer_length, ANSWER_FILL);
    tried.steps = lend(steps_length, STEPS_FILL);
    tried.number = bradovusc_steps(given->sheet, given->sheet_length, tried.work, given->work_length, tried.answer,
                                   given->answer_length, tried.steps, steps_length, tried.told, BRADOVUSC_STEPS_TOLD);
    return tried;
}

static void give_back(struct tried *tried) {
    free(tried->work);
    free(tried->answer);
    free(tried->steps);
}

/* The number, count, place and written length of bradovusc_clash and the bytes of its answer, but for 51, which is its 0. */
static bool as_clash(const struct stream_case *given, const struct tried *tried) {
    uint8_t *work = lend(given->work_length, WORK_FILL), *answer = lend(given->answer_length, ANSWER_FILL);
    uint64_t told[BRADOVUSC_TOLD];
    uint32_t number = bradovusc_clash(given->sheet, given->sheet_length, work, given->work_length, answer, given->answer_length, told,
                                      BRADOVUSC_TOLD);
    bool same = told[BRADOVUSC_COUNT] == tried->told[BRADOVUSC_COUNT] && told[BRADOVUSC_PLACE] == tried->told[BRADOVUSC_PLACE] &&
                memcmp(work, tried->work, given->work_length) == 0;
    if (tried->number == BRADOVUSC_STEPS_TOO_SHORT) {
        same = same && number == BRADOVUSC_CLASH;
    } else {
        same = same && number == tried->number && told[BRADOVUSC_WRITTEN] == tried->told[BRADOVUSC_WRITTEN] &&
               memcmp(answer, tried->answer, given->answer_length) == 0;
    }
    free(work);
    free(answer);
    return same;
}

/* The player, lent an answer buffer of the same length, writes the same. */
static bool played(const struct stream_case *given, const struct tried *tried) {
    uint8_t *answer = lend(given->answer_length, ANSWER_FILL);
    uint64_t told[BRADOVUSC_TOLD];
    bool same = bradovusc_play(given->sheet, given->sheet_length, tried->steps, (size_t)tried->told[BRADOVUSC_STEPS_WRITTEN], answer,
                               given->answer_length, told, BRADOVUSC_TOLD) == BRADOVUSC_CLASH &&
                told[BRADOVUSC_COUNT] == 0 && told[BRADOVUSC_PLACE] == 0 &&
                told[BRADOVUSC_WRITTEN] == tried->told[BRADOVUSC_WRITTEN] &&
                memcmp(answer, tried->answer, given->answer_length) == 0;
    free(answer);
    return same;
}

/* A clash whose texts fit, in steps buffers of other lengths. */
static void try_lengths(const struct stream_case *given) {
    size_t room = given->work_length / BRADOVUSC_SITUATION_BYTES;
    struct tried most = try_case(given, BRADOVUSC_STEPS_BYTES(room < BRADOVUSC_MOST_SITUATIONS ? room : BRADOVUSC_MOST_SITUATIONS));
    size_t needed = (size_t)most.told[BRADOVUSC_STEPS_WRITTEN];
    if (most.number != BRADOVUSC_CLASH || needed == 0 || needed > most.steps_length) {
        fputs(", not in the bytes that are always enough", stdout);
    } else {
        struct tried just = try_case(given, needed), less = try_case(given, needed - 1);
        if (just.number != BRADOVUSC_CLASH || just.told[BRADOVUSC_STEPS_WRITTEN] != needed ||
            memcmp(just.steps, most.steps, needed) != 0) {
            fputs(", not in just enough bytes", stdout);
        } else if (less.number != BRADOVUSC_STEPS_TOO_SHORT || !all(less.steps, needed - 1, STEPS_FILL) ||
                   !all(less.answer, given->answer_length, ANSWER_FILL)) {
            fputs(", no 51 for a byte less", stdout);
        } else if (!played(given, &just)) {
            fputs(", a way that is not accepted", stdout);
        }
        give_back(&just);
        give_back(&less);
    }
    give_back(&most);
}

static void step_case(const struct stream_case *given) {
    uint8_t length[2] = {0, 0};
    struct tried tried;
    uint64_t bytes;
    if (fread(length, 1, sizeof length, stdin) != sizeof length) {
        fputs("steps: the stream stops inside a case\n", stderr);
        exit(EXIT_FAILURE);
    }
    tried = try_case(given, low_first(length, sizeof length));
    bytes = tried.told[BRADOVUSC_STEPS_WRITTEN];
    print_answer(tried.number, tried.told, tried.answer, given->answer_length, ANSWER_FILL, tried.work, given->work_length);
    printf(", steps %" PRIu64, bytes);
    print_front(tried.steps, tried.steps_length, bytes, STEPS_FILL);
    if (!as_clash(given, &tried)) {
        fputs(", not as bradovusc_clash", stdout);
    }
    if (tried.number == BRADOVUSC_CLASH || tried.number == BRADOVUSC_STEPS_TOO_SHORT) {
        try_lengths(given);
    }
    putchar('\n');
    give_back(&tried);
}

int main(void) { return each_case("steps", step_case); }
