/*
 * Two rules: one makes labels of any digits, the other the label 4. Do they clash? Then the way to the clash, step by step, which is
 * played again, and played with a wrong step. Then the same as a script, for a string solver.
 * Then the sheet with a wrong byte. Then a catalogue of rules is kept. Then one that was kept since a space at the end made another
 * label is checked again. Then a sheet and a catalogue lose their stray patterns and are carried over, from the time when a field
 * without a pattern could be empty. Then a keypad maker's 40 finish codes stand in one pattern, of a sheet that the library writes;
 * since no field stands twice in it, the small engine for plain rules answers it too. Then two rules in which fields stand twice:
 * one search gives up, the small engine refuses them, deciding does not; then the way of the texts that deciding found, which is
 * played too. Last a catalogue of such rules: one search can't enter the second, deciding can, and finds the clash of the third.
 *
 * The first line of a sheet is number, count and place, and the number in words. After a clash follows a line for each field, its
 * number and its text, and after a fault a line with the byte at its place. Of the way there is a line with its number and its bytes,
 * and one for each step; then a line for each time that it is played. The script has a line with its number before it. Then
 * comes a line for each call of a catalogue, and one for each pair that is listed, then the lines of what loses its strays and is
 * carried over. Of the finish codes there is a line for each pattern, with its bytes, what writing its sheet answered, and the place
 * of a fault; of a sheet that was written a line with its length and its answer, the texts, and a line of the small engine: the
 * bytes that it needs, its number, and the number in words. Of the last sheet there is a line for each function, number, count and
 * the number in words, and of deciding the attempt, then the lines of its way. The lines of the last catalogue say the attempt too.
 */
#include <inttypes.h>
#include <stdio.h>
#include <string.h>

#include "bradovusc.h"

#if BRADOVUSC_VERSION_MAJOR != 0
#error "written for version 0 of bradovusc.h"
#endif

static uint8_t sheet[] = {
    'P', 'A', 0, 4, 68, 65, 0, 9, /* field 0: any number of characters from 0 to 9 */
    'P', 'A', 1, 1, 0,            /* field 1: one character; main puts it in */
    'L', 'E', 1, 64,              /* left side: field 0 */
    'R', 'I', 1, 65               /* right side: field 1 */
};
enum { HI_OF_FIELD_0 = 7, CHARACTER_OF_FIELD_1 = 12 };

/* Latches are marked LT and two digits. */
static const uint8_t latch[] = {
    'R', 'U',                               /* a rule of a catalogue */
    'P', 'A', 0, 7, 66, 65, 0, 9, 65, 0, 9, /* its field 0: two characters, each from 0 to 9 */
    'L', 'E', 3, 21, 29, 64                 /* its side: L, T, field 0 */
};
/* Levers are to be marked LT and any digits. */
static const uint8_t lever[] = {
    'R', 'U',                     /* a rule of a catalogue */
    'P', 'A', 0, 4, 68, 65, 0, 9, /* its field 0: any number of characters from 0 to 9 */
    'L', 'E', 3, 21, 29, 64       /* its side: L, T, field 0 */
};

/* Kept since spaces at the end counted: rule 0 is LT4, rule 1 is LT4 with a space, and rule 2 is LT5. */
static const uint8_t kept[] = {
    'R', 'U', 'L', 'E', 3, 21, 29, 4,     /* L, T, 4 */
    'R', 'U', 'L', 'E', 4, 21, 29, 4, 38, /* L, T, 4, space */
    'R', 'U', 'L', 'E', 3, 21, 29, 5      /* L, T, 5 */
};

/* From before 0.6: is a label of LT, a finish and S also LTS? The finish, field 0, has no pattern. The size, field 1, stands no more. */
static const uint8_t old_sheet[] = {
    'P', 'A', 1, 3, 65, 0, 9,    /* field 1: one character from 0 to 9 */
    'L', 'E', 4, 21, 29, 64, 28, /* left side: L, T, field 0, S */
    'R', 'I', 3, 21, 29, 28      /* right side: L, T, S */
};
/* The same two as rules of a catalogue. */
static const uint8_t finished[] = {'R', 'U', 'P', 'A', 1, 3, 65, 0, 9, 'L', 'E', 4, 21, 29, 64, 28};
static const uint8_t plain[] = {'R', 'U', 'L', 'E', 3, 21, 29, 28};

/* A keypad maker's 40 finish codes, of two letters each. Here those with one first letter stand together: it, then the second ones. */
static const char *const finishes[] = {"ABCN", "BBCKNRZ", "CBHP", "DBN",    "GBDN", "MBCN", "NBK",
                                       "OBR",  "PBCNW",   "RBG",  "SBCGNS", "WBH",  "ZBNP"};
enum { FIRST_LETTERS = sizeof finishes / sizeof *finishes, FINISHES = 40 };
/* Keypads are marked KP and a finish, field 0. Is such a label also KPS and any text, field 1? */
static const uint8_t keypads[] = {20, 25, 64};    /* left side: K, P, field 0 */
static const uint8_t others[] = {20, 25, 28, 65}; /* right side: K, P, S, field 1 */

/* One rule is KP, a number, - and the number again. The other is the same, but its number ends in 0. */
static const uint8_t twice[] = {
    'P', 'A', 0, 8, 66, 65, 0, 9, 68, 65, 0, 9,    /* field 0: a digit, then any number of digits */
    'P', 'A', 1, 6, 66, 68, 65, 0, 9, 0,           /* field 1: any number of digits, then 0 */
    'L', 'E', 5, 20, 25, 64, 36, 64,               /* left side: K, P, field 0, -, field 0 */
    'R', 'I', 5, 20, 25, 65, 36, 65                /* right side: K, P, field 1, -, field 1 */
};

/* Such rules in a catalogue: KP, a number, - and the number again; the same with / for -; the first again, but its number ends in 0. */
static const uint8_t dashed[] = {'R', 'U', 'P', 'A', 0, 8, 66, 65, 0, 9, 68, 65, 0, 9, 'L', 'E', 5, 20, 25, 64, 36, 64};
static const uint8_t slashed[] = {'R', 'U', 'P', 'A', 0, 8, 66, 65, 0, 9, 68, 65, 0, 9, 'L', 'E', 5, 20, 25, 64, 40, 64};
static const uint8_t ends_in_0[] = {'R', 'U', 'P', 'A', 0, 6, 66, 68, 65, 0, 9, 0, 'L', 'E', 5, 20, 25, 64, 36, 64};

static uint8_t work[BRADOVUSC_WORK_BYTES(356)];
static uint8_t answer[BRADOVUSC_ANSWER_BYTES(356)];
static uint8_t steps[BRADOVUSC_STEPS_BYTES(356)];
static uint8_t bits[BRADOVUSC_PLAIN_BYTES];
static uint8_t script[BRADOVUSC_SCRIPT_BYTES];
static uint8_t catalogue[BRADOVUSC_CATALOGUE_BYTES(BRADOVUSC_RULES)]; /* all zero: no rule is there */
static uint8_t list[BRADOVUSC_LIST_BYTES(BRADOVUSC_RULES)];
static uint8_t mended_sheet[BRADOVUSC_SHEET_BYTES], new_sheet[BRADOVUSC_SHEET_BYTES];
static uint8_t old_catalogue[BRADOVUSC_CATALOGUE_BYTES(BRADOVUSC_RULES)];
static uint8_t serial_catalogue[BRADOVUSC_CATALOGUE_BYTES(BRADOVUSC_RULES)];
static uint8_t decided_list[BRADOVUSC_DECIDED_LIST_BYTES(BRADOVUSC_RULES)];
static uint8_t keypad_sheet[BRADOVUSC_SHEET_BYTES];

static void print_texts(uint64_t written) {
    struct bradovusc_records texts = bradovusc_records_in(answer, (size_t)written);
    while (bradovusc_next(&texts)) {
        printf("%u ", texts.field);
        for (size_t i = 0; i < texts.length; i++) {
            putchar(bradovusc_sign(texts.values[i]));
        }
        putchar('\n');
    }
}

/* No byte stands at the place where the sheet is cut short, or where a pattern's code runs out at the sheet's end. */
static void print_fault(uint64_t place) {
    if (place < sizeof sheet) {
        printf("byte %" PRIu64 " is %u\n", place, (unsigned)sheet[place]);
    } else {
        puts("the sheet should go on");
    }
}

static void ask(void) {
    struct bradovusc_answer given = bradovusc_ask(sheet, sizeof sheet, work, sizeof work, answer, sizeof answer);
    printf("%" PRIu32 " %" PRIu64 " %" PRIu64 ": %s\n", given.number, given.count, given.place, bradovusc_text(given.number));
    print_texts(given.written);
    if (given.number >= BRADOVUSC_CUT_SHORT && given.number <= BRADOVUSC_WRONG_TOKEN) {
        print_fault(given.place);
    }
}

static void print_steps(uint64_t written) {
    struct bradovusc_way way = bradovusc_way_in(steps, (size_t)written);
    while (bradovusc_next_step(&way)) {
        if (way.kind == BRADOVUSC_CHARACTER) {
            printf("both read %c\n", bradovusc_sign(way.value));
        } else {
            printf("the %s front is struck\n", way.kind == BRADOVUSC_LEFT_STRUCK ? "left" : "right");
        }
    }
}

static void play(const char *what, const uint8_t *of, size_t of_length, size_t length) {
    struct bradovusc_played played = bradovusc_play_steps(of, of_length, steps, length, answer, sizeof answer);
    printf("%s: %" PRIu32 ", %s\n", what, played.number, bradovusc_text(played.number));
    print_texts(played.written);
}

static void follow(void) {
    struct bradovusc_stepped stepped =
        bradovusc_find_steps(sheet, sizeof sheet, work, sizeof work, answer, sizeof answer, steps, sizeof steps);
    printf("the way: %" PRIu32 ", %s, %" PRIu64 " bytes\n", stepped.number, bradovusc_text(stepped.number), stepped.steps);
    print_steps(stepped.steps);
    play("played", sheet, sizeof sheet, (size_t)stepped.steps);
    play("without the last step", sheet, sizeof sheet, (size_t)stepped.steps - 3);
    steps[3] = (uint8_t)bradovusc_value('5'); /* what both read */
    play("with 5 for 4", sheet, sizeof sheet, (size_t)stepped.steps);
}

static void write_script(void) {
    struct bradovusc_scripted scripted = bradovusc_write_script(sheet, sizeof sheet, script, sizeof script);
    printf("script: %" PRIu32 ", %s\n", scripted.number, bradovusc_catalogue_text(scripted.number));
    fwrite(script, 1, (size_t)scripted.written, stdout);
}

static void add_to(uint8_t *rules, const char *name, const uint8_t *rule, size_t rule_length) {
    struct bradovusc_added added = bradovusc_enter(rules, sizeof catalogue, rule, rule_length, work, sizeof work);
    printf("add the %s: %" PRIu32 ", %s", name, added.number, bradovusc_catalogue_text(added.number));
    if (added.number == BRADOVUSC_NOT_APART) {
        printf(": rule %" PRIu64 ", %s", added.rule, bradovusc_text(added.pair));
    }
    putchar('\n');
}

static void add(const char *name, const uint8_t *rule, size_t rule_length) { add_to(catalogue, name, rule, rule_length); }

static void withdraw(size_t number) {
    uint32_t withdrawn = bradovusc_remove(catalogue, sizeof catalogue, number);
    printf("withdraw rule %zu: %" PRIu32 ", %s\n", number, withdrawn, bradovusc_catalogue_text(withdrawn));
}

static void check_again(void) {
    struct bradovusc_rechecked rechecked = bradovusc_check_again(kept, sizeof kept, work, sizeof work, list, sizeof list);
    struct bradovusc_pairs pairs = bradovusc_pairs_in(list, (size_t)rechecked.written);
    printf("check again: %" PRIu32 ", %s: %" PRIu64 " listed\n", rechecked.number, bradovusc_catalogue_text(rechecked.number),
           rechecked.pairs);
    while (bradovusc_next_pair(&pairs)) {
        printf("rule %" PRIu64 " and rule %" PRIu64 ": %s\n", pairs.lower, pairs.higher, bradovusc_text(pairs.answer));
    }
}

static void print_meaning(const char *when, const uint8_t *bytes, size_t length) {
    struct bradovusc_answer given = bradovusc_ask(bytes, length, work, sizeof work, answer, sizeof answer);
    printf("%s: %s\n", when, bradovusc_text(given.number));
}

/* The strays go first: nothing else takes a sheet that has one. */
static void carry_sheet(void) {
    struct bradovusc_mended mended = bradovusc_mend_sheet(old_sheet, sizeof old_sheet, mended_sheet, sizeof mended_sheet);
    struct bradovusc_carried carried =
        bradovusc_carry_sheet(mended_sheet, (size_t)mended.written, new_sheet, sizeof new_sheet);
    print_meaning("as it was", old_sheet, sizeof old_sheet);
    printf("drop its strays: %" PRIu32 ", %s: %zu bytes, then %" PRIu64 "\n", mended.number,
           bradovusc_catalogue_text(mended.number), sizeof old_sheet, mended.written);
    printf("carry the sheet over: %" PRIu32 ", %s: %" PRIu64 " bytes, then %" PRIu64 "\n", carried.number,
           bradovusc_catalogue_text(carried.number), mended.written, carried.written);
    print_meaning("without strays", mended_sheet, (size_t)mended.written);
    print_meaning("carried over", new_sheet, (size_t)carried.written);
}

static void carry_catalogue(void) {
    uint32_t mended, carried;
    memcpy(old_catalogue, finished, sizeof finished);
    mended = bradovusc_mend_catalogue(old_catalogue, sizeof old_catalogue);
    printf("drop the catalogue's strays: %" PRIu32 ", %s\n", mended, bradovusc_catalogue_text(mended));
    carried = bradovusc_carry_catalogue(old_catalogue, sizeof old_catalogue);
    printf("carry the catalogue over: %" PRIu32 ", %s\n", carried, bradovusc_catalogue_text(carried));
    add_to(old_catalogue, "plain one", plain, sizeof plain); /* refused, as before 0.6 */
}

static uint8_t *put_letter(uint8_t *at, char letter) {
    *at = (uint8_t)bradovusc_value(letter);
    return at + 1;
}

/* so many times "or", which makes one choice of one pattern more */
static uint8_t *put_or(uint8_t *at, size_t times) {
    memset(at, 67, times);
    return at + times;
}

/* a choice of the 40 codes: two leaves for each, 80 in all, and a pattern has at most 63 */
static uint8_t *put_one_by_one(uint8_t *at) {
    at = put_or(at, FINISHES - 1);
    for (size_t i = 0; i < FIRST_LETTERS; i++) {
        for (const char *second = finishes[i] + 1; *second != '\0'; second++) {
            *at++ = 66;
            at = put_letter(put_letter(at, finishes[i][0]), *second);
        }
    }
    return at;
}

/* the same texts: a choice of the 13 first letters, behind each a choice of its second ones; 53 leaves */
static uint8_t *put_by_first_letter(uint8_t *at) {
    at = put_or(at, FIRST_LETTERS - 1);
    for (size_t i = 0; i < FIRST_LETTERS; i++) {
        const char *second = finishes[i] + 1;
        *at++ = 66;
        at = put_or(put_letter(at, finishes[i][0]), strlen(second) - 1);
        while (*second != '\0') {
            at = put_letter(at, *second++);
        }
    }
    return at;
}

/* The small engine: the bytes that the sheet needs, and its answer with just so many. */
static void ask_plain(const uint8_t *bytes, size_t length) {
    struct bradovusc_plain_needs needs = bradovusc_measure_plain(bytes, length);
    struct bradovusc_plain_answer given = bradovusc_ask_plain(bytes, length, bits, (size_t)needs.bytes);
    printf("the small engine, %" PRIu64 " bytes of bits: %" PRIu32 ", %s\n", needs.bytes, given.number, bradovusc_text(given.number));
}

static void ask_keypads(const char *how, uint8_t *(*put_finishes)(uint8_t *)) {
    static uint8_t finish[192]; /* the pattern of field 0; field 1 has none */
    const uint64_t length = (uint64_t)(put_finishes(finish) - finish);
    struct bradovusc_sheet_written written = bradovusc_write_sheet(finish, (size_t)length, &length, 1, keypads, sizeof keypads, others,
                                                                   sizeof others, keypad_sheet, sizeof keypad_sheet);
    printf("%d finishes %s, %" PRIu64 " bytes: %" PRIu32 ", %s", FINISHES, how, length, written.number,
           bradovusc_catalogue_text(written.number));
    if (written.number == BRADOVUSC_DONE) {
        struct bradovusc_answer given =
            bradovusc_ask(keypad_sheet, (size_t)written.written, work, sizeof work, answer, sizeof answer);
        printf("\na sheet of %" PRIu64 " bytes: %" PRIu32 ", %s\n", written.written, given.number, bradovusc_text(given.number));
        print_texts(given.written);
        ask_plain(keypad_sheet, (size_t)written.written);
    } else {
        printf(", at %" PRIu64 "\n", written.place); /* in the sheet that would be written, where the pattern stands from 4 on */
    }
}

/* The way of the texts that were found, and of others. */
static void follow_texts(size_t length) {
    struct bradovusc_played found = bradovusc_find_way(twice, sizeof twice, answer, length, steps, sizeof steps);
    printf("the way of these texts: %" PRIu32 ", %s, %" PRIu64 " bytes\n", found.number, bradovusc_way_text(found.number), found.written);
    print_steps(found.written);
    play("played", twice, sizeof twice, (size_t)found.written);
    answer[5] = (uint8_t)bradovusc_value('1'); /* what field 0 holds */
    found = bradovusc_find_way(twice, sizeof twice, answer, length, steps, sizeof steps);
    printf("with 1 for 0: %" PRIu32 ", %s\n", found.number, bradovusc_way_text(found.number));
}

static void decide(void) {
    struct bradovusc_answer given = bradovusc_ask(twice, sizeof twice, work, sizeof work, answer, sizeof answer);
    struct bradovusc_decision decided = bradovusc_settle(twice, sizeof twice, work, sizeof work, answer, sizeof answer);
    printf("one search: %" PRIu32 " %" PRIu64 ", %s\n", given.number, given.count, bradovusc_text(given.number));
    ask_plain(twice, sizeof twice);
    printf("decided: %" PRIu32 " %" PRIu64 ", %s, by attempt %" PRIu64 "\n", decided.number, decided.count,
           bradovusc_text(decided.number), decided.search);
    print_texts(decided.written);
    follow_texts((size_t)decided.written);
}

static void add_decided(const char *name, const uint8_t *rule, size_t rule_length) {
    struct bradovusc_added added =
        bradovusc_enter_decided(serial_catalogue, sizeof serial_catalogue, rule, rule_length, work, sizeof work);
    printf("add the %s, decided: %" PRIu32 ", %s", name, added.number, bradovusc_catalogue_text(added.number));
    if (added.number == BRADOVUSC_NOT_APART) {
        printf(": rule %" PRIu64 ", %s, by attempt %" PRIu64, added.rule, bradovusc_text(added.pair), added.search);
    }
    putchar('\n');
}

static void check_again_decided(void) {
    struct bradovusc_rechecked rechecked = bradovusc_check_again_decided(serial_catalogue, sizeof serial_catalogue, work, sizeof work,
                                                                         decided_list, sizeof decided_list);
    struct bradovusc_pairs pairs = bradovusc_decided_pairs_in(decided_list, (size_t)rechecked.written);
    printf("check again, decided: %" PRIu32 ", %s: %" PRIu64 " listed\n", rechecked.number,
           bradovusc_catalogue_text(rechecked.number), rechecked.pairs);
    while (bradovusc_next_pair(&pairs)) {
        printf("rule %" PRIu64 " and rule %" PRIu64 ": %s, by attempt %" PRIu64 "\n", pairs.lower, pairs.higher,
               bradovusc_text(pairs.answer), pairs.search);
    }
}

int main(void) {
    sheet[CHARACTER_OF_FIELD_1] = (uint8_t)bradovusc_value('4');
    ask();
    follow();
    write_script();
    sheet[HI_OF_FIELD_0] = 43; /* above the last character */
    ask();
    write_script();

    add("latch", latch, sizeof latch);
    add("lever", lever, sizeof lever); /* LT42 would be on two shelves */
    withdraw(0);
    add("lever", lever, sizeof lever);
    add("latch", latch, sizeof latch);

    check_again();

    carry_sheet();
    carry_catalogue();

    ask_keypads("one by one", put_one_by_one);
    ask_keypads("by their first letters", put_by_first_letter);

    decide();

    add_decided("dashed one", dashed, sizeof dashed);
    add_to(serial_catalogue, "slashed one", slashed, sizeof slashed);
    add_decided("slashed one", slashed, sizeof slashed);
    add_decided("one that ends in 0", ends_in_0, sizeof ends_in_0);
    check_again_decided();
    /* put there by hand: adding would refuse it */
    memcpy(serial_catalogue + sizeof dashed + sizeof slashed, ends_in_0, sizeof ends_in_0);
    check_again_decided();
    return 0;
}
