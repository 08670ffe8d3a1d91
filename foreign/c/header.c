/*
 * Tries what bradovusc.h itself defines: the texts of the numbers, the signs, the walks over records, steps and listed pairs, null
 * pointers of length 0, deciding, the steps of a clash, the player, the way of given texts, plain rules, a sheet that is written, the
 * script of one, the calls of a catalogue, with one search and decided, what is carried over, what loses its strays, sides told apart,
 * the version, the lengths of buffers; and the places of faults, as it lists them.
 * C99, and C++11 too. Prints what does not hold, and how many checks there were; the exit status is 0 if all hold.
 */
#include <stdio.h>
#include <stdlib.h>
#include <string.h>

/* What the header defines calls `watched_clash` and the like here, which look at the pointers and call the library. */
#define bradovusc_clash watched_clash
#define bradovusc_decide watched_decide
#define bradovusc_steps watched_steps
#define bradovusc_play watched_play
#define bradovusc_plain watched_plain
#define bradovusc_plain_bytes watched_plain_bytes
#define bradovusc_write_edition watched_write_edition
#define bradovusc_script watched_script
#define bradovusc_add watched_add
#define bradovusc_withdraw watched_withdraw
#define bradovusc_recheck watched_recheck
#define bradovusc_add_decided watched_add_decided
#define bradovusc_recheck_decided watched_recheck_decided
#define bradovusc_spell_open watched_spell_open
#define bradovusc_spell_open_rule watched_spell_open_rule
#define bradovusc_spell_open_catalogue watched_spell_open_catalogue
#define bradovusc_drop_strays watched_drop_strays
#define bradovusc_drop_strays_rule watched_drop_strays_rule
#define bradovusc_drop_strays_catalogue watched_drop_strays_catalogue
#define bradovusc_spell watched_spell
#define bradovusc_read_spelt watched_read_spelt
#define bradovusc_fronts_differ watched_fronts_differ
/* the name of a struct too, which stays */
#define bradovusc_way(...) watched_way(__VA_ARGS__)
#include "bradovusc.h"
#undef bradovusc_clash
#undef bradovusc_decide
#undef bradovusc_steps
#undef bradovusc_play
#undef bradovusc_way
#undef bradovusc_plain
#undef bradovusc_plain_bytes
#undef bradovusc_write_edition
#undef bradovusc_script
#undef bradovusc_add
#undef bradovusc_withdraw
#undef bradovusc_recheck
#undef bradovusc_add_decided
#undef bradovusc_recheck_decided
#undef bradovusc_spell_open
#undef bradovusc_spell_open_rule
#undef bradovusc_spell_open_catalogue
#undef bradovusc_drop_strays
#undef bradovusc_drop_strays_rule
#undef bradovusc_drop_strays_catalogue
#undef bradovusc_spell
#undef bradovusc_read_spelt
#undef bradovusc_fronts_differ

#ifdef __cplusplus
extern "C" {
#endif
uint32_t bradovusc_clash(const uint8_t *sheet, size_t sheet_length, uint8_t *work, size_t work_length, uint8_t *answer,
                         size_t answer_length, uint64_t *told, size_t told_length);
uint32_t bradovusc_decide(const uint8_t *sheet, size_t sheet_length, uint8_t *work, size_t work_length, uint8_t *answer,
                          size_t answer_length, uint64_t *told, size_t told_length);
uint32_t bradovusc_steps(const uint8_t *sheet, size_t sheet_length, uint8_t *work, size_t work_length, uint8_t *answer,
                         size_t answer_length, uint8_t *steps, size_t steps_length, uint64_t *told, size_t told_length);
uint32_t bradovusc_play(const uint8_t *sheet, size_t sheet_length, const uint8_t *steps, size_t steps_length, uint8_t *answer,
                        size_t answer_length, uint64_t *told, size_t told_length);
uint32_t bradovusc_way(const uint8_t *sheet, size_t sheet_length, const uint8_t *texts, size_t texts_length, uint8_t *steps,
                       size_t steps_length, uint64_t *told, size_t told_length);
uint32_t bradovusc_plain(const uint8_t *sheet, size_t sheet_length, uint8_t *bits, size_t bits_length, uint64_t *told,
                         size_t told_length);
uint32_t bradovusc_plain_bytes(const uint8_t *sheet, size_t sheet_length, uint64_t *told, size_t told_length);
uint32_t bradovusc_write_edition(size_t edition, const uint8_t *patterns, size_t patterns_length, const uint64_t *lengths,
                                 size_t lengths_length, const uint8_t *left, size_t left_length, const uint8_t *right,
                                 size_t right_length, uint8_t *out, size_t out_length, uint64_t *told, size_t told_length);
uint32_t bradovusc_script(const uint8_t *sheet, size_t sheet_length, uint8_t *script, size_t script_length, uint64_t *told,
                          size_t told_length);
uint32_t bradovusc_add(uint8_t *catalogue, size_t catalogue_length, const uint8_t *rule, size_t rule_length, uint8_t *work,
                       size_t work_length, uint64_t *told, size_t told_length);
uint32_t bradovusc_withdraw(uint8_t *catalogue, size_t catalogue_length, size_t number);
uint32_t bradovusc_recheck(const uint8_t *catalogue, size_t catalogue_length, uint8_t *work, size_t work_length, uint8_t *list,
                           size_t list_length, uint64_t *told, size_t told_length);
uint32_t bradovusc_add_decided(uint8_t *catalogue, size_t catalogue_length, const uint8_t *rule, size_t rule_length, uint8_t *work,
                               size_t work_length, uint64_t *told, size_t told_length);
uint32_t bradovusc_recheck_decided(const uint8_t *catalogue, size_t catalogue_length, uint8_t *work, size_t work_length,
                                   uint8_t *list, size_t list_length, uint64_t *told, size_t told_length);
uint32_t bradovusc_spell_open(const uint8_t *sheet, size_t sheet_length, uint8_t *out, size_t out_length, uint64_t *told,
                              size_t told_length);
uint32_t bradovusc_spell_open_rule(const uint8_t *rule, size_t rule_length, uint8_t *out, size_t out_length, uint64_t *told,
                                   size_t told_length);
uint32_t bradovusc_spell_open_catalogue(uint8_t *catalogue, size_t catalogue_length);
uint32_t bradovusc_drop_strays(const uint8_t *sheet, size_t sheet_length, uint8_t *out, size_t out_length, uint64_t *told,
                               size_t told_length);
uint32_t bradovusc_drop_strays_rule(const uint8_t *rule, size_t rule_length, uint8_t *out, size_t out_length, uint64_t *told,
                                    size_t told_length);
uint32_t bradovusc_drop_strays_catalogue(uint8_t *catalogue, size_t catalogue_length);
uint32_t bradovusc_spell(const uint8_t *text, size_t text_length, uint8_t *out, size_t out_length, uint64_t *told,
                         size_t told_length);
uint32_t bradovusc_read_spelt(const uint8_t *spelt, size_t spelt_length, uint8_t *out, size_t out_length, uint64_t *told,
                              size_t told_length);
uint32_t bradovusc_fronts_differ(size_t edition, const uint8_t *left, size_t left_length, const uint8_t *right, size_t right_length);
#ifdef __cplusplus
}
#endif

static unsigned checks, failed;

static void check(int holds, const char *what, long of) {
    checks++;
    if (!holds) {
        failed++;
        printf("does not hold: %s, of %ld\n", what, of);
    }
}

uint32_t watched_clash(const uint8_t *sheet, size_t sheet_length, uint8_t *work, size_t work_length, uint8_t *answer,
                       size_t answer_length, uint64_t *told, size_t told_length) {
    check(sheet != NULL, "the sheet's pointer is not null", (long)sheet_length);
    check(work != NULL, "the working buffer's pointer is not null", (long)work_length);
    check(answer != NULL, "the answer buffer's pointer is not null", (long)answer_length);
    check(told != NULL, "the pointer of what is told is not null", (long)told_length);
    return bradovusc_clash(sheet, sheet_length, work, work_length, answer, answer_length, told, told_length);
}

uint32_t watched_decide(const uint8_t *sheet, size_t sheet_length, uint8_t *work, size_t work_length, uint8_t *answer,
                        size_t answer_length, uint64_t *told, size_t told_length) {
    check(sheet != NULL, "the sheet's pointer is not null", (long)sheet_length);
    check(work != NULL, "the working buffer's pointer is not null", (long)work_length);
    check(answer != NULL, "the answer buffer's pointer is not null", (long)answer_length);
    check(told != NULL, "the pointer of what is told is not null", (long)told_length);
    return bradovusc_decide(sheet, sheet_length, work, work_length, answer, answer_length, told, told_length);
}

uint32_t watched_steps(const uint8_t *sheet, size_t sheet_length, uint8_t *work, size_t work_length, uint8_t *answer,
                       size_t answer_length, uint8_t *steps, size_t steps_length, uint64_t *told, size_t told_length) {
    check(sheet != NULL, "the sheet's pointer is not null", (long)sheet_length);
    check(work != NULL, "the working buffer's pointer is not null", (long)work_length);
    check(answer != NULL, "the answer buffer's pointer is not null", (long)answer_length);
    check(steps != NULL, "the steps buffer's pointer is not null", (long)steps_length);
    check(told != NULL, "the pointer of what is told is not null", (long)told_length);
    return bradovusc_steps(sheet, sheet_length, work, work_length, answer, answer_length, steps, steps_length, told, told_length);
}

uint32_t watched_play(const uint8_t *sheet, size_t sheet_length, const uint8_t *steps, size_t steps_length, uint8_t *answer,
                      size_t answer_length, uint64_t *told, size_t told_length) {
    check(sheet != NULL, "the sheet's pointer is not null", (long)sheet_length);
    check(steps != NULL, "the steps' pointer is not null", (long)steps_length);
    check(answer != NULL, "the answer buffer's pointer is not null", (long)answer_length);
    check(told != NULL, "the pointer of what is told is not null", (long)told_length);
    return bradovusc_play(sheet, sheet_length, steps, steps_length, answer, answer_length, told, told_length);
}

uint32_t watched_way(const uint8_t *sheet, size_t sheet_length, const uint8_t *texts, size_t texts_length, uint8_t *steps,
                     size_t steps_length, uint64_t *told, size_t told_length) {
    check(sheet != NULL, "the sheet's pointer is not null", (long)sheet_length);
    check(texts != NULL, "the texts' pointer is not null", (long)texts_length);
    check(steps != NULL, "the steps buffer's pointer is not null", (long)steps_length);
    check(told != NULL, "the pointer of what is told is not null", (long)told_length);
    return bradovusc_way(sheet, sheet_length, texts, texts_length, steps, steps_length, told, told_length);
}

uint32_t watched_plain(const uint8_t *sheet, size_t sheet_length, uint8_t *bits, size_t bits_length, uint64_t *told,
                       size_t told_length) {
    check(sheet != NULL, "the sheet's pointer is not null", (long)sheet_length);
    check(bits != NULL, "the bit buffer's pointer is not null", (long)bits_length);
    check(told != NULL, "the pointer of what is told is not null", (long)told_length);
    return bradovusc_plain(sheet, sheet_length, bits, bits_length, told, told_length);
}

uint32_t watched_plain_bytes(const uint8_t *sheet, size_t sheet_length, uint64_t *told, size_t told_length) {
    check(sheet != NULL, "the sheet's pointer is not null", (long)sheet_length);
    check(told != NULL, "the pointer of what is told is not null", (long)told_length);
    return bradovusc_plain_bytes(sheet, sheet_length, told, told_length);
}

uint32_t watched_write_edition(size_t edition, const uint8_t *patterns, size_t patterns_length, const uint64_t *lengths,
                               size_t lengths_length, const uint8_t *left, size_t left_length, const uint8_t *right,
                               size_t right_length, uint8_t *out, size_t out_length, uint64_t *told, size_t told_length) {
    check(patterns != NULL, "the patterns' pointer is not null", (long)patterns_length);
    check(lengths != NULL, "the lengths' pointer is not null", (long)lengths_length);
    check(left != NULL, "the left side's pointer is not null", (long)left_length);
    check(right != NULL, "the right side's pointer is not null", (long)right_length);
    check(out != NULL, "the output buffer's pointer is not null", (long)out_length);
    check(told != NULL, "the pointer of what is told is not null", (long)told_length);
    return bradovusc_write_edition(edition, patterns, patterns_length, lengths, lengths_length, left, left_length, right, right_length,
                                   out, out_length, told, told_length);
}

uint32_t watched_script(const uint8_t *sheet, size_t sheet_length, uint8_t *script, size_t script_length, uint64_t *told,
                        size_t told_length) {
    check(sheet != NULL, "the sheet's pointer is not null", (long)sheet_length);
    check(script != NULL, "the output buffer's pointer is not null", (long)script_length);
    check(told != NULL, "the pointer of what is told is not null", (long)told_length);
    return bradovusc_script(sheet, sheet_length, script, script_length, told, told_length);
}

uint32_t watched_add(uint8_t *catalogue, size_t catalogue_length, const uint8_t *rule, size_t rule_length, uint8_t *work,
                     size_t work_length, uint64_t *told, size_t told_length) {
    check(catalogue != NULL, "the catalogue's pointer is not null", (long)catalogue_length);
    check(rule != NULL, "the rule's pointer is not null", (long)rule_length);
    check(work != NULL, "the working buffer's pointer is not null", (long)work_length);
    check(told != NULL, "the pointer of what is told is not null", (long)told_length);
    return bradovusc_add(catalogue, catalogue_length, rule, rule_length, work, work_length, told, told_length);
}

uint32_t watched_withdraw(uint8_t *catalogue, size_t catalogue_length, size_t number) {
    check(catalogue != NULL, "the catalogue's pointer is not null", (long)catalogue_length);
    return bradovusc_withdraw(catalogue, catalogue_length, number);
}

uint32_t watched_recheck(const uint8_t *catalogue, size_t catalogue_length, uint8_t *work, size_t work_length, uint8_t *list,
                         size_t list_length, uint64_t *told, size_t told_length) {
    check(catalogue != NULL, "the catalogue's pointer is not null", (long)catalogue_length);
    check(work != NULL, "the working buffer's pointer is not null", (long)work_length);
    check(list != NULL, "the list buffer's pointer is not null", (long)list_length);
    check(told != NULL, "the pointer of what is told is not null", (long)told_length);
    return bradovusc_recheck(catalogue, catalogue_length, work, work_length, list, list_length, told, told_length);
}

uint32_t watched_add_decided(uint8_t *catalogue, size_t catalogue_length, const uint8_t *rule, size_t rule_length, uint8_t *work,
                             size_t work_length, uint64_t *told, size_t told_length) {
    check(catalogue != NULL, "the catalogue's pointer is not null", (long)catalogue_length);
    check(rule != NULL, "the rule's pointer is not null", (long)rule_length);
    check(work != NULL, "the working buffer's pointer is not null", (long)work_length);
    check(told != NULL, "the pointer of what is told is not null", (long)told_length);
    return bradovusc_add_decided(catalogue, catalogue_length, rule, rule_length, work, work_length, told, told_length);
}

uint32_t watched_recheck_decided(const uint8_t *catalogue, size_t catalogue_length, uint8_t *work, size_t work_length, uint8_t *list,
                                 size_t list_length, uint64_t *told, size_t told_length) {
    check(catalogue != NULL, "the catalogue's pointer is not null", (long)catalogue_length);
    check(work != NULL, "the working buffer's pointer is not null", (long)work_length);
    check(list != NULL, "the list buffer's pointer is not null", (long)list_length);
    check(told != NULL, "the pointer of what is told is not null", (long)told_length);
    return bradovusc_recheck_decided(catalogue, catalogue_length, work, work_length, list, list_length, told, told_length);
}

uint32_t watched_spell_open(const uint8_t *sheet, size_t sheet_length, uint8_t *out, size_t out_length, uint64_t *told,
                            size_t told_length) {
    check(sheet != NULL, "the sheet's pointer is not null", (long)sheet_length);
    check(out != NULL, "the output buffer's pointer is not null", (long)out_length);
    check(told != NULL, "the pointer of what is told is not null", (long)told_length);
    return bradovusc_spell_open(sheet, sheet_length, out, out_length, told, told_length);
}

uint32_t watched_spell_open_rule(const uint8_t *rule, size_t rule_length, uint8_t *out, size_t out_length, uint64_t *told,
                                 size_t told_length) {
    check(rule != NULL, "the rule's pointer is not null", (long)rule_length);
    check(out != NULL, "the output buffer's pointer is not null", (long)out_length);
    check(told != NULL, "the pointer of what is told is not null", (long)told_length);
    return bradovusc_spell_open_rule(rule, rule_length, out, out_length, told, told_length);
}

uint32_t watched_spell_open_catalogue(uint8_t *catalogue, size_t catalogue_length) {
    check(catalogue != NULL, "the catalogue's pointer is not null", (long)catalogue_length);
    return bradovusc_spell_open_catalogue(catalogue, catalogue_length);
}

uint32_t watched_drop_strays(const uint8_t *sheet, size_t sheet_length, uint8_t *out, size_t out_length, uint64_t *told,
                             size_t told_length) {
    check(sheet != NULL, "the sheet's pointer is not null", (long)sheet_length);
    check(out != NULL, "the output buffer's pointer is not null", (long)out_length);
    check(told != NULL, "the pointer of what is told is not null", (long)told_length);
    return bradovusc_drop_strays(sheet, sheet_length, out, out_length, told, told_length);
}

uint32_t watched_drop_strays_rule(const uint8_t *rule, size_t rule_length, uint8_t *out, size_t out_length, uint64_t *told,
                                  size_t told_length) {
    check(rule != NULL, "the rule's pointer is not null", (long)rule_length);
    check(out != NULL, "the output buffer's pointer is not null", (long)out_length);
    check(told != NULL, "the pointer of what is told is not null", (long)told_length);
    return bradovusc_drop_strays_rule(rule, rule_length, out, out_length, told, told_length);
}

uint32_t watched_drop_strays_catalogue(uint8_t *catalogue, size_t catalogue_length) {
    check(catalogue != NULL, "the catalogue's pointer is not null", (long)catalogue_length);
    return bradovusc_drop_strays_catalogue(catalogue, catalogue_length);
}

uint32_t watched_spell(const uint8_t *text, size_t text_length, uint8_t *out, size_t out_length, uint64_t *told,
                       size_t told_length) {
    check(text != NULL, "the text's pointer is not null", (long)text_length);
    check(out != NULL, "the output buffer's pointer is not null", (long)out_length);
    check(told != NULL, "the pointer of what is told is not null", (long)told_length);
    return bradovusc_spell(text, text_length, out, out_length, told, told_length);
}

uint32_t watched_read_spelt(const uint8_t *spelt, size_t spelt_length, uint8_t *out, size_t out_length, uint64_t *told,
                            size_t told_length) {
    check(spelt != NULL, "the spelt text's pointer is not null", (long)spelt_length);
    check(out != NULL, "the output buffer's pointer is not null", (long)out_length);
    check(told != NULL, "the pointer of what is told is not null", (long)told_length);
    return bradovusc_read_spelt(spelt, spelt_length, out, out_length, told, told_length);
}

uint32_t watched_fronts_differ(size_t edition, const uint8_t *left, size_t left_length, const uint8_t *right, size_t right_length) {
    check(left != NULL, "the left side's pointer is not null", (long)left_length);
    check(right != NULL, "the right side's pointer is not null", (long)right_length);
    return bradovusc_fronts_differ(edition, left, left_length, right, right_length);
}

/* ---- the texts of the numbers */

static const struct {
    uint32_t number;
    const char *text;
} texts[] = {
    {0, "clash"},
    {1, "no clash"},
    {11, "cut short"},
    {12, "a wrong mark, or bytes behind the last side"},
    {13, "a wrong field number"},
    {14, "a wrong length"},
    {15, "not one pattern"},
    {16, "a pattern with too many leaves"},
    {17, "a wrong token"},
    {18, "not decided: no room for a situation"},
    {19, "not decided: a side grew too long"},
    {20, "clash, but the answer buffer is too short for the texts"},
    {22, "a stray pattern"},
    {30, "not apart from a rule of the catalogue"},
    {31, "a field above 3"},
    {32, "no room in the catalogue"},
    {33, "no rule has that number"},
    {34, "the buffer is no catalogue"},
    {35, "the list buffer is too short for the pairs"},
    {40, "the output buffer is too short for the script"},
    {41, "the output buffer is too short for the sheet or the rule"},
    {42, "a field stands more than once"},
    {43, "the bit buffer is too short"},
    {44, "a wrong edition"},
    {45, "not in the table of Full ASCII"},
    {46, "the output buffer is too short for the text"},
    {47, "a wrong record of a step"},
    {48, "a step that is not allowed"},
    {49, "the steps end before the finish"},
    {50, "too many steps"},
    {51, "clash, but the steps buffer is too short for the way"},
};

static void try_texts(void) {
    static const char none[] = "no number of an answer";
    uint32_t number;
    size_t next = 0;
    for (number = 0; number < 1000; number++) {
        const char *expected = none;
        if (next < sizeof texts / sizeof *texts && texts[next].number == number) {
            expected = texts[next++].text;
        }
        check(strcmp(bradovusc_text(number), expected) == 0, "the text of a number", (long)number);
        expected = number == 0 ? "done" : expected;
        check(strcmp(bradovusc_catalogue_text(number), expected) == 0, "the text of a catalogue's number", (long)number);
        expected = number == 47   ? "no records of the texts"
                   : number == 48 ? "the texts solve nothing"
                                  : bradovusc_text(number);
        check(strcmp(bradovusc_way_text(number), expected) == 0, "the text of a number of a way", (long)number);
    }
    check(next == 31, "31 numbers have a text", (long)next);
    check(strcmp(bradovusc_text(UINT32_MAX), none) == 0, "the greatest number has no text", -1);
}

/* ---- the signs */

static int sign_of(int value) {
    static const char others[] = {'-', '.', ' ', '$', '/', '+', '%'};
    if (value < 10) {
        return '0' + value;
    }
    return value < 36 ? 'A' + (value - 10) : others[value - 36];
}

static void try_signs(void) {
    int value, sign, found = 0;
    for (value = 0; value < 43; value++) {
        check(bradovusc_sign((unsigned)value) == sign_of(value), "the sign of a value", value);
        check(bradovusc_value(sign_of(value)) == value, "the value of a sign", value);
        check(bradovusc_signs[value] == sign_of(value), "the table of signs", value);
    }
    check(strlen(bradovusc_signs) == 43, "43 signs", (long)strlen(bradovusc_signs));
    for (value = 43; value < 1000; value++) {
        check(bradovusc_sign((unsigned)value) == -1, "no sign of a value", value);
    }
    check(bradovusc_sign((unsigned)-1) == -1, "no sign of the greatest value", -1);
    for (sign = -300; sign < 300; sign++) {
        value = bradovusc_value(sign);
        check(value == -1 || (value >= 0 && value < 43 && sign_of(value) == sign), "the value of a sign, or none", sign);
        found += value != -1;
    }
    check(found == 43, "43 signs have a value", found);
}

/* ---- the walk over records */

/* How many records there are in the first `written` of these bytes, which stand in memory that ends behind them. */
static int records_in(const uint8_t *bytes, size_t written) {
    uint8_t *exact = (uint8_t *)malloc(written > 0 ? written : 1);
    struct bradovusc_records records;
    int found = 0;
    if (exact == NULL) {
        fputs("header: no memory\n", stderr);
        exit(EXIT_FAILURE);
    }
    memcpy(exact, bytes, written);
    records = bradovusc_records_in(exact, written);
    while (bradovusc_next(&records)) {
        size_t end = (size_t)(records.values - exact) + records.length;
        check(end <= written, "a text ends within what was written", (long)end);
        check(end == written - records.rest_length, "the walk goes on behind the text", (long)end);
        found++;
    }
    check(!bradovusc_next(&records), "a walk that is over stays so", (long)written);
    free(exact);
    return found;
}

static void try_records(void) {
    /* field 0: no character; field 3: two of them; field 7: 256 of them */
    static uint8_t bytes[5 + 7 + 261] = {'V', 'A', 0, 0, 0, 'V', 'A', 3, 2, 0, 42, 4, 'V', 'A', 7, 0, 1};
    static const uint8_t wrong_first[] = {'W', 'A', 0, 0, 0}, wrong_second[] = {'V', 'B', 0, 0, 0};
    static const uint8_t too_long[] = {'V', 'A', 0, 255, 255, 1, 2};
    struct bradovusc_records records = bradovusc_records_in(bytes, sizeof bytes);
    size_t written;
    bytes[sizeof bytes - 1] = 9;

    check(bradovusc_next(&records) && records.field == 0 && records.length == 0, "the first record", 0);
    check(bradovusc_next(&records) && records.field == 3 && records.length == 2, "the second record", 3);
    check(records.values == bytes + 10 && records.values[0] == 42 && records.values[1] == 4, "the second text", 3);
    check(bradovusc_next(&records) && records.field == 7 && records.length == 256, "the third record", 7);
    check(records.values[255] == 9, "the third text", 7);
    check(!bradovusc_next(&records), "the end", 0);

    for (written = 0; written <= sizeof bytes; written++) {
        int expected = (written >= 5) + (written >= 12) + (written >= 273);
        check(records_in(bytes, written) == expected, "the whole records of those cut short", (long)written);
    }
    check(records_in(wrong_first, sizeof wrong_first) == 0, "another first letter", 0);
    check(records_in(wrong_second, sizeof wrong_second) == 0, "another second letter", 0);
    check(records_in(too_long, sizeof too_long) == 0, "a text longer than what was written", 0);
    records = bradovusc_records_in(NULL, 0);
    check(!bradovusc_next(&records), "no record in nothing", 0);
}

/* ---- the walk over listed pairs */

/* How many pairs there are in the first `written` of these bytes, which stand in memory that ends behind them. */
static int pairs_in(const uint8_t *bytes, size_t written, int decided) {
    uint8_t *exact = (uint8_t *)malloc(written > 0 ? written : 1);
    struct bradovusc_pairs pairs;
    int found = 0;
    if (exact == NULL) {
        fputs("header: no memory\n", stderr);
        exit(EXIT_FAILURE);
    }
    memcpy(exact, bytes, written);
    pairs = decided ? bradovusc_decided_pairs_in(exact, written) : bradovusc_pairs_in(exact, written);
    while (bradovusc_next_pair(&pairs)) {
        found++;
        check(pairs.rest_length == written - (decided ? 7 : 5) * (size_t)found, "the walk goes on behind the pair", (long)written);
        check(decided || pairs.search == 0, "five bytes tell no attempt", (long)written);
    }
    check(!bradovusc_next_pair(&pairs), "a walk that is over stays so", (long)written);
    free(exact);
    return found;
}

static void try_pairs(void) {
    static const uint8_t bytes[] = {0, 1, 0, 6, 0, 2, 31, 18, 100, 1, 30, 31, 19, 255, 255};
    struct bradovusc_pairs pairs = bradovusc_pairs_in(bytes, sizeof bytes);
    size_t written;

    check(bradovusc_next_pair(&pairs) && pairs.lower == 0 && pairs.higher == 1, "the first pair", 0);
    check(pairs.answer == BRADOVUSC_CLASH && pairs.count == 6, "its answer", 0);
    check(bradovusc_next_pair(&pairs) && pairs.lower == 2 && pairs.higher == 31, "the second pair", 1);
    check(pairs.answer == BRADOVUSC_NO_ROOM && pairs.count == 356, "its answer", 1);
    check(bradovusc_next_pair(&pairs) && pairs.lower == 30 && pairs.higher == 31, "the third pair", 2);
    check(pairs.answer == BRADOVUSC_SIDE_TOO_LONG && pairs.count == 65535, "its answer", 2);
    check(!bradovusc_next_pair(&pairs), "the end", 0);
    for (written = 0; written <= sizeof bytes; written++) {
        check(pairs_in(bytes, written, 0) == (int)(written / 5), "the whole pairs of those cut short", (long)written);
    }
    pairs = bradovusc_pairs_in(NULL, 0);
    check(!bradovusc_next_pair(&pairs), "no pair in nothing", 0);
}

static void try_decided_pairs(void) {
    static const uint8_t bytes[] = {0, 1, 0, 109, 1, 0, 4, 2, 31, 18, 251, 255, 4, 0, 30, 31, 19, 255, 255, 255, 0};
    struct bradovusc_pairs pairs = bradovusc_decided_pairs_in(bytes, sizeof bytes);
    size_t written;

    check(bradovusc_next_pair(&pairs) && pairs.lower == 0 && pairs.higher == 1, "the first pair", 0);
    check(pairs.answer == BRADOVUSC_CLASH && pairs.count == 365 && pairs.search == 4, "its answer", 0);
    check(bradovusc_next_pair(&pairs) && pairs.lower == 2 && pairs.higher == 31, "the second pair", 1);
    check(pairs.answer == BRADOVUSC_NO_ROOM && pairs.count == 327675 && pairs.search == 0, "its answer", 1);
    check(bradovusc_next_pair(&pairs) && pairs.lower == 30 && pairs.higher == 31, "the third pair", 2);
    check(pairs.answer == BRADOVUSC_SIDE_TOO_LONG && pairs.count == 16777215 && pairs.search == 0, "its answer", 2);
    check(!bradovusc_next_pair(&pairs), "the end", 0);
    for (written = 0; written <= sizeof bytes; written++) {
        check(pairs_in(bytes, written, 1) == (int)(written / 7), "the whole pairs of those cut short", (long)written);
    }
    pairs = bradovusc_decided_pairs_in(NULL, 0);
    check(!bradovusc_next_pair(&pairs), "no pair in nothing", 0);
}

/* ---- null pointers of length 0 */

static uint8_t work[BRADOVUSC_WORK_BYTES(13)], answer[12];

static int is(struct bradovusc_answer given, uint32_t number, uint64_t count, uint64_t place, uint64_t written) {
    return given.number == number && given.count == count && given.place == place && given.written == written;
}

static void try_null(void) {
    /* sheet S of the rules; both sides empty; the same with a byte too many */
    static const uint8_t s[] = {'P', 'A', 0, 4, 68, 65, 0, 9, 'P', 'A', 1, 1, 4, 'L', 'E', 1, 64, 'R', 'I', 1, 65};
    static const uint8_t empty[] = {'L', 'E', 0, 'R', 'I', 0}, one_more[] = {'L', 'E', 0, 'R', 'I', 0, 0};
    static const uint8_t records[] = {'V', 'A', 0, 1, 0, 4, 'V', 'A', 1, 1, 0, 4};
    uint64_t told[] = {7, 7, 7, 7};

    check(is(bradovusc_ask(s, sizeof s, work, sizeof work, answer, sizeof answer), 0, 13, 0, 12), "no null pointer", 0);
    check(memcmp(answer, records, sizeof records) == 0, "the answer's bytes", 0);
    check(is(bradovusc_ask(NULL, 0, work, sizeof work, answer, sizeof answer), 11, 0, 0, 0), "no sheet", 0);
    check(is(bradovusc_ask(s, sizeof s, NULL, 0, answer, sizeof answer), 18, 0, 0, 0), "no working buffer", 0);
    check(is(bradovusc_ask(s, sizeof s, work, sizeof work, NULL, 0), 20, 13, 0, 0), "no answer buffer", 0);
    check(is(bradovusc_ask(empty, sizeof empty, work, sizeof work, NULL, 0), 0, 5, 0, 0), "none needed", 0);
    check(is(bradovusc_ask(one_more, sizeof one_more, NULL, 0, NULL, 0), 12, 0, 6, 0), "a place, and no buffer", 0);
    check(is(bradovusc_ask(NULL, 0, NULL, 0, NULL, 0), 11, 0, 0, 0), "nothing at all", 0);
    check(bradovusc_clash_or_null(s, sizeof s, work, sizeof work, answer, sizeof answer, NULL, 0) == 0, "nothing told", 0);
    check(bradovusc_clash_or_null(NULL, 0, NULL, 0, NULL, 0, NULL, 0) == 11, "nothing at all, nothing told", 0);
    check(bradovusc_clash_or_null(s, sizeof s, work, sizeof work, NULL, 0, told, 4) == 20, "told as well", 0);
    check(told[0] == 13 && told[1] == 0 && told[2] == 0 && told[3] == 7, "three numbers told, no more", 0);
}

/* ---- deciding */

static int is_decided(struct bradovusc_decision d, uint32_t number, uint64_t count, uint64_t place, uint64_t written,
                      uint64_t search) {
    return d.number == number && d.count == count && d.place == place && d.written == written && d.search == search;
}

/* one of 0 to 6 or one of 0 to 2, twice on both sides */
static const uint8_t shortest[] = {'P', 'A', 0, 7, 67, 65, 0, 6, 65, 0, 2, 'L', 'E', 2, 64, 64, 'R', 'I', 2, 64, 64};

/* Known decisions of the rules, one for each attempt. */
static void try_attempts(void) {
    static const uint8_t apart[] = {'L', 'E', 1, 10, 'R', 'I', 1, 11}; /* A and B */
    /* field 0, one of A to G, with 4 behind it, and twice */
    static const uint8_t letters[] = {'P', 'A', 0, 3, 65, 10, 16, 'L', 'E', 2, 64, 4, 'R', 'I', 2, 64, 64};
    /* field 0, a digit, then AB; field 1, a digit, then BA */
    static const uint8_t own[] = {'P', 'A', 0,   3, 65, 0,  9,  'P', 'A', 1, 3,  65, 0,
                                  9,   'L', 'E', 3, 64, 10, 11, 'R', 'I', 3, 65, 11, 10};
    static const uint8_t longer[] = {'L', 'E', 2, 64, 64, 'R', 'I', 6, 0, 0, 0, 0, 0, 0}; /* field 0 twice, and 000000 */
    /* field 0, one of A to G or 000, with B behind it, and twice */
    static const uint8_t alike[] = {'P', 'A', 0, 9, 67, 65, 10, 16, 66, 0, 66, 0, 0, 'L', 'E', 2, 64, 11, 'R', 'I', 2, 64, 64};
    /* field 0, any number of 0 to 6, then 0; and 0 */
    static const uint8_t few[] = {'P', 'A', 0, 4, 68, 65, 0, 6, 'L', 'E', 2, 64, 0, 'R', 'I', 1, 0};
    static const uint8_t zero[] = {'V', 'A', 0, 1, 0, 0}, zeros[] = {'V', 'A', 0, 3, 0, 0, 0, 0};
    static const uint8_t b[] = {'V', 'A', 0, 1, 0, 11}, no_text[] = {'V', 'A', 0, 0, 0};

    check(is_decided(bradovusc_settle(apart, sizeof apart, work, 184, answer, 8), 1, 1, 0, 0, 1), "no clash by 1", 1);
    check(is_decided(bradovusc_settle(letters, sizeof letters, work, 368, answer, 8), 1, 2, 0, 0, 2), "no clash by 2", 2);
    check(is_decided(bradovusc_settle(own, sizeof own, work, 184, NULL, 0), 1, 1, 0, 0, 3), "no clash by 3", 3);
    check(is_decided(bradovusc_settle(shortest, sizeof shortest, work, 1288, answer, 8), 0, 14, 0, 6, 4), "clash by 4", 4);
    check(memcmp(answer, zero, sizeof zero) == 0, "its text", 4);
    check(is_decided(bradovusc_settle(longer, sizeof longer, work, 1656, answer, 8), 0, 21, 0, 8, 5), "clash by 5", 5);
    check(memcmp(answer, zeros, sizeof zeros) == 0, "its text", 5);
    check(is_decided(bradovusc_settle(alike, sizeof alike, work, 2024, answer, 8), 0, 28, 0, 6, 6), "clash by 6", 6);
    check(memcmp(answer, b, sizeof b) == 0, "its text", 6);
    check(is_decided(bradovusc_settle(few, sizeof few, work, 1472, answer, 8), 0, 38, 0, 5, 7), "clash by 7", 7);
    check(memcmp(answer, no_text, sizeof no_text) == 0, "its text", 7);
}

/* One that none decides, an answer buffer that is too short, faults, null pointers, and what is told. */
static void try_decide(void) {
    static const uint8_t open[] = {'L', 'E', 2, 10, 10, 'R', 'I', 1, 64}; /* AA and field 0 */
    static const uint8_t one_more[] = {'L', 'E', 0, 'R', 'I', 0, 0};
    size_t told_length, i;

    memset(answer, 7, 8);
    check(is_decided(bradovusc_settle(shortest, sizeof shortest, work, 1288, answer, 5), 20, 14, 0, 0, 4), "too short", 20);
    check(answer[0] == 7 && answer[4] == 7, "no byte changed", 20);
    check(is_decided(bradovusc_settle(shortest, sizeof shortest, work, 1288, answer, 8), 0, 14, 0, 6, 4), "long enough", 0);
    check(answer[0] == 'V' && answer[6] == 7, "the record, and no more", 0);
    check(is_decided(bradovusc_settle(open, sizeof open, work, 552, answer, 8), 18, 13, 0, 0, 0), "not decided", 18);
    check(is_decided(bradovusc_settle(open, sizeof open, NULL, 0, NULL, 0), 18, 0, 0, 0, 0), "no buffers", 18);
    check(is_decided(bradovusc_settle(one_more, sizeof one_more, NULL, 0, NULL, 0), 12, 0, 6, 0, 0), "a fault", 12);
    check(is_decided(bradovusc_settle(NULL, 0, NULL, 0, NULL, 0), 11, 0, 0, 0, 0), "nothing at all", 11);
    for (told_length = 0; told_length <= 5; told_length++) {
        uint64_t told[] = {7, 7, 7, 7, 7};
        const uint64_t all_told[] = {14, 0, 6, 4, 7};
        check(bradovusc_decide(shortest, sizeof shortest, work, 1288, answer, 8, told, told_length) == 0, "decided",
              (long)told_length);
        for (i = 0; i < 5; i++) {
            check(told[i] == (i < told_length ? all_told[i] : 7), "an element of what is told", (long)i);
        }
    }
}

/* ---- the places of faults */

static const struct {
    uint8_t bytes[17];
    size_t length;
    uint32_t number;
    uint64_t place;
} faults[] = {
    {{'X'}, 1, 11, 1},
    {{'L', 'E', 0, 'R'}, 4, 11, 4},
    {{'P', 'A', 0, 2, 43}, 5, 11, 5},
    {{'L', 'E', 0, 'R', 'X', 0}, 6, 12, 3},
    {{'L', 'E', 0, 'R', 'I', 0, 0}, 7, 12, 6},
    {{'P', 'A', 8, 1, 4}, 5, 13, 2},
    {{'P', 'A', 0, 193}, 4, 14, 3},
    {{'L', 'E', 25}, 3, 14, 2},
    {{'P', 'A', 0, 3, 66, 4, 43}, 7, 15, 6}, /* no code */
    {{'P', 'A', 0, 2, 65, 43}, 6, 15, 5},    /* lo above 42, and no hi */
    {{'P', 'A', 0, 3, 65, 0, 43}, 7, 15, 6}, /* hi above 42 */
    {{'P', 'A', 0, 3, 65, 2, 1}, 7, 15, 6},  /* hi below lo */
    {{'P', 'A', 0, 3, 4, 43, 4}, 7, 15, 5},  /* bytes left over */
    {{'P', 'A', 0, 2, 65, 42}, 6, 15, 6},    /* the code runs out, and the sheet ends */
    {{'P', 'A', 0, 1, 68, 'L'}, 6, 15, 5},   /* the code runs out, and the sheet goes on */
    {{'L', 'E', 3, 10, 72, 43}, 6, 17, 4},
    {{'L', 'E', 0, 'R', 'I', 1, 73}, 7, 17, 6}, /* the token of a hidden field */
    {{'E', 'D'}, 2, 11, 2},
    {{'E', 'D', 2}, 3, 11, 3},
    {{'E', 'D', 1}, 3, 44, 2}, /* whatever follows */
    {{'E', 'D', 0, 'L', 'E', 0, 'X'}, 7, 44, 2},
    {{'E', 'D', 2, 'E', 'D', 2}, 6, 12, 3}, /* it stands once, and in front */
    {{'L', 'E', 0, 'E', 'D', 2}, 6, 12, 3},
    {{'E', 'D', 2, 'L', 'E', 1, 128}, 7, 17, 6}, /* neither a character nor a field */
    {{'E', 'D', 2, 'L', 'E', 1, 200}, 7, 17, 6}, /* the token of a hidden field */
    {{'E', 'D', 2, 'P', 'A', 0, 1, 197}, 8, 15, 7},
    {{'P', 'A', 0, 1, 4, 'L', 'E', 0, 'R', 'I', 0}, 11, 22, 0},
    {{'P', 'A', 0, 1, 4, 'L', 'E', 1, 65, 'R', 'I', 0}, 12, 22, 0},                    /* another field stands */
    {{'P', 'A', 0, 1, 4, 'P', 'A', 7, 1, 4, 'L', 'E', 0, 'R', 'I', 1, 64}, 17, 22, 5}, /* field 0 stands, on the right only */
    {{'P', 'A', 6, 1, 4, 'P', 'A', 7, 1, 4, 'L', 'E', 0, 'R', 'I', 1, 64}, 17, 22, 0}, /* the first of two */
    {{'E', 'D', 2, 'P', 'A', 0, 1, 4, 'L', 'E', 0, 'R', 'I', 1, 193}, 15, 22, 3},
    {{'P', 'A', 0, 1, 4, 'L', 'E', 0, 'R', 'I', 0, 0}, 12, 12, 11}, /* all others come before it */
    {{'P', 'A', 0, 1, 4, 'L', 'E', 0, 'R', 'I', 1, 72}, 12, 17, 11},
    {{'P', 'A', 0, 1, 4, 'L', 'E', 0, 'R', 'I', 25}, 11, 14, 10},
    {{'P', 'A', 0, 1, 4, 'L', 'E', 0, 'R', 'I'}, 10, 11, 10},
    {{'E', 'D', 3, 'P', 'A', 0, 1, 4, 'L', 'E', 0, 'R', 'I', 0}, 14, 44, 2},
};

static void try_places(void) {
    uint8_t leaves[4 + 127] = {'P', 'A', 0, 127};
    size_t i;
    for (i = 0; i < sizeof faults / sizeof *faults; i++) {
        struct bradovusc_answer given = bradovusc_ask(faults[i].bytes, faults[i].length, work, sizeof work, answer, sizeof answer);
        check(is(given, faults[i].number, 0, faults[i].place, 0), "the place of a fault", (long)i);
    }
    memset(leaves + 4, 66, 63); /* and then 64 times the character 0 */
    check(is(bradovusc_ask(leaves, sizeof leaves, work, sizeof work, answer, sizeof answer), 16, 0, 130, 0), "the 64th leaf", 16);
}

/* ---- a sheet of Full ASCII */

/* x, any number of a to z, then @; and b@ with a space */
static const uint8_t ascii_sheet[] = {'E', 'D', 2, 'P', 'A', 0, 4, 196, 193, 'a', 'z', 'L', 'E', 2, 192, '@', 'R', 'I', 3, 'b', '@', ' '};
static const uint8_t ascii_texts[] = {'V', 'A', 0, 1, 0, 'b'};

static void try_full_ascii(void) {
    static const uint8_t spelt_b[] = {41, 11}, rule[] = {'R', 'U', 'E', 'D', 2, 'L', 'E', 0};
    uint8_t wrong[sizeof ascii_sheet], steps[64], bits[64], to[64], catalogue[16] = {0};
    size_t length = sizeof ascii_sheet;
    struct bradovusc_records found;
    struct bradovusc_stepped stepped;
    struct bradovusc_way way;
    struct bradovusc_spelt spelt;
    struct bradovusc_added added;
    memset(answer, 7, sizeof answer);
    check(bradovusc_ask(ascii_sheet, length, work, sizeof work, answer, sizeof answer).written == 6, "a clash", 0);
    check(memcmp(answer, ascii_texts, 6) == 0 && answer[6] == 7, "its text", 6);
    found = bradovusc_records_in(answer, 6);
    check(bradovusc_next(&found) && found.length == 1 && found.values[0] == 'b', "by the walk", 1);
    spelt = bradovusc_spell_text(found.values, found.length, to, sizeof to);
    check(spelt.number == 0 && spelt.written == 2 && memcmp(to, spelt_b, 2) == 0, "spelt +B", 2);
    stepped = bradovusc_find_steps(ascii_sheet, length, work, sizeof work, answer, sizeof answer, steps, sizeof steps);
    way = bradovusc_way_in(steps, (size_t)stepped.steps);
    check(stepped.number == 0 && bradovusc_next_step(&way) && way.value == 'b', "its first step", 0);
    check(bradovusc_play_steps(ascii_sheet, length, steps, (size_t)stepped.steps, answer, sizeof answer).number == 0, "played", 0);
    check(bradovusc_ask_plain(ascii_sheet, length, bits, sizeof bits).number == 0, "by the engine for plain rules", 0);
    check(bradovusc_carry_sheet(ascii_sheet, length, to, sizeof to).written == length, "carried over", (long)length);

    memcpy(wrong, ascii_sheet, length);
    wrong[2] = 3;
    memset(answer, 7, sizeof answer);
    check(is(bradovusc_ask(wrong, length, work, sizeof work, answer, sizeof answer), 44, 0, 2, 0), "another edition", 44);
    check(answer[0] == 7, "no byte changed", 44);
    check(bradovusc_ask_plain(wrong, length, bits, sizeof bits).number == 44, "of the engine too", 44);
    added = bradovusc_enter(catalogue, sizeof catalogue, rule, sizeof rule, work, sizeof work);
    check(added.number == 12 && added.place == 2, "a rule has none", 12);
}

/* ---- the script of a sheet */

static int is_scripted(struct bradovusc_scripted scripted, uint32_t number, uint64_t place, uint64_t written) {
    return scripted.number == number && scripted.place == place && scripted.written == written;
}

/* x, and 44 */
static const uint8_t asked[] = {'L', 'E', 1, 64, 'R', 'I', 2, 4, 4};
static const char heading[] = "; Do two label rules clash? sat: they do. unsat: they don't.\n"
                              "; Fields 8 and 9 are the spaces at the end of the left and the right label.\n"
                              "(set-logic QF_S)\n";
static const char hidden_and_equation[] = "; field 8\n(declare-const f8 String)\n(assert (str.in_re f8 (re.* (str.to_re \" \"))))\n"
                                          "; field 9\n(declare-const f9 String)\n(assert (str.in_re f9 (re.* (str.to_re \" \"))))\n"
                                          "(assert (= (str.++ f0 f8) (str.++ \"44\" f9)))\n(check-sat)\n";

/* puts the text behind the first `at` bytes, and says how many there are then */
static size_t put(char *bytes, size_t at, const char *text) {
    memcpy(bytes + at, text, strlen(text));
    return at + strlen(text);
}

/* one of the 43 characters */
static size_t put_any(char *bytes, size_t at) {
    int value;
    at = put(bytes, at, "(re.union");
    for (value = 0; value < BRADOVUSC_CHARACTERS; value++) {
        at = put(bytes, at, " (str.to_re \"");
        bytes[at++] = (char)sign_of(value);
        at = put(bytes, at, "\")");
    }
    return put(bytes, at, ")");
}

/* the script of `asked`, whose field 0 has no pattern: one character, then any number of them; its length */
static size_t expected_script(char *expected) {
    size_t at = put(expected, 0, heading);
    at = put(expected, at, "; field 0\n(declare-const f0 String)\n(assert (str.in_re f0 (re.++ ");
    at = put_any(expected, at);
    at = put(expected, at, " (re.* ");
    at = put_any(expected, at);
    at = put(expected, at, "))))\n");
    return put(expected, at, hidden_and_equation);
}

static uint8_t script[BRADOVUSC_SCRIPT_BYTES];

static void try_script(void) {
    static const uint8_t one_more[] = {'L', 'E', 0, 'R', 'I', 0, 0}, wrong[] = {'L', 'E', 2, 10, 72};
    static char expected[4000];
    size_t length = expected_script(expected), told_length, i;
    memset(script, 7, sizeof script);

    check(is_scripted(bradovusc_write_script(asked, sizeof asked, script, length - 1), 40, 0, 0), "a byte too few", 40);
    check(is_scripted(bradovusc_write_script(asked, sizeof asked, NULL, 0), 40, 0, 0), "no output buffer", 40);
    check(is_scripted(bradovusc_write_script(NULL, 0, script, sizeof script), 11, 0, 0), "no sheet", 11);
    check(is_scripted(bradovusc_write_script(NULL, 0, NULL, 0), 11, 0, 0), "nothing at all", 11);
    check(is_scripted(bradovusc_write_script(one_more, 7, script, sizeof script), 12, 6, 0), "a byte too many", 12);
    check(is_scripted(bradovusc_write_script(wrong, 5, NULL, 0), 17, 4, 0), "a fault is before 40", 17);
    check(script[0] == 7 && script[length - 2] == 7 && script[sizeof script - 1] == 7, "no byte changed", 40);
    check(is_scripted(bradovusc_write_script(asked, sizeof asked, script, length), 0, 0, length), "just enough", (long)length);
    check(memcmp(script, expected, length) == 0 && script[length] == 7, "the script's bytes, and no more", (long)length);
    memset(script, 7, sizeof script);
    check(is_scripted(bradovusc_write_script(asked, sizeof asked, script, sizeof script), 0, 0, length), "more than enough", 0);
    check(memcmp(script, expected, length) == 0 && script[length] == 7, "the same bytes, and no more", (long)length);
    for (told_length = 0; told_length <= 4; told_length++) {
        uint64_t told[] = {7, 7, 7, 7};
        const uint64_t all_told[] = {0, 0, length, 7};
        check(bradovusc_script(asked, sizeof asked, script, sizeof script, told, told_length) == 0, "written", (long)told_length);
        for (i = 0; i < 4; i++) {
            check(told[i] == (i < told_length ? all_told[i] : 7), "an element of what is told", (long)i);
        }
    }
}

/* Eight patterns of 192 bytes, with as many ranges of all the characters as there is room for, and all eight stand: it fits. */
static void try_longest_script(void) {
    static uint8_t sheet[8 * 196 + 2 * 27];
    uint8_t *at = sheet;
    struct bradovusc_scripted scripted;
    int field, i;
    for (field = 0; field < BRADOVUSC_FIELDS; field++) {
        *at++ = 'P';
        *at++ = 'A';
        *at++ = (uint8_t)field;
        *at++ = 192;
        *at++ = 68; /* any number of 48 ranges, with 47 times "or" */
        memset(at, 67, 47);
        at += 47;
        for (i = 0; i < 48; i++) {
            *at++ = 65;
            *at++ = 0;
            *at++ = 42;
        }
    }
    for (i = 0; i < 2; i++) {
        *at++ = i == 0 ? 'L' : 'R';
        *at++ = i == 0 ? 'E' : 'I';
        *at++ = 24;
        for (field = 0; field < 24; field++) {
            *at++ = (uint8_t)(64 + field % 8);
        }
    }
    check(at == sheet + sizeof sheet, "the longest sheet", (long)(at - sheet));
    scripted = bradovusc_write_script(sheet, sizeof sheet, script, sizeof script);
    check(scripted.number == 0 && scripted.written > 272000, "its script fits", (long)scripted.written);
    check(scripted.written < sizeof script && script[scripted.written] == 7, "with bytes to spare", (long)scripted.written);
}

/* ---- the catalogue */

static int is_added(struct bradovusc_added added, uint32_t number, uint64_t count, uint64_t place, uint64_t rule, uint32_t pair) {
    return added.number == number && added.count == count && added.place == place && added.rule == rule && added.pair == pair &&
           added.search == 0;
}

static int all_zero(const uint8_t *bytes, size_t length) {
    while (length > 0 && bytes[length - 1] == 0) {
        length--;
    }
    return length == 0;
}

/* the rules A, B and x, of one token each; x is field 0 */
static const uint8_t rule_a[] = {'R', 'U', 'L', 'E', 1, 10}, rule_b[] = {'R', 'U', 'L', 'E', 1, 11};
static const uint8_t rule_x[] = {'R', 'U', 'L', 'E', 1, 64};

static void try_catalogue(void) {
    static const uint8_t one_more[] = {'R', 'U', 'L', 'E', 1, 10, 0}, field_4[] = {'R', 'U', 'L', 'E', 1, 68};
    static const uint8_t no_token[] = {'R', 'U', 'L', 'E', 2, 68, 72};
    uint8_t catalogue[] = {0, 0, 0, 0, 0, 0, 0, 0, 0, 0, 0, 0, 0};
    size_t length = sizeof catalogue;
    memset(work, 7, sizeof work);

    check(is_added(bradovusc_enter(catalogue, length, rule_a, 6, work, sizeof work), 0, 0, 0, 0, 0), "a rule added", 0);
    check(memcmp(catalogue, rule_a, 6) == 0 && all_zero(catalogue + 6, 7), "its bytes", 0);
    check(work[0] == 7 && work[sizeof work - 1] == 7, "nothing was searched", 0);
    check(is_added(bradovusc_enter(catalogue, length, rule_b, 6, work, sizeof work), 0, 0, 0, 0, 0), "another", 1);
    check(memcmp(catalogue + 6, rule_b, 6) == 0 && catalogue[12] == 0, "the other's bytes", 1);
    check(all_zero(work, sizeof work), "the working buffer is all zero", 1);
    check(is_added(bradovusc_enter(catalogue, length, rule_a, 6, work, sizeof work), 32, 0, 0, 0, 0), "a byte is left", 32);
    check(is_added(bradovusc_enter(catalogue, length, one_more, 7, work, sizeof work), 12, 0, 6, 0, 0), "a byte too many", 12);
    check(is_added(bradovusc_enter(catalogue, length, no_token, 6, work, sizeof work), 11, 0, 6, 0, 0), "a token missing", 11);
    check(is_added(bradovusc_enter(catalogue, length, no_token, 7, work, sizeof work), 17, 0, 6, 0, 0), "no token", 17);
    check(is_added(bradovusc_enter(catalogue, length, field_4, 6, work, sizeof work), 31, 0, 0, 0, 0), "field 4", 31);
    check(bradovusc_remove(catalogue, length, 2) == 33, "there is no rule 2", 33);
    check(bradovusc_remove(catalogue, length, (size_t)-1) == 33, "nor one with the greatest number", 33);
    check(bradovusc_remove(catalogue, length, 0) == 0, "the first rule withdrawn", 0);
    check(memcmp(catalogue, rule_b, 6) == 0 && all_zero(catalogue + 6, 7), "the gap is closed", 0);
    check(is_added(bradovusc_enter(catalogue, length, rule_x, 6, work, sizeof work), 30, 10, 0, 0, 0), "a clash", 30);
    check(is_added(bradovusc_enter(catalogue, length, rule_x, 6, work, BRADOVUSC_WORK_BYTES(1)), 30, 1, 0, 0, 18), "room for one", 18);
    check(memcmp(catalogue, rule_b, 6) == 0 && all_zero(catalogue + 6, 7), "no byte changed", 30);
    catalogue[length - 1] = 1;
    check(is_added(bradovusc_enter(catalogue, length, rule_a, 6, work, sizeof work), 34, 0, 0, 0, 0), "no catalogue", 34);
    check(bradovusc_remove(catalogue, length, 0) == 34, "nothing to withdraw from", 34);
}

static void try_catalogue_of_nothing(void) {
    uint8_t catalogue[12];
    memset(catalogue, 0, sizeof catalogue);
    check(is_added(bradovusc_enter(NULL, 0, rule_a, 6, work, sizeof work), 32, 0, 0, 0, 0), "no catalogue's byte", 32);
    check(is_added(bradovusc_enter(catalogue, 12, NULL, 0, work, sizeof work), 11, 0, 0, 0, 0), "no rule's byte", 11);
    check(is_added(bradovusc_enter(catalogue, 12, rule_a, 6, NULL, 0), 0, 0, 0, 0, 0), "no working buffer, no pair", 0);
    check(is_added(bradovusc_enter(catalogue, 12, rule_b, 6, NULL, 0), 30, 0, 0, 0, 18), "no working buffer", 18);
    check(is_added(bradovusc_enter(NULL, 0, NULL, 0, NULL, 0), 11, 0, 0, 0, 0), "nothing at all", 11);
    check(bradovusc_remove(NULL, 0, 0) == 33, "nothing to withdraw", 33);
}

/* A, B, B with a space and A with a space, kept since a space at the end made another label */
static const uint8_t kept[] = {'R', 'U', 'L', 'E', 1, 10, 'R', 'U', 'L', 'E', 1, 11,
                               'R', 'U', 'L', 'E', 2, 11, 38, 'R', 'U', 'L', 'E', 2, 10, 38};

static int is_rechecked(struct bradovusc_rechecked rechecked, uint32_t number, uint64_t pairs, uint64_t written) {
    return rechecked.number == number && rechecked.pairs == pairs && rechecked.written == written;
}

static void try_recheck(void) {
    static const uint8_t clashes[] = {0, 3, 0, 6, 0, 1, 2, 0, 6, 0}, one_more[] = {'R', 'U', 'L', 'E', 1, 10, 0, 1};
    uint8_t list[11];
    memset(work, 7, sizeof work);
    memset(list, 7, sizeof list);

    check(is_rechecked(bradovusc_check_again(kept, 6, work, sizeof work, list, 11), 0, 0, 0), "one rule", 0);
    check(is_rechecked(bradovusc_check_again(one_more, 8, work, sizeof work, list, 11), 34, 0, 0), "no catalogue", 34);
    check(work[0] == 7 && work[sizeof work - 1] == 7, "nothing was searched", 0);
    check(is_rechecked(bradovusc_check_again(kept, sizeof kept, work, sizeof work, list, 9), 35, 0, 0), "a byte too few", 35);
    check(list[0] == 7 && list[8] == 7, "nothing is listed", 35);
    check(all_zero(work, sizeof work), "the working buffer is all zero", 35);
    memset(work, 7, sizeof work);
    check(is_rechecked(bradovusc_check_again(kept, sizeof kept, work, sizeof work, list, 11), 0, 2, 10), "two pairs", 0);
    check(memcmp(list, clashes, sizeof clashes) == 0 && list[10] == 7, "their bytes, and no more", 0);
    check(all_zero(work, sizeof work), "the working buffer is all zero", 0);
    check(is_rechecked(bradovusc_check_again(kept, 12, work, sizeof work, NULL, 0), 0, 0, 0), "A and B, no list", 0);
    check(is_rechecked(bradovusc_check_again(kept, 12, NULL, 0, list, 11), 0, 1, 5), "A and B, no working buffer", 18);
    check(list[1] == 1 && list[2] == 18 && list[3] == 0, "not decided", 18);
    check(is_rechecked(bradovusc_check_again(NULL, 0, NULL, 0, NULL, 0), 0, 0, 0), "nothing at all", 0);
}

/* a list of so many elements told */
static void try_rechecked_told(void) {
    uint8_t list[10];
    size_t length, i;
    for (length = 0; length <= 3; length++) {
        uint64_t told[] = {7, 7, 7};
        static const uint64_t expected[] = {2, 10, 7};
        check(bradovusc_recheck(kept, sizeof kept, work, sizeof work, list, 10, told, length) == 0, "listed", (long)length);
        for (i = 0; i < 3; i++) {
            check(told[i] == (i < length ? expected[i] : 7), "an element of what is told", (long)i);
        }
    }
}

/* every pair of 32 rules listed, in just enough bytes */
static void try_longest_list(void) {
    static uint8_t catalogue[BRADOVUSC_RULES * 5], list[BRADOVUSC_LIST_BYTES(BRADOVUSC_RULES)];
    static const uint8_t rule[] = {'R', 'U', 'L', 'E', 0};
    struct bradovusc_pairs pairs = bradovusc_pairs_in(list, sizeof list);
    struct bradovusc_rechecked rechecked;
    unsigned lower, higher;
    size_t i;
    for (i = 0; i < BRADOVUSC_RULES; i++) {
        memcpy(catalogue + 5 * i, rule, 5);
    }
    rechecked = bradovusc_check_again(catalogue, sizeof catalogue, work, sizeof work, list, sizeof list - 1);
    check(is_rechecked(rechecked, 35, 0, 0), "a byte too few", 35);
    rechecked = bradovusc_check_again(catalogue, sizeof catalogue, work, sizeof work, list, sizeof list);
    check(is_rechecked(rechecked, 0, 496, 2480), "every pair", 496);
    for (lower = 0; lower < BRADOVUSC_RULES; lower++) {
        for (higher = lower + 1; higher < BRADOVUSC_RULES; higher++) {
            check(bradovusc_next_pair(&pairs) && pairs.lower == lower && pairs.higher == higher, "the order", (long)lower);
            check(pairs.answer == BRADOVUSC_CLASH && pairs.count == 5, "a clash", (long)higher);
        }
    }
    check(!bradovusc_next_pair(&pairs), "the end", 496);
}

/* 30 told in so many elements */
static void try_told(void) {
    uint8_t catalogue[18];
    size_t length, i;
    memset(catalogue, 0, sizeof catalogue);
    memcpy(catalogue, rule_b, 6);
    memcpy(catalogue + 6, rule_x, 6);
    for (length = 0; length <= 5; length++) {
        uint64_t told[] = {7, 7, 7, 7, 7};
        static const uint64_t expected[] = {2, 0, 1, 18, 7};
        check(bradovusc_add(catalogue, 18, rule_a, 6, work, BRADOVUSC_WORK_BYTES(2), told, length) == 30, "not apart", (long)length);
        for (i = 0; i < 5; i++) {
            check(told[i] == (i < length ? expected[i] : 7), "an element of what is told", (long)i);
        }
    }
}

/* a rule of the greatest length fits into the bytes for one rule, and the rules that a catalogue may hold into those for them */
static void try_longest_rules(void) {
    static uint8_t rule[BRADOVUSC_RULE_BYTES], catalogue[BRADOVUSC_CATALOGUE_BYTES(BRADOVUSC_RULES) + 1];
    uint8_t *at = rule;
    int field, i;
    *at++ = 'R';
    *at++ = 'U';
    for (field = 0; field < BRADOVUSC_RULE_FIELDS; field++) {
        *at++ = 'P';
        *at++ = 'A';
        *at++ = (uint8_t)field;
        *at++ = 192;
        memset(at, 68, 191);
        at[191] = 10;
        at += 192;
    }
    *at++ = 'L';
    *at++ = 'E';
    *at++ = 24;
    memset(at, 64, 24);
    for (field = 1; field < BRADOVUSC_RULE_FIELDS; field++) {
        at[field] = (uint8_t)(64 + field); /* no pattern is stray */
    }
    check(at + 24 == rule + sizeof rule, "the longest rule", (long)(at - rule));
    check(bradovusc_enter(catalogue, sizeof rule - 1, rule, sizeof rule, work, sizeof work).number == 32, "a byte too few", 812);
    check(bradovusc_enter(catalogue, sizeof rule, rule, sizeof rule, work, sizeof work).number == 0, "just enough", 813);
    memset(catalogue, 0, sizeof catalogue);
    for (i = 0; i < BRADOVUSC_RULES; i++) {
        *at = (uint8_t)i; /* a character in front, another for each */
        check(bradovusc_enter(catalogue, sizeof catalogue - 1, rule, sizeof rule, work, sizeof work).number == 0, "a long rule", i);
    }
    *at = BRADOVUSC_RULES;
    check(bradovusc_enter(catalogue, sizeof catalogue, rule_x, 6, work, sizeof work).number == 32, "no 33rd rule", 32);
    check(bradovusc_remove(catalogue, sizeof catalogue, 31) == 0, "the last one withdrawn", 31);
    check(bradovusc_enter(catalogue, sizeof catalogue, rule, sizeof rule, work, sizeof work).number == 0, "its room used again", 31);
}

/* ---- the catalogue that decides */

/* a number twice, with - between; the same with /; the first again, but the number ends in 0 */
static const uint8_t dashed[] = {'R', 'U', 'P', 'A', 0, 8, 66, 65, 0, 9, 68, 65, 0, 9, 'L', 'E', 3, 64, 36, 64};
static const uint8_t slashed[] = {'R', 'U', 'P', 'A', 0, 8, 66, 65, 0, 9, 68, 65, 0, 9, 'L', 'E', 3, 64, 40, 64};
static const uint8_t ends_in_0[] = {'R', 'U', 'P', 'A', 0, 6, 66, 68, 65, 0, 9, 0, 'L', 'E', 3, 64, 36, 64};
static uint8_t much[BRADOVUSC_WORK_BYTES(356)];

static int is_told(struct bradovusc_added added, uint32_t number, uint64_t place, uint64_t rule, uint32_t pair, uint64_t search) {
    return added.number == number && added.place == place && added.rule == rule && added.pair == pair && added.search == search;
}

static void try_add_decided(void) {
    static const uint8_t one_more[] = {'R', 'U', 'L', 'E', 1, 10, 0}, field_4[] = {'R', 'U', 'L', 'E', 1, 68};
    static uint8_t catalogue[sizeof dashed + sizeof slashed + sizeof ends_in_0 + 1];
    size_t length = sizeof catalogue;
    struct bradovusc_added added;
    memset(much, 7, sizeof much);

    check(is_told(bradovusc_enter_decided(catalogue, length, dashed, sizeof dashed, much, sizeof much), 0, 0, 0, 0, 0), "no pair", 0);
    check(memcmp(catalogue, dashed, sizeof dashed) == 0 && catalogue[sizeof dashed] == 0, "its bytes", 0);
    check(much[0] == 7 && much[sizeof much - 1] == 7, "nothing was searched", 0);
    added = bradovusc_enter(catalogue, length, slashed, sizeof slashed, much, sizeof much);
    check(is_added(added, 30, 356, 0, 0, 18), "one search has no room", 18);
    memset(much, 7, sizeof much);
    check(is_told(bradovusc_enter_decided(catalogue, length, slashed, sizeof slashed, much, sizeof much), 0, 0, 0, 0, 0), "decided", 0);
    check(memcmp(catalogue + sizeof dashed, slashed, sizeof slashed) == 0, "the other's bytes", 1);
    check(all_zero(much, sizeof much), "the working buffer is all zero", 1);
    memset(much, 7, sizeof much);
    added = bradovusc_enter_decided(catalogue, length, ends_in_0, sizeof ends_in_0, much, sizeof much);
    check(is_told(added, 30, 0, 0, 0, 4) && added.count > 356, "a clash, by attempt 4", (long)added.count);
    check(all_zero(much, sizeof much), "the working buffer is all zero", 30);
    check(all_zero(catalogue + sizeof dashed + sizeof slashed, sizeof ends_in_0 + 1), "no byte changed", 30);
    added = bradovusc_enter_decided(catalogue, length, rule_x, 6, much, BRADOVUSC_WORK_BYTES(1));
    check(is_told(added, 30, 0, 0, 18, 0), "room for one", 18);
    check(is_told(bradovusc_enter_decided(catalogue, length, one_more, 7, NULL, 0), 12, 6, 0, 0, 0), "a byte too many", 12);
    check(is_told(bradovusc_enter_decided(catalogue, length, field_4, 6, NULL, 0), 31, 0, 0, 0, 0), "field 4", 31);
    check(is_told(bradovusc_enter_decided(catalogue, length, rule_x, 6, NULL, 0), 30, 0, 0, 18, 0), "no working buffer", 18);
    check(is_told(bradovusc_enter_decided(NULL, 0, rule_a, 6, NULL, 0), 32, 0, 0, 0, 0), "no catalogue's byte", 32);
    check(is_told(bradovusc_enter_decided(NULL, 0, NULL, 0, NULL, 0), 11, 0, 0, 0, 0), "nothing at all", 11);
    catalogue[length - 1] = 1;
    check(is_told(bradovusc_enter_decided(catalogue, length, rule_a, 6, much, sizeof much), 34, 0, 0, 0, 0), "no catalogue", 34);
}

/* 30 told in so many elements */
static void try_decided_told(void) {
    uint8_t catalogue[18];
    size_t length, i;
    memset(catalogue, 0, sizeof catalogue);
    memcpy(catalogue, rule_b, 6);
    memcpy(catalogue + 6, rule_x, 6);
    for (length = 0; length <= 6; length++) {
        uint64_t told[] = {7, 7, 7, 7, 7, 7};
        static const uint64_t expected[] = {10, 0, 1, 0, 1, 7};
        check(bradovusc_add_decided(catalogue, 18, rule_a, 6, much, sizeof much, told, length) == 30, "not apart", (long)length);
        for (i = 0; i < 6; i++) {
            check(told[i] == (i < length ? expected[i] : 7), "an element of what is told", (long)i);
        }
    }
}

static void try_recheck_decided(void) {
    static const uint8_t clashes[] = {0, 3, 0, 6, 0, 0, 1, 1, 2, 0, 6, 0, 0, 1}, one_more[] = {'R', 'U', 'L', 'E', 1, 10, 0, 1};
    uint8_t list[15];
    size_t length, i;
    memset(work, 7, sizeof work);
    memset(list, 7, sizeof list);

    check(is_rechecked(bradovusc_check_again_decided(kept, 6, work, sizeof work, list, 15), 0, 0, 0), "one rule", 0);
    check(is_rechecked(bradovusc_check_again_decided(one_more, 8, work, sizeof work, list, 15), 34, 0, 0), "no catalogue", 34);
    check(work[0] == 7 && work[sizeof work - 1] == 7, "nothing was searched", 0);
    check(is_rechecked(bradovusc_check_again_decided(kept, sizeof kept, work, sizeof work, list, 13), 35, 0, 0), "too few", 35);
    check(list[0] == 7 && list[12] == 7, "nothing is listed", 35);
    check(all_zero(work, sizeof work), "the working buffer is all zero", 35);
    memset(work, 7, sizeof work);
    check(is_rechecked(bradovusc_check_again_decided(kept, sizeof kept, work, sizeof work, list, 15), 0, 2, 14), "two pairs", 0);
    check(memcmp(list, clashes, sizeof clashes) == 0 && list[14] == 7, "their bytes, and no more", 0);
    check(all_zero(work, sizeof work), "the working buffer is all zero", 0);
    check(is_rechecked(bradovusc_check_again_decided(kept, 12, work, sizeof work, NULL, 0), 0, 0, 0), "A and B, no list", 0);
    check(is_rechecked(bradovusc_check_again_decided(kept, 12, NULL, 0, list, 15), 0, 0, 0), "the letters need no working buffer", 1);
    check(is_rechecked(bradovusc_check_again_decided(kept + 6, 13, NULL, 0, list, 15), 0, 1, 7), "B twice, no working buffer", 18);
    check(list[1] == 1 && list[2] == 18 && list[3] == 0 && list[6] == 0, "not decided", 18);
    check(is_rechecked(bradovusc_check_again_decided(NULL, 0, NULL, 0, NULL, 0), 0, 0, 0), "nothing at all", 0);
    for (length = 0; length <= 3; length++) {
        uint64_t told[] = {7, 7, 7};
        static const uint64_t expected[] = {2, 14, 7};
        check(bradovusc_recheck_decided(kept, sizeof kept, work, sizeof work, list, 14, told, length) == 0, "listed", (long)length);
        for (i = 0; i < 3; i++) {
            check(told[i] == (i < length ? expected[i] : 7), "an element of what is told", (long)i);
        }
    }
}

/* what one search does not decide is decided, or told with the attempt that found the clash */
static void try_recheck_serials(void) {
    static uint8_t catalogue[sizeof dashed + sizeof slashed + sizeof ends_in_0];
    uint8_t list[BRADOVUSC_LIST_BYTES(3)], decided[BRADOVUSC_DECIDED_LIST_BYTES(3)];
    struct bradovusc_rechecked rechecked;
    struct bradovusc_pairs pairs;
    memcpy(catalogue, dashed, sizeof dashed);
    memcpy(catalogue + sizeof dashed, slashed, sizeof slashed);
    memcpy(catalogue + sizeof dashed + sizeof slashed, ends_in_0, sizeof ends_in_0);
    rechecked = bradovusc_check_again(catalogue, sizeof catalogue, much, sizeof much, list, sizeof list);
    check(is_rechecked(rechecked, 0, 3, 15), "one search decides none", 3);
    rechecked = bradovusc_check_again_decided(catalogue, sizeof catalogue, much, sizeof much, decided, sizeof decided);
    check(is_rechecked(rechecked, 0, 1, 7), "all decide each", 1);
    pairs = bradovusc_decided_pairs_in(decided, (size_t)rechecked.written);
    check(bradovusc_next_pair(&pairs) && pairs.lower == 0 && pairs.higher == 2, "the two that clash", 2);
    check(pairs.answer == BRADOVUSC_CLASH && pairs.search == 4 && pairs.count > 356, "by attempt 4", (long)pairs.count);
}

/* every pair of 32 rules listed, in just enough bytes */
static void try_longest_decided_list(void) {
    static uint8_t catalogue[BRADOVUSC_RULES * 5], list[BRADOVUSC_DECIDED_LIST_BYTES(BRADOVUSC_RULES)];
    static const uint8_t rule[] = {'R', 'U', 'L', 'E', 0};
    struct bradovusc_pairs pairs = bradovusc_decided_pairs_in(list, sizeof list);
    struct bradovusc_rechecked rechecked;
    unsigned lower, higher;
    size_t i;
    for (i = 0; i < BRADOVUSC_RULES; i++) {
        memcpy(catalogue + 5 * i, rule, 5);
    }
    rechecked = bradovusc_check_again_decided(catalogue, sizeof catalogue, work, sizeof work, list, sizeof list - 1);
    check(is_rechecked(rechecked, 35, 0, 0), "a byte too few", 35);
    rechecked = bradovusc_check_again_decided(catalogue, sizeof catalogue, work, sizeof work, list, sizeof list);
    check(is_rechecked(rechecked, 0, 496, 3472), "every pair", 496);
    for (lower = 0; lower < BRADOVUSC_RULES; lower++) {
        for (higher = lower + 1; higher < BRADOVUSC_RULES; higher++) {
            check(bradovusc_next_pair(&pairs) && pairs.lower == lower && pairs.higher == higher, "the order", (long)lower);
            check(pairs.answer == BRADOVUSC_CLASH && pairs.count == 5 && pairs.search == 1, "a clash", (long)higher);
        }
    }
    check(!bradovusc_next_pair(&pairs), "the end", 496);
}

/* ---- a sheet that is written */

static uint8_t out[BRADOVUSC_SHEET_BYTES + 1];

static int is_written(struct bradovusc_sheet_written w, uint32_t number, uint64_t place, uint64_t written) {
    return w.number == number && w.place == place && w.written == written;
}

/* x B y, and z; x is A, z is any digits, field 7; y, field 1, has no pattern */
static const uint8_t patterns[] = {10, 68, 65, 0, 9};
static const uint64_t lengths[] = {1, 0, 0, 0, 0, 0, 0, 4};
static const uint8_t left[] = {64, 11, 65}, right[] = {71};
static const uint8_t written_sheet[] = {'P', 'A', 0, 1, 10, 'P', 'A', 7, 4, 68, 65, 0, 9, 'L', 'E', 3, 64, 11, 65, 'R', 'I', 1, 71};

static struct bradovusc_sheet_written write_into(uint8_t *to, size_t length) {
    return bradovusc_write_sheet(patterns, 5, lengths, 8, left, 3, right, 1, to, length);
}

static void try_write(void) {
    /* zeros behind the last length, and a byte behind the last pattern */
    static const uint64_t zeros_behind[] = {1, 0, 0, 0, 0, 0, 0, 4, 0, 0};
    static const uint8_t byte_behind[] = {10, 68, 65, 0, 9, 255};
    size_t length = sizeof written_sheet;
    memset(out, 7, sizeof out);

    check(is_written(write_into(NULL, 0), 41, 0, 0), "no output buffer", 41);
    check(is_written(write_into(out, length - 1), 41, 0, 0), "a byte too few", 41);
    check(out[0] == 7 && out[length - 2] == 7, "no byte changed", 41);
    check(is_written(write_into(out, length), 0, 0, length), "just enough", (long)length);
    check(memcmp(out, written_sheet, length) == 0 && out[length] == 7, "the sheet's bytes, and no more", (long)length);
    memset(out, 7, sizeof out);
    check(is_written(bradovusc_write_sheet(NULL, 0, NULL, 0, NULL, 0, NULL, 0, out, 6), 0, 0, 6), "nothing handed over", 0);
    check(memcmp(out, "LE\0RI\0", 6) == 0 && out[6] == 7, "two empty sides", 6);
    check(is_written(bradovusc_write_sheet(NULL, 0, NULL, 0, NULL, 0, NULL, 0, NULL, 0), 41, 0, 0), "nothing at all", 41);
    check(is_written(bradovusc_write_sheet(byte_behind, 6, zeros_behind, 10, left, 3, right, 1, out, sizeof out), 0, 0, length),
          "more than is looked at", (long)length);
    check(memcmp(out, written_sheet, length) == 0 && out[length] == 7, "the same bytes", (long)length);
}

/* A sheet with its edition. */
static void try_write_edition(void) {
    static const uint64_t four[] = {4};
    const uint8_t *pattern = ascii_sheet + 7, *on_left = ascii_sheet + 14, *on_right = ascii_sheet + 19;
    size_t length = sizeof ascii_sheet, i;
    static const size_t none[] = {1, 3, 255, 256, 258, (size_t)-1};
    uint64_t told[BRADOVUSC_TOLD];
    memset(out, 7, sizeof out);
    check(is_written(bradovusc_write_sheet_edition(BRADOVUSC_FULL_ASCII, pattern, 4, four, 1, on_left, 2, on_right, 3, out, length - 1), 41, 0,
                     0),
          "a byte too few", 41);
    for (i = 0; i < sizeof none / sizeof *none; i++) {
        check(is_written(bradovusc_write_sheet_edition(none[i], NULL, 0, four, 1, on_left, 2, on_right, 3, NULL, 0), 44, 2, 0),
              "another edition", (long)i);
    }
    check(out[0] == 7 && out[length - 1] == 7, "no byte changed", 44);
    check(is_written(bradovusc_write_sheet_edition(BRADOVUSC_FULL_ASCII, pattern, 4, four, 1, on_left, 2, on_right, 3, out, length), 0, 0,
                     length),
          "just enough", (long)length);
    check(memcmp(out, ascii_sheet, length) == 0 && out[length] == 7, "the sheet's bytes, and no more", (long)length);
    check(is_written(bradovusc_write_sheet_edition(BRADOVUSC_FULL_ASCII, left, 1, four, 1, NULL, 0, NULL, 0, NULL, 0), 11, 8, 0), "cut", 11);
    check(is_written(bradovusc_write_sheet_edition(BRADOVUSC_FULL_ASCII, NULL, 0, NULL, 0, on_left, 2, pattern, 1, NULL, 0), 41, 0, 0),
          "196 is field 4", 41);
    check(is_written(bradovusc_write_sheet_edition(BRADOVUSC_CODE_39, pattern, 4, four, 1, NULL, 0, NULL, 0, NULL, 0), 15, 4, 0),
          "196 is no code without ED", 15);
    check(bradovusc_write(patterns, 5, lengths, 8, left, 3, right, 1, out, sizeof out, told, BRADOVUSC_TOLD) == 0 &&
              told[BRADOVUSC_WRITTEN] == sizeof written_sheet && memcmp(out, written_sheet, sizeof written_sheet) == 0,
          "bradovusc_write is the edition 0", 0);
}

/* told in so many elements */
static void try_write_told(void) {
    size_t length, i;
    for (length = 0; length <= 4; length++) {
        uint64_t told[] = {7, 7, 7, 7};
        const uint64_t expected[] = {0, 0, sizeof written_sheet, 7};
        check(bradovusc_write(patterns, 5, lengths, 8, left, 3, right, 1, out, sizeof out, told, length) == 0, "written", (long)length);
        for (i = 0; i < 4; i++) {
            check(told[i] == (i < length ? expected[i] : 7), "an element of what is told", (long)i);
        }
    }
}

/* the places that the header lists, and what comes before what */
static void try_write_places(void) {
    static const uint64_t ninth[] = {1, 0, 0, 0, 0, 0, 0, 0, 1}, long_ones[] = {0, 193}, longest[] = {UINT64_MAX}, five[] = {1, 5};
    static const uint64_t one[] = {1}, two[] = {2}, leaves[] = {127};
    static const uint8_t no_code[] = {10, 43}, no_token[] = {10, 72}, cut[] = {10, 68, 68};
    uint8_t many[127], many_tokens[25];
    memset(many, 66, 63);
    memset(many + 63, 10, 64);
    memset(many_tokens, 10, sizeof many_tokens);
    memset(out, 7, sizeof out);

    check(is_written(bradovusc_write_sheet(patterns, 5, ninth, 9, left, 3, no_token, 2, out, sizeof out), 13, 7, 0), "field 8", 13);
    check(is_written(bradovusc_write_sheet(patterns, 5, long_ones, 2, left, 3, right, 1, out, sizeof out), 14, 3, 0), "193", 14);
    check(is_written(bradovusc_write_sheet(NULL, 0, longest, 1, NULL, 0, NULL, 0, out, sizeof out), 14, 3, 0), "the longest", 14);
    check(is_written(bradovusc_write_sheet(cut, 3, five, 2, left, 3, right, 1, out, sizeof out), 11, 11, 0), "two of five bytes", 11);
    check(is_written(bradovusc_write_sheet(NULL, 0, one, 1, NULL, 0, NULL, 0, NULL, 0), 11, 4, 0), "11 is before 41", 11);
    check(is_written(bradovusc_write_sheet(no_code, 2, two, 1, no_token, 2, right, 1, out, sizeof out), 15, 5, 0), "left over", 15);
    check(is_written(bradovusc_write_sheet(no_code + 1, 1, one, 1, left, 3, right, 1, out, sizeof out), 15, 4, 0), "no code", 15);
    check(is_written(bradovusc_write_sheet(many, 127, leaves, 1, left, 3, right, 1, out, sizeof out), 16, 130, 0), "leaf 64", 16);
    check(is_written(bradovusc_write_sheet(NULL, 0, NULL, 0, many_tokens, 25, no_token, 2, NULL, 0), 14, 2, 0), "25 tokens", 14);
    check(is_written(bradovusc_write_sheet(NULL, 0, NULL, 0, left, 3, many_tokens, 25, NULL, 0), 14, 8, 0), "on the right", 14);
    check(is_written(bradovusc_write_sheet(patterns, 1, one, 1, no_token, 2, many_tokens, 25, NULL, 0), 17, 9, 0), "no token", 17);
    check(is_written(bradovusc_write_sheet(NULL, 0, NULL, 0, left, 3, no_token, 2, NULL, 0), 17, 10, 0), "on the right", 17);
    check(is_written(bradovusc_write_sheet(patterns, 1, one, 1, right, 1, right, 1, NULL, 0), 22, 0, 0), "22 is before 41", 22);
    check(is_written(bradovusc_write_sheet(patterns, 5, lengths, 8, left, 3, left, 3, out, sizeof out), 22, 5, 0), "field 7", 22);
    check(is_written(bradovusc_write_sheet(patterns, 1, one, 1, right, 1, no_token, 2, NULL, 0), 17, 13, 0), "17 is before 22", 17);
    check(out[0] == 7 && out[22] == 7 && out[sizeof out - 1] == 7, "no byte changed", 11);
}

/* the longest sheet, in just enough bytes */
static void try_longest_sheet(void) {
    static uint8_t all_patterns[8 * 192];
    uint64_t each[8];
    uint8_t tokens[24];
    struct bradovusc_answer given;
    size_t i;
    memset(all_patterns, 68, sizeof all_patterns);
    for (i = 0; i < 8; i++) {
        all_patterns[192 * i + 191] = 10;
        each[i] = 192;
    }
    for (i = 0; i < sizeof tokens; i++) {
        tokens[i] = (uint8_t)(64 + i % 8); /* no pattern is stray */
    }
    memset(out, 7, sizeof out);
    check(is_written(bradovusc_write_sheet(all_patterns, sizeof all_patterns, each, 8, tokens, 24, tokens, 24, out, 1621), 41, 0, 0),
          "a byte too few", 41);
    check(is_written(bradovusc_write_sheet(all_patterns, sizeof all_patterns, each, 8, tokens, 24, tokens, 24, out, 1622), 0, 0, 1622),
          "just enough", 1622);
    check(out[1622] == 7, "no byte behind it", 1622);
    given = bradovusc_ask(out, 1622, NULL, 0, NULL, 0);
    check(given.number == BRADOVUSC_NO_ROOM, "it is a good sheet", (long)given.number);
    for (i = 0; i < sizeof all_patterns; i++) {
        all_patterns[i] = all_patterns[i] == 68 ? 196 : 10;
    }
    for (i = 0; i < sizeof tokens; i++) {
        tokens[i] = (uint8_t)(192 + i % 8);
    }
    check(is_written(bradovusc_write_sheet_edition(2, all_patterns, sizeof all_patterns, each, 8, tokens, 24, tokens, 24, out, 1624), 41, 0,
                     0),
          "a byte too few", 41);
    check(is_written(bradovusc_write_sheet_edition(2, all_patterns, sizeof all_patterns, each, 8, tokens, 24, tokens, 24, out, 1625), 0, 0,
                     1625),
          "just enough with ED", 1625);
    check(out[1625] == 7, "no byte behind it", 1625);
    given = bradovusc_ask(out, 1625, NULL, 0, NULL, 0);
    check(given.number == BRADOVUSC_NO_ROOM, "it is a good sheet", (long)given.number);
}

/* ---- the steps of a clash, and the player */

/* x, any digits, and y, the digit 4: the way of its search, in room for 13 situations, and the texts */
static const uint8_t stepped_sheet[] = {'P', 'A', 0, 4, 68, 65, 0, 9, 'P', 'A', 1, 1, 4, 'L', 'E', 1, 64, 'R', 'I', 1, 65};
static const uint8_t stepped_way[] = {'S', 'T', 2, 4, 'S', 'T', 0, 'S', 'T', 0, 'S', 'T', 1, 'S', 'T', 1};
static const uint8_t stepped_texts[] = {'V', 'A', 0, 1, 0, 4, 'V', 'A', 1, 1, 0, 4};
static uint8_t stepped_work[BRADOVUSC_WORK_BYTES(13)];

/* Every byte is this one. */
static int all_are(const uint8_t *bytes, size_t length, int byte) {
    size_t i;
    for (i = 0; i < length; i++) {
        if (bytes[i] != byte) {
            return 0;
        }
    }
    return 1;
}

/* The sheet in so many bytes of work, answer and steps, all of them 7 before: number and count, and what the buffers then hold. */
static int is_stepped(size_t work_length, size_t answer_length, size_t steps_length, uint32_t number, uint64_t count) {
    uint8_t answer[20], steps[24];
    size_t written = number == 0 ? sizeof stepped_texts : 0, bytes = number == 0 ? sizeof stepped_way : 0;
    struct bradovusc_stepped given;
    memset(stepped_work, 7, sizeof stepped_work);
    memset(answer, 7, sizeof answer);
    memset(steps, 7, sizeof steps);
    given = bradovusc_find_steps(stepped_sheet, sizeof stepped_sheet, work_length > 0 ? stepped_work : NULL, work_length,
                                 answer_length > 0 ? answer : NULL, answer_length, steps_length > 0 ? steps : NULL, steps_length);
    return given.number == number && given.count == count && given.place == 0 && given.written == written && given.steps == bytes &&
           memcmp(answer, stepped_texts, written) == 0 && all_are(answer + written, sizeof answer - written, 7) &&
           memcmp(steps, stepped_way, bytes) == 0 && all_are(steps + bytes, sizeof steps - bytes, 7) &&
           all_are(stepped_work, work_length, 0) && all_are(stepped_work + work_length, sizeof stepped_work - work_length, 7);
}

static void try_steps(void) {
    static const uint8_t one_more[] = {'L', 'E', 0, 'R', 'I', 0, 0};
    size_t room = sizeof stepped_work, i;
    uint8_t lent = 7, other = 7, third = 7;
    struct bradovusc_stepped given;
    check(is_stepped(room, 12, sizeof stepped_way, 0, 13), "the way in just enough", (long)sizeof stepped_way);
    check(is_stepped(room, 20, 24, 0, 13), "the way in plenty", 24);
    for (i = 0; i < sizeof stepped_way; i++) {
        check(is_stepped(room, 12, i, 51, 13), "too few bytes of steps", (long)i);
        check(is_stepped(room, 11, i, 20, 13), "20 is before 51", (long)i);
    }
    for (i = 0; i < sizeof stepped_texts; i++) {
        check(is_stepped(room, i, sizeof stepped_way, 20, 13), "too few bytes of answer", (long)i);
    }
    check(is_stepped(room - 1, 12, sizeof stepped_way, 18, 12), "a situation too few", 12);
    check(is_stepped(0, 0, 0, 18, 0), "no buffer", 0);
    given = bradovusc_find_steps(one_more, sizeof one_more, &lent, 1, &other, 1, &third, 1);
    check(given.number == 12 && given.place == 6 && given.count == 0 && given.written == 0 && given.steps == 0, "a fault", 12);
    check(lent == 7 && other == 7 && third == 7, "a fault changes nothing", 12);
    given = bradovusc_find_steps(NULL, 0, NULL, 0, NULL, 0, NULL, 0);
    check(given.number == 11 && given.place == 0, "no sheet", 11);
    check(BRADOVUSC_STEPS_BYTES(0) == 0 && BRADOVUSC_STEPS_BYTES(1) == 0 && BRADOVUSC_STEPS_BYTES(13) == 48, "bytes of steps", 13);
    check(BRADOVUSC_STEPS_BYTES(356) == 1420 && BRADOVUSC_STEPS_BYTES(65535) == 262136, "bytes of steps", 356);
    check(BRADOVUSC_MOST_STEPS == BRADOVUSC_MOST_SITUATIONS - 1, "a way has a step less than situations", BRADOVUSC_MOST_STEPS);
}

/* told in so many elements */
static void try_steps_told(void) {
    size_t told_length, i;
    for (told_length = 0; told_length <= 5; told_length++) {
        uint64_t told[] = {7, 7, 7, 7, 7}, told_play[] = {7, 7, 7, 7, 7}, told_way[] = {7, 7, 7, 7, 7};
        const uint64_t expected[] = {13, 0, 12, 16, 7}, expected_play[] = {0, 0, 12, 7, 7}, expected_way[] = {0, 0, 16, 7, 7};
        uint8_t answer[12], steps[16];
        check(bradovusc_steps(stepped_sheet, sizeof stepped_sheet, stepped_work, sizeof stepped_work, answer, sizeof answer, steps,
                              sizeof steps, told, told_length) == 0,
              "a clash", (long)told_length);
        check(bradovusc_play(stepped_sheet, sizeof stepped_sheet, steps, sizeof steps, answer, sizeof answer, told_play,
                             told_length) == 0,
              "it is played", (long)told_length);
        check(bradovusc_way(stepped_sheet, sizeof stepped_sheet, answer, sizeof answer, steps, sizeof steps, told_way, told_length) ==
                  0,
              "its texts have a way", (long)told_length);
        for (i = 0; i < 5; i++) {
            check(told[i] == (i < told_length ? expected[i] : 7), "an element of what is told", (long)i);
            check(told_play[i] == (i < told_length ? expected_play[i] : 7), "an element of what the player tells", (long)i);
            check(told_way[i] == (i < told_length ? expected_way[i] : 7), "an element of what is told of a way", (long)i);
        }
    }
}

/* The sheet played, with an answer buffer of so many bytes, all of them 7 before. */
static int is_played(const uint8_t *steps, size_t steps_length, size_t answer_length, uint32_t number) {
    uint8_t answer[20];
    size_t written = number == 0 ? sizeof stepped_texts : 0;
    struct bradovusc_played given;
    memset(answer, 7, sizeof answer);
    given = bradovusc_play_steps(stepped_sheet, sizeof stepped_sheet, steps, steps_length, answer_length > 0 ? answer : NULL,
                                 answer_length);
    return given.number == number && given.place == 0 && given.written == written &&
           memcmp(answer, stepped_texts, written) == 0 && all_are(answer + written, sizeof answer - written, 7);
}

static void try_play(void) {
    static const uint8_t wrong_mark[] = {'S', 'U', 0}, kind[] = {'S', 'T', 3}, value[] = {'S', 'T', 2, 43};
    static const uint8_t letter[] = {'S', 'T', 2, 10}, right[] = {'S', 'T', 1}, one_more[] = {'L', 'E', 0, 'R', 'I', 0, 0};
    uint8_t longer[sizeof stepped_way + 3];
    struct bradovusc_played given;
    size_t i;
    check(is_played(stepped_way, sizeof stepped_way, 12, 0), "the way in just enough", 12);
    check(is_played(stepped_way, sizeof stepped_way, 20, 0), "the way in plenty", 20);
    for (i = 0; i < 12; i++) {
        check(is_played(stepped_way, sizeof stepped_way, i, 20), "too few bytes of answer", (long)i);
    }
    for (i = 0; i < sizeof stepped_way; i++) {
        int whole = i == 0 || (i >= 4 && (i - 4) % 3 == 0);
        check(is_played(stepped_way, i, 20, whole ? 49 : 47), "a way cut short", (long)i);
    }
    check(is_played(NULL, 0, 0, 49), "no steps", 0);
    check(is_played(wrong_mark, sizeof wrong_mark, 20, 47), "another mark", 47);
    check(is_played(kind, sizeof kind, 20, 47), "a kind above 2", 47);
    check(is_played(value, sizeof value, 20, 47), "a value that is no character", 47);
    check(is_played(letter, sizeof letter, 20, 48), "a letter where digits stand", 48);
    check(is_played(right, sizeof right, 20, 48), "a field that may not end", 48);
    memcpy(longer, stepped_way, sizeof stepped_way);
    memcpy(longer + sizeof stepped_way, right, sizeof right);
    check(is_played(longer, sizeof longer, 20, 48), "a step behind the finish", 48);
    check(is_played(longer, sizeof longer - 1, 20, 47), "a part of one behind it", 47);
    given = bradovusc_play_steps(one_more, sizeof one_more, wrong_mark, sizeof wrong_mark, NULL, 0);
    check(given.number == 12 && given.place == 6 && given.written == 0, "the sheet's own fault is first", 12);
    given = bradovusc_play_steps(NULL, 0, NULL, 0, NULL, 0);
    check(given.number == 11 && given.place == 0, "no sheet", 11);
}

/* The way of these texts on the sheet, with a steps buffer of so many bytes, all of them 7 before. */
static int is_way(const uint8_t *texts, size_t texts_length, size_t steps_length, uint32_t number) {
    uint8_t steps[20];
    size_t written = number == 0 ? sizeof stepped_way : 0;
    struct bradovusc_played given;
    memset(steps, 7, sizeof steps);
    given = bradovusc_find_way(stepped_sheet, sizeof stepped_sheet, texts, texts_length, steps_length > 0 ? steps : NULL,
                               steps_length);
    return given.number == number && given.place == 0 && given.written == written && memcmp(steps, stepped_way, written) == 0 &&
           all_are(steps + written, sizeof steps - written, 7);
}

static void try_way(void) {
    static const uint8_t one_more[] = {'L', 'E', 0, 'R', 'I', 0, 0}, empty[] = {'L', 'E', 0, 'R', 'I', 0};
    static const uint8_t strikes[] = {'S', 'T', 0, 'S', 'T', 1};
    uint8_t texts[sizeof stepped_texts + 1], steps[8];
    struct bradovusc_played given;
    size_t i;
    check(is_way(stepped_texts, sizeof stepped_texts, sizeof stepped_way, 0), "the way in just enough", 16);
    check(is_way(stepped_texts, sizeof stepped_texts, 20, 0), "the way in plenty", 20);
    for (i = 0; i < sizeof stepped_way; i++) {
        check(is_way(stepped_texts, sizeof stepped_texts, i, 51), "too few bytes of steps", (long)i);
    }
    for (i = 0; i < sizeof stepped_texts; i++) {
        check(is_way(i > 0 ? stepped_texts : NULL, i, 20, 47), "texts cut short", (long)i);
        memcpy(texts, stepped_texts, sizeof stepped_texts);
        texts[i] = 43;
        check(is_way(texts, sizeof stepped_texts, 20, 47), "a byte that is another one", (long)i);
    }
    memcpy(texts, stepped_texts, sizeof stepped_texts);
    texts[sizeof stepped_texts] = 0;
    check(is_way(texts, sizeof texts, 20, 47), "a byte behind the records", 47);
    texts[5] = 5;
    check(is_way(texts, sizeof stepped_texts, 20, 48), "labels that differ", 48);
    texts[11] = 5;
    check(is_way(texts, sizeof stepped_texts, 20, 48), "a text that its field may not hold", 48);
    given = bradovusc_find_way(empty, sizeof empty, NULL, 0, steps, sizeof steps);
    check(given.number == 0 && given.written == 6 && memcmp(steps, strikes, sizeof strikes) == 0, "the hidden fields alone", 6);
    given = bradovusc_find_way(one_more, sizeof one_more, stepped_texts, 1, NULL, 0);
    check(given.number == 12 && given.place == 6 && given.written == 0, "the sheet's own fault is first", 12);
    given = bradovusc_find_way(NULL, 0, NULL, 0, NULL, 0);
    check(given.number == 11 && given.place == 0, "no sheet", 11);
}

/* 24 times x, and y, without patterns: the second A, put before each x, makes a long side. */
static void try_long_way(void) {
    static const uint8_t texts[] = {'V', 'A', 0, 2, 0, 10, 10, 'V', 'A', 1, 2, 0, 10, 10}, right[] = {'R', 'I', 1, 65};
    uint8_t sheet[3 + 24 + sizeof right] = {'L', 'E', 24}, steps[8];
    struct bradovusc_played given;
    memset(sheet + 3, 64, 24);
    memcpy(sheet + 3 + 24, right, sizeof right);
    memset(steps, 7, sizeof steps);
    given = bradovusc_find_way(sheet, sizeof sheet, texts, sizeof texts, steps, sizeof steps);
    check(given.number == 19 && given.place == 0 && given.written == 0, "a side that grows too long", 19);
    check(all_are(steps, sizeof steps, 7), "it changes nothing", 19);
}

/* KP, a number, - and the number again; the same, but the number ends in 0: one search gives up, and what is decided has a way. */
static void try_way_of_decided(void) {
    static const uint8_t twice[] = {'P', 'A', 0, 8, 66, 65, 0, 9, 68, 65, 0, 9, 'P', 'A', 1, 6, 66, 68, 65, 0, 9, 0,
                                    'L', 'E', 5, 20, 25, 64, 36, 64, 'R', 'I', 5, 20, 25, 65, 36, 65};
    static const uint8_t expected[] = {'S', 'T', 2, 0, 'S', 'T', 0, 'S', 'T', 1, 'S', 'T', 0, 'S', 'T', 1};
    static uint8_t room[BRADOVUSC_WORK_BYTES(356)];
    uint8_t texts[12], steps[20], again[12];
    struct bradovusc_decision decided = bradovusc_settle(twice, sizeof twice, room, sizeof room, texts, sizeof texts);
    struct bradovusc_played given;
    check(decided.number == 0 && decided.search == 4 && decided.written == sizeof texts, "a clash by 4", (long)decided.search);
    memset(steps, 7, sizeof steps);
    given = bradovusc_find_way(twice, sizeof twice, texts, sizeof texts, steps, sizeof steps);
    check(given.number == 0 && given.written == sizeof expected && memcmp(steps, expected, sizeof expected) == 0, "its way", 16);
    check(all_are(steps + sizeof expected, sizeof steps - sizeof expected, 7), "no byte behind it", 16);
    given = bradovusc_play_steps(twice, sizeof twice, steps, sizeof expected, again, sizeof again);
    check(given.number == 0 && given.written == sizeof texts && memcmp(again, texts, sizeof texts) == 0, "the player gives the texts back",
          12);
}

/* x and y without patterns, and so many times the character A: the same situation again and again. */
static void try_most_steps(void) {
    static const uint8_t endless[] = {'L', 'E', 1, 64, 'R', 'I', 1, 65};
    static const uint8_t record[] = {'S', 'T', 2, 10}, end[] = {'S', 'T', 0, 'S', 'T', 1, 'S', 'T', 0, 'S', 'T', 1};
    static uint8_t steps[4 * (BRADOVUSC_MOST_STEPS + 1)], texts[2 * (5 + BRADOVUSC_MOST_STEPS)];
    const size_t most = BRADOVUSC_MOST_STEPS;
    struct bradovusc_played given;
    size_t i;
    for (i = 0; i <= most; i++) {
        memcpy(steps + 4 * i, record, 4);
    }
    given = bradovusc_play_steps(endless, sizeof endless, steps, 4 * most, texts, sizeof texts);
    check(given.number == 49, "as many records as there may be", (long)most);
    given = bradovusc_play_steps(endless, sizeof endless, steps, 4 * (most + 1), texts, sizeof texts);
    check(given.number == 50, "one more", (long)most + 1);
    given = bradovusc_play_steps(endless, sizeof endless, steps, 4 * most + 1, texts, sizeof texts);
    check(given.number == 50, "50 is before 47", (long)most + 1);
    memcpy(steps + 4 * (most - 4), end, sizeof end);
    given = bradovusc_play_steps(endless, sizeof endless, steps, 4 * (most - 4) + sizeof end, texts, sizeof texts);
    check(given.number == 0 && given.written == 2 * (5 + most - 4), "the longest way", (long)most);
    check(texts[3] == 250 && texts[4] == 255, "a text of 65,530 characters", 65530);
    given = bradovusc_find_way(endless, sizeof endless, texts, 2 * (5 + most - 4), steps, sizeof steps);
    check(given.number == 0 && given.written == 4 * (most - 4) + sizeof end, "the longest way, by its texts", (long)most);
    /* a character more in each */
    memmove(texts + 6 + most - 4, texts + 5 + most - 4, 5 + most - 4);
    texts[5 + most - 4] = texts[2 * (5 + most - 4) + 1] = 10;
    texts[3] = texts[9 + most - 4] = 251;
    given = bradovusc_find_way(endless, sizeof endless, texts, 2 * (6 + most - 4), steps, sizeof steps);
    check(given.number == 50 && given.written == 0, "a step too many, by its texts", (long)most + 1);
}

/* A walk over steps, and over what is none. */
static void try_walk_over_steps(void) {
    static const unsigned kinds[] = {2, 0, 0, 1, 1};
    uint8_t bytes[] = {'S', 'T', 2, 127, 'S', 'T', 2, 128};
    struct bradovusc_way way = bradovusc_way_in(stepped_way, sizeof stepped_way);
    size_t i;
    for (i = 0; i < 5; i++) {
        check(bradovusc_next_step(&way) && way.kind == kinds[i] && way.value == (i == 0 ? 4u : 0u), "a step", (long)i);
    }
    check(!bradovusc_next_step(&way) && way.rest_length == 0, "no more steps", 5);
    way = bradovusc_way_in(NULL, 0);
    check(!bradovusc_next_step(&way), "no steps", 0);
    for (i = 0; i < 4; i++) {
        way = bradovusc_way_in(bytes, i);
        check(!bradovusc_next_step(&way), "a part of a record", (long)i);
    }
    way = bradovusc_way_in(bytes, sizeof bytes);
    check(bradovusc_next_step(&way) && way.value == 127 && !bradovusc_next_step(&way), "a value that is no character", 128);
    bytes[2] = 3;
    way = bradovusc_way_in(bytes, sizeof bytes);
    check(!bradovusc_next_step(&way), "a kind above 2", 3);
    bytes[1] = 'S';
    bytes[2] = 0;
    way = bradovusc_way_in(bytes, sizeof bytes);
    check(!bradovusc_next_step(&way), "another mark", 1);
}

/* ---- plain rules */

static uint8_t bits[BRADOVUSC_PLAIN_BYTES + 1];

/* The number and the place with so many bytes lent, all of them 7 before: unchanged after a fault, else all zero, and none behind. */
static int is_plain(const uint8_t *sheet, size_t sheet_length, size_t length, uint32_t number, uint64_t place) {
    struct bradovusc_plain_answer given;
    size_t i;
    int left = (number >= 11 && number <= 17) || number == 22 ? 7 : 0;
    memset(bits, 7, sizeof bits);
    given = bradovusc_ask_plain(sheet, sheet_length, length > 0 ? bits : NULL, length);
    for (i = 0; i < sizeof bits; i++) {
        if (bits[i] != (i < length ? left : 7)) {
            return 0;
        }
    }
    return given.number == number && given.place == place;
}

static int needs(const uint8_t *sheet, size_t sheet_length, uint32_t number, uint64_t place, uint64_t bytes) {
    struct bradovusc_plain_needs needed = bradovusc_measure_plain(sheet, sheet_length);
    return needed.number == number && needed.place == place && needed.bytes == bytes;
}

/* A, and x B; x has no pattern: 4 standings and 6, 24 bits */
static const uint8_t plain_sheet[] = {'L', 'E', 1, 10, 'R', 'I', 2, 64, 11};
/* x, any digits, and A: 5 and 4, 20 bits */
static const uint8_t plain_digits[] = {'P', 'A', 0, 4, 68, 65, 0, 9, 'L', 'E', 1, 64, 'R', 'I', 1, 5};

static void try_plain(void) {
    static const uint8_t nothing[] = {'L', 'E', 0, 'R', 'I', 0}, one_more[] = {'L', 'E', 0, 'R', 'I', 0, 0};
    static const uint8_t twice[] = {'L', 'E', 1, 64, 'R', 'I', 2, 64, 11}, wrong[] = {'L', 'E', 3, 64, 64, 72, 'R', 'I', 0};
    static const uint8_t spaces[] = {'L', 'E', 1, 10, 'R', 'I', 3, 10, 38, 38};
    static const size_t lengths[] = {0, 1, 2, BRADOVUSC_PLAIN_BYTES};
    size_t i;

    check(needs(plain_sheet, sizeof plain_sheet, 0, 0, 3) && needs(plain_digits, sizeof plain_digits, 0, 0, 3), "24 and 20 bits", 3);
    for (i = 0; i < 3; i++) {
        check(is_plain(plain_sheet, sizeof plain_sheet, i, 43, 0), "too few bits", (long)i);
        check(is_plain(plain_digits, sizeof plain_digits, i, 43, 0), "too few bits", (long)i);
    }
    check(is_plain(plain_sheet, sizeof plain_sheet, 3, 1, 0), "no clash in just enough", 3);
    check(is_plain(plain_sheet, sizeof plain_sheet, BRADOVUSC_PLAIN_BYTES, 1, 0), "no clash in plenty", BRADOVUSC_PLAIN_BYTES);
    check(is_plain(plain_digits, sizeof plain_digits, 3, 0, 0), "a clash in just enough", 3);
    check(is_plain(plain_digits, sizeof plain_digits, BRADOVUSC_PLAIN_BYTES, 0, 0), "a clash in plenty", BRADOVUSC_PLAIN_BYTES);
    check(needs(nothing, sizeof nothing, 0, 0, 2) && is_plain(nothing, sizeof nothing, 2, 0, 0), "both sides empty", 2);
    check(needs(spaces, sizeof spaces, 0, 0, 3) && is_plain(spaces, sizeof spaces, 3, 0, 0), "spaces at the end", 3);
    for (i = 0; i < sizeof lengths / sizeof *lengths; i++) {
        check(is_plain(NULL, 0, lengths[i], 11, 0), "no sheet", (long)lengths[i]);
        check(is_plain(one_more, sizeof one_more, lengths[i], 12, 6), "a byte too many", (long)lengths[i]);
        check(is_plain(wrong, sizeof wrong, lengths[i], 17, 5), "a fault is before 42", (long)lengths[i]);
        check(is_plain(twice, sizeof twice, lengths[i], 42, 0), "42 is before 43", (long)lengths[i]);
    }
    check(needs(NULL, 0, 11, 0, 0) && needs(one_more, sizeof one_more, 12, 6, 0), "a fault needs nothing", 12);
    check(needs(wrong, sizeof wrong, 17, 5, 0) && needs(twice, sizeof twice, 42, 0, 0), "nor does 42", 42);
}

/* told in so many elements */
static void try_plain_told(void) {
    size_t told_length, i;
    for (told_length = 0; told_length <= 4; told_length++) {
        uint64_t told[] = {7, 7, 7, 7}, told_needs[] = {7, 7, 7, 7};
        const uint64_t expected[] = {0, 0, 7, 7}, expected_needs[] = {0, 0, 3, 7};
        check(bradovusc_plain(plain_digits, sizeof plain_digits, bits, 3, told, told_length) == 0, "a clash", (long)told_length);
        check(bradovusc_plain_bytes(plain_digits, sizeof plain_digits, told_needs, told_length) == 0, "measured", (long)told_length);
        for (i = 0; i < 4; i++) {
            check(told[i] == (i < told_length ? expected[i] : 7), "an element of what is told", (long)i);
            check(told_needs[i] == (i < told_length ? expected_needs[i] : 7), "an element of what is needed", (long)i);
        }
    }
}

/* Four fields of 63 leaves and 20 characters a side: 279 standings each. */
static void try_most_bits(void) {
    static uint8_t sheet[8 * (4 + 125) + 2 * 27];
    uint8_t *at = sheet, *side;
    size_t field, i;
    for (field = 0; field < 8; field++) {
        const uint8_t head[] = {'P', 'A', (uint8_t)field, 125};
        memcpy(at, head, 4);
        memset(at + 4, 66, 62); /* 63 leaves, one behind the other */
        memset(at + 66, 10, 63);
        at += 129;
    }
    for (side = at; at < side + 54; at += 27) {
        memcpy(at, at == side ? "LE" : "RI", 2);
        at[2] = 24;
        for (i = 0; i < 24; i++) {
            at[3 + i] = (uint8_t)(i < 4 ? 64 + i + (at == side ? 0 : 4) : 10);
        }
    }
    check(needs(sheet, sizeof sheet, 0, 0, BRADOVUSC_PLAIN_BYTES), "279 by 279 bits", BRADOVUSC_PLAIN_BYTES);
    check(is_plain(sheet, sizeof sheet, BRADOVUSC_PLAIN_BYTES - 1, 43, 0), "a byte too few", BRADOVUSC_PLAIN_BYTES - 1);
    check(is_plain(sheet, sizeof sheet, BRADOVUSC_PLAIN_BYTES, 0, 0), "just enough", BRADOVUSC_PLAIN_BYTES);
    sheet[sizeof sheet - 1] = 11;
    check(is_plain(sheet, sizeof sheet, BRADOVUSC_PLAIN_BYTES, 1, 0), "the last character is another", BRADOVUSC_PLAIN_BYTES);
}

/* ---- carrying over */

static int is_carried(struct bradovusc_carried carried, uint32_t number, uint64_t place, uint64_t written) {
    return carried.number == number && carried.place == place && carried.written == written;
}

/* x B y, and z; x and z have no pattern, y is A; z is field 7. The same with patterns of the fields 2 and 6, which don't stand */
static const uint8_t old_sheet[] = {'P', 'A', 1, 1, 10, 'L', 'E', 3, 64, 11, 65, 'R', 'I', 1, 71};
static const uint8_t new_sheet[] = {'P', 'A', 0, 4, 68, 65, 0, 42, 'P', 'A', 1, 1, 10, 'P', 'A', 7,
                                    4, 68, 65, 0, 42, 'L', 'E', 3, 64, 11, 65, 'R', 'I', 1, 71};
static const uint8_t stray_sheet[] = {'P', 'A', 1, 1, 10, 'P', 'A', 2, 1, 10, 'P', 'A', 6, 2, 68,
                                      10, 'L', 'E', 3, 64, 11, 65, 'R', 'I', 1, 71};
/* the rule x B y, likewise; y is field 3, and field 2 doesn't stand */
static const uint8_t old_rule[] = {'R', 'U', 'L', 'E', 3, 64, 11, 67};
static const uint8_t new_rule[] = {'R', 'U', 'P', 'A', 0, 4, 68, 65, 0, 42, 'P', 'A', 3, 4, 68, 65, 0, 42, 'L', 'E', 3, 64, 11, 67};
static const uint8_t stray_rule[] = {'R', 'U', 'P', 'A', 2, 1, 10, 'L', 'E', 3, 64, 11, 67};
static void try_carry_sheet(void) {
    static const uint8_t one_more[] = {'L', 'E', 0, 'R', 'I', 0, 0}, wrong[] = {'L', 'E', 2, 10, 72};
    size_t length = sizeof new_sheet;
    memset(out, 7, sizeof out);

    check(is_carried(bradovusc_carry_sheet(old_sheet, sizeof old_sheet, out, length - 1), 41, 0, 0), "a byte too few", 41);
    check(is_carried(bradovusc_carry_sheet(old_sheet, sizeof old_sheet, NULL, 0), 41, 0, 0), "no output buffer", 41);
    check(is_carried(bradovusc_carry_sheet(NULL, 0, out, sizeof out), 11, 0, 0), "no sheet", 11);
    check(is_carried(bradovusc_carry_sheet(NULL, 0, NULL, 0), 11, 0, 0), "nothing at all", 11);
    check(is_carried(bradovusc_carry_sheet(one_more, 7, out, sizeof out), 12, 6, 0), "a byte too many", 12);
    check(is_carried(bradovusc_carry_sheet(wrong, 5, NULL, 0), 17, 4, 0), "a fault is before 41", 17);
    check(is_carried(bradovusc_carry_sheet(old_rule, sizeof old_rule, out, sizeof out), 12, 0, 0), "a rule is no sheet", 12);
    check(is_carried(bradovusc_carry_sheet(stray_sheet, sizeof stray_sheet, NULL, 0), 22, 5, 0), "22 is before 41", 22);
    check(out[0] == 7 && out[length - 2] == 7 && out[sizeof out - 1] == 7, "no byte changed", 41);
    check(is_carried(bradovusc_carry_sheet(old_sheet, sizeof old_sheet, out, length), 0, 0, length), "just enough", (long)length);
    check(memcmp(out, new_sheet, length) == 0 && out[length] == 7, "the new sheet's bytes, and no more", (long)length);
    memset(out, 7, sizeof out);
    check(is_carried(bradovusc_carry_sheet(new_sheet, length, out, sizeof out), 0, 0, length), "nothing to add", (long)length);
    check(memcmp(out, new_sheet, length) == 0 && out[length] == 7, "the same bytes, and no more", (long)length);
}

static void try_carry_rule(void) {
    static const uint8_t foreign_field[] = {'R', 'U', 'L', 'E', 1, 68}, no_token[] = {'R', 'U', 'L', 'E', 2, 68, 72};
    static const uint8_t stray_4[] = {'R', 'U', 'P', 'A', 4, 1, 10, 'L', 'E', 1, 69};
    size_t length = sizeof new_rule;
    memset(out, 7, sizeof out);

    check(is_carried(bradovusc_carry_rule(old_rule, sizeof old_rule, out, length - 1), 41, 0, 0), "a byte too few", 41);
    check(is_carried(bradovusc_carry_rule(old_rule, sizeof old_rule, NULL, 0), 41, 0, 0), "no output buffer", 41);
    check(is_carried(bradovusc_carry_rule(NULL, 0, out, sizeof out), 11, 0, 0), "no rule", 11);
    check(is_carried(bradovusc_carry_rule(NULL, 0, NULL, 0), 11, 0, 0), "nothing at all", 11);
    check(is_carried(bradovusc_carry_rule(no_token, 7, out, sizeof out), 17, 6, 0), "a fault is before 31", 17);
    check(is_carried(bradovusc_carry_rule(foreign_field, 6, NULL, 0), 31, 0, 0), "31 is before 41", 31);
    check(is_carried(bradovusc_carry_rule(old_sheet, sizeof old_sheet, out, sizeof out), 12, 0, 0), "a sheet is no rule", 12);
    check(is_carried(bradovusc_carry_rule(stray_rule, sizeof stray_rule, NULL, 0), 22, 2, 0), "22 is before 41", 22);
    check(is_carried(bradovusc_carry_rule(stray_4, sizeof stray_4, out, sizeof out), 22, 2, 0), "22 is before 31", 22);
    check(out[0] == 7 && out[length - 2] == 7 && out[sizeof out - 1] == 7, "no byte changed", 41);
    check(is_carried(bradovusc_carry_rule(old_rule, sizeof old_rule, out, length), 0, 0, length), "just enough", (long)length);
    check(memcmp(out, new_rule, length) == 0 && out[length] == 7, "the new rule's bytes, and no more", (long)length);
    memset(out, 7, sizeof out);
    check(is_carried(bradovusc_carry_rule(new_rule, length, out, sizeof out), 0, 0, length), "nothing to add", (long)length);
    check(memcmp(out, new_rule, length) == 0 && out[length] == 7, "the same bytes, and no more", (long)length);
}

/* sheet and rule told in so many elements */
static void try_carried_told(void) {
    size_t told_length, i;
    for (told_length = 0; told_length <= 4; told_length++) {
        uint64_t told[] = {7, 7, 7, 7}, told_of_rule[] = {7, 7, 7, 7};
        const uint64_t expected[] = {0, 0, sizeof new_sheet, 7}, expected_of_rule[] = {0, 0, sizeof new_rule, 7};
        check(bradovusc_spell_open(old_sheet, sizeof old_sheet, out, sizeof out, told, told_length) == 0, "written", 0);
        check(bradovusc_spell_open_rule(old_rule, sizeof old_rule, out, sizeof out, told_of_rule, told_length) == 0, "written", 1);
        for (i = 0; i < 4; i++) {
            check(told[i] == (i < told_length ? expected[i] : 7), "an element of what is told", (long)i);
            check(told_of_rule[i] == (i < told_length ? expected_of_rule[i] : 7), "an element told of a rule", (long)i);
        }
    }
}

static void try_carry_catalogue(void) {
    static uint8_t catalogue[sizeof new_rule + 6 + 3], before[sizeof catalogue];
    size_t length = sizeof new_rule + 6;
    memcpy(catalogue, old_rule, sizeof old_rule);
    memcpy(catalogue + sizeof old_rule, rule_a, 6);
    memcpy(before, catalogue, sizeof catalogue);

    check(bradovusc_carry_catalogue(catalogue, length - 1) == 32, "a byte too few", 32);
    check(bradovusc_carry_catalogue(catalogue, sizeof old_rule + 6) == 32, "no byte behind the rules", 32);
    check(bradovusc_carry_catalogue(catalogue, sizeof old_rule - 1) == 34, "no catalogue", 34);
    check(memcmp(catalogue, before, sizeof catalogue) == 0, "no byte changed", 32);
    check(bradovusc_carry_catalogue(catalogue, length) == 0, "just enough", (long)length);
    check(memcmp(catalogue, new_rule, sizeof new_rule) == 0, "the first rule", 0);
    check(memcmp(catalogue + sizeof new_rule, rule_a, 6) == 0 && all_zero(catalogue + length, 3), "the second, and no more", 1);
    memcpy(before, catalogue, sizeof catalogue);
    check(bradovusc_carry_catalogue(catalogue, sizeof catalogue) == 0, "nothing to add", 0);
    check(memcmp(catalogue, before, sizeof catalogue) == 0, "the same bytes", 0);
    check(bradovusc_carry_catalogue(NULL, 0) == 0, "no byte, no rule", 0);
}

/* What rules of four tokens, each a field of its own, become: a field without a pattern takes 8 bytes more. */
static void try_carry_many(void) {
    static const uint8_t rule[] = {'R', 'U', 'L', 'E', 4, 64, 65, 66, 67};
    static uint8_t catalogue[BRADOVUSC_RULES * (9 + 4 * 8)];
    size_t i, field;
    for (i = 0; i < BRADOVUSC_RULES; i++) {
        memcpy(catalogue + 9 * i, rule, 9);
    }
    check(bradovusc_carry_catalogue(catalogue, sizeof catalogue - 1) == 32, "a byte too few", 32);
    check(memcmp(catalogue, rule, 9) == 0 && memcmp(catalogue + 9 * 31, rule, 9) == 0, "no byte changed", 32);
    check(bradovusc_carry_catalogue(catalogue, sizeof catalogue) == 0, "just enough", 0);
    for (i = 0; i < BRADOVUSC_RULES; i++) {
        const uint8_t *at = catalogue + 41 * i;
        check(memcmp(at, rule, 2) == 0 && memcmp(at + 34, rule + 2, 7) == 0, "mark and side", (long)i);
        for (field = 0; field < BRADOVUSC_RULE_FIELDS; field++) {
            const uint8_t record[] = {'P', 'A', (uint8_t)field, 4, 68, 65, 0, 42};
            check(memcmp(at + 2 + 8 * field, record, 8) == 0, "a pattern", (long)field);
        }
    }
}

/* ---- stray patterns */

/* Every function that reads a sheet or a rule refuses it, and changes nothing. */
static void try_strays(void) {
    static const uint8_t stray_4[] = {'R', 'U', 'P', 'A', 4, 1, 10, 'L', 'E', 1, 69};
    static const uint8_t behind[] = {'R', 'U', 'P', 'A', 4, 1, 10, 'L', 'E', 0, 0};
    static uint8_t catalogue[20], buffer[32], before[32];
    const uint8_t *sheet = stray_sheet;
    size_t length = sizeof stray_sheet, i;
    struct bradovusc_stepped stepped;
    struct bradovusc_played played;
    struct bradovusc_added added;
    memset(buffer, 7, sizeof buffer);
    memset(before, 7, sizeof before);

    check(is(bradovusc_ask(sheet, length, buffer, 32, buffer, 0), 22, 0, 5, 0), "a search", 22);
    check(is_decided(bradovusc_settle(sheet, length, buffer, 32, buffer, 0), 22, 0, 5, 0, 0), "deciding", 22);
    stepped = bradovusc_find_steps(sheet, length, buffer, 32, NULL, 0, NULL, 0);
    check(stepped.number == 22 && stepped.count == 0 && stepped.place == 5 && stepped.written == 0 && stepped.steps == 0, "its steps", 22);
    played = bradovusc_play_steps(sheet, length, before, 1, buffer, 32);
    check(played.number == 22 && played.place == 5 && played.written == 0, "22 is before 47", 22);
    played = bradovusc_find_way(sheet, length, before, 1, buffer, 32);
    check(played.number == 22 && played.place == 5 && played.written == 0, "22 is before 47, of texts", 22);
    check(is_plain(sheet, length, 1, 22, 5) && needs(sheet, length, 22, 5, 0), "plain rules", 22);
    check(is_scripted(bradovusc_write_script(sheet, length, buffer, 32), 22, 5, 0), "a script", 22);
    check(memcmp(buffer, before, sizeof buffer) == 0, "no byte changed", 22);

    added = bradovusc_enter(catalogue, sizeof catalogue, stray_rule, sizeof stray_rule, buffer, 32);
    check(is_added(added, 22, 0, 2, 0, 0), "a rule", 22);
    added = bradovusc_enter(catalogue, 1, stray_rule, sizeof stray_rule, buffer, 32);
    check(is_added(added, 22, 0, 2, 0, 0), "22 is before 32", 22);
    added = bradovusc_enter_decided(catalogue, sizeof catalogue, stray_4, sizeof stray_4, buffer, 32);
    check(is_added(added, 22, 0, 2, 0, 0), "22 is before 31", 22);
    added = bradovusc_enter(catalogue, sizeof catalogue, behind, sizeof behind, buffer, 32);
    check(is_added(added, 12, 0, 10, 0, 0), "12 is before 22", 12);
    check(all_zero(catalogue, sizeof catalogue), "nothing is added", 22);

    /* a catalogue with one is none */
    memcpy(catalogue, rule_a, 6);
    memcpy(catalogue + 6, stray_rule, sizeof stray_rule);
    memcpy(before, catalogue, sizeof catalogue);
    check(bradovusc_enter(catalogue, sizeof catalogue, rule_b, 6, buffer, 32).number == 34, "adding", 34);
    check(bradovusc_enter_decided(catalogue, sizeof catalogue, rule_b, 6, buffer, 32).number == 34, "adding, decided", 34);
    for (i = 0; i < 3; i++) {
        check(bradovusc_remove(catalogue, sizeof catalogue, i) == 34, "withdrawing", (long)i);
    }
    check(is_rechecked(bradovusc_check_again(catalogue, sizeof catalogue, buffer, 32, NULL, 0), 34, 0, 0), "checking again", 34);
    check(is_rechecked(bradovusc_check_again_decided(catalogue, sizeof catalogue, buffer, 32, NULL, 0), 34, 0, 0), "decided", 34);
    check(bradovusc_carry_catalogue(catalogue, sizeof catalogue) == 34, "carrying over", 34);
    check(memcmp(catalogue, before, sizeof catalogue) == 0, "no byte changed", 34);
    check(all_are(buffer, sizeof buffer, 7), "nothing was searched", 34);
}

static int is_mended(struct bradovusc_mended mended, uint32_t number, uint64_t place, uint64_t written) {
    return mended.number == number && mended.place == place && mended.written == written;
}

static void try_mend_sheet(void) {
    static const uint8_t one_more[] = {'P', 'A', 0, 1, 4, 'L', 'E', 0, 'R', 'I', 0, 0}, wrong[] = {'L', 'E', 2, 10, 72};
    /* fields 0 and 7 don't stand, field 1 stands in the right side only */
    static const uint8_t ends[] = {'E', 'D', 2, 'P', 'A', 0, 1, 'a', 'P', 'A', 1, 1, 'b',
                                   'P', 'A', 7, 1, 'c', 'L', 'E', 0, 'R', 'I', 1, 193};
    static const uint8_t mended_ends[] = {'E', 'D', 2, 'P', 'A', 1, 1, 'b', 'L', 'E', 0, 'R', 'I', 1, 193};
    size_t length = sizeof old_sheet, given = sizeof stray_sheet;
    memset(out, 7, sizeof out);

    check(is_mended(bradovusc_mend_sheet(stray_sheet, given, out, length - 1), 41, 0, 0), "a byte too few", 41);
    check(is_mended(bradovusc_mend_sheet(stray_sheet, given, NULL, 0), 41, 0, 0), "no output buffer", 41);
    check(is_mended(bradovusc_mend_sheet(NULL, 0, out, sizeof out), 11, 0, 0), "no sheet", 11);
    check(is_mended(bradovusc_mend_sheet(NULL, 0, NULL, 0), 11, 0, 0), "nothing at all", 11);
    check(is_mended(bradovusc_mend_sheet(one_more, sizeof one_more, out, sizeof out), 12, 11, 0), "a byte too many", 12);
    check(is_mended(bradovusc_mend_sheet(wrong, 5, NULL, 0), 17, 4, 0), "a fault is before 41", 17);
    check(is_mended(bradovusc_mend_sheet(stray_rule, sizeof stray_rule, out, sizeof out), 12, 0, 0), "a rule is no sheet", 12);
    check(out[0] == 7 && out[length - 2] == 7 && out[sizeof out - 1] == 7, "no byte changed", 41);
    check(is_mended(bradovusc_mend_sheet(stray_sheet, given, out, length), 0, 0, length), "just enough", (long)length);
    check(memcmp(out, old_sheet, length) == 0 && out[length] == 7, "the new sheet's bytes, and no more", (long)length);
    memset(out, 7, sizeof out);
    check(is_mended(bradovusc_mend_sheet(old_sheet, length, out, sizeof out), 0, 0, length), "nothing to drop", (long)length);
    check(memcmp(out, old_sheet, length) == 0 && out[length] == 7, "the same bytes, and no more", (long)length);
    length = sizeof mended_ends;
    memset(out, 7, sizeof out);
    check(is_mended(bradovusc_mend_sheet(ends, sizeof ends, out, sizeof out), 0, 0, length), "behind ED", (long)length);
    check(memcmp(out, mended_ends, length) == 0 && out[length] == 7, "its bytes, and no more", (long)length);
}

static void try_mend_rule(void) {
    static const uint8_t foreign_field[] = {'R', 'U', 'L', 'E', 1, 68}, no_token[] = {'R', 'U', 'L', 'E', 2, 68, 72};
    static const uint8_t stray_4[] = {'R', 'U', 'P', 'A', 4, 1, 10, 'L', 'E', 0};
    static const uint8_t behind[] = {'R', 'U', 'P', 'A', 4, 1, 10, 'L', 'E', 0, 0};
    size_t length = sizeof old_rule, given = sizeof stray_rule;
    memset(out, 7, sizeof out);

    check(is_mended(bradovusc_mend_rule(stray_rule, given, out, length - 1), 41, 0, 0), "a byte too few", 41);
    check(is_mended(bradovusc_mend_rule(stray_rule, given, NULL, 0), 41, 0, 0), "no output buffer", 41);
    check(is_mended(bradovusc_mend_rule(NULL, 0, out, sizeof out), 11, 0, 0), "no rule", 11);
    check(is_mended(bradovusc_mend_rule(NULL, 0, NULL, 0), 11, 0, 0), "nothing at all", 11);
    check(is_mended(bradovusc_mend_rule(no_token, 7, out, sizeof out), 17, 6, 0), "a fault is before 31", 17);
    check(is_mended(bradovusc_mend_rule(behind, sizeof behind, out, sizeof out), 12, 10, 0), "a byte too many", 12);
    check(is_mended(bradovusc_mend_rule(foreign_field, 6, NULL, 0), 31, 0, 0), "31 is before 41", 31);
    check(is_mended(bradovusc_mend_rule(stray_4, sizeof stray_4, out, sizeof out), 31, 0, 0), "a stray pattern's field too", 31);
    check(is_mended(bradovusc_mend_rule(stray_sheet, sizeof stray_sheet, out, sizeof out), 12, 0, 0), "a sheet is no rule", 12);
    check(out[0] == 7 && out[length - 2] == 7 && out[sizeof out - 1] == 7, "no byte changed", 41);
    check(is_mended(bradovusc_mend_rule(stray_rule, given, out, length), 0, 0, length), "just enough", (long)length);
    check(memcmp(out, old_rule, length) == 0 && out[length] == 7, "the new rule's bytes, and no more", (long)length);
    memset(out, 7, sizeof out);
    check(is_mended(bradovusc_mend_rule(new_rule, sizeof new_rule, out, sizeof out), 0, 0, sizeof new_rule), "nothing to drop", 0);
    check(memcmp(out, new_rule, sizeof new_rule) == 0 && out[sizeof new_rule] == 7, "the same bytes, and no more", 0);
}

/* sheet and rule told in so many elements */
static void try_mended_told(void) {
    size_t told_length, i;
    for (told_length = 0; told_length <= 4; told_length++) {
        uint64_t told[] = {7, 7, 7, 7}, told_of_rule[] = {7, 7, 7, 7};
        const uint64_t expected[] = {0, 0, sizeof old_sheet, 7}, expected_of_rule[] = {0, 0, sizeof old_rule, 7};
        check(bradovusc_drop_strays(stray_sheet, sizeof stray_sheet, out, sizeof out, told, told_length) == 0, "written", 0);
        check(bradovusc_drop_strays_rule(stray_rule, sizeof stray_rule, out, sizeof out, told_of_rule, told_length) == 0, "written", 1);
        for (i = 0; i < 4; i++) {
            check(told[i] == (i < told_length ? expected[i] : 7), "an element of what is told", (long)i);
            check(told_of_rule[i] == (i < told_length ? expected_of_rule[i] : 7), "an element told of a rule", (long)i);
        }
    }
}

/* The first and the last rule have a stray pattern, the one between has none. */
static void try_mend_catalogue(void) {
    static const uint8_t last[] = {'R', 'U', 'P', 'A', 0, 1, 10, 'P', 'A', 3, 1, 10, 'L', 'E', 1, 64};
    static const uint8_t mended_last[] = {'R', 'U', 'P', 'A', 0, 1, 10, 'L', 'E', 1, 64};
    static uint8_t catalogue[sizeof stray_rule + 6 + sizeof last + 3], before[sizeof catalogue];
    size_t rules = sizeof catalogue - 3, second = sizeof old_rule, third = second + 6, length = third + sizeof mended_last;
    memcpy(catalogue, stray_rule, sizeof stray_rule);
    memcpy(catalogue + sizeof stray_rule, rule_a, 6);
    memcpy(catalogue + sizeof stray_rule + 6, last, sizeof last);
    memcpy(before, catalogue, sizeof catalogue);

    check(bradovusc_mend_catalogue(catalogue, rules - 1) == 34, "no catalogue", 34);
    catalogue[rules + 1] = 1;
    check(bradovusc_mend_catalogue(catalogue, sizeof catalogue) == 34, "a byte behind it that is not zero", 34);
    catalogue[rules + 1] = 0;
    check(memcmp(catalogue, before, sizeof catalogue) == 0, "no byte changed", 34);
    check(bradovusc_mend_catalogue(catalogue, rules) == 0, "no byte behind the rules", 0);
    check(memcmp(catalogue, old_rule, second) == 0 && memcmp(catalogue + second, rule_a, 6) == 0, "the first two rules", 1);
    check(memcmp(catalogue + third, mended_last, sizeof mended_last) == 0, "the third", 2);
    check(all_zero(catalogue + length, sizeof catalogue - length), "zeros behind them", (long)length);
    memcpy(before, catalogue, sizeof catalogue);
    check(bradovusc_mend_catalogue(catalogue, sizeof catalogue) == 0, "nothing to drop", 0);
    check(memcmp(catalogue, before, sizeof catalogue) == 0, "the same bytes", 0);
    check(bradovusc_remove(catalogue, sizeof catalogue, 3) == 33, "it is a catalogue of three rules", 33);
    check(bradovusc_mend_catalogue(NULL, 0) == 0, "no byte, no rule", 0);
    /* a pattern of field 4 is stray, and the field foreign */
    memset(catalogue, 0, sizeof catalogue);
    memcpy(catalogue, stray_rule, sizeof stray_rule);
    catalogue[4] = 4;
    check(bradovusc_mend_catalogue(catalogue, sizeof catalogue) == 34, "a stray pattern of field 4", 34);
}

/* ---- texts that are spelt and read back */

static int is_spelt(struct bradovusc_spelt spelt, uint32_t number, uint64_t written) {
    return spelt.number == number && spelt.written == written;
}

/* a1$ and DEL: +A 1 /D %T */
static const uint8_t text[] = {'a', '1', '$', 127}, spelling[] = {41, 10, 1, 40, 13, 42, 29};

static void try_spell(void) {
    static const uint8_t above[] = {'a', 128};
    uint8_t to[9];
    memset(to, 7, sizeof to);
    check(is_spelt(bradovusc_spell_text(text, 4, NULL, 0), 46, 0), "no output buffer", 46);
    check(is_spelt(bradovusc_spell_text(text, 4, to, 6), 46, 0), "a byte too few", 46);
    check(is_spelt(bradovusc_spell_text(above, 2, NULL, 0), 45, 0), "45 is before 46", 45);
    check(is_spelt(bradovusc_spell_text(above, 2, to, sizeof to), 45, 0), "a byte above 127", 45);
    check(to[0] == 7 && to[5] == 7 && to[8] == 7, "no byte changed", 46);
    check(is_spelt(bradovusc_spell_text(NULL, 0, NULL, 0), 0, 0), "nothing at all", 0);
    check(is_spelt(bradovusc_spell_text(text, 4, to, 7), 0, 7), "just enough", 7);
    check(memcmp(to, spelling, 7) == 0 && to[7] == 7, "the values, and no more", 7);
    check(BRADOVUSC_SPELT_BYTES(sizeof text) == 8, "always enough", 8);
}

static void try_read_back(void) {
    static const uint8_t lone[] = {10, 42}, not_taken[] = {42, 33}, above[] = {43};
    uint8_t to[5];
    memset(to, 7, sizeof to);
    check(is_spelt(bradovusc_read_back(spelling, 7, NULL, 0), 46, 0), "no output buffer", 46);
    check(is_spelt(bradovusc_read_back(spelling, 7, to, 3), 46, 0), "a byte too few", 46);
    check(is_spelt(bradovusc_read_back(lone, 2, NULL, 0), 45, 0), "45 is before 46", 45);
    check(is_spelt(bradovusc_read_back(lone, 2, to, sizeof to), 45, 0), "a lone shift sign", 45);
    check(is_spelt(bradovusc_read_back(not_taken, 2, to, sizeof to), 45, 0), "%X", 45);
    check(is_spelt(bradovusc_read_back(above, 1, to, sizeof to), 45, 0), "a value above 42", 45);
    check(to[0] == 7 && to[2] == 7 && to[4] == 7, "no byte changed", 46);
    check(is_spelt(bradovusc_read_back(NULL, 0, NULL, 0), 0, 0), "nothing at all", 0);
    check(is_spelt(bradovusc_read_back(spelling, 7, to, 4), 0, 4), "just enough", 4);
    check(memcmp(to, text, 4) == 0 && to[4] == 7, "the characters, and no more", 4);
}

/* told in so many elements */
static void try_spelt_told(void) {
    size_t told_length, i;
    for (told_length = 0; told_length <= 4; told_length++) {
        uint64_t told[] = {7, 7, 7, 7}, told_back[] = {7, 7, 7, 7};
        const uint64_t expected[] = {0, 0, 7, 7}, expected_back[] = {0, 0, 4, 7};
        uint8_t to[8];
        check(bradovusc_spell(text, 4, to, sizeof to, told, told_length) == 0, "spelt", (long)told_length);
        check(bradovusc_read_spelt(spelling, 7, to, sizeof to, told_back, told_length) == 0, "read back", (long)told_length);
        for (i = 0; i < 4; i++) {
            check(told[i] == (i < told_length ? expected[i] : 7), "an element of what is told", (long)i);
            check(told_back[i] == (i < told_length ? expected_back[i] : 7), "an element of what is told", (long)i);
        }
    }
}

/* Sides told apart by what is fixed in them: L, T and a field, L, U and a field, and a field and 4, with a space behind it too. */
static void try_fronts(void) {
    static const uint8_t lt[] = {21, 29, 64}, lu[] = {21, 30, 64}, four[] = {65, 4}, five[] = {65, 5, 38}, none[] = {21, 255};
    check(bradovusc_tell_apart(0, lt, sizeof lt, lu, sizeof lu) == 1, "fronts that differ", 1);
    check(bradovusc_tell_apart(0, lt, sizeof lt, lt, sizeof lt) == 0, "the same side", 0);
    check(bradovusc_tell_apart(0, lt, sizeof lt, four, sizeof four) == 0, "a field in front", 0);
    check(bradovusc_tell_apart(0, four, 2, five, 2) == 1, "ends that differ", 2);
    check(bradovusc_tell_apart(0, four, 2, five, 3) == 0, "a space at an end", 3);
    check(bradovusc_tell_apart(0, lu + 1, 1, none, 1) == 1, "a token", 1);
    check(bradovusc_tell_apart(0, lu + 1, 1, none, 2) == 0, "a byte that is no token", 2);
    check(bradovusc_tell_apart(0, NULL, 0, NULL, 0) == 0, "nothing at all", 0);
    check(bradovusc_tell_apart(0, NULL, 0, lt, sizeof lt) == 0, "one side", 1);
    check(bradovusc_tell_apart(2, lt, sizeof lt, lu, sizeof lu) == 1, "Full ASCII", 2);
    check(bradovusc_tell_apart(0, lt, sizeof lt, lt, 2) == 0, "the one goes on", 2);
    check(bradovusc_tell_apart(1, lt, sizeof lt, lu, sizeof lu) == 0, "no edition", 1);
    check(bradovusc_tell_apart(SIZE_MAX, lt, sizeof lt, lu, sizeof lu) == 0, "no edition", -1);
}

int main(void) {
    char version[64];
    snprintf(version, sizeof version, "%d.%d.%d", BRADOVUSC_VERSION_MAJOR, BRADOVUSC_VERSION_MINOR, BRADOVUSC_VERSION_PATCH);
    check(strcmp(version, BRADOVUSC_VERSION) == 0, "the version's string", 0);
    check(bradovusc_version() == BRADOVUSC_VERSION_NUMBER, "the version that the library tells", bradovusc_version());
    check(BRADOVUSC_WORK_BYTES(356) == 65504, "356 situations of work", 356);
    check(BRADOVUSC_ANSWER_BYTES(356) == 2888, "an answer buffer for them", 356);
    check(BRADOVUSC_CATALOGUE_BYTES(32) == 26016, "a catalogue of 32 rules", 32);
    check(BRADOVUSC_LIST_BYTES(32) == 2480, "a list of their pairs", 32);
    check(BRADOVUSC_SCRIPT_BYTES == 280000, "a script", 280000);
    check(BRADOVUSC_SHEET_BYTES == 3 + BRADOVUSC_FIELDS * (4 + 192) + 2 * (3 + 24), "a sheet", 1625);
    check(BRADOVUSC_PLAIN_BYTES == (279 * 279 + 7) / 8, "a bit buffer", 9731);
    check(BRADOVUSC_RULE_BYTES == 2 + BRADOVUSC_RULE_FIELDS * (4 + 192) + (3 + 24), "a rule", 813);
    check(BRADOVUSC_DECIDED_LIST_BYTES(32) == 3472 && BRADOVUSC_DECIDED_LIST_BYTES(2) == 7, "a list of decided pairs", 32);
    check(BRADOVUSC_LIST_BYTES(2) == 5 && BRADOVUSC_LIST_BYTES(1) == 0 && BRADOVUSC_LIST_BYTES(0) == 0, "of fewer rules", 2);
    try_texts();
    try_signs();
    try_records();
    try_pairs();
    try_decided_pairs();
    try_null();
    try_attempts();
    try_decide();
    try_places();
    try_full_ascii();
    try_script();
    try_longest_script();
    try_catalogue();
    try_catalogue_of_nothing();
    try_told();
    try_recheck();
    try_rechecked_told();
    try_longest_list();
    try_longest_rules();
    try_add_decided();
    try_decided_told();
    try_recheck_decided();
    try_recheck_serials();
    try_longest_decided_list();
    try_write();
    try_write_edition();
    try_write_told();
    try_write_places();
    try_longest_sheet();
    try_steps();
    try_steps_told();
    try_play();
    try_way();
    try_long_way();
    try_way_of_decided();
    try_most_steps();
    try_walk_over_steps();
    try_plain();
    try_plain_told();
    try_most_bits();
    try_carry_sheet();
    try_carry_rule();
    try_carried_told();
    try_spell();
    try_fronts();
    try_read_back();
    try_spelt_told();
    try_carry_catalogue();
    try_carry_many();
    try_strays();
    try_mend_sheet();
    try_mend_rule();
    try_mended_told();
    try_mend_catalogue();
    printf("%u checks, %u failed\n", checks, failed);
    return failed == 0 ? EXIT_SUCCESS : EXIT_FAILURE;
}
