/*
 * Does a stream of operations on a catalogue, as the program `second --calls` does.
 *
 * An operation is a mark and what follows it, numbers with their low byte first:
 *
 *   AD  length in two bytes, that many bytes               add this rule
 *   WI  one byte                                           withdraw the rule with this number
 *   CA  length in two bytes, another, that many bytes      the catalogue is now a buffer of the first length: these bytes, then zeros
 *   WO  length in four bytes                               from now on so many bytes of work are lent to each AD, AE, RE and RD
 *   RE  length in two bytes                                check all pairs again, with a list buffer of so many bytes
 *   AE  length in two bytes, that many bytes               add this rule, each pair decided
 *   RD  length in two bytes                                check all pairs again, each decided, with a list buffer of so many bytes
 *   SO                                                     carry all rules over
 *   DS                                                     drop the strays of all rules
 *
 * The stream ends where it ends, where an operation is cut short, has another mark or asks for more than is allowed. The line of AD,
 * AE, WI, RE, RD, SO or DS is what is told, and every byte of the catalogue: those up to the last that is not zero one by one, the
 * zeros by their number; for RE and RD before it the list buffer likewise; for AD, AE, RE and RD the working buffer too, in a word
 * where it is as it was lent, or all zero, and one by one where it is neither.
 */
#include <inttypes.h>
#include <stdio.h>
#include <stdlib.h>

#include "bradovusc.h"
#include "streams.h"

enum {
    LONGEST_CATALOGUE = 8192,
    WORK = 65520,
    MOST_WORK = 65687,
    LONGEST_LIST = 2560,
    LONGEST_DECIDED_LIST = 3584,
    LIST_FILL = 165
};

static uint8_t *catalogue;
static size_t catalogue_length, work_length;

static bool next(uint8_t *bytes, size_t length) { return fread(bytes, 1, length, stdin) == length; }

/* A number of so many bytes, at most 4. */
static bool next_number(size_t length, size_t *number) {
    uint8_t bytes[4];
    if (!next(bytes, length)) {
        return false;
    }
    *number = low_first(bytes, length);
    return true;
}

static void print_buffer(const char *name, const uint8_t *buffer, size_t length) {
    size_t front = length;
    while (front > 0 && buffer[front - 1] == 0) {
        front--;
    }
    printf(", %s", name);
    print_each(buffer, front);
    printf(", zeros %zu", length - front);
}

static void print_catalogue(void) { print_buffer("catalogue", catalogue, catalogue_length); }

static void add(const uint8_t *rule, size_t rule_length, bool decided) {
    uint8_t *work = lend(work_length, WORK_FILL);
    uint64_t told[BRADOVUSC_ADDED_DECIDED_TOLD];
    uint32_t number =
        decided ? bradovusc_add_decided(catalogue, catalogue_length, rule, rule_length, work, work_length, told,
                                        BRADOVUSC_ADDED_DECIDED_TOLD)
                : bradovusc_add(catalogue, catalogue_length, rule, rule_length, work, work_length, told, BRADOVUSC_ADDED_TOLD);
    printf("%s %" PRIu32 " %" PRIu64 " %" PRIu64 " %" PRIu64 " %" PRIu64, decided ? "add_decided" : "add", number,
           told[BRADOVUSC_ADDED_COUNT], told[BRADOVUSC_ADDED_PLACE], told[BRADOVUSC_ADDED_RULE], told[BRADOVUSC_ADDED_PAIR]);
    if (decided) {
        printf(" %" PRIu64, told[BRADOVUSC_ADDED_SEARCH]);
    }
    print_catalogue();
    print_work(work, work_length);
    putchar('\n');
    free(work);
}

static bool next_add(bool decided) {
    size_t length;
    if (!next_number(2, &length)) {
        return false;
    }
    uint8_t *rule = lend(length, 0);
    bool whole = next(rule, length);
    if (whole) {
        add(rule, length, decided);
    }
    free(rule);
    return whole;
}

static bool next_withdraw(void) {
    size_t number;
    if (!next_number(1, &number)) {
        return false;
    }
    printf("withdraw %" PRIu32, bradovusc_withdraw(catalogue, catalogue_length, number));
    print_catalogue();
    putchar('\n');
    return true;
}

static bool next_catalogue(void) {
    size_t length, front;
    if (!next_number(2, &length) || !next_number(2, &front) || length > LONGEST_CATALOGUE || front > length) {
        return false;
    }
    free(catalogue);
    catalogue = lend(length, 0);
    catalogue_length = length;
    return next(catalogue, front);
}

static bool next_work(void) { return next_number(4, &work_length) && work_length <= MOST_WORK; }

static bool next_recheck(bool decided) {
    size_t length;
    if (!next_number(2, &length) || length > (decided ? LONGEST_DECIDED_LIST : LONGEST_LIST)) {
        return false;
    }
    uint8_t *work = lend(work_length, WORK_FILL);
    uint8_t *list = lend(length, LIST_FILL);
    uint64_t told[BRADOVUSC_RECHECKED_TOLD];
    uint32_t number = decided ? bradovusc_recheck_decided(catalogue, catalogue_length, work, work_length, list, length, told,
                                                          BRADOVUSC_RECHECKED_TOLD)
                              : bradovusc_recheck(catalogue, catalogue_length, work, work_length, list, length, told,
                                                  BRADOVUSC_RECHECKED_TOLD);
    printf("%s %" PRIu32 " %" PRIu64 " %" PRIu64, decided ? "recheck_decided" : "recheck", number,
           told[BRADOVUSC_RECHECKED_PAIRS], told[BRADOVUSC_RECHECKED_WRITTEN]);
    print_buffer("list", list, length);
    print_catalogue();
    print_work(work, work_length);
    putchar('\n');
    free(work);
    free(list);
    return true;
}

static bool carry(void) {
    printf("carry %" PRIu32, bradovusc_spell_open_catalogue(catalogue, catalogue_length));
    print_catalogue();
    putchar('\n');
    return true;
}

static bool drop(void) {
    printf("drop %" PRIu32, bradovusc_drop_strays_catalogue(catalogue, catalogue_length));
    print_catalogue();
    putchar('\n');
    return true;
}

static bool next_operation(void) {
    uint8_t mark[2];
    if (!next(mark, 2)) {
        return false;
    }
    switch (256 * mark[0] + mark[1]) {
    case 256 * 'A' + 'D':
        return next_add(false);
    case 256 * 'A' + 'E':
        return next_add(true);
    case 256 * 'W' + 'I':
        return next_withdraw();
    case 256 * 'C' + 'A':
        return next_catalogue();
    case 256 * 'W' + 'O':
        return next_work();
    case 256 * 'R' + 'E':
        return next_recheck(false);
    case 256 * 'R' + 'D':
        return next_recheck(true);
    case 256 * 'S' + 'O':
        return carry();
    case 256 * 'D' + 'S':
        return drop();
    default:
        return false;
    }
}

int main(void) {
    catalogue = lend(LONGEST_CATALOGUE, 0);
    catalogue_length = LONGEST_CATALOGUE;
    work_length = WORK;
    while (next_operation()) {
    }
    free(catalogue);
    return EXIT_SUCCESS;
}
