/*
 * tools/stack.c: how many bytes of stack each function of the library takes, for tools/stack; the exit status is 1 where one takes more than the C
 * header says. Each is called on a stack of its own, every byte of
 * which was written before: the bytes below the lowest that has changed were not needed.
 *
 * The sheet and the rule have the deepest pattern that there is, 191 times "any number of times" and a character, on a field that stands twice.
 * The room is for one situation, so that deciding makes every attempt.
 */
#define _GNU_SOURCE
#include <ucontext.h>

#include "../foreign/c/streams.h"

enum { STACK = 1 << 20, FILL = 165, MOST = 8192, LONGEST = 192, MANY = 68, MANY_SECOND = 196, SITUATIONS = 300 };

/* "at most about 140 KiB", "about 120" and "the others about 105", as the C header says. */
enum { DEEPEST = 140 * 1024, DEEP = 120 * 1024, OTHERS = 105 * 1024 };

static uint8_t sheet[LONGEST + 32], rule[LONGEST + 32], other[] = {'R', 'U', 'L', 'E', 3, 10, 4, 10};
static uint8_t catalogue[MOST], work[BRADOVUSC_WORK_BYTES(SITUATIONS)], answer[MOST], steps[BRADOVUSC_STEPS_BYTES(SITUATIONS)], texts[MOST];
static uint8_t out[MOST];
static uint64_t told[BRADOVUSC_ADDED_DECIDED_TOLD];
static size_t sheet_length, rule_length, steps_length, texts_length;
static const size_t one = BRADOVUSC_WORK_BYTES(1), count = sizeof told / sizeof *told;

static size_t put(uint8_t *to, size_t at, const void *bytes, size_t length) {
    memcpy(to + at, bytes, length);
    return at + length;
}

/* The pattern's record, and the side x4x behind it. */
static size_t put_deep(uint8_t *to, size_t at) {
    uint8_t pattern[LONGEST];
    memset(pattern, MANY, LONGEST);
    pattern[LONGEST - 1] = 10;
    at = put(to, at, "PA\0\300", 4);
    at = put(to, at, pattern, LONGEST);
    return put(to, at, "LE\3\100\4\100", 6);
}

static uint32_t clash(void) { return bradovusc_clash(sheet, sheet_length, work, one, answer, MOST, told, count); }
static uint32_t decide(void) { return bradovusc_decide(sheet, sheet_length, work, one, answer, MOST, told, count); }
static uint32_t search_steps(void) {
    return bradovusc_steps(sheet, sheet_length, work, one, answer, MOST, steps, sizeof steps, told, count);
}
static uint32_t play(void) { return bradovusc_play(sheet, sheet_length, steps, steps_length, answer, MOST, told, count); }
static uint32_t way(void) { return bradovusc_way(sheet, sheet_length, texts, texts_length, out, MOST, told, count); }
static uint32_t plain(void) { return bradovusc_plain(sheet, sheet_length, out, MOST, told, count); }
static uint32_t plain_bytes(void) { return bradovusc_plain_bytes(sheet, sheet_length, told, count); }
static uint32_t script(void) { return bradovusc_script(sheet, sheet_length, out, MOST, told, count); }
static uint32_t write_one(void) {
    uint64_t lengths[] = {LONGEST};
    return bradovusc_write(sheet + 4, LONGEST, lengths, 1, (const uint8_t *)"\100\4\100", 3, other + 5, 3, out, MOST, told, count);
}
static uint32_t write_second(void) {
    uint8_t pattern[LONGEST];
    uint64_t lengths[] = {LONGEST};
    memset(pattern, MANY_SECOND, LONGEST);
    pattern[LONGEST - 1] = 10;
    return bradovusc_write_edition(2, pattern, LONGEST, lengths, 1, (const uint8_t *)"\300\4\300", 3, other + 5, 3, out, MOST, told, count);
}
static uint32_t add(void) { return bradovusc_add(catalogue, MOST, rule, rule_length, work, one, told, count); }
static uint32_t add_decided(void) { return bradovusc_add_decided(catalogue, MOST, rule, rule_length, work, one, told, count); }
static uint32_t recheck(void) { return bradovusc_recheck(catalogue, MOST, work, one, out, MOST, told, count); }
static uint32_t recheck_decided(void) { return bradovusc_recheck_decided(catalogue, MOST, work, one, out, MOST, told, count); }
static uint32_t withdraw(void) { return bradovusc_withdraw(catalogue, MOST, 0); }
static uint32_t spell_open(void) { return bradovusc_spell_open(sheet, sheet_length, out, MOST, told, count); }
static uint32_t spell_open_rule(void) { return bradovusc_spell_open_rule(rule, rule_length, out, MOST, told, count); }
static uint32_t spell_open_catalogue(void) { return bradovusc_spell_open_catalogue(catalogue, MOST); }
static uint32_t drop_strays(void) { return bradovusc_drop_strays(sheet, sheet_length, out, MOST, told, count); }
static uint32_t drop_strays_rule(void) { return bradovusc_drop_strays_rule(rule, rule_length, out, MOST, told, count); }
static uint32_t drop_strays_catalogue(void) { return bradovusc_drop_strays_catalogue(catalogue, MOST); }
static uint32_t spell(void) { return bradovusc_spell(other, sizeof other, out, MOST, told, count); }
static uint32_t read_spelt(void) { return bradovusc_read_spelt(other + 5, 3, out, MOST, told, count); }
static uint32_t fronts_differ(void) { return bradovusc_fronts_differ(0, sheet + 4 + LONGEST, 6, other + 5, 3); }
static uint32_t version(void) { return bradovusc_version(); }

/* What is called, how many rules the catalogue has before, which number is to come back, so that a call that did nothing is seen, and how much
 * stack the header allows it. */
static const struct called {
    const char *name;
    uint32_t (*call)(void);
    int rules;
    uint32_t number;
    size_t most;
} all_calls[] = {
    {"bradovusc_clash", clash, 0, BRADOVUSC_NO_ROOM, OTHERS},
    {"bradovusc_decide", decide, 0, BRADOVUSC_NO_ROOM, OTHERS},
    {"bradovusc_steps", search_steps, 0, BRADOVUSC_NO_ROOM, OTHERS},
    {"bradovusc_play", play, 0, 0, OTHERS},
    {"bradovusc_way", way, 0, 0, OTHERS},
    {"bradovusc_plain", plain, 0, 42, OTHERS},
    {"bradovusc_plain_bytes", plain_bytes, 0, 42, OTHERS},
    {"bradovusc_script", script, 0, 0, OTHERS},
    {"bradovusc_write", write_one, 0, 0, OTHERS},
    {"bradovusc_write_edition", write_second, 0, 0, OTHERS},
    {"bradovusc_add", add, 1, 30, OTHERS},
    {"bradovusc_add_decided", add_decided, 1, 30, DEEPEST},
    {"bradovusc_recheck", recheck, 2, 0, DEEP},
    {"bradovusc_recheck_decided", recheck_decided, 2, 0, DEEP},
    {"bradovusc_withdraw", withdraw, 2, 0, OTHERS},
    {"bradovusc_spell_open", spell_open, 0, 0, OTHERS},
    {"bradovusc_spell_open_rule", spell_open_rule, 0, 0, OTHERS},
    {"bradovusc_spell_open_catalogue", spell_open_catalogue, 2, 0, DEEP},
    {"bradovusc_drop_strays", drop_strays, 0, 0, OTHERS},
    {"bradovusc_drop_strays_rule", drop_strays_rule, 0, 0, OTHERS},
    {"bradovusc_drop_strays_catalogue", drop_strays_catalogue, 2, 0, DEEP},
    {"bradovusc_spell", spell, 0, 0, OTHERS},
    {"bradovusc_read_spelt", read_spelt, 0, 0, OTHERS},
    {"bradovusc_fronts_differ", fronts_differ, 0, 0, OTHERS},
    {"bradovusc_version", version, 0, 0, OTHERS},
};

static ucontext_t here, there;
static const struct called *called;
static uint32_t number;

static void run(void) { number = called->call(); }

static size_t taken(uint8_t *stack) {
    memset(stack, FILL, STACK);
    getcontext(&there);
    there.uc_stack.ss_sp = stack;
    there.uc_stack.ss_size = STACK;
    there.uc_link = &here;
    makecontext(&there, run, 0);
    swapcontext(&here, &there);
    size_t free_bytes = 0;
    while (free_bytes < STACK && stack[free_bytes] == FILL) {
        free_bytes++;
    }
    return STACK - free_bytes;
}

int main(void) {
    sheet_length = put(sheet, put_deep(sheet, 0), "RI\3\12\4\12", 6);
    rule_length = put_deep(rule, put(rule, 0, "RU", 2));
    if (bradovusc_steps(sheet, sheet_length, work, sizeof work, texts, MOST, steps, sizeof steps, told, count) != BRADOVUSC_CLASH) {
        fputs("the deepest sheet is no clash\n", stderr);
        return EXIT_FAILURE;
    }
    texts_length = told[2];
    steps_length = told[BRADOVUSC_STEPS_WRITTEN];
    uint8_t *stack = lend(STACK, FILL);
    bool right = true;
    for (size_t i = 0; i < sizeof all_calls / sizeof *all_calls; i++) {
        called = &all_calls[i];
        memset(catalogue, 0, MOST);
        size_t at = called->rules > 0 ? put(catalogue, 0, other, sizeof other) : 0;
        if (called->rules > 1) {
            put(catalogue, at, rule, rule_length);
        }
        size_t bytes = taken(stack);
        printf("%-32s %6zu\n", called->name, bytes);
        if (called->call != version && number != called->number) {
            printf("%s gave %" PRIu32 " and not %" PRIu32 "\n", called->name, number, called->number);
            right = false;
        }
        if (bytes > called->most) {
            printf("%s takes more than the C header says\n", called->name);
            right = false;
        }
    }
    free(stack);
    return right ? EXIT_SUCCESS : EXIT_FAILURE;
}
