/*
 * Bradovusc for C: can two part-label rules make the same label?
 *
 * A rule is fixed Code 39 characters with fields between them; a field may have a pattern. Two rules clash when one label can be
 * read by both. Spaces at the end of a label are dropped before it is read, so LT4 and LT4 with a space are the same label. The two
 * rules stand on a question sheet; the answer is a number, and after a clash a text for each field. One search answers it, or up to
 * seven attempts, which decide more. The one search can write the way to its clash too, step by step; texts of a clash from anywhere
 * get their way too, unless a side grows too long on it; and any such way can be played again.
 * Where no field stands twice, a small engine says clash or no clash in at most 9,731 bytes. The sheet is written from the two sides
 * and the patterns; where one of them is wrong, its place is told. Most pairs of rules differ in what is fixed at their fronts or
 * ends, which is told from the two sides alone.
 * A field has a number on the sheet. One that stands on both sides is one field, shared: it holds the same text in both rules. Two
 * rules with a field each have two numbers. bradovusc_asking.h asks about rules as text, whose fields are their own.
 * A catalogue has up to 32 rules in one buffer. A rule is added only if it clashes with none that is there; it can be withdrawn. One
 * that was kept can be checked again, pair by pair. A pair is asked by one search, or by up to seven attempts, which enter more
 * rules.
 * A sheet can be written out as a script for string solvers, in SMT-LIB 2.6.
 * A text of Full ASCII, 128 characters, can be spelt in the 43 of Code 39, and read back. A sheet may be one of Full ASCII: then
 * its rules have these 128 characters, and the texts of a clash can be spelt.
 * Up to version 0.5 a field without a pattern could be empty. Since 0.6 it holds one character or more. Sheets, rules and catalogues
 * from before can be carried over: they then mean what they meant.
 * Up to version 0.6 a pattern had at most 96 bytes and 31 leaves. Since 0.7 it may have 192 bytes and 63 leaves, and a situation
 * takes 184 bytes where it took 144. What was good before is good and means the same.
 * Up to version 0.8 a sheet or a rule could have a stray pattern, one for a field that does not stand. Now it is refused. Strays can
 * be dropped from sheets, rules and catalogues from before: every answer about them stays as it was.
 *
 * The static library libbradovusc.a, for x86-64 Linux, defines twenty-five functions: bradovusc_clash, bradovusc_decide,
 * bradovusc_steps, bradovusc_play, bradovusc_way, bradovusc_plain, bradovusc_plain_bytes, bradovusc_write, bradovusc_write_edition,
 * bradovusc_spell, bradovusc_read_spelt, bradovusc_script, bradovusc_add, bradovusc_add_decided, bradovusc_withdraw,
 * bradovusc_recheck, bradovusc_recheck_decided, bradovusc_spell_open, bradovusc_spell_open_rule, bradovusc_spell_open_catalogue,
 * bradovusc_drop_strays, bradovusc_drop_strays_rule, bradovusc_drop_strays_catalogue, bradovusc_fronts_differ and bradovusc_version.
 * They keep nothing from one call to the next, ask for no memory, and touch nothing but what they are lent, so calls in several
 * threads don't meet. bradovusc_add_decided takes at most about 140 KiB of stack, bradovusc_recheck_decided, bradovusc_recheck,
 * bradovusc_spell_open_catalogue and bradovusc_drop_strays_catalogue about 120, the others about 105; 132, 117, 108, 112, 112 and 99
 * were measured, 97 of bradovusc_way, 82 of bradovusc_decide and 63 of bradovusc_clash, bradovusc_steps and bradovusc_play. So a
 * thread with 128 KiB is enough for all but the first, and one with 256 KiB for that.
 * All else is in this header:
 * bradovusc_ask, bradovusc_settle, bradovusc_find_steps, bradovusc_play_steps, bradovusc_find_way, bradovusc_ask_plain,
 * bradovusc_measure_plain, bradovusc_write_sheet, bradovusc_write_sheet_edition, bradovusc_spell_text, bradovusc_read_back,
 * bradovusc_write_script, bradovusc_enter, bradovusc_enter_decided, bradovusc_remove, bradovusc_check_again,
 * bradovusc_check_again_decided, bradovusc_carry_sheet, bradovusc_carry_rule, bradovusc_carry_catalogue, bradovusc_mend_sheet,
 * bradovusc_mend_rule, bradovusc_mend_catalogue and bradovusc_tell_apart call them with any buffers, bradovusc_text,
 * bradovusc_catalogue_text and bradovusc_way_text say a number in words, bradovusc_next walks the texts of a clash,
 * bradovusc_next_step the steps of its way, bradovusc_next_pair the pairs that were listed, bradovusc_sign and bradovusc_value go
 * between values and signs.
 *
 * The header is C99 and C++11. The rules in full: docs/RULES.md.
 */
#ifndef BRADOVUSC_H
#define BRADOVUSC_H

#include <stddef.h>
#include <stdint.h>

/* The version of this header, of the library and of the Rust package. It rises where one of them, or a rule, changes for callers. */
#define BRADOVUSC_VERSION_MAJOR 0
#define BRADOVUSC_VERSION_MINOR 8
#define BRADOVUSC_VERSION_PATCH 0
#define BRADOVUSC_VERSION "0.8.0"

/* The same as one number: 1.2.3 would be 10203. */
#define BRADOVUSC_VERSION_NUMBER (BRADOVUSC_VERSION_MAJOR * 10000 + BRADOVUSC_VERSION_MINOR * 100 + BRADOVUSC_VERSION_PATCH)

#ifdef __cplusplus
extern "C" {
#endif

/* The version of the library that is called, as one number: BRADOVUSC_VERSION_NUMBER, unless the header is another version's. */
uint32_t bradovusc_version(void);

/*
 * The number of an answer. What is said of 11 to 17 holds for 22 too, which says that a pattern is stray, and comes behind them. Of a
 * sheet it holds for 44 too, which says that its edition is none. Where strays are dropped, 22 never comes.
 *
 * Of a sheet, 0 and 1 settle the question. So does 20: the rules clash, but the texts couldn't be written. 18 and 19 are
 * neither yes nor no. 11 to 17 say what is wrong with the sheet: the first fault met, whose byte is told as its place.
 *
 * Of a sheet whose way is written too, 51 settles the question as 20 does: the rules clash, but the steps couldn't be written. Of a way
 * that is played, 0 and 20 say that the rules clash, 11 to 17 what is wrong with the sheet, and 47 to 50 and 19 why the way is none.
 *
 * Of texts whose way is written, 0 and 51 say that they solve the question, 11 to 17 what is wrong with the sheet, 47 that there are no
 * such records, 48 that the texts solve nothing, 19 and 50 that the way is none that can be played.
 *
 * Of the engine for plain rules, 0 and 1 settle the question, 11 to 17 say what is wrong with the sheet, 42 that a field stands more
 * than once, and 43 that the bits don't fit. Of the bytes that a sheet needs for it, 0 is success, and 11 to 17 and 42 are the same.
 *
 * Of a catalogue's call, 0 is success. 11 to 17 say what is wrong with the rule that was to be added, 30 to 35 why it can't be done.
 *
 * Of a sheet that is to be written, 0 is success, 44 says that its edition is none, 11 and 13 to 17 what is wrong with a pattern or a
 * side, 22 that a pattern is stray, and 41 that the sheet doesn't fit.
 *
 * Of a script, 0 is success, 11 to 17 say what is wrong with the sheet, and 40 that the script doesn't fit.
 *
 * Of carrying over, 0 is success, 11 to 17 say what is wrong with the sheet or the rule, 31, 32, 34 and 41 why it can't be done. Of
 * dropping strays the same, without 22 and 32.
 *
 * Of spelling and of reading back, 0 is success, 45 says that the table doesn't give it, and 46 that it doesn't fit.
 */
enum bradovusc_number {
    /* The rules clash. The answer buffer says what each field holds on a label that both can make; one of the two may have spaces
     * at its end that the other has not. */
    BRADOVUSC_CLASH = 0,
    /* The rules don't clash: no label, however long, and with whatever spaces at its end, can be made by both. */
    BRADOVUSC_NO_CLASH = 1,

    /* The sheet, or the rule, ends too early: a mark, a field byte, a length byte or a body is not all there. Of a sheet that is to be
     * written: a pattern has fewer bytes than its length says. */
    BRADOVUSC_CUT_SHORT = 11,
    /* A mark is not ED, PA, LE or RI, in a rule not RU, PA or LE, or stands where it isn't allowed; or bytes follow the last side. */
    BRADOVUSC_WRONG_MARK = 12,
    /* A pattern's field is above 7, or not above the field of the pattern before it. */
    BRADOVUSC_WRONG_FIELD = 13,
    /* A pattern's length is not 1 to 192, or a side's is above 24. */
    BRADOVUSC_WRONG_LENGTH = 14,
    /* The bytes of a pattern are not exactly one pattern. */
    BRADOVUSC_NOT_ONE_PATTERN = 15,
    /* A pattern has more than 63 leaves. */
    BRADOVUSC_TOO_MANY_LEAVES = 16,
    /* A side holds a byte that is neither a character nor a field 0 to 7. */
    BRADOVUSC_WRONG_TOKEN = 17,

    /* Given up: the working buffer is full. Lend a longer one, though some questions fill any. */
    BRADOVUSC_NO_ROOM = 18,
    /* Given up: a side grew above 48 tokens, its hidden field counted. Of texts whose way is written: it did on the way. */
    BRADOVUSC_SIDE_TOO_LONG = 19,
    /* The rules clash, but the answer buffer is too short for the texts. Lend a longer one. */
    BRADOVUSC_ANSWER_TOO_SHORT = 20,

    /* A pattern's field stands in neither side, or not in the rule. Drop the strays of what is from before, as below. */
    BRADOVUSC_STRAY_PATTERN = 22,

    /* Of a catalogue's call: the rule was added, or withdrawn, or the pairs are listed. Of a sheet or a script: it is written. Of
     * carrying over: the sheet, the rule or the catalogue is carried over. Of dropping strays: they are dropped. Of the bytes that a
     * sheet needs: they are told. Of a text: it is spelt, or read back. */
    BRADOVUSC_DONE = 0,
    /* The new rule clashes with one that is there, or that is not decided. That rule and the answer of the pair are told. */
    BRADOVUSC_NOT_APART = 30,
    /* The rule names a field above 3. */
    BRADOVUSC_FOREIGN_FIELD = 31,
    /* 32 rules are there, or the new rule's bytes don't fit behind them. Of carrying over: the rules would no longer fit. */
    BRADOVUSC_FULL = 32,
    /* No rule has the number that was to be withdrawn. */
    BRADOVUSC_NO_RULE = 33,
    /* The buffer is no catalogue. Nor is one from before in which a rule has a stray pattern: drop the strays first. */
    BRADOVUSC_NO_CATALOGUE = 34,
    /* The list buffer is too short for all the pairs that are to be listed. None is. */
    BRADOVUSC_LIST_TOO_SHORT = 35,

    /* The output buffer is too short for the script. Not a byte of it is written. */
    BRADOVUSC_SCRIPT_TOO_SHORT = 40,
    /* The output buffer is too short for the sheet that is to be written, or for the sheet or the rule that is carried over or loses
     * its strays. Not a byte of it is written. */
    BRADOVUSC_OUTPUT_TOO_SHORT = 41,

    /* A field stands more than once in the two sides together: the rules are not plain. Ask by bradovusc_clash or bradovusc_decide. */
    BRADOVUSC_NOT_PLAIN = 42,
    /* The bit buffer is too short for the pairs of standings. Lend a longer one; BRADOVUSC_PLAIN_BYTES are always enough. */
    BRADOVUSC_BITS_TOO_SHORT = 43,

    /* The byte behind ED, or the edition of a sheet that is to be written, is none. A rule has no ED, and never gets this. */
    BRADOVUSC_WRONG_EDITION = 44,

    /* A byte that is to be spelt is above 127, or a spelt text is none that the table of Full ASCII gives. */
    BRADOVUSC_NOT_IN_TABLE = 45,
    /* The output buffer is too short for the spelling, or for the text that is read back. Not a byte of it is written. */
    BRADOVUSC_SPELT_TOO_SHORT = 46,

    /* Of a way that is played: a record is cut short, has another mark, a kind above 2 or a value that is no character. */
    BRADOVUSC_WRONG_STEP = 47,
    /* A step is not allowed where it stands, or stands behind the finish. */
    BRADOVUSC_STEP_NOT_ALLOWED = 48,
    /* The records end before the finish. */
    BRADOVUSC_NOT_FINISHED = 49,
    /* There are more than 65,534 records, or the way of given texts has more steps. */
    BRADOVUSC_TOO_MANY_STEPS = 50,
    /* The rules clash, but the steps buffer is too short for the way. Lend a longer one. The texts are not written either. */
    BRADOVUSC_STEPS_TOO_SHORT = 51,

    /* Of texts whose way is written: they are no records, one for each field that stands, by rising number, and nothing else, or a value
     * is no character. */
    BRADOVUSC_WRONG_TEXTS = 47,
    /* The texts don't make both sides the same label, or one is none that its field may hold. */
    BRADOVUSC_NO_SOLUTION = 48
};

/* The number in words, 0 as the answer of a sheet or a pair. Never null. */
static inline const char *bradovusc_text(uint32_t number) {
    switch (number) {
    case BRADOVUSC_CLASH:
        return "clash";
    case BRADOVUSC_NO_CLASH:
        return "no clash";
    case BRADOVUSC_CUT_SHORT:
        return "cut short";
    case BRADOVUSC_WRONG_MARK:
        return "a wrong mark, or bytes behind the last side";
    case BRADOVUSC_WRONG_FIELD:
        return "a wrong field number";
    case BRADOVUSC_WRONG_LENGTH:
        return "a wrong length";
    case BRADOVUSC_NOT_ONE_PATTERN:
        return "not one pattern";
    case BRADOVUSC_TOO_MANY_LEAVES:
        return "a pattern with too many leaves";
    case BRADOVUSC_WRONG_TOKEN:
        return "a wrong token";
    case BRADOVUSC_NO_ROOM:
        return "not decided: no room for a situation";
    case BRADOVUSC_SIDE_TOO_LONG:
        return "not decided: a side grew too long";
    case BRADOVUSC_ANSWER_TOO_SHORT:
        return "clash, but the answer buffer is too short for the texts";
    case BRADOVUSC_STRAY_PATTERN:
        return "a stray pattern";
    case BRADOVUSC_NOT_APART:
        return "not apart from a rule of the catalogue";
    case BRADOVUSC_FOREIGN_FIELD:
        return "a field above 3";
    case BRADOVUSC_FULL:
        return "no room in the catalogue";
    case BRADOVUSC_NO_RULE:
        return "no rule has that number";
    case BRADOVUSC_NO_CATALOGUE:
        return "the buffer is no catalogue";
    case BRADOVUSC_LIST_TOO_SHORT:
        return "the list buffer is too short for the pairs";
    case BRADOVUSC_SCRIPT_TOO_SHORT:
        return "the output buffer is too short for the script";
    case BRADOVUSC_OUTPUT_TOO_SHORT:
        return "the output buffer is too short for the sheet or the rule";
    case BRADOVUSC_NOT_PLAIN:
        return "a field stands more than once";
    case BRADOVUSC_BITS_TOO_SHORT:
        return "the bit buffer is too short";
    case BRADOVUSC_WRONG_EDITION:
        return "a wrong edition";
    case BRADOVUSC_NOT_IN_TABLE:
        return "not in the table of Full ASCII";
    case BRADOVUSC_SPELT_TOO_SHORT:
        return "the output buffer is too short for the text";
    case BRADOVUSC_WRONG_STEP:
        return "a wrong record of a step";
    case BRADOVUSC_STEP_NOT_ALLOWED:
        return "a step that is not allowed";
    case BRADOVUSC_NOT_FINISHED:
        return "the steps end before the finish";
    case BRADOVUSC_TOO_MANY_STEPS:
        return "too many steps";
    case BRADOVUSC_STEPS_TOO_SHORT:
        return "clash, but the steps buffer is too short for the way";
    default:
        return "no number of an answer";
    }
}

/* The same for what a catalogue's call returned, or that of a sheet or a script that is written, of carrying over, of dropping strays,
 * of the bytes that a sheet needs, or of a text that is spelt or read back: 0 is "done". */
static inline const char *bradovusc_catalogue_text(uint32_t number) {
    return number == BRADOVUSC_DONE ? "done" : bradovusc_text(number);
}

/* The same for what is answered about the way of given texts: 47 and 48 are about these. */
static inline const char *bradovusc_way_text(uint32_t number) {
    return number == BRADOVUSC_WRONG_TEXTS   ? "no records of the texts"
           : number == BRADOVUSC_NO_SOLUTION ? "the texts solve nothing"
                                             : bradovusc_text(number);
}

/* The signs of the 43 characters of Code 39, by value. */
#define BRADOVUSC_CHARACTERS 43
static const char bradovusc_signs[BRADOVUSC_CHARACTERS + 1] = "0123456789ABCDEFGHIJKLMNOPQRSTUVWXYZ-. $/+%";

/* The sign of a value; -1 where there is none. */
static inline int bradovusc_sign(unsigned value) {
    return value < BRADOVUSC_CHARACTERS ? bradovusc_signs[value] : -1;
}

/* The value of a sign; -1 where it is no character of Code 39. */
static inline int bradovusc_value(int sign) {
    int value;
    for (value = 0; value < BRADOVUSC_CHARACTERS; value++) {
        if (bradovusc_signs[value] == sign) {
            return value;
        }
    }
    return -1;
}

/*
 * The sheet. Every record begins with a mark of two letters:
 *
 *   ED  2                                                the edition, in front of all else: a sheet of Full ASCII; or none
 *   PA  field 0 to 7, length 1 to 192, that many bytes   the pattern of a field; none, one or several, fields rising
 *   LE  length 0 to 24, that many tokens                 the left side: one rule
 *   RI  length 0 to 24, that many tokens                 the right side: the other rule; the sheet ends behind it
 *
 * A token is a character, 0 to 42 (the digits, A to Z, then - . space $ / + %), or 64 to 71, field 0 to 7.
 * A pattern is written operator first: 0 to 42 that character; 64 the empty text; 65 lo hi one character from lo to hi;
 * 66 A B first A then B; 67 A B one of the two; 68 A any number of A, none included. A field without a pattern holds any text of one
 * character or more; one that may be empty too has the pattern 68 65 0 42. A field that has a pattern stands in a side.
 *
 * Behind ED 2 the characters are those of Full ASCII, 0 to 127, in patterns too. A token is a character or 192 to 199, field 0 to
 * 7. In a pattern 192 to 196 stand for 64 to 68, and lo and hi go to 127; a field that may be empty too has the pattern 196 193 0
 * 127. A field without a pattern holds characters of the sheet's edition. All else is the same in both. A good sheet has at most so
 * many bytes, three fewer without ED. A rule of a catalogue has no edition: its characters are those of Code 39.
 *
 * Labels are compared without the spaces, 38 and behind ED 32, at their ends; a space elsewhere is a character like the others. So
 * each side is searched as if one hidden field, of any number of spaces, stood at its end: field 8 on the left, field 9 on the
 * right. It is not written, 72 and 73, behind ED 200 and 201, are no tokens, it does not count among the 24, and it has no text in
 * the answer.
 */
#define BRADOVUSC_SHEET_BYTES 1625

/* The editions: of a sheet without ED, and of one with it. No edition has more characters than so many. */
enum bradovusc_edition { BRADOVUSC_CODE_39 = 0, BRADOVUSC_FULL_ASCII = 2 };
#define BRADOVUSC_MOST_CHARACTERS 128

/*
 * The working buffer. A situation of the search takes 184 bytes. Room is counted in whole situations, at most 65,535; bytes beyond
 * that are no use. Where no field stands more than once in the two sides together, (1 + L) * (1 + R) situations are always enough,
 * unless that is above 65,535: L adds, over the left side, one for each character, 2 for each field without a pattern, for a field
 * with a pattern the number of its reachable place sets, and 2 for the hidden field; R does so for the right side. Other questions
 * may need any number. The program `clash` lends 356 situations. The buffer need not be cleared beforehand.
 */
#define BRADOVUSC_SITUATION_BYTES 184
#define BRADOVUSC_MOST_SITUATIONS 65535
#define BRADOVUSC_WORK_BYTES(situations) ((size_t)BRADOVUSC_SITUATION_BYTES * (size_t)(situations))

/*
 * The answer buffer. A clash writes, for each field that stands in a side of the sheet, by rising number, one record directly behind
 * the other:
 *
 *   VA  field, length in two bytes (low first), that many characters, 0 to 42 or behind ED 0 to 127
 *
 * Those of a sheet with ED are a text of Full ASCII; bradovusc_spell_text gives the values of Code 39 that stand on a label. A text
 * has fewer characters than the search has situations, and there are at most 8 fields: so many bytes are always enough.
 */
#define BRADOVUSC_FIELDS 8
#define BRADOVUSC_RECORD_HEAD 5
#define BRADOVUSC_ANSWER_BYTES(situations) ((size_t)BRADOVUSC_FIELDS * (BRADOVUSC_RECORD_HEAD + (size_t)(situations)))

/*
 * A walk over these records.
 *
 *   struct bradovusc_records texts = bradovusc_records_in(answer, written);
 *   while (bradovusc_next(&texts)) {
 *       .. texts.field, texts.values[0 .. texts.length - 1] ..
 *   }
 */
struct bradovusc_records {
    /* the field, and the values of its text: what the last bradovusc_next found. They stand in the answer buffer. */
    unsigned field;
    const uint8_t *values;
    size_t length;
    /* what is still to be walked */
    const uint8_t *rest;
    size_t rest_length;
};

/* From the first record on. `written` is what a clash has told; with 0 the pointer may be null. */
static inline struct bradovusc_records bradovusc_records_in(const uint8_t *answer, size_t written) {
    struct bradovusc_records records;
    records.field = 0;
    records.values = NULL;
    records.length = 0;
    records.rest = answer;
    records.rest_length = written;
    return records;
}

/* 1 and the next record, or 0: none is left, or the bytes left are not a whole record. No byte behind the `written` ones is read. */
static inline int bradovusc_next(struct bradovusc_records *records) {
    const uint8_t *head = records->rest;
    size_t length;
    if (records->rest_length < BRADOVUSC_RECORD_HEAD || head[0] != 'V' || head[1] != 'A') {
        return 0;
    }
    length = head[3] + (size_t)256 * head[4];
    if (records->rest_length - BRADOVUSC_RECORD_HEAD < length) {
        return 0;
    }
    records->field = head[2];
    records->values = head + BRADOVUSC_RECORD_HEAD;
    records->length = length;
    records->rest = records->values + length;
    records->rest_length -= BRADOVUSC_RECORD_HEAD + length;
    return 1;
}

/*
 * The place of a fault, 11 to 17, 22 or 44: an offset in the sheet, or in the rule from its RU, or in the sheet that would be written. It
 * shows the byte itself.
 *
 *   11   the length of the sheet, or of the rule's bytes
 *   12   the first byte of the mark, or the first byte behind the last side
 *   13   the field byte
 *   14   the length byte
 *   15   read from left to right: the first byte that is no code; the lo byte if lo is no character, else the hi byte if that is no
 *        character or below lo; the first byte left over; where the code runs out, the offset behind the pattern's last byte
 *   16   the first byte of the 64th leaf
 *   17   the first byte that is no token
 *   22   the first byte of the mark of the first stray pattern
 *   44   the edition byte, 2
 *
 * 22 comes behind all the others: nothing else is wrong with the sheet or the rule.
 *
 * It is never above the length. With 11 it is the length, and with 15 it can be, if the code runs out where the bytes end: no byte
 * stands there then, so look at the length before taking the byte.
 */

/*
 * What is told beside the number, by its index in `told`. Fewer elements than these are filled as far as there are any; elements
 * behind them are left as they are.
 */
enum bradovusc_told {
    /* situations entered; 0 after 11 to 17, of a way that is played, of the engine for plain rules, of a sheet or a script that is
     * written, and of what is carried over or loses its strays */
    BRADOVUSC_COUNT = 0,
    /* after 11 to 17 the offset of the byte at fault, as above; otherwise 0 */
    BRADOVUSC_PLACE = 1,
    /* bytes written to the answer buffer, of the sheet, of the script, or of what is carried over or loses its strays; 0 where the
     * number is not */
    BRADOVUSC_WRITTEN = 2,
    BRADOVUSC_TOLD = 3
};

/*
 * Answers the sheet. Afterwards
 *
 *   number            answer buffer                       working buffer
 *   0                 the records, the rest unchanged     all zero
 *   1, 18 to 20       unchanged                           all zero
 *   11 to 17          unchanged                           unchanged
 *
 * Any bytes and any lengths are taken, 0 included. Each pointer must be that of so many elements, and not null, also where the
 * length is 0; the four must not overlap.
 */
uint32_t bradovusc_clash(const uint8_t *sheet, size_t sheet_length, uint8_t *work, size_t work_length, uint8_t *answer,
                         size_t answer_length, uint64_t *told, size_t told_length);

/* The same, but each of the four pointers may be null where its length is 0. */
static inline uint32_t bradovusc_clash_or_null(const uint8_t *sheet, size_t sheet_length, uint8_t *work, size_t work_length,
                                               uint8_t *answer, size_t answer_length, uint64_t *told, size_t told_length) {
    uint8_t no_sheet = 0, no_work = 0, no_answer = 0;
    uint64_t none_told = 0;
    return bradovusc_clash(sheet == NULL && sheet_length == 0 ? &no_sheet : sheet, sheet_length,
                           work == NULL && work_length == 0 ? &no_work : work, work_length,
                           answer == NULL && answer_length == 0 ? &no_answer : answer, answer_length,
                           told == NULL && told_length == 0 ? &none_told : told, told_length);
}

/* An answer: the number, and what is told beside it. */
struct bradovusc_answer {
    uint32_t number;
    uint64_t count, place, written;
};

/* The same, with all four numbers at once. This is the one to call. */
static inline struct bradovusc_answer bradovusc_ask(const uint8_t *sheet, size_t sheet_length, uint8_t *work, size_t work_length,
                                                    uint8_t *answer, size_t answer_length) {
    uint64_t told[BRADOVUSC_TOLD] = {0, 0, 0};
    struct bradovusc_answer given;
    given.number =
        bradovusc_clash_or_null(sheet, sheet_length, work, work_length, answer, answer_length, told, BRADOVUSC_TOLD);
    given.count = told[BRADOVUSC_COUNT];
    given.place = told[BRADOVUSC_PLACE];
    given.written = told[BRADOVUSC_WRITTEN];
    return given;
}

/*
 * Deciding. bradovusc_clash makes one search and gives up, with 18 or 19, where that has no room or a side grows too long.
 * bradovusc_decide then goes on, in the same working buffer, with up to six more attempts:
 *
 *   2   letters: can each character but the space stand as often on both sides? No search; no clash, or nothing
 *   3   each standing of a field apart, by the engine of bradovusc_plain. No search; no clash, or nothing
 *   4   the search with the shortest text in each field that stands twice; a clash, or nothing
 *   5   the same with texts of three characters or more; a clash, or nothing
 *   6   the search over characters that are alike taken as one; a clash or no clash
 *   7   the search over a few characters; a clash, or nothing
 *
 * What it answers is proved as what bradovusc_clash answers is: after 0 the texts solve the question, and with 1 there are none, of
 * any length. Where bradovusc_clash with the same buffers does not give 18 or 19, it gives the same number, count, place and bytes.
 *
 * What is told has the indices of bradovusc_told, and one more. The count is that of all the searches made: up to five, each in the
 * whole room. 2 and 3 count nothing.
 */
enum bradovusc_told_decided {
    /* the attempt that decided, 1 to 7; 0 where none did, and after 11 to 17, 22 and 44 */
    BRADOVUSC_DECIDED_SEARCH = 3,
    BRADOVUSC_DECIDED_TOLD = 4
};

/*
 * Decides the sheet. Afterwards the buffers are as bradovusc_clash leaves them with that number. 18 and 19 are neither yes nor no:
 * they are what the first attempt gave, and no other decided.
 *
 * Any bytes and any lengths are taken, 0 included. Each pointer must be that of so many elements, and not null, also where the
 * length is 0; the four must not overlap.
 */
uint32_t bradovusc_decide(const uint8_t *sheet, size_t sheet_length, uint8_t *work, size_t work_length, uint8_t *answer,
                          size_t answer_length, uint64_t *told, size_t told_length);

/* A decision: the number, and what is told beside it. */
struct bradovusc_decision {
    uint32_t number;
    uint64_t count, place, written, search;
};

/* bradovusc_decide with all five numbers at once, and each pointer may be null where its length is 0. This is the one to call. */
static inline struct bradovusc_decision bradovusc_settle(const uint8_t *sheet, size_t sheet_length, uint8_t *work,
                                                         size_t work_length, uint8_t *answer, size_t answer_length) {
    uint8_t no_sheet = 0, no_work = 0, no_answer = 0;
    uint64_t told[BRADOVUSC_DECIDED_TOLD] = {0, 0, 0, 0};
    struct bradovusc_decision decided;
    decided.number = bradovusc_decide(sheet == NULL && sheet_length == 0 ? &no_sheet : sheet, sheet_length,
                                      work == NULL && work_length == 0 ? &no_work : work, work_length,
                                      answer == NULL && answer_length == 0 ? &no_answer : answer, answer_length, told,
                                      BRADOVUSC_DECIDED_TOLD);
    decided.count = told[BRADOVUSC_COUNT];
    decided.place = told[BRADOVUSC_PLACE];
    decided.written = told[BRADOVUSC_WRITTEN];
    decided.search = told[BRADOVUSC_DECIDED_SEARCH];
    return decided;
}

/*
 * The steps on paper. A clash is found by steps: from the trimmed question on, each makes one child of a situation, up to the finished
 * one. The steps buffer gets the way that was found, one record directly behind the other, the first step first:
 *
 *   ST  0           the left front, a field, was struck everywhere
 *   ST  1           the right front, a field, was struck everywhere
 *   ST  2  value    the character, 0 to 42 or behind ED 0 to 127, was put before each front field, or is a front itself
 *
 * A way has a step less than the search has situations, or fewer: so many bytes are always enough, which is proved. In room for none
 * there is no way. A row of such records from anywhere can be played, with at most so many records.
 */
#define BRADOVUSC_STEP_RECORD 4
#define BRADOVUSC_MOST_STEPS 65534
#define BRADOVUSC_STEPS_BYTES(situations) \
    ((size_t)BRADOVUSC_STEP_RECORD * ((size_t)(situations) - ((size_t)(situations) > 0 ? (size_t)1 : (size_t)0)))

/* The kinds of a step. */
enum bradovusc_kind { BRADOVUSC_LEFT_STRUCK = 0, BRADOVUSC_RIGHT_STRUCK = 1, BRADOVUSC_CHARACTER = 2 };

/*
 * A walk over these records.
 *
 *   struct bradovusc_way way = bradovusc_way_in(steps, written);
 *   while (bradovusc_next_step(&way)) {
 *       .. way.kind, and for BRADOVUSC_CHARACTER way.value ..
 *   }
 */
struct bradovusc_way {
    /* the kind, and the value of a character, else 0: what the last bradovusc_next_step found */
    unsigned kind, value;
    /* what is still to be walked */
    const uint8_t *rest;
    size_t rest_length;
};

/* From the first step on. `written` is how many bytes of steps there are; with 0 the pointer may be null. */
static inline struct bradovusc_way bradovusc_way_in(const uint8_t *steps, size_t written) {
    struct bradovusc_way way;
    way.kind = 0;
    way.value = 0;
    way.rest = steps;
    way.rest_length = written;
    return way;
}

/* 1 and the next step, or 0: none is left, or the bytes left do not begin with a record. No byte behind the `written` ones is read. */
static inline int bradovusc_next_step(struct bradovusc_way *way) {
    const uint8_t *record = way->rest;
    size_t length = BRADOVUSC_STEP_RECORD - 1;
    if (way->rest_length < length || record[0] != 'S' || record[1] != 'T' || record[2] > BRADOVUSC_CHARACTER) {
        return 0;
    }
    if (record[2] == BRADOVUSC_CHARACTER) {
        length = BRADOVUSC_STEP_RECORD;
        if (way->rest_length < length || record[3] >= BRADOVUSC_MOST_CHARACTERS) {
            return 0;
        }
    }
    way->kind = record[2];
    way->value = record[2] == BRADOVUSC_CHARACTER ? record[3] : 0u;
    way->rest = record + length;
    way->rest_length -= length;
    return 1;
}

/* What bradovusc_steps tells has the indices of bradovusc_told, and one more. */
enum bradovusc_told_steps {
    /* bytes written to the steps buffer; 0 where the number is not */
    BRADOVUSC_STEPS_WRITTEN = 3,
    BRADOVUSC_STEPS_TOLD = 4
};

/*
 * Answers the sheet as bradovusc_clash does, and writes the way of a clash. Afterwards
 *
 *   number            answer buffer                       steps buffer                      working buffer
 *   0                 the records, the rest unchanged     the steps, the rest unchanged     all zero
 *   1, 18 to 20       unchanged                           unchanged                         all zero
 *   51                unchanged                           unchanged                         all zero
 *   11 to 17          unchanged                           unchanged                         unchanged
 *
 * 20 comes before 51. With every number but 51 it tells what bradovusc_clash tells for the same sheet and buffers, and where it gives
 * 51 that one gives 0.
 *
 * Any bytes and any lengths are taken, 0 included. Each pointer must be that of so many elements, and not null, also where the
 * length is 0; the five must not overlap.
 */
uint32_t bradovusc_steps(const uint8_t *sheet, size_t sheet_length, uint8_t *work, size_t work_length, uint8_t *answer,
                         size_t answer_length, uint8_t *steps, size_t steps_length, uint64_t *told, size_t told_length);

/*
 * Plays a way, from anywhere: makes each step as the search makes the children of a situation, and writes the texts at the end. It
 * needs no working buffer; neither room nor what a search would have entered before counts. What is told has the indices of
 * bradovusc_told: the count is 0, the place is that of a fault of the sheet, else 0, and written are the bytes of the texts. Afterwards
 *
 *   number            answer buffer
 *   0                 the records, the rest unchanged
 *   11 to 17          unchanged: the sheet is at fault
 *   50                unchanged: a record is past the 65,534th
 *   47                unchanged: a record is none
 *   48                unchanged: a step is not allowed. A front that is struck is a field whose text may end there; the right one is
 *                     not the same field as the left one. A character is taken by both fronts, and neither side is empty. The
 *                     situation that comes of it is not dead. Nothing follows the finish
 *   19                unchanged: a side grew above 48 tokens
 *   49                unchanged: the records end before the finish, or there are none
 *   20                unchanged: the texts don't fit
 *
 * The sheet's faults come first. Then, record by record, 50, 47, 48 and 19 are looked for in this order; then 49, then 20. It is proved
 * that it gives 0 or 20 exactly if the records are a way to the finish, that the texts then solve the question, and that every way
 * that bradovusc_steps writes is accepted and gives the same texts.
 *
 * Any bytes and any lengths are taken, 0 included. Each pointer must be that of so many elements, and not null, also where the
 * length is 0; the four must not overlap.
 */
uint32_t bradovusc_play(const uint8_t *sheet, size_t sheet_length, const uint8_t *steps, size_t steps_length, uint8_t *answer,
                        size_t answer_length, uint64_t *told, size_t told_length);

/*
 * Writes the steps that spell given texts: VA records as the answer buffer has them after a clash, from anywhere, so those of
 * bradovusc_decide too. A front field whose text is used up is struck, the left one first; otherwise the next character is put. What is
 * told has the indices of bradovusc_told: the count is 0, the place is that of a fault of the sheet, else 0, and written are the bytes
 * of the steps. Afterwards
 *
 *   number            steps buffer
 *   0                 the steps, the rest unchanged
 *   11 to 17          unchanged: the sheet is at fault
 *   47                unchanged: the texts are no records, one for each field that stands, by rising number, and nothing else, or a
 *                     value is no character
 *   50                unchanged: a step is past the 65,534th
 *   48                unchanged: the texts don't make both sides the same label, or one is none that its field may hold
 *   19                unchanged: a side grew above 48 tokens
 *   51                unchanged: the steps don't fit
 *
 * The sheet's faults come first, then 47. Then, step by step, 50, 48 and 19 are looked for in this order; then 51. It is proved that it
 * gives 0 or 51 exactly if the texts solve the question, no side passes 48 tokens on the way and the way has at most 65,534 steps;
 * and that bradovusc_play accepts what it writes and gives the texts back, byte for byte.
 *
 * Any bytes and any lengths are taken, 0 included. Each pointer must be that of so many elements, and not null, also where the
 * length is 0; the four must not overlap.
 */
uint32_t bradovusc_way(const uint8_t *sheet, size_t sheet_length, const uint8_t *texts, size_t texts_length, uint8_t *steps,
                       size_t steps_length, uint64_t *told, size_t told_length);

/* The answer with its way: the number, and what is told beside it. */
struct bradovusc_stepped {
    uint32_t number;
    uint64_t count, place, written, steps;
};

/* bradovusc_steps with all five numbers at once, and each pointer may be null where its length is 0. This is the one to call. */
static inline struct bradovusc_stepped bradovusc_find_steps(const uint8_t *sheet, size_t sheet_length, uint8_t *work,
                                                            size_t work_length, uint8_t *answer, size_t answer_length,
                                                            uint8_t *steps, size_t steps_length) {
    uint8_t no_sheet = 0, no_work = 0, no_answer = 0, no_steps = 0;
    uint64_t told[BRADOVUSC_STEPS_TOLD] = {0, 0, 0, 0};
    struct bradovusc_stepped stepped;
    stepped.number = bradovusc_steps(sheet == NULL && sheet_length == 0 ? &no_sheet : sheet, sheet_length,
                                     work == NULL && work_length == 0 ? &no_work : work, work_length,
                                     answer == NULL && answer_length == 0 ? &no_answer : answer, answer_length,
                                     steps == NULL && steps_length == 0 ? &no_steps : steps, steps_length, told,
                                     BRADOVUSC_STEPS_TOLD);
    stepped.count = told[BRADOVUSC_COUNT];
    stepped.place = told[BRADOVUSC_PLACE];
    stepped.written = told[BRADOVUSC_WRITTEN];
    stepped.steps = told[BRADOVUSC_STEPS_WRITTEN];
    return stepped;
}

/* What playing a way answers, and what finding one of given texts does: the number, and what is told beside it. */
struct bradovusc_played {
    uint32_t number;
    uint64_t place, written;
};

/* bradovusc_play with all three numbers at once, and each pointer may be null where its length is 0. This is the one to call. */
static inline struct bradovusc_played bradovusc_play_steps(const uint8_t *sheet, size_t sheet_length, const uint8_t *steps,
                                                           size_t steps_length, uint8_t *answer, size_t answer_length) {
    uint8_t no_sheet = 0, no_steps = 0, no_answer = 0;
    uint64_t told[BRADOVUSC_TOLD] = {0, 0, 0};
    struct bradovusc_played played;
    played.number = bradovusc_play(sheet == NULL && sheet_length == 0 ? &no_sheet : sheet, sheet_length,
                                   steps == NULL && steps_length == 0 ? &no_steps : steps, steps_length,
                                   answer == NULL && answer_length == 0 ? &no_answer : answer, answer_length, told, BRADOVUSC_TOLD);
    played.place = told[BRADOVUSC_PLACE];
    played.written = told[BRADOVUSC_WRITTEN];
    return played;
}

/* bradovusc_way with all three numbers at once, and each pointer may be null where its length is 0. This is the one to call. */
static inline struct bradovusc_played bradovusc_find_way(const uint8_t *sheet, size_t sheet_length, const uint8_t *texts,
                                                         size_t texts_length, uint8_t *steps, size_t steps_length) {
    uint8_t no_sheet = 0, no_texts = 0, no_steps = 0;
    uint64_t told[BRADOVUSC_TOLD] = {0, 0, 0};
    struct bradovusc_played found;
    found.number = bradovusc_way(sheet == NULL && sheet_length == 0 ? &no_sheet : sheet, sheet_length,
                                 texts == NULL && texts_length == 0 ? &no_texts : texts, texts_length,
                                 steps == NULL && steps_length == 0 ? &no_steps : steps, steps_length, told, BRADOVUSC_TOLD);
    found.place = told[BRADOVUSC_PLACE];
    found.written = told[BRADOVUSC_WRITTEN];
    return found;
}

/*
 * Plain rules: no field stands more than once in the two sides together. For them a small engine says clash or no clash, without
 * situations and without texts: it is lent one bit for each pair of a left and a right standing. A standing is how far a side is read,
 * with one place of the field in front. A side has one standing for its end, one for each character and, for each field, one for
 * each of its places: its leaves and the start, or two for a field without a pattern; the hidden field at its end has two. So with L
 * standings on the left and R on the right L * R bits are needed. Four fields of 63 leaves and 20 characters a side make 279
 * standings: so many bytes are always enough, which is proved.
 *
 * What it answers is proved as what bradovusc_clash answers is: 0 exactly if some texts solve the question, of any length, and 1
 * exactly if none do. So it says the same as bradovusc_clash wherever that gives 0, 1 or 20, 20 being a clash, and says it too where
 * that has no room.
 */
#define BRADOVUSC_PLAIN_BYTES 9731

/*
 * What is told has the indices of bradovusc_told for count and place, and no written length: the count is 0, the place that of a
 * fault. bradovusc_plain_bytes tells one number more. Fewer elements than these are filled as far as there are any; elements behind
 * them are left as they are.
 */
enum bradovusc_told_plain {
    /* so many by bradovusc_plain */
    BRADOVUSC_PLAIN_TOLD = 2,
    /* by bradovusc_plain_bytes, the bytes of the shortest bit buffer that will do; 0 with a refusal */
    BRADOVUSC_PLAIN_NEEDED = 2,
    BRADOVUSC_PLAIN_NEEDED_TOLD = 3
};

/*
 * Says whether the rules of the sheet clash. Afterwards
 *
 *   number            bit buffer
 *   0, 1              all zero
 *   11 to 17          unchanged
 *   42, 43            all zero
 *
 * 11 to 17 come before 42, then 43. The bit buffer need not be cleared beforehand. Any bytes and any lengths are taken, 0 included.
 * Each pointer must be that of so many elements, and not null, also where the length is 0; the three must not overlap.
 */
uint32_t bradovusc_plain(const uint8_t *sheet, size_t sheet_length, uint8_t *bits, size_t bits_length, uint64_t *told,
                         size_t told_length);

/*
 * Tells how many bytes of bit buffer the sheet needs: bradovusc_plain gives 43 with fewer, and 0 or 1 with so many. The refusals are
 * 11 to 17, then 42. The same holds of the pointers; the two must not overlap.
 */
uint32_t bradovusc_plain_bytes(const uint8_t *sheet, size_t sheet_length, uint64_t *told, size_t told_length);

/* What the engine for plain rules answers: the number, and what is told beside it. */
struct bradovusc_plain_answer {
    uint32_t number;
    uint64_t place;
};

/* bradovusc_plain with both numbers at once, and each pointer may be null where its length is 0. This is the one to call. */
static inline struct bradovusc_plain_answer bradovusc_ask_plain(const uint8_t *sheet, size_t sheet_length, uint8_t *bits,
                                                                size_t bits_length) {
    uint8_t no_sheet = 0, no_bits = 0;
    uint64_t told[BRADOVUSC_PLAIN_TOLD] = {0, 0};
    struct bradovusc_plain_answer given;
    given.number = bradovusc_plain(sheet == NULL && sheet_length == 0 ? &no_sheet : sheet, sheet_length,
                                   bits == NULL && bits_length == 0 ? &no_bits : bits, bits_length, told, BRADOVUSC_PLAIN_TOLD);
    given.place = told[BRADOVUSC_PLACE];
    return given;
}

/* What a sheet needs: the number, the place of a fault, and the bytes. */
struct bradovusc_plain_needs {
    uint32_t number;
    uint64_t place, bytes;
};

/* bradovusc_plain_bytes with all three numbers at once, and the pointer may be null where the length is 0. This is the one to call. */
static inline struct bradovusc_plain_needs bradovusc_measure_plain(const uint8_t *sheet, size_t sheet_length) {
    uint8_t no_sheet = 0;
    uint64_t told[BRADOVUSC_PLAIN_NEEDED_TOLD] = {0, 0, 0};
    struct bradovusc_plain_needs needs;
    needs.number = bradovusc_plain_bytes(sheet == NULL && sheet_length == 0 ? &no_sheet : sheet, sheet_length, told,
                                         BRADOVUSC_PLAIN_NEEDED_TOLD);
    needs.place = told[BRADOVUSC_PLACE];
    needs.bytes = told[BRADOVUSC_PLAIN_NEEDED];
    return needs;
}

/*
 * A sheet that is written. Its edition is one of bradovusc_edition. The two sides are handed over as their tokens. `patterns` are
 * the bytes of all patterns, one behind the other, by rising field, and `lengths` says how many of them each field has: lengths[0]
 * of them are the pattern of field 0. A field has no pattern where its length is 0, and where no length is there for it. Bytes
 * behind the last pattern are not looked at.
 *
 * The sheet that is written has ED and its byte, if its edition has them, a PA for each field with a pattern, then LE, then RI. It
 * is proved that reading it gives the same edition, the same sides and the same patterns, byte for byte, and that writing what was
 * read from a good sheet gives the same bytes. BRADOVUSC_SHEET_BYTES are always enough, which is proved too.
 */

/*
 * Writes the sheet. What is told has the indices of bradovusc_told: the count is 0, the place is that of a fault, and written are the
 * bytes of the sheet. Afterwards
 *
 *   number            output buffer
 *   0                 the sheet, the rest unchanged
 *   11, 13 to 17      unchanged
 *   22, 44            unchanged
 *   41                unchanged: the sheet is longer
 *
 * The faults are those of the sheet that would be written, by what is wrong, the first one that reading it would meet. So the
 * edition comes first, then the patterns, by rising field, then the left side, then the right one, then 22; 41 comes last. The place
 * is an offset in that sheet:
 *
 *   44   an edition that is neither 0 nor 2: the edition byte, 2
 *   11   a pattern has fewer bytes than its length says: the offset behind those that it has
 *   13   a length that is not 0 for a field above 7: the field byte
 *   14   a pattern's length above 192, or a side above 24 tokens: the length byte
 *   15   a pattern's bytes are not exactly one pattern: as above
 *   16   a pattern has more than 63 leaves: the first byte of the 64th
 *   17   a side's byte is no token: that byte
 *   22   a pattern, of one byte or more, is for a field that stands in neither side: the first byte of the first such mark
 *
 * Any bytes, any lengths of patterns and any lengths of buffers are taken, 0 included. Each pointer must be that of so many elements,
 * and not null, also where the length is 0; the output buffer and `told` must overlap neither each other nor one of the rest.
 */
uint32_t bradovusc_write_edition(size_t edition, const uint8_t *patterns, size_t patterns_length, const uint64_t *lengths,
                                 size_t lengths_length, const uint8_t *left, size_t left_length, const uint8_t *right,
                                 size_t right_length, uint8_t *out, size_t out_length, uint64_t *told, size_t told_length);

/* The same with the edition 0: the sheet has no ED. */
uint32_t bradovusc_write(const uint8_t *patterns, size_t patterns_length, const uint64_t *lengths, size_t lengths_length,
                         const uint8_t *left, size_t left_length, const uint8_t *right, size_t right_length, uint8_t *out,
                         size_t out_length, uint64_t *told, size_t told_length);

/* What writing a sheet answers: the number, and what is told beside it. */
struct bradovusc_sheet_written {
    uint32_t number;
    uint64_t place, written;
};

/* bradovusc_write_edition with all three numbers at once, and each pointer may be null where its length is 0. This is the one to call. */
static inline struct bradovusc_sheet_written bradovusc_write_sheet_edition(size_t edition, const uint8_t *patterns,
                                                                           size_t patterns_length, const uint64_t *lengths,
                                                                           size_t lengths_length, const uint8_t *left,
                                                                           size_t left_length, const uint8_t *right,
                                                                           size_t right_length, uint8_t *out, size_t out_length) {
    uint8_t no_patterns = 0, no_left = 0, no_right = 0, no_out = 0;
    uint64_t no_lengths = 0, told[BRADOVUSC_TOLD] = {0, 0, 0};
    struct bradovusc_sheet_written written;
    written.number =
        bradovusc_write_edition(edition, patterns == NULL && patterns_length == 0 ? &no_patterns : patterns, patterns_length,
                                lengths == NULL && lengths_length == 0 ? &no_lengths : lengths, lengths_length,
                                left == NULL && left_length == 0 ? &no_left : left, left_length,
                                right == NULL && right_length == 0 ? &no_right : right, right_length,
                                out == NULL && out_length == 0 ? &no_out : out, out_length, told, BRADOVUSC_TOLD);
    written.place = told[BRADOVUSC_PLACE];
    written.written = told[BRADOVUSC_WRITTEN];
    return written;
}

/* The same for a sheet without ED. */
static inline struct bradovusc_sheet_written bradovusc_write_sheet(const uint8_t *patterns, size_t patterns_length,
                                                                   const uint64_t *lengths, size_t lengths_length,
                                                                   const uint8_t *left, size_t left_length, const uint8_t *right,
                                                                   size_t right_length, uint8_t *out, size_t out_length) {
    return bradovusc_write_sheet_edition(BRADOVUSC_CODE_39, patterns, patterns_length, lengths, lengths_length, left, left_length, right,
                                         right_length, out, out_length);
}

/*
 * The script of a sheet, for string solvers as z3 and cvc5: text in SMT-LIB 2.6, in the theory of Unicode strings. It has a string
 * constant for each field that stands in a side, f0 to f7, and f8 and f9 for the hidden fields; for each of them one membership in a
 * regular expression, which has the texts that the field may hold; the equation of both sides; and check-sat. It means the sheet's
 * question: "sat" says that the rules clash, "unsat" that they don't. A line ends with a line feed; no zero byte stands behind the
 * last. So many bytes are always enough, which is proved.
 */
#define BRADOVUSC_SCRIPT_BYTES 280000

/*
 * Writes the sheet out as a script. What is told has the indices of bradovusc_told: the count is 0, the place is that of a fault, and
 * written are the bytes of the script. Afterwards
 *
 *   number            output buffer
 *   0                 the script, the rest unchanged
 *   11 to 17          unchanged
 *   40                unchanged: the script is longer
 *
 * Any bytes and any lengths are taken, 0 included. Each pointer must be that of so many elements, and not null, also where the
 * length is 0; the three must not overlap.
 */
uint32_t bradovusc_script(const uint8_t *sheet, size_t sheet_length, uint8_t *script, size_t script_length, uint64_t *told,
                          size_t told_length);

/* A script's answer: the number, and what is told beside it. */
struct bradovusc_scripted {
    uint32_t number;
    uint64_t place, written;
};

/* bradovusc_script with all three numbers at once, and each pointer may be null where its length is 0. This is the one to call. */
static inline struct bradovusc_scripted bradovusc_write_script(const uint8_t *sheet, size_t sheet_length, uint8_t *script,
                                                               size_t script_length) {
    uint8_t no_sheet = 0, no_script = 0;
    uint64_t told[BRADOVUSC_TOLD] = {0, 0, 0};
    struct bradovusc_scripted scripted;
    scripted.number = bradovusc_script(sheet == NULL && sheet_length == 0 ? &no_sheet : sheet, sheet_length,
                                       script == NULL && script_length == 0 ? &no_script : script, script_length, told,
                                       BRADOVUSC_TOLD);
    scripted.place = told[BRADOVUSC_PLACE];
    scripted.written = told[BRADOVUSC_WRITTEN];
    return scripted;
}

/*
 * The catalogue. A rule's record begins with a mark, as those of a sheet do:
 *
 *   RU  then PA records as in a sheet without ED, of fields 0 to 3 that stand in it, and one LE; the record ends behind it
 *
 * A rule's fields are its own: field 0 of another rule is another field. In the buffer the records stand one behind the other from
 * the first byte on, at most 32 of them, and all bytes behind the last one are zero. A rule's number is its place in that order,
 * from 0. All bytes zero, or no byte at all, is the empty catalogue. Between calls the buffer may be stored and moved.
 *
 * A catalogue that began empty and was changed by bradovusc_add, bradovusc_add_decided, bradovusc_withdraw and
 * bradovusc_drop_strays_catalogue alone has no two rules that make the same label. Of a buffer filled otherwise these look only at the
 * form, and not whether its rules clash. Nor do they in one that was kept since an older version: up to 0.3 a space at the end made
 * another label. bradovusc_recheck and bradovusc_recheck_decided look at all of its pairs. Up to 0.5 a field without a pattern could be
 * empty: carry such a catalogue over first, as below. Up to 0.8 a rule could have a stray pattern: a buffer with one is no catalogue
 * now, so drop its strays before all else, as below.
 *
 * A record has at most 813 bytes, so a buffer of that many for each rule is always long enough.
 */
#define BRADOVUSC_RULES 32
#define BRADOVUSC_RULE_FIELDS 4
#define BRADOVUSC_RULE_BYTES 813
#define BRADOVUSC_CATALOGUE_BYTES(rules) ((size_t)BRADOVUSC_RULE_BYTES * (size_t)(rules))

/*
 * What bradovusc_add tells beside the number, and bradovusc_add_decided with one more, by its index in `told`; each is 0 where nothing
 * is said of it. Fewer elements than these are filled as far as there are any; elements behind them are left as they are.
 */
enum bradovusc_told_added {
    /* after 30 the situations entered for the pair that was not apart, by all the searches made for it */
    BRADOVUSC_ADDED_COUNT = 0,
    /* after 11 to 17 and 22 the offset of the byte at fault, from RU, as above; 31 has none */
    BRADOVUSC_ADDED_PLACE = 1,
    /* after 30 the number of the first rule that the new one is not apart from .. */
    BRADOVUSC_ADDED_RULE = 2,
    /* .. and the answer of their pair: BRADOVUSC_CLASH, BRADOVUSC_NO_ROOM or BRADOVUSC_SIDE_TOO_LONG */
    BRADOVUSC_ADDED_PAIR = 3,
    /* so many by bradovusc_add */
    BRADOVUSC_ADDED_TOLD = 4,
    /* by bradovusc_add_decided, after 30, the attempt that found the clash, 1 or 4 to 7 (2 and 3 find none); 0 where none decided the
     * pair */
    BRADOVUSC_ADDED_SEARCH = 4,
    BRADOVUSC_ADDED_DECIDED_TOLD = 5
};

/*
 * Adds a rule behind the last one, if it clashes with none that is there. The present rules are tried by rising number, each pair in
 * the whole working buffer; where one is not decided, the rule is not added. Afterwards
 *
 *   number                  catalogue                               working buffer
 *   0                       the rule's bytes behind the last        all zero; unchanged if the catalogue was empty
 *                           record, the rest unchanged
 *   30                      unchanged                               all zero
 *   11 to 17, 31, 32, 34    unchanged                               unchanged
 *
 * 34 comes before 11 to 17, then 22, 31, 32 and 30, in this order. Any bytes and any lengths are taken, 0 included. Each pointer must
 * be that of so many elements, and not null, also where the length is 0; the four must not overlap.
 */
uint32_t bradovusc_add(uint8_t *catalogue, size_t catalogue_length, const uint8_t *rule, size_t rule_length, uint8_t *work,
                       size_t work_length, uint64_t *told, size_t told_length);

/*
 * The same, but each pair is asked as bradovusc_decide asks: by up to seven attempts in the same working buffer, until one decides. So
 * it enters each rule that bradovusc_add enters, with the same bytes, and more. A pair that no attempt decides has the answer of the
 * first one, 18 or 19. What is at fault, what comes before what, and what the buffers hold afterwards are as for bradovusc_add.
 */
uint32_t bradovusc_add_decided(uint8_t *catalogue, size_t catalogue_length, const uint8_t *rule, size_t rule_length, uint8_t *work,
                               size_t work_length, uint64_t *told, size_t told_length);

/*
 * Withdraws the rule with this number: its record goes, those behind it move up, and the bytes freed at the end are zero. 34 comes
 * before 33; after either the catalogue is unchanged. The pointer must not be null, also where the length is 0.
 */
uint32_t bradovusc_withdraw(uint8_t *catalogue, size_t catalogue_length, size_t number);

/*
 * The list buffer. Checking again writes five bytes for each pair that is listed, directly behind those of the one before:
 *
 *   the lower number of the two rules, the higher one, the answer of the pair, its count in two bytes (low first)
 *
 * The answer is BRADOVUSC_CLASH, BRADOVUSC_NO_ROOM or BRADOVUSC_SIDE_TOO_LONG. So many bytes are always enough for this number of
 * rules; for 32 rules, which have 496 pairs, that is 2,480.
 */
#define BRADOVUSC_PAIR_BYTES 5
#define BRADOVUSC_LIST_BYTES(rules) (BRADOVUSC_PAIR_BYTES * ((size_t)(rules) * ((size_t)(rules) - 1) / 2))

/*
 * Where pairs are decided, there are seven bytes for each, since up to five searches count:
 *
 *   the lower number of the two rules, the higher one, the answer of the pair, its count in three bytes (low first), the attempt
 *
 * The attempt is the one that found the clash, 1 or 4 to 7 (2 and 3 find none), or 0 where none decided the pair. So many bytes are
 * always enough for this number of rules; for 32 rules that is 3,472.
 */
#define BRADOVUSC_DECIDED_PAIR_BYTES 7
#define BRADOVUSC_DECIDED_LIST_BYTES(rules) (BRADOVUSC_DECIDED_PAIR_BYTES * ((size_t)(rules) * ((size_t)(rules) - 1) / 2))

/*
 * What bradovusc_recheck and bradovusc_recheck_decided tell beside the number, by its index in `told`; both are 0 after 34 and 35.
 * Fewer elements than these are filled as far as there are any; elements behind them are left as they are.
 */
enum bradovusc_told_rechecked {
    /* the pairs that are listed */
    BRADOVUSC_RECHECKED_PAIRS = 0,
    /* bytes written to the list buffer: five for each of them, or seven where they are decided */
    BRADOVUSC_RECHECKED_WRITTEN = 1,
    BRADOVUSC_RECHECKED_TOLD = 2
};

/*
 * Checks every pair of the catalogue's rules again, the one with the lower number as the left side, each in the whole working
 * buffer. The pairs that are not answered 1 are listed, by the lower number, then the higher one: those that clash, and those that
 * are not decided. Where 0 is returned and no pair is listed, no two rules make the same label, wherever the catalogue is from. No
 * byte of it changes. Afterwards
 *
 *   number    list buffer                      working buffer
 *   0         the list, the rest unchanged     all zero; unchanged if fewer than two rules are there
 *   35        unchanged                        all zero
 *   34        unchanged                        unchanged
 *
 * 34 comes before 35. Any bytes and any lengths are taken, 0 included. Each pointer must be that of so many elements, and not null,
 * also where the length is 0; the four must not overlap.
 */
uint32_t bradovusc_recheck(const uint8_t *catalogue, size_t catalogue_length, uint8_t *work, size_t work_length, uint8_t *list,
                           size_t list_length, uint64_t *told, size_t told_length);

/*
 * The same, but each pair is asked as bradovusc_decide asks, and takes seven bytes of the list. So it lists no pair that
 * bradovusc_recheck doesn't list, and fewer that are not decided. What the buffers hold afterwards is as for bradovusc_recheck.
 */
uint32_t bradovusc_recheck_decided(const uint8_t *catalogue, size_t catalogue_length, uint8_t *work, size_t work_length,
                                   uint8_t *list, size_t list_length, uint64_t *told, size_t told_length);

/* An addition's answer: the number, and what is told beside it. bradovusc_enter has no attempt to tell: search is 0. */
struct bradovusc_added {
    uint32_t number;
    uint64_t count, place, rule;
    uint32_t pair;
    uint64_t search;
};

/* bradovusc_add with all five numbers at once, and each pointer may be null where its length is 0. This is the one to call. */
static inline struct bradovusc_added bradovusc_enter(uint8_t *catalogue, size_t catalogue_length, const uint8_t *rule,
                                                     size_t rule_length, uint8_t *work, size_t work_length) {
    uint8_t no_catalogue = 0, no_rule = 0, no_work = 0;
    uint64_t told[BRADOVUSC_ADDED_TOLD] = {0, 0, 0, 0};
    struct bradovusc_added added;
    added.number = bradovusc_add(catalogue == NULL && catalogue_length == 0 ? &no_catalogue : catalogue, catalogue_length,
                                 rule == NULL && rule_length == 0 ? &no_rule : rule, rule_length,
                                 work == NULL && work_length == 0 ? &no_work : work, work_length, told, BRADOVUSC_ADDED_TOLD);
    added.count = told[BRADOVUSC_ADDED_COUNT];
    added.place = told[BRADOVUSC_ADDED_PLACE];
    added.rule = told[BRADOVUSC_ADDED_RULE];
    added.pair = (uint32_t)told[BRADOVUSC_ADDED_PAIR];
    added.search = 0;
    return added;
}

/* bradovusc_add_decided with all six numbers at once, and each pointer may be null where its length is 0. This is the one to call. */
static inline struct bradovusc_added bradovusc_enter_decided(uint8_t *catalogue, size_t catalogue_length, const uint8_t *rule,
                                                             size_t rule_length, uint8_t *work, size_t work_length) {
    uint8_t no_catalogue = 0, no_rule = 0, no_work = 0;
    uint64_t told[BRADOVUSC_ADDED_DECIDED_TOLD] = {0, 0, 0, 0, 0};
    struct bradovusc_added added;
    added.number = bradovusc_add_decided(catalogue == NULL && catalogue_length == 0 ? &no_catalogue : catalogue, catalogue_length,
                                         rule == NULL && rule_length == 0 ? &no_rule : rule, rule_length,
                                         work == NULL && work_length == 0 ? &no_work : work, work_length, told,
                                         BRADOVUSC_ADDED_DECIDED_TOLD);
    added.count = told[BRADOVUSC_ADDED_COUNT];
    added.place = told[BRADOVUSC_ADDED_PLACE];
    added.rule = told[BRADOVUSC_ADDED_RULE];
    added.pair = (uint32_t)told[BRADOVUSC_ADDED_PAIR];
    added.search = told[BRADOVUSC_ADDED_SEARCH];
    return added;
}

/* bradovusc_withdraw, and the pointer may be null where the length is 0. This is the one to call. */
static inline uint32_t bradovusc_remove(uint8_t *catalogue, size_t catalogue_length, size_t number) {
    uint8_t no_catalogue = 0;
    return bradovusc_withdraw(catalogue == NULL && catalogue_length == 0 ? &no_catalogue : catalogue, catalogue_length, number);
}

/* What checking again answers: the number, and what is told beside it. */
struct bradovusc_rechecked {
    uint32_t number;
    uint64_t pairs, written;
};

/* bradovusc_recheck with all three numbers at once, and each pointer may be null where its length is 0. This is the one to call. */
static inline struct bradovusc_rechecked bradovusc_check_again(const uint8_t *catalogue, size_t catalogue_length, uint8_t *work,
                                                               size_t work_length, uint8_t *list, size_t list_length) {
    uint8_t no_catalogue = 0, no_work = 0, no_list = 0;
    uint64_t told[BRADOVUSC_RECHECKED_TOLD] = {0, 0};
    struct bradovusc_rechecked rechecked;
    rechecked.number =
        bradovusc_recheck(catalogue == NULL && catalogue_length == 0 ? &no_catalogue : catalogue, catalogue_length,
                          work == NULL && work_length == 0 ? &no_work : work, work_length,
                          list == NULL && list_length == 0 ? &no_list : list, list_length, told, BRADOVUSC_RECHECKED_TOLD);
    rechecked.pairs = told[BRADOVUSC_RECHECKED_PAIRS];
    rechecked.written = told[BRADOVUSC_RECHECKED_WRITTEN];
    return rechecked;
}

/* bradovusc_recheck_decided likewise. This is the one to call. */
static inline struct bradovusc_rechecked bradovusc_check_again_decided(const uint8_t *catalogue, size_t catalogue_length,
                                                                       uint8_t *work, size_t work_length, uint8_t *list,
                                                                       size_t list_length) {
    uint8_t no_catalogue = 0, no_work = 0, no_list = 0;
    uint64_t told[BRADOVUSC_RECHECKED_TOLD] = {0, 0};
    struct bradovusc_rechecked rechecked;
    rechecked.number = bradovusc_recheck_decided(catalogue == NULL && catalogue_length == 0 ? &no_catalogue : catalogue,
                                                 catalogue_length, work == NULL && work_length == 0 ? &no_work : work, work_length,
                                                 list == NULL && list_length == 0 ? &no_list : list, list_length, told,
                                                 BRADOVUSC_RECHECKED_TOLD);
    rechecked.pairs = told[BRADOVUSC_RECHECKED_PAIRS];
    rechecked.written = told[BRADOVUSC_RECHECKED_WRITTEN];
    return rechecked;
}

/*
 * A walk over the pairs of a list. For a list of bradovusc_check_again_decided it begins with bradovusc_decided_pairs_in instead, and
 * is otherwise the same.
 *
 *   struct bradovusc_pairs pairs = bradovusc_pairs_in(list, written);
 *   while (bradovusc_next_pair(&pairs)) {
 *       .. pairs.lower, pairs.higher, pairs.answer, pairs.count, pairs.search ..
 *   }
 */
struct bradovusc_pairs {
    /* the two rules, the answer of their pair and the situations entered for it: what the last bradovusc_next_pair found */
    uint64_t lower, higher;
    uint32_t answer;
    uint64_t count;
    /* the attempt that found a clash; 0 where none decided, and where pairs have five bytes, which don't tell it */
    uint64_t search;
    /* what is still to be walked, and the bytes of a pair */
    const uint8_t *rest;
    size_t rest_length, pair_bytes;
};

/* From the first pair on. `written` is what bradovusc_check_again has told; with 0 the pointer may be null. */
static inline struct bradovusc_pairs bradovusc_pairs_in(const uint8_t *list, size_t written) {
    struct bradovusc_pairs pairs;
    pairs.lower = 0;
    pairs.higher = 0;
    pairs.answer = 0;
    pairs.count = 0;
    pairs.search = 0;
    pairs.rest = list;
    pairs.rest_length = written;
    pairs.pair_bytes = BRADOVUSC_PAIR_BYTES;
    return pairs;
}

/* The same for what bradovusc_check_again_decided has listed. */
static inline struct bradovusc_pairs bradovusc_decided_pairs_in(const uint8_t *list, size_t written) {
    struct bradovusc_pairs pairs = bradovusc_pairs_in(list, written);
    pairs.pair_bytes = BRADOVUSC_DECIDED_PAIR_BYTES;
    return pairs;
}

/* 1 and the next pair, or 0: none is left, or fewer bytes are than a pair has. No byte behind the `written` ones is read. */
static inline int bradovusc_next_pair(struct bradovusc_pairs *pairs) {
    const uint8_t *bytes = pairs->rest;
    if (pairs->rest_length < pairs->pair_bytes) {
        return 0;
    }
    pairs->lower = bytes[0];
    pairs->higher = bytes[1];
    pairs->answer = bytes[2];
    pairs->count = bytes[3] + (uint64_t)256 * bytes[4];
    if (pairs->pair_bytes == BRADOVUSC_DECIDED_PAIR_BYTES) {
        pairs->count += (uint64_t)65536 * bytes[5];
        pairs->search = bytes[6];
    }
    pairs->rest = bytes + pairs->pair_bytes;
    pairs->rest_length -= pairs->pair_bytes;
    return 1;
}

/*
 * Carrying over. Up to version 0.5 a field without a pattern held any text, the empty one included. Since 0.6 it holds one
 * character or more. What relied on the old meaning must have the pattern 68 65 0 42, behind ED 196 193 0 127, for each such field.
 * The three functions below put it in, for each field that stands in a side and has no pattern: eight bytes for each of them. All
 * else stays byte for byte as it was. It is proved that the new sheet's question has exactly the solutions that the old meaning
 * gave the old sheet, that each rule makes the labels that it made before, and that what has nothing to add comes out unchanged.
 *
 * Carry over what is from before 0.6 once, and a catalogue before any rule is added to it. Nothing in the bytes says for which
 * version they were written: what was written for 0.6 would get another meaning. A catalogue from before 0.6 that is not carried over
 * has rules that make fewer labels than before, and a new rule could then make one that is in use. No pair has to be checked again
 * after it, with two exceptions: a catalogue from before 0.4, and one to which a rule was added by 0.6 first, should be carried over,
 * then checked again. What has stray patterns is refused, so drop them first, as below.
 *
 * So many bytes are always enough, which is proved: BRADOVUSC_SHEET_BYTES for a sheet, BRADOVUSC_RULE_BYTES for a rule, and
 * BRADOVUSC_CATALOGUE_BYTES(BRADOVUSC_RULES), 26,016, for a catalogue.
 */

/*
 * Writes the sheet, carried over. What is told has the indices of bradovusc_told: the count is 0, the place is that of a fault, and
 * written are the bytes of the new sheet. Afterwards
 *
 *   number            output buffer
 *   0                 the new sheet, the rest unchanged
 *   11 to 17          unchanged
 *   41                unchanged: the new sheet is longer
 *
 * Any bytes and any lengths are taken, 0 included. Each pointer must be that of so many elements, and not null, also where the
 * length is 0; the three must not overlap.
 */
uint32_t bradovusc_spell_open(const uint8_t *sheet, size_t sheet_length, uint8_t *out, size_t out_length, uint64_t *told,
                              size_t told_length);

/*
 * The same for a rule of a catalogue. After 11 to 17 and 22 comes 31, for a field above 3, which has no place; then 41. After each of
 * them the output buffer is unchanged.
 */
uint32_t bradovusc_spell_open_rule(const uint8_t *rule, size_t rule_length, uint8_t *out, size_t out_length, uint64_t *told,
                                   size_t told_length);

/*
 * Carries every rule of the catalogue over, in its own buffer. Afterwards
 *
 *   number            catalogue
 *   0                 the new rules, one behind the other, each with its number of before; then zero bytes
 *   32                unchanged: the new rules are longer than the buffer. Put the catalogue into a longer one, zero bytes behind it
 *   34                unchanged: it is no catalogue
 *
 * The pointer must not be null, also where the length is 0.
 */
uint32_t bradovusc_spell_open_catalogue(uint8_t *catalogue, size_t catalogue_length);

/* What carrying a sheet or a rule over answers: the number, and what is told beside it. */
struct bradovusc_carried {
    uint32_t number;
    uint64_t place, written;
};

/* bradovusc_spell_open with all three numbers at once; each pointer may be null where its length is 0. This is the one to call. */
static inline struct bradovusc_carried bradovusc_carry_sheet(const uint8_t *sheet, size_t sheet_length, uint8_t *out,
                                                             size_t out_length) {
    uint8_t no_sheet = 0, no_out = 0;
    uint64_t told[BRADOVUSC_TOLD] = {0, 0, 0};
    struct bradovusc_carried carried;
    carried.number = bradovusc_spell_open(sheet == NULL && sheet_length == 0 ? &no_sheet : sheet, sheet_length,
                                          out == NULL && out_length == 0 ? &no_out : out, out_length, told, BRADOVUSC_TOLD);
    carried.place = told[BRADOVUSC_PLACE];
    carried.written = told[BRADOVUSC_WRITTEN];
    return carried;
}

/* bradovusc_spell_open_rule likewise. This is the one to call. */
static inline struct bradovusc_carried bradovusc_carry_rule(const uint8_t *rule, size_t rule_length, uint8_t *out,
                                                            size_t out_length) {
    uint8_t no_rule = 0, no_out = 0;
    uint64_t told[BRADOVUSC_TOLD] = {0, 0, 0};
    struct bradovusc_carried carried;
    carried.number = bradovusc_spell_open_rule(rule == NULL && rule_length == 0 ? &no_rule : rule, rule_length,
                                               out == NULL && out_length == 0 ? &no_out : out, out_length, told, BRADOVUSC_TOLD);
    carried.place = told[BRADOVUSC_PLACE];
    carried.written = told[BRADOVUSC_WRITTEN];
    return carried;
}

/* bradovusc_spell_open_catalogue, and the pointer may be null where the length is 0. This is the one to call. */
static inline uint32_t bradovusc_carry_catalogue(uint8_t *catalogue, size_t catalogue_length) {
    uint8_t no_catalogue = 0;
    return bradovusc_spell_open_catalogue(catalogue == NULL && catalogue_length == 0 ? &no_catalogue : catalogue, catalogue_length);
}

/*
 * Dropping strays. Up to version 0.8 a sheet could have a pattern for a field that stands in neither side, and a rule one for a
 * field that does not stand in it. Such a stray pattern was checked and then ignored, and it misled whoever read the sheet. Now a
 * sheet or a rule with one is refused, with 22, and a buffer in which a rule has one is no catalogue, with 34.
 *
 * The three functions below read by the rule of before and leave the strays out. All else, ED included, stays byte for byte as it
 * was. It is proved that every answer about the new sheet is the one that was given about the old sheet, in every number and byte, by
 * bradovusc_clash, bradovusc_decide and bradovusc_plain; that each rule makes the labels that it made, and that the pairs of a
 * catalogue keep their answers and counts; that nothing that comes out has a stray pattern, and that what has none comes out
 * unchanged. So it may be done at any time, and again.
 *
 * What is from before 0.6 loses its strays first, and is then carried over. BRADOVUSC_SHEET_BYTES are always enough for a sheet, and
 * BRADOVUSC_RULE_BYTES for a rule; so are as many bytes as it has. A catalogue always fits into its own buffer.
 */

/*
 * Writes the sheet without its strays. What is told has the indices of bradovusc_told: the count is 0, the place is that of a fault,
 * and written are the bytes of the new sheet. Afterwards
 *
 *   number            output buffer
 *   0                 the new sheet, the rest unchanged
 *   11 to 17, 44      unchanged
 *   41                unchanged: the new sheet is longer
 *
 * Any bytes and any lengths are taken, 0 included. Each pointer must be that of so many elements, and not null, also where the
 * length is 0; the three must not overlap.
 */
uint32_t bradovusc_drop_strays(const uint8_t *sheet, size_t sheet_length, uint8_t *out, size_t out_length, uint64_t *told,
                               size_t told_length);

/*
 * The same for a rule of a catalogue. After 11 to 17 comes 31, for a field above 3, that of a stray pattern too, which has no place;
 * then 41. After each of them the output buffer is unchanged.
 */
uint32_t bradovusc_drop_strays_rule(const uint8_t *rule, size_t rule_length, uint8_t *out, size_t out_length, uint64_t *told,
                                    size_t told_length);

/*
 * Drops the strays of every rule of the catalogue, in its own buffer. Afterwards
 *
 *   number            catalogue
 *   0                 the new rules, one behind the other, each with its number of before; then zero bytes
 *   34                unchanged: it is no catalogue, by the old rule either
 *
 * The pointer must not be null, also where the length is 0.
 */
uint32_t bradovusc_drop_strays_catalogue(uint8_t *catalogue, size_t catalogue_length);

/* What dropping the strays of a sheet or a rule answers: the number, and what is told beside it. */
struct bradovusc_mended {
    uint32_t number;
    uint64_t place, written;
};

/* bradovusc_drop_strays with all three numbers at once; each pointer may be null where its length is 0. This is the one to call. */
static inline struct bradovusc_mended bradovusc_mend_sheet(const uint8_t *sheet, size_t sheet_length, uint8_t *out,
                                                           size_t out_length) {
    uint8_t no_sheet = 0, no_out = 0;
    uint64_t told[BRADOVUSC_TOLD] = {0, 0, 0};
    struct bradovusc_mended mended;
    mended.number = bradovusc_drop_strays(sheet == NULL && sheet_length == 0 ? &no_sheet : sheet, sheet_length,
                                          out == NULL && out_length == 0 ? &no_out : out, out_length, told, BRADOVUSC_TOLD);
    mended.place = told[BRADOVUSC_PLACE];
    mended.written = told[BRADOVUSC_WRITTEN];
    return mended;
}

/* bradovusc_drop_strays_rule likewise. This is the one to call. */
static inline struct bradovusc_mended bradovusc_mend_rule(const uint8_t *rule, size_t rule_length, uint8_t *out, size_t out_length) {
    uint8_t no_rule = 0, no_out = 0;
    uint64_t told[BRADOVUSC_TOLD] = {0, 0, 0};
    struct bradovusc_mended mended;
    mended.number = bradovusc_drop_strays_rule(rule == NULL && rule_length == 0 ? &no_rule : rule, rule_length,
                                               out == NULL && out_length == 0 ? &no_out : out, out_length, told, BRADOVUSC_TOLD);
    mended.place = told[BRADOVUSC_PLACE];
    mended.written = told[BRADOVUSC_WRITTEN];
    return mended;
}

/* bradovusc_drop_strays_catalogue, and the pointer may be null where the length is 0. This is the one to call. */
static inline uint32_t bradovusc_mend_catalogue(uint8_t *catalogue, size_t catalogue_length) {
    uint8_t no_catalogue = 0;
    return bradovusc_drop_strays_catalogue(catalogue == NULL && catalogue_length == 0 ? &no_catalogue : catalogue, catalogue_length);
}

/*
 * Full ASCII: the 128 characters 0 to 127, each spelt as one or two values of Code 39 by the table of ISO/IEC 16388. The signs $, /, + and
 * % are shift signs, and stand before a second value; so the character $ is spelt /D. Of the spellings of DEL only %T is used.
 *
 * It is proved that no two different texts are spelt alike, that reading back what was spelt gives the text, and that what is read back,
 * spelt again, gives the same values. So many bytes are always enough for the spelling of a text, which is proved too; to read back, as
 * many as the spelt text has.
 */
#define BRADOVUSC_SPELT_BYTES(characters) (2 * (size_t)(characters))

/*
 * Spells a text, a byte for each character, in values of Code 39, a byte for each value. What is told has the indices of bradovusc_told:
 * count and place are 0, and written are the values. Afterwards
 *
 *   number            output buffer
 *   0                 the values, the rest unchanged
 *   45                unchanged: a byte of the text is above 127
 *   46                unchanged: there are more values
 *
 * 45 comes before 46. Any bytes and any lengths are taken, 0 included. Each pointer must be that of so many elements, and not null, also
 * where the length is 0; the three must not overlap.
 */
uint32_t bradovusc_spell(const uint8_t *text, size_t text_length, uint8_t *out, size_t out_length, uint64_t *told,
                         size_t told_length);

/*
 * Reads a spelt text back, from the front: a value alone, or a shift sign and the value behind it. Told alike; 45 says that the values are
 * no spelt text: one is above 42, a shift sign is the last, or has a value behind it that it doesn't take, as in %X.
 */
uint32_t bradovusc_read_spelt(const uint8_t *spelt, size_t spelt_length, uint8_t *out, size_t out_length, uint64_t *told,
                              size_t told_length);

/* What spelling and reading back answer: the number, and the bytes written. */
struct bradovusc_spelt {
    uint32_t number;
    uint64_t written;
};

/* bradovusc_spell with both numbers at once; each pointer may be null where its length is 0. This is the one to call. */
static inline struct bradovusc_spelt bradovusc_spell_text(const uint8_t *text, size_t text_length, uint8_t *out, size_t out_length) {
    uint8_t no_text = 0, no_out = 0;
    uint64_t told[BRADOVUSC_TOLD] = {0, 0, 0};
    struct bradovusc_spelt spelt;
    spelt.number = bradovusc_spell(text == NULL && text_length == 0 ? &no_text : text, text_length,
                                   out == NULL && out_length == 0 ? &no_out : out, out_length, told, BRADOVUSC_TOLD);
    spelt.written = told[BRADOVUSC_WRITTEN];
    return spelt;
}

/* bradovusc_read_spelt likewise. This is the one to call. */
static inline struct bradovusc_spelt bradovusc_read_back(const uint8_t *spelt, size_t spelt_length, uint8_t *out, size_t out_length) {
    uint8_t no_spelt = 0, no_out = 0;
    uint64_t told[BRADOVUSC_TOLD] = {0, 0, 0};
    struct bradovusc_spelt read;
    read.number = bradovusc_read_spelt(spelt == NULL && spelt_length == 0 ? &no_spelt : spelt, spelt_length,
                                       out == NULL && out_length == 0 ? &no_out : out, out_length, told, BRADOVUSC_TOLD);
    read.written = told[BRADOVUSC_WRITTEN];
    return read;
}

/*
 * Two sides told apart by what is fixed in them. Fixed are the characters before a side's first field and those behind its last one.
 * The fronts differ if both sides have a character at some place, and the two are different. The ends are compared only where both
 * sides end with a character that is not the space; then from behind, in the same way.
 *
 * Returns 1 if fronts or ends differ. It is proved that this comes only if no texts at all, whatever the fields may hold, make both
 * sides the same label; so bradovusc_clash never finds one, whatever the patterns are. 0 says nothing, also of bytes that are no
 * tokens. No situation is entered and no buffer is lent: it is far cheaper than any search, and tells most pairs of rules apart.
 *
 * The edition is 0 for none, that is Code 39, and 2 for Full ASCII, as of bradovusc_write_edition; of any other it is 0. The sides are
 * tokens as a sheet of that edition has them, of any length. Each pointer must be that of so many elements, and not null, also where
 * the length is 0; the two may overlap.
 */
uint32_t bradovusc_fronts_differ(size_t edition, const uint8_t *left, size_t left_length, const uint8_t *right, size_t right_length);

/* bradovusc_fronts_differ, and each pointer may be null where its length is 0. This is the one to call. */
static inline uint32_t bradovusc_tell_apart(size_t edition, const uint8_t *left, size_t left_length, const uint8_t *right,
                                            size_t right_length) {
    uint8_t no_left = 0, no_right = 0;
    return bradovusc_fronts_differ(edition, left == NULL && left_length == 0 ? &no_left : left, left_length,
                                   right == NULL && right_length == 0 ? &no_right : right, right_length);
}

#ifdef __cplusplus
}
#endif

#endif
