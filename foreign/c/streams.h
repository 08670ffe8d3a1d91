/*
 * What the programs that answer a stream share: its cases, numbers of several bytes, lent buffers, and how a line says what they hold.
 */
#ifndef STREAMS_H
#define STREAMS_H

#include <inttypes.h>
#include <stdbool.h>
#include <stdint.h>
#include <stdio.h>
#include <stdlib.h>
#include <string.h>

#include "bradovusc.h"

enum { WORK_FILL = 90 };

static inline uint64_t low_first(const uint8_t *bytes, size_t length) {
    uint64_t number = 0;
    while (length-- > 0) {
        number = number * 256 + bytes[length];
    }
    return number;
}

/* A buffer of just this length; one byte where none is asked for. */
static inline uint8_t *lend(size_t length, int fill) {
    uint8_t *buffer = malloc(length > 0 ? length : 1);
    if (buffer == NULL) {
        fputs("no memory\n", stderr);
        exit(EXIT_FAILURE);
    }
    return memset(buffer, fill, length);
}

/* Every byte is this one: the first is, and each is the one before it. */
static inline bool all(const uint8_t *bytes, size_t length, uint8_t byte) {
    return length == 0 || (bytes[0] == byte && memcmp(bytes, bytes + 1, length - 1) == 0);
}

static inline void print_each(const uint8_t *bytes, size_t length) {
    for (size_t i = 0; i < length; i++) {
        printf(" %02x", bytes[i]);
    }
}

static inline void print_lent(const uint8_t *bytes, size_t length, uint8_t fill) {
    if (all(bytes, length, fill)) {
        fputs(" unchanged", stdout);
    } else {
        print_each(bytes, length);
    }
}

/* The working buffer. */
static inline void print_work(const uint8_t *work, size_t length) {
    fputs(", work", stdout);
    if (all(work, length, 0)) {
        fputs(" all zero", stdout);
    } else {
        print_lent(work, length, WORK_FILL);
    }
}

/* What a case of a stream asks: the lengths of the lent buffers, and the sheet. */
struct stream_case {
    size_t work_length, answer_length, sheet_length;
    const uint8_t *sheet;
};

/*
 * Hands each case on standard input to a function. A case is the length of the working buffer in four bytes, that of the answer buffer in
 * four, that of the sheet in two (low byte first), and the sheet. The exit status for main: a stream that stops inside a case fails.
 */
static inline int each_case(const char *name, void (*answer_case)(const struct stream_case *)) {
    enum { HEAD = 10, LONGEST_SHEET = 65535 };
    static uint8_t head[HEAD], sheet[LONGEST_SHEET];
    size_t read;
    while ((read = fread(head, 1, HEAD, stdin)) == HEAD) {
        struct stream_case given = {low_first(head, 4), low_first(head + 4, 4), low_first(head + 8, 2), sheet};
        if (fread(sheet, 1, given.sheet_length, stdin) != given.sheet_length) {
            break;
        }
        answer_case(&given);
    }
    if (read != 0) {
        fprintf(stderr, "%s: the stream stops inside a case\n", name);
        return EXIT_FAILURE;
    }
    return EXIT_SUCCESS;
}

/* What stands behind a case: bytes, with their length in two bytes before them (low byte first). */
struct handed {
    size_t length;
    uint8_t bytes[65535];
};

/* Reads them; a stream that stops there fails. */
static inline void read_handed(const char *name, struct handed *handed) {
    uint8_t length[2] = {0, 0};
    bool there = fread(length, 1, sizeof length, stdin) == sizeof length;
    handed->length = (size_t)low_first(length, sizeof length);
    if (!there || fread(handed->bytes, 1, handed->length, stdin) != handed->length) {
        fprintf(stderr, "%s: the stream stops inside a case\n", name);
        exit(EXIT_FAILURE);
    }
}

/* A buffer of which so many bytes are written. */
static inline void print_front(const uint8_t *answer, size_t answer_length, uint64_t written, uint8_t fill) {
    if (written <= answer_length) {
        fputs(", written", stdout);
        print_each(answer, written);
        fputs(", rest", stdout);
        print_lent(answer + written, answer_length - written, fill);
    } else {
        fputs(", more than the answer buffer", stdout);
        print_each(answer, answer_length);
    }
}

/* The beginning of a line: number, count, place and written length, and every byte of the buffer that is written. */
static inline void print_written(uint32_t number, const uint64_t *told, const uint8_t *answer, size_t answer_length, uint8_t fill) {
    uint64_t written = told[BRADOVUSC_WRITTEN];
    printf("%" PRIu32 " %" PRIu64 " %" PRIu64 " %" PRIu64, number, told[BRADOVUSC_COUNT], told[BRADOVUSC_PLACE], written);
    print_front(answer, answer_length, written, fill);
}

/* The line of an answer, but for its end: the same, and every byte of the working buffer. */
static inline void print_answer(uint32_t number, const uint64_t *told, const uint8_t *answer, size_t answer_length, uint8_t fill,
                                const uint8_t *work, size_t work_length) {
    print_written(number, told, answer, answer_length, fill);
    print_work(work, work_length);
}

#endif
