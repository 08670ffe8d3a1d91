/*
 * Bradovusc for C, with rules as text: one function, a request in JSON in, the objects that the tool prints out.
 *
 * The rules are in the notation of docs/NOTATION.md, and a mistake in them is told with its line and column. The fields of a rule are
 * its own, whatever those of another rule are called. A request is one object:
 *
 *     {"rules": "mortice = LT{size}{finish}\n  size = [0-9]{2}\nrim = LT{set}C{turn}\n"}
 *
 * asks of every pair of the rules of a text, and
 *
 *     {"left": {"template": "LT{size}{finish}", "fields": {"size": "[0-9]{2}"}}, "right": {"template": "LT{set}C{turn}"}}
 *
 * of two rules. docs/NOTATION.md, section JSON, has all keys, and those of the objects: one for each pair, one a line.
 *
 * The shared library libbradovusc_asking.so defines the three functions; the proved library is inside it. They keep nothing from one
 * call to the next, so calls in several threads don't meet. A thread with 512 KiB of stack is enough; 192 were, in what was tried.
 * What is answered is what the proved library says; the notation and all else around it is tested, not proved.
 *
 * The header is C99 and C++11.
 */
#ifndef BRADOVUSC_ASKING_H
#define BRADOVUSC_ASKING_H

#include <stddef.h>
#include <stdint.h>

#ifdef __cplusplus
extern "C" {
#endif

/*
 * What bradovusc_request hands back: the tool's exit status. "Not decided" is neither yes nor no: the rules may well clash.
 */
enum bradovusc_status {
    BRADOVUSC_STATUS_GOOD = 0,        /* no two of the rules clash */
    BRADOVUSC_STATUS_CLASH = 1,       /* two rules clash, whatever else is not decided */
    BRADOVUSC_STATUS_NOT_DECIDED = 2, /* something is not decided, and no clash is known */
    BRADOVUSC_STATUS_FAULT = 3,       /* mistakes in the rules, no rule of that name, or a request that is none */
    BRADOVUSC_STATUS_FAILURE = 4,     /* a fault of the library around the proved one: it never should come */
    BRADOVUSC_STATUS_NO_RULE = 5      /* a text without a rule */
};

/*
 * Answers a request of request_length bytes, in UTF-8. *lines becomes the objects of the answer, one a line, each line ended, of
 * *lines_length bytes, with a zero byte behind them. They are the caller's until bradovusc_forget takes them back. A null pointer of
 * length 0 is a request, though none that is good.
 */
uint32_t bradovusc_request(const char *request, size_t request_length, char **lines, size_t *lines_length);

/* Takes the lines of an answer back, with their length. A null pointer is let be. */
void bradovusc_forget(char *lines, size_t lines_length);

/*
 * Memory of so many bytes, all zero, and one more, for a request: for callers that have none of their own, such as a page in a browser.
 * bradovusc_forget takes it back, with its length.
 */
char *bradovusc_lend(size_t length);

#ifdef __cplusplus
}
#endif

#endif
