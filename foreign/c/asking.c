/* Tries what bradovusc_asking.h promises: each status, the zero byte behind the lines, memory that is lent, and pointers that are null. */
#include "bradovusc_asking.h"

#include <stdio.h>
#include <string.h>

static int failed;

static void hold(int good, const char *what)
{
    if (!good) {
        printf("not so: %s\n", what);
        failed = 1;
    }
}

/* Whether a request gets this status, and an answer that has this part. */
static void answers(const char *request, uint32_t wanted, const char *part)
{
    char *lines = NULL, *lent;
    size_t length = 0, given = strlen(request), i;
    lent = bradovusc_lend(given);
    for (i = 0; i <= given; i++) hold(lent[i] == 0, "memory that is lent is zero");
    memcpy(lent, request, given);
    hold(bradovusc_request(lent, given, &lines, &length) == wanted, request);
    hold(memcmp(lent, request, given) == 0, "the request is only read");
    bradovusc_forget(lent, given);
    hold(lines != NULL && strlen(lines) == length, "a zero byte stands behind the lines, and none in them");
    hold(length == 0 || lines[length - 1] == '\n', "the last line is ended");
    hold(strstr(lines, part) != NULL, part);
    bradovusc_forget(lines, length);
}

int main(void)
{
    char *lines;
    size_t length;
    answers("{\"rules\": \"a = A{x}\\nb = {x}B\\n\"}", BRADOVUSC_STATUS_CLASH, "\"label\":\"AB\"");
    answers("{\"rules\": \"a = A{x}\\nb = B{x}\\n\"}", BRADOVUSC_STATUS_GOOD, "\"answer\":\"no clash\"");
    answers("{\"rules\": \"a = A\\n\"}", BRADOVUSC_STATUS_GOOD, "");
    answers("{\"rules\": \"a = {x}A{y}\\nb = {z}B{z}\\n\", \"room\": 2}", BRADOVUSC_STATUS_NOT_DECIDED, "\"limit\":\"room\"");
    answers("{\"rules\": \"a = A{x\\n\"}", BRADOVUSC_STATUS_FAULT, "\"line\":1,\"column\":6");
    answers("{\"rules\": 7}", BRADOVUSC_STATUS_FAULT, "'rules' in the request is no text");
    answers("", BRADOVUSC_STATUS_FAULT, "the request is no JSON");
    answers("{\"rules\": \"\"}", BRADOVUSC_STATUS_NO_RULE, "has no rule");
    hold(bradovusc_request(NULL, 0, &lines, &length) == BRADOVUSC_STATUS_FAULT, "a null pointer of length 0");
    bradovusc_forget(lines, length);
    bradovusc_forget(NULL, 0);
    /* a zero byte within is a byte as others are */
    hold(bradovusc_request("{}\0", 3, &lines, &length) == BRADOVUSC_STATUS_FAULT, "a zero byte in a request");
    hold(strstr(lines, "something stands behind the value, at byte 2") != NULL, "and its place");
    bradovusc_forget(lines, length);
    if (!failed) puts("all is as the header says");
    return failed;
}
