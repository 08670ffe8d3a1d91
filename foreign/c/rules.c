/* Asks about two rules as text. It prints what rules.stdout has. */
#include "bradovusc_asking.h"

#include <stdio.h>
#include <string.h>

static const char request[] =
    "{\"rules\": \""
    "mortice = LT{size}{finish}\\n  size = [0-9][0-9]\\n  finish = BR | CH | SS\\n"
    "rim = LT{set}C{turn}\\n  set = [0-9]+\\n  turn = H | K | T\\n"
    "\"}";

int main(void)
{
    char *lines;
    size_t length;
    uint32_t status = bradovusc_request(request, strlen(request), &lines, &length);
    if (status == BRADOVUSC_STATUS_CLASH)
        puts("they clash:");
    else if (status == BRADOVUSC_STATUS_GOOD)
        puts("no label can be made by both:");
    else if (status == BRADOVUSC_STATUS_NOT_DECIDED)
        puts("not decided, so they may well clash:");
    else
        puts("no answer:");
    /* one object for each pair, or for each mistake */
    fputs(lines, stdout);
    bradovusc_forget(lines, length);
    return 0;
}
