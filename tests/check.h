/* What the tests share: a check that says what does not hold and where. */
#ifndef CHECK_H
#define CHECK_H

#include <stdio.h>

static int failures = 0;

static void check(int holds, const char *what, int line)
{
    if (!holds) {
        printf("line %d: %s\n", line, what);
        failures++;
    }
}
#define CHECK(e) check((e), #e, __LINE__)

#endif
