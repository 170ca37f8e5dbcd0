/* Facts that must hold, each with its place if it does not; and their counts. */
#ifndef CHECK_H
#define CHECK_H

#include <stdio.h>

static int checks, failures;

#define CHECK(fact) check((fact) != 0, #fact, __FILE__, __LINE__)

static void check(int holds, const char *fact, const char *file, int line)
{
    checks++;
    if (!holds) {
        failures++;
        fprintf(stderr, "%s:%d: not so: %s\n", file, line, fact);
    }
}

#endif /* CHECK_H */
