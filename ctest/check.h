/* Checks of a C test: CHECK prints what fails, closed prints the counts and gives main's exit status. */
#ifndef CHECK_H
#define CHECK_H

#include <stdio.h>

static unsigned checks, failures;

static void check(int good, const char *what, const char *file, int line)
{
    checks++;
    if (!good) {
        failures++;
        printf("%s:%d: %s\n", file, line, what);
    }
}

#define CHECK(good) check((good) != 0, #good, __FILE__, __LINE__)

static int closed(const char *name)
{
    printf("%s: %u checks, %u failed\n", name, checks, failures);
    return failures == 0 ? 0 : 1;
}

#endif
