/* Claims that are checked, counted and printed. */
#ifndef CHECKS_H
#define CHECKS_H

#include <stdio.h>

static unsigned int checks;
static unsigned int failures;

static void check(int holds, const char *subject, const char *claim)
{
    checks++;
    if (!holds)
        failures++;
    printf("%s %s: %s\n", holds ? "ok" : "FAILED", subject, claim);
}

#endif
