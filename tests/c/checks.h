/* What the tests of birnenschloss.h share: each defines TEST, its name, first. The first answer or
 * condition that is not as it should be is printed, and ends the test with 1. */
#ifndef CHECKS_H
#define CHECKS_H

#include <stdio.h>
#include <stdlib.h>
#include <string.h>

#include "birnenschloss.h"

static unsigned answers;

static void require(int holds, int line, const char *what)
{
    if (!holds) {
        printf(TEST ":%d: %s\n", line, what);
        exit(1);
    }
}

static void answered(birnenschloss_answer a, uint32_t number, uint32_t value, int line)
{
    answers++;
    if (a.number != number || a.value != value) {
        printf(TEST ":%d: answered %lu with %lu, should be %lu with %lu\n", line,
               (unsigned long)a.number, (unsigned long)a.value, (unsigned long)number,
               (unsigned long)value);
        exit(1);
    }
}

#define ANSWERS(call, number, value) answered(call, number, value, __LINE__)
#define REQUIRE(condition) require(condition, __LINE__, "does not hold: " #condition)

/* These look at all that is lent: one variable, lent, with a second like it, before. */
#define NOTE_BYTES() memcpy(&before, &lent, sizeof lent)
#define SAME_BYTES() require(memcmp(&before, &lent, sizeof lent) == 0, __LINE__, "bytes changed")

/* A call that must be refused, and leave all lent bytes. */
#define REFUSES(call, number)     \
    do {                          \
        NOTE_BYTES();             \
        ANSWERS(call, number, 0); \
        SAME_BYTES();             \
    } while (0)

#endif
