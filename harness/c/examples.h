/* What the C programs share: the comparison of an answer, and the run over all examples. */
#ifndef EXAMPLES_H
#define EXAMPLES_H

#include "jumelavorp.h"

#include <stdio.h>

/* Whether an answer is another than the one that is due; if so, it is shown. */
static int answer_differs(const char *name, jumelavorp_answer given, jumelavorp_answer due)
{
    if (given.number == due.number && given.place == due.place && given.count == due.count &&
        given.cost == due.cost) {
        return 0;
    }
    printf("%s: answer %lu, place %lu, count %lu, cost %ld\n", name, (unsigned long)given.number,
           (unsigned long)given.place, (unsigned long)given.count, (long)given.cost);
    return 1;
}

/* Tries the examples by their numbers, and stops at the first that differs. Returns what main does. */
static int try_all(const char *what, size_t count, int (*differs)(size_t))
{
    for (size_t i = 0; i < count; i++) {
        if (differs(i)) {
            return 1;
        }
    }
    printf("%s: %lu examples hold from C\n", what, (unsigned long)count);
    return 0;
}

#endif
