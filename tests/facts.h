/* What tests in C require. Where it does not hold, its place, its words and both numbers are said, and the test ends. */
#ifndef FACTS_H
#define FACTS_H

#include <inttypes.h>
#include <stdbool.h>
#include <stdio.h>
#include <stdlib.h>

static size_t comparisons;
static char doing[100]; /* said where a fact does not hold */

#define holds(fact) require((fact), #fact, __FILE__, __LINE__)
#define same(wanted, got) require_same((uint64_t)(wanted), (uint64_t)(got), #got, __FILE__, __LINE__)

static inline void require(bool fact, const char *what, const char *file, int line)
{
    comparisons++;
    if (!fact) {
        fprintf(stderr, "%s:%d: not %s %s\n", file, line, what, doing);
        exit(1);
    }
}

static inline void require_same(uint64_t wanted, uint64_t got, const char *what, const char *file, int line)
{
    if (wanted != got)
        fprintf(stderr, "%s: %" PRIu64 ", wanted %" PRIu64 "\n", what, got, wanted);
    require(wanted == got, what, file, line);
}

#endif
