/* What the C tests share: a claim is tried, printed, and counted if it fails; what each rule adds to the answer of an edit of an
   edge, which is faces + 65536 * rule; and what each face before it adds to a forecast, which is after + 65536 * rule + 2^32 * before. */
#ifndef CHECK_H
#define CHECK_H

#include <stdint.h>
#include <stdio.h>

enum { A = 65536, B1 = 2 * 65536, B2 = 3 * 65536, E = 4 * 65536 };
#define BEFORE INT64_C(4294967296)

static int failures = 0;

static void check(int holds, const char *claim) {
    printf("%s: %s\n", holds ? "ok" : "FAILED", claim);
    if (!holds) {
        failures++;
    }
}

/* The last line, and the exit status. */
static int verdict(void) {
    printf("%d failed\n", failures);
    return failures == 0 ? 0 : 1;
}

#endif
