/* The program `trial` in plain C: `plain_trial START EDGES` writes a trial job to standard output. For bench/job. */

#include "plain.h"

#include <stdio.h>
#include <string.h>

enum { MOST_EDGES = 1024, MOST_BYTES = 32 + 10 * MOST_EDGES };

/* The number that is written in digits, at least one and in 4,096 bytes at most; -1 if it is above `most` or no number. */
static int64_t number(const char *text, int64_t most) {
    int64_t value = 0;
    if (*text == 0 || strlen(text) > 4096) {
        return -1;
    }
    for (; *text != 0; text++) {
        if (*text < '0' || *text > '9') {
            return -1;
        }
        value = 10 * value + (*text - '0');
        if (value > most) {
            return -1;
        }
    }
    return value;
}

int main(int argc, char **argv) {
    static uint8_t bytes[MOST_BYTES];
    int64_t start, edges, size;
    if (argc != 3) {
        fprintf(stderr, "usage: trial START EDGES\n");
        return 0;
    }
    start = number(argv[1], UINT32_MAX);
    if (start < 0) {
        fprintf(stderr, "trial: START is not a number from 0 to 4294967295\n");
        return 0;
    }
    edges = number(argv[2], MOST_EDGES);
    if (edges < 0) {
        fprintf(stderr, "trial: EDGES is not a number from 0 to 1024\n");
        return 0;
    }
    size = plain_trial_job((uint32_t)start, (uint32_t)edges, bytes, sizeof bytes);
    if (fwrite(bytes, 1, (size_t)size, stdout) != (size_t)size || fflush(stdout) != 0) {
        perror("standard output");
    }
    return 0;
}
