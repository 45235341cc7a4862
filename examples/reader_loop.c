/* Reads a ribbon one step at a time, with a tally: three poles, a strip with one turn between each two of them. Lengths are in sixteenths of a
   millimetre. */
#include "planner.h"

#include <stdio.h>

static uint16_t table[PLANNER_TABLE_WORDS];

int main(void) {
    const size_t words = PLANNER_TABLE_WORDS;
    struct planner_tally tally = {0, 0, 0, 0};
    struct planner_reader reader = {0, 0, 0, 0}; /* it stands at dart 0, type 0, and began there */
    int64_t ends = 0;
    uint16_t v;

    planner_empty(table, words);
    for (v = 0; v < 3; v++) {
        planner_add_vertex(table, words, v);
    }
    planner_insert_edge(table, words, 0, PLANNER_LONE_CORNER + 0, PLANNER_LONE_CORNER + 1, 1, 16 * 500);
    planner_insert_edge(table, words, 1, 1, PLANNER_LONE_CORNER + 2, 1, 16 * 600);
    planner_insert_edge(table, words, 2, 3, 0, 1, 16 * 700 + 8);

    while (ends == 0) {
        const unsigned dart = reader.dart, type = reader.type; /* the step that the call hands out */
        ends = planner_walk_step(table, words, &reader, &tally);
        if (ends < 0) {
            printf("declined with %d\n", (int)-ends);
            return 1;
        }
        printf("%u/%u: %u steps, %u over, %u under, %u.%04u mm\n", dart, type, (unsigned)tally.steps, (unsigned)tally.overs,
               (unsigned)tally.unders, (unsigned)(tally.length / 16), (unsigned)(tally.length % 16 * 625));
    }
    return 0;
}
