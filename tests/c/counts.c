/* The counts, the parts and the letters as a C host calls them, on two parts that can be counted by hand: a triangle of
   turns 0 with both its faces, and a loop of turns 1 at a vertex of its own. Written so that a C++ compiler takes it too. */

#include "check.h"
#include "planner.h"

#include <stddef.h>
#include <stdint.h>
#include <string.h>

enum { WORDS = 8704, GUARD = -77 };

static uint16_t table[WORDS];
static uint16_t before[WORDS];
static int32_t out[16];

static void clear(void) {
    size_t i;
    for (i = 0; i < sizeof out / sizeof out[0]; i++) {
        out[i] = GUARD;
    }
}

static int same(const int32_t *expected, size_t count) {
    return memcmp(out, expected, count * sizeof out[0]) == 0 && out[count] == GUARD;
}

/* Vertices 1, 2, 3 with edges 0, 1, 2 between them, and vertex 9 with the loop 7. */
static void build(void) {
    check(planner_empty(table, WORDS) == 0, "the empty mesh");
    check(planner_add_vertex(table, WORDS, 1) == 1 && planner_add_vertex(table, WORDS, 2) == 2 &&
              planner_add_vertex(table, WORDS, 3) == 3 && planner_add_vertex(table, WORDS, 9) == 4,
          "four vertices, four faces");
    check(planner_insert_edge(table, WORDS, 0, 32768 + 1, 32768 + 2, 0, 16) == 3 + A, "an edge joins two faces");
    check(planner_insert_edge(table, WORDS, 1, 1, 32768 + 3, 0, 16) == 2 + A, "a second one");
    check(planner_insert_edge(table, WORDS, 2, 3, 0, 0, 16) == 3 + B1, "the third closes the triangle and splits its face");
    check(planner_insert_edge(table, WORDS, 7, 32768 + 9, 32768 + 9, 1, 16) == 3 + B2, "a twisted loop keeps its one face");
}

static void try_the_counts(void) {
    static const int32_t five[] = {4, 4, 3, 2, 3};
    static const int32_t rows[] = {1, 3, 3, 2, 2, 1, 9, 1, 1, 1, 1, 0};
    memcpy(before, table, sizeof table);
    clear();
    check(planner_counts(table, WORDS, out, 5) == 5 && same(five, 5), "V 4, E 4, F 3, two parts, Euler number 3");
    clear();
    check(planner_counts(table, WORDS, out, 16) == 5 && same(five, 5), "nothing is written past the five");
    clear();
    check(planner_counts(table, WORDS, out, 4) == -7 && out[0] == GUARD, "four words are too short for them");
    check(planner_parts(table, WORDS, out, 12) == 12 && same(rows, 12), "a sphere at vertex 1, a projective plane at 9");
    clear();
    check(planner_parts(table, WORDS, out, 11) == -7 && out[0] == GUARD, "eleven words are too short for two parts");
    check(planner_counts(table, WORDS - 1, out, 4) == -1 && planner_parts(table, WORDS - 1, out, 4) == -1,
          "torn comes before short");
    check(planner_counts(NULL, 0, NULL, 0) == -1 && planner_parts(NULL, 0, NULL, 0) == -1, "no words are torn");
    check(memcmp(before, table, sizeof table) == 0, "the table is only read");
}

static void try_the_letters(void) {
    uint8_t letters[3] = {'-', '-', '-'};
    check(planner_letters(table, WORDS, 14, 0, letters, 3) == 2 && memcmp(letters, "OU-", 3) == 0, "the loop: over, under");
    check(planner_letters(table, WORDS, 14, 1, letters, 2) == 2 && memcmp(letters, "UO-", 3) == 0, "from its other step");
    check(planner_letters(table, WORDS, 0, 0, letters, 0) == 0, "no letters on flat edges");
    check(planner_alternates(table, WORDS, 14, 0) == 1 && planner_plain(table, WORDS) == 1, "a plain weave");
}

int main(void) {
    build();
    try_the_counts();
    try_the_letters();
    return verdict();
}
