/* Arguments of one type, told apart: C goes by their places, so an exchange of two is seen by no compiler. Every value below is worked
   out by hand from documents 01 and 02, in the comment before it. Written so that a C++ compiler takes it too. */

#include "check.h"
#include "planner.h"

#include <stddef.h>
#include <stdint.h>
#include <string.h>

enum { WORDS = PLANNER_TABLE_WORDS, LONE = PLANNER_LONE_CORNER };

static uint16_t table[WORDS];

/* Begins again with the vertices from..to, isolated. */
static int begin(uint16_t from, uint16_t to) {
    int fine = planner_empty(table, WORDS) == 0;
    uint16_t v;
    for (v = from; v <= to; v++) {
        fine = fine && planner_add_vertex(table, WORDS, v) == v - from + 1;
    }
    return fine;
}

static int64_t insert(uint16_t e, int c1, int c2, int16_t k, uint16_t length) {
    return planner_insert_edge(table, WORDS, e, (uint16_t)c1, (uint16_t)c2, k, length);
}

static uint16_t next(int d) {
    return table[PLANNER_NEXT_AT + d];
}

static uint16_t leaves(int d) {
    return table[PLANNER_LEAVES_AT + d];
}

static uint16_t edge(int e) {
    return table[PLANNER_EDGE_AT + e];
}

static uint16_t vertex(int v) {
    return table[PLANNER_VERTEX_AT + v];
}

static uint16_t length(int e) {
    return table[PLANNER_LENGTH_AT + e];
}

/* v, e, c1, c2, k, length, amount. */
static void try_the_edits(void) {
    check(begin(0, 1) && vertex(0) == PLANNER_ISOLATED && vertex(1) == PLANNER_ISOLATED && vertex(2) == PLANNER_NOTHING,
          "vertices 0 and 1 are added, and no other");
    /* Dart 6 = 2*3 goes into c1, the corner of vertex 0; dart 7 into c2, that of vertex 1. Turns 2 are the word 102. */
    check(insert(3, LONE + 0, LONE + 1, 2, 700) == 1 + A, "edge 3 joins two faces");
    check(leaves(6) == 0 && leaves(7) == 1 && vertex(0) == 6 && vertex(1) == 7, "dart 2e is at c1, dart 2e+1 at c2");
    check(edge(3) == 102 && edge(2) == 0, "edge 3 has two turns");
    check(length(3) == 700 && length(2) == 0, "and a length of 700");
    /* e = 2, k = 3 and the length 5; corner 6 is at vertex 0 and corner 7 at vertex 1. Dart 4 goes just before 6, dart 5 just before 7. */
    check(insert(2, 6, 7, 3, 5) >= 0 && edge(2) == 103 && edge(3) == 102, "e and k: edge 2 has three turns, not edge 3 two");
    check(length(2) == 5 && length(3) == 700, "k and length: three turns and a length of 5, not five turns");
    check(leaves(4) == 0 && next(4) == 6 && next(6) == 4 && leaves(5) == 1 && next(5) == 7 && next(7) == 5, "c1 and c2 again, among darts");
    /* With c1 = c2 = 4 the order is old, 2e, 2e+1, d: 6, 0, 1, 4. */
    check(insert(0, 4, 4, 0, 1) >= 0 && next(6) == 0 && next(0) == 1 && next(1) == 4, "one corner: 2e comes before 2e+1");
    /* e = 3 and amount = 2: the word of edge 3 goes from 102 to 104, that of edge 2 stays 103 and would be 106. */
    check(planner_turn_edge(table, WORDS, 3, 2) >= 0 && edge(3) == 104 && edge(2) == 103, "e and amount");
    check(planner_delete_edge(table, WORDS, 2) >= 0 && edge(2) == 0 && edge(3) == 104, "edge 2 is deleted, and no other");
    check(length(2) == 0 && length(3) == 700 && length(0) == 1, "its length goes with it");
    check(planner_add_vertex(table, WORDS, 5) >= 0 && planner_add_vertex(table, WORDS, 6) >= 0 && planner_remove_vertex(table, WORDS, 5) >= 0,
          "vertices 5 and 6 come and 5 goes");
    check(vertex(5) == PLANNER_NOTHING && vertex(6) == PLANNER_ISOLATED, "vertex 6 stays");
}

/* e, c1, c2, k, length, amount, forecast, on the edges 3 and 2 of the edits above. Edge 3 has two turns and the walk (6, 0), (7, 0), which meets both
   corners with type 0. So edge 2 with three turns leaves its one face one, with two it would make it two; edge 3 is passed by both darts. */
static void try_the_forecasts(void) {
    check(begin(0, 1) && insert(3, LONE + 0, LONE + 1, 2, 700) == 1 + A, "edge 3 again");
    check(planner_ask_insert_edge(table, WORDS, 2, 6, 7, 3, 2) == BEFORE + B2 + 1 &&
              planner_ask_insert_edge(table, WORDS, 2, 6, 7, 2, 3) == BEFORE + B1 + 2,
          "ask, insertion: e, c1, c2 and k");
    check(planner_ask_insert_edge(table, WORDS, 2, 6, 7, 0, 3) == BEFORE + B1 + 2 &&
              planner_ask_insert_edge(table, WORDS, 2, 6, 7, 3, 0) == -PLANNER_FAR,
          "ask, insertion: 0 turns, and a length of 0");
    check(planner_ask_turn_edge(table, WORDS, 3, 2) == BEFORE + E + 1 && planner_ask_turn_edge(table, WORDS, 3, 1) == BEFORE + B2 + 1,
          "ask, turn: e and amount");
    check(planner_ask_delete_edge(table, WORDS, 3) == BEFORE + B1 + 2, "ask, deletion: e");
    check(planner_commit_insert_edge(table, WORDS, 2, 6, 7, 3, 5, BEFORE + B2 + 1) == 1 + B2 && edge(2) == 103 && edge(3) == 102,
          "commit, insertion: e and k");
    check(length(2) == 5 && length(3) == 700, "commit, insertion: length");
    check(leaves(4) == 0 && next(4) == 6 && next(6) == 4 && leaves(5) == 1 && next(5) == 7 && next(7) == 5, "commit, insertion: c1 and c2");
    check(planner_commit_turn_edge(table, WORDS, 3, 2, BEFORE + E + 1) == 1 + E && edge(3) == 104 && edge(2) == 103, "commit, turn: e and amount");
    /* Now the walk is (4, 0), (7, 1), (4, 1), (7, 0): by dart 4 twice, so without edge 2 one face is one. */
    check(planner_commit_delete_edge(table, WORDS, 2, BEFORE + B2 + 1) == 1 + B2 && edge(2) == 0 && edge(3) == 104, "commit, deletion: e");
}

/* The words that the counts and the parts write, all different.
   At 9: a chain over the vertices 9 to 13, 4 edges and one face; a twisted loop (one corner, its type twice is even, k odd: 0 faces more);
   two flat loops (one more each). V 5, E 7, F 3, V-E+F 1; not orientable, for a twisted loop has one vertex at its ends.
   At 20: an isolated vertex, V 1, E 0, F 1, V-E+F 2, orientable. */
static void try_the_counts(void) {
    static const int32_t five[] = {6, 7, 4, 2, 3};
    static const int32_t rows[] = {9, 5, 7, 3, 1, 0, 20, 1, 0, 1, 2, 1};
    int32_t out[12];
    int fine = begin(9, 13) && insert(0, LONE + 9, LONE + 10, 0, 16) == 4 + A && insert(1, 1, LONE + 11, 0, 16) == 3 + A &&
               insert(2, 3, LONE + 12, 0, 16) == 2 + A && insert(3, 5, LONE + 13, 0, 16) == 1 + A;
    check(fine, "a chain of five vertices");
    check(insert(4, 0, 0, 1, 16) == 1 + B2 && insert(5, 0, 0, 0, 16) == 2 + B1 && insert(6, 0, 0, 0, 16) == 3 + B1, "three loops");
    check(planner_add_vertex(table, WORDS, 20) == 4, "a vertex alone");
    check(planner_counts(table, WORDS, out, 5) == 5 && memcmp(out, five, sizeof five) == 0, "V 6, E 7, F 4, 2 parts, Euler number 3");
    check(planner_parts(table, WORDS, out, 12) == 12 && memcmp(out, rows, sizeof rows) == 0, "vertex, V, E, F, Euler number, mark of each part");
}

/* Steps (0, 1) and (1, 0) on two ribbons. Loops 0 and 1 of one turn at vertex 0: around it stand 0, 3, 1, 2. Edge 2 of turns -2 goes from
   corner 2 to vertex 1: 0, 3, 1, 4, 2. Loop 0 stays on one face, its one corner's type taken twice and one turn being odd; loop 1 splits it, its
   corners having types 0 and 1; edge 2 joins vertex 1's face to another.
   From (0, 1): type 0, next after 1 is 4; (4, 0): type stays, next after 5 is 5; (5, 0): next after 4 is 2; (2, 0): type 1, before 3 is 0; (0, 1).
   From (1, 0): type 1, before 0 is 2; (2, 1): type 0, next after 3 is 1; (1, 0).
   Letters of (0, 1): U; (4, 0) with turns -2: U O; (5, 0): U O; (2, 0): O. Letters of (1, 0): O; (2, 1): U. So the whole paths have six
   pieces and two, and Close.
   Cut lengths: the edges, of lengths 1, 10 and 100, 8 for each O, 320 for the lap. The first ribbon has three O's, the second one. */
static void try_dart_and_type(void) {
    static int32_t points[3 * PLANNER_VERTICES], lifts[3 * PLANNER_EDGES];
    uint8_t letters[6];
    uint16_t kinds[7], remainders[21];
    float coords[15];
    int32_t wholes[21];
    check(begin(0, 1) && insert(0, LONE, LONE, 1, 1) == 2 + B2 && insert(1, 0, 1, 1, 10) == 3 + B1 && insert(2, 2, LONE + 1, -2, 100) == 2 + A,
          "two ribbons");
    check(planner_alternates(table, WORDS, 0, 1) == 0 && planner_alternates(table, WORDS, 1, 0) == 1, "alternates: dart and type");
    check(planner_letters(table, WORDS, 0, 1, letters, 6) == 6 && memcmp(letters, "UUOUOO", 6) == 0, "letters of dart 0, type 1");
    check(planner_letters(table, WORDS, 1, 0, letters, 6) == 2 && memcmp(letters, "OU", 2) == 0, "letters of dart 1, type 0");
    check(planner_cut_length(table, WORDS, 0, 1) == 1 + 100 + 100 + 10 + 3 * 8 + 320, "cut length of dart 0, type 1");
    check(planner_cut_length(table, WORDS, 1, 0) == 1 + 10 + 8 + 320, "cut length of dart 1, type 0");
    check(planner_float_path(table, WORDS, 0, 1, points, 1536, lifts, 3072, kinds, 5, coords, 15) == -PLANNER_MANY_TURNS &&
              planner_float_path(table, WORDS, 1, 0, points, 1536, lifts, 3072, kinds, 5, coords, 15) == 3,
          "float path: dart and type");
    check(planner_whole_path(table, WORDS, 0, 1, points, 1536, lifts, 3072, kinds, 7, wholes, 21, remainders, 21) == 7 &&
              planner_whole_path(table, WORDS, 1, 0, points, 1536, lifts, 3072, kinds, 7, wholes, 21, remainders, 21) == 3,
          "whole path: dart and type");
}

/* p and m, and the four words of a ribbon. The mesh of the two ribbons above, with lengths of 5,000, 11,000 and 20,000. From (0, 0): type 1,
   before 1 is 3; (3, 1): type 0, next after 2 is 0. So the ribbon over edges 0 and 1 alone is listed first, with one O: 16,328, two metres less
   15,672. The other one has three O's: 56,344, four metres less 7,656.
   150 cents a metre and 400 at least: 400 and 600. 400 a metre and 150 at least: 800 and 1,600. */
static void try_the_price_sheet(void) {
    static const uint32_t rows[] = {16328, 2, 15672, 400, 56344, 4, 7656, 600, 77};
    static const uint32_t exchanged[] = {16328, 2, 15672, 800, 56344, 4, 7656, 1600, 77};
    uint32_t out[9];
    out[8] = 77;
    check(begin(0, 1) && insert(0, LONE, LONE, 1, 5000) == 2 + B2 && insert(1, 0, 1, 1, 11000) == 3 + B1 && insert(2, 2, LONE + 1, -2, 20000) == 2 + A,
          "two ribbons of more than a metre");
    check(planner_price_sheet(table, WORDS, 150, 400, out, 9) == 1000 && memcmp(out, rows, sizeof rows) == 0,
          "length, metres, unused and price of each ribbon, and the sum");
    check(planner_price_sheet(table, WORDS, 400, 150, out, 9) == 2400 && memcmp(out, exchanged, sizeof exchanged) == 0, "p and m");
    memset(out, 0xa5, sizeof out);
    check(planner_price_sheet(table, WORDS, 400, 150, out, 7) == -PLANNER_SHORT_SLICE && out[0] == 0xa5a5a5a5u &&
              memcmp(out, out + 1, sizeof out - sizeof out[0]) == 0,
          "seven words are too short for them, and stay");
}

/* A chain of edge 0 with one turn from vertex 0 to 1, edge 1 with none to 2, edge 2 with turns -1 to 3; their lengths are 100, 1,000 and
   10,000. Around vertex 1 stand 1 and 2, around vertex 2 stand 3 and 4. The walk from (0, 0), and its letters:
   (0, 0) type 1, before 1 is 2: O. (2, 1) before 3 is 4. (4, 1) type 0, next after 5 is 5: with negative turns O. (5, 0) type 1, before 4 is 3: U.
   (3, 1) before 2 is 1. (1, 1) type 0, next after 0 is 0: U. */
static int build_the_chain(void) {
    return begin(0, 3) && insert(0, LONE, LONE + 1, 1, 100) == 3 + A && insert(1, 1, LONE + 2, 0, 1000) == 2 + A &&
           insert(2, 3, LONE + 3, -1, 10000) == 1 + A;
}

/* Points and lifts, and kinds of a piece. In sixteenths, times 32: a+b+2l over, a+b-2l under, a+b flat.
   Edge 0: a+b = (32, 64, 96), 2l = (32, 16, -32): over (64, 80, 64), under (0, 48, 128).
   Edge 1: a+b = (128, 224, 128), flat, whatever its lift is.
   Edge 2: a+b = (256, 192, -32), 2l = (-64, 32, 96): over (192, 224, 64), under (320, 160, -128). */
static void try_points_and_lifts(void) {
    static const int32_t at[] = {0, 0, 0, 32, 64, 96, 96, 160, 32, 160, 32, -64};
    static const int32_t lift[] = {16, 8, -16, 5, 6, 7, -32, 16, 48};
    static const uint16_t expected_kinds[] = {PLANNER_OVER, PLANNER_FLAT, PLANNER_OVER, PLANNER_UNDER, PLANNER_FLAT, PLANNER_UNDER, PLANNER_CLOSE};
    static const float expected[] = {2.0f,  2.5f, 2.0f,  4.0f, 7.0f, 4.0f, 6.0f, 7.0f, 2.0f, 10.0f, 5.0f,
                                     -4.0f, 4.0f, 7.0f,  4.0f, 0.0f, 1.5f, 4.0f, 0.0f, 0.0f, 0.0f};
    /* Both slices are long enough for either, so that an exchange is no short slice. */
    static int32_t points[3 * PLANNER_EDGES], lifts[3 * PLANNER_EDGES];
    uint16_t kinds[7];
    float coords[21];
    memcpy(points, at, sizeof at);
    memcpy(lifts, lift, sizeof lift);
    check(build_the_chain(), "the chain");
    check(planner_float_path(table, WORDS, 0, 0, points, 3072, lifts, 3072, kinds, 7, coords, 21) == 7, "seven pieces");
    check(PLANNER_FLAT == 0 && PLANNER_OVER == 1 && PLANNER_UNDER == 2 && PLANNER_CLOSE == 3, "0 flat, 1 over, 2 under, 3 close");
    check(memcmp(kinds, expected_kinds, sizeof kinds) == 0, "over, flat, over, under, flat, under, close");
    check(memcmp(coords, expected, sizeof coords) == 0, "the middles of the ends, with the lift added or taken away");
    /* Points reach to 65,536 and lifts to 4,096: 4,097 is a point and no lift. */
    points[0] = 4097;
    check(planner_float_path(table, WORDS, 0, 0, points, 3072, lifts, 3072, kinds, 7, coords, 21) == 7, "4,097 is a point");
    lifts[0] = 4097;
    check(planner_float_path(table, WORDS, 0, 0, points, 3072, lifts, 3072, kinds, 7, coords, 21) == -PLANNER_FAR, "4,097 is no lift");
    /* 1,536 points and 3,072 lifts are enough, one fewer of either is not. */
    lifts[0] = 0;
    check(planner_float_path(table, WORDS, 0, 0, points, 1536, lifts, 3072, kinds, 7, coords, 21) == 7 &&
              planner_float_path(table, WORDS, 0, 0, points, 3072, lifts, 1536, kinds, 7, coords, 21) == -PLANNER_SHORT_SLICE,
          "1,536 points are enough, 1,536 lifts are not");
}

/* The chain with two turns more on edge 0 and as many fewer on edge 2: 3 and -3, so that the walk stays. Points and lifts again, and what the
   three outputs of a whole path hold. Crossings of edge 0, from (0, 0, 0) to (30, -10, 7), by 6: x 30, 90, 150 are 5, 15, 25; y -10, -30, -50
   are -2 and 2 left, -5, -9 and 4 left; z 7, 21, 35 are 1 and 1 left, 3 and 3 left, 5 and 5 left. Edge 1, from there to (31, -13, 7), by 2: x 1
   is 0 and 1 left, y -3 is -2 and 1 left, z 0. Edge 2, from there to (25, -13, 11), by 6: x -6, -18, -30 are -1, -3, -5; y 0; z 4, 12, 20 are 0
   and 4 left, 2, 3 and 2 left.
   Lifts (100, 200, 300), (5, 6, 7), (1000, 2000, 3000). Steps and letters: (0, 0) O U O; (2, 1); (4, 1) O U O; (5, 0) U O U from the second end;
   (3, 1); (1, 1) U O U from the second end. */
static void try_the_whole_path(void) {
    enum { O = PLANNER_OVER, U = PLANNER_UNDER, F = PLANNER_FLAT };
    static const int32_t at[] = {0, 0, 0, 30, -10, 7, 31, -13, 7, 25, -13, 11};
    static const int32_t lift[] = {100, 200, 300, 5, 6, 7, 1000, 2000, 3000};
    static const uint16_t expected_kinds[] = {O, U, O, F, O, U, O, U, O, U, F, U, O, U, PLANNER_CLOSE};
    static const int32_t expected[] = {
        105,  198,   301,   -85,  -205, -297, 125,  191,   305,   /* (0, 0) */
        30,   -12,   7,                                           /* (2, 1) */
        1030, 1987,  3007,  -972, -2013, -2991, 1026, 1987, 3010, /* (4, 1) */
        -974, -2013, -2990, 1028, 1987, 3009, -970, -2013, -2993, /* (5, 0) */
        30,   -12,   7,                                           /* (3, 1) */
        -75,  -209,  -295,  115,  195,  303,  -95,  -202,  -299,  /* (1, 1) */
        0,    0,     0};
    static const uint16_t expected_remainders[] = {
        0, 2, 1, 0, 0, 3, 0, 4, 5, /* (0, 0) */
        1, 1, 0,                   /* (2, 1) */
        0, 0, 4, 0, 0, 0, 0, 0, 2, /* (4, 1) */
        0, 0, 2, 0, 0, 0, 0, 0, 4, /* (5, 0) */
        1, 1, 0,                   /* (3, 1) */
        0, 4, 5, 0, 0, 3, 0, 2, 1, /* (1, 1) */
        0, 0, 0};
    static int32_t points[3 * PLANNER_EDGES], lifts[3 * PLANNER_EDGES];
    /* Kinds and remainders are long enough for either, so that an exchange is no short slice. */
    uint16_t kinds[45], remainders[45];
    int32_t coords[45];
    memcpy(points, at, sizeof at);
    memcpy(lifts, lift, sizeof lift);
    check(build_the_chain() && planner_turn_edge(table, WORDS, 0, 2) == 1 + E && planner_turn_edge(table, WORDS, 2, -2) == 1 + E, "three turns");
    check(planner_whole_path(table, WORDS, 0, 0, points, 3072, lifts, 3072, kinds, 45, coords, 45, remainders, 45) == 15, "fifteen pieces");
    check(memcmp(kinds, expected_kinds, sizeof expected_kinds) == 0, "over, under and flat in the order of travel, then close");
    check(memcmp(coords, expected, sizeof expected) == 0, "the crossings from the first end, with the lift added or taken away");
    check(memcmp(remainders, expected_remainders, sizeof expected_remainders) == 0, "and what is left of each");
    points[0] = 4097;
    check(planner_whole_path(table, WORDS, 0, 0, points, 3072, lifts, 3072, kinds, 45, coords, 45, remainders, 45) == 15, "4,097 is a point");
    lifts[0] = 4097;
    check(planner_whole_path(table, WORDS, 0, 0, points, 3072, lifts, 3072, kinds, 45, coords, 45, remainders, 45) == -PLANNER_FAR,
          "4,097 is no lift");
    lifts[0] = 0;
    check(planner_whole_path(table, WORDS, 0, 0, points, 1536, lifts, 3072, kinds, 15, coords, 45, remainders, 45) == 15 &&
              planner_whole_path(table, WORDS, 0, 0, points, 3072, lifts, 1536, kinds, 15, coords, 45, remainders, 45) == -PLANNER_SHORT_SLICE,
          "1,536 points are enough, 1,536 lifts are not");
    check(planner_whole_path(table, WORDS, 0, 0, points, 3072, lifts, 3072, kinds, 15, coords, 45, remainders, 15) == -PLANNER_SHORT_SLICE &&
              planner_whole_path(table, WORDS, 0, 0, points, 3072, lifts, 3072, kinds, 15, coords, 15, remainders, 45) == -PLANNER_SHORT_SLICE,
          "15 kinds are enough, 15 words or remainders are not");
}

/* Where the reader stands, and where its walk began. */
static struct planner_reader reader;
static struct planner_tally tally;

static int64_t step(void) {
    return planner_walk_step(table, WORDS, &reader, &tally);
}

static void stand(uint16_t dart, uint16_t type, uint16_t start_dart, uint16_t start_type) {
    reader.dart = dart;
    reader.type = type;
    reader.start_dart = start_dart;
    reader.start_type = start_type;
}

static int stands(uint16_t dart, uint16_t type, uint16_t start_dart, uint16_t start_type) {
    return reader.dart == dart && reader.type == type && reader.start_dart == start_dart && reader.start_type == start_type;
}

static void count_from(uint32_t steps, uint32_t overs, uint32_t unders, uint32_t length) {
    tally.steps = steps;
    tally.overs = overs;
    tally.unders = unders;
    tally.length = length;
}

static int counted(uint32_t steps, uint32_t overs, uint32_t unders, uint32_t length) {
    return tally.steps == steps && tally.overs == overs && tally.unders == unders && tally.length == length;
}

/* The walk of the chain, step by step; the tally begins at four different numbers. A step brings its edge's
   length, 8 if it goes over, and 320 if it is the last. */
static void try_the_reader(void) {
    const uint32_t most = 4294967295u;
    check(build_the_chain(), "the chain again");
    stand(4, 1, 3, 1);
    count_from(5, 70, 900, 11000);
    check(step() == 0 && stands(5, 0, 3, 1) && counted(6, 71, 900, 21008), "step (4, 1) goes over on edge 2, and (5, 0) comes next");
    check(step() == 1 && stands(3, 1, 3, 1) && counted(7, 71, 901, 31328), "step (5, 0) goes under, and the walk ends there with the lap");
    check(step() == 0 && stands(1, 1, 3, 1) && counted(8, 71, 901, 32328), "step (3, 1) is flat");
    /* The step and the start, exchanged: after (2, 1) comes (4, 1), and after (4, 1) comes (5, 0). */
    stand(2, 1, 4, 1);
    check(step() == 1, "a reader at (2, 1) that began at (4, 1) ends");
    stand(4, 1, 2, 1);
    check(step() == 0, "a reader at (4, 1) that began at (2, 1) goes on");
    /* Dart and type of the start: (0, 1) comes after (1, 0), which type 1 leaves by the dart before 0. */
    stand(1, 0, 0, 1);
    check(step() == 1 && stands(0, 1, 0, 1), "a reader at (1, 0) that began at (0, 1) ends");
    stand(1, 0, 1, 0);
    check(step() == 0 && stands(0, 1, 1, 0), "a reader at (1, 0) that began there goes on");
    /* Step (4, 1) adds 1 to the steps and the overs, 0 to the unders and 10,008 to the length: one field at a time has no room for it. */
    stand(4, 1, 4, 1);
    count_from(most, 0, 0, 0);
    check(step() == -PLANNER_OVERTURNED && counted(most, 0, 0, 0), "no room for the steps");
    count_from(0, most, 0, 0);
    check(step() == -PLANNER_OVERTURNED && counted(0, most, 0, 0) && stands(4, 1, 4, 1), "no room for the overs");
    count_from(0, 0, 0, most - 10007);
    check(step() == -PLANNER_OVERTURNED && counted(0, 0, 0, most - 10007), "no room for the length");
    count_from(0, 0, most, most - 10008);
    check(step() == 0 && counted(1, 1, most, most), "the unders need none");
    /* Step (1, 0) that began at (0, 1) is the last and goes over: 100 + 8 + 320. */
    stand(1, 0, 0, 1);
    count_from(0, 0, 0, most - 427);
    check(step() == -PLANNER_OVERTURNED && counted(0, 0, 0, most - 427) && stands(1, 0, 0, 1), "no room for all of length, O and lap");
    count_from(0, 0, 0, most - 428);
    check(step() == 1 && counted(1, 1, 0, most) && stands(0, 1, 0, 1), "room for all of them");
}

/* start and edges. A record of a vertex has 4 bytes, of an edge 10: one edge is 42 bytes, two are 52. Each draw as the state, the state by 65,536,
   and that modulo 8 or 3.
   From 2: 1,017,233,273, 15,521, 1; 1,975,575,172, 30,144, 0; 811,535,379, 12,383, 2, less 1 is 1. Edge 0 from vertex 1 to vertex 0, both
   isolated, with one turn.
   From 1: 1,015,568,748, 15,496, 0; 1,586,005,467, 24,200, 0; 2,165,703,038, 33,046, 1, less 1 is 0. Edge 0 is a loop at vertex 0, isolated: its
   corner twice. Then 3,027,450,565, 46,195, 3; 217,083,232, 3,312, 0; 1,587,069,247, 24,216, 0, less 1 is -1. Edge 1 from vertex 3, isolated,
   to vertex 0, whose smallest dart is 0. */
static void try_the_trial_job(void) {
    static const uint8_t vertices[] = {'A', 'V', 0, 0, 'A', 'V', 0, 1, 'A', 'V', 0, 2, 'A', 'V', 0, 3,
                                       'A', 'V', 0, 4, 'A', 'V', 0, 5, 'A', 'V', 0, 6, 'A', 'V', 0, 7};
    static const uint8_t from_2[] = {'I', 'E', 0, 0, 0x80, 1, 0x80, 0, 0, 1};
    static const uint8_t from_1[] = {'I', 'E', 0, 0, 0x80, 0, 0x80, 0, 0, 0, 'I', 'E', 0, 1, 0x80, 3, 0, 0, 0xff, 0xff};
    uint8_t out[53];
    out[42] = out[52] = 0xa5;
    check(planner_trial_job(2, 1, out, 53) == 42 && out[42] == 0xa5, "one edge from 2");
    check(memcmp(out, vertices, 32) == 0 && memcmp(out + 32, from_2, sizeof from_2) == 0, "eight vertices, then edge 0 by draws from 2");
    check(planner_trial_job(1, 2, out, 53) == 52 && out[52] == 0xa5, "two edges from 1");
    check(memcmp(out, vertices, 32) == 0 && memcmp(out + 32, from_1, sizeof from_1) == 0, "eight vertices, then edges 0 and 1 by draws from 1");
    check(planner_trial_job(1025, 1, out, 42) == 42 && planner_trial_job(1, 1025, out, 53) == -PLANNER_MANY_EDGES,
          "1,025 is a start and no number of edges");
}

/* mark, name, c1, c2, k and length, every byte of them another. A mark is two letters: "AV" is 41 56, "RV" 52 56. -2 is fffe in two's complement,
   -32,768 is 8000. Then document 01's job of three records, 20 bytes. */
static void try_the_job_record(void) {
    static const uint8_t insertion[] = {'I', 'E', 1, 2, 3, 4, 5, 6, 7, 8, 0xa5, 0xa5};
    static const uint8_t with_length[] = {'I', 'L', 1, 2, 3, 4, 5, 6, 7, 8, 9, 10};
    static const uint8_t turn[] = {'T', 'W', 1, 2, 7, 8, 0xa5, 0xa5, 0xa5, 0xa5, 0xa5, 0xa5};
    static const uint8_t job[] = {0x41, 0x56, 0, 0, 0x49, 0x45, 0, 0, 0x80, 0, 0x80, 0, 0, 1, 0x54, 0x57, 0, 1, 0, 1};
    static const struct {
        uint16_t mark;
        uint8_t bytes[4];
    } single[] = {{PLANNER_MARK_AV, {'A', 'V', 1, 2}}, {PLANNER_MARK_RV, {'R', 'V', 1, 2}}, {PLANNER_MARK_DE, {'D', 'E', 1, 2}}};
    uint8_t out[20];
    int i, fine = 1;
    memset(out, 0xa5, sizeof out);
    check(planner_job_record(PLANNER_MARK_IE, 0x0102, 0x0304, 0x0506, 0x0708, 0x090a, out, 12) == 10 && memcmp(out, insertion, 12) == 0,
          "an insertion: name, c1, c2 and k");
    check(planner_job_record(PLANNER_MARK_IL, 0x0102, 0x0304, 0x0506, 0x0708, 0x090a, out, 13) == 12 && memcmp(out, with_length, 12) == 0 &&
              out[12] == 0xa5,
          "an insertion with its length: name, c1, c2, k and length");
    check(planner_job_record(PLANNER_MARK_IL, 1, 2, 3, 4, 5, out, 11) == -PLANNER_SHORT_SLICE && memcmp(out, with_length, 12) == 0,
          "11 bytes are too short for it, and stay");
    memset(out, 0xa5, sizeof out);
    check(planner_job_record(PLANNER_MARK_TW, 0x0102, 0x0304, 0x0506, 0x0708, 0x090a, out, 12) == 6 && memcmp(out, turn, 12) == 0,
          "a turn: name and k");
    for (i = 0; i < 3; i++) {
        memset(out, 0xa5, sizeof out);
        fine = fine && planner_job_record(single[i].mark, 0x0102, 0x0304, 0x0506, 0x0708, 0x090a, out, 12) == 4;
        fine = fine && memcmp(out, single[i].bytes, 4) == 0;
        fine = fine && out[4] == 0xa5 && memcmp(out + 4, out + 5, 7) == 0;
    }
    check(fine, "a vertex added, a vertex removed, an edge deleted: name alone");
    check(planner_job_record(PLANNER_MARK_AV, PLANNER_MARK_RV, 0, 0, 0, 0, out, 4) == 4 && memcmp(out, "AVRV", 4) == 0 &&
              planner_job_record(PLANNER_MARK_RV, PLANNER_MARK_AV, 0, 0, 0, 0, out, 4) == 4 && memcmp(out, "RVAV", 4) == 0,
          "mark and name");
    check(planner_job_record(PLANNER_MARK_TW, 0, 0, 0, -2, 0, out, 6) == 6 && memcmp(out, "TW\0\0\xff\xfe", 6) == 0 &&
              planner_job_record(PLANNER_MARK_IE, 65535, 0, 65535, -32768, 0, out, 10) == 10 && memcmp(out, "IE\xff\xff\0\0\xff\xff\x80\0", 10) == 0,
          "two's complement, and numbers that no edit takes");
    check(planner_job_record(PLANNER_MARK_IL, 65535, 0, 65535, -32768, 0, out, 12) == 12 && memcmp(out, "IL\xff\xff\0\0\xff\xff\x80\0\0\0", 12) == 0,
          "a length of 0 is written as it is");
    check(planner_job_record(PLANNER_MARK_IL, 1, 2, 3, 4, 16, out, 12) == 12 && memcmp(out, "IL\0\1\0\2\0\3\0\4\0\x10", 12) == 0,
          "and so is 16, which an IE would insert");
    check(planner_job_record(PLANNER_MARK_AV, 0, 0, 0, 0, 0, out, 20) == 4 &&
              planner_job_record(PLANNER_MARK_IE, 0, LONE, LONE, 1, 0, out + 4, 16) == 10 &&
              planner_job_record(PLANNER_MARK_TW, 1, 0, 0, 1, 0, out + 14, 6) == 6 && memcmp(out, job, 20) == 0,
          "one after the other, the printed job");
}

int main(void) {
    try_the_edits();
    try_the_forecasts();
    try_the_counts();
    try_dart_and_type();
    try_the_price_sheet();
    try_points_and_lifts();
    try_the_whole_path();
    try_the_reader();
    try_the_trial_job();
    try_the_job_record();
    return verdict();
}
