/*
 * A host to start from. It builds a small shell through the library and prints a line for each edit: how many faces there are
 * now, and why. Then it asks for the counts and prints the price sheet, as CSV and as an aligned table: for each ribbon its cut
 * length, the metres that it starts, how far the last of them is unused, and its price; then their sum. Last it makes ropework of
 * two strips and prints a ribbon's path over them, point by point. Build it with -I include and libplanner.a.
 */
#include "planner.h"

#include <stdio.h>
#include <stdlib.h>

enum { WORDS = PLANNER_TABLE_WORDS, LISTING = 4096, RIBBONS = PLANNER_DARTS, PIECES = PLANNER_DARTS * 99 + 1 };
enum { POINTS = 3 * PLANNER_VERTICES, LIFTS = 3 * PLANNER_EDGES, FLOATS = 3 * (PLANNER_DARTS + 1) };
#define LONE(v) (PLANNER_LONE_CORNER + (v))

/* What the shop asks: for each metre that a ribbon starts, and for a ribbon at least. */
enum { CENTS_A_METRE = 240, LEAST_CENTS = 500 };

static uint16_t table[WORDS];
static uint16_t listing[LISTING];

/* The price sheet: for each ribbon four words, in this order. There are no more ribbons than darts: each is listed from its own. */
enum { LENGTH, METRES, UNUSED, PRICE, ROW };
static uint32_t sheet[ROW * RIBBONS];

/* A path: what is lent, in sixteenths of a millimetre, and what is written. */
static int32_t points[POINTS], lifts[LIFTS];
static uint16_t forms[PIECES], remainders[3 * PIECES];
static int32_t coords[3 * PIECES];
static float floats[FLOATS];

/* A pavilion: poles 0 to 3 below, 4 to 7 above them; a strip with one turn along each of its twelve sides. Each strip
   has the corners that its two ends go into, and its length. */
static const struct {
    uint16_t first, second;
    double millimetres;
} strips[] = {
    {LONE(0), LONE(1), 2400.0}, {1, LONE(2), 1800.5}, {3, LONE(3), 2400.0}, {5, 0, 1800.5}, /* the sills */
    {0, LONE(4), 1950.25}, {2, LONE(5), 1950.25}, {4, LONE(6), 1950.25}, {6, LONE(7), 1950.25}, /* the posts */
    {9, 11, 2400.0}, {11, 13, 1800.5}, {13, 15, 2400.0}, {15, 16, 1800.5}, /* the eaves */
};
enum { POLES = 8, STRIPS = sizeof strips / sizeof strips[0] };

/* A ring hangs in it: a strip with one turn, looped at a pole of its own. */
enum { HOOK = POLES, RING = STRIPS };
static const double ring_millimetres = 489.75;

/* The answer of a call, or the end of the program: every call answers 0 or more, or minus the number of a refusal. */
static int64_t ask(int64_t answer, const char *what) {
    if (answer < 0) {
        fprintf(stderr, "%s: declined with %d\n", what, (int)-answer);
        exit(1);
    }
    return answer;
}

/* Why there are more faces now, or fewer: the rule in an accepted edit's answer. */
static const char *why(int64_t answer) {
    switch (PLANNER_RULE(answer)) {
    case PLANNER_RULE_A:
        return "two faces became one";
    case PLANNER_RULE_B1:
        return "one face became two";
    case PLANNER_RULE_B2:
        return "one face stayed one";
    case PLANNER_RULE_E:
        return "an even number of turns: no face changed";
    default: /* a pole has no rule */
        return "a pole alone is a face";
    }
}

/* The line of an edit: what it did, to the pole or strip of which number, and its answer. */
static void print_edit(const char *what, int number, int64_t answer) {
    char edit[32];
    snprintf(edit, sizeof edit, "%s %d", what, number);
    ask(answer, edit);
    printf("%-12s %7d  %s\n", edit, (int)PLANNER_FACES(answer), why(answer));
}

static long sixteenths(double millimetres) {
    return (long)(16.0 * millimetres + 0.5);
}

/* A strip's length as the table has it, in 16 bits. A longer strip would be cut off to some other length, which the library cannot see. */
static uint16_t length_of(double millimetres) {
    const long length = sixteenths(millimetres);
    if (length < 1 || length > 65535) {
        fprintf(stderr, "a strip of %g mm: a length is from 1 to 65535 sixteenths\n", millimetres);
        exit(1);
    }
    return (uint16_t)length;
}

static void build(void) {
    uint16_t i;
    ask(planner_empty(table, WORDS), "empty mesh");
    printf("%-12s %7s  %s\n", "edit", "faces", "why");
    for (i = 0; i < POLES; i++) {
        print_edit("add pole", i, planner_add_vertex(table, WORDS, i));
    }
    for (i = 0; i < STRIPS; i++) {
        const uint16_t length = length_of(strips[i].millimetres);
        print_edit("add strip", i, planner_insert_edge(table, WORDS, i, strips[i].first, strips[i].second, 1, length));
    }
    print_edit("add pole", HOOK, planner_add_vertex(table, WORDS, HOOK));
    print_edit("add strip", RING, planner_insert_edge(table, WORDS, RING, LONE(HOOK), LONE(HOOK), 1, length_of(ring_millimetres)));
    printf("\n");
}

static void print_counts(void) {
    int32_t counts[5];
    ask(planner_counts(table, WORDS, counts, 5), "counts");
    printf("%d poles, %d strips, %d walks, %d parts, Euler number %d, %s weave\n\n", (int)counts[0], (int)counts[1],
           (int)counts[2], (int)counts[3], (int)counts[4], ask(planner_plain(table, WORDS), "plain") ? "plain" : "mixed");
}

/* Whole millimetres, and sixteenths as four decimals: nothing is rounded. */
static const char *millimetres(uint32_t sixteenths, char *text, size_t size) {
    snprintf(text, size, "%lu.%04lu", (unsigned long)(sixteenths / 16), (unsigned long)(sixteenths % 16 * 625));
    return text;
}

/* A ribbon is a walk with steps, so every listed walk but those of the isolated poles. */
static int count_ribbons(void) {
    int32_t counts[5];
    int v, ribbons;
    ask(planner_counts(table, WORDS, counts, 5), "counts");
    ribbons = (int)counts[2];
    for (v = 0; v < PLANNER_VERTICES; v++) {
        ribbons -= table[PLANNER_VERTEX_AT + v] == PLANNER_ISOLATED;
    }
    return ribbons;
}

static void print_rows(const char *format, int ribbons) {
    char length[32], unused[32];
    int i;
    for (i = 0; i < ribbons; i++) {
        const uint32_t *row = sheet + ROW * i;
        printf(format, i, millimetres(row[LENGTH], length, sizeof length), (unsigned long)row[METRES],
               millimetres(row[UNUSED], unused, sizeof unused), (unsigned long)row[PRICE]);
    }
}

/* One call fills the sheet, a row for each ribbon in the order of the listing, and answers the sum of the prices. It is lent as much
   as the ribbons need; a host that counted too few of them would be declined. */
static void print_sheet(void) {
    const int ribbons = count_ribbons();
    const int64_t sum = ask(planner_price_sheet(table, WORDS, CENTS_A_METRE, LEAST_CENTS, sheet, ROW * ribbons), "price sheet");
    printf("ribbon,length mm,metres,unused mm,cents\n");
    print_rows("%d,%s,%lu,%s,%lu\n", ribbons);
    printf("sum,,,,%lld\n\n", (long long)sum);
    printf("%-8s%12s%8s%12s%8s\n", "ribbon", "length mm", "metres", "unused mm", "cents");
    print_rows("%-8d%12s%8lu%12s%8lu\n", ribbons);
    printf("%-8s%40lld\n", "sum", (long long)sum);
}

/* Where the poles stand, and how far a ribbon is lifted where it crosses: 10 mm, across a post and upward elsewhere. */
static void place(void) {
    static const double corners[4][2] = {{0.0, 0.0}, {2400.0, 0.0}, {2400.0, 1800.5}, {0.0, 1800.5}};
    int i;
    for (i = 0; i < POLES; i++) {
        points[3 * i] = (int32_t)sixteenths(corners[i % 4][0]);
        points[3 * i + 1] = (int32_t)sixteenths(corners[i % 4][1]);
        points[3 * i + 2] = i < 4 ? 0 : (int32_t)sixteenths(1950.25);
    }
    for (i = 0; i < STRIPS; i++) {
        lifts[3 * i + (i / 4 == 1 ? 1 : 2)] = 16 * 10;
    }
}

/* A piece on a strip of n crossings. Each coordinate is a whole number and a remainder, which counts parts of 2n. */
static void print_piece(long piece, int strip, int n) {
    static const char *const names[] = {"flat", "over", "under", "close"};
    int axis;
    printf("%-8d%-5s", strip, names[forms[piece]]);
    for (axis = 0; axis < 3; axis++) {
        printf("%9d %d/%d", (int)coords[3 * piece + axis], (int)remainders[3 * piece + axis], 2 * n);
    }
    printf("\n");
}

/* The path of the first listed ribbon: where it meets each strip, and each crossing of one with several turns. */
static void print_path(void) {
    uint16_t dart, type;
    long i, steps, piece = 0;
    int64_t in_floats, pieces;
    ask(planner_listing(table, WORDS, listing, LISTING), "listing");
    steps = listing[0];
    dart = listing[1] / 2;
    type = listing[1] % 2;
    in_floats = planner_float_path(table, WORDS, dart, type, points, POINTS, lifts, LIFTS, forms, PIECES, floats, FLOATS);
    pieces = planner_whole_path(table, WORDS, dart, type, points, POINTS, lifts, LIFTS, forms, PIECES, coords, 3 * PIECES,
                                remainders, 3 * PIECES);
    ask(pieces, "whole path");
    printf("ribbon 0: the float path answers %d; the whole path has %d pieces, the last of them Close\n", (int)in_floats,
           (int)pieces);
    printf("%-8s%-5s%13s%13s%13s   sixteenths of a millimetre\n", "strip", "kind", "x", "y", "z");
    for (i = 1; i <= steps; i++) {
        const int strip = listing[i] / 4, turns = table[PLANNER_EDGE_AT + strip] - 100, n = turns == 0 ? 1 : abs(turns);
        int met;
        for (met = 0; met < n; met++) {
            print_piece(piece++, strip, n);
        }
    }
}

/* Ropework: two turns more on a sill and on a post, so three. */
static void rope(void) {
    printf("\n");
    print_edit("turn strip", 1, planner_turn_edge(table, WORDS, 1, 2));
    print_edit("turn strip", 4, planner_turn_edge(table, WORDS, 4, 2));
    printf("\n");
    place();
    print_path();
}

int main(void) {
    build();
    print_counts();
    print_sheet();
    rope();
    return 0;
}
