/* The calls of the planner against plain C (plain.c): the same tables, the same arguments, one run. Before a call is timed, both
   sides' answers and outputs are compared. Prints a table for docs/BENCHMARK.md: microseconds a call, medians, and their ratio.
   bench/against builds it with OLDER: then the other side is an older build of the planner, under plain.h's names. LACKING are the calls that
   it does not have, each between two spaces; their rows are left out. */

#define _POSIX_C_SOURCE 199309L

#include "plain.h"
#include "planner.h"

#include <stddef.h>
#include <stdio.h>
#include <stdlib.h>
#include <string.h>
#include <time.h>

#ifndef OLDER
#define OLDER 0
#endif
#ifndef LACKING
#define LACKING ""
#endif

enum { WORDS = PLANNER_TABLE_WORDS, OUT = 4096, SHEET = PLANNER_ROW_WORDS * PLANNER_DARTS, LETTERS = 2048 * 99, PIECES = LETTERS + 1, ROUNDS = 21 };

/* A table under test and what calls are lent beside it. Edits leave it as it was, two by two. One more to be filled, and one whose live names lie
   apart. Two with more turns on every edge and the same walks: those of a ropework shell, and as many as there can be. */
static uint16_t table[WORDS];
static uint16_t scratch[WORDS];
static uint16_t spread_table[WORDS];
static uint16_t rope_table[WORDS];
static uint16_t turned_table[WORDS];
static int32_t points[3 * PLANNER_VERTICES];
static int32_t lifts[3 * PLANNER_EDGES];

/* What both sides write. The pieces of a whole path come last: they are many, so that only the rows that write them clear and compare them. */
struct output {
    uint16_t words[OUT];
    int32_t counts[OUT];
    uint8_t letters[LETTERS];
    float coords[3 * OUT];
    uint32_t sheet[SHEET];
    int64_t forecasts[2];
    uint16_t kinds[PIECES];
    int32_t wholes[3 * PIECES];
    uint16_t remainders[3 * PIECES];
};
enum { FEW = offsetof(struct output, kinds), ALL = sizeof(struct output) };
static struct output ours, theirs;

/* The names that the edits use: a free vertex, a free edge (those below it are live), a live one, and one that moves on. */
static uint16_t free_vertex, free_edge, live_edge, moving_edge;

/* The forecasts of an edit and of the one that undoes it. They hold at every round, since the table is then as it was. */
struct foretold {
    int64_t first, second;
};
static struct foretold of_edge, of_turn;

static uint32_t random_state = 1;

static uint32_t random_below(uint32_t n) {
    random_state = random_state * 1664525u + 1013904223u;
    return (uint32_t)(((uint64_t)random_state * n) >> 32);
}

/* One call on each side. */
#define CALL(name, arguments_ours, arguments_theirs)                                                                    \
    static int64_t our_##name(void) { return planner_##name arguments_ours; }                                         \
    static int64_t their_##name(void) { return plain_##name arguments_theirs; }

CALL(empty, (scratch, WORDS), (scratch, WORDS))
CALL(check, (table, WORDS), (table, WORDS))

/* The check of a table with a live edge in every block of 32 names, so that none is passed over. */
static int64_t our_spread_check(void) { return planner_check(spread_table, WORDS); }
static int64_t their_spread_check(void) { return plain_check(spread_table, WORDS); }

CALL(listing, (table, WORDS, ours.words, OUT), (table, WORDS, theirs.words, OUT))
CALL(counts, (table, WORDS, ours.counts, OUT), (table, WORDS, theirs.counts, OUT))
CALL(parts, (table, WORDS, ours.counts, OUT), (table, WORDS, theirs.counts, OUT))
CALL(alternates, (table, WORDS, 0, 0), (table, WORDS, 0, 0))
CALL(plain, (table, WORDS), (table, WORDS))
CALL(letters, (table, WORDS, 0, 0, ours.letters, LETTERS), (table, WORDS, 0, 0, theirs.letters, LETTERS))
CALL(float_path,
     (table, WORDS, 0, 0, points, 3 * PLANNER_VERTICES, lifts, 3 * PLANNER_EDGES, ours.words, OUT, ours.coords, 3 * OUT),
     (table, WORDS, 0, 0, points, 3 * PLANNER_VERTICES, lifts, 3 * PLANNER_EDGES, theirs.words, OUT, theirs.coords, 3 * OUT))

/* The whole path, on a table. */
static int64_t our_whole(const uint16_t *t) {
    return planner_whole_path(t, WORDS, 0, 0, points, 3 * PLANNER_VERTICES, lifts, 3 * PLANNER_EDGES, ours.kinds, PIECES, ours.wholes, 3 * PIECES,
                              ours.remainders, 3 * PIECES);
}

static int64_t their_whole(const uint16_t *t) {
    return plain_whole_path(t, WORDS, 0, 0, points, 3 * PLANNER_VERTICES, lifts, 3 * PLANNER_EDGES, theirs.kinds, PIECES, theirs.wholes, 3 * PIECES,
                            theirs.remainders, 3 * PIECES);
}

static int64_t our_whole_path(void) { return our_whole(table); }
static int64_t their_whole_path(void) { return their_whole(table); }
static int64_t our_rope_path(void) { return our_whole(rope_table); }
static int64_t their_rope_path(void) { return their_whole(rope_table); }
static int64_t our_turned_path(void) { return our_whole(turned_table); }
static int64_t their_turned_path(void) { return their_whole(turned_table); }

CALL(cut_length, (table, WORDS, 0, 0), (table, WORDS, 0, 0))
CALL(price_sheet, (table, WORDS, 180, 300, ours.sheet, SHEET), (table, WORDS, 180, 300, theirs.sheet, SHEET))

/* The sheet of the table whose names lie apart. */
static int64_t our_spread_sheet(void) { return planner_price_sheet(spread_table, WORDS, 180, 300, ours.sheet, SHEET); }
static int64_t their_spread_sheet(void) { return plain_price_sheet(spread_table, WORDS, 180, 300, theirs.sheet, SHEET); }

/* The answer of a step, and what it leaves, in one number; less than 0 if it was declined. */
static int64_t stepped(int64_t ends, const struct planner_reader *reader, const struct planner_tally *tally) {
    return ((2 * (int64_t)tally->length + ends) * 100 + tally->overs) * 2 * PLANNER_DARTS + 2 * reader->dart + reader->type;
}

/* One step of a reader that is made anew, over a tally at zeros. */
static int64_t our_walk_step(void) {
    struct planner_reader reader = {0, 0, 0, 0};
    struct planner_tally tally = {0, 0, 0, 0};
    int64_t ends = planner_walk_step(table, WORDS, &reader, &tally);
    return stepped(ends, &reader, &tally);
}

static int64_t their_walk_step(void) {
    struct planner_reader reader = {0, 0, 0, 0};
    struct planner_tally tally = {0, 0, 0, 0};
    int64_t ends = plain_walk_step(table, WORDS, &reader, &tally);
    return stepped(ends, &reader, &tally);
}

/* The largest trial job. Its bytes stand in the place of the letters. */
CALL(trial_job, (7, PLANNER_EDGES, ours.letters, LETTERS), (7, PLANNER_EDGES, theirs.letters, LETTERS))

/* Insertions as a host writes them, one after the other: so many that the time of one is the row's in nanoseconds. Their bytes stand in the
   place of the letters. */
enum { RECORDS = 1000 };
#define WRITE_RECORDS(name, call, mark, bytes)                                                                         \
    static int64_t name(void) {                                                                                        \
        size_t at = 0;                                                                                                 \
        uint16_t e;                                                                                                    \
        for (e = 0; e < RECORDS; e++) {                                                                                \
            const uint16_t corner = (uint16_t)(2 * e);                                                                 \
            int64_t size = call(mark, e, corner, PLANNER_LONE_CORNER, -1, 700, (bytes) + at, LETTERS - at);            \
            if (size < 0) {                                                                                            \
                return size;                                                                                           \
            }                                                                                                          \
            at += (size_t)size;                                                                                        \
        }                                                                                                              \
        return (int64_t)at;                                                                                            \
    }

WRITE_RECORDS(our_records, planner_job_record, PLANNER_MARK_IE, ours.letters)
WRITE_RECORDS(their_records, plain_job_record, PLANNER_MARK_IE, theirs.letters)
WRITE_RECORDS(our_long_records, planner_job_record, PLANNER_MARK_IL, ours.letters)
WRITE_RECORDS(their_long_records, plain_job_record, PLANNER_MARK_IL, theirs.letters)

/* Two edits on each side, the second of which undoes the first. Their answers in one number, or -1 if one of them was declined. */
static int64_t both(int64_t a, int64_t b) {
    return a < 0 || b < 0 ? -1 : a * 4294967296 + b;
}

#define PAIR(name, first, first_arguments, second, second_arguments)                                                    \
    static int64_t our_##name(void) {                                                                                  \
        int64_t a = planner_##first first_arguments;                                                                   \
        return both(a, planner_##second second_arguments);                                                             \
    }                                                                                                                  \
    static int64_t their_##name(void) {                                                                                \
        int64_t a = plain_##first first_arguments;                                                                     \
        return both(a, plain_##second second_arguments);                                                               \
    }

PAIR(vertex, add_vertex, (table, WORDS, free_vertex), remove_vertex, (table, WORDS, free_vertex))
PAIR(edge, insert_edge, (table, WORDS, free_edge, 0, 1, 1, 16), delete_edge, (table, WORDS, free_edge))
PAIR(turn, turn_edge, (table, WORDS, live_edge, 1), turn_edge, (table, WORDS, live_edge, -1))
PAIR(each_turn, turn_edge, (table, WORDS, moving_edge, 1), turn_edge, (table, WORDS, moving_edge, -1))

/* Two asks on each side, of the table as it is. */
static int64_t told(struct output *out, int64_t a, int64_t b) {
    out->forecasts[0] = a;
    out->forecasts[1] = b;
    return a < 0 || b < 0 ? -1 : 0;
}

#define ASKS(name, first, first_arguments, second, second_arguments)                                                    \
    static int64_t our_##name(void) { return told(&ours, planner_##first first_arguments, planner_##second second_arguments); } \
    static int64_t their_##name(void) { return told(&theirs, plain_##first first_arguments, plain_##second second_arguments); }

ASKS(ask_edge, ask_insert_edge, (table, WORDS, free_edge, 0, 1, 1, 16), ask_delete_edge, (table, WORDS, live_edge))
ASKS(ask_turn, ask_turn_edge, (table, WORDS, live_edge, 1), ask_turn_edge, (table, WORDS, live_edge, -1))
PAIR(commit_edge, commit_insert_edge, (table, WORDS, free_edge, 0, 1, 1, 16, of_edge.first), commit_delete_edge,
     (table, WORDS, free_edge, of_edge.second))
PAIR(commit_turn, commit_turn_edge, (table, WORDS, live_edge, 1, of_turn.first), commit_turn_edge,
     (table, WORDS, live_edge, -1, of_turn.second))

/* A row's name begins with its calls. */
static const struct {
    const char *name;
    int64_t (*ours)(void);
    int64_t (*theirs)(void);
    int calls;
    size_t written;
} rows[] = {
    {"planner_empty", our_empty, their_empty, 1, FEW},
    {"planner_check", our_check, their_check, 1, FEW},
    {"planner_check, 32 edges, each in another block", our_spread_check, their_spread_check, 1, FEW},
    {"planner_listing", our_listing, their_listing, 1, FEW},
    {"planner_counts", our_counts, their_counts, 1, FEW},
    {"planner_parts", our_parts, their_parts, 1, FEW},
    {"planner_add_vertex, planner_remove_vertex", our_vertex, their_vertex, 2, FEW},
    {"planner_insert_edge, planner_delete_edge", our_edge, their_edge, 2, FEW},
    {"planner_turn_edge", our_turn, their_turn, 2, FEW},
    {"planner_turn_edge, edge after edge", our_each_turn, their_each_turn, 2, FEW},
    {"planner_ask_insert_edge, planner_ask_delete_edge", our_ask_edge, their_ask_edge, 2, FEW},
    {"planner_ask_turn_edge", our_ask_turn, their_ask_turn, 2, FEW},
    {"planner_commit_insert_edge, planner_commit_delete_edge", our_commit_edge, their_commit_edge, 2, FEW},
    {"planner_commit_turn_edge", our_commit_turn, their_commit_turn, 2, FEW},
    {"planner_alternates", our_alternates, their_alternates, 1, FEW},
    {"planner_plain", our_plain, their_plain, 1, FEW},
    {"planner_letters", our_letters, their_letters, 1, FEW},
    {"planner_cut_length", our_cut_length, their_cut_length, 1, FEW},
    {"planner_price_sheet", our_price_sheet, their_price_sheet, 1, FEW},
    {"planner_price_sheet, 32 edges, each in another block", our_spread_sheet, their_spread_sheet, 1, FEW},
    {"planner_float_path", our_float_path, their_float_path, 1, FEW},
    {"planner_whole_path", our_whole_path, their_whole_path, 1, ALL},
    {"planner_whole_path, two or three turns an edge", our_rope_path, their_rope_path, 1, ALL},
    {"planner_whole_path, 98 or 99 turns an edge", our_turned_path, their_turned_path, 1, ALL},
    {"planner_walk_step", our_walk_step, their_walk_step, 1, FEW},
    {"planner_trial_job, always 1,024 edges", our_trial_job, their_trial_job, 1, FEW},
    {"planner_job_record, 1,000 insertions", our_records, their_records, 1, FEW},
    {"planner_job_record, 1,000 insertions with lengths", our_long_records, their_long_records, 1, FEW},
};
enum { ROWS = sizeof rows / sizeof rows[0] };

/* Is it a row of a call that the older build lacks. */
static int is_left_out(size_t row) {
    const char *at = rows[row].name;
    while ((at = strstr(at, "planner_")) != NULL) {
        const size_t length = strspn(at, "abcdefghijklmnopqrstuvwxyz_");
        char call[64];
        snprintf(call, sizeof call, " %.*s ", (int)length, at);
        if (strstr(LACKING, call) != NULL) {
            return 1;
        }
        at += length;
    }
    return 0;
}

/* A grid of poles joined along its lines, every strip with one turn: a plain weave of slanting ribbons. */
static void link_around(uint16_t v, const uint16_t *darts, int n) {
    int i;
    uint16_t least = PLANNER_ISOLATED;
    for (i = 0; i < n; i++) {
        uint16_t d = darts[i], next = darts[(i + 1) % n];
        table[PLANNER_NEXT_AT + d] = next;
        table[PLANNER_PREV_AT + next] = d;
        table[PLANNER_LEAVES_AT + d] = v;
        least = d < least ? d : least;
    }
    table[PLANNER_VERTEX_AT + v] = least;
}

/* The edge from a pole to its right neighbour, and to the one above it. */
static uint16_t across(int columns, int x, int y) {
    return (uint16_t)(y * (columns - 1) + x);
}

static uint16_t upward(int columns, int lines, int x, int y) {
    return (uint16_t)(lines * (columns - 1) + y * columns + x);
}

static void build_grid(int columns, int lines) {
    int x, y, e, edges = lines * (columns - 1) + (lines - 1) * columns;
    planner_empty(table, WORDS);
    for (e = 0; e < edges; e++) {
        table[PLANNER_EDGE_AT + e] = 101;
        table[PLANNER_LENGTH_AT + e] = 1;
    }
    for (y = 0; y < lines; y++) {
        for (x = 0; x < columns; x++) {
            uint16_t darts[4];
            int n = 0;
            if (x + 1 < columns) {
                darts[n++] = (uint16_t)(2 * across(columns, x, y));
            }
            if (y + 1 < lines) {
                darts[n++] = (uint16_t)(2 * upward(columns, lines, x, y));
            }
            if (x > 0) {
                darts[n++] = (uint16_t)(2 * across(columns, x - 1, y) + 1);
            }
            if (y > 0) {
                darts[n++] = (uint16_t)(2 * upward(columns, lines, x, y - 1) + 1);
            }
            link_around((uint16_t)(y * columns + x), darts, n);
        }
    }
    free_vertex = (uint16_t)(lines * columns);
    free_edge = (uint16_t)edges;
    live_edge = (uint16_t)(edges / 2);
}

/* Flat loops in random corners, until there are so many edges. */
static void add_loops(int edges) {
    for (; free_edge < edges; free_edge++) {
        uint16_t corner = (uint16_t)random_below(2u * free_edge);
        planner_insert_edge(table, WORDS, free_edge, corner, corner, 0, 1);
    }
}

/* A vertex with a loop at every 32nd name. */
static void build_spread(void) {
    uint16_t e;
    planner_empty(spread_table, WORDS);
    planner_add_vertex(spread_table, WORDS, 0);
    for (e = 0; e < PLANNER_EDGES; e += 32) {
        uint16_t corner = e == 0 ? PLANNER_LONE_CORNER : 0;
        planner_insert_edge(spread_table, WORDS, e, corner, corner, 1, 1);
    }
}

/* The table with so many turns more on every edge. An even number leaves the walks as they are. */
static void turn_all(uint16_t *turned, int more) {
    int e;
    memcpy(turned, table, sizeof table);
    for (e = 0; e < free_edge; e++) {
        turned[PLANNER_EDGE_AT + e] = (uint16_t)(turned[PLANNER_EDGE_AT + e] + more);
    }
}

/* Lengths of the live edges, and the points and lifts that are lent. */
static void place(void) {
    int i;
    for (i = 0; i < PLANNER_EDGES; i++) {
        uint32_t length = 1 + random_below(65535);
        table[PLANNER_LENGTH_AT + i] = (uint16_t)(i < free_edge ? length : 0);
    }
    for (i = 0; i < 3 * PLANNER_VERTICES; i++) {
        points[i] = (int32_t)random_below(131073) - 65536;
    }
    for (i = 0; i < 3 * PLANNER_EDGES; i++) {
        lifts[i] = (int32_t)random_below(8193) - 4096;
    }
}

/* The forecasts that the commits take: of the insertion and of the turn, and after each of what undoes it. */
static void foretell(void) {
    of_edge.first = planner_ask_insert_edge(table, WORDS, free_edge, 0, 1, 1, 16);
    planner_insert_edge(table, WORDS, free_edge, 0, 1, 1, 16);
    of_edge.second = planner_ask_delete_edge(table, WORDS, free_edge);
    planner_delete_edge(table, WORDS, free_edge);
    of_turn.first = planner_ask_turn_edge(table, WORDS, live_edge, 1);
    planner_turn_edge(table, WORDS, live_edge, 1);
    of_turn.second = planner_ask_turn_edge(table, WORDS, live_edge, -1);
    planner_turn_edge(table, WORDS, live_edge, -1);
}

static double now(void) {
    struct timespec t;
    clock_gettime(CLOCK_MONOTONIC, &t);
    return (double)t.tv_sec + 1e-9 * (double)t.tv_nsec;
}

/* Seconds a call. The moving edge goes on after each, from the one of this number. */
static double timed(int64_t (*call)(void), int times, int from) {
    double start = now();
    int i;
    moving_edge = (uint16_t)(from % free_edge);
    for (i = 0; i < times; i++) {
        call();
        moving_edge = (uint16_t)(moving_edge + 1 < free_edge ? moving_edge + 1 : 0);
    }
    return (now() - start) / times;
}

static int by_size(const void *a, const void *b) {
    double x = *(const double *)a, y = *(const double *)b;
    return (x > y) - (x < y);
}

static double median(double *values) {
    qsort(values, ROUNDS, sizeof *values, by_size);
    return values[ROUNDS / 2];
}

/* Both sides once, compared. */
static void compare(size_t row) {
    const size_t written = rows[row].written;
    int64_t a, b;
    memset(&ours, 0x5a, written);
    memset(&theirs, 0x5a, written);
    a = rows[row].ours();
    b = rows[row].theirs();
    if (a != b || a < 0 || memcmp(&ours, &theirs, written) != 0) {
        fprintf(stderr, "bench: %s differs: %lld and %lld\n", rows[row].name, (long long)a, (long long)b);
        exit(1);
    }
}

/* Microseconds a call of one side and of the other, measured turn by turn. */
static void measure(size_t row, double *mine, double *other) {
    double a[ROUNDS], b[ROUNDS];
    int i, times;
    for (i = 0; i < ROUNDS; i++) {
        moving_edge = (uint16_t)(i * free_edge / ROUNDS);
        compare(row);
    }
    times = (int)(ROUND_SECONDS / timed(rows[row].theirs, 10, 0)) + 1;
    for (i = 0; i < ROUNDS; i++) {
        a[i] = timed(rows[row].ours, times, i * times);
        b[i] = timed(rows[row].theirs, times, i * times);
    }
    *mine = 1e6 * median(a) / rows[row].calls;
    *other = 1e6 * median(b) / rows[row].calls;
}

/* A grid, and loops up to so many edges; one edge name stays free for the insertion. */
static const struct {
    int columns, lines, edges;
} sizes[] = {{6, 3, 30}, {8, 7, 100}, {13, 12, 300}, {18, 17, 600}, {22, 23, 1023}};
enum { SIZES = sizeof sizes / sizeof sizes[0] };

static double mine[ROWS][SIZES], other[ROWS][SIZES];

/* Against plain C the ratios of every other size are printed: small, shell-sized, full. Against an older build those of all. */
static void print_ratios(void) {
    const size_t stride = OLDER ? 1 : 2;
    size_t row, size;
    printf("| Call |");
    for (size = 0; size < SIZES; size += stride) {
        printf(" %d edges: %s | ratio |", sizes[size].edges, OLDER ? "new | old" : "planner | C");
    }
    printf("\n|---|");
    for (size = 0; size < SIZES; size += stride) {
        printf("---|---|---|");
    }
    printf("\n");
    for (row = 0; row < ROWS; row++) {
        if (is_left_out(row)) {
            continue;
        }
        printf("| `%s` |", rows[row].name);
        for (size = 0; size < SIZES; size += stride) {
            double a = mine[row][size], b = other[row][size];
            printf(" %.2f | %.2f | %.2f |", a, b, a / b);
        }
        printf("\n");
    }
}

static void print_growth(void) {
    size_t row, size;
    printf("\n| Call |");
    for (size = 0; size < SIZES; size++) {
        printf(" %d edges |", sizes[size].edges);
    }
    printf("\n|---|---|---|---|---|---|\n");
    for (row = 0; row < ROWS; row++) {
        printf("| `%s` |", rows[row].name);
        for (size = 0; size < SIZES; size++) {
            printf(" %.2f |", mine[row][size]);
        }
        printf("\n");
    }
}

/* Ends the program if the older build takes no tables of this size: then it was built before the lengths came into the table, and with them six
   calls' arguments. The empty mesh is asked for as it always was. */
static void refuse_other_tables(void) {
    if (plain_empty(scratch, WORDS) != 0) {
        fprintf(stderr,
                "bench/against: the older library does not take tables of %d words, so no call of it can be timed on the same table; and\n"
                "planner_insert_edge, planner_ask_insert_edge, planner_commit_insert_edge, planner_cut_length, planner_walk_step and\n"
                "planner_job_record take other arguments there. Compare both by plain C: run each one's own bench/run, which times it beside\n"
                "plain C in one run, and compare the ratios.\n",
                (int)WORDS);
        exit(1);
    }
}

int main(void) {
    size_t row, size;
    if (OLDER) {
        refuse_other_tables();
        if (LACKING[0] != 0) {
            fprintf(stderr, "bench/against: the older library lacks these calls, and their rows are left out:%s\n", LACKING);
        }
    }
    build_spread();
    for (size = 0; size < SIZES; size++) {
        build_grid(sizes[size].columns, sizes[size].lines);
        add_loops(sizes[size].edges);
        place();
        turn_all(rope_table, 2);
        turn_all(turned_table, 98);
        foretell();
        for (row = 0; row < ROWS; row++) {
            if (!is_left_out(row)) {
                measure(row, &mine[row][size], &other[row][size]);
            }
        }
    }
    print_ratios();
    if (!OLDER) {
        print_growth();
    }
    return 0;
}
