/* Every call with every slice in a block of exactly its size, run under valgrind by tests/run: a stray read or write shows, and a decision
   by a word that nobody wrote. Accepted and declined with each refusal; outputs of the exact size, and one shorter. With the argument
   "stray" the table's block is one word shorter than the call is told, which valgrind has to see. Written so that a C++ compiler takes it too. */

#include "check.h"
#include "planner.h"

#include <stddef.h>
#include <stdint.h>
#include <stdlib.h>
#include <string.h>

enum { WORDS = PLANNER_TABLE_WORDS, LONE = PLANNER_LONE_CORNER, POINTS = 3 * PLANNER_VERTICES, LIFTS = 3 * PLANNER_EDGES, BLOCKS = 6 };
enum { LARGEST = PLANNER_TRIAL_BYTES(PLANNER_EDGES) };

/* The mesh, and how many of its words are lent; `stray` are words that its block then lacks. */
static uint16_t mesh[WORDS + 1];
static size_t words = WORDS, stray = 0;

/* The other slices' contents, and how many elements of each are lent. */
static int32_t points[POINTS], lifts[LIFTS];
static size_t n_points = POINTS, n_lifts = LIFTS;

/* The blocks that the call is lent, and what they held before it. */
static void *blocks[BLOCKS], *before[BLOCKS];
static size_t sizes[BLOCKS];
static int lent = 0;

static void *copy(const void *from, size_t bytes) {
    void *block = malloc(bytes);
    if (bytes > 0) {
        memcpy(block, from, bytes);
    }
    return block;
}

static void *lend(const void *from, size_t bytes) {
    blocks[lent] = copy(from, bytes);
    before[lent] = copy(from, bytes);
    sizes[lent] = bytes;
    return blocks[lent++];
}

static uint16_t *lend_mesh(void) {
    return (uint16_t *)lend(mesh, (words - stray) * sizeof mesh[0]);
}

/* An output that holds a pattern. */
static void *lend_output(size_t bytes) {
    static unsigned char pattern[LARGEST];
    memset(pattern, 0xa5, sizeof pattern);
    return lend(pattern, bytes);
}

/* Gives the blocks back. A call that was declined has changed none of them; one that was accepted has not changed those that it reads, which
   stand before the one of this number. */
static int64_t back(int64_t answer, int first_written) {
    int i, kept = 1;
    for (i = 0; i < lent; i++) {
        if (sizes[i] > 0 && (answer < 0 || i < first_written) && memcmp(blocks[i], before[i], sizes[i]) != 0) {
            kept = 0;
        }
        free(blocks[i]);
        free(before[i]);
    }
    lent = 0;
    return kept ? answer : -99;
}

/* An edit's table is the mesh from then on. */
static int64_t edited(int64_t answer) {
    if (answer >= 0) {
        memcpy(mesh, blocks[0], sizes[0]);
    }
    return back(answer, 0);
}

static int64_t empty(void) {
    uint16_t *t = lend_mesh();
    return edited(planner_empty(t, words));
}

static int64_t add(uint16_t v) {
    uint16_t *t = lend_mesh();
    return edited(planner_add_vertex(t, words, v));
}

static int64_t removal(uint16_t v) {
    uint16_t *t = lend_mesh();
    return edited(planner_remove_vertex(t, words, v));
}

static int64_t insert(uint16_t e, int c1, int c2, int16_t k, uint16_t length) {
    uint16_t *t = lend_mesh();
    return edited(planner_insert_edge(t, words, e, (uint16_t)c1, (uint16_t)c2, k, length));
}

static int64_t deletion(uint16_t e) {
    uint16_t *t = lend_mesh();
    return edited(planner_delete_edge(t, words, e));
}

static int64_t turn(uint16_t e, int16_t amount) {
    uint16_t *t = lend_mesh();
    return edited(planner_turn_edge(t, words, e, amount));
}

static int64_t ask_insert(uint16_t e, int c1, int c2, int16_t k, uint16_t length) {
    uint16_t *t = lend_mesh();
    return back(planner_ask_insert_edge(t, words, e, (uint16_t)c1, (uint16_t)c2, k, length), 1);
}

static int64_t ask_deletion(uint16_t e) {
    uint16_t *t = lend_mesh();
    return back(planner_ask_delete_edge(t, words, e), 1);
}

static int64_t ask_turn(uint16_t e, int16_t amount) {
    uint16_t *t = lend_mesh();
    return back(planner_ask_turn_edge(t, words, e, amount), 1);
}

static int64_t commit_insert(uint16_t e, int c1, int c2, int16_t k, uint16_t length, int64_t forecast) {
    uint16_t *t = lend_mesh();
    return edited(planner_commit_insert_edge(t, words, e, (uint16_t)c1, (uint16_t)c2, k, length, forecast));
}

static int64_t commit_deletion(uint16_t e, int64_t forecast) {
    uint16_t *t = lend_mesh();
    return edited(planner_commit_delete_edge(t, words, e, forecast));
}

static int64_t commit_turn(uint16_t e, int16_t amount, int64_t forecast) {
    uint16_t *t = lend_mesh();
    return edited(planner_commit_turn_edge(t, words, e, amount, forecast));
}

static int64_t checked(void) {
    uint16_t *t = lend_mesh();
    return back(planner_check(t, words), 1);
}

static int64_t listing(size_t n) {
    uint16_t *t = lend_mesh();
    uint16_t *out = (uint16_t *)lend_output(n * sizeof *out);
    return back(planner_listing(t, words, out, n), 1);
}

static int64_t counts(size_t n) {
    uint16_t *t = lend_mesh();
    int32_t *out = (int32_t *)lend_output(n * sizeof *out);
    return back(planner_counts(t, words, out, n), 1);
}

static int64_t parts(size_t n) {
    uint16_t *t = lend_mesh();
    int32_t *out = (int32_t *)lend_output(n * sizeof *out);
    return back(planner_parts(t, words, out, n), 1);
}

static int64_t plain(void) {
    uint16_t *t = lend_mesh();
    return back(planner_plain(t, words), 1);
}

static int64_t alternates(uint16_t dart, uint16_t type) {
    uint16_t *t = lend_mesh();
    return back(planner_alternates(t, words, dart, type), 1);
}

static int64_t letters(uint16_t dart, uint16_t type, size_t n) {
    uint16_t *t = lend_mesh();
    uint8_t *out = (uint8_t *)lend_output(n);
    return back(planner_letters(t, words, dart, type, out, n), 1);
}

static int64_t cut_length(uint16_t dart, uint16_t type) {
    uint16_t *t = lend_mesh();
    return back(planner_cut_length(t, words, dart, type), 1);
}

static int64_t price_sheet(uint16_t p, uint16_t m, size_t n) {
    uint16_t *t = lend_mesh();
    uint32_t *out = (uint32_t *)lend_output(n * sizeof *out);
    return back(planner_price_sheet(t, words, p, m, out, n), 1);
}

static int64_t float_path(uint16_t dart, uint16_t type, size_t n_kinds, size_t n_coords) {
    uint16_t *t = lend_mesh();
    int32_t *p = (int32_t *)lend(points, n_points * sizeof *p);
    int32_t *l = (int32_t *)lend(lifts, n_lifts * sizeof *l);
    uint16_t *kinds = (uint16_t *)lend_output(n_kinds * sizeof *kinds);
    float *coords = (float *)lend_output(n_coords * sizeof *coords);
    return back(planner_float_path(t, words, dart, type, p, n_points, l, n_lifts, kinds, n_kinds, coords, n_coords), 3);
}

static int64_t whole_path(uint16_t dart, uint16_t type, size_t n_kinds, size_t n_coords, size_t n_remainders) {
    uint16_t *t = lend_mesh();
    int32_t *p = (int32_t *)lend(points, n_points * sizeof *p);
    int32_t *l = (int32_t *)lend(lifts, n_lifts * sizeof *l);
    uint16_t *kinds = (uint16_t *)lend_output(n_kinds * sizeof *kinds);
    int32_t *coords = (int32_t *)lend_output(n_coords * sizeof *coords);
    uint16_t *remainders = (uint16_t *)lend_output(n_remainders * sizeof *remainders);
    int64_t answer = planner_whole_path(t, words, dart, type, p, n_points, l, n_lifts, kinds, n_kinds, coords, n_coords, remainders, n_remainders);
    return back(answer, 3);
}

static struct planner_reader reader;
static struct planner_tally tally;

static int64_t walk_step(void) {
    uint16_t *t = lend_mesh();
    struct planner_reader *r = (struct planner_reader *)lend(&reader, sizeof reader);
    struct planner_tally *y = (struct planner_tally *)lend(&tally, sizeof tally);
    int64_t answer = planner_walk_step(t, words, r, y);
    if (answer >= 0) {
        reader = *r;
        tally = *y;
    }
    return back(answer, 1);
}

/* The reader stands at a step, which is its start too. */
static int64_t step_at(uint16_t dart, uint16_t type) {
    reader.dart = reader.start_dart = dart;
    reader.type = reader.start_type = type;
    return walk_step();
}

/* The job is lent its output alone. */
static int64_t trial_job(uint32_t start, uint32_t edges, size_t n) {
    uint8_t *out = (uint8_t *)lend_output(n);
    return back(planner_trial_job(start, edges, out, n), 0);
}

/* A record is lent its output alone too; the numbers are at the ends of their ranges. */
static int64_t job_record(uint16_t mark, size_t n) {
    uint8_t *out = (uint8_t *)lend_output(n);
    return back(planner_job_record(mark, 65535, 0, 65535, -32768, 65535, out, n), 0);
}

/* Every call that is lent a table declines the mesh as torn, the table being tested before everything else. */
static int all_torn(void) {
    int torn = checked() == -1 && listing(0) == -1 && counts(0) == -1 && parts(0) == -1 && plain() == -1;
    torn = torn && alternates(65535, 65535) == -1 && letters(0, 0, 0) == -1 && cut_length(0, 0) == -1 && float_path(0, 0, 0, 0) == -1;
    torn = torn && whole_path(0, 0, 0, 0, 0) == -1 && price_sheet(0, 0, 0) == -1 && price_sheet(65535, 65535, 4) == -1;
    torn = torn && step_at(0, 0) == -1 && add(65535) == -1 && removal(0) == -1 && insert(0, 0, 0, 0, 0) == -1 && deletion(0) == -1;
    torn = torn && ask_insert(0, 0, 0, 0, 0) == -1 && ask_deletion(0) == -1 && ask_turn(0, 0) == -1;
    torn = torn && commit_insert(0, 0, 0, 0, 0, 0) == -1 && commit_deletion(0, 2 * BEFORE) == -1 && commit_turn(0, 0, -1) == -1;
    return torn && turn(0, 0) == -1;
}

/* Edge 0 with one turn and length 300 from vertex 0 to 1, edge 1023 with no turn and length 65,535 from there to 511, and the isolated vertex
   510: one ribbon, of the steps (0, 0), (2046, 1), (2047, 1), (1, 1), and an empty walk. The last words of every slice count. */
static int build(void) {
    int fine = empty() == 0 && add(0) == 1 && add(1) == 2 && add(510) == 3 && add(511) == 4;
    return fine && insert(0, LONE, LONE + 1, 1, 300) == 3 + A && insert(1023, 1, LONE + 511, 0, 65535) == 2 + A;
}

static void try_the_edits(void) {
    check(add(512) == -2 && add(65535) == -2 && add(0) == -3 && add(511) == -3, "a vertex added: 2 and 3");
    check(removal(512) == -2 && removal(65535) == -2 && removal(509) == -4 && removal(511) == -5, "a vertex removed: 2, 4 and 5");
    check(removal(510) == 1 && add(510) == 2, "a vertex goes and comes");
    check(insert(1024, 0, 0, 0, 1) == -2 && insert(65535, 0, 0, 0, 1) == -2 && insert(2, 2048, 0, 0, 1) == -2 && insert(2, 0, 32767, 0, 1) == -2 &&
              insert(2, 0, 65535, 0, 1) == -2 && insert(2, LONE + 512, 0, 0, 1) == -2,
          "an edge inserted: 2");
    check(insert(0, 0, 0, 0, 1) == -3 && insert(2, 4, 0, 0, 1) == -4 && insert(2, 0, 2045, 0, 1) == -4 && insert(2, LONE, 0, 0, 1) == -4 &&
              insert(2, 0, LONE + 509, 0, 1) == -4,
          "an edge inserted: 3 and 4");
    check(insert(2, 0, 0, 100, 1) == -6 && insert(2, 0, 0, -32768, 0) == -6, "an edge inserted: 6");
    check(insert(2, 0, 0, 99, 0) == -9 && insert(1022, LONE + 510, LONE + 510, 0, 0) == -9, "an edge inserted: 9");
    check(insert(1022, LONE + 510, LONE + 510, -99, 1) == 2 + B2 && mesh[PLANNER_LENGTH_AT + 1022] == 1 && deletion(1022) == 2 + B2,
          "a loop comes and goes");
    check(mesh[PLANNER_LENGTH_AT + 1022] == 0 && mesh[PLANNER_LENGTH_AT + 1023] == 65535, "its length goes with it");
    check(deletion(1023) == 3 + B1 && mesh[WORDS - 1] == 0 && insert(1023, 1, LONE + 511, 0, 65535) == 2 + A && mesh[WORDS - 1] == 65535,
          "the last edge goes and comes, with its length");
    check(deletion(1024) == -2 && deletion(65535) == -2 && deletion(1022) == -4, "an edge deleted: 2 and 4");
    check(turn(1024, 0) == -2 && turn(65535, 1) == -2 && turn(1022, 1) == -4 && turn(0, 99) == -6 && turn(0, -32768) == -6, "an edge turned: 2, 4, 6");
    check(turn(0, 98) == 2 + E && turn(0, -98) == 2 + E && turn(0, -1) == 2 + B2 && turn(0, 1) == 2 + B2, "an edge turned and back");
}

/* Two faces, the ribbon's and that of vertex 510. Edges 0 and 1023 are passed by both darts. */
static void try_the_forecasts(void) {
    check(ask_insert(1024, 0, 0, 0, 1) == -2 && ask_insert(2, 2048, 0, 0, 1) == -2 && ask_insert(2, 0, 65535, 0, 1) == -2 &&
              ask_insert(0, 0, 0, 0, 1) == -3 && ask_insert(2, 0, 2045, 0, 1) == -4 && ask_insert(2, 0, 0, 100, 0) == -6 &&
              ask_insert(2, 0, 0, 0, 0) == -9,
          "an insertion asked for: 2, 3, 4, 6 and 9");
    check(ask_deletion(1024) == -2 && ask_deletion(1022) == -4, "a deletion asked for: 2 and 4");
    check(ask_turn(65535, 0) == -2 && ask_turn(1022, 1) == -4 && ask_turn(0, 99) == -6 && ask_turn(0, -32768) == -6,
          "a turn asked for: 2, 4 and 6");
    check(commit_insert(1024, 0, 0, 0, 1, 0) == -2 && commit_insert(2, 0, 65535, 0, 1, -2) == -2 && commit_insert(0, 0, 0, 0, 1, 0) == -3 &&
              commit_insert(2, 0, 2045, 0, 1, 0) == -4 && commit_insert(2, 0, 0, 100, 0, 0) == -6 && commit_insert(2, 0, 0, 0, 0, 0) == -9 &&
              commit_insert(2, 0, 0, 0, 1, 0) == -12,
          "an insertion committed: 2, 3, 4, 6, 9 and 12");
    check(commit_deletion(1024, 0) == -2 && commit_deletion(1022, 0) == -4 && commit_deletion(1023, 3 + B1) == -12,
          "a deletion committed: 2, 4 and 12");
    check(commit_turn(65535, 0, 0) == -2 && commit_turn(1022, 1, 0) == -4 && commit_turn(0, 99, 0) == -6 &&
              commit_turn(0, 98, 2 * BEFORE + E + 1) == -12,
          "a turn committed: 2, 4, 6 and 12");
    check(ask_insert(1022, LONE + 510, LONE + 510, -99, 1) == 2 * BEFORE + B2 + 2 &&
              commit_insert(1022, LONE + 510, LONE + 510, -99, 1, 2 * BEFORE + B2 + 2) == 2 + B2 && mesh[PLANNER_LENGTH_AT + 1022] == 1,
          "a loop comes");
    check(ask_deletion(1022) == 2 * BEFORE + B2 + 2 && commit_deletion(1022, 2 * BEFORE + B2 + 2) == 2 + B2 && mesh[PLANNER_LENGTH_AT + 1022] == 0,
          "and goes");
    check(ask_deletion(1023) == 2 * BEFORE + B1 + 3 && commit_deletion(1023, 2 * BEFORE + B1 + 3) == 3 + B1, "the last edge goes");
    check(ask_insert(1023, 1, LONE + 511, 0, 65535) == 3 * BEFORE + A + 2 &&
              commit_insert(1023, 1, LONE + 511, 0, 65535, 3 * BEFORE + A + 2) == 2 + A,
          "and comes");
    check(ask_turn(0, 98) == 2 * BEFORE + E + 2 && commit_turn(0, 98, 2 * BEFORE + E + 2) == 2 + E &&
              commit_turn(0, -98, 2 * BEFORE + E + 2) == 2 + E,
          "an edge turned and back");
    check(ask_turn(0, -1) == 2 * BEFORE + B2 + 2 && commit_turn(0, -1, 2 * BEFORE + B2 + 2) == 2 + B2 && turn(0, 1) == 2 + B2,
          "by an odd amount too");
}

/* The listing: four steps and their number, and two words for the empty walk. V 4, E 2, F 2, two parts. */
static void try_the_outputs(void) {
    check(listing(7) == 7 && listing(6) == -7 && listing(0) == -7, "the listing: exact, one shorter, none");
    check(counts(5) == 5 && counts(4) == -7 && counts(0) == -7, "the counts");
    check(parts(12) == 12 && parts(11) == -7 && parts(0) == -7, "the parts");
    check(letters(0, 0, 2) == 2 && letters(0, 0, 1) == -7 && letters(2047, 1, 2) == 2 && letters(2047, 1, 0) == -7, "the letters");
    check(plain() == 1 && alternates(0, 0) == 1 && alternates(2047, 1) == 1, "an alternating ribbon");
}

/* Darts 2 and 2045 are not live; 2048 and 65535 are no darts. */
static void try_the_names(void) {
    static const uint16_t bad[][2] = {{2048, 0}, {65535, 0}, {0, 2}, {0, 65535}, {65535, 65535}};
    static const uint16_t absent[] = {2, 2045};
    size_t i;
    int fine = 1;
    for (i = 0; i < sizeof bad / sizeof bad[0]; i++) {
        const uint16_t d = bad[i][0], k = bad[i][1];
        fine = fine && alternates(d, k) == -2 && letters(d, k, 0) == -2 && cut_length(d, k) == -2 && float_path(d, k, 0, 0) == -2 && step_at(d, k) == -2;
        fine = fine && whole_path(d, k, 0, 0, 0) == -2;
    }
    check(fine, "no such step: 2");
    for (i = 0; i < sizeof absent / sizeof absent[0]; i++) {
        const uint16_t d = absent[i];
        fine = fine && alternates(d, 1) == -4 && letters(d, 1, 0) == -4 && cut_length(d, 1) == -4 && float_path(d, 1, 0, 0) == -4 && step_at(d, 1) == -4;
        fine = fine && whole_path(d, 1, 0, 0, 0) == -4;
    }
    check(fine, "a step that is absent: 4");
}

/* Both edges twice, one O, the lap. */
static void try_the_lengths(void) {
    const int64_t length = 2 * 300 + 2 * 65535 + 8 + 320;
    check(cut_length(0, 0) == length && cut_length(2046, 1) == length, "a cut length");
}

/* The ribbon's 131,998 sixteenths are nine metres less 12,002: four words. */
static void try_the_price_sheet(void) {
    check(price_sheet(1, 0, 4) == 9 && price_sheet(65535, 65535, 4) == 589815 && price_sheet(0, 65535, 5) == 65535, "a price sheet");
    check(price_sheet(1, 0, 3) == -7 && price_sheet(65535, 65535, 1) == -7 && price_sheet(0, 0, 0) == -7, "one word too few: 7");
}

/* Isolated vertices have no row. */
static void try_no_ribbons(void) {
    check(empty() == 0 && price_sheet(65535, 65535, 0) == 0 && price_sheet(65535, 65535, 4) == 0, "a price sheet of the empty mesh");
    check(add(0) == 1 && add(511) == 2 && price_sheet(65535, 65535, 0) == 0 && price_sheet(65535, 65535, 4) == 0, "and of isolated vertices");
}

/* Four steps and Close: five kinds and fifteen floats. */
static void try_the_path(void) {
    check(float_path(0, 0, 5, 15) == 5 && float_path(2047, 1, 5, 15) == 5, "a float path, exact");
    check(float_path(0, 0, 4, 15) == -7 && float_path(0, 0, 5, 14) == -7 && float_path(0, 0, 0, 0) == -7, "one kind or one float too few: 7");
    n_points = POINTS - 1;
    check(float_path(0, 0, 5, 15) == -7, "1,535 points: 7");
    n_points = 0;
    check(float_path(0, 0, 5, 15) == -7, "no points: 7");
    n_points = POINTS;
    n_lifts = LIFTS - 1;
    check(float_path(0, 0, 5, 15) == -7, "3,071 lifts: 7");
    n_lifts = LIFTS;
    points[POINTS - 1] = 65537;
    check(float_path(0, 0, 5, 15) == -9, "a point too far: 9");
    points[POINTS - 1] = -65536;
    lifts[LIFTS - 1] = -4097;
    check(float_path(0, 0, 5, 15) == -9, "a lift too far: 9");
    lifts[LIFTS - 1] = 4096;
    points[6] = lifts[6] = 2147483647;
    check(float_path(0, 0, 5, 15) == 5, "what is far elsewhere is not looked at");
    check(turn(1023, 2) == 2 + E && float_path(0, 0, 5, 15) == -8 && turn(1023, -2) == 2 + E, "two turns: 8");
}

/* With two turns on the last edge: one crossing on each of two steps, two on each of two, and Close; seven kinds and twice twenty-one words. */
static void try_the_whole_path(void) {
    points[POINTS - 1] = lifts[LIFTS - 1] = points[6] = lifts[6] = 0;
    check(whole_path(0, 0, 5, 15, 15) == 5 && whole_path(2047, 1, 5, 15, 15) == 5, "a whole path with a flat edge, exact");
    check(turn(1023, 2) == 2 + E && whole_path(0, 0, 7, 21, 21) == 7 && whole_path(2047, 1, 7, 21, 21) == 7, "two turns, exact, and never 8");
    check(whole_path(0, 0, 6, 21, 21) == -7 && whole_path(0, 0, 7, 20, 21) == -7 && whole_path(0, 0, 7, 21, 20) == -7 && whole_path(0, 0, 0, 0, 0) == -7,
          "one kind, one word or one remainder too few: 7");
    n_points = POINTS - 1;
    check(whole_path(0, 0, 7, 21, 21) == -7, "1,535 points: 7");
    n_points = 0;
    check(whole_path(0, 0, 7, 21, 21) == -7, "no points: 7");
    n_points = POINTS;
    n_lifts = LIFTS - 1;
    check(whole_path(0, 0, 7, 21, 21) == -7, "3,071 lifts: 7");
    n_lifts = LIFTS;
    points[POINTS - 1] = -65537;
    check(whole_path(0, 0, 7, 21, 21) == -9 && whole_path(0, 0, 7, 21, 20) == -7, "a point too far: 9, after 7");
    points[POINTS - 1] = 65536;
    lifts[LIFTS - 1] = 4097;
    check(whole_path(0, 0, 7, 21, 21) == -9, "a lift too far: 9");
    check(turn(1023, -2) == 2 + E && whole_path(0, 0, 5, 15, 15) == -9, "a flat edge's too");
    lifts[LIFTS - 1] = -4096;
    points[6] = lifts[6] = 2147483647;
    check(whole_path(0, 0, 5, 15, 15) == 5, "what is far elsewhere is not looked at");
}

static void try_the_reader(void) {
    int steps = 0;
    memset(&tally, 0, sizeof tally);
    check(step_at(0, 0) == 0, "a first step");
    while (steps < 4 && walk_step() == 0) {
        steps++;
    }
    check(steps == 2 && tally.steps == 4 && tally.overs == 1 && tally.unders == 1 && tally.length == 2 * 300 + 2 * 65535 + 8 + 320,
          "and three more, to the end");
    reader.start_dart = 2048;
    check(walk_step() == -2, "a start that is no dart: 2");
    reader.start_dart = 2045;
    check(walk_step() == -4, "a start that is absent: 4");
    tally.steps = 4294967295u;
    check(step_at(0, 0) == -6, "a tally that is full: 6");
    /* Step (1, 1) that began at (0, 0) is the last: 300 and the lap. */
    memset(&tally, 0, sizeof tally);
    reader.dart = reader.type = 1;
    tally.length = 4294967295u - 619;
    check(walk_step() == -6, "a length without room for the lap: 6");
    tally.length = 4294967295u - 620;
    check(walk_step() == 1 && tally.length == 4294967295u, "a length with just that room");
    memset(&tally, 0, sizeof tally);
}

/* Nine edges are 122 bytes. */
static void try_the_trial_job(void) {
    check(trial_job(0, 0, 32) == 32 && trial_job(4294967295u, 9, 122) == 122 && trial_job(7, 1024, LARGEST) == LARGEST, "trial jobs, exact");
    check(trial_job(0, 0, 31) == -7 && trial_job(7, 9, 121) == -7 && trial_job(7, 9, 0) == -7 && trial_job(7, 1024, LARGEST - 1) == -7,
          "one byte too few: 7");
    check(trial_job(7, 1025, LARGEST) == -13 && trial_job(7, 1025, 0) == -13 && trial_job(7, 4294967295u, 22) == -13, "too many edges: 13, before 7");
}

/* "VA" is AV's letters exchanged. */
static void try_the_job_record(void) {
    check(job_record(PLANNER_MARK_AV, 4) == 4 && job_record(PLANNER_MARK_RV, 4) == 4 && job_record(PLANNER_MARK_IE, 10) == 10 &&
              job_record(PLANNER_MARK_IL, 12) == 12 && job_record(PLANNER_MARK_DE, 4) == 4 && job_record(PLANNER_MARK_TW, 6) == 6,
          "job records, exact");
    check(job_record(PLANNER_MARK_AV, 3) == -7 && job_record(PLANNER_MARK_RV, 3) == -7 && job_record(PLANNER_MARK_IE, 9) == -7 &&
              job_record(PLANNER_MARK_IL, 11) == -7 && job_record(PLANNER_MARK_DE, 3) == -7 && job_record(PLANNER_MARK_TW, 5) == -7 &&
              job_record(PLANNER_MARK_IL, 10) == -7 && job_record(PLANNER_MARK_IE, 0) == -7,
          "one byte too few: 7");
    check(job_record(0x5641, 12) == -10 && job_record(0x5641, 1) == -10 && job_record(0, 0) == -10 && job_record(65535, 12) == -10,
          "a bad mark: 10, before 7");
}

/* Every call declines the mesh while these words stand in this place. */
static int torn_with(size_t place, const uint16_t *wrong, size_t n_wrong) {
    const uint16_t right = mesh[place];
    size_t i;
    int torn = 1;
    for (i = 0; i < n_wrong; i++) {
        mesh[place] = wrong[i];
        torn = torn && all_torn();
    }
    mesh[place] = right;
    return torn;
}

/* Tables that are no tables: other sizes, one of them that of a table without lengths, words that lead outside, lengths that are not there, and
   lengths of edges that are not. */
static void try_the_torn(void) {
    static const size_t places[] = {PLANNER_NEXT_AT,     PLANNER_NEXT_AT + 2047,   PLANNER_PREV_AT, PLANNER_PREV_AT + 2047,
                                    PLANNER_LEAVES_AT,   PLANNER_LEAVES_AT + 2047, PLANNER_EDGE_AT, PLANNER_EDGE_AT + 1023,
                                    PLANNER_VERTEX_AT,   PLANNER_VERTEX_AT + 511,  PLANNER_NEXT_AT + 2045, PLANNER_LEAVES_AT + 2,
                                    PLANNER_EDGE_AT + 1, PLANNER_VERTEX_AT + 2};
    static const uint16_t outside[] = {512, 1024, 2048, 7679, 8703, 8704, 32767, 32768, 65533};
    static const uint16_t none[] = {0}, some[] = {1, 16, 65535};
    static const size_t others[] = {0, 1, 7680, WORDS - 1, WORDS + 1};
    size_t i;
    int fine = 1;
    for (i = 0; i < sizeof others / sizeof others[0]; i++) {
        words = others[i];
        fine = fine && all_torn() && empty() == -1;
    }
    words = WORDS;
    check(fine, "0, 1, 7,680, 8,703 and 8,705 words: 1, by every call");
    for (i = 0; i < sizeof places / sizeof places[0]; i++) {
        fine = fine && torn_with(places[i], outside, sizeof outside / sizeof outside[0]);
    }
    check(fine, "a word that leads outside: 1, by every call");
    check(torn_with(PLANNER_LENGTH_AT, none, 1) && torn_with(PLANNER_LENGTH_AT + 1023, none, 1), "a live edge without a length: 1, by every call");
    check(torn_with(PLANNER_LENGTH_AT + 1, some, 3) && torn_with(PLANNER_LENGTH_AT + 1022, some, 3),
          "a length of an edge that is not live: 1, by every call");
    check(checked() == 0, "and the mesh is as it was");
}

int main(int argc, char **argv) {
    check(checked() == -1 && build() && checked() == 0, "the mesh");
    if (argc > 1 && strcmp(argv[1], "stray") == 0) {
        stray = 1;
        checked();
        return 0;
    }
    try_the_edits();
    try_the_forecasts();
    try_the_outputs();
    try_the_names();
    try_the_lengths();
    try_the_price_sheet();
    try_the_path();
    try_the_whole_path();
    try_the_reader();
    try_the_trial_job();
    try_the_job_record();
    try_the_torn();
    try_no_ribbons();
    return verdict();
}
