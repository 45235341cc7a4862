/* The limits that the header promises, on a full table: a call reads and writes nothing past a lent slice, each of which ends at a
   page that may not be touched; and a call needs less than 16 KiB of stack, run on a stack of that size that begins at such a page.
   A call that goes further is stopped by the system. For Linux; written so that a C++ compiler takes it too. */

#define _DEFAULT_SOURCE

#include "check.h"
#include "planner.h"

#include <stddef.h>
#include <stdint.h>
#include <stdlib.h>
#include <sys/mman.h>
#include <ucontext.h>
#include <unistd.h>

enum { WORDS = PLANNER_TABLE_WORDS, VERTICES = PLANNER_VERTICES, EDGES = PLANNER_EDGES, STACK = 16 * 1024 };

static size_t page;

/* Memory of so many bytes in whole pages, between two that may not be touched. Answers where it begins; its size in whole pages. */
static char *map(size_t bytes, size_t *whole) {
    char *at;
    *whole = (bytes + page - 1) / page * page;
    at = (char *)mmap(NULL, *whole + 2 * page, PROT_READ | PROT_WRITE, MAP_PRIVATE | MAP_ANONYMOUS, -1, 0);
    if (at == MAP_FAILED || mprotect(at, page, PROT_NONE) != 0 || mprotect(at + page + *whole, page, PROT_NONE) != 0) {
        exit(2);
    }
    return at + page;
}

/* A slice of so many bytes that ends where such a page begins. */
static void *lend(size_t bytes) {
    size_t whole;
    char *at = map(bytes, &whole);
    return at + whole - bytes;
}

static uint16_t *table;
static int64_t answers[38];

/* The largest length of an edge. */
enum { LONGEST = 65535 };

/* A chain through all vertices, and loops in the corner of dart 0 for the other edges, every one with one turn and the largest length: all
   names are used. Each strip of the chain joins a vertex's face, and each loop leaves one face one, so there is one ribbon, of 2,048 steps. It
   passes every edge twice, once over and once under: 1,024 O's. */
static int build(void) {
    uint16_t i;
    int fine = planner_empty(table, WORDS) == 0;
    for (i = 0; i < VERTICES; i++) {
        fine = fine && planner_add_vertex(table, WORDS, i) >= 0;
    }
    fine = fine && planner_insert_edge(table, WORDS, 0, 32768, 32769, 1, LONGEST) >= 0;
    for (i = 1; i < VERTICES - 1; i++) {
        fine = fine && planner_insert_edge(table, WORDS, i, (uint16_t)(2 * i - 1), (uint16_t)(32769 + i), 1, LONGEST) >= 0;
    }
    for (i = VERTICES - 1; i < EDGES; i++) {
        fine = fine && planner_insert_edge(table, WORDS, i, 0, 0, 1, LONGEST) >= 0;
    }
    return fine;
}

static ucontext_t outside, inside;

static void (*job)(void);

static void enter(void) {
    job();
}

/* Runs it on a stack of STACK bytes. */
static void on_small_stack(void (*function)(void)) {
    size_t whole;
    char *stack = map(STACK, &whole);
    job = function;
    getcontext(&inside);
    inside.uc_stack.ss_sp = stack;
    inside.uc_stack.ss_size = whole;
    inside.uc_link = &outside;
    makecontext(&inside, enter, 0);
    swapcontext(&outside, &inside);
}

/* What the calls are lent, each slice of the exact size that the call needs. */
static uint16_t *listing, *kinds, *remainders;
static struct planner_reader *reader;
static struct planner_tally *tally;
static int32_t *counts, *parts, *points, *lifts, *wholes;
static uint32_t *sheet;
static uint8_t *letters, *trial, *record;
static float *coords;
static size_t steps, words;

static void calls_that_read(void) {
    answers[0] = planner_check(table, WORDS);
    answers[1] = planner_listing(table, WORDS, listing, words);
    answers[2] = planner_counts(table, WORDS, counts, 5);
    answers[3] = planner_parts(table, WORDS, parts, 6);
    answers[4] = planner_alternates(table, WORDS, 0, 0);
    answers[5] = planner_plain(table, WORDS);
    answers[6] = planner_letters(table, WORDS, 0, 0, letters, steps);
    answers[7] = planner_cut_length(table, WORDS, 0, 0);
    answers[8] = planner_float_path(table, WORDS, 0, 0, points, 3 * VERTICES, lifts, 3 * EDGES, kinds, steps + 1, coords, 3 * (steps + 1));
    answers[24] = planner_whole_path(table, WORDS, 0, 0, points, 3 * VERTICES, lifts, 3 * EDGES, kinds, steps + 1, wholes, 3 * (steps + 1),
                                     remainders, 3 * (steps + 1));
    answers[36] = planner_price_sheet(table, WORDS, 65535, 65535, sheet, PLANNER_ROW_WORDS);
}

/* The largest trial job. */
enum { TRIAL = PLANNER_TRIAL_BYTES(EDGES) };

static void make_a_trial_job(void) {
    answers[26] = planner_trial_job(7, EDGES, trial, TRIAL);
}

/* The record of each mark, each into an output of its exact size; the longest into one byte less; a mark that is none. */
static void write_records(void) {
    uint8_t *end = record + PLANNER_RECORD_BYTES;
    answers[27] = planner_job_record(PLANNER_MARK_AV, 65535, 65535, 65535, -1, 65535, end - 4, 4);
    answers[28] = planner_job_record(PLANNER_MARK_RV, 65535, 65535, 65535, -1, 65535, end - 4, 4);
    answers[29] = planner_job_record(PLANNER_MARK_DE, 65535, 65535, 65535, -1, 65535, end - 4, 4);
    answers[30] = planner_job_record(PLANNER_MARK_TW, 65535, 65535, 65535, -1, 65535, end - 6, 6);
    answers[31] = planner_job_record(PLANNER_MARK_IE, 65535, 65535, 65535, -1, 65535, end - 10, 10);
    answers[32] = planner_job_record(PLANNER_MARK_IL, 65535, 65535, 65535, -1, 65535, record, PLANNER_RECORD_BYTES);
    answers[33] = planner_job_record(PLANNER_MARK_IL, 0, 0, 0, 0, 0, record + 1, PLANNER_RECORD_BYTES - 1);
    answers[34] = planner_job_record(0, 0, 0, 0, 0, 0, end, 0);
}

/* A whole walk, step by step: it ends, or a step is declined. */
static void read_a_walk(void) {
    int64_t ends = 0;
    while (ends == 0) {
        ends = planner_walk_step(table, WORDS, reader, tally);
    }
    answers[16] = ends;
}

/* The path of most pieces, with 99 turns on every edge, and the largest cut length. */
enum { MOST = 2048 * 99 + 1 };

static void read_the_longest_path(void) {
    answers[35] = planner_cut_length(table, WORDS, 0, 0);
    answers[25] = planner_whole_path(table, WORDS, 0, 0, points, 3 * VERTICES, lifts, 3 * EDGES, kinds, MOST, wholes, 3 * MOST, remainders, 3 * MOST);
}

/* Every edge. By an even number the walks stay. */
static int turn_all(int16_t amount) {
    uint16_t e;
    int fine = 1;
    for (e = 0; e < EDGES; e++) {
        fine = fine && planner_turn_edge(table, WORDS, e, amount) >= 0;
    }
    return fine;
}

/* Neighbours of the chain stand at the two ends of the range. */
static void set_points_far(void) {
    int v, axis;
    for (v = 0; v < VERTICES; v++) {
        for (axis = 0; axis < 3; axis++) {
            points[3 * v + axis] = (v + axis) % 2 == 0 ? 65536 : -65536;
        }
    }
}

static void try_the_longest_path(void) {
    kinds = (uint16_t *)lend(MOST * sizeof *kinds);
    wholes = (int32_t *)lend(3 * MOST * sizeof *wholes);
    remainders = (uint16_t *)lend(3 * MOST * sizeof *remainders);
    set_points_far();
    check(turn_all(98), "99 turns on every edge");
    on_small_stack(read_the_longest_path);
    check(answers[25] == 202753 && kinds[MOST - 1] == PLANNER_CLOSE, "the whole path of 202,753 pieces");
    /* Edge 0 from 65,536 to -65,536: the way to its first crossing is -131,072 by 198, -662 and 4 left. */
    check(kinds[0] == PLANNER_OVER && wholes[0] == 64874 && remainders[0] == 4, "its first crossing");
    /* The 99 crossings of an edge are met twice, each once over and once under. */
    check(answers[35] == 2048 * 65535 + 1024 * 99 * 8 + 320, "and the largest cut length");
    check(turn_all(-98), "and one turn again");
}

/* Without turns the chain has one ribbon, and each of the 513 loops beside it one more. */
enum { RIBBONS = 1 + EDGES - (VERTICES - 1) };

static void price_many_ribbons(void) {
    answers[37] = planner_price_sheet(table, WORDS, 1, 1, sheet, PLANNER_ROW_WORDS * RIBBONS);
}

/* The first ribbon goes over both sides of the chain and one of each loop, 1,535 steps; each other one over the other side of a loop. */
static void try_many_ribbons(void) {
    sheet = (uint32_t *)lend(PLANNER_ROW_WORDS * RIBBONS * sizeof *sheet);
    check(turn_all(-1), "no turns");
    on_small_stack(price_many_ribbons);
    check(answers[37] == 6288 + 513 * 5 && RIBBONS == 514, "the prices of 514 ribbons");
    check(sheet[0] == 1535 * 65535 + 320 && sheet[4] == 65535 + 320 && sheet[4 * 513 + 3] == 5, "the first row, the second and the last");
    check(turn_all(1), "and one turn again");
}

/* An edit asked for and committed, three times; the last commit again, which finds the table changed. */
static void calls_that_forecast(void) {
    answers[17] = planner_ask_turn_edge(table, WORDS, EDGES - 1, -1);
    answers[18] = planner_commit_turn_edge(table, WORDS, EDGES - 1, -1, answers[17]);
    answers[19] = planner_ask_delete_edge(table, WORDS, EDGES - 1);
    answers[20] = planner_commit_delete_edge(table, WORDS, EDGES - 1, answers[19]);
    answers[21] = planner_ask_insert_edge(table, WORDS, EDGES - 1, 0, 0, 1, LONGEST);
    answers[22] = planner_commit_insert_edge(table, WORDS, EDGES - 1, 0, 0, 1, LONGEST, answers[21]);
    answers[23] = planner_commit_turn_edge(table, WORDS, EDGES - 1, -2, answers[17]);
}

static void calls_that_write(void) {
    answers[9] = planner_turn_edge(table, WORDS, EDGES - 1, -1);
    answers[10] = planner_delete_edge(table, WORDS, EDGES - 1);
    answers[11] = planner_insert_edge(table, WORDS, EDGES - 1, 1, 1, 0, LONGEST);
    answers[12] = planner_delete_edge(table, WORDS, VERTICES - 2);
    answers[13] = planner_remove_vertex(table, WORDS, VERTICES - 1);
    answers[14] = planner_add_vertex(table, WORDS, VERTICES - 1);
    answers[15] = planner_empty(table, WORDS);
}

/* The sizes that the calls need, asked for with room to spare. */
static void measure(void) {
    uint16_t *roomy = (uint16_t *)malloc(5000 * sizeof *roomy);
    words = (size_t)planner_listing(table, WORDS, roomy, 5000);
    steps = roomy[0];
    free(roomy);
    listing = (uint16_t *)lend(words * sizeof *listing);
    counts = (int32_t *)lend(5 * sizeof *counts);
    parts = (int32_t *)lend(6 * sizeof *parts);
    sheet = (uint32_t *)lend(PLANNER_ROW_WORDS * sizeof *sheet);
    letters = (uint8_t *)lend(steps);
    trial = (uint8_t *)lend(TRIAL);
    record = (uint8_t *)lend(PLANNER_RECORD_BYTES);
    points = (int32_t *)lend(3 * VERTICES * sizeof *points);
    lifts = (int32_t *)lend(3 * EDGES * sizeof *lifts);
    kinds = (uint16_t *)lend((steps + 1) * sizeof *kinds);
    coords = (float *)lend(3 * (steps + 1) * sizeof *coords);
    wholes = (int32_t *)lend(3 * (steps + 1) * sizeof *wholes);
    remainders = (uint16_t *)lend(3 * (steps + 1) * sizeof *remainders);
    reader = (struct planner_reader *)lend(sizeof *reader);
    tally = (struct planner_tally *)lend(sizeof *tally);
}

int main(void) {
    const int64_t length = 2048 * 65535 + 1024 * 8 + 320; /* the edges, the O's, the lap */
    int i, fine = 1;
    page = (size_t)sysconf(_SC_PAGESIZE);
    table = (uint16_t *)lend(WORDS * sizeof *table);
    check(build(), "a full table is built by edits");
    measure();
    on_small_stack(calls_that_read);
    check(answers[0] == 0 && answers[1] == (int64_t)words && answers[2] == 5 && answers[3] == 6, "the listing, the counts, the part");
    check(answers[4] == 1 && answers[5] == 1 && answers[6] == (int64_t)steps, "one hand: the ribbons alternate");
    check(steps == 2048 && answers[7] == length && answers[8] == 2049 && answers[24] == 2049, "a cut length, a float path and a whole path");
    /* 134,224,192 sixteenths are 8,389 metres and 192 more. */
    check(length == 134224192 && answers[36] == 8390 * (int64_t)65535 && sheet[0] == length && sheet[1] == 8390 && sheet[2] == 15808 &&
              sheet[3] == answers[36],
          "a price sheet");
    try_the_longest_path();
    try_many_ribbons();
    on_small_stack(make_a_trial_job);
    /* Its last record is that of edge 1,023. */
    check(answers[26] == 10272 && trial[TRIAL - 10] == 'I' && trial[TRIAL - 8] == 3 && trial[TRIAL - 7] == 255, "a trial job of 1,024 edges");
    on_small_stack(write_records);
    check(answers[27] == 4 && answers[28] == 4 && answers[29] == 4 && answers[30] == 6 && answers[31] == 10 && answers[32] == 12,
          "a job record of each mark");
    check(answers[33] == -PLANNER_SHORT_SLICE && answers[34] == -PLANNER_BAD_MARK, "a short one and a bad mark");
    check(record[0] == 'I' && record[1] == 'L' && record[2] == 255 && record[11] == 255, "and the insertion's stays");
    on_small_stack(read_a_walk);
    check(answers[16] == 1 && tally->steps == 2048 && tally->overs == 1024 && tally->unders == 1024 && tally->length == length,
          "the walk again, step by step, with its tally");
    on_small_stack(calls_that_forecast);
    for (i = 17; i < 23; i += 2) {
        fine = fine && answers[i] >= BEFORE && answers[i + 1] == answers[i] % BEFORE;
    }
    check(fine && answers[23] == -PLANNER_STALE_FORECAST, "every edit asked for is committed, and a stale one is not");
    on_small_stack(calls_that_write);
    for (i = 9; i <= 15; i++) {
        fine = fine && answers[i] >= 0;
    }
    check(fine, "every edit is accepted");
    return verdict();
}
