/* include/planner.h as a C host uses it. Written so that a C++ compiler takes it too. */

#include "check.h"
#include "planner.h"

#include <stddef.h>
#include <stdint.h>

enum { DARTS = 2048, EDGES = 1024, VERTICES = 512 };
enum { LEAVES = 2 * DARTS, TURNS = 3 * DARTS, VERTEX = TURNS + EDGES, LENGTH = VERTEX + VERTICES, WORDS = LENGTH + EDGES };
enum { GUARDS = 32, GUARD = 0xa5c3 };

/* The lent slice, with guard words on both sides. */
static uint16_t words[GUARDS + WORDS + 1 + GUARDS];
static uint16_t *const table = words + GUARDS;

static void fill(uint16_t word) {
    size_t i;
    for (i = 0; i < sizeof words / sizeof words[0]; i++) {
        words[i] = word;
    }
}

static int all(size_t from, size_t to, uint16_t word) {
    size_t i;
    for (i = from; i < to; i++) {
        if (table[i] != word) {
            return 0;
        }
    }
    return 1;
}

static int guards_are_whole(void) {
    size_t i;
    for (i = 0; i < GUARDS; i++) {
        if (words[i] != GUARD || table[WORDS + i] != GUARD) {
            return 0;
        }
    }
    return 1;
}

/* An edge of turns 1 and length 1 between vertices 0 and 1, written into the empty mesh. */
static void write_an_edge(void) {
    uint16_t d;
    for (d = 0; d < 2; d++) {
        table[d] = d;
        table[DARTS + d] = d;
        table[LEAVES + d] = d;
        table[VERTEX + d] = d;
    }
    table[TURNS] = 101;
    table[LENGTH] = 1;
}

/* Document 02: "The table grows at its end by 1,024 words to 8,704". */
static void try_the_places(void) {
    check(PLANNER_TABLE_WORDS == 8704 && WORDS == 8704, "8,704 words");
    check(PLANNER_NEXT_AT == 0 && PLANNER_PREV_AT == DARTS && PLANNER_LEAVES_AT == LEAVES && PLANNER_EDGE_AT == TURNS &&
              PLANNER_VERTEX_AT == VERTEX && PLANNER_LENGTH_AT == LENGTH && LENGTH == 7680,
          "the six kinds of words, one after the other");
}

static void try_empty(void) {
    int64_t answer;
    fill(GUARD);
    answer = planner_empty(table, WORDS);
    check(answer == 0, "planner_empty fills 8,704 words and answers 0");
    check(all(0, TURNS, 65535) && all(TURNS, VERTEX, 0) && all(VERTEX, LENGTH, 65535) && all(LENGTH, WORDS, 0),
          "the words are those of the empty mesh");
    check(guards_are_whole(), "planner_empty writes nothing outside the slice");
    fill(GUARD);
    check(planner_empty(table, WORDS - 1) == -1, "planner_empty declines 8,703 words with 1");
    check(planner_empty(table, WORDS + 1) == -1, "planner_empty declines 8,705 words with 1");
    check(planner_empty(table, LENGTH) == -1, "planner_empty declines 7,680 words, a table without lengths, with 1");
    check(planner_empty(NULL, 0) == -1, "planner_empty declines no words with 1");
    check(all(0, WORDS, GUARD) && guards_are_whole(), "a declined planner_empty writes nothing");
}

static void try_check(void) {
    const uint16_t *lent = table;
    fill(GUARD);
    check(planner_check(lent, WORDS) == -1, "planner_check answers -1 for words that are no table");
    check(planner_empty(table, WORDS) == 0 && planner_check(lent, WORDS) == 0, "the empty mesh is good");
    check(planner_check(lent, WORDS - 1) == -1 && planner_check(lent, WORDS + 1) == -1, "other sizes are torn");
    check(planner_check(NULL, 0) == -1, "no words are torn");
    write_an_edge();
    check(planner_check(lent, WORDS) == 0, "two vertices and an edge of turns 1 are good");
    table[TURNS] = 200;
    check(planner_check(lent, WORDS) == -1, "turns of 100 are torn");
    table[TURNS] = 199;
    check(planner_check(lent, WORDS) == 0, "turns of 99 are good");
    table[DARTS] = 1;
    check(planner_check(lent, WORDS) == -1, "a wrong previous dart is torn");
    table[DARTS] = 0;
    table[VERTEX + 1] = 65534;
    check(planner_check(lent, WORDS) == -1, "a joined vertex marked isolated is torn");
    table[VERTEX + 1] = 1;
    table[VERTEX + 511] = 65534;
    check(planner_check(lent, WORDS) == 0, "an isolated vertex more is good");
    check(planner_check(lent, LENGTH) == -1, "its first 7,680 words alone are torn");
    check(guards_are_whole(), "planner_check writes nothing outside the slice");
}

/* Document 02: "for each edge its length, 1 to 65,535 if live, 0 if not, and a good table keeps that too". Edge 0 is live. */
static void try_the_lengths_of_a_table(void) {
    check(planner_empty(table, WORDS) == 0, "the empty mesh again");
    write_an_edge();
    check(planner_check(table, WORDS) == 0, "a length of 1 is good");
    table[LENGTH] = 65535;
    check(planner_check(table, WORDS) == 0, "a length of 65,535 is good");
    table[LENGTH] = 0;
    check(planner_check(table, WORDS) == -1, "a live edge without a length is torn");
    table[LENGTH] = 16;
    table[LENGTH + 1] = 1;
    check(planner_check(table, WORDS) == -1, "a length of an edge that is not live is torn");
    table[LENGTH + 1] = 0;
    table[WORDS - 1] = 65535;
    check(planner_check(table, WORDS) == -1, "that of the last edge too");
    table[WORDS - 1] = 0;
    check(planner_check(table, WORDS) == 0, "without them the table is good");
}

/* An answer is faces + 65536 * rule, rule 1 A, 2 B1, 3 B2, 4 E. No table has more than 1,536 faces: V-E+F is at most 2 in each part. */
static void try_the_rules(void) {
    const int64_t bare = 1536, even = 4 * 65536 + 1536;
    check(PLANNER_RULE_A == 1 && PLANNER_RULE_B1 == 2 && PLANNER_RULE_B2 == 3 && PLANNER_RULE_E == 4, "1 A, 2 B1, 3 B2, 4 E");
    check(PLANNER_FACES(even) == 1536 && PLANNER_RULE(even) == PLANNER_RULE_E, "faces and rule of an answer");
    check(PLANNER_FACES(bare) == 1536 && PLANNER_RULE(bare) == 0, "a face count alone has rule 0");
    check(PLANNER_FACES(65536) == 0 && PLANNER_RULE(65536) == PLANNER_RULE_A, "no face, rule A");
    check(PLANNER_FACES(even != 0 ? 131077 : 1) == 5 && PLANNER_RULE(even != 0 ? 131077 : 1) == 2, "an expression as the argument");
    check(2 * PLANNER_FACES(131077) == 10 && 2 * PLANNER_RULE(131077) == 4, "the macros within an expression");
}

/* A forecast is after + 65536 * rule + 2^32 * before. */
static void try_the_forecasts(void) {
    const int64_t largest = 1536 * BEFORE + 2 * 65536 + 1535, bare = 4 * 65536 + 1536;
    check(PLANNER_STALE_FORECAST == 12, "12 stale forecast");
    check(PLANNER_FACES_BEFORE(largest) == 1536 && PLANNER_FACES(largest) == 1535 && PLANNER_RULE(largest) == PLANNER_RULE_B1,
          "before, after and rule of a forecast");
    check(PLANNER_FACES_BEFORE(bare) == 0, "a plain edit's answer has no faces before");
    check(PLANNER_FACES_BEFORE(bare != 0 ? largest : bare) == 1536 && 2 * PLANNER_FACES_BEFORE(largest) == 3072, "the macro and expressions");
}

/* Document 02: "8 sixteenths for each O on the ribbon", "320 for the lap", which is "a lap of 20 mm". */
static void try_the_lengths(void) {
    check(PLANNER_OVER_ALLOWANCE == 8 && PLANNER_LAP == 320 && PLANNER_LAP == 16 * 20, "8 for each O, 320 for the lap");
}

/* Document 02: "the started metre (16,000 sixteenths)", "The four numbers of a ribbon". The edge's ribbon is 2 + 8 + 320 long. */
static void try_the_price_sheet(void) {
    uint32_t out[PLANNER_ROW_WORDS + 1];
    check(PLANNER_METRE == 16000 && PLANNER_METRE == 16 * 1000 && PLANNER_ROW_WORDS == 4, "a metre, and four words a ribbon");
    check(planner_empty(table, WORDS) == 0 && planner_price_sheet(table, WORDS, 65535, 65535, NULL, 0) == 0, "no ribbons cost nothing, in no words");
    write_an_edge();
    out[PLANNER_ROW_WORDS] = GUARD;
    check(planner_price_sheet(table, WORDS, 65535, 65534, out, PLANNER_ROW_WORDS + 1) == 65535, "one metre at 65,535 cents");
    check(out[0] == 330 && out[1] == 1 && out[2] == PLANNER_METRE - 330 && out[3] == 65535 && out[4] == GUARD, "its row, and no word more");
    check(planner_price_sheet(table, WORDS, 1, 1, NULL, 0) == -PLANNER_SHORT_SLICE &&
              planner_price_sheet(table, WORDS - 1, 1, 1, NULL, 0) == -PLANNER_TORN,
          "no words are short, and a torn table is declined before");
}

/* Document 02: "13, N above 1,024; otherwise 7 for an output shorter than 32 + 10N bytes". */
static void try_the_trial_job(void) {
    static uint8_t out[PLANNER_TRIAL_BYTES(PLANNER_EDGES) + 1];
    const uint32_t nine = 9;
    check(PLANNER_MANY_EDGES == 13, "13 many edges");
    check(PLANNER_TRIAL_BYTES(0) == 32 && PLANNER_TRIAL_BYTES(1) == 42 && PLANNER_TRIAL_BYTES(1024) == 10272, "32 + 10N bytes");
    check(PLANNER_TRIAL_BYTES(nine + 1) == 132 && 2 * PLANNER_TRIAL_BYTES(nine) == 244, "the macro and expressions");
    out[10272] = GUARD & 255;
    check(planner_trial_job(7, PLANNER_EDGES, out, sizeof out) == 10272 && out[10272] == (GUARD & 255), "the largest trial job, and no byte more");
    check(planner_trial_job(7, 0, NULL, 0) == -PLANNER_SHORT_SLICE && planner_trial_job(7, 1024, NULL, 0) == -PLANNER_SHORT_SLICE,
          "no bytes are short");
    check(planner_trial_job(7, 1025, NULL, 0) == -PLANNER_MANY_EDGES && planner_trial_job(7, 1025, out, sizeof out) == -PLANNER_MANY_EDGES,
          "1,025 edges are too many, before the output is looked at");
}

/* Document 01: "A record is a two-byte mark, then 16-bit words, high byte first: AV v; RV v; IE e c1 c2 k; DE e; TW e amount". Document 02:
   "Record IL is IE with one more word, the last, for the length". */
static void try_the_job_record(void) {
    static const uint16_t marks[] = {PLANNER_MARK_AV, PLANNER_MARK_RV, PLANNER_MARK_IE, PLANNER_MARK_IL, PLANNER_MARK_DE, PLANNER_MARK_TW};
    static const char letters[] = "AVRVIEILDETW";
    static const int sizes[] = {4, 4, 10, 12, 4, 6};
    uint8_t out[PLANNER_RECORD_BYTES + 1];
    int i, j, fine = 1, kept = 1, none = 1;
    check(PLANNER_BAD_MARK == 10 && PLANNER_RECORD_BYTES == 12, "10 bad mark; no record has more than 12 bytes");
    for (i = 0; i < 6; i++) {
        for (j = 0; j < PLANNER_RECORD_BYTES + 1; j++) {
            out[j] = GUARD & 255;
        }
        fine = fine && marks[i] == 256 * letters[2 * i] + letters[2 * i + 1];
        fine = fine && planner_job_record(marks[i], 0, 0, 0, 0, 0, out, sizeof out) == sizes[i];
        fine = fine && out[0] == letters[2 * i] && out[1] == letters[2 * i + 1];
        for (j = 2; j < PLANNER_RECORD_BYTES + 1; j++) {
            kept = kept && out[j] == (j < sizes[i] ? 0 : GUARD & 255);
        }
        none = none && planner_job_record(marks[i], 0, 0, 0, 0, 0, NULL, 0) == -PLANNER_SHORT_SLICE;
    }
    check(fine, "the six marks are their two letters, and stand first in their records");
    check(kept, "and no byte more than the record");
    check(none, "no bytes are short");
    check(planner_job_record(0, 0, 0, 0, 0, 0, NULL, 0) == -PLANNER_BAD_MARK &&
              planner_job_record(0x5641, 0, 0, 0, 0, 0, out, 3) == -PLANNER_BAD_MARK &&
              planner_job_record(0x6176, 0, 0, 0, 0, 0, out, sizeof out) == -PLANNER_BAD_MARK,
          "0, the letters exchanged and small letters are no mark, before the output is looked at");
}

int main(void) {
    try_the_places();
    try_empty();
    try_check();
    try_the_lengths_of_a_table();
    try_the_rules();
    try_the_forecasts();
    try_the_lengths();
    try_the_price_sheet();
    try_the_trial_job();
    try_the_job_record();
    return verdict();
}
