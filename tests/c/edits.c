/* The edits, their forecasts and the listing as a C host calls them: document 01's printed job and some samples. Written so that
   a C++ compiler takes it too. */

#include "check.h"
#include "planner.h"

#include <stddef.h>
#include <stdint.h>

enum { WORDS = 8704, OUT = 8 };

static uint16_t table[WORDS];
static uint16_t before[WORDS];
static uint16_t out[OUT];

static void keep(void) {
    size_t i;
    for (i = 0; i < WORDS; i++) {
        before[i] = table[i];
    }
}

static int kept(void) {
    size_t i;
    for (i = 0; i < WORDS; i++) {
        if (before[i] != table[i]) {
            return 0;
        }
    }
    return 1;
}

static void try_the_printed_job(void) {
    size_t i;
    check(planner_empty(table, WORDS) == 0, "the empty mesh");
    check(planner_add_vertex(table, WORDS, 0) == 1, "one vertex has one face");
    check(planner_insert_edge(table, WORDS, 0, 32768, 32768, 1, 16) == 1 + B2, "a loop of turns 1 has one face");
    keep();
    check(planner_turn_edge(table, WORDS, 1, 1) == -4 && kept(), "edge 1 is absent, and nothing is written");
    for (i = 0; i < OUT; i++) {
        out[i] = 7;
    }
    check(planner_listing(table, WORDS, out, OUT) == 3, "the listing has three words");
    check(out[0] == 2 && out[1] == 0 && out[2] == 1 && out[3] == 7, "two steps, 0/0 and 0/1, and nothing after them");
    check(planner_listing(table, WORDS, out, 2) == -7, "two words are too short for it");
}

/* Around vertex 0 stand 0, 3, 1, 2. With edge 1 flat the walk is (0, 0), (3, 1), (1, 1), (3, 0), by dart 3 twice. With an odd number of turns
   on it the walks are (0, 0), (3, 1) and (1, 0), (2, 1). Edge 0 alone has the walk (0, 0), (0, 1). */
static void try_the_edits(void) {
    check(planner_insert_edge(table, WORDS, 1, 0, 1, 0, 16) == 1 + B2, "sample 4: one face");
    check(planner_turn_edge(table, WORDS, 1, 1) == 2 + B1, "sample 5: two walks");
    check(planner_turn_edge(table, WORDS, 1, 98) == 2 + E, "an even amount changes no face");
    check(planner_turn_edge(table, WORDS, 1, 1) == -6, "sample 6: turns 99, turn by 1");
    check(planner_turn_edge(table, WORDS, 1, -198) == 2 + E, "sample 6: by -198");
    check(planner_remove_vertex(table, WORDS, 0) == -5, "vertex 0 has an edge");
    check(planner_delete_edge(table, WORDS, 1) == 1 + A && planner_delete_edge(table, WORDS, 0) == 1 + B2, "both deleted");
    check(planner_add_vertex(table, WORDS, 0) == -3, "vertex 0 is live");
    check(planner_remove_vertex(table, WORDS, 0) == 0, "and removed");
    keep();
    check(planner_empty(table, WORDS) == 0 && kept(), "what is left is the empty mesh");
    check(planner_add_vertex(table, WORDS, 512) == -2, "there is no vertex 512");
    check(planner_delete_edge(table, WORDS - 1, 0) == -1, "8,703 words are torn");
}

/* Two vertices and edge 0 with k turns between them: its walk is (0, 0), (1, k). */
static int64_t bridge(int16_t k) {
    planner_empty(table, WORDS);
    planner_add_vertex(table, WORDS, 0);
    planner_add_vertex(table, WORDS, 1);
    return planner_insert_edge(table, WORDS, 0, 32768, 32769, k, 16);
}

/* One vertex with the loop 0. Flat, its walks are (0, 0) and (1, 0). With one turn its walk is (0, 0), (0, 1), which meets corner 0 with type 0
   and corner 1 with type 1. */
static int64_t loop(int16_t k) {
    planner_empty(table, WORDS);
    planner_add_vertex(table, WORDS, 0);
    return planner_insert_edge(table, WORDS, 0, 32768, 32768, k, 16);
}

/* After a call that is accepted, a second edge between corners 0 and 1; edge 0 deleted; edge 0 turned. */
static int64_t then_second(int64_t before, int16_t k) {
    return before < 0 ? before : planner_insert_edge(table, WORDS, 1, 0, 1, k, 16);
}

static int64_t then_deleted(int64_t before) {
    return before < 0 ? before : planner_delete_edge(table, WORDS, 0);
}

static int64_t then_turned(int64_t before, int16_t amount) {
    return before < 0 ? before : planner_turn_edge(table, WORDS, 0, amount);
}

static void try_the_rules(void) {
    check(bridge(0) == 1 + A && bridge(1) == 1 + A, "sample 2: two vertices, two faces, become one");
    check(loop(0) == 2 + B1, "sample 3, turns 0: one face becomes two");
    check(loop(1) == 1 + B2, "sample 3, turns 1: one face stays one");
    check(then_second(loop(1), 0) == 1 + B2, "sample 4: types 0 and 1 and no turn are odd");
    check(then_second(loop(0), 0) == 1 + A, "sample 5: corners on the loop's two faces");
    check(then_second(loop(1), 1) == 2 + B1 && then_second(loop(1), -1) == 2 + B1, "sample 5: types 0 and 1 and one turn are even");
    check(then_deleted(loop(0)) == 1 + A, "deleted: its sides are on different faces");
    check(then_deleted(bridge(0)) == 2 + B1 && then_deleted(bridge(1)) == 2 + B1, "deleted: its walk passes by both darts");
    check(then_deleted(loop(1)) == 1 + B2, "deleted: its walk passes by dart 0 twice");
    check(then_turned(loop(0), 1) == 1 + A, "turned: its sides are on different faces");
    check(then_turned(loop(1), -1) == 2 + B1, "turned: its walk passes by dart 0 twice");
    check(then_turned(bridge(0), 1) == 1 + B2 && then_turned(bridge(1), -3) == 1 + B2, "turned: its walk passes by both darts");
    check(then_turned(loop(0), 2) == 2 + E && then_turned(loop(1), -2) == 1 + E && then_turned(bridge(1), 98) == 1 + E, "turned by an even amount");
    check(then_turned(loop(0), 0) == 2 + E, "turned by 0");
    check(then_turned(loop(98), 2) == -6 && then_turned(loop(0), -100) == -6, "6 is tested for even amounts too");
}

/* The answers by the header's names. */
static void try_the_names(void) {
    int64_t answer = then_turned(loop(1), 1);
    check(PLANNER_FACES(answer) == 2 && PLANNER_RULE(answer) == PLANNER_RULE_B1, "two faces, by rule B1");
    answer = planner_add_vertex(table, WORDS, 7);
    check(PLANNER_FACES(answer) == 3 && PLANNER_RULE(answer) == 0, "an added vertex has no rule");
    answer = planner_remove_vertex(table, WORDS, 7);
    check(PLANNER_FACES(answer) == 2 && PLANNER_RULE(answer) == 0, "nor has a removed one");
}

/* Ask writes nothing, for each rule; two vertices are two faces, the flat loop has two, the others one. */
static void try_to_ask(void) {
    planner_empty(table, WORDS);
    planner_add_vertex(table, WORDS, 0);
    keep();
    check(planner_ask_insert_edge(table, WORDS, 0, 32768, 32768, 0, 16) == BEFORE + B1 + 2, "asked to insert: one face becomes two");
    check(planner_ask_insert_edge(table, WORDS, 0, 32768, 32768, 1, 16) == BEFORE + B2 + 1 && kept(), "asked to insert: one face stays one");
    planner_add_vertex(table, WORDS, 1);
    keep();
    check(planner_ask_insert_edge(table, WORDS, 0, 32768, 32769, 1, 16) == 2 * BEFORE + A + 1 && kept(), "asked to insert: two faces become one");
    loop(0);
    keep();
    check(planner_ask_delete_edge(table, WORDS, 0) == 2 * BEFORE + A + 1, "asked to delete: two faces become one");
    check(planner_ask_turn_edge(table, WORDS, 0, 1) == 2 * BEFORE + A + 1, "asked to turn: two faces become one");
    check(planner_ask_turn_edge(table, WORDS, 0, 2) == 2 * BEFORE + E + 2 && kept(), "asked to turn by an even amount: before is after");
    loop(1);
    keep();
    check(planner_ask_delete_edge(table, WORDS, 0) == BEFORE + B2 + 1, "asked to delete: one face stays one");
    check(planner_ask_turn_edge(table, WORDS, 0, -1) == BEFORE + B1 + 2 && kept(), "asked to turn: one face becomes two");
    bridge(0);
    keep();
    check(planner_ask_delete_edge(table, WORDS, 0) == BEFORE + B1 + 2, "asked to delete: one face becomes two");
    check(planner_ask_turn_edge(table, WORDS, 0, 1) == BEFORE + B2 + 1 && kept(), "asked to turn: one face stays one");
    check(planner_ask_insert_edge(table, WORDS, 0, 0, 1, 0, 16) == -3 && planner_ask_delete_edge(table, WORDS, 1) == -4 &&
              planner_ask_turn_edge(table, WORDS, 0, 100) == -6 && planner_ask_turn_edge(table, WORDS, 1024, 1) == -2 && kept(),
          "asked what would be declined: its own number");
    check(planner_ask_insert_edge(NULL, 0, 0, 0, 1, 0, 16) == -1 && planner_ask_delete_edge(NULL, 0, 0) == -1 &&
              planner_ask_turn_edge(NULL, 0, 0, 1) == -1,
          "no words are torn");
}

/* A member tries an edit on screen, and accepts it; then another edit comes between the two. */
static void try_to_commit(void) {
    int64_t forecast;
    loop(0);
    forecast = planner_ask_turn_edge(table, WORDS, 0, 1);
    check(PLANNER_FACES_BEFORE(forecast) == 2 && PLANNER_FACES(forecast) == 1 && PLANNER_RULE(forecast) == PLANNER_RULE_A,
          "before, after and rule");
    check(planner_commit_turn_edge(table, WORDS, 0, 1, forecast) == 1 + A && table[PLANNER_EDGE_AT] == 101, "committed: the plain edit");
    keep();
    check(planner_commit_turn_edge(table, WORDS, 0, 1, forecast) == -PLANNER_STALE_FORECAST && kept(), "a second time it is stale: 12");
    forecast = planner_ask_delete_edge(table, WORDS, 0);
    planner_add_vertex(table, WORDS, 7);
    keep();
    check(planner_commit_delete_edge(table, WORDS, 0, forecast) == -12 && kept(), "a vertex more, so a face more: stale");
    check(planner_remove_vertex(table, WORDS, 7) == 1 && planner_commit_delete_edge(table, WORDS, 0, forecast) == 1 + B2,
          "without it the forecast holds");
    forecast = planner_ask_insert_edge(table, WORDS, 0, 32768, 32768, 0, 16);
    keep();
    check(planner_commit_insert_edge(table, WORDS, 0, 32768, 32768, 1, 16, forecast) == -12 && kept(),
          "the forecast of another edit, which has other answers");
    check(planner_commit_insert_edge(table, WORDS, 0, 32768, 32768, 0, 16, forecast) == 2 + B1 && !kept(), "inserted");
    keep();
    check(planner_commit_insert_edge(table, WORDS, 0, 0, 1, 0, 16, forecast) == -3 && planner_commit_delete_edge(table, WORDS, 1, forecast) == -4 &&
              planner_commit_turn_edge(table, WORDS, 0, 100, forecast) == -6 &&
              planner_commit_turn_edge(table, WORDS, 1024, 1, forecast) == -2 && kept(),
          "the edit's own numbers come before 12");
    check(planner_commit_turn_edge(table, WORDS, 0, 2, 2 + E) == -12 && planner_commit_turn_edge(table, WORDS, 0, 2, -4) == -12 && kept(),
          "a plain edit's answer is no forecast, nor is a refusal");
    /* Between two vertices an odd turn and an even one differ in the rule alone. */
    bridge(0);
    forecast = planner_ask_turn_edge(table, WORDS, 0, 2);
    keep();
    check(planner_commit_turn_edge(table, WORDS, 0, 1, forecast) == -12 && kept(), "the rule alone is another: stale");
    check(planner_commit_turn_edge(table, WORDS, 0, 2, forecast + 65536 * BEFORE) == -12 && kept(), "a bit above the three numbers: stale");
    check(planner_commit_turn_edge(table, WORDS, 0, 2, forecast) == 1 + E && table[PLANNER_EDGE_AT] == 102, "and the true one goes through");
    check(planner_commit_insert_edge(NULL, 0, 0, 0, 1, 0, 16, 0) == -1 && planner_commit_delete_edge(NULL, 0, 0, 0) == -1 &&
              planner_commit_turn_edge(NULL, 0, 0, 1, 0) == -1,
          "no words are torn");
}

static uint16_t length_of(int e) {
    return table[PLANNER_LENGTH_AT + e];
}

/* Edge e alone has a length, this one. */
static int only_length(int e, uint16_t length) {
    int i, fine = 1;
    for (i = 0; i < 1024; i++) {
        fine = fine && length_of(i) == (i == e ? length : 0);
    }
    return fine;
}

/* Document 02: "Insertion takes a length, one 16-bit word, and deletion sets it to 0; no other edit alters one." */
static void try_the_lengths(void) {
    planner_empty(table, WORDS);
    planner_add_vertex(table, WORDS, 0);
    keep();
    check(planner_insert_edge(table, WORDS, 1023, 32768, 32768, 1, 65535) == 1 + B2 && only_length(1023, 65535),
          "the largest length, in the last word");
    check(planner_turn_edge(table, WORDS, 1023, -100) == 1 + E && only_length(1023, 65535), "a turn leaves it");
    check(planner_turn_edge(table, WORDS, 1023, 0) == 1 + E && only_length(1023, 65535), "a turn by 0 too");
    check(planner_add_vertex(table, WORDS, 7) == 2 && planner_remove_vertex(table, WORDS, 7) == 1 && only_length(1023, 65535),
          "a vertex that comes and goes leaves it");
    check(planner_delete_edge(table, WORDS, 1023) == 1 + B2 && kept(), "deleted, the table is as it was before, word for word");
    check(planner_insert_edge(table, WORDS, 0, 32768, 32768, 0, 1) == 2 + B1 && only_length(0, 1), "the smallest length, in the first word");
    check(planner_insert_edge(table, WORDS, 1, 0, 1, 0, 300) == 1 + A && length_of(0) == 1 && length_of(1) == 300,
          "another insertion leaves it");
    check(planner_delete_edge(table, WORDS, 0) >= 0 && only_length(1, 300), "a deletion leaves the other's");
}

/* Document 02: "A length of 0 on insertion is 9, the last of the edit's own numbers", so 12 comes after it. Edge 0 is live, edge 1 is not. */
static void try_a_length_of_0(void) {
    int64_t forecast;
    bridge(0);
    forecast = planner_ask_insert_edge(table, WORDS, 1, 0, 1, 0, 16);
    keep();
    check(planner_insert_edge(table, WORDS, 1, 0, 1, 0, 0) == -9 && kept(), "a length of 0: 9, and nothing is written");
    check(planner_insert_edge(table, WORDS - 1, 1, 0, 1, 0, 0) == -1 && planner_insert_edge(table, WORDS, 1024, 0, 1, 0, 0) == -2 &&
              planner_insert_edge(table, WORDS, 0, 0, 1, 0, 0) == -3 && planner_insert_edge(table, WORDS, 1, 0, 2, 0, 0) == -4 &&
              planner_insert_edge(table, WORDS, 1, 0, 1, 100, 0) == -6 && kept(),
          "1, 2, 3, 4 and 6 come before 9");
    check(planner_ask_insert_edge(table, WORDS, 1, 0, 1, 0, 0) == -9 && planner_ask_insert_edge(table, WORDS, 1, 0, 1, -100, 0) == -6 && kept(),
          "asked: 9, after 6");
    check(planner_commit_insert_edge(table, WORDS, 1, 0, 1, 0, 0, forecast) == -9 &&
              planner_commit_insert_edge(table, WORDS, 1, 0, 1, 0, 0, 0) == -9 &&
              planner_commit_insert_edge(table, WORDS, 1, 0, 1, 100, 0, 0) == -6 && kept(),
          "committed: 9, after 6 and before 12");
    check(planner_commit_insert_edge(table, WORDS, 1, 0, 1, 0, 65535, 0) == -12 && kept(), "with a length, a stale forecast is 12");
    /* A forecast is rule, before and after: the length has no part in it. */
    check(planner_ask_insert_edge(table, WORDS, 1, 0, 1, 0, 65535) == forecast && forecast == BEFORE + B1 + 2, "every length has the same forecast");
    check(planner_commit_insert_edge(table, WORDS, 1, 0, 1, 0, 700, forecast) == 2 + B1 && length_of(1) == 700 && length_of(0) == 16,
          "a commit writes its own length");
    check(planner_commit_delete_edge(table, WORDS, 1, planner_ask_delete_edge(table, WORDS, 1)) == 1 + A && kept(),
          "and a committed deletion gives the table back, word for word");
}

/* The first 7,680 words, a table without its lengths: every call declines them, and they stay. */
static void try_the_old_size(void) {
    const size_t old = 7680;
    bridge(1);
    keep();
    check(planner_add_vertex(table, old, 2) == -1 && planner_remove_vertex(table, old, 0) == -1 && planner_delete_edge(table, old, 0) == -1 &&
              planner_turn_edge(table, old, 0, 1) == -1 && planner_insert_edge(table, old, 1, 0, 1, 0, 16) == -1 && kept(),
          "the five edits: 1");
    check(planner_ask_delete_edge(table, old, 0) == -1 && planner_ask_turn_edge(table, old, 0, 1) == -1 &&
              planner_ask_insert_edge(table, old, 1, 0, 1, 0, 16) == -1 && planner_commit_delete_edge(table, old, 0, BEFORE + B1 + 2) == -1 &&
              planner_commit_turn_edge(table, old, 0, 1, BEFORE + B2 + 1) == -1 &&
              planner_commit_insert_edge(table, old, 1, 0, 1, 0, 16, BEFORE + B2 + 1) == -1 && kept(),
          "asked and committed: 1");
    check(planner_listing(table, old, out, OUT) == -1 && planner_check(table, old) == -1 && planner_cut_length(table, old, 0, 0) == -1 && kept(),
          "and so the calls that read");
}

int main(void) {
    try_the_printed_job();
    try_the_edits();
    try_the_rules();
    try_the_names();
    try_to_ask();
    try_to_commit();
    try_the_lengths();
    try_a_length_of_0();
    try_the_old_size();
    return verdict();
}
