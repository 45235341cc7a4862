/* The rules of documents 01 and 02 in plain C, for the benchmark: the calls of include/planner.h with the same checks, refusals and answers. */
#ifndef PLAIN_H
#define PLAIN_H

#include <stddef.h>
#include <stdint.h>

int64_t plain_empty(uint16_t *t, size_t words);
int64_t plain_check(const uint16_t *t, size_t words);
int64_t plain_listing(const uint16_t *t, size_t words, uint16_t *out, size_t n);
int64_t plain_counts(const uint16_t *t, size_t words, int32_t *out, size_t n);
int64_t plain_parts(const uint16_t *t, size_t words, int32_t *out, size_t n);
int64_t plain_add_vertex(uint16_t *t, size_t words, uint16_t v);
int64_t plain_remove_vertex(uint16_t *t, size_t words, uint16_t v);
int64_t plain_insert_edge(uint16_t *t, size_t words, uint16_t e, uint16_t c1, uint16_t c2, int16_t k, uint16_t length);
int64_t plain_delete_edge(uint16_t *t, size_t words, uint16_t e);
int64_t plain_turn_edge(uint16_t *t, size_t words, uint16_t e, int16_t amount);
int64_t plain_ask_insert_edge(const uint16_t *t, size_t words, uint16_t e, uint16_t c1, uint16_t c2, int16_t k, uint16_t length);
int64_t plain_ask_delete_edge(const uint16_t *t, size_t words, uint16_t e);
int64_t plain_ask_turn_edge(const uint16_t *t, size_t words, uint16_t e, int16_t amount);
int64_t plain_commit_insert_edge(uint16_t *t, size_t words, uint16_t e, uint16_t c1, uint16_t c2, int16_t k, uint16_t length,
                                 int64_t forecast);
int64_t plain_commit_delete_edge(uint16_t *t, size_t words, uint16_t e, int64_t forecast);
int64_t plain_commit_turn_edge(uint16_t *t, size_t words, uint16_t e, int16_t amount, int64_t forecast);
int64_t plain_alternates(const uint16_t *t, size_t words, uint16_t dart, uint16_t type);
int64_t plain_plain(const uint16_t *t, size_t words);
int64_t plain_letters(const uint16_t *t, size_t words, uint16_t dart, uint16_t type, uint8_t *out, size_t n);
int64_t plain_cut_length(const uint16_t *t, size_t words, uint16_t dart, uint16_t type);
int64_t plain_price_sheet(const uint16_t *t, size_t words, uint16_t p, uint16_t m, uint32_t *out, size_t n);
int64_t plain_float_path(const uint16_t *t, size_t words, uint16_t dart, uint16_t type, const int32_t *points, size_t n_points,
                         const int32_t *lifts, size_t n_lifts, uint16_t *kinds, size_t n_kinds, float *coords, size_t n_coords);
int64_t plain_whole_path(const uint16_t *t, size_t words, uint16_t dart, uint16_t type, const int32_t *points, size_t n_points,
                         const int32_t *lifts, size_t n_lifts, uint16_t *kinds, size_t n_kinds, int32_t *coords, size_t n_coords,
                         uint16_t *remainders, size_t n_remainders);

struct planner_reader;
struct planner_tally;
int64_t plain_walk_step(const uint16_t *t, size_t words, struct planner_reader *reader, struct planner_tally *tally);
int64_t plain_trial_job(uint32_t start, uint32_t edges, uint8_t *out, size_t n);
int64_t plain_job_record(uint16_t mark, uint16_t name, uint16_t c1, uint16_t c2, int16_t k, uint16_t length, uint8_t *out, size_t n);

#endif
