/*
 * planner.h: a mesh as a rotation system with signed twist counts, its edits, its faces and its ribbons.
 *
 * Every function takes numbers and slices, one of them records too. A slice is a pointer and then its number of elements
 * (not bytes); an empty slice may be NULL and 0. Two slices of one call must not overlap, nor two records, nor a slice and
 * a record. Nothing is kept between calls: the host owns every slice and record, and no call reads or writes past a slice's
 * length.
 *
 * Every function returns int64_t: the answer, 0 or more, or minus the number of the refusal. A declined call
 * leaves every lent slice and record as it was.
 *
 * A call needs less than 16 KiB of stack (measured). Its time is linear in the size of the table, where it is lent one, which it
 * checks first, and of what it writes; for planner_counts and planner_parts, which join parts by pointers that are shortened on
 * the way, with a logarithm more at most.
 *
 * Link with libplanner.a.
 */
#ifndef PLANNER_H
#define PLANNER_H

#include <stddef.h>
#include <stdint.h>

#ifdef __cplusplus
extern "C" {
#endif

/* Sizes. */
#define PLANNER_VERTICES 512
#define PLANNER_EDGES 1024
#define PLANNER_DARTS 2048
#define PLANNER_TABLE_WORDS 8704

/* Where each kind of word begins in a table; edge e has the darts 2e and 2e+1. */
#define PLANNER_NEXT_AT 0      /* for each dart, the next one counterclockwise at its vertex */
#define PLANNER_PREV_AT 2048   /* for each dart, the previous one */
#define PLANNER_LEAVES_AT 4096 /* for each dart, the vertex it leaves */
#define PLANNER_EDGE_AT 6144   /* for each edge, 0 if not live, else its turns plus 100 */
#define PLANNER_VERTEX_AT 7168 /* for each vertex, one of the two words below, or its smallest live dart */
#define PLANNER_LENGTH_AT 7680 /* for each edge, its length in sixteenths of a millimetre, 1 to 65535 if live, else 0 */

#define PLANNER_NOTHING 65535  /* the word of a vertex that is not live; the three words of a dart that is not live */
#define PLANNER_ISOLATED 65534 /* the word of a vertex that is live and isolated */

/* Refusals: a declined call returns minus one of these. */
#define PLANNER_TORN 1            /* not PLANNER_TABLE_WORDS words, or not a good table */
#define PLANNER_NO_SUCH_NAME 2    /* vertex, edge or dart past its range, type above 1, malformed corner */
#define PLANNER_TAKEN 3           /* vertex or edge to add is live */
#define PLANNER_ABSENT 4          /* vertex, edge, dart or corner named is not there */
#define PLANNER_JOINED 5          /* vertex to remove has an edge */
#define PLANNER_OVERTURNED 6      /* turns would pass 99 either way, or a tally field 32 bits */
#define PLANNER_SHORT_SLICE 7     /* a lent slice is shorter than the call needs */
#define PLANNER_MANY_TURNS 8      /* float path over an edge with more than one turn (the whole path takes any) */
#define PLANNER_FAR 9             /* a length of 0 on insertion, or a point or lift out of range on an edge of the walk */
#define PLANNER_BAD_MARK 10       /* job record with an unknown mark */
#define PLANNER_CUT_RECORD 11     /* fewer bytes than the record needs */
#define PLANNER_STALE_FORECAST 12 /* a commit's forecast is not the one that ask gives now */
#define PLANNER_MANY_EDGES 13     /* a trial job of more than PLANNER_EDGES edges */

/*
 * Fills the slice with the empty mesh: no vertex and no edge is live. Answers 0.
 * Declines: PLANNER_TORN if it is not PLANNER_TABLE_WORDS long; what it holds is not looked at.
 */
int64_t planner_empty(uint16_t *table, size_t words);

/*
 * Answers 0 if the slice is a good table.
 * Declines: PLANNER_TORN for every other slice, of any length.
 */
int64_t planner_check(const uint16_t *table, size_t words);

/*
 * Writes the listing of the table's walks to the front of `out`, and answers its number of words: for each walk
 * its number of steps, then 2*dart+type for each step; for an isolated vertex v, 0 and then 32768+v.
 * Declines: PLANNER_TORN; PLANNER_SHORT_SLICE if out_words is less than the listing's size. 4,096 words are enough for every
 * table: worked out from V-E+F, which is at most 2 in each part; not itself a theorem. Words of `out` past the listing are not changed.
 */
int64_t planner_listing(const uint16_t *table, size_t words, uint16_t *out, size_t out_words);

/*
 * Counts. V, E and F are live vertices, live edges and listed walks; the Euler number is V-E+F, signed. Words of `out`
 * past those written are not changed. Both decline: PLANNER_TORN; PLANNER_SHORT_SLICE if what they write does not fit.
 */

/* Writes V, E, F, the number of connected parts and the Euler number of the mesh to the front of `out`. Answers 5. */
int64_t planner_counts(const uint16_t *table, size_t words, int32_t *out, size_t out_words);

/*
 * Writes six words for each connected part to the front of `out`, the parts in the order of their smallest vertices:
 * smallest vertex, V, E, F, Euler number, and 1 if the part is orientable, else 0. Answers the number of words, 3,072
 * at most.
 */
int64_t planner_parts(const uint16_t *table, size_t words, int32_t *out, size_t out_words);

/*
 * The five edits. Each answers the new number of faces: walks that the listing of the edited table has; insertion, deletion
 * and turn answer the rule that they met besides (PLANNER_RULE).
 * A corner is named by the dart that ends it, counterclockwise, or is PLANNER_LONE_CORNER + v for the corner of
 * the isolated vertex v. Refusals are tested in the order in which they are listed.
 * An edge's length comes with its insertion and goes with its deletion, which sets it to 0; no other edit alters one. So an
 * edge that is inserted and then deleted leaves the table as it was, word for word.
 */
#define PLANNER_LONE_CORNER 32768

/*
 * Why a face came or went: an accepted insertion, deletion or turn answers faces + 65536 * rule, the new number of faces and
 * the rule, which is read on the table just before the edit. A vertex has no rule: its edits answer the number of faces alone,
 * and PLANNER_RULE of that is 0. So the two macros take the answer of any of the five edits apart. They are for accepted edits
 * only: a declined one answers minus the refusal's number, as every call does, so look for a negative answer first.
 */
#define PLANNER_FACES(answer) ((answer) & 0xFFFF)
#define PLANNER_RULE(answer) (((answer) >> 16) & 0xFFFF)
#define PLANNER_RULE_A 1  /* two faces became one */
#define PLANNER_RULE_B1 2 /* one face became two */
#define PLANNER_RULE_B2 3 /* one face stayed one */
#define PLANNER_RULE_E 4  /* a turn by an even amount: the faces stayed */

/* Adds vertex v, isolated. Declines: PLANNER_TORN, PLANNER_NO_SUCH_NAME, PLANNER_TAKEN. */
int64_t planner_add_vertex(uint16_t *table, size_t words, uint16_t v);

/* Removes the isolated vertex v. Declines: PLANNER_TORN, PLANNER_NO_SUCH_NAME, PLANNER_ABSENT, PLANNER_JOINED. */
int64_t planner_remove_vertex(uint16_t *table, size_t words, uint16_t v);

/*
 * Inserts edge e with k turns and a length in sixteenths of a millimetre: dart 2e goes into corner c1, then 2e+1 into c2,
 * each just before the dart that names the corner; with c1 = c2 the order is old, 2e, 2e+1, d.
 * Rule: A if the corners are on different faces. On one face B1 if their types and k add to an even number, else B2; a
 * corner's type is the one with which the listed walk meets it, 0 for an isolated vertex.
 * Declines: PLANNER_TORN; PLANNER_NO_SUCH_NAME (e, c1 or c2); PLANNER_TAKEN; PLANNER_ABSENT (c1 or c2);
 * PLANNER_OVERTURNED (k past 99 either way); PLANNER_FAR (the length is 0). A length past 65535 is cut to 16 bits by C before
 * the call sees it: test it first.
 */
int64_t planner_insert_edge(uint16_t *table, size_t words, uint16_t e, uint16_t c1, uint16_t c2, int16_t k, uint16_t length);

/*
 * Deletes edge e, whatever its turns.
 * Rule: A if its two sides, the two listed steps on it, are on different faces. On one face B1 if they pass by both darts, B2
 * if by the same dart twice.
 * Declines: PLANNER_TORN, PLANNER_NO_SUCH_NAME, PLANNER_ABSENT.
 */
int64_t planner_delete_edge(uint16_t *table, size_t words, uint16_t e);

/*
 * Turns edge e by an amount.
 * Rule: E if the amount is even, 0 included. If it is odd, A if the edge's two sides are on different faces; on one face B1 if
 * they pass by the same dart twice, B2 if by both darts.
 * Declines: PLANNER_TORN, PLANNER_NO_SUCH_NAME, PLANNER_ABSENT, PLANNER_OVERTURNED (its turns would pass 99 either way, by an
 * even amount too).
 */
int64_t planner_turn_edge(uint16_t *table, size_t words, uint16_t e, int16_t amount);

/*
 * Forecast, then do it. Ask takes an insertion, a deletion or a turn as the plain edit takes it, and answers what that edit
 * would do to the table as it is: the forecast, after + 65536 * rule + 2^32 * before, with the rule that the edit would meet and
 * the number of faces before and after it. It writes nothing. The host keeps the forecast as an int64_t, whole.
 *
 * Commit takes the edit again and its forecast, and does the edit exactly if ask, on the table as it now is, would give the same
 * number. Then it leaves the table that the plain edit leaves and answers what the plain edit answers, faces + 65536 * rule. Else
 * it answers -PLANNER_STALE_FORECAST and has changed nothing: ask again. Other edits in between are allowed; if they leave rule,
 * before and after as they were, the edit is done to the table as it now is, not as it was when ask was called. Nothing but these
 * three numbers is compared, and nothing is kept between the calls.
 *
 * An edit that would be declined is declined by both with its own number, in its own order; commit tests 12 after all of
 * these. A negative answer of ask is no forecast, and neither is the answer of a plain edit, which lacks the faces before: a
 * commit with one of them, or with any other number than ask's, is stale. A vertex has no forecast.
 *
 * PLANNER_FACES, PLANNER_RULE and PLANNER_FACES_BEFORE read after, rule and before from an answer of ask that is 0 or more.
 */
#define PLANNER_FACES_BEFORE(forecast) ((forecast) >> 32)

/* The forecast of planner_insert_edge; it is the same for every length but 0. Declines as that edit does. */
int64_t planner_ask_insert_edge(const uint16_t *table, size_t words, uint16_t e, uint16_t c1, uint16_t c2, int16_t k,
                                uint16_t length);

/* The forecast of planner_delete_edge. Declines as that edit does. */
int64_t planner_ask_delete_edge(const uint16_t *table, size_t words, uint16_t e);

/* The forecast of planner_turn_edge; of an even amount it is rule E, with before and after the same. Declines as that edit does. */
int64_t planner_ask_turn_edge(const uint16_t *table, size_t words, uint16_t e, int16_t amount);

/*
 * planner_insert_edge, if planner_ask_insert_edge gives this forecast now.
 * Declines: PLANNER_TORN; PLANNER_NO_SUCH_NAME (e, c1 or c2); PLANNER_TAKEN; PLANNER_ABSENT (c1 or c2); PLANNER_OVERTURNED;
 * PLANNER_FAR; PLANNER_STALE_FORECAST.
 */
int64_t planner_commit_insert_edge(uint16_t *table, size_t words, uint16_t e, uint16_t c1, uint16_t c2, int16_t k,
                                   uint16_t length, int64_t forecast);

/*
 * planner_delete_edge, if planner_ask_delete_edge gives this forecast now.
 * Declines: PLANNER_TORN, PLANNER_NO_SUCH_NAME, PLANNER_ABSENT, PLANNER_STALE_FORECAST.
 */
int64_t planner_commit_delete_edge(uint16_t *table, size_t words, uint16_t e, int64_t forecast);

/*
 * planner_turn_edge, if planner_ask_turn_edge gives this forecast now.
 * Declines: PLANNER_TORN, PLANNER_NO_SUCH_NAME, PLANNER_ABSENT, PLANNER_OVERTURNED, PLANNER_STALE_FORECAST.
 */
int64_t planner_commit_turn_edge(uint16_t *table, size_t words, uint16_t e, int16_t amount, int64_t forecast);

/*
 * Letters. An edge with k turns has |k| crossings; along a step the type flips at each. With positive k the strand
 * goes over where the type goes from 0 to 1, else under; with negative k the letters are exchanged. The calls below
 * name a ribbon by any step on it: a dart and a type, 0 or 1.
 * Refusals, in this order: PLANNER_TORN; PLANNER_NO_SUCH_NAME (dart past 2,047, type above 1); PLANNER_ABSENT (the
 * dart is not live).
 */

/* Answers 1 if cyclic neighbours among the ribbon's letters differ, else 0. No letters count as alternating. */
int64_t planner_alternates(const uint16_t *table, size_t words, uint16_t dart, uint16_t type);

/* Answers 1 if every ribbon alternates, else 0. Declines: PLANNER_TORN alone. */
int64_t planner_plain(const uint16_t *table, size_t words);

/*
 * Writes the ribbon's letters, 'O' and 'U', in the order of travel from the step, and answers how many.
 * Declines besides: PLANNER_SHORT_SLICE if out_bytes is less than that. Bytes past the letters are not changed.
 */
int64_t planner_letters(const uint16_t *table, size_t words, uint16_t dart, uint16_t type, uint8_t *out, size_t out_bytes);

/*
 * Cut length of the ribbon through the step, as the saw takes it: the sum of the lengths that the table has for its edges, one
 * for each step, plus PLANNER_OVER_ALLOWANCE for each O among the ribbon's letters, plus PLANNER_LAP once, for a ribbon without
 * letters too. In sixteenths of a millimetre; it fits 32 bits. It is the same for every step that names the ribbon, in either
 * sense. An isolated vertex has no ribbon, and so no step that names one.
 */
#define PLANNER_OVER_ALLOWANCE 8 /* a strand that rides over takes up more strip: half a millimetre */
#define PLANNER_LAP 320          /* a ribbon is closed with a lap: 20 millimetres */
int64_t planner_cut_length(const uint16_t *table, size_t words, uint16_t dart, uint16_t type);

/*
 * The price sheet of all ribbons. Writes PLANNER_ROW_WORDS words for each ribbon, in the order of the listing, to the front of
 * `out`: its cut length; the metres that it starts, PLANNER_METRE sixteenths each; how far the last of them is unused, in
 * sixteenths; its price, which is p for each metre started, or m where that is more. A length of a whole number of metres leaves 0
 * unused and starts no other. An isolated vertex has no ribbon, and so no row. Answers the sum, exactly that of the prices written,
 * which is at most 689,952,480; 0 without ribbons. Prices are in whole cents, as p and m are.
 * Declines, in this order: PLANNER_TORN; PLANNER_SHORT_SLICE if out_words is less than PLANNER_ROW_WORDS for each ribbon. The
 * ribbons are F of planner_counts, less the isolated vertices; PLANNER_ROW_WORDS * PLANNER_DARTS words are enough for every table,
 * since no two ribbons are listed from one dart. Words of `out` past the rows are not changed.
 */
#define PLANNER_METRE 16000 /* the shop quotes by the started metre */
#define PLANNER_ROW_WORDS 4 /* length, metres, unused, price */
int64_t planner_price_sheet(const uint16_t *table, size_t words, uint16_t p, uint16_t m, uint32_t *out, size_t out_words);

/*
 * The float path of the ribbon through the step: one piece for each step, then Close. forms[i] is one of the four below;
 * coords has three floats for each piece, in millimetres, zeros for Close. With the coordinates a and b of the edge's two
 * ends and its lift l, all in sixteenths, a coordinate times 32 is exactly a+b+2l over, a+b-2l under, a+b flat.
 * Lent: three words for each vertex in `points`, within 65,536 either way; three for each edge in `lifts`, within 4,096.
 * Answers the number of pieces, p. Writes p words to the front of `forms` and 3p floats to the front of `coords`.
 * Declines besides: PLANNER_SHORT_SLICE (points fewer than 1,536, lifts fewer than 3,072, forms fewer than p, coords fewer
 * than 3p); PLANNER_MANY_TURNS (an edge on the ribbon with more than one turn, of either hand); PLANNER_FAR (a point or
 * lift out of range at an edge on the ribbon).
 */
#define PLANNER_FLAT 0
#define PLANNER_OVER 1
#define PLANNER_UNDER 2
#define PLANNER_CLOSE 3
int64_t planner_float_path(const uint16_t *table, size_t words, uint16_t dart, uint16_t type, const int32_t *points,
                           size_t n_points, const int32_t *lifts, size_t n_lifts, uint16_t *forms, size_t n_forms,
                           float *coords, size_t n_coords);

/*
 * The whole path of the ribbon through the step, in whole sixteenths, over edges of any turns: one piece for each crossing and
 * one for each step on an edge without turns, in the order of travel, then Close. forms[i] is one of the four above; coords has
 * three words for each piece and remainders three, one beside each word of coords; zeros for Close in both.
 * On edge e with n crossings, crossing j (0 to n-1, counted from the first end, which dart 2e leaves) sits, per coordinate with
 * a at the first end and b at the second, at a + (2j+1)(b-a)/(2n), rounded towards minus infinity; its remainder, from 0 to 2n-1,
 * is given with it. So the exact place is that whole number and remainder/(2n) more. Then the lift is added over, taken off
 * under. A step by dart 2e meets the crossings with j rising, a step by dart 2e+1 with j falling; its letters are those of
 * planner_letters, in that order. An edge without turns has one flat point, with n = 1 and j = 0, and no lift.
 * Lent: points and lifts as for the float path. Answers the number of pieces, p: the sum of the crossings of each step, 1 for a
 * step without any, and 1 for Close. Writes p words to the front of `forms`, 3p to the front of `coords` and 3p to the front of
 * `remainders`. 202,753 pieces (2,048 steps of 99 crossings, and Close) are enough for every ribbon, so 608,259 coords and as
 * many remainders.
 * Where the float path is accepted, the forms are the same, and its coordinate times 32 is twice the word and the remainder.
 * Declines besides: PLANNER_SHORT_SLICE (points fewer than 1,536, lifts fewer than 3,072, forms fewer than p, coords or
 * remainders fewer than 3p); PLANNER_FAR (a point or lift out of range at an edge on the ribbon, the lift of an edge without
 * turns too). Never PLANNER_MANY_TURNS.
 */
int64_t planner_whole_path(const uint16_t *table, size_t words, uint16_t dart, uint16_t type, const int32_t *points,
                           size_t n_points, const int32_t *lifts, size_t n_lifts, uint16_t *forms, size_t n_forms,
                           int32_t *coords, size_t n_coords, uint16_t *remainders, size_t n_remainders);

/*
 * A walk, one step at a time. The host keeps a reader: dart and type of the step that it hands out next, dart and type of
 * the step that its walk began at. To begin, set both pairs to one step of the walk. A call hands out the step that the
 * reader stands at, which the host reads there before the call, moves the reader on, and brings the tally forward by the
 * step handed out: steps by 1, overs and unders by its letters, length by its edge's length in the table, by
 * PLANNER_OVER_ALLOWANCE for each O of the step and, with the walk's last step, by PLANNER_LAP. Answers 1 if the walk ends at
 * that step, that is, if the reader now stands at its start, else 0; the step after the last is the first again, and every time
 * round has its lap. A reader whose start is not on the walk of its step goes round that walk, never answers 1, and has no lap.
 * Every call checks the table, so a whole walk costs its number of steps times the check; planner_listing, planner_letters
 * and planner_cut_length check it once.
 * Declines, in this order: PLANNER_TORN; PLANNER_NO_SUCH_NAME, then PLANNER_ABSENT (the step or the start);
 * PLANNER_OVERTURNED (a field of the tally would pass 32 bits). Then neither the reader nor the tally has changed.
 * A tally begun at zeros fits over one walk, and its length is then the ribbon's cut length. Neither `reader` nor `tally` may
 * be NULL.
 */
struct planner_reader {
    uint16_t dart, type, start_dart, start_type;
};
struct planner_tally {
    uint32_t steps, overs, unders, length;
};
int64_t planner_walk_step(const uint16_t *table, size_t words, struct planner_reader *reader, struct planner_tally *tally);

/*
 * A trial job from two numbers: writes the records of a job to the front of `out`, as the job program reads them, and answers
 * their number of bytes, PLANNER_TRIAL_BYTES(edges): 4 for each of the vertices 0 to 7, which are added first, then 10 for each
 * of the edges 0 to edges-1, which are inserted by IE. Bytes of `out` past them are not changed. Every record is accepted when the
 * job is run from the empty mesh. The same two numbers give the same bytes everywhere.
 * State s begins as `start`. Each draw first sets s to s times 1664525 plus 1013904223 modulo 2^32; a draw below n is then s
 * divided by 65536, rounded down, modulo n. For each edge: a vertex below 8, where its first end goes, a second below 8, where its
 * second end goes, and its turns, a draw below 3, less 1. An end goes to the only corner of an isolated vertex, PLANNER_LONE_CORNER
 * + v, else to the corner named by the vertex's smallest dart, both as the mesh is before the edge is inserted: a loop at an
 * isolated vertex has that vertex's corner twice.
 * Declines: PLANNER_MANY_EDGES (edges above PLANNER_EDGES); PLANNER_SHORT_SLICE (out_bytes less than PLANNER_TRIAL_BYTES(edges)).
 * Nothing else: any start is right.
 */
#define PLANNER_TRIAL_BYTES(edges) (32 + 10 * (size_t)(edges))
int64_t planner_trial_job(uint32_t start, uint32_t edges, uint8_t *out, size_t out_bytes);

/*
 * A job file, record by record: writes the record of one edit to the front of `out`, as the job program reads it, and answers its
 * number of bytes: 4 for AV, RV and DE, 6 for TW, 10 for IE, 12 for IL. Bytes of `out` past them are not changed. A host that
 * writes a job file calls it once for each edit and writes the bytes one after the other; PLANNER_RECORD_BYTES are enough for
 * every record.
 * The record is the two letters of the mark, then its numbers, 16 bits each, high byte first, k in two's complement: name for AV,
 * which adds that vertex, and for RV, which removes it; name, c1, c2, k, length for IL, which inserts that edge with k turns and
 * that length into the two corners; name, c1, c2, k for IE, which does the same with a length of 16; name for DE, which deletes
 * that edge; name, k for TW, which turns that edge by k. Arguments that a mark has no use for are not looked at. No number is
 * tested, a length of 0 neither: any is written as it is, and whether the edit is accepted is seen when the job is run.
 * Declines: PLANNER_BAD_MARK (the mark is none of the six); PLANNER_SHORT_SLICE (out_bytes less than the record's size).
 */
#define PLANNER_MARK_AV 0x4156 /* a mark is its two letters, high byte first */
#define PLANNER_MARK_RV 0x5256
#define PLANNER_MARK_IE 0x4945
#define PLANNER_MARK_IL 0x494C
#define PLANNER_MARK_DE 0x4445
#define PLANNER_MARK_TW 0x5457
#define PLANNER_RECORD_BYTES 12 /* the longest record, an IL */
int64_t planner_job_record(uint16_t mark, uint16_t name, uint16_t c1, uint16_t c2, int16_t k, uint16_t length, uint8_t *out,
                           size_t out_bytes);

#ifdef __cplusplus
}
#endif

#endif
