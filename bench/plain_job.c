/* The job program in plain C: it reads records from standard input, runs them over a table by the edits of plain.c, and prints what the
   job program prints, document 01, "The job program", and document 02 for record IL. For bench/job. */

#include "plain.h"

#include <stdio.h>
#include <stdlib.h>
#include <string.h>

enum { VERTICES = 512, TURNS = 6144, WORDS = 8704, LONE = 32768, BAD_MARK = 10, CUT_RECORD = 11 };
enum { PLAIN_LENGTH = 16, LONGEST = 12 }; /* the length of an edge inserted by IE; the bytes of an IL */

static uint16_t table[WORDS];

/* What is printed, through a window. */
static char window[65536];
static size_t used = 0;

static void flush(void) {
    if (fwrite(window, 1, used, stdout) != used || fflush(stdout) != 0) {
        perror("standard output");
        exit(0);
    }
    used = 0;
}

static void put(char c) {
    if (used == sizeof window) {
        flush();
    }
    window[used++] = c;
}

static void put_text(const char *text) {
    while (*text != 0) {
        put(*text++);
    }
}

static void put_number(int64_t number) {
    char digits[20];
    uint64_t rest = (uint64_t)(number < 0 ? -number : number);
    int n = 0;
    if (number < 0) {
        put('-');
    }
    do {
        digits[n++] = (char)('0' + rest % 10);
        rest /= 10;
    } while (rest > 0);
    while (n > 0) {
        put(digits[--n]);
    }
}

/* " number" */
static void put_field(int64_t number) {
    put(' ');
    put_number(number);
}

static void put_no(int64_t record, int64_t refusal) {
    put_text("no");
    put_field(record);
    put_field(refusal);
    put('\n');
}

/* Records. */

/* How many words follow a mark; -1 if it is none. */
static int words_of(const uint8_t *mark) {
    static const struct {
        char mark[3];
        int words;
    } marks[] = {{"AV", 1}, {"RV", 1}, {"IE", 4}, {"IL", 5}, {"DE", 1}, {"TW", 2}};
    size_t i;
    for (i = 0; i < sizeof marks / sizeof marks[0]; i++) {
        if (memcmp(mark, marks[i].mark, 2) == 0) {
            return marks[i].words;
        }
    }
    return -1;
}

static uint16_t word(const uint8_t *record, int i) {
    return (uint16_t)(record[2 + 2 * i] << 8 | record[3 + 2 * i]);
}

static int64_t edit(const uint8_t *record) {
    switch (record[0]) {
    case 'A':
        return plain_add_vertex(table, WORDS, word(record, 0));
    case 'R':
        return plain_remove_vertex(table, WORDS, word(record, 0));
    case 'I':
        return plain_insert_edge(table, WORDS, word(record, 0), word(record, 1), word(record, 2), (int16_t)word(record, 3),
                                 record[1] == 'L' ? word(record, 4) : PLAIN_LENGTH);
    case 'D':
        return plain_delete_edge(table, WORDS, word(record, 0));
    default:
        return plain_turn_edge(table, WORDS, word(record, 0), (int16_t)word(record, 1));
    }
}

static size_t take(uint8_t *bytes, size_t n) {
    size_t taken = fread(bytes, 1, n, stdin);
    if (ferror(stdin)) {
        perror("standard input");
        exit(0);
    }
    return taken;
}

static void run_records(void) {
    uint8_t record[LONGEST];
    int64_t number;
    for (number = 1;; number++) {
        size_t mark = take(record, 2);
        int words = mark == 2 ? words_of(record) : 0;
        int64_t answer;
        if (mark == 0) {
            return;
        }
        if (words < 0) {
            put_no(number, BAD_MARK);
            return;
        }
        if (mark < 2 || take(record + 2, 2 * (size_t)words) != 2 * (size_t)words) {
            put_no(number, CUT_RECORD);
            return;
        }
        answer = edit(record);
        if (answer < 0) {
            put_no(number, -answer);
        }
    }
}

/* The report. */

static void put_counts(void) {
    int32_t counts[5];
    int i;
    plain_counts(table, WORDS, counts, 5);
    put_text("mesh");
    for (i = 0; i < 5; i++) {
        put_field(counts[i]);
    }
    put('\n');
}

static void put_parts(void) {
    static int32_t parts[6 * VERTICES];
    int64_t i, n = plain_parts(table, WORDS, parts, sizeof parts / sizeof parts[0]);
    for (i = 0; i < n; i += 6) {
        put_text("part");
        put_field(parts[i]);
        put_field(parts[i + 4]);
        put_text(parts[i + 5] ? " o\n" : " n\n");
    }
}

/* " dart/type:letters" of a step, which is 2 * dart + type. */
static void put_step(unsigned s) {
    int turns = table[TURNS + s / 4] - 100, count = abs(turns), j;
    put_field(s / 2);
    put('/');
    put_number(s % 2);
    put(':');
    for (j = 0; j < count; j++) {
        put(((s + (unsigned)j) & 1) == (turns < 0) ? 'O' : 'U');
    }
}

static void put_walks(void) {
    static uint16_t listing[4096];
    int64_t i = 0, index, n = plain_listing(table, WORDS, listing, sizeof listing / sizeof listing[0]);
    for (index = 0; i < n; index++) {
        unsigned steps = listing[i++];
        put_text("walk");
        put_field(index);
        put_field(steps);
        if (steps == 0) {
            put_text(" *");
            put_number(listing[i++] - LONE);
        }
        for (; steps > 0; steps--) {
            put_step(listing[i++]);
        }
        put('\n');
    }
}

int main(void) {
    plain_empty(table, WORDS);
    run_records();
    put_counts();
    put_parts();
    put_walks();
    put_text(plain_plain(table, WORDS) ? "weave plain\n" : "weave mixed\n");
    flush();
    return 0;
}
