/*
 * How to call the library from C: settles a table, or looks one record up in it.
 *
 *     settle [-n N] [-l ROUND AUTHOR MARK] [FILE]
 *
 * It reads FILE, or standard input: one byte for the author count, then the table; with -n N the table only.
 * On standard output it prints what the program of document 01 prints: `X number position` on a refusal, else the S, R and V
 * lines. With -l it prints the V line of the record that was asked for. A refusal is put in words on standard error.
 * It ends with 0, with 1 on a refusal, and with 2 if it could not be asked.
 */
#include <inttypes.h>
#include <stdint.h>
#include <stdio.h>
#include <stdlib.h>
#include <string.h>

#include "record_box.h"

#define TABLE_BYTES ((size_t)RECORD_BOX_MOST_RECORDS * RECORD_BOX_RECORD_BYTES)

/* What is lent to the calls, enough for every table. It is static, as on a board: too large for a stack, and no heap is needed. */
static uint8_t input[1 + TABLE_BYTES];
static uint32_t cells[RECORD_BOX_ENOUGH_CELLS];
static uint32_t order[RECORD_BOX_ENOUGH_ORDER];
static uint8_t taken[RECORD_BOX_ENOUGH_TAKEN];

struct table {
    uint8_t n;
    const uint8_t *bytes;
    size_t length;
};

struct name {
    uint32_t round;
    uint8_t author;
    uint32_t mark;
};

struct question {
    int has_n;
    uint8_t n;
    int is_lookup;
    struct name name;
    const char *file;
};

/* ---- refusals */

static const char *in_words(uint32_t number) {
    switch (number) {
    case RECORD_BOX_AUTHORS: return "the author count is none of 4, 7, 10, .. 31";
    case RECORD_BOX_LENGTH: return "the length is not a multiple of 138 bytes";
    case RECORD_BOX_RECORDS: return "there are more than 4,096 records";
    case RECORD_BOX_SUM: return "the record's sum differs: it was damaged on the way or in store";
    case RECORD_BOX_PADDING: return "the record's padding is not zero: replace the card";
    case RECORD_BOX_RISING: return "the record's name is not above the one before it";
    case RECORD_BOX_ENTRIES: return "the record has references where it may have none, or fewer than 2f+1";
    case RECORD_BOX_EARLIER: return "the record references a vertex that is not in the table before it";
    case RECORD_BOX_LENT: return "a lent buffer is too short for this table";
    case RECORD_BOX_UNNAMED: return "no record has that name";
    case RECORD_BOX_INPUT: return "the input is longer than this program holds";
    case RECORD_BOX_ROUND_ZERO: return "the record's round is 0: call its author's owner";
    case RECORD_BOX_MARK_ZERO: return "the record's mark is 0: call its author's owner";
    case RECORD_BOX_AUTHOR_PAST: return "the record's author is not one of the n: call its owner";
    default: return "the number is not known";
    }
}

/* Whether a number is told of a record, so that its position says which. */
static int of_record(uint32_t number) {
    return (number >= RECORD_BOX_SUM && number <= RECORD_BOX_EARLIER)
        || (number >= RECORD_BOX_ROUND_ZERO && number <= RECORD_BOX_AUTHOR_PAST);
}

static int refuse(uint32_t number, size_t position) {
    printf("X %" PRIu32 " %zu\n", number, position);
    if (of_record(number)) {
        fprintf(stderr, "settle: record %zu: ", position);
    } else {
        fprintf(stderr, "settle: ");
    }
    fprintf(stderr, "%s\n", in_words(number));
    return 1;
}

/* ---- records */

/* Four bytes, the lowest first. */
static uint32_t four(const uint8_t *bytes) {
    return bytes[0] | (uint32_t)bytes[1] << 8 | (uint32_t)bytes[2] << 16 | (uint32_t)bytes[3] << 24;
}

/* The name in a record: round in bytes 0 to 3, mark in 4 to 7, author in 134. */
static struct name name_in(const uint8_t *record) {
    struct name name;
    name.round = four(record);
    name.author = record[134];
    name.mark = four(record + 4);
    return name;
}

static struct name name_at(const struct table *table, size_t position) {
    return name_in(table->bytes + position * RECORD_BOX_RECORD_BYTES);
}

static void print_vertex(struct name name) {
    printf("V %" PRIu32 " %u %" PRIu32 "\n", name.round, name.author, name.mark);
}

/* ---- the two calls */

static void print_round(const struct table *table, uint32_t round, uint32_t cell) {
    if (cell == 0) {
        printf("R %" PRIu32 " undecided\n", round);
    } else if (cell == 1) {
        printf("R %" PRIu32 " skip\n", round);
    } else {
        struct name name = name_at(table, cell - 2);
        printf("R %" PRIu32 " commit %u %" PRIu32 "\n", round, name.author, name.mark);
    }
}

static int settle(const struct table *table) {
    struct record_box_settled settled =
        record_box_settle(table->n, table->bytes, table->length, cells, RECORD_BOX_ENOUGH_CELLS, order,
                          RECORD_BOX_ENOUGH_ORDER, taken, RECORD_BOX_ENOUGH_TAKEN);
    if (settled.number != RECORD_BOX_NONE) {
        return refuse(settled.number, settled.position);
    }
    printf("S %zu %" PRIu32 " %" PRIu32 " %zu %zu\n", settled.records, settled.highest, settled.undecided,
           settled.written, settled.equivocators);
    for (uint32_t round = 1; round <= settled.highest; round++) {
        print_round(table, round, cells[round - 1]);
    }
    for (size_t place = 0; place < settled.written; place++) {
        print_vertex(name_at(table, order[place]));
    }
    return 0;
}

/* The part that comes back lies in our own table. It is empty on a refusal, and a second question tells which. */
static int look_up(const struct table *table, struct name asked) {
    struct record_box_part part =
        record_box_lookup(table->n, table->bytes, table->length, asked.round, asked.author, asked.mark);
    if (part.length == 0) {
        struct record_box_answer answer =
            record_box_lookup_answer(table->n, table->bytes, table->length, asked.round, asked.author, asked.mark);
        return refuse(answer.number, answer.position);
    }
    print_vertex(name_in(table->bytes + part.begin));
    return 0;
}

/* ---- what is asked, of which table */

/* A decimal number up to `most`; 0 if the word is none. */
static int number(const char *word, uint32_t most, uint32_t *value) {
    char *end;
    unsigned long long read;
    if (word[0] < '0' || word[0] > '9') {
        return 0;
    }
    read = strtoull(word, &end, 10);
    *value = (uint32_t)read;
    return *end == '\0' && read <= most;
}

static int byte(const char *word, uint8_t *value) {
    uint32_t wide;
    if (!number(word, UINT8_MAX, &wide)) {
        return 0;
    }
    *value = (uint8_t)wide;
    return 1;
}

/* 0 if the arguments are not as the head of this file says. */
static int question(int count, char **words, struct question *asked) {
    int i = 1;
    memset(asked, 0, sizeof *asked);
    if (i + 1 < count && strcmp(words[i], "-n") == 0) {
        asked->has_n = 1;
        if (!byte(words[i + 1], &asked->n)) {
            return 0;
        }
        i += 2;
    }
    if (i + 3 < count && strcmp(words[i], "-l") == 0) {
        asked->is_lookup = 1;
        if (!number(words[i + 1], UINT32_MAX, &asked->name.round) || !byte(words[i + 2], &asked->name.author) ||
            !number(words[i + 3], UINT32_MAX, &asked->name.mark)) {
            return 0;
        }
        i += 4;
    }
    if (i < count && words[i][0] != '-') {
        asked->file = words[i++];
    }
    return i == count;
}

/* Fills `input` from the file or from standard input. `too_long` says that there is more than it holds. */
static int read_input(const char *file, size_t room, size_t *length, int *too_long) {
    FILE *from = file == NULL ? stdin : fopen(file, "rb");
    int failed;
    if (from == NULL) {
        return 0;
    }
    *length = fread(input, 1, room, from);
    *too_long = *length == room && fgetc(from) != EOF;
    failed = ferror(from);
    if (file != NULL) {
        fclose(from);
    }
    return !failed;
}

int main(int count, char **words) {
    struct question asked;
    struct table table;
    size_t length;
    int too_long;
    if (!question(count, words, &asked)) {
        fprintf(stderr, "usage: settle [-n N] [-l ROUND AUTHOR MARK] [FILE]\n");
        return 2;
    }
    if (!read_input(asked.file, TABLE_BYTES + (asked.has_n ? 0 : 1), &length, &too_long)) {
        perror(asked.file == NULL ? "standard input" : asked.file);
        return 2;
    }
    if (too_long) {
        return refuse(RECORD_BOX_INPUT, 0);
    }
    if (asked.has_n) {
        table.n = asked.n;
        table.bytes = input;
        table.length = length;
    } else {
        /* No byte at all counts as n = 0. */
        table.n = length == 0 ? 0 : input[0];
        table.bytes = input + 1;
        table.length = length == 0 ? 0 : length - 1;
    }
    return asked.is_lookup ? look_up(&table, asked.name) : settle(&table);
}
