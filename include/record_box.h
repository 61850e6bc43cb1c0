/*
 * The calls of the record box's middle layer for C and C++.
 *
 * Link with the static library that `.ci/built exports_c` writes (target/staticlib/libexports.a, x86-64). Each call is
 * proved to give what the library's call of that name gives, for every author count, every length and every byte.
 *
 * Two preconditions, beside what C asks of any pointer with a length (that many elements stand behind it, they are the
 * caller's for the whole call, and nobody else writes to them meanwhile)
 *   1. No pointer is NULL, also where the length is 0.
 *   2. No buffer that is written to (one that is not `const`) overlaps another buffer or the table.
 *
 * Buffers
 *   - A slice is two parameters, one after the other: a pointer to its first element, and how many elements it has.
 *   - A call keeps no pointer after it returns, takes no memory from a heap and frees nothing: the caller owns
 *     every buffer before, during and after.
 *   - What is lent as `const` is only read.
 *   - Calls share no state: they may run side by side on several threads, also on one table.
 *   - A call takes less than 4 KiB of stack (docs/PERFORMANCE.md has each measured), and does not call itself.
 */
#ifndef RECORD_BOX_H
#define RECORD_BOX_H

#include <stddef.h>
#include <stdint.h>

#ifdef __cplusplus
extern "C" {
#endif

/*
 * The version of what stands here. It goes up by one when any of it changes. A header and a library of one version
 * belong together: compile anew with each.
 *   - A number is never used again for something else. What one number tells may be told by several later (since version 3
 *     5 tells padding only), and a number may no longer be given: since version 2 that is 9.
 *   - New numbers may come. Take a number that is not known as a refusal.
 *   - What suffices for every table may change, as to fewer cells: lend by the constants below and not by figures of your own.
 *   - Calls may come, and a struct may get more members.
 */
#define RECORD_BOX_VERSION 3

/* A record's size in bytes, and the most records of a table: a table is at most 565,248 bytes. */
#define RECORD_BOX_RECORD_BYTES 138
#define RECORD_BOX_MOST_RECORDS 4096

/*
 * How many cells, order places and taken bytes suffice for every table: who lends that many is never refused with 10. That is
 * proved. 1,366 is the highest round that a table of 4 authors can have; with more authors it is lower (docs/GUIDE.md).
 */
#define RECORD_BOX_ENOUGH_CELLS 1366
#define RECORD_BOX_ENOUGH_ORDER 4096
#define RECORD_BOX_ENOUGH_TAKEN 4096

/*
 * What a call is refused for. The first failing check answers: 1, 2, 3 in that order, then 4, 5, 18, 19, 20, 6, 7, 8 in that
 * order on each record in turn. The position is that of the record, counted from 0, and 0 for 1, 2, 3, 10, 11 and 12.
 * 9 is retired: it stood for a round above 1,400, which no table of 4,096 records has. No call gives it, and it will never
 * stand for anything else.
 */
enum record_box_number {
    RECORD_BOX_NONE = 0,        /* nothing is refused: the table passes or is settled, or the name is found */
    RECORD_BOX_AUTHORS = 1,     /* n is none of 4, 7, 10, .. 31 */
    RECORD_BOX_LENGTH = 2,      /* the length is not a multiple of 138 */
    RECORD_BOX_RECORDS = 3,     /* more than 4,096 records */
    RECORD_BOX_SUM = 4,         /* the sum differs */
    RECORD_BOX_PADDING = 5,     /* padding not zero; it is given for nothing else */
    RECORD_BOX_RISING = 6,      /* the name is not above the one before it, by round, then author, then mark */
    RECORD_BOX_ENTRIES = 7,     /* round 1 with an entry; or an entry for author n or more; or round above 1 with fewer than 2f+1 */
    RECORD_BOX_EARLIER = 8,     /* some entry names no record earlier in the table */
    RECORD_BOX_LENT = 10,       /* settlement only: a lent buffer is too short */
    RECORD_BOX_UNNAMED = 11,    /* lookup only: no record has the name */
    RECORD_BOX_INPUT = 12,      /* the program only: its input is longer than it holds */
    RECORD_BOX_ROUND_ZERO = 18, /* round 0 */
    RECORD_BOX_MARK_ZERO = 19,  /* mark 0 */
    RECORD_BOX_AUTHOR_PAST = 20 /* author n or more */
};

/* A number of the list above and a position; 0 and 0 where nothing is refused. */
struct record_box_answer {
    uint32_t number;
    size_t position;
};

/* A part of the lent table: the bytes table[begin] to table[begin + length - 1]. */
struct record_box_part {
    size_t begin;
    size_t length;
};

/*
 * What a settlement gives. Number 0: the table is settled, the position is 0 and the counts are those of the table. Else the
 * number and position of the refusal, and every count is 0.
 */
struct record_box_settled {
    uint32_t number;
    size_t position;
    size_t records;
    uint32_t highest;    /* the highest round, 0 without records */
    uint32_t undecided;  /* the first undecided round; one above the highest if every round is decided */
    size_t written;      /* how many positions are written to order */
    size_t equivocators; /* how many authors have two records in some one round of this table: docs/GUIDE.md on its use */
};

/* Checks a table of table_length bytes (not records). Number 0 (passed), 1 to 8, or 18 to 20. */
struct record_box_answer record_box_check(uint8_t n, const uint8_t *table, size_t table_length);

/*
 * Finds the record of a name (round, author, mark). It checks the table first. The part is the record's own 138 bytes in
 * the caller's table, or begin 0 and length 0 on any refusal; record_box_lookup_answer gives the refusal.
 */
struct record_box_part record_box_lookup(uint8_t n, const uint8_t *table, size_t table_length, uint32_t round,
                                         uint8_t author, uint32_t mark);

/* Why there is no such record: number 0 (found), 1 to 8 or 18 to 20 (the table is refused), or 11 (no such name). */
struct record_box_answer record_box_lookup_answer(uint8_t n, const uint8_t *table, size_t table_length, uint32_t round,
                                                  uint8_t author, uint32_t mark);

/*
 * Settles a table. It checks the table first. Number 0 (settled), 1 to 8 or 18 to 20 (the table is refused), or 10 (a lent
 * buffer is too short).
 *
 * The caller lends three buffers and owns them throughout. Lengths count elements. A settled table needs at least
 *   cells   as many as its highest round: cells[r - 1] becomes the decision of round r, 0 undecided, 1 skipped, 2 + p if the
 *           leader vertex at position p is committed
 *   order   as many as it has records: order[0] to order[written - 1] become the written positions, in order
 *   taken   as many as it has records: taken[p] becomes 1 if position p is written and else 0
 * and RECORD_BOX_ENOUGH_CELLS, RECORD_BOX_ENOUGH_ORDER and RECORD_BOX_ENOUGH_TAKEN suffice for every table. What lies past
 * these is kept as it was, as are the order places from written on. What the buffers held before has no influence on the
 * rest. On a refusal nothing is changed in any of them.
 */
struct record_box_settled record_box_settle(uint8_t n, const uint8_t *table, size_t table_length, uint32_t *cells,
                                            size_t cells_length, uint32_t *order, size_t order_length, uint8_t *taken,
                                            size_t taken_length);

#ifdef __cplusplus
}
#endif

#endif
