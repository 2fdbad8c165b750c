/*
 * Tuffbasket: read orders for emulator boards, plan them, check plans, read and write plan files.
 *
 * Every call answers all inputs: a result, or one refusal number with its place. No call allocates, opens, locks, waits
 * or keeps anything: each works on what it is lent, and threads may call at the same time on buffers of their own.
 *
 * A list is lent as a pointer and a count of elements (not of bytes). A call reads what is lent as const and no more, and
 * writes only to what is lent without const. What stands in each buffer afterwards is said at each call.
 *
 * What a caller must ensure, because C cannot express it and no call can test it:
 *   - each count is true: so many elements from the pointer on may be read, and written where the pointer is not const;
 *   - pointers to numbers are aligned as C asks for uint32_t; a pointer with count 0 is never used and may be NULL;
 *   - a buffer that is written overlaps no other buffer of the same call;
 *   - no other thread writes to a lent buffer, or reads one that is written, during the call;
 *   - some 48 KiB of stack are free (docs/stack.md has the figures; a thread stack of 64 KiB is enough).
 * Nothing is asked of the values in files, lists and tables.
 *
 * Places in files count from 0; jobs, rows and boards count from 1. Where nothing else is said a refusal's place is 0, it
 * writes nothing, and it comes with 0 for every other number.
 */
#ifndef TUFFBASKET_H
#define TUFFBASKET_H

#include <stddef.h>
#include <stdint.h>

#ifdef __cplusplus
extern "C" {
#endif

/* Refusal numbers. docs/refusals.md says what to do about each. */
enum tuffbasket_refusal {
    TUFFBASKET_ACCEPTED = 0,      /* accepted */
    TUFFBASKET_FOREIGN_BYTE = 1,  /* byte of no allowed kind; place: that byte */
    TUFFBASKET_NOT_ALLOWED = 2,   /* a token the grammar doesn't allow here; place: its first byte */
    TUFFBASKET_UNCLOSED = 3,      /* the end comes before the order is closed; place: file length */
    TUFFBASKET_NO_NUMBER = 4,     /* a number is wanted, an atom stands there that is none; place: its first byte */
    TUFFBASKET_ABOVE_LIMIT = 5,   /* a number above its limit; place: its first byte */
    TUFFBASKET_TOO_DEEP = 6,      /* a group at level 33; place: the word `group` */
    TUFFBASKET_TOO_MANY_JOBS = 7, /* a 1,001st job; place: the word `job` */
    TUFFBASKET_NO_JOB = 8,        /* a well-formed order without a job; place: file length */
    TUFFBASKET_NO_PLAN = 9,       /* no plan exists; place: job number */
    TUFFBASKET_SHORT_BUFFER = 10, /* a buffer to be written is too short */
    TUFFBASKET_LONG_FILE = 11,    /* a file over 65,536 bytes */
    TUFFBASKET_BAD_BOARDS = 12,   /* boards not 1 to 64 */
    TUFFBASKET_BAD_LISTS = 13,    /* lists that don't fit */
    TUFFBASKET_OUT_OF_RANGE = 14, /* a number in a list out of its range; place: first such job or row */
    TUFFBASKET_BAD_TRAILER = 15   /* a plan file whose trailer doesn't fit */
};

/* Limits, and the sizes of buffers that are always long enough. */
enum tuffbasket_limit {
    TUFFBASKET_MOST_BYTES = 65536,     /* of an order file and of a plan file */
    TUFFBASKET_MOST_BOARDS = 64,
    TUFFBASKET_MOST_JOBS = 1000,       /* numbers in the reader's buffers work and due */
    TUFFBASKET_MOST_MINUTES = 1000000, /* of a work and of a due minute */
    TUFFBASKET_MOST_ROWS = 2000,
    TUFFBASKET_TABLE_LENGTH = 8000,    /* numbers in a planner's table for any day: 8 for each job */
    TUFFBASKET_PLAN_BYTES = 24008      /* bytes of the longest plan file without a note */
};

/*
 * Reads an order file.
 * Lent: the file; the buffers work and due, to be written.
 * Order: 10 (work_length or due_length under 1,000), 11, then 1 to 7 by the first fault from the left, 8 last.
 * Accepted: boards and jobs; job i's work in work[i - 1] and its due minute, the least of its own and its groups', in
 * due[i - 1]; zeros behind them to the ends of both buffers.
 * Refused: boards and jobs 0; both buffers all zero, but untouched for 10 and 11.
 */
struct tuffbasket_order {
    uint32_t refusal, place, boards, jobs;
};
struct tuffbasket_order tuffbasket_read_order(const uint8_t *file, size_t file_length,
                                              uint32_t *work, size_t work_length,
                                              uint32_t *due, size_t due_length);

/*
 * Plans a day. A row is four numbers: board, job, from, to.
 * Lent: the lists work and due; the table, to be written.
 * Order: 12; 13 (work and due of unequal length, or not 1 to 1,000 long); 10 (table_length under 8 numbers per job); 14 (a
 * work or due minute not 1 to 1,000,000; place: the job); 9 (no plan exists; place: the first job in due order that cannot
 * be met).
 * Accepted: the row count; the rows at the table's front, then zeros to its end.
 * Refused: rows 0; the table all zero for 9, untouched for 12, 13, 10 and 14.
 */
struct tuffbasket_planned {
    uint32_t refusal, place, rows;
};
struct tuffbasket_planned tuffbasket_plan(uint32_t boards,
                                          const uint32_t *work, size_t work_length,
                                          const uint32_t *due, size_t due_length,
                                          uint32_t *table, size_t table_length);

/*
 * Says whether the first `rows` rows of a table, in any order, are a plan for the day.
 * Lent: the lists work and due, and the table. Nothing is written.
 * Order: 12; 13 (work and due as for the planner, or over 2,000 rows, or table_length under 4 numbers per row); 14 (as for
 * the planner).
 * Accepted: yes is 1 for a plan and 0 for none; preemptions is rows minus jobs for yes and 0 for no. Bad numbers in a row
 * mean no. So ask for both: refusal 0 and yes 1.
 */
struct tuffbasket_checked {
    uint32_t refusal, place, yes, preemptions;
};
struct tuffbasket_checked tuffbasket_check(uint32_t boards,
                                           const uint32_t *work, size_t work_length,
                                           const uint32_t *due, size_t due_length,
                                           const uint32_t *table, size_t table_length,
                                           size_t rows);

/*
 * Finds the rows of a plan file.
 * Lent: the file. Nothing is written.
 * Order: 11; 15 (under 8 bytes, over 2,000 rows, or offset + 12 x count + 8 is not the file length).
 * Accepted: the rows are the `length` bytes from file + offset on, 12 for each row. The rows are not judged.
 * Refused: offset and length 0, the empty part at the file's front.
 */
struct tuffbasket_part {
    uint32_t refusal, place, offset, length;
};
struct tuffbasket_part tuffbasket_find_rows(const uint8_t *file, size_t file_length);

/*
 * Decodes row i, counted from 0, of a plan file.
 * Lent: the file. Nothing is written. Four zeros behind the last row and for a file that
 * tuffbasket_find_rows refuses; no row of a plan has board 0.
 */
struct tuffbasket_row {
    uint32_t board, job, from, to;
};
struct tuffbasket_row tuffbasket_file_row(const uint8_t *file, size_t file_length, size_t i);

/*
 * Writes a plan file: the buffer's first `note` bytes are the note and are kept, then the first `count` rows of the table
 * and the trailer.
 * Lent: the table; the buffer, to be written behind the note.
 * Order: 13 (table_length under 4 numbers per row); 11 (over 2,000 rows, or over 65,536 bytes in all); 14 (a board or job
 * above 65,535; place: the row); 10 (the buffer shorter than the file).
 * Accepted: length is the file's; bytes of the buffer beyond it are untouched.
 * Refused: length 0; the buffer is untouched.
 */
struct tuffbasket_written {
    uint32_t refusal, place, length;
};
struct tuffbasket_written tuffbasket_write_plan(const uint32_t *table, size_t table_length,
                                                size_t count,
                                                uint8_t *buffer, size_t buffer_length,
                                                size_t note);

#ifdef __cplusplus
}
#endif

#endif
