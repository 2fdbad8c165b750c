/* The second program for C: lib.rs says what each call does. */
#ifndef SECOND_H
#define SECOND_H

#include "tuffbasket.h"

/* A lent list. A drawing call gets the room in `count` and leaves the length there. */
struct bytes {
    uint8_t *at;
    size_t count;
};
struct numbers {
    uint32_t *at;
    size_t count;
};

struct tuffbasket_order second_read_order(struct bytes file, struct numbers work, struct numbers due);
struct tuffbasket_planned second_plan(uint32_t boards, struct numbers work, struct numbers due, struct numbers table);
struct tuffbasket_checked second_check(uint32_t boards, struct numbers work, struct numbers due, struct numbers table,
                                       size_t rows);
struct tuffbasket_part second_find_rows(struct bytes file);
struct tuffbasket_row second_file_row(struct bytes file, size_t i);
struct tuffbasket_written second_write_plan(struct numbers table, size_t count, struct bytes buffer, size_t note);
uint32_t second_plan_exists(uint32_t boards, struct numbers work, struct numbers due);

void second_draw_order(uint64_t seed, struct bytes *file);
uint32_t second_draw_day(uint64_t seed, struct numbers *work, struct numbers *due);
void second_draw_tight_day(uint32_t boards, size_t jobs, size_t stretches, struct numbers *work, struct numbers *due);
size_t second_draw_table_length(uint64_t seed, size_t jobs);
size_t second_draw_table(uint64_t seed, uint32_t boards, struct numbers work, struct numbers due, struct numbers *table);
void second_draw_plan_file(uint64_t seed, struct bytes *file);
void second_draw_writer_call(uint64_t seed, struct numbers *table, struct bytes *buffer, size_t *count, size_t *note);

#endif
