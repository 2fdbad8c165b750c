/* Plain C of the same steps as the proved archive, under the prefix plain_: what the benchmark compares with. */
#ifndef PLAIN_H
#define PLAIN_H

#include "tuffbasket.h"

/* With -DSTAND_IN the same text takes the archive's place, so that all else can be built without it. */
#ifdef STAND_IN
#define PLAIN(name) tuffbasket_##name
#else
#define PLAIN(name) plain_##name
#endif

struct tuffbasket_order PLAIN(read_order)(const uint8_t *file, size_t file_length, uint32_t *work, size_t work_length,
                                          uint32_t *due, size_t due_length);
struct tuffbasket_planned PLAIN(plan)(uint32_t boards, const uint32_t *work, size_t work_length, const uint32_t *due,
                                      size_t due_length, uint32_t *table, size_t table_length);
struct tuffbasket_checked PLAIN(check)(uint32_t boards, const uint32_t *work, size_t work_length, const uint32_t *due,
                                       size_t due_length, const uint32_t *table, size_t table_length, size_t rows);
struct tuffbasket_part PLAIN(find_rows)(const uint8_t *file, size_t file_length);
struct tuffbasket_row PLAIN(file_row)(const uint8_t *file, size_t file_length, size_t i);
struct tuffbasket_written PLAIN(write_plan)(const uint32_t *table, size_t table_length, size_t count, uint8_t *buffer,
                                            size_t buffer_length, size_t note);

#endif
