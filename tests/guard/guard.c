/*
 * The archive against the second program, with every lent buffer between two pages that may not be touched.
 *
 *     guard [-rounds N] [-seconds S] [-seed N]
 *
 * A round draws an order, a day, a table, a plan file and a writer's call from one seed, lends copies of them to the archive
 * and to the second program, and compares all numbers answered and all lent buffers afterwards, also those that are only
 * read. In even rounds a buffer ends where the forbidden page begins, in odd rounds it begins where one ends: a byte read or
 * written beyond stops the program, which then names the round.
 */
#define _DEFAULT_SOURCE

#include "second.h"

#include <signal.h>
#include <stdio.h>
#include <stdlib.h>
#include <string.h>
#include <sys/mman.h>
#include <time.h>
#include <unistd.h>

enum { PAGE = 4096, ROOM = 2 * 1024 * 1024, NUMBERS = ROOM / 4, SHOWN = 10 };

/* What is drawn, and the second program's copy of what it writes. */
static uint8_t file[ROOM];
static uint32_t first[NUMBERS], second[NUMBERS], third[NUMBERS];

/* Memory between forbidden pages, one for each buffer that a call is lent. */
static uint8_t *between[3];
static int at_end;

static uint64_t seed;
static const char *step = "nothing";
static unsigned long calls, differences;

static void stopped(int number)
{
    char line[200];
    int length = snprintf(line, sizeof line, "guard: signal %d at %s in the round of seed %llu\n", number, step,
                          (unsigned long long)seed);
    if (write(STDOUT_FILENO, line, (size_t)length) < 0)
        _exit(2);
    _exit(1);
}

static void forbid(void)
{
    for (int i = 0; i < 3; i++) {
        uint8_t *pages = mmap(NULL, ROOM + 2 * PAGE, PROT_NONE, MAP_PRIVATE | MAP_ANONYMOUS, -1, 0);
        if (pages == MAP_FAILED || mprotect(pages + PAGE, ROOM, PROT_READ | PROT_WRITE) != 0) {
            perror("guard");
            exit(2);
        }
        between[i] = pages + PAGE;
    }
}

/* A copy of so many bytes in the given memory, up against the forbidden page. */
static void *lend(int which, const void *from, size_t bytes)
{
    uint8_t *to = at_end ? between[which] + ROOM - bytes : between[which];
    memcpy(to, from, bytes);
    return to;
}

static void same(const char *what, const void *ours, const void *theirs, size_t bytes)
{
    if (bytes == 0 || memcmp(ours, theirs, bytes) == 0)
        return;
    if (differences++ < SHOWN)
        printf("guard: %s differs in the round of seed %llu\n", what, (unsigned long long)seed);
}

/* Nothing that a call should have written passes for written. */
static struct numbers dirty(uint32_t *at, size_t count)
{
    for (size_t i = 0; i < count; i++)
        at[i] = (uint32_t)i * 2654435761u | 1;
    return (struct numbers){at, count};
}

static void try_order(void)
{
    static const size_t lengths[] = {1000, 1000, 1000, 1000, 1000, 1001, 1500, 999, 0};
    struct bytes order = {file, ROOM};
    step = "read_order";
    second_draw_order(seed, &order);
    struct numbers work = dirty(first, lengths[seed % 9]), due = dirty(second, lengths[seed / 9 % 9]);
    uint8_t *our_file = lend(0, file, order.count);
    uint32_t *our_work = lend(1, first, 4 * work.count), *our_due = lend(2, second, 4 * due.count);
    struct tuffbasket_order ours =
        tuffbasket_read_order(our_file, order.count, our_work, work.count, our_due, due.count);
    struct tuffbasket_order theirs = second_read_order(order, work, due);
    same("read_order", &ours, &theirs, sizeof ours);
    same("read_order's file", our_file, file, order.count);
    same("read_order's work", our_work, first, 4 * work.count);
    same("read_order's due", our_due, second, 4 * due.count);
    calls++;
}

static void try_plan(uint32_t boards, struct numbers work, struct numbers due)
{
    step = "plan";
    struct numbers table = dirty(third, second_draw_table_length(seed, work.count));
    uint32_t *our_work = lend(0, work.at, 4 * work.count), *our_due = lend(1, due.at, 4 * due.count);
    uint32_t *our_table = lend(2, table.at, 4 * table.count);
    struct tuffbasket_planned ours =
        tuffbasket_plan(boards, our_work, work.count, our_due, due.count, our_table, table.count);
    struct tuffbasket_planned theirs = second_plan(boards, work, due, table);
    same("plan", &ours, &theirs, sizeof ours);
    same("plan's work", our_work, work.at, 4 * work.count);
    same("plan's due", our_due, due.at, 4 * due.count);
    same("plan's table", our_table, table.at, 4 * table.count);
    calls++;
}

static void try_check(uint32_t boards, struct numbers work, struct numbers due)
{
    step = "check";
    struct numbers table = {third, NUMBERS};
    size_t rows = second_draw_table(seed, boards, work, due, &table);
    uint32_t *our_work = lend(0, work.at, 4 * work.count), *our_due = lend(1, due.at, 4 * due.count);
    uint32_t *our_table = lend(2, table.at, 4 * table.count);
    struct tuffbasket_checked ours =
        tuffbasket_check(boards, our_work, work.count, our_due, due.count, our_table, table.count, rows);
    struct tuffbasket_checked theirs = second_check(boards, work, due, table, rows);
    same("check", &ours, &theirs, sizeof ours);
    same("check's work", our_work, work.at, 4 * work.count);
    same("check's due", our_due, due.at, 4 * due.count);
    same("check's table", our_table, table.at, 4 * table.count);
    calls++;
}

static void try_day(void)
{
    struct numbers work = {first, NUMBERS}, due = {second, NUMBERS};
    uint32_t boards = second_draw_day(seed, &work, &due);
    try_plan(boards, work, due);
    try_check(boards, work, due);
}

static void try_row(const uint8_t *ours, struct bytes plan, size_t i)
{
    struct tuffbasket_row our_row = tuffbasket_file_row(ours, plan.count, i);
    struct tuffbasket_row their_row = second_file_row(plan, i);
    same("file_row", &our_row, &their_row, sizeof our_row);
    calls++;
}

static void try_plan_file(void)
{
    static const size_t beyond[] = {2000, 2001, (size_t)-1 / 12 + 1, (size_t)-1};
    struct bytes plan = {file, ROOM};
    step = "find_rows";
    second_draw_plan_file(seed, &plan);
    uint8_t *our_file = lend(0, file, plan.count);
    struct tuffbasket_part ours = tuffbasket_find_rows(our_file, plan.count), theirs = second_find_rows(plan);
    same("find_rows", &ours, &theirs, sizeof ours);
    calls++;
    step = "file_row";
    for (size_t i = 0; i < ours.length / 12 + 2; i++)
        try_row(our_file, plan, i);
    for (size_t i = 0; i < sizeof beyond / sizeof beyond[0]; i++)
        try_row(our_file, plan, beyond[i]);
    same("the plan file", our_file, file, plan.count);
}

static void try_writer(void)
{
    struct numbers table = {first, NUMBERS};
    struct bytes buffer = {file, ROOM};
    size_t count, note;
    step = "write_plan";
    second_draw_writer_call(seed, &table, &buffer, &count, &note);
    uint32_t *our_table = lend(0, table.at, 4 * table.count);
    uint8_t *our_buffer = lend(1, buffer.at, buffer.count);
    struct tuffbasket_written ours =
        tuffbasket_write_plan(our_table, table.count, count, our_buffer, buffer.count, note);
    struct tuffbasket_written theirs = second_write_plan(table, count, buffer, note);
    same("write_plan", &ours, &theirs, sizeof ours);
    same("write_plan's table", our_table, table.at, 4 * table.count);
    same("write_plan's buffer", our_buffer, buffer.at, buffer.count);
    calls++;
}

/* A pointer with count 0 is never used. */
static void try_nothing(void)
{
    step = "a call with nothing";
    static uint32_t work[TUFFBASKET_MOST_JOBS], due[TUFFBASKET_MOST_JOBS];
    uint32_t refusals[] = {
        tuffbasket_read_order(NULL, 0, NULL, 0, NULL, 0).refusal,
        tuffbasket_read_order(NULL, 0, work, TUFFBASKET_MOST_JOBS, due, TUFFBASKET_MOST_JOBS).refusal,
        tuffbasket_plan(1, NULL, 0, NULL, 0, NULL, 0).refusal,
        tuffbasket_check(1, NULL, 0, NULL, 0, NULL, 0, 0).refusal,
        tuffbasket_find_rows(NULL, 0).refusal,
        tuffbasket_file_row(NULL, 0, 0).board,
        tuffbasket_write_plan(NULL, 0, 0, NULL, 0, 0).refusal,
    };
    uint32_t wanted[] = {10, 3, 13, 13, 15, 0, 10};
    same("a call with nothing", refusals, wanted, sizeof wanted);
    calls += 7;
}

int main(int count, char **words)
{
    unsigned long rounds = 0, most = 0;
    double seconds = 0;
    for (int i = 1; i + 1 < count; i += 2) {
        if (strcmp(words[i], "-rounds") == 0)
            most = strtoul(words[i + 1], NULL, 10);
        else if (strcmp(words[i], "-seconds") == 0)
            seconds = strtod(words[i + 1], NULL);
        else if (strcmp(words[i], "-seed") == 0)
            seed = strtoull(words[i + 1], NULL, 10);
    }
    forbid();
    signal(SIGSEGV, stopped);
    signal(SIGBUS, stopped);
    try_nothing();
    time_t start = time(NULL);
    while (rounds < most || difftime(time(NULL), start) < seconds) {
        at_end = rounds % 2 == 0;
        try_order();
        try_day();
        try_plan_file();
        try_writer();
        rounds++;
        seed++;
    }
    printf("guard: %lu rounds, %lu calls, %lu differences\n", rounds, calls, differences);
    return differences == 0 ? 0 : 1;
}
