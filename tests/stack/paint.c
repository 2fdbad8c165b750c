/*
 * How far each call writes into a painted thread stack of 64 KiB: a lower bound of what it needs.
 *
 *     paint
 *
 * prints a line for each export: its name and how far down it wrote at most over its worst inputs (0 if it stayed within the
 * 128 bytes next to its caller); then `thread` and the most that a thread's stack held with the call. Link with -z now: lazy
 * binding writes by itself.
 */
#define _DEFAULT_SOURCE

#include "tuffbasket.h"

#include <pthread.h>
#include <stdio.h>
#include <stdlib.h>
#include <string.h>
#include <sys/mman.h>

enum { STACK = 64 * 1024, PAGE = 4096, PAINT = 0xa5, OWN = 128, JOBS = TUFFBASKET_MOST_JOBS, TABLE = TUFFBASKET_TABLE_LENGTH };

static uint8_t *stack;
static uint8_t file[TUFFBASKET_MOST_BYTES + 1], plan[TUFFBASKET_MOST_BYTES];
static size_t length;
static uint32_t boards, work[JOBS], due[JOBS], table[TABLE];
static size_t rows;
static size_t below, whole; /* bytes that the last call wrote below its caller, and that its thread has in use in all */
static uint32_t refusal; /* of the last call, so that no worst input is refused by mistake */

typedef void call(void);

static void read_order(void)
{
    refusal = tuffbasket_read_order(file, length, work, JOBS, due, JOBS).refusal;
}

static void plan_day(void)
{
    struct tuffbasket_planned said = tuffbasket_plan(boards, work, JOBS, due, JOBS, table, TABLE);
    refusal = said.refusal;
    rows = said.rows;
}

static void check(void)
{
    struct tuffbasket_checked said = tuffbasket_check(boards, work, JOBS, due, JOBS, table, TABLE, rows);
    refusal = said.yes ? 0 : 99;
}

static void write_plan(void)
{
    struct tuffbasket_written said = tuffbasket_write_plan(table, TABLE, rows, plan, sizeof plan, 0);
    refusal = said.refusal;
    length = said.length;
}

static void find_rows(void)
{
    refusal = tuffbasket_find_rows(plan, length).refusal;
}

static void file_row(void)
{
    for (size_t i = 0; i <= rows; i++)
        tuffbasket_file_row(plan, length, i);
}

/* Paints all below its own frame, calls, and looks how far down the paint is gone. */
static void *run(void *lent)
{
    volatile uint8_t mark = 0;
    size_t here = (uintptr_t)&mark - (uintptr_t)stack, at;
    volatile uint8_t *bytes = stack;
    for (at = 0; at < here - OWN; at++)
        bytes[at] = PAINT;
    (*(call **)lent)();
    for (at = 0; at < here - OWN && bytes[at] == PAINT; at++)
        ;
    below = at < here - OWN ? here - at : 0;
    whole = STACK - at;
    return NULL;
}

static void on_painted_stack(call *what)
{
    pthread_attr_t own;
    pthread_t thread;
    if (pthread_attr_init(&own) != 0 || pthread_attr_setstack(&own, stack, STACK) != 0 ||
        pthread_create(&thread, &own, run, &what) != 0 || pthread_join(thread, NULL) != 0) {
        fputs("paint: no thread\n", stderr);
        exit(2);
    }
}

static void expect(const char *what, uint32_t wanted)
{
    if (refusal != wanted) {
        fprintf(stderr, "paint: %s gave refusal %u, not %u\n", what, (unsigned)refusal, (unsigned)wanted);
        exit(1);
    }
}

static size_t greatest;

/* Keeps the greatest over several inputs for one export. */
static size_t measure(call *what, uint32_t wanted, size_t before)
{
    refusal = 0;
    on_painted_stack(what);
    expect("a worst input", wanted);
    greatest = whole > greatest ? whole : greatest;
    return below > before ? below : before;
}

static void repeat(const char *front, const char *again, size_t times, const char *end)
{
    size_t at = strlen(front), step = strlen(again);
    memcpy(file, front, at);
    for (size_t i = 0; i < times && at + step <= sizeof file; i++, at += step)
        memcpy(file + at, again, step);
    memcpy(file + at, end, strlen(end));
    length = at + strlen(end);
}

/* Orders that go deep, are long, or stop late. */
static size_t orders(void)
{
    size_t bytes = 0;
    memset(file, '(', sizeof file);
    length = TUFFBASKET_MOST_BYTES;
    bytes = measure(read_order, TUFFBASKET_NOT_ALLOWED, bytes);
    length++;
    bytes = measure(read_order, TUFFBASKET_LONG_FILE, bytes);
    memset(file, ' ', sizeof file);
    length = TUFFBASKET_MOST_BYTES;
    bytes = measure(read_order, TUFFBASKET_UNCLOSED, bytes);
    memset(file, '7', sizeof file);
    bytes = measure(read_order, TUFFBASKET_NOT_ALLOWED, bytes);
    repeat("(order 1", "(group 5", 7000, "");
    bytes = measure(read_order, TUFFBASKET_TOO_DEEP, bytes);
    repeat("(order 1", "(group 5", 32, "(job 1 1)))))))))))))))))))))))))))))))))))");
    bytes = measure(read_order, TUFFBASKET_NOT_ALLOWED, bytes);
    repeat("(order 64", "(group 999999(job 999999 1000000))", 1000, ")");
    return measure(read_order, TUFFBASKET_ACCEPTED, bytes);
}

/* Jobs that fill the boards to the last minute in stretches, so that most of them move. */
static void full_day(void)
{
    boards = 64;
    for (size_t i = 0; i < JOBS; i++) {
        work[i] = 63;
        due[i] = (uint32_t)(64 * (i / 65 + 1));
    }
}

int main(void)
{
    uint8_t *pages = mmap(NULL, STACK + PAGE, PROT_READ | PROT_WRITE, MAP_PRIVATE | MAP_ANONYMOUS, -1, 0);
    if (pages == MAP_FAILED || mprotect(pages, PAGE, PROT_NONE) != 0) {
        perror("paint");
        return 2;
    }
    stack = pages + PAGE;
    printf("tuffbasket_read_order %zu\n", orders());
    full_day();
    printf("tuffbasket_plan %zu\n", measure(plan_day, TUFFBASKET_ACCEPTED, 0));
    printf("tuffbasket_check %zu\n", measure(check, TUFFBASKET_ACCEPTED, 0));
    printf("tuffbasket_write_plan %zu\n", measure(write_plan, TUFFBASKET_ACCEPTED, 0));
    printf("tuffbasket_find_rows %zu\n", measure(find_rows, TUFFBASKET_ACCEPTED, 0));
    printf("tuffbasket_file_row %zu\n", measure(file_row, TUFFBASKET_ACCEPTED, 0));
    printf("thread %zu\n", greatest);
    fprintf(stderr, "paint: the day has %zu rows\n", rows);
    return 0;
}
