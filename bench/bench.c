/*
 * The archive against plain C of the same steps (gcc -O2), and the planner against the decision by maximum flow.
 *
 * A batch of archive calls and a batch of C calls take turns in one run on the same input, in changing order. Each pair of
 * batches gives a ratio; shown are the median and the middle 80 per cent. `noise` times the C against itself in the same
 * way: what it differs from 1.00 is the machine's. The clock counts this thread's time only, not that of others on the
 * machine.
 */
#define _POSIX_C_SOURCE 200809L

#include "plain.h"
#include "second.h"

#include <stdio.h>
#include <stdlib.h>
#include <string.h>
#include <time.h>

enum { REPEATS = 41, BATCH = 2000 /* microseconds */, JOBS = TUFFBASKET_MOST_JOBS, TABLE = TUFFBASKET_TABLE_LENGTH };

static uint8_t file[TUFFBASKET_MOST_BYTES], plan[TUFFBASKET_PLAN_BYTES];
static size_t length;
static uint32_t boards, jobs, work[JOBS], due[JOBS], read_work[JOBS], read_due[JOBS], table[TABLE], planned[TABLE];
static size_t rows;
static volatile uint32_t sink;

typedef void call(void);

static void archive_read(void)
{
    sink = tuffbasket_read_order(file, length, read_work, JOBS, read_due, JOBS).jobs;
}

static void plain_read(void)
{
    sink = plain_read_order(file, length, read_work, JOBS, read_due, JOBS).jobs;
}

static void archive_plan(void)
{
    sink = tuffbasket_plan(boards, work, jobs, due, jobs, planned, 8 * (size_t)jobs).rows;
}

static void plain_plan_day(void)
{
    sink = plain_plan(boards, work, jobs, due, jobs, planned, 8 * (size_t)jobs).rows;
}

static void archive_check(void)
{
    sink = tuffbasket_check(boards, work, jobs, due, jobs, table, TABLE, rows).yes;
}

static void plain_check_day(void)
{
    sink = plain_check(boards, work, jobs, due, jobs, table, TABLE, rows).yes;
}

static void archive_write(void)
{
    sink = tuffbasket_write_plan(table, TABLE, rows, plan, sizeof plan, 0).length;
}

static void plain_write(void)
{
    sink = plain_write_plan(table, TABLE, rows, plan, sizeof plan, 0).length;
}

static void flow(void)
{
    struct numbers works = {work, jobs}, dues = {due, jobs};
    sink = second_plan_exists(boards, works, dues);
}

static double now(void)
{
    struct timespec t;
    clock_gettime(CLOCK_THREAD_CPUTIME_ID, &t);
    return (double)t.tv_sec * 1e6 + (double)t.tv_nsec / 1e3;
}

/* Microseconds for one call, over so many. */
static double timed(call *what, unsigned long times)
{
    double start = now();
    for (unsigned long i = 0; i < times; i++)
        what();
    return (now() - start) / (double)times;
}

static int by_size(const void *a, const void *b)
{
    double x = *(const double *)a, y = *(const double *)b;
    return (x > y) - (x < y);
}

struct comparison {
    double first, second, ratio, low, high;
};

static struct comparison compare(call *first, call *second, int repeats)
{
    double firsts[REPEATS], seconds[REPEATS], ratios[REPEATS];
    double slower = timed(first, 1), other = timed(second, 1);
    slower = slower > other ? slower : other;
    unsigned long times = slower < BATCH ? (unsigned long)(BATCH / (slower + 0.01)) + 1 : 1;
    for (int i = 0; i < repeats; i++) {
        if (i % 2 == 0)
            firsts[i] = timed(first, times);
        seconds[i] = timed(second, times);
        if (i % 2 == 1)
            firsts[i] = timed(first, times);
        ratios[i] = firsts[i] / seconds[i];
    }
    qsort(firsts, (size_t)repeats, sizeof *firsts, by_size);
    qsort(seconds, (size_t)repeats, sizeof *seconds, by_size);
    qsort(ratios, (size_t)repeats, sizeof *ratios, by_size);
    struct comparison all = {firsts[repeats / 2], seconds[repeats / 2], ratios[repeats / 2], ratios[repeats / 10],
                             ratios[repeats - 1 - repeats / 10]};
    return all;
}

static void line(const char *step, const char *input, call *first, call *second)
{
    struct comparison c = compare(first, second, REPEATS);
    printf("%-8s %-32s %10.2f %10.2f %7.2f   %.2f to %.2f\n", step, input, c.first, c.second, c.ratio, c.low, c.high);
}

static uint64_t drawn = 1;

static uint32_t draw(uint32_t below)
{
    drawn = drawn * 6364136223846793005u + 1442695040888963407u;
    return (uint32_t)((drawn >> 33) % below);
}

/*
 * Random works that fill m boards to the last minute, stretch by stretch: m + 1 jobs share the m boards of a stretch, each
 * leaving out some of its minutes and all together one board's. The jobs then change places at random.
 */
static void draw_day(uint32_t m, uint32_t n)
{
    uint32_t stretch = TUFFBASKET_MOST_MINUTES / (n / (m + 1) + 1), left = 0;
    for (uint32_t i = 0; i < n; i++) {
        uint32_t place = i % (m + 1);
        if (place == 0)
            left = stretch - 1;
        uint32_t out = place == m ? left : 1 + draw(2 * stretch / (m + 1) - 1);
        out = out < left ? out : left;
        left -= out;
        work[i] = stretch - out;
        due[i] = stretch * (i / (m + 1) + 1);
        if (place == m)
            work[i] -= 1;
    }
    for (uint32_t i = n; i-- > 1;) {
        uint32_t j = draw(i + 1), t = work[i], d = due[i];
        work[i] = work[j];
        due[i] = due[j];
        work[j] = t;
        due[j] = d;
    }
}

/* The plan of the day goes to `table`. */
static void plan_it(void)
{
    struct tuffbasket_planned said = tuffbasket_plan(boards, work, jobs, due, jobs, table, TABLE);
    rows = said.rows;
    if (said.refusal != 0) {
        fprintf(stderr, "bench: refusal %u for a day that has a plan\n", (unsigned)said.refusal);
        exit(1);
    }
}

/* A day with a plan and no minute to spare. */
static void tight_day(uint32_t m, uint32_t n)
{
    draw_day(m, n);
    boards = m;
    jobs = n;
    plan_it();
}

/* The same plan in 2,000 rows, the most there may be: rows are cut in two that touch, then all change places. */
static void cut_and_shuffle(void)
{
    for (uint32_t i = 0; rows < TUFFBASKET_MOST_ROWS; i = (i + 1) % rows) {
        uint32_t *row = table + 4 * i, *cut = table + 4 * rows, middle = row[2] + (row[3] - row[2]) / 2;
        if (middle == row[2])
            continue;
        memcpy(cut, row, 4 * sizeof *row);
        row[3] = cut[2] = middle;
        rows++;
    }
    for (uint32_t i = rows; i-- > 1;) {
        uint32_t *a = table + 4 * i, *b = table + 4 * draw(i + 1), t[4];
        memcpy(t, a, sizeof t);
        memmove(a, b, sizeof t);
        memcpy(b, t, sizeof t);
    }
}

static void add(const char *text)
{
    size_t more = strlen(text);
    if (length + more <= sizeof file) {
        memcpy(file + length, text, more);
        length += more;
    }
}

/* An order of so many jobs, eight to a group. */
static void order_of(size_t n)
{
    char text[64];
    length = 0;
    add("(order 64\n");
    for (size_t i = 0; i < n; i++) {
        if (i % 8 == 0)
            add("(group 900000\n");
        snprintf(text, sizeof text, "  (job %u %u)\n", (unsigned)(i * 7919 % 99991 + 1), (unsigned)(i * 104729 % 999983 + 1));
        add(text);
        if (i % 8 == 7 || i + 1 == n)
            add(")\n");
    }
    add(")\n");
}

static void against_c(void)
{
    static const struct {
        const char *name;
        uint32_t boards;
        uint32_t jobs;
    } days[] = {{"1,000 jobs on 64 boards", 64, 1000}, {"1,000 jobs on 4 boards", 4, 1000}, {"10 jobs on 4 boards", 4, 10}};
    printf("%-8s %-32s %10s %10s %7s   %s\n", "step", "input", "archive us", "C us", "ratio", "middle 80%");
    order_of(3);
    line("read", "3 jobs", archive_read, plain_read);
    order_of(1000);
    line("read", "1,000 jobs in groups", archive_read, plain_read);
    while (length < sizeof file)
        file[length++] = ' ';
    line("read", "the same with blanks to 64 KiB", archive_read, plain_read);
    for (size_t i = 0; i < sizeof days / sizeof days[0]; i++) {
        tight_day(days[i].boards, days[i].jobs);
        line("plan", days[i].name, archive_plan, plain_plan_day);
        line("check", days[i].name, archive_check, plain_check_day);
    }
    tight_day(64, 1000);
    cut_and_shuffle();
    line("check", "2,000 rows in any order", archive_check, plain_check_day);
    tight_day(64, 1000);
    line("write", "the rows of 1,000 jobs", archive_write, plain_write);
    line("noise", "C against C: check", plain_check_day, plain_check_day);
}

/* Days as the second program draws them, with few and with many different due minutes. */
static void flow_line(uint32_t m, size_t n, size_t stretches)
{
    struct numbers works = {work, JOBS}, dues = {due, JOBS};
    second_draw_tight_day(m, n, stretches, &works, &dues);
    boards = m;
    jobs = (uint32_t)works.count;
    plan_it();
    struct comparison c = compare(flow, archive_plan, n < 1000 ? 11 : 3);
    printf("%-8s %8u %8u %12zu %12.2f %12.2f %10.1f\n", "flow", (unsigned)m, (unsigned)jobs, stretches, c.second, c.first, c.ratio);
}

static void against_flow(void)
{
    printf("\n%-8s %8s %8s %12s %12s %12s %10s\n", "", "boards", "jobs", "due minutes", "plan us", "flow us", "flow/plan");
    for (size_t n = 10; n <= 1000; n *= 10) {
        for (uint32_t m = 4; m <= 64; m *= 16) {
            flow_line(m, n, n / 5);
            flow_line(m, n, n);
        }
    }
}

static void growth(const char *step, call *what)
{
    printf("\n%-14s", step);
    for (uint32_t m = 1; m <= 64; m *= 4)
        printf(" %7u boards", (unsigned)m);
    for (uint32_t n = 125; n <= 1000; n *= 2) {
        printf("\n%9u jobs", (unsigned)n);
        for (uint32_t m = 1; m <= 64; m *= 4) {
            tight_day(m, n);
            struct comparison c = compare(what, what, 5);
            printf(" %11.2f us", c.first);
        }
    }
    printf("\n");
}

int main(void)
{
    against_c();
    against_flow();
    growth("plan", archive_plan);
    growth("check", archive_check);
    return 0;
}
