/*
 * An import service: worker threads take order files from a spool folder, plan them and write plan files beside them.
 *
 *     service [-once] FOLDER
 *
 * NAME.order is renamed NAME.taken while a worker has it, and NAME.done when it is answered. A plan stands in NAME.plan,
 * whose note is the name. One line for each file goes to standard output:
 *
 *     NAME plan BOARDS JOBS ROWS PREEMPTIONS
 *     NAME refused NUMBER PLACE
 *     NAME failed REASON            trouble with the folder; the file stays NAME.taken
 *
 * A refusal is an answer like any other: the worker goes on with the next file. With -once the service ends when no order
 * is left, otherwise it looks again each second. A start puts back what an earlier run had taken, so one service a folder.
 *
 * Workers have stacks of 64 KiB, whatever the files hold; all that is large is static, once for each worker.
 */
#define _POSIX_C_SOURCE 200809L

#include "tuffbasket.h"

#include <dirent.h>
#include <errno.h>
#include <fcntl.h>
#include <pthread.h>
#include <stdio.h>
#include <string.h>
#include <sys/stat.h>
#include <unistd.h>

enum { STACK_BYTES = 64 * 1024, WORKERS = 4, NAME_ROOM = 256 };

/* What the workers share: the folder's entries behind a lock. */
struct spool {
    DIR *entries;
    int folder;
    int once;
    pthread_mutex_t lock;
};

struct worker {
    struct spool *spool;
    pthread_t thread;
    char name[NAME_ROOM];                    /* the file in hand, without its ending */
    uint8_t file[TUFFBASKET_MOST_BYTES + 1]; /* a byte more shows that a file is too long */
    uint32_t work[TUFFBASKET_MOST_JOBS], due[TUFFBASKET_MOST_JOBS];
    uint32_t table[TUFFBASKET_TABLE_LENGTH];
    uint8_t plan[NAME_ROOM + TUFFBASKET_PLAN_BYTES];
};

/* The name with another ending. None is longer than `.order`, so what fitted the folder still fits. */
static void ending(char path[NAME_ROOM], const char *name, const char *end)
{
    snprintf(path, NAME_ROOM, "%.*s%s", NAME_ROOM - 7, name, end);
}

static int move(struct spool *spool, const char *name, const char *from, const char *to)
{
    char old[NAME_ROOM], new[NAME_ROOM];
    ending(old, name, from);
    ending(new, name, to);
    return renameat(spool->folder, old, spool->folder, new) == 0;
}

/* The name without its ending, if it has that ending and something before it. */
static int stem(char name[NAME_ROOM], const char *entry, const char *end)
{
    size_t length = strlen(entry), tail = strlen(end);
    if (length <= tail || length >= NAME_ROOM || strcmp(entry + length - tail, end) != 0)
        return 0;
    memcpy(name, entry, length - tail);
    name[length - tail] = '\0';
    return 1;
}

/* Takes one order, of those from here to the folder's end or else of all. */
static int take(struct spool *spool, char name[NAME_ROOM])
{
    int taken = 0;
    pthread_mutex_lock(&spool->lock);
    for (int pass = 0; pass < 2 && !taken; pass++) {
        struct dirent *entry;
        while (!taken && (entry = readdir(spool->entries)) != NULL)
            taken = stem(name, entry->d_name, ".order") && move(spool, name, ".order", ".taken");
        if (!taken)
            rewinddir(spool->entries);
    }
    pthread_mutex_unlock(&spool->lock);
    return taken;
}

static void put_back(struct spool *spool)
{
    struct dirent *entry;
    char name[NAME_ROOM];
    while ((entry = readdir(spool->entries)) != NULL)
        if (stem(name, entry->d_name, ".taken"))
            move(spool, name, ".taken", ".order");
    rewinddir(spool->entries);
}

/* One line of the log. A name may hold any byte: what is not plain becomes `?`, so that a file stays one line. */
static void say(const char *name, const char *answer, const char *detail)
{
    char line[2 * NAME_ROOM];
    size_t i;
    for (i = 0; name[i] != '\0'; i++)
        line[i] = name[i] > ' ' && name[i] < 127 ? name[i] : '?';
    snprintf(line + i, sizeof line - i, " %s %s\n", answer, detail);
    fputs(line, stdout);
    fflush(stdout);
}

/* Reads the taken file, up to the byte that makes it too long. Anything but a plain file is no order. */
static int load(struct worker *w, size_t *length)
{
    char path[NAME_ROOM];
    struct stat about;
    ssize_t got = 1;
    ending(path, w->name, ".taken");
    int file = openat(w->spool->folder, path, O_RDONLY | O_NONBLOCK);
    if (file < 0)
        return 0;
    *length = 0;
    if (fstat(file, &about) != 0 || !S_ISREG(about.st_mode)) {
        errno = EINVAL;
        got = -1;
    }
    while (got > 0 && *length < sizeof w->file) {
        got = read(file, w->file + *length, sizeof w->file - *length);
        if (got > 0)
            *length += (size_t)got;
    }
    close(file);
    return got >= 0;
}

/* Writes the plan beside its order: under another name first, so that no half-written plan is ever seen. */
static int store(struct worker *w, size_t length)
{
    char path[NAME_ROOM];
    size_t written = 0;
    ending(path, w->name, ".part");
    int file = openat(w->spool->folder, path, O_WRONLY | O_CREAT | O_TRUNC, 0644);
    if (file < 0)
        return 0;
    while (written < length) {
        ssize_t put = write(file, w->plan + written, length - written);
        if (put < 0)
            break;
        written += (size_t)put;
    }
    return close(file) == 0 && written == length && move(w->spool, w->name, ".part", ".plan");
}

/* The line comes before the last move: a service killed between them says it again, and none is missing. */
static void done(struct worker *w, const char *answer, const char *detail)
{
    say(w->name, answer, detail);
    move(w->spool, w->name, ".taken", ".done");
}

/* An old plan of that name must not outlive the refusal of its new order. */
static void refused(struct worker *w, uint32_t refusal, uint32_t place)
{
    char path[NAME_ROOM], detail[64];
    ending(path, w->name, ".plan");
    unlinkat(w->spool->folder, path, 0);
    snprintf(detail, sizeof detail, "%u %u", (unsigned)refusal, (unsigned)place);
    done(w, "refused", detail);
}

static void planned(struct worker *w, struct tuffbasket_order order, uint32_t rows, uint32_t preemptions)
{
    char detail[64];
    size_t note = strlen(w->name);
    memcpy(w->plan, w->name, note);
    struct tuffbasket_written written =
        tuffbasket_write_plan(w->table, TUFFBASKET_TABLE_LENGTH, rows, w->plan, sizeof w->plan, note);
    if (written.refusal != 0) {
        refused(w, written.refusal, written.place);
    } else if (!store(w, written.length)) {
        say(w->name, "failed", strerror(errno));
    } else {
        snprintf(detail, sizeof detail, "%u %u %u %u", (unsigned)order.boards, (unsigned)order.jobs, (unsigned)rows,
                 (unsigned)preemptions);
        done(w, "plan", detail);
    }
}

/* Read, plan, check: the first refusal is the answer. */
static void answer(struct worker *w)
{
    size_t length;
    if (!load(w, &length)) {
        say(w->name, "failed", strerror(errno));
        return;
    }
    struct tuffbasket_order order =
        tuffbasket_read_order(w->file, length, w->work, TUFFBASKET_MOST_JOBS, w->due, TUFFBASKET_MOST_JOBS);
    if (order.refusal != 0) {
        refused(w, order.refusal, order.place);
        return;
    }
    struct tuffbasket_planned plan = tuffbasket_plan(order.boards, w->work, order.jobs, w->due, order.jobs, w->table,
                                                     TUFFBASKET_TABLE_LENGTH);
    if (plan.refusal != 0) {
        refused(w, plan.refusal, plan.place);
        return;
    }
    struct tuffbasket_checked check = tuffbasket_check(order.boards, w->work, order.jobs, w->due, order.jobs, w->table,
                                                       TUFFBASKET_TABLE_LENGTH, plan.rows);
    if (check.refusal != 0 || check.yes != 1)
        say(w->name, "failed", "the checker says no"); /* proved never to happen: memory itself is at fault */
    else
        planned(w, order, plan.rows, check.preemptions);
}

static void *run(void *lent)
{
    struct worker *w = lent;
    for (;;) {
        if (take(w->spool, w->name))
            answer(w);
        else if (w->spool->once)
            return NULL;
        else
            sleep(1);
    }
}

int main(int count, char **words)
{
    static struct worker workers[WORKERS];
    struct spool spool = {NULL, 0, count == 3 && strcmp(words[1], "-once") == 0, PTHREAD_MUTEX_INITIALIZER};
    pthread_attr_t small;
    if (count != 2 + spool.once) {
        fputs("usage: service [-once] FOLDER\n", stderr);
        return 2;
    }
    spool.entries = opendir(words[count - 1]);
    if (spool.entries == NULL || pthread_attr_init(&small) != 0 || pthread_attr_setstacksize(&small, STACK_BYTES) != 0) {
        perror(words[count - 1]);
        return 1;
    }
    spool.folder = dirfd(spool.entries);
    put_back(&spool);
    for (int i = 0; i < WORKERS; i++) {
        workers[i].spool = &spool;
        if (pthread_create(&workers[i].thread, &small, run, &workers[i]) != 0) {
            perror("service: a worker");
            return 1;
        }
    }
    for (int i = 0; i < WORKERS; i++)
        pthread_join(workers[i].thread, NULL);
    closedir(spool.entries);
    return 0;
}
