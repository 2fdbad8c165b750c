/* What a user of the installed library writes: plans the order on standard input and says how many rows it has. */
#include <stdio.h>
#include <tuffbasket.h>

static uint8_t file[TUFFBASKET_MOST_BYTES + 1];
static uint32_t work[TUFFBASKET_MOST_JOBS], due[TUFFBASKET_MOST_JOBS], table[TUFFBASKET_TABLE_LENGTH];

int main(void)
{
    size_t length = fread(file, 1, sizeof file, stdin);
    struct tuffbasket_order order =
        tuffbasket_read_order(file, length, work, TUFFBASKET_MOST_JOBS, due, TUFFBASKET_MOST_JOBS);
    if (order.refusal != TUFFBASKET_ACCEPTED) {
        printf("refused %u %u\n", (unsigned)order.refusal, (unsigned)order.place);
        return 1;
    }
    struct tuffbasket_planned plan =
        tuffbasket_plan(order.boards, work, order.jobs, due, order.jobs, table, TUFFBASKET_TABLE_LENGTH);
    printf("refusal %u, %u rows, first on board %u\n", (unsigned)plan.refusal, (unsigned)plan.rows, (unsigned)table[0]);
    return 0;
}
