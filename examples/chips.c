/* A machine of 700 chips, a matrix each: planned in the order in which they finished, and every record taken apart. What it
 * must print is examples/chips_c.out.
 *
 *     (cd crates/legrudda && rt lib --cpu x86-64)
 *     cc -std=c11 -Iinclude examples/chips.c crates/legrudda/out/liblegrudda.a -o chips && ./chips
 */
#include <inttypes.h>
#include <stdio.h>

#include "legrudda.h"

#define L_SKIP 2
#define N_STACK 4
#define CHIPS 700

/* The fields of a record, from its two words. */
typedef struct {
    uint32_t matrix, column, stack_column, row, log_height;
} Fields;

static Fields fields(const uint64_t *record)
{
    return (Fields){
        .matrix = (uint32_t)(record[0] >> 48),
        .column = (uint32_t)(record[0] >> 36) & 4095,
        .stack_column = (uint32_t)(record[0] >> 24) & 4095,
        .row = (uint32_t)record[0] & 16777215,
        .log_height = (uint32_t)(record[1] >> 59),
    };
}

int main(void)
{
    static uint32_t list[3 * CHIPS], ordered[3 * CHIPS], arrivals[CHIPS];
    static uint64_t records[2 * CHIPS];

    /* A column each, of 1 to 64 rows. */
    for (uint32_t i = 0; i < CHIPS; i++) {
        list[3 * i] = 1;
        list[3 * i + 1] = i * 5 % 7;
        list[3 * i + 2] = i % 2;
    }
    LegruddaPlan plan = legrudda_plan_unsorted(
        L_SKIP, N_STACK, list, 3 * CHIPS, arrivals, CHIPS, records, 2 * CHIPS);
    if (plan.number != LEGRUDDA_DONE) {
        printf("plan_unsorted: refused %" PRIu32 "\n", plan.number);
        return 1;
    }
    printf("plan_unsorted: %" PRIu32 " columns in %" PRIu32 " stack columns of %" PRIu32 " rows\n",
        plan.columns, plan.width, plan.height);

    for (uint32_t k = 0; k < 3 * CHIPS; k++)
        ordered[k] = list[3 * arrivals[k / 3] + k % 3];
    for (uint32_t k = 0; k < CHIPS; k++) {
        Fields f = fields(&records[2 * k]);
        LegruddaSlice slice = legrudda_get(L_SKIP, N_STACK, ordered, 3 * CHIPS, f.matrix, f.column);
        if (f.matrix != k || slice.number != LEGRUDDA_DONE || slice.col_idx != f.stack_column || slice.row_idx != f.row
            || slice.log_height != f.log_height) {
            printf("record %" PRIu32 " is not what get answers\n", k);
            return 1;
        }
        if (k == 0 || k == 255 || k == 256 || k == CHIPS - 1)
            printf("%016" PRIx64 "%016" PRIx64 ": place %" PRIu32 ", chip %" PRIu32 ", stack column %" PRIu32
                   ", row %" PRIu32 ", height %" PRIu32 "\n",
                records[2 * k], records[2 * k + 1], f.matrix, arrivals[k], f.stack_column, f.row,
                UINT32_C(1) << f.log_height);
    }
    printf("all %d records are what get answers\n", CHIPS);
    return 0;
}
