/* Matrices in the order in which they finished: planned, put in order and stacked. The matrices and the stacked matrix are
 * those of document 01's example, which has them in order. What it must print is examples/unsorted_c.out.
 *
 *     (cd crates/legrudda && rt lib --cpu x86-64)
 *     cc -std=c11 -Iinclude examples/unsorted.c crates/legrudda/out/liblegrudda.a -o unsorted && ./unsorted
 */
#include <inttypes.h>
#include <stdio.h>
#include <string.h>

#include "legrudda.h"

#define L_SKIP 1
#define N_STACK 1
#define COUNT(a) (sizeof(a) / sizeof((a)[0]))

/* As they came: two flagged columns of one row, then one column of four. */
static const uint32_t list[] = {2, 0, 1, 1, 2, 0};
static const uint32_t low[] = {9, 3};
static const uint32_t high[] = {5, 6, 7, 8};
static const uint32_t *const cells[] = {low, high};

static int refused(const char *call, uint32_t number)
{
    if (number != LEGRUDDA_DONE)
        printf("%s: refused %" PRIu32 "\n", call, number);
    return number != LEGRUDDA_DONE;
}

int main(void)
{
    uint32_t arrivals[2], traces[COUNT(list)], ordered_cells[6], q_mat[8];
    uint64_t records[2 * 3];

    LegruddaPlan plan = legrudda_plan(L_SKIP, N_STACK, list, COUNT(list), records, COUNT(records));
    if (!refused("plan", plan.number))
        return 1;
    plan = legrudda_plan_unsorted(
        L_SKIP, N_STACK, list, COUNT(list), arrivals, COUNT(arrivals), records, COUNT(records));
    if (refused("plan_unsorted", plan.number))
        return 1;
    printf("plan_unsorted: %" PRIu32 " columns in %" PRIu32 " stack columns of %" PRIu32 " rows\n",
        plan.columns, plan.width, plan.height);

    /* Place k of the order has matrix arrivals[k] of the list; its cells go there too. Stacking takes heights. */
    size_t count = 0;
    for (size_t k = 0; k < COUNT(arrivals); k++) {
        const uint32_t *matrix = &list[3 * arrivals[k]];
        uint32_t height = UINT32_C(1) << matrix[1];
        printf("place %zu: the matrix that came at position %" PRIu32 ", width %" PRIu32 ", height %" PRIu32 "\n",
            k, arrivals[k], matrix[0], height);
        memcpy(&traces[3 * k], matrix, 3 * sizeof matrix[0]);
        traces[3 * k + 1] = height;
        memcpy(&ordered_cells[count], cells[arrivals[k]], matrix[0] * height * sizeof ordered_cells[0]);
        count += matrix[0] * height;
    }

    plan = legrudda_stacked_matrix(
        L_SKIP, N_STACK, traces, COUNT(traces), ordered_cells, count, q_mat, plan.width * plan.height);
    if (refused("stacked_matrix", plan.number))
        return 1;
    printf("stacked_matrix:");
    for (size_t i = 0; i < COUNT(q_mat); i++)
        printf(" %" PRIu32, q_mat[i]);
    printf("\n");
    return 0;
}
