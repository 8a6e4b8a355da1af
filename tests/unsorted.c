/* legrudda_plan_unsorted from C, for tests/c: worked lists, and refusals that leave both slices as they were. The slices stand
 * between guard words. Says which cases are answered otherwise. */
#include <stdio.h>
#include <string.h>

#include "legrudda.h"

#define COUNT(a) (sizeof(a) / sizeof((a)[0]))
#define GUARD 2
#define MOST 12
#define MARK 0xa5

/* What is lent, the answer, and what both slices then hold where it is done. The lengths are in words: two a record. */
typedef struct {
    uint32_t l_skip, n_stack;
    size_t list_len, arrivals_len, records_len;
    uint32_t list[15];
    LegruddaPlan plan;
    uint32_t arrivals[5];
    uint64_t records[12];
} Case;

static const Case cases[] = {
    {1, 2, 15, 5, 12, {2, 0, 1, 1, 3, 0, 0, 7, 0, 1, 2, 1, 2, 2, 0}, {0, 3, 8, 6}, {2, 1, 4, 3, 0},
     {0x0001000000000000, 0x1800000000000000, 0x0002000001000000, 0x1000000000000000,
      0x0002001001000004, 0x1000000000000000, 0x0003000002000000, 0x1000000000000000,
      0x0004000002000004, 0x0000000000000000, 0x0004001002000006, 0x0000000000000000}},
    /* Of one height: the wider first, then the earlier arrival, the one of width 0 last. */
    {0, 2, 12, 4, 10, {1, 1, 0, 2, 1, 1, 0, 1, 0, 2, 1, 0}, {0, 3, 4, 5}, {1, 3, 0, 2},
     {0x0000000000000000, 0x0800000000000000, 0x0000001000000002, 0x0800000000000000,
      0x0001000001000000, 0x0800000000000000, 0x0001001001000002, 0x0800000000000000,
      0x0002000002000000, 0x0800000000000000}},
    {0, 3, 6, 2, 4, {1, 2, 0, 1, 3, 0}, {0, 2, 8, 2}, {1, 0},
     {0x0000000000000000, 0x1800000000000000, 0x0001000001000000, 0x1000000000000000}},
    {1, 1, 6, 2, 6, {2, 0, 1, 1, 2, 0}, {0, 2, 4, 3}, {1, 0},
     {0x0000000000000000, 0x1000000000000000, 0x0001000001000000, 0x0000000000000000,
      0x0001001001000002, 0x0000000000000000}},
    {0, 2, 6, 2, 4, {1, 0, 0, 1, 1, 0}, {0, 1, 4, 2}, {1, 0},
     {0x0000000000000000, 0x0800000000000000, 0x0001000000000002, 0x0000000000000000}},
    {0, 0, 3, 1, 0, {0, 4294967295, 0}, {0, 0, 1, 0}, {0}, {0}},
    {0, 2, 0, 0, 0, {0}, {0, 0, 4, 0}, {0}, {0}},
    /* An l_skip of 11; a flag over 1, of width 0; 4,097 columns; the widest and highest twice; a log height over l_skip +
     * n_stack. */
    {11, 0, 6, 2, 4, {1, 0, 0, 1, 0, 0}, {1, 0, 0, 0}, {0}, {0}},
    {0, 2, 6, 2, 2, {1, 0, 0, 0, 1, 2}, {1, 0, 0, 0}, {0}, {0}},
    {0, 2, 6, 2, 8, {1, 0, 0, 4096, 1, 0}, {2, 0, 0, 0}, {0}, {0}},
    {0, 2, 6, 2, 8, {4294967295, 4294967295, 1, 4294967295, 4294967295, 1}, {2, 0, 0, 0}, {0}, {0}},
    {0, 2, 6, 2, 4, {1, 0, 0, 1, 3, 0}, {4, 0, 0, 0}, {0}, {0}},
    /* 4 before 9; then a word past the last triple, and other lengths of arrivals and records, one word a column too. */
    {0, 2, 7, 1, 2, {1, 0, 0, 1, 3, 0, 1}, {4, 0, 0, 0}, {0}, {0}},
    {0, 2, 4, 1, 2, {1, 0, 0, 1}, {9, 0, 0, 0}, {0}, {0}},
    {0, 2, 6, 1, 4, {1, 0, 0, 1, 1, 0}, {9, 0, 0, 0}, {0}, {0}},
    {0, 2, 6, 3, 4, {1, 0, 0, 1, 1, 0}, {9, 0, 0, 0}, {0}, {0}},
    {0, 2, 6, 2, 2, {1, 0, 0, 1, 1, 0}, {9, 0, 0, 0}, {0}, {0}},
    {0, 2, 6, 2, 3, {1, 0, 0, 1, 1, 0}, {9, 0, 0, 0}, {0}, {0}},
    {0, 2, 6, 2, 5, {1, 0, 0, 1, 1, 0}, {9, 0, 0, 0}, {0}, {0}},
};

static int as_expected(const Case *c)
{
    uint32_t arrivals[MOST + 2 * GUARD], arrivals_after[COUNT(arrivals)];
    uint64_t records[MOST + 2 * GUARD], records_after[COUNT(records)];
    memset(arrivals, MARK, sizeof arrivals);
    memset(arrivals_after, MARK, sizeof arrivals_after);
    memset(records, MARK, sizeof records);
    memset(records_after, MARK, sizeof records_after);
    if (c->plan.number == LEGRUDDA_DONE) {
        memcpy(arrivals_after + GUARD, c->arrivals, c->arrivals_len * sizeof arrivals[0]);
        memcpy(records_after + GUARD, c->records, c->records_len * sizeof records[0]);
    }
    LegruddaPlan plan = legrudda_plan_unsorted(
        c->l_skip, c->n_stack, c->list, c->list_len, arrivals + GUARD, c->arrivals_len, records + GUARD, c->records_len);
    return plan.number == c->plan.number && plan.width == c->plan.width && plan.height == c->plan.height
        && plan.columns == c->plan.columns && memcmp(arrivals, arrivals_after, sizeof arrivals) == 0
        && memcmp(records, records_after, sizeof records) == 0;
}

#define LIMIT 4096

/* Matrices of width 0 by rising log height: the order is the other way round, and one more than the limit is refused. */
static int many_as_expected(size_t matrices)
{
    static uint32_t list[3 * (LIMIT + 1)], arrivals[LIMIT + 1];
    uint64_t records[1];
    uint32_t mark, number = matrices > LIMIT ? LEGRUDDA_LIMIT_EXCEEDED : LEGRUDDA_DONE;
    memset(&mark, MARK, sizeof mark);
    memset(arrivals, MARK, sizeof arrivals);
    for (size_t i = 0; i < matrices; i++)
        list[3 * i + 1] = (uint32_t)i;
    LegruddaPlan plan = legrudda_plan_unsorted(0, 0, list, 3 * matrices, arrivals, matrices, records, 0);
    int right = plan.number == number && plan.width == 0 && plan.height == (number == LEGRUDDA_DONE) && plan.columns == 0;
    for (size_t i = 0; i < matrices; i++)
        right = right && arrivals[i] == (number == LEGRUDDA_DONE ? (uint32_t)(matrices - 1 - i) : mark);
    return right;
}

int main(void)
{
    int failed = 0;
    for (size_t i = 0; i < COUNT(cases); i++)
        if (!as_expected(&cases[i])) {
            printf("unsorted: case %zu, counted from 0, is answered otherwise\n", i);
            failed = 1;
        }
    for (size_t matrices = LIMIT; matrices <= LIMIT + 1; matrices++)
        if (!many_as_expected(matrices)) {
            printf("unsorted: %zu matrices are answered otherwise\n", matrices);
            failed = 1;
        }
    return failed;
}
