/* A bring-up with the challenges 1, 2, 3, and what its yes is worth. 1 lies in the skip subgroup, and the fold there leaves word 0
 * of each row. A false claim gets its yes too, because u_1 is 2; at 1, 3, 4 it is refused as 14. Shape and words are those of
 * examples/bring_up.in; what it must print is examples/bring_up_c.out.
 *
 *     (cd crates/legrudda && rt lib --cpu x86-64)
 *     cc -std=c11 -Iinclude examples/bring_up.c crates/legrudda/out/liblegrudda.a -o bring_up && ./bring_up
 */
#include <inttypes.h>
#include <stdio.h>
#include <stdlib.h>

#include "legrudda.h"

#define L_SKIP 1
#define N_STACK 2
#define COUNT(a) (sizeof(a) / sizeof((a)[0]))

/* Elements of one word each. */
#define E(word) word, 0, 0, 0

/* A column of 4 rows and two flagged columns of 1 row, in one stack column of 8 rows. */
static const uint32_t counts[] = {2};
static const uint32_t lists[] = {1, 2, 0, 2, 0, 1};
static const uint32_t matrix[] = {5, 6, 7, 8, 9, 0, 3, 0};
static const uint32_t r[] = {E(7), E(8), E(9)};
static const LegruddaElement lambda = {{E(5)}};

/* The first claim raised by 2 and the first polynomial by 1, which keeps its sum over 1 and -1 that of the claims. */
static const uint32_t false_claims[] = {E(20), E(9), E(9), E(3), E(3)};
static const uint32_t false_coefficients[] = {E(503319642), E(6375), E(1509952589)};

/* The lengths are legrudda_room's for these lists. The claims are those of the three columns, plain and rotated where a column is
 * flagged. */
static uint32_t q_evals[16], eq_r[12], k_rot_r[12], eq_ub[12], coefficients[12], pairs[16], openings[4], claims[20], observed[32];

static void expect_done(const char *call, uint32_t number)
{
    if (number != LEGRUDDA_DONE) {
        printf("%s: refused %" PRIu32 "\n", call, number);
        exit(1);
    }
}

static uint32_t done(const char *call, LegruddaStepped answer)
{
    expect_done(call, answer.number);
    return answer.turn;
}

#define GIVEN L_SKIP, N_STACK, counts, COUNT(counts), lists, COUNT(lists), r, COUNT(r), lambda
#define WORK q_evals, COUNT(q_evals), eq_r, COUNT(eq_r), k_rot_r, COUNT(k_rot_r), eq_ub, COUNT(eq_ub)

/* First polynomial, pairs, openings and claims, at these challenges, u_0 to u_2. */
static void prove(const uint32_t *u, size_t u_len)
{
    uint32_t turn = done("start", legrudda_start(0, GIVEN, WORK));
    turn = done("first_polynomial",
                legrudda_first_polynomial(turn, GIVEN, matrix, COUNT(matrix), coefficients, COUNT(coefficients)));
    turn = done("fold_ple_evals", legrudda_fold_ple_evals(turn, GIVEN, matrix, COUNT(matrix), legrudda_load(u, u_len, 0), WORK));
    printf("folded at %" PRIu32 ": %" PRIu32 " %" PRIu32 " %" PRIu32 " %" PRIu32 "\n", u[0], q_evals[0], q_evals[4], q_evals[8],
           q_evals[12]);
    for (uint32_t round = 1; round <= N_STACK; round++) {
        LegruddaPairStepped pair = legrudda_round_pair(turn, GIVEN, round, WORK);
        expect_done("round_pair", pair.number);
        legrudda_store(pairs, COUNT(pairs), 2 * round - 2, pair.at_1);
        legrudda_store(pairs, COUNT(pairs), 2 * round - 1, pair.at_2);
        turn = done("fold_mle_evals", legrudda_fold_mle_evals(pair.turn, GIVEN, round, legrudda_load(u, u_len, round), WORK));
    }
    done("openings", legrudda_openings(turn, GIVEN, WORK, openings, COUNT(openings)));
    expect_done("column_openings", legrudda_column_openings(GIVEN, matrix, COUNT(matrix), claims, COUNT(claims)));
}

static uint32_t judge(const char *what, const uint32_t *u, size_t u_len, const uint32_t *claimed, const uint32_t *first)
{
    LegruddaJudged judged = legrudda_verdict(
        GIVEN, u, u_len, claimed, COUNT(claims), first, COUNT(coefficients), pairs, COUNT(pairs), openings, COUNT(openings),
        observed, COUNT(observed));
    printf("%s at %" PRIu32 ", %" PRIu32 ", %" PRIu32 ": ", what, u[0], u[4], u[8]);
    if (judged.number == LEGRUDDA_DONE)
        puts("yes");
    else
        printf("refused %" PRIu32 "\n", judged.number);
    return judged.number;
}

int main(void)
{
    static const uint32_t bring_up[] = {E(1), E(2), E(3)};
    static const uint32_t other[] = {E(1), E(3), E(4)};

    prove(bring_up, COUNT(bring_up));
    uint32_t honest = judge("true claims", bring_up, COUNT(bring_up), claims, coefficients);
    uint32_t worthless = judge("a false claim", bring_up, COUNT(bring_up), false_claims, false_coefficients);
    prove(other, COUNT(other));
    uint32_t caught = judge("a false claim", other, COUNT(other), false_claims, false_coefficients);
    return honest == LEGRUDDA_DONE && worthless == LEGRUDDA_DONE && caught == LEGRUDDA_FINAL_SUM_MISMATCH ? 0 : 1;
}
