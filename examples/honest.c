/* An honest batch from its traces to the verdict's yes, and the same with one claim damaged, which is refused as 13. Shape and
 * words are those of examples/honest.in and wrong_claim.in; the first polynomial, the pairs, the openings, the claims and the
 * sides of 13 that it must print (examples/honest_c.out) are the original Rust's.
 *
 *     (cd crates/legrudda && rt lib --cpu x86-64)
 *     cc -std=c11 -Iinclude examples/honest.c crates/legrudda/out/liblegrudda.a -o honest && ./honest
 */
#include <inttypes.h>
#include <stdio.h>
#include <stdlib.h>

#include "legrudda.h"

#define L_SKIP 1
#define N_STACK 2
#define COUNT(a) (sizeof(a) / sizeof((a)[0]))

/* One commitment of three matrices: one flagged column of 8 rows, one of 4, two unflagged columns of 2. A list has log
 * heights, the traces have heights. */
static const uint32_t counts[] = {3};
static const uint32_t lists[] = {1, 3, 1, 1, 2, 1, 2, 1, 0};
static const uint32_t traces[] = {1, 8, 1, 1, 4, 1, 2, 2, 0};
static const uint32_t cells[] = {
    752997594, 140342231, 326251467, 1263439314, 1825776694, 294767252, 1165828194, 163501850,
    1671128892, 1051276224, 1702701415, 440991720,
    712998059, 1469870825, 1296255312, 1505821783,
};

/* The point of the claims, and what a transcript would draw: lambda, then u_0, u_1 and u_2. */
static const uint32_t r[] = {
    606400595, 40538395, 372499770, 1942426056, 844286042, 418869825, 943135850, 1846141632,
    1328281185, 1962444821, 695599976, 172921069,
};
static const LegruddaElement lambda = {{523172287, 246610995, 435393718, 505045938}};
static const uint32_t challenges[] = {
    1091171252, 653354775, 333024429, 871551259, 970965584, 1556813696, 1496237590, 1857423286,
    354879905, 534429062, 154743232, 68731081,
};

/* A wrong claim in place of the first. */
static const LegruddaElement wrong_claim = {{1242596686, 1563222742, 796350962, 569862504}};

/* A run: what is lent to every call of it, and its turn. */
typedef struct {
    LegruddaRoom room;
    uint32_t turn;
    uint32_t *q_evals, *eq_r, *k_rot_r, *eq_ub;
} Run;

/* What is sent to the verifier. */
typedef struct {
    uint32_t *coefficients, *pairs, *openings, *claims;
} Sent;

/* What every call is given, and the work buffers of a run. */
#define GIVEN L_SKIP, N_STACK, counts, COUNT(counts), lists, COUNT(lists), r, COUNT(r), lambda
#define WORK(run) \
    (run)->q_evals, (run)->room.q_evals, (run)->eq_r, (run)->room.eq_r, (run)->k_rot_r, (run)->room.eq_r, \
        (run)->eq_ub, (run)->room.eq_ub

/* Ends the program where a call is refused that should not be. */
static void expect_done(const char *call, uint32_t number)
{
    if (number != LEGRUDDA_DONE) {
        printf("%s: refused %" PRIu32 "\n", call, number);
        exit(1);
    }
}

static void step(Run *run, const char *call, LegruddaStepped answer)
{
    expect_done(call, answer.number);
    run->turn = answer.turn;
}

static uint32_t *words(size_t count)
{
    uint32_t *lent = calloc(count, sizeof *lent);
    if (lent == NULL) {
        puts("no memory");
        exit(1);
    }
    return lent;
}

static void print_words(const char *label, const uint32_t *w, size_t count)
{
    printf("%s", label);
    for (size_t i = 0; i < count; i++)
        printf(" %" PRIu32, w[i]);
    putchar('\n');
}

/* The stacked matrix of the one commitment. */
static uint32_t *stacked_matrix(const LegruddaRoom *room)
{
    uint64_t records[2 * 4];
    LegruddaPlan plan = legrudda_plan(L_SKIP, N_STACK, lists, COUNT(lists), records, COUNT(records));
    expect_done("plan", plan.number);
    printf("plan: %" PRIu32 " columns in %" PRIu32 " stack columns of %" PRIu32 " rows\n", plan.columns, plan.width, plan.height);

    uint32_t *matrix = words(room->matrices);
    plan = legrudda_stacked_matrix(L_SKIP, N_STACK, traces, COUNT(traces), cells, COUNT(cells), matrix, room->matrices);
    expect_done("stacked_matrix", plan.number);
    return matrix;
}

/* The prover's side: the first polynomial, pairs and openings, and the claims, which are the trace columns' openings at r. */
static void prove(Run *run, const uint32_t *matrix, Sent *sent)
{
    const LegruddaRoom *room = &run->room;
    const size_t all = COUNT(challenges);
    step(run, "start", legrudda_start(run->turn, GIVEN, WORK(run)));
    step(run, "first_polynomial",
         legrudda_first_polynomial(run->turn, GIVEN, matrix, room->matrices, sent->coefficients, room->coefficients));
    print_words("first polynomial:", sent->coefficients, room->coefficients);
    step(run, "fold_ple_evals",
         legrudda_fold_ple_evals(run->turn, GIVEN, matrix, room->matrices, legrudda_load(challenges, all, 0), WORK(run)));
    for (uint32_t round = 1; round <= N_STACK; round++) {
        LegruddaPairStepped pair = legrudda_round_pair(run->turn, GIVEN, round, WORK(run));
        expect_done("round_pair", pair.number);
        run->turn = pair.turn;
        legrudda_store(sent->pairs, room->pairs, 2 * round - 2, pair.at_1);
        legrudda_store(sent->pairs, room->pairs, 2 * round - 1, pair.at_2);
        print_words("pair:", sent->pairs + 8 * (round - 1), 8);
        step(run, "fold_mle_evals",
             legrudda_fold_mle_evals(run->turn, GIVEN, round, legrudda_load(challenges, all, round), WORK(run)));
    }
    step(run, "openings", legrudda_openings(run->turn, GIVEN, WORK(run), sent->openings, room->openings));
    print_words("openings:", sent->openings, room->openings);
    expect_done("column_openings", legrudda_column_openings(GIVEN, matrix, room->matrices, sent->claims, room->claims));
    print_words("claims:", sent->claims, room->claims);
}

/* The verifier's side. */
static uint32_t judge(const LegruddaRoom *room, const Sent *sent)
{
    uint32_t *observed = words(room->observed);
    LegruddaJudged judged = legrudda_verdict(
        GIVEN, challenges, COUNT(challenges), sent->claims, room->claims, sent->coefficients, room->coefficients,
        sent->pairs, room->pairs, sent->openings, room->openings, observed, room->observed);
    free(observed);
    if (judged.number == LEGRUDDA_DONE) {
        puts("verdict: yes");
    } else {
        printf("verdict: refused %" PRIu32 "\n", judged.number);
        print_words("  weighted claims:", judged.left.words, 4);
        print_words("  the first polynomial's sum:", judged.right.words, 4);
    }
    return judged.number;
}

int main(void)
{
    if (legrudda_version() != LEGRUDDA_VERSION) {
        puts("the header is of another version than the library");
        return 1;
    }

    Run run = {.room = legrudda_room(L_SKIP, N_STACK, counts, COUNT(counts), lists, COUNT(lists))};
    expect_done("room", run.room.number);
    printf("room: q_evals %zu, eq_r and k_rot_r %zu, eq_ub %zu, openings %zu, observed %zu words\n", run.room.q_evals,
           run.room.eq_r, run.room.eq_ub, run.room.openings, run.room.observed);
    run.q_evals = words(run.room.q_evals);
    run.eq_r = words(run.room.eq_r);
    run.k_rot_r = words(run.room.eq_r);
    run.eq_ub = words(run.room.eq_ub);
    Sent sent = {
        words(run.room.coefficients), words(run.room.pairs), words(run.room.openings), words(run.room.claims)};

    uint32_t *matrix = stacked_matrix(&run.room);
    prove(&run, matrix, &sent);
    uint32_t honest = judge(&run.room, &sent);

    /* The first claim changed. */
    legrudda_store(sent.claims, run.room.claims, 0, wrong_claim);
    uint32_t wrong = judge(&run.room, &sent);

    free(matrix);
    free(sent.claims);
    free(sent.openings);
    free(sent.pairs);
    free(sent.coefficients);
    free(run.eq_ub);
    free(run.k_rot_r);
    free(run.eq_r);
    free(run.q_evals);
    return honest == LEGRUDDA_DONE && wrong == LEGRUDDA_S0_MISMATCH ? 0 : 1;
}
