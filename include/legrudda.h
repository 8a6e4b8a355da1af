/* Legrudda: the stacked opening reduction of a STARK backend, proved. This header declares the static library liblegrudda.a
 * (x86-64 Linux) for C11 and C++; examples/honest.c is a whole batch over it.
 *
 * Words and elements. A word is a uint32_t below p = 2013265921. An element is four words, constant coefficient first,
 * modulo X^4 - 11. A slice of elements is a slice of words, four an element.
 *
 * Slices. A slice is a pointer and a count of words (of 64-bit words for the records of a plan). The pointer is aligned for
 * its type and not null, also where the count is 0, and so many words are there.
 *
 * Overlap. A slice that is lent for writing (its pointer has no const) overlaps no other slice of the same call. Slices that
 * are only read may overlap.
 *
 * Lists. A commitment's list has three words a matrix: width, log height and rotation flag (0 or 1). A run, its room and its
 * verdict take the lists of all commitments as one slice, lists, beside counts, the number of matrices of each commitment.
 * Limits: l_skip 0 to 10, n_stack 0 to 20, l_skip + n_stack at most 24; 4,096 matrices and 4,096 columns a commitment; 1 to 16
 * commitments, those after the first with one matrix each. A stack column has H = 2^(l_skip + n_stack) rows.
 *
 * Answers. A call that can be refused answers with a number: 0 for done, else one of the table below, the lowest that holds
 * (but 4 and 5 as planning meets them). The comment at each call says which it can give. A refused call writes nothing that
 * it was lent, but 14, which leaves the observed values complete; its other results are 0, but the sides of 13 and 14 and
 * the turn, which stays where it was.
 *
 * What a call may be given. Anything, as long as the slices are as said here: every call is proved to be defined, to stay
 * within the slices it is lent and to end, whatever their words and counts.
 *
 * Threads. Any thread may call, and several at once: the library holds nothing between calls and allocates nothing. What is
 * lent for writing belongs to the call until it returns.
 *
 * Stack. A call takes less than 96 KiB of the caller's stack.
 *
 * Linking. cc program.c liblegrudda.a; the library needs memcpy and memset and nothing else.
 */
#ifndef LEGRUDDA_H
#define LEGRUDDA_H

#include <stddef.h>
#include <stdint.h>

#ifdef __cplusplus
extern "C" {
#endif

/* The version that this header is of; legrudda_version gives the library's. */
#define LEGRUDDA_VERSION_MAJOR 0
#define LEGRUDDA_VERSION_MINOR 8
#define LEGRUDDA_VERSION_PATCH 0
#define LEGRUDDA_VERSION (LEGRUDDA_VERSION_MAJOR * 65536 + LEGRUDDA_VERSION_MINOR * 256 + LEGRUDDA_VERSION_PATCH)

#define LEGRUDDA_P 2013265921u

/* The numbers that calls answer with. */
enum {
    LEGRUDDA_DONE = 0,
    LEGRUDDA_LIMIT_EXCEEDED = 1,         /* a limit above is exceeded (columns excepted), or a flag is over 1 */
    LEGRUDDA_TOO_MANY_COLUMNS = 2,       /* a commitment has over 4,096 columns */
    LEGRUDDA_HEIGHT_NOT_ONE_BIT = 3,     /* a trace height has not exactly one bit set */
    LEGRUDDA_LAYOUT_HEIGHT_EXCEEDED = 4, /* a column is higher than a stack column */
    LEGRUDDA_LAYOUT_ROW_OVERFLOW = 5,    /* a column does not fit below the last one in its stack column */
    LEGRUDDA_HEIGHTS_RISE = 6,           /* log heights rise (width 0 skipped), though all fits */
    LEGRUDDA_NO_COLUMN = 7,              /* stacking, run, room or verdict with a commitment of no column */
    LEGRUDDA_OUT_OF_TURN = 8,            /* a run's call came out of turn */
    LEGRUDDA_WRONG_LENGTH = 9,           /* a slice has another length than the one asked for */
    LEGRUDDA_NOT_CANONICAL = 10,         /* a word is not below p */
    LEGRUDDA_NO_SUCH_COLUMN = 11,        /* there is no such matrix or column, or the matrix to be viewed has width 0 */
    LEGRUDDA_IN_SKIP_SUBGROUP = 12,      /* no call gives it since 0.5: a u_0 in the skip subgroup is taken too */
    LEGRUDDA_S0_MISMATCH = 13,           /* the claims are not the first polynomial's */
    LEGRUDDA_FINAL_SUM_MISMATCH = 14     /* the openings are not those of the claim that the rounds carried */
};

typedef struct {
    uint32_t words[4];
} LegruddaElement;

typedef struct {
    LegruddaElement eq;
    LegruddaElement rot;
} LegruddaEqRot;

/* The plan of one commitment: stack width, H and the number of columns. */
typedef struct {
    uint32_t number;
    uint32_t width;
    uint32_t height;
    uint32_t columns;
} LegruddaPlan;

/* Where a column lies: its stack column, its starting row there, its log height. */
typedef struct {
    uint32_t number;
    uint32_t col_idx;
    uint32_t row_idx;
    uint32_t log_height;
} LegruddaSlice;

/* Where a matrix's cells lie in the stacked matrix. */
typedef struct {
    uint32_t number;
    size_t start;
    size_t len;
} LegruddaPlace;

/* What a run and its verdict are lent, in words. */
typedef struct {
    uint32_t number;
    size_t r;            /* n_stack + 1 elements */
    size_t q_evals;      /* 2^n_stack elements a stack column */
    size_t eq_r;         /* 2^n_lift elements a distinct log height h, n_lift = max(h - l_skip, 0); so k_rot_r too */
    size_t eq_ub;        /* one element a column */
    size_t matrices;     /* H words a stack column */
    size_t openings;     /* one element a stack column */
    size_t challenges;   /* n_stack + 1 elements */
    size_t claims;       /* two elements a column of a flagged matrix, else one */
    size_t coefficients; /* 2^(l_skip + 1) - 1 elements */
    size_t pairs;        /* two elements a round */
    size_t observed;     /* coefficients, pairs and openings together */
} LegruddaRoom;

/* The turn is the number of the run's accepted calls: 0 before its start. */
typedef struct {
    uint32_t number;
    uint32_t turn;
} LegruddaStepped;

/* A round's quadratic by its values at 1 and 2. */
typedef struct {
    uint32_t number;
    uint32_t turn;
    LegruddaElement at_1;
    LegruddaElement at_2;
} LegruddaPairStepped;

/* The number of the verdict, 0 for a yes, and both sides: of 13 the weighted claims and the first polynomial's sum over the
 * skip subgroup, of 14 and of a yes the carried claim and the final sum. */
typedef struct {
    uint32_t number;
    LegruddaElement left;
    LegruddaElement right;
} LegruddaJudged;

/* The version: major * 65536 + minor * 256 + patch. */
uint32_t legrudda_version(void);

/* Elements. None of these is refused: words are read modulo p, and those of a result are below p. */

LegruddaElement legrudda_add(LegruddaElement a, LegruddaElement b);
LegruddaElement legrudda_sub(LegruddaElement a, LegruddaElement b);
LegruddaElement legrudda_neg(LegruddaElement a);
LegruddaElement legrudda_double(LegruddaElement a);
LegruddaElement legrudda_halve(LegruddaElement a);
LegruddaElement legrudda_mul(LegruddaElement a, LegruddaElement b);
LegruddaElement legrudda_square(LegruddaElement a);

/* The element times a word. */
LegruddaElement legrudda_scale(LegruddaElement a, uint32_t word);

/* The word as an element. */
LegruddaElement legrudda_from_word(uint32_t word);

/* a to the power 2^k, by k squarings. */
LegruddaElement legrudda_exp_power_of_2(LegruddaElement a, uint32_t k);

/* The i-th power of the generator of the skip subgroup, which has order 2^l_skip; an l_skip above 10 is read as 10. */
uint32_t legrudda_skip_power(uint32_t l_skip, uint32_t i);

/* The element at an index of a slice of any length; a word that is not there is 0. */
LegruddaElement legrudda_load(const uint32_t *s, size_t s_len, size_t index);

/* Puts the element at an index of a slice of any length; a word that has no place is dropped. Writes s. */
void legrudda_store(uint32_t *s, size_t s_len, size_t index, LegruddaElement a);

/* Kernels and tables. All but the last two are never refused: x and y are any slices, of which as many whole elements are
 * read as both have, and an l_skip above 10 is read as 10. In the prisms the first element is the coordinate on the skip
 * subgroup, and one that is not there is 0. */

/* The product of x_i y_i + (1 - x_i)(1 - y_i) over the coordinates. */
LegruddaElement legrudda_eval_eq_mle(const uint32_t *x, size_t x_len, const uint32_t *y, size_t y_len);

/* The eq kernel of the skip subgroup: on it 1 where x = y and 0 elsewhere. */
LegruddaElement legrudda_eval_eq_uni(uint32_t l_skip, LegruddaElement x, LegruddaElement y);

/* The same at y = 1. */
LegruddaElement legrudda_eval_eq_uni_at_one(uint32_t l_skip, LegruddaElement x);

/* The indicator of a short column, of log height l_skip + n: 1 at the powers of the skip subgroup that its rows take, and 0 at
 * the others. 1 for n from 0 on; an n below -l_skip is read as -l_skip. */
LegruddaElement legrudda_eval_in_uni(uint32_t l_skip, int32_t n, LegruddaElement z);

/* The eq kernel of the rows, over subgroup and cube together. */
LegruddaElement legrudda_eval_eq_prism(
    uint32_t l_skip, const uint32_t *x, size_t x_len, const uint32_t *y, size_t y_len);

/* The same with the row before at y; before row 0 stands the last one. */
LegruddaElement legrudda_eval_rot_kernel_prism(
    uint32_t l_skip, const uint32_t *x, size_t x_len, const uint32_t *y, size_t y_len);

/* Both kernels over the cube alone. */
LegruddaEqRot legrudda_eval_eq_rot_cube(const uint32_t *x, size_t x_len, const uint32_t *y, size_t y_len);

/* The polynomial with these coefficients, lowest first, at x; whole elements are read. */
LegruddaElement legrudda_horner_eval(const uint32_t *coeffs, size_t coeffs_len, LegruddaElement x);

/* The line with these values at 0 and 1, at x. */
LegruddaElement legrudda_interpolate_linear_at_01(LegruddaElement e0, LegruddaElement e1, LegruddaElement x);

/* The quadratic with these values at 0, 1 and 2, at x. */
LegruddaElement legrudda_interpolate_quadratic_at_012(
    LegruddaElement e0, LegruddaElement e1, LegruddaElement e2, LegruddaElement x);

/* The eq table of a point x of m elements, each entry times the starting element (1, 0, 0, 0 for the plain table): x has
 * 4 m words, out 4 * 2^m, and bit j of an entry's index belongs to coordinate j; it is made from the last coordinate down.
 * Gives 9 and 10 (for x and for start). Writes out. */
uint32_t legrudda_evals_eq_hypercube(
    LegruddaElement start, const uint32_t *x, size_t x_len, uint32_t *out, size_t out_len);

/* The Lagrange kernels of the skip subgroup's powers at u: out has 4 * 2^l_skip words. Gives 1 (l_skip above 10) and 9.
 * Writes out. */
uint32_t legrudda_eq_uni_kernels(uint32_t l_skip, LegruddaElement u, uint32_t *out, size_t out_len);

/* Layout: one commitment's list at a time, three words a matrix. */

/* Plans a list with log heights. records has two 64-bit words a column, side by side, and records_len counts the words. Most
 * significant first, the first word has matrix 16 bits, column 12, stack column 12, starting row 24; the second has the log
 * height in its top 5 bits, and zeros below. Gives 1, 2, 4, 5, 6 and 9. Writes records. */
LegruddaPlan legrudda_plan(
    uint32_t l_skip, uint32_t n_stack, const uint32_t *list, size_t list_len,
    uint64_t *records, size_t records_len);

/* Plans a list whose matrices come in whatever order. They are ordered by falling log height, the wider first among equals,
 * then the earlier arrival; so one of width 0 is the last of its height. The ordered list is planned, where legrudda_plan
 * plans a list in the order in which it stands. arrivals has a word a matrix: for each place of the ordered list the
 * position, from 0, at which its matrix came, so that place k has matrix arrivals[k] of the list. records has two 64-bit
 * words a column, as legrudda_plan writes them for the ordered list: a record's matrix is a place there. Gives 1, 2, 4 and
 * 9, and never 6. Writes arrivals and records. */
LegruddaPlan legrudda_plan_unsorted(
    uint32_t l_skip, uint32_t n_stack, const uint32_t *list, size_t list_len,
    uint32_t *arrivals, size_t arrivals_len, uint64_t *records, size_t records_len);

/* Where a column of a matrix lies, both counted from 0, in a list with log heights. Gives 1, 2, 4, 5, 6, 9 and 11. */
LegruddaSlice legrudda_get(
    uint32_t l_skip, uint32_t n_stack, const uint32_t *list, size_t list_len, size_t mat_idx, size_t col_idx);

/* Stacks traces: a list with heights in place of log heights, and the cells matrix by matrix, column by column, height words
 * a column. q_mat has H words a stack column. Gives 1 to 7, 9 and 10 (for the cells). Writes q_mat. */
LegruddaPlan legrudda_stacked_matrix(
    uint32_t l_skip, uint32_t n_stack, const uint32_t *traces, size_t traces_len,
    const uint32_t *cells, size_t cells_len, uint32_t *q_mat, size_t q_mat_len);

/* Where a matrix lies in the stacked matrix, which has H words a stack column; the list has log heights. Gives 1, 2, 4, 5, 6,
 * 9, 10 (for the stacked matrix) and 11. */
LegruddaPlace legrudda_mat_place(
    uint32_t l_skip, uint32_t n_stack, const uint32_t *list, size_t list_len,
    const uint32_t *stacked, size_t stacked_len, size_t mat_idx);

/* The words of each slice that a run over these lists, the trace columns' openings and the verdict are lent, proved to be those
 * that the calls ask: with them none of these gives 9. Gives 1, 2, 4 to 7 and 9 (counts and lists disagree). */
LegruddaRoom legrudda_room(
    uint32_t l_skip, uint32_t n_stack, const uint32_t *counts, size_t counts_len,
    const uint32_t *lists, size_t lists_len);

/* A run. In turn are legrudda_start; legrudda_first_polynomial; legrudda_fold_ple_evals; for each round 1 to n_stack
 * legrudda_round_pair, then legrudda_fold_mle_evals; then legrudda_openings. Every call takes the turn as the answer before it
 * had it, and is given the same l_skip, n_stack, counts, lists (log heights), r and lambda and, but the first polynomial, the
 * work buffers as the call before left them. The lengths are legrudda_room's: r, q_evals, eq_r, k_rot_r (as eq_r), eq_ub,
 * matrices, coefficients, openings. Every call gives 1, 2, 4 to 7 for the lists, 9 for counts and lists that disagree and for a
 * slice, and 10 for a word of r, of lambda and of what it takes besides; all but the start give 8. */

/* Starts the run, for the first time or again. Writes all four work buffers, whatever stood there. */
LegruddaStepped legrudda_start(
    uint32_t turn, uint32_t l_skip, uint32_t n_stack, const uint32_t *counts, size_t counts_len,
    const uint32_t *lists, size_t lists_len, const uint32_t *r, size_t r_len, LegruddaElement lambda,
    uint32_t *q_evals, size_t q_evals_len, uint32_t *eq_r, size_t eq_r_len,
    uint32_t *k_rot_r, size_t k_rot_r_len, uint32_t *eq_ub, size_t eq_ub_len);

/* The first polynomial: 2^(l_skip + 1) - 1 coefficients, the constant one first. Its sum over the skip subgroup is the weighted
 * sum of the claims that legrudda_column_openings gives, and its value at u_0 is the sum that the rounds go on with, where the
 * fold at u_0 is lent the same matrices. It is sent before u_0 is drawn. Words between the cells of a column shorter than
 * 2^l_skip rows count in it, though not in that sum; legrudda_stacked_matrix leaves zeros there. Takes the stacked matrices,
 * commitment after commitment, and writes out (coefficients). */
LegruddaStepped legrudda_first_polynomial(
    uint32_t turn, uint32_t l_skip, uint32_t n_stack, const uint32_t *counts, size_t counts_len,
    const uint32_t *lists, size_t lists_len, const uint32_t *r, size_t r_len, LegruddaElement lambda,
    const uint32_t *matrices, size_t matrices_len, uint32_t *out, size_t out_len);

/* Folds the stacked matrices, commitment after commitment, at u_0, which is any element: at the i-th power of the skip subgroup
 * the fold leaves word i of each row of 2^l_skip words. Takes matrices, u_0 and eq_r. Writes q_evals, eq_r and k_rot_r. */
LegruddaStepped legrudda_fold_ple_evals(
    uint32_t turn, uint32_t l_skip, uint32_t n_stack, const uint32_t *counts, size_t counts_len,
    const uint32_t *lists, size_t lists_len, const uint32_t *r, size_t r_len, LegruddaElement lambda,
    const uint32_t *matrices, size_t matrices_len, LegruddaElement u_0, uint32_t *q_evals, size_t q_evals_len,
    uint32_t *eq_r, size_t eq_r_len, uint32_t *k_rot_r, size_t k_rot_r_len,
    const uint32_t *eq_ub, size_t eq_ub_len);

/* A round's pair. Takes the live part of the four work buffers, and writes nothing. */
LegruddaPairStepped legrudda_round_pair(
    uint32_t turn, uint32_t l_skip, uint32_t n_stack, const uint32_t *counts, size_t counts_len,
    const uint32_t *lists, size_t lists_len, const uint32_t *r, size_t r_len, LegruddaElement lambda,
    uint32_t round, const uint32_t *q_evals, size_t q_evals_len, const uint32_t *eq_r, size_t eq_r_len,
    const uint32_t *k_rot_r, size_t k_rot_r_len, const uint32_t *eq_ub, size_t eq_ub_len);

/* Folds at a round's challenge, after the round's pair. Takes u and the live part of the four work buffers, and writes
 * them. */
LegruddaStepped legrudda_fold_mle_evals(
    uint32_t turn, uint32_t l_skip, uint32_t n_stack, const uint32_t *counts, size_t counts_len,
    const uint32_t *lists, size_t lists_len, const uint32_t *r, size_t r_len, LegruddaElement lambda,
    uint32_t round, LegruddaElement u, uint32_t *q_evals, size_t q_evals_len, uint32_t *eq_r, size_t eq_r_len,
    uint32_t *k_rot_r, size_t k_rot_r_len, uint32_t *eq_ub, size_t eq_ub_len);

/* The openings, one element a stack column. Takes the live part of q_evals, and writes out. */
LegruddaStepped legrudda_openings(
    uint32_t turn, uint32_t l_skip, uint32_t n_stack, const uint32_t *counts, size_t counts_len,
    const uint32_t *lists, size_t lists_len, const uint32_t *r, size_t r_len, LegruddaElement lambda,
    const uint32_t *q_evals, size_t q_evals_len, const uint32_t *eq_r, size_t eq_r_len,
    const uint32_t *k_rot_r, size_t k_rot_r_len, const uint32_t *eq_ub, size_t eq_ub_len,
    uint32_t *out, size_t out_len);

/* The openings of the trace columns at r, in the order of the verdict's claims: a plain and a rotated one for each column of a
 * flagged matrix, else one. It has no turn and no work buffer, and the answer is its number: 1, 2, 4 to 7, 9 and 10 as the first
 * polynomial gives them. Takes the stacked matrices, and writes out (claims). */
uint32_t legrudda_column_openings(
    uint32_t l_skip, uint32_t n_stack, const uint32_t *counts, size_t counts_len,
    const uint32_t *lists, size_t lists_len, const uint32_t *r, size_t r_len, LegruddaElement lambda,
    const uint32_t *matrices, size_t matrices_len, uint32_t *out, size_t out_len);

/* The verdict on claims, first polynomial, pairs and openings, over lists with log heights. The lengths are legrudda_room's:
 * r (as challenges), challenges (u_0 to u_n_stack), claims (in lambda order: a plain and a rotated one for each column of a
 * flagged matrix, else one), coefficients (2^(l_skip + 1) - 1 of them, lowest first), pairs (for each round the values at 1
 * and 2), openings (one a stack column), observed. Gives 1, 2, 4 to 7, 9, 10 (for all that it reads), 13 and 14. Writes
 * coefficients, pairs and openings, in this order, to observed, on a yes and on 14.
 *
 * What a yes means. A yes says that the weighted claims are the first polynomial's sum over the skip subgroup, and that the
 * rounds lead from its value at u_0 to the final sum of the openings. From that it follows that every claim is the opening of
 * its trace column, but for a few unlucky challenges, if two things hold that the verdict does not check: the openings are
 * the true values of the stacked columns, and lambda and each challenge were drawn after what they bind was fixed. A later
 * challenge (u_1 to u_n_stack) of 1 or 2 is always unlucky: with honest pairs a wrong first value then passes. So a yes of a
 * bring-up with the challenges 1, 2, 3 says no more of the claims than that their weighted sum is the first polynomial's sum. */
LegruddaJudged legrudda_verdict(
    uint32_t l_skip, uint32_t n_stack, const uint32_t *counts, size_t counts_len,
    const uint32_t *lists, size_t lists_len, const uint32_t *r, size_t r_len, LegruddaElement lambda,
    const uint32_t *challenges, size_t challenges_len, const uint32_t *claims, size_t claims_len,
    const uint32_t *coefficients, size_t coefficients_len, const uint32_t *pairs, size_t pairs_len,
    const uint32_t *openings, size_t openings_len, uint32_t *observed, size_t observed_len);

#ifdef __cplusplus
}
#endif

#endif
