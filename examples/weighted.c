/* An eq table with a starting weight: the table of the point (2, 3), plain and times 5. The entries add up to the weight. What
 * it must print is examples/weighted_c.out.
 *
 *     (cd crates/legrudda && rt lib --cpu x86-64)
 *     cc -std=c11 -Iinclude examples/weighted.c crates/legrudda/out/liblegrudda.a -o weighted && ./weighted
 */
#include <inttypes.h>
#include <stdio.h>

#include "legrudda.h"

#define COUNT(a) (sizeof(a) / sizeof((a)[0]))

static const uint32_t point[] = {2, 0, 0, 0, 3, 0, 0, 0};

static void show(const char *what, LegruddaElement e)
{
    printf("%s %" PRIu32 " %" PRIu32 " %" PRIu32 " %" PRIu32 "\n", what, e.words[0], e.words[1], e.words[2], e.words[3]);
}

static int write_table(LegruddaElement start)
{
    uint32_t table[16];
    uint32_t number = legrudda_evals_eq_hypercube(start, point, COUNT(point), table, COUNT(table));

    show("start", start);
    if (number != LEGRUDDA_DONE) {
        printf("refused %" PRIu32 "\n", number);
        return 0;
    }
    LegruddaElement sum = legrudda_from_word(0);
    for (size_t i = 0; i < COUNT(table) / 4; i++) {
        LegruddaElement entry = legrudda_load(table, COUNT(table), i);
        show("  entry", entry);
        sum = legrudda_add(sum, entry);
    }
    show("  sum  ", sum);
    return 1;
}

int main(void)
{
    LegruddaElement not_canonical = {{LEGRUDDA_P, 0, 0, 0}};

    if (!write_table(legrudda_from_word(1)) || !write_table(legrudda_from_word(5)))
        return 1;
    return write_table(not_canonical);
}
