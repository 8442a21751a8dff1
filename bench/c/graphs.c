/* The graph of document 002, algorithm III.1, labelled by nauty: one vertex for each factor and one for each set of factors, in two colours; a
 * set is joined to its factors. The label is the factors' rows of the canonical graph, which hold every edge. */
#include "graphs.h"

#include <nauty/nauty.h>
#include <string.h>

enum { VERTICES = MOST_FACTORS + MOST_SETS, WORDS = SETWORDSNEEDED(VERTICES) };

static graph plan[VERTICES * WORDS];
static graph labelled[VERTICES * WORDS];
static int lab[VERTICES];
static int ptn[VERTICES];
static int orbits[VERTICES];

static size_t factor_count;
static struct plan_graph *result;

/* Keeps a renaming that nauty finds. Any past the sixteenth are left out: fewer candidates are then seen to be alike, and the plans are the same. */
static void keep(int number, int *perm, int *orbit, int orbit_count, int vertex, int n)
{
    (void)orbit, (void)orbit_count, (void)vertex, (void)n;
    if (number > MOST_FACTORS) {
        return;
    }
    for (size_t f = 0; f < factor_count; f++) {
        result->renamings[number - 1][f] = (uint8_t)perm[f];
    }
    result->renaming_count = (size_t)number;
}

static void build(int factors, const uint16_t *sets, int count, int m)
{
    EMPTYGRAPH(plan, m, factors + count);
    for (int i = 0; i < count; i++) {
        for (int f = 0; f < factors; f++) {
            if (sets[i] >> f & 1) {
                ADDONEEDGE(plan, f, factors + i, m);
            }
        }
    }
    for (int v = 0; v < factors + count; v++) {
        lab[v] = v;
        ptn[v] = v != factors - 1 && v != factors + count - 1;
    }
}

void plan_graph(size_t factors, const uint16_t *sets, size_t count, struct plan_graph *found)
{
    static DEFAULTOPTIONS_GRAPH(options);
    statsblk stats;
    int n = (int)(factors + count);
    int m = SETWORDSNEEDED(n);
    nauty_check(WORDSIZE, m, n, NAUTYVERSIONID);
    options.getcanon = TRUE;
    options.defaultptn = FALSE;
    options.userautomproc = keep;
    factor_count = factors;
    result = found;
    found->renaming_count = 0;
    build((int)factors, sets, (int)count, m);
    densenauty(plan, lab, ptn, orbits, &options, &stats, m, n, labelled);
    found->numbers = factors * (size_t)m;
    memcpy(found->label, labelled, found->numbers * sizeof labelled[0]);
}
