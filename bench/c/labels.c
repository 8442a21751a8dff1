/* Canonical labels by nauty: the graph of document 002, algorithm III.1. One vertex for each factor and one for each set of factors, in two
 * colours; a set is joined to its factors. */
#include "labels.h"

#include <nauty/nauty.h>

enum { VERTICES = MOST_FACTORS + MOST_SETS, WORDS = SETWORDSNEEDED(VERTICES) };

static graph plan[VERTICES * WORDS];
static graph labelled[VERTICES * WORDS];
static int lab[VERTICES];
static int ptn[VERTICES];
static int orbits[VERTICES];

static void build(int factors, const uint16_t *sets, int count, int m)
{
    EMPTYGRAPH(plan, m, factors + count);
    for (int i = 0; i < count; i++) {
        for (int f = 0; f < factors; f++) {
            if (sets[i] >> f & 1) {
                ADDONEEDGE(plan, f, factors + i, m);
            }
        }
    }
    for (int v = 0; v < factors + count; v++) {
        lab[v] = v;
        ptn[v] = v != factors - 1 && v != factors + count - 1;
    }
}

size_t plan_label(size_t factors, const uint16_t *sets, size_t count, uint64_t *label)
{
    static DEFAULTOPTIONS_GRAPH(options);
    statsblk stats;
    int n = (int)(factors + count);
    int m = SETWORDSNEEDED(n);
    nauty_check(WORDSIZE, m, n, NAUTYVERSIONID);
    options.getcanon = TRUE;
    options.defaultptn = FALSE;
    build((int)factors, sets, (int)count, m);
    densenauty(plan, lab, ptn, orbits, &options, &stats, m, n, labelled);
    for (int i = 0; i < m * n; i++) {
        label[i] = labelled[i];
    }
    return (size_t)(m * n);
}
