/* Canonical labels and automorphisms of sets of factors. */
#ifndef GRAPHS_H
#define GRAPHS_H

#include <stddef.h>
#include <stdint.h>

enum { MOST_FACTORS = 16, MOST_SETS = 127 };

struct plan_graph {
    uint64_t label[MOST_FACTORS * 3];
    size_t numbers;
    uint8_t renamings[MOST_FACTORS][MOST_FACTORS];
    size_t renaming_count;
};

/* The canonical label of the sets of factors, and renamings that generate all those that turn them into themselves. Two lists of as many sets
 * of as many factors have one label exactly if renaming the factors turns one into the other. */
void plan_graph(size_t factors, const uint16_t *sets, size_t count, struct plan_graph *found);

#endif
