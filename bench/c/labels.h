/* Canonical labels of sets of factors. */
#ifndef LABELS_H
#define LABELS_H

#include <stddef.h>
#include <stdint.h>

enum { MOST_FACTORS = 16, MOST_SETS = 127 };

/* Writes the canonical label of the sets of factors, and answers how many numbers it takes, at most 3 for each factor and each set. Two lists
 * of as many sets of as many factors have one label exactly if renaming the factors turns one into the other. */
size_t plan_label(size_t factors, const uint16_t *sets, size_t count, uint64_t *label);

#endif
