/* Loads of plans from C: some seeds, refusals, loads in a row, and a load beside its smallest form. Prints one line for each; loads.stdout has
 * what must be printed. */
#include "planner.h"

#include <stdio.h>
#include <string.h>

/* A value that no column has, so that an untouched place is seen. */
enum { UNTOUCHED = 199 };

static uint8_t plan[PLAN_BYTES(PLAN_FACTORS) + 1];

/* The answer, and the places of the lent list that the call changed. Returns the state. */
static uint32_t print_load(const char *name, size_t n, size_t g, uint32_t seed, size_t places)
{
    memset(plan, UNTOUCHED, sizeof plan);
    struct plan_state found = plan_load(n, g, seed, plan, places);
    printf("%s: %u, state %lu:", name, found.number, (unsigned long)found.state);
    for (size_t i = 0; i < sizeof plan; i++) {
        if (plan[i] != UNTOUCHED) {
            printf(" %u", plan[i]);
        }
    }
    printf("\n");
    return found.state;
}

static void print_seeds(void)
{
    print_load("seed 0, N 5 G 1", 5, 1, 0, sizeof plan);
    print_load("seed 1, N 7 G 3", 7, 3, 1, sizeof plan);
    print_load("seed 7, N 15 G 11", 15, 11, 7, sizeof plan);
    print_load("seed 0, N 1 G 0", 1, 0, 0, PLAN_BYTES(1));
    print_load("the largest seed, N 16 G 9", 16, 9, UINT32_MAX, PLAN_BYTES(16));
}

static void print_refusals(void)
{
    print_load("N 17", 17, 11, 4, sizeof plan);
    print_load("no factors", 0, 0, 4, sizeof plan);
    print_load("G 5 of 5", 5, 5, 4, sizeof plan);
    print_load("M 8", 9, 1, 4, sizeof plan);
    print_load("eight factors in eight runs", 8, 5, 4, sizeof plan);
    print_load("the same, no places", 8, 5, 4, 0);
    print_load("a place too few", 5, 1, 4, PLAN_BYTES(5) - 1);
}

/* Each goes on from the state of the one before. */
static void print_row(void)
{
    uint32_t state = 0;
    for (int i = 0; i < 3; i++) {
        state = print_load("in a row", 6, 2, state, sizeof plan);
    }
}

/* Whether a load is the same as the plan of its smallest form. */
static void print_form(void)
{
    uint8_t smallest[PLAN_BYTES(PLAN_FACTORS)], witness[PLAN_FACTORS];
    print_load("a load", 9, 3, 12, sizeof plan);
    plan_smallest_of_columns(9, 3, plan, PLAN_BYTES(9), NULL, 0, smallest, sizeof smallest, witness, sizeof witness);
    printf("its smallest form:");
    for (size_t f = 0; f < PLAN_BYTES(9); f++) {
        printf(" %u", smallest[f]);
    }
    uint32_t answer = plan_compare_columns(9, 3, plan, PLAN_BYTES(9), smallest, PLAN_BYTES(9), witness, sizeof witness);
    printf("%s\n", answer == PLAN_SAME ? ", the same plan" : ", another plan");
}

int main(void)
{
    print_seeds();
    print_refusals();
    print_row();
    print_form();
    return 0;
}
