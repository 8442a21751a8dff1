/* The comparison of two plans and the check of a witness, called from C. Prints one line for each; comparison.stdout has what must be
 * printed. */
#include "planner.h"

#include <stdio.h>

#define COUNT(list) (sizeof(list) / sizeof((list)[0]))

/* A value that no name has, so that an untouched place is seen. */
enum { UNTOUCHED = 99 };

/* Places of the lent list. */
enum { PLACES = 18 };

static uint8_t witness[PLACES];

static void clear(void)
{
    for (size_t i = 0; i < PLACES; i++) {
        witness[i] = UNTOUCHED;
    }
}

/* How many places of the lent list, from the first, the call changed; the others must be untouched. */
static size_t changed(void)
{
    size_t count = 0;
    for (size_t i = 0; i < PLACES; i++) {
        if (witness[i] != UNTOUCHED) {
            count = i + 1;
        }
    }
    return count;
}

/* The answer, and the number of names in the lent list. */
static void print_answer(const char *call, uint32_t answer)
{
    const char *kind = answer >= PLAN_DIFFERENT ? "different" : answer >= PLAN_SAME ? "same" : "refused";
    printf("%s: %s %u, %u names\n", call, kind, (unsigned)(answer & 0xffff), (unsigned)changed());
    clear();
}

static void print_verdict(const char *call, uint32_t answer)
{
    printf("%s: %s\n", call, answer == PLAN_YES ? "yes" : answer == PLAN_NO ? "no" : "refused");
}

/* Plans in bytes: their columns and the two bytes of a mask. */
static const uint8_t p[] = {1, 2, 4, 7, 8, 11, 16, 32, 61, 0, 0};
static const uint8_t q[] = {1, 2, 4, 7, 8, 16, 25, 32, 42, 0, 0};
static const uint8_t p_backwards[] = {61, 32, 16, 11, 8, 7, 4, 2, 1, 0, 0};
static const uint8_t p_minus[] = {1, 2, 4, 7, 8, 11, 16, 32, 61, 0x28, 0x01};
static const uint8_t p_barred[] = {1, 2, 4, 7, 8, 11, 16, 32, 61, 0x01, 0x00};
static const uint8_t one_three[] = {1, 2, 3, 4, 0, 0};
static const uint8_t one_four[] = {1, 2, 4, 7, 0, 0};

/* The two plans' runs. */
static uint16_t first_runs[64], second_runs[64];

static void print_columns(void)
{
    print_answer("P and Q", plan_compare_columns(9, 3, p, 11, q, 11, witness, PLACES));
    print_answer("P and P backwards", plan_compare_columns(9, 3, p, 11, p_backwards, 11, witness, PLACES));
    print_answer("a word of 3 and a word of 4", plan_compare_columns(4, 1, one_three, 6, one_four, 6, witness, PLACES));
    print_answer("P and Q, witness of 8", plan_compare_columns(9, 3, p, 11, q, 11, witness, 8));
    print_answer("P and nine columns without a mask", plan_compare_columns(9, 3, p, 11, q, 9, witness, PLACES));
    print_answer("P with A switched, and Q", plan_compare_columns(9, 3, p_barred, 11, q, 11, witness, PLACES));
    print_answer("P with minus signs, and Q", plan_compare_columns(9, 3, p_minus, 11, q, 11, witness, PLACES));
    print_answer("N 17", plan_compare_columns(17, 3, p, 11, q, 11, witness, PLACES));
}

/* P with D, F and J switched, which makes ABCD, ABEF and ACEGHJ minus, is the same as P, and the witness switches what it must. */
static void print_switched(void)
{
    uint32_t answer = plan_compare_columns(9, 3, p_minus, 11, p, 11, witness, PLACES);
    printf("P with minus signs, and P: %s\n", PLAN_KIND(answer) == PLAN_SAME && PLAN_VALUE(answer) != 0 ? "same, with switches" : "not so");
    plan_runs_of_columns(9, 3, p_minus, 11, first_runs, COUNT(first_runs));
    plan_runs_of_columns(9, 3, p, 11, second_runs, COUNT(second_runs));
    print_verdict("its witness", plan_check_witness(9, 3, first_runs, 64, second_runs, 64, witness, 9, (uint16_t)PLAN_VALUE(answer)));
    clear();
}

/* The runs of columns 1 2 3, and the same with A switched, in another order. */
static const uint16_t plain_runs[] = {0, 5, 6, 3};
static const uint16_t switched_runs[] = {2, 1, 7, 4};
static const uint8_t same_names[] = {0, 1, 2};
static const uint8_t name_twice[] = {0, 1, 1};

static void print_runs(void)
{
    uint32_t answer = plan_compare_runs(3, 1, plain_runs, 4, switched_runs, 4, witness, PLACES);
    printf("runs 0 5 6 3 and 2 1 7 4: %s\n", answer >= PLAN_SAME && answer < PLAN_DIFFERENT ? "same" : "different or refused");
    uint16_t mask = (uint16_t)(answer - PLAN_SAME);
    print_verdict("its witness", plan_check_witness(3, 1, plain_runs, 4, switched_runs, 4, witness, 3, mask));
    clear();
    print_verdict("A switched", plan_check_witness(3, 1, plain_runs, 4, switched_runs, 4, same_names, 3, 1));
    print_verdict("nothing switched", plan_check_witness(3, 1, plain_runs, 4, switched_runs, 4, same_names, 3, 0));
    print_verdict("a name twice", plan_check_witness(3, 1, plain_runs, 4, switched_runs, 4, name_twice, COUNT(name_twice), 1));
    print_verdict("two names", plan_check_witness(3, 1, plain_runs, 4, switched_runs, 4, same_names, 2, 1));
    print_verdict("a switch past C", plan_check_witness(3, 1, plain_runs, 4, switched_runs, 4, same_names, 3, 9));
    print_verdict("three runs", plan_check_witness(3, 1, plain_runs, 3, switched_runs, 4, same_names, 3, 1));
}

int main(void)
{
    clear();
    print_columns();
    print_switched();
    print_runs();
    return 0;
}
