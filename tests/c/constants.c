/* The constants of planner.h, each beside what a call answers to it; constants.stdout has both numbers. */
#include "planner.h"

#include <stdio.h>

#define COUNT(list) (sizeof(list) / sizeof((list)[0]))

static uint8_t columns[2 * PLAN_BYTES(PLAN_FACTORS)];
static uint16_t runs[2 * PLAN_RUNS];
static uint8_t witness[PLAN_FACTORS];
static uint8_t book[PLAN_BOOK_HEAD + PLAN_BOOK_ENTRY(PLAN_FACTORS)];

static void print(const char *name, size_t constant, size_t answered)
{
    printf("%s: %lu %lu\n", name, (unsigned long)constant, (unsigned long)answered);
}

static const uint16_t abc[] = {7};
static const uint16_t two_words[] = {7, 25};
static const uint16_t past_word[] = {8};
static const uint16_t repeated_word[] = {7, 7};
static const uint16_t short_word[] = {3};
static const uint8_t other_header[] = {0x02};
static const uint8_t falling_columns[] = {0x01, 2, 0, 3, 1, 0, 0x22, 2, 1, 0x42};

/* A call that is accepted, the examples of the table of refusals, and books that are refused. */
static void print_refusals(void)
{
    print("PLAN_ACCEPTED", PLAN_ACCEPTED, plan_columns_of_words(3, 1, abc, 1, 0, columns, 5));
    print("PLAN_REFUSED_FACTORS", PLAN_REFUSED_FACTORS, plan_columns_of_words(17, 1, abc, 1, 0, columns, 19));
    print("PLAN_REFUSED_GENERATORS", PLAN_REFUSED_GENERATORS, plan_columns_of_words(9, 1, abc, 1, 0, columns, 11));
    print("PLAN_REFUSED_RESOLUTION", PLAN_REFUSED_RESOLUTION, plan_catalogue(5, 1, 2, columns, COUNT(columns)).number);
    print("PLAN_REFUSED_COUNT", PLAN_REFUSED_COUNT, plan_columns_of_words(5, 1, two_words, 2, 0, columns, 7));
    print("PLAN_REFUSED_RANGE", PLAN_REFUSED_RANGE, plan_columns_of_words(3, 1, past_word, 1, 0, columns, 5));
    print("PLAN_REFUSED_DEPENDENT", PLAN_REFUSED_DEPENDENT, plan_columns_of_words(4, 2, repeated_word, 2, 0, columns, 6));
    print("PLAN_REFUSED_SHORT_WORD", PLAN_REFUSED_SHORT_WORD, plan_columns_of_words(3, 1, short_word, 1, 0, columns, 5));
    print("PLAN_REFUSED_PLACES", PLAN_REFUSED_PLACES, plan_columns_of_words(5, 1, abc, 1, 0, columns, 6));
    print("PLAN_REFUSED_ROOM", PLAN_REFUSED_ROOM, plan_catalogue(5, 1, 3, columns, 14).number);
    print("PLAN_REFUSED_CUT_OFF", PLAN_REFUSED_CUT_OFF, plan_read_book(NULL, 0, columns, 2).number);
    print("PLAN_REFUSED_KIND", PLAN_REFUSED_KIND, plan_read_book(other_header, 1, columns, 2).number);
    print("PLAN_REFUSED_UNTRUE", PLAN_REFUSED_UNTRUE, plan_read_book(falling_columns, COUNT(falling_columns), columns, 4).number);
}

/* Far more factors than any size has. */
enum { TOO_MANY = 100 };

/* The most factors and basic factors that a size is not refused for, and the fewest places that hold the runs of the largest plan. */
static void print_most(void)
{
    size_t factors = 0, basic = 0, places = 0;
    while (factors < TOO_MANY && plan_catalogue(factors + 1, factors, 3, columns, 0).number != PLAN_REFUSED_FACTORS) {
        factors++;
    }
    while (basic < TOO_MANY && plan_catalogue(basic + 1, 0, 3, columns, 0).number != PLAN_REFUSED_GENERATORS) {
        basic++;
    }
    while (places < COUNT(runs) && plan_runs_of_words(PLAN_BASIC_FACTORS, 0, NULL, 0, 0, runs, places) == PLAN_REFUSED_PLACES) {
        places++;
    }
    print("PLAN_FACTORS", PLAN_FACTORS, factors);
    print("PLAN_BASIC_FACTORS", PLAN_BASIC_FACTORS, basic);
    print("PLAN_RUNS", PLAN_RUNS, places);
}

static const uint8_t one_three[] = {1, 2, 3, 4, 0, 0};
static const uint8_t one_four[] = {1, 2, 4, 7, 0, 0};
static const uint16_t plain_runs[] = {0, 5, 6, 3};
static const uint16_t switched_runs[] = {1, 4, 7, 2};
static const uint8_t names[] = {0, 1, 2};

/* The kinds of the answers about two plans, and the values beside them. */
static void print_kinds(void)
{
    uint32_t refused = plan_compare_columns(4, 1, one_three, 4, one_four, 6, witness, 4);
    uint32_t different = plan_compare_columns(4, 1, one_three, 6, one_four, 6, witness, 4);
    uint32_t same = plan_compare_runs(3, 1, plain_runs, 4, switched_runs, 4, witness, 3);
    uint32_t mask = PLAN_VALUE(same);
    print("PLAN_REFUSED", PLAN_REFUSED, PLAN_KIND(refused));
    print("PLAN_VALUE of refused", PLAN_REFUSED_COUNT, PLAN_VALUE(refused));
    print("PLAN_DIFFERENT", PLAN_DIFFERENT, PLAN_KIND(different));
    print("PLAN_VALUE of different", 3, PLAN_VALUE(different));
    print("PLAN_SAME", PLAN_SAME, PLAN_KIND(same));
    print("PLAN_YES", PLAN_YES, plan_check_witness(3, 1, plain_runs, 4, switched_runs, 4, witness, 3, (uint16_t)mask));
    print("PLAN_NO", PLAN_NO, plan_check_witness(3, 1, plain_runs, 4, switched_runs, 4, names, 3, 0));
}

/* The fewest places that the first entry of some catalogue of N takes. */
static void print_plan(void)
{
    for (size_t n = 1; n <= PLAN_FACTORS; n++) {
        size_t g = n <= PLAN_BASIC_FACTORS ? 0 : n - PLAN_BASIC_FACTORS, places = 0;
        while (places < COUNT(columns) && plan_catalogue(n, g, 3, columns, places).count == 0) {
            places++;
        }
        char name[32];
        snprintf(name, sizeof name, "PLAN_BYTES(%lu)", (unsigned long)n);
        print(name, PLAN_BYTES(n), places);
    }
}

/* The bytes of a book without plans, and of one plan more, in a list just long enough: that of the first entry of some catalogue of N. */
static void print_book(void)
{
    print("PLAN_BOOK_HEAD", PLAN_BOOK_HEAD, plan_write_book(3, 1, 3, NULL, 0, book, PLAN_BOOK_HEAD).count);
    for (size_t n = 1; n <= PLAN_FACTORS; n++) {
        size_t g = n <= PLAN_BASIC_FACTORS ? 0 : n - PLAN_BASIC_FACTORS;
        plan_catalogue(n, g, 3, columns, PLAN_BYTES(n));
        size_t bytes = plan_write_book(n, g, 3, columns, PLAN_BYTES(n), book, PLAN_BOOK_HEAD + PLAN_BOOK_ENTRY(n)).count;
        char name[32];
        snprintf(name, sizeof name, "PLAN_BOOK_ENTRY(%lu)", (unsigned long)n);
        print(name, PLAN_BOOK_ENTRY(n), bytes - PLAN_BOOK_HEAD);
    }
}

int main(void)
{
    print_refusals();
    print_most();
    print_kinds();
    print_plan();
    print_book();
    return 0;
}
