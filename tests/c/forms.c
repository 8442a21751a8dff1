/* Document 01's examples, called from C. Prints one line for each; forms.stdout has what must be printed. */
#include "planner.h"

#include <stdio.h>

#define COUNT(list) (sizeof(list) / sizeof((list)[0]))

/* A value that no result has, so that an untouched place is seen. */
enum { UNTOUCHED = 99 };

/* Places of every lent list. */
enum { PLACES = 18 };

static uint8_t bytes[PLACES];
static uint16_t shorts[PLACES];

static void clear(void)
{
    for (size_t i = 0; i < PLACES; i++) {
        bytes[i] = UNTOUCHED;
        shorts[i] = UNTOUCHED;
    }
}

/* The answer, and the places of the lent list that the call changed. */
static void print_bytes(const char *call, uint8_t answer)
{
    printf("%s: %u:", call, answer);
    for (size_t i = 0; i < PLACES; i++) {
        if (bytes[i] != UNTOUCHED) {
            printf(" %u", bytes[i]);
        }
    }
    printf("\n");
    clear();
}

static void print_shorts(const char *call, uint8_t answer)
{
    printf("%s: %u:", call, answer);
    for (size_t i = 0; i < PLACES; i++) {
        if (shorts[i] != UNTOUCHED) {
            printf(" %u", shorts[i]);
        }
    }
    printf("\n");
    clear();
}

/* The same for words, with their signs. */
static void print_words(const char *call, struct plan_signs answer)
{
    printf("signs %u, ", answer.signs);
    print_shorts(call, answer.number);
}

static const uint8_t small_plan[] = {1, 2, 3, 0, 0};
static const uint8_t minus_plan[] = {1, 2, 3, 4, 0};
static const uint8_t barred_plan[] = {1, 2, 3, 1, 0};
static const uint8_t one_factor[] = {1, 0, 0};
static const uint16_t small_runs[] = {0, 5, 6, 3};
static const uint16_t minus_runs[] = {7, 1, 2, 4};
static const uint16_t small_words[] = {7};
static const uint16_t full_runs[] = {2, 0, 3, 1};

static void print_small(void)
{
    print_shorts("runs of columns 1 2 3", plan_runs_of_columns(3, 1, small_plan, 5, shorts, PLACES));
    print_shorts("distances of columns 1 2 3", plan_distances_of_columns(3, 1, small_plan, 5, shorts, PLACES));
    print_shorts("pattern of columns 1 2 3", plan_pattern_of_columns(3, 1, small_plan, 5, shorts, PLACES));
    print_bytes("columns of runs 0 5 6 3", plan_columns_of_runs(3, 1, small_runs, 4, bytes, PLACES));
    print_shorts("distances of runs 0 5 6 3", plan_distances_of_runs(3, 1, small_runs, 4, shorts, PLACES));
    print_shorts("pattern of runs 0 5 6 3", plan_pattern_of_runs(3, 1, small_runs, 4, shorts, PLACES));
    print_bytes("resolution of runs 0 5 6 3", plan_resolution_of_runs(3, 1, small_runs, 4, bytes, PLACES));
    print_shorts("runs of word ABC", plan_runs_of_words(3, 1, small_words, 1, 0, shorts, PLACES));
    print_shorts("distances of word ABC", plan_distances_of_words(3, 1, small_words, 1, 0, shorts, PLACES));
    print_bytes("columns of no words", plan_columns_of_words(3, 0, small_words, 0, 0, bytes, PLACES));
    print_bytes("resolution of no words", plan_resolution_of_words(3, 0, small_words, 0, 0, bytes, PLACES));
    print_bytes("resolution of column 1", plan_resolution_of_columns(1, 0, one_factor, 3, bytes, PLACES));
    print_bytes("resolution of runs 2 0 3 1", plan_resolution_of_runs(2, 0, full_runs, 4, bytes, PLACES));
}

/* P: ABCD, CDEF, ACEGHJ. Q: ABCD, AEFG, BEHJ. */
static const uint16_t p_words[] = {15, 60, 469};
static const uint16_t q_words[] = {15, 113, 402};
static const uint8_t p_plan[] = {1, 2, 4, 7, 8, 11, 16, 32, 61, 0, 0};
static const uint8_t q_plan[] = {1, 2, 4, 7, 8, 16, 25, 32, 42, 0, 0};

static void print_p_and_q(void)
{
    print_bytes("columns of P", plan_columns_of_words(9, 3, p_words, 3, 0, bytes, PLACES));
    print_bytes("columns of Q", plan_columns_of_words(9, 3, q_words, 3, 0, bytes, PLACES));
    print_words("words of P", plan_words_of_columns(9, 3, p_plan, 11, shorts, PLACES));
    print_words("words of Q", plan_words_of_columns(9, 3, q_plan, 11, shorts, PLACES));
    print_shorts("pattern of P", plan_pattern_of_words(9, 3, p_words, 3, 0, shorts, PLACES));
    print_shorts("pattern of Q", plan_pattern_of_words(9, 3, q_words, 3, 0, shorts, PLACES));
    print_bytes("resolution of P", plan_resolution_of_columns(9, 3, p_plan, 11, bytes, PLACES));
    printf("aberration of P and Q: %u: %u\n", plan_aberration_refusal(9, 3, p_words, 3, q_words, 3),
           plan_less_aberration(9, 3, p_words, 3, q_words, 3));
}

/* 128 runs: ABCDEH, ABCFGJ without a word of 5 letters, and ABCDH, ABEFGJ with one. */
static const uint16_t no_five[] = {0x09f, 0x167};
static const uint16_t one_five[] = {0x08f, 0x173};

static void print_128_runs(void)
{
    printf("aberration of ABCDEH, ABCFGJ and ABCDH, ABEFGJ: %u, in the other order %u\n", plan_less_aberration(9, 2, no_five, 2, one_five, 2),
           plan_less_aberration(9, 2, one_five, 2, no_five, 2));
}

static const uint16_t two_words[] = {7, 25};
static const uint16_t signed_words[] = {27, 28};
static const uint16_t past_word[] = {8};
static const uint16_t repeated_word[] = {7, 7};
static const uint16_t short_word[] = {3};

/* Request 5: generators with a minus sign, and masks. */
static void print_signs(void)
{
    print_bytes("columns of word -ABC", plan_columns_of_words(3, 1, small_words, 1, 1, bytes, PLACES));
    print_shorts("runs of word -ABC", plan_runs_of_words(3, 1, small_words, 1, 1, shorts, PLACES));
    print_shorts("distances of word -ABC", plan_distances_of_words(3, 1, small_words, 1, 1, shorts, PLACES));
    print_shorts("pattern of word -ABC", plan_pattern_of_words(3, 1, small_words, 1, 1, shorts, PLACES));
    print_bytes("resolution of word -ABC", plan_resolution_of_words(3, 1, small_words, 1, 1, bytes, PLACES));
    print_bytes("columns of runs 7 1 2 4", plan_columns_of_runs(3, 1, minus_runs, 4, bytes, PLACES));
    print_words("words of columns 1 2 3 mask 4", plan_words_of_columns(3, 1, minus_plan, 5, shorts, PLACES));
    print_shorts("runs of columns 1 2 3 mask 4", plan_runs_of_columns(3, 1, minus_plan, 5, shorts, PLACES));
    print_bytes("columns of words -ABDE CDE", plan_columns_of_words(5, 2, signed_words, 2, 1, bytes, PLACES));
    print_bytes("columns of words ABDE -CDE", plan_columns_of_words(5, 2, signed_words, 2, 2, bytes, PLACES));
    print_bytes("a sign of no word", plan_columns_of_words(5, 2, signed_words, 2, 4, bytes, PLACES));
    print_words("words of three bytes", plan_words_of_columns(3, 1, minus_plan, 3, shorts, PLACES));
    print_words("words of columns 1 2 3 mask 1", plan_words_of_columns(3, 1, barred_plan, 5, shorts, PLACES));
}

static void print_refused(void)
{
    print_bytes("N 17", plan_columns_of_words(17, 1, small_words, 1, 0, bytes, PLACES));
    print_bytes("N 9, G 1", plan_columns_of_words(9, 1, small_words, 1, 0, bytes, PLACES));
    print_bytes("N 5, G 1, two words", plan_columns_of_words(5, 1, two_words, COUNT(two_words), 0, bytes, PLACES));
    print_bytes("N 3, G 1, word 8", plan_columns_of_words(3, 1, past_word, COUNT(past_word), 0, bytes, PLACES));
    print_bytes("N 4, G 2, word 7 twice", plan_columns_of_words(4, 2, repeated_word, COUNT(repeated_word), 0, bytes, PLACES));
    print_bytes("N 3, G 1, word 3", plan_columns_of_words(3, 1, short_word, COUNT(short_word), 0, bytes, PLACES));
    print_bytes("N 5, G 1, 6 places", plan_columns_of_words(5, 1, small_words, 1, 0, bytes, 6));
    printf("aberration of word ABC and word AB: %u: %u\n", plan_aberration_refusal(3, 1, small_words, 1, short_word, 1),
           plan_less_aberration(3, 1, small_words, 1, short_word, 1));
}

int main(void)
{
    clear();
    print_small();
    print_p_and_q();
    print_128_runs();
    print_signs();
    print_refused();
    return 0;
}
