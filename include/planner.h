/* planner.h: regular two-level plans (regular two-level fractional factorial designs).
 *
 * The calls are on plans in their three forms, which are words, columns and run tables. They answer the pattern, resolution, distance counts
 * and aberration of plans, whether two plans are the same, smallest forms (canonical forms), loads of plans from a seed, catalogues and books.
 * For C and C++.
 *
 * Link with libplanner.a (pkg-config planner). The library needs nothing but memcpy and memset. The functions have no state of their own: they
 * allocate nothing, keep no pointer, and read and write nothing but the lists of the call. They may be called from several threads at once.
 * Every call ends and answers, whatever its numbers and lists hold.
 *
 * SIZES. N is the number of factors, 1 to 16. G is the number of generators, below N. M = N - G is the number of basic factors, at most 7.
 *
 * FORMS. Factor A is bit 0 of a word and of a run. The letters are A to H, then J to Q.
 *   words    G numbers of 16 bits, and their signs in one more. Bit f of a word says that factor f is in it. Bit i of the signs is that of
 *            word i, from 0: 1 for minus. The words generate the plan of all runs that a word with plus meets in an even number of low
 *            levels, and a word with minus in an odd number. So the run with everything high is in no plan that has a word with minus.
 *   columns  N columns and a switch mask, together the bytes of a plan (below). A column is from 1 to 2^M - 1. Its bit i says that basic
 *            factor i enters the factor. In run j a factor is low if j and its column share an odd number of bits. Then the factors in
 *            the mask, bit f for factor f, have their levels switched.
 *   runs     2^M different numbers of 16 bits. Bit f is 1 where factor f is low (-), 0 where it is high (+). The exclusive-or of any three
 *            runs is a run. The runs may stand in any order, and the levels of any factor may be switched.
 *
 * BYTES OF A PLAN. Wherever a plan goes in or out as bytes, these are its N columns and then the two bytes of its switch mask, low byte
 * first: PLAN_BYTES(N), or N + 2, bytes. Several plans stand one after another, so many bytes each. A mask has no bit past factor N, and none
 * at a factor that is the last letter of no word of the plan: one whose column is no exclusive-or of columns before it (that of none is
 * 0). The columns alone decide that. Each set of runs is that of exactly one plan in standard columns. A book's own bytes have no masks.
 *
 * LISTS. A list goes as a pointer and then its count of elements (not of bytes). The caller answers for the count. A list of 0 elements may
 * have any pointer, NULL too. Lists that a call reads stay as they are. Two of them may be one and the same list.
 *
 * LENT LISTS. A result is written to a list that the caller lends. The list has at least as many places as are named at the call. An accepted
 * call fills these places, from the first, and leaves any places past them untouched. Two plans that are different have no witness: then the
 * witness list stays untouched. A refused call leaves every lent list untouched, except by PLAN_REFUSED_ROOM of a catalogue. A lent list must
 * not overlap another list of the call.
 *
 * ANSWERS. A call answers PLAN_ACCEPTED, or else the lowest number below that applies, over all arguments. The calls that answer more say so.
 * plan_read_book alone has an order of its own: it goes through the book from the first byte, and the first check that fails answers. */
#ifndef PLANNER_H
#define PLANNER_H

#include <stddef.h>
#include <stdint.h>

#define PLANNER_VERSION "0.4.1"

/* The most factors, basic factors and runs that a plan may have. So many places are enough for any list that a call on one or two plans fills.
 * Distance counts need one more than PLAN_FACTORS, the bytes of a plan PLAN_BYTES(PLAN_FACTORS). Catalogues, books and several plans need
 * more. */
#define PLAN_FACTORS 16
#define PLAN_BASIC_FACTORS 7
#define PLAN_RUNS 128

/* The bytes of a plan of n factors. */
#define PLAN_BYTES(n) ((n) + 2)

/* Accepted. */
#define PLAN_ACCEPTED 0
/* N is outside 1 to 16. */
#define PLAN_REFUSED_FACTORS 1
/* G is at least N, or N - G is above 7. */
#define PLAN_REFUSED_GENERATORS 2
/* R is outside 3 to 16. Only plan_catalogue, plan_write_book and plan_read_book. */
#define PLAN_REFUSED_RESOLUTION 3
/* A list does not have G words, N + 2 bytes (several plans: a multiple of N + 2) or 2^M runs; or a book is to have more than 65,535 plans. */
#define PLAN_REFUSED_COUNT 4
/* A column is above 2^M - 1, a word or a run has a bit past factor N, the signs have a bit from bit G up, or a mask has a bit that it may not
 * have. In plan_write_book a mask is not 0. */
#define PLAN_REFUSED_RANGE 5
/* The words are dependent (a word 0 is), the columns have a rank below M, or the runs are repeated or not regular. */
#define PLAN_REFUSED_DEPENDENT 6
/* A word of the plan has fewer than three letters, or fewer than R where a call takes R with plans. The products of generators are words too.
 * A column that is 0 or repeated gives such a word. In plan_load N is above 2^M - 1: every plan of this size has a column that is 0 or
 * repeated. */
#define PLAN_REFUSED_SHORT_WORD 7
/* A lent list has fewer places than its result. */
#define PLAN_REFUSED_PLACES 8
/* The catalogue has more entries than the lent list has room for. Only plan_catalogue. */
#define PLAN_REFUSED_ROOM 9
/* A record of the book is cut off, or bytes are left over after the last entry. This and the next two are of plan_read_book only. */
#define PLAN_REFUSED_CUT_OFF 10
/* A record of the book is of a kind that is unknown, or not the kind expected there. */
#define PLAN_REFUSED_KIND 11
/* The columns of an entry are not a smallest form of N and G without a word of fewer than R letters, or they do not come after those of the
 * entry before; or a count of its pattern is not that of its plan. */
#define PLAN_REFUSED_UNTRUE 12

#ifdef __cplusplus
extern "C" {
#endif

/* The plan that the words and their signs generate, in standard columns. Go through the factors from A: a factor that is the last letter of no
 * word takes the next of 1, 2, 4 and so on. The other columns follow. The mask is the only one that gives the plan's set of runs. N + 2
 * places. */
uint8_t plan_columns_of_words(size_t n, size_t g, const uint16_t *words, size_t word_count, uint16_t signs, uint8_t *plan, size_t places);

/* The plan of the table, in standard columns, with the only mask that gives the table's set of runs. N + 2 places. */
uint8_t plan_columns_of_runs(size_t n, size_t g, const uint16_t *runs, size_t run_count, uint8_t *plan, size_t places);

/* The reduced words of a plan, by rising last letter. The last letter of a word stands in no other word. G places. The answer is a number, and
 * the signs of these words, 0 if refused. Words to columns and back gives the reduced words, and their signs, of the same set of runs. */
struct plan_signs {
    uint8_t number;
    uint16_t signs;
};

struct plan_signs plan_words_of_columns(size_t n, size_t g, const uint8_t *plan, size_t plan_count, uint16_t *words, size_t places);

/* The runs of a plan, run j at place j, from 0. 2^M places. */
uint8_t plan_runs_of_columns(size_t n, size_t g, const uint8_t *plan, size_t plan_count, uint16_t *runs, size_t places);

/* The runs of the plan that plan_columns_of_words gives, run j at place j, from 0. 2^M places. */
uint8_t plan_runs_of_words(size_t n, size_t g, const uint16_t *words, size_t word_count, uint16_t signs, uint16_t *runs, size_t places);

/* The pattern (word-length pattern): the number of words of each length from 1 to N. Length L is at place L - 1. N places. Signs and switches
 * change neither this nor the resolution and the distance counts. */
uint8_t plan_pattern_of_words(size_t n, size_t g, const uint16_t *words, size_t word_count, uint16_t signs, uint16_t *pattern,
                              size_t places);
uint8_t plan_pattern_of_columns(size_t n, size_t g, const uint8_t *columns, size_t column_count, uint16_t *pattern, size_t places);
uint8_t plan_pattern_of_runs(size_t n, size_t g, const uint16_t *runs, size_t run_count, uint16_t *pattern, size_t places);

/* The resolution: the length of the shortest word. A full factorial (G = 0) has no words: its resolution is N + 1, above that of every other
 * plan of N factors. No plan has resolution 0: a place that is 0 before the call is 0 after it exactly if the call was refused. 1 place. */
uint8_t plan_resolution_of_words(size_t n, size_t g, const uint16_t *words, size_t word_count, uint16_t signs, uint8_t *resolution,
                                 size_t places);
uint8_t plan_resolution_of_columns(size_t n, size_t g, const uint8_t *columns, size_t column_count, uint8_t *resolution, size_t places);
uint8_t plan_resolution_of_runs(size_t n, size_t g, const uint16_t *runs, size_t run_count, uint8_t *resolution, size_t places);

/* The distance counts, for i from 0 to N: place i has how many runs differ from the first run in exactly i factors. N + 1 places. */
uint8_t plan_distances_of_words(size_t n, size_t g, const uint16_t *words, size_t word_count, uint16_t signs, uint16_t *counts,
                                size_t places);
uint8_t plan_distances_of_columns(size_t n, size_t g, const uint8_t *columns, size_t column_count, uint16_t *counts, size_t places);
uint8_t plan_distances_of_runs(size_t n, size_t g, const uint16_t *runs, size_t run_count, uint16_t *counts, size_t places);

/* The number under which plan_less_aberration refuses these two lists of words, or PLAN_ACCEPTED if it accepts them. No list is lent. */
uint8_t plan_aberration_refusal(size_t n, size_t g, const uint16_t *first, size_t first_count, const uint16_t *second, size_t second_count);

/* Which of two plans of one N and G, given by words without signs, has less aberration. The patterns are compared from length 3 up to length N.
 * At the first length that differs the smaller count is better (minimum aberration criterion). The answer is 1 for the first list, 2 for the
 * second, and 0 if refused. It is also 1 if the patterns are equal. */
uint8_t plan_less_aberration(size_t n, size_t g, const uint16_t *first, size_t first_count, const uint16_t *second, size_t second_count);

/* The comparison of two plans of one N and G. They are the same (isomorphic) if renaming the factors and switching the levels of some of them
 * turns one set of runs into the other. The order of runs plays no part. The answer's kind and value are
 *   PLAN_SAME, mask         the same. The first N places of the witness list hold the names: factor f of the first plan becomes factor
 *                           witness[f] of the second. Each of 0 to N - 1 is used once. Then the factors in the mask are switched. They are
 *                           factors of the second plan
 *   PLAN_DIFFERENT, length  different. The length is the first where the patterns differ, 0 if they agree. The witness list is untouched
 *   PLAN_REFUSED, number    refused. The witness list is untouched
 * The witness list needs N places even if the plans are different. */
#define PLAN_REFUSED UINT32_C(0)
#define PLAN_SAME UINT32_C(0x10000)
#define PLAN_DIFFERENT UINT32_C(0x20000)

#define PLAN_KIND(answer) ((answer) & UINT32_C(0x30000))
#define PLAN_VALUE(answer) ((answer) & UINT32_C(0xffff))

/* The comparison of two plans given by columns, as the bytes of a plan. If both of their masks are 0, the mask of the answer is 0. */
uint32_t plan_compare_columns(size_t n, size_t g, const uint8_t *first, size_t first_count, const uint8_t *second, size_t second_count,
                              uint8_t *witness, size_t places);

/* The comparison of two plans given by run tables. The runs may stand in any order, and any levels may be switched. */
uint32_t plan_compare_runs(size_t n, size_t g, const uint16_t *first, size_t first_count, const uint16_t *second, size_t second_count,
                           uint8_t *witness, size_t places);

/* The check of a claimed witness between two run tables. Any list of names, of any length, and any mask may be claimed. The answer is
 *   PLAN_YES  there are N names, from 0 to N - 1 and each once; no bit of the mask is past factor N; and renaming and then switching turns the
 *             first set of runs into the second
 *   PLAN_NO   anything else
 * or, of the kind PLAN_REFUSED, the number under which a table is refused. */
#define PLAN_YES UINT32_C(0x10000)
#define PLAN_NO UINT32_C(0x20000)

uint32_t plan_check_witness(size_t n, size_t g, const uint16_t *first, size_t first_count, const uint16_t *second, size_t second_count,
                            const uint8_t *names, size_t name_count, uint16_t mask);

/* The smallest form (canonical form) of a plan. Take all lists of N rising columns of rank M whose plan is the same as this one. The smallest
 * form is the list that has the smaller column where it first differs from any other. Two plans of one N and G are the same exactly if their
 * smallest forms are equal. A smallest form has mask 0. The plan goes as its bytes or as a run table.
 *   list      the plans among which the form is looked for, such as a catalogue: their bytes, one plan after another. It may be empty
 *   smallest  lent, N + 2 places: the bytes of the smallest form, its columns rising and its mask 0
 *   witness   lent, N places: factor f of the given plan becomes factor witness[f] of the smallest form. Each of 0 to N - 1 is used once
 * The answer is
 *   number    PLAN_ACCEPTED or the refusal. A refused call answers mask 0 and place 0
 *   mask      the factors of the smallest form whose levels are switched after renaming. 0 for a plan in bytes whose mask is 0
 *   place     the first place of the smallest form in the list, from 1: of a plan with these columns and mask 0. 0 if it is absent
 * Renaming and then switching turns the given plan's set of runs into that of the smallest form. The list is refused as a plan is. It is
 * PLAN_REFUSED_COUNT if its count is no multiple of N + 2. It is PLAN_REFUSED_RANGE, _DEPENDENT or _SHORT_WORD for a fault of some plan in it.
 * The call is PLAN_REFUSED_PLACES if a lent list has too few places. */
struct plan_form {
    uint8_t number;
    uint16_t mask;
    size_t place;
};

struct plan_form plan_smallest_of_columns(size_t n, size_t g, const uint8_t *columns, size_t column_count, const uint8_t *list,
                                          size_t list_count, uint8_t *smallest, size_t smallest_places, uint8_t *witness,
                                          size_t witness_places);
struct plan_form plan_smallest_of_runs(size_t n, size_t g, const uint16_t *runs, size_t run_count, const uint8_t *list, size_t list_count,
                                       uint8_t *smallest, size_t smallest_places, uint8_t *witness, size_t witness_places);

/* The smallest forms of several plans in one call: their bytes, one plan after another, plan_count bytes in all.
 *   forms      lent, plan_count places: the bytes of the smallest form of each plan, at the places of the plan
 *   witnesses  lent, plan_count places: the witness from each plan to its smallest form, as above, at the places of the plan: its N names,
 *              then the two bytes of its mask, low byte first
 * The answer is the lowest number over all the plans. It is PLAN_REFUSED_COUNT if plan_count is no multiple of N + 2, and PLAN_REFUSED_PLACES
 * if either lent list has fewer than plan_count places. */
uint8_t plan_smallest_of_plans(size_t n, size_t g, const uint8_t *plans, size_t plan_count, uint8_t *forms, size_t form_places,
                               uint8_t *witnesses, size_t witness_places);

/* A load: a plan that nobody picked, drawn from a seed. Any number of 32 bits is a seed, and a seed always gives the same load of a size. A
 * state starts at the seed. Each draw adds 2654435769 to it, dropping the carry beyond 32 bits, and yields the state exclusive-or the state
 * shifted right by 15. The first M factors take the columns 1, 2, 4 and so on. Each later one takes the draw's remainder by 2^M - 1, plus 1,
 * or, if that is used, the next unused column upward, going from the last, 2^M - 1, to 1. Then, from the last place i, counted from 0, down to
 * place 1, the columns at place i and at the place given by a draw's remainder by i + 1 are swapped. So a load takes G + N - 1 draws. It has
 * mask 0 and no word of fewer than three letters, and it is the same as the plan before swapping.
 *   plan    lent, N + 2 places: the bytes of the load
 * The answer is
 *   number  PLAN_ACCEPTED or the refusal: PLAN_REFUSED_FACTORS, PLAN_REFUSED_GENERATORS, PLAN_REFUSED_SHORT_WORD if N is above 2^M - 1, or
 *           PLAN_REFUSED_PLACES
 *   state   the state after the draws: the seed of the next load. A refused call answers the seed as it came */
struct plan_state {
    uint8_t number;
    uint32_t state;
};

struct plan_state plan_load(size_t n, size_t g, uint32_t seed, uint8_t *plan, size_t places);

/* The catalogue for N, G and R. It holds every smallest form of N factors and G generators whose words all have at least R letters. A full
 * factorial has no words. So it is an entry for every R, even where its resolution N + 1 is below R. The entries stand in dictionary order: the
 * earlier of two entries has the smaller column where they first differ. So each plan of this size without a word below R, with any signs, is
 * the same as exactly one entry. The lent list takes the bytes of the entries, their masks 0, one plan after another. It has room for
 * places / PLAN_BYTES(N) of them, rounded down. The answer is a number and how many entries the list holds:
 *   PLAN_ACCEPTED            all of them, 0 if there is none. The places past them are untouched
 *   PLAN_REFUSED_ROOM        the first ones, as many as there is room for. Any bytes past them are untouched
 *   PLAN_REFUSED_FACTORS,
 *   PLAN_REFUSED_GENERATORS,
 *   PLAN_REFUSED_RESOLUTION  0. The list is untouched
 * The largest catalogue, N 16, G 9, R 3, has 745,413 entries and takes some five seconds. Most catalogues take milliseconds. */
struct plan_entries {
    uint8_t number;
    size_t count;
};

struct plan_entries plan_catalogue(size_t n, size_t g, size_t r, uint8_t *columns, size_t places);

/* The book of several plans, in the order given: their bytes, one plan after another. Their masks must be 0, and the book has none. A book is a
 * row of records. A record is a byte of kind, then a body whose length the kind fixes. Numbers of 16 bits stand low byte first:
 *   0x01      N, G, R, then the count of plans in 16 bits
 *   0x20 + N  the N columns of a plan as they are given
 *   0x40 + N  the number of its words of each length from 3 to N, 16 bits each. Nothing for N below 3
 * One 0x01 comes first, then for each plan its two records. That is PLAN_BOOK_HEAD bytes, and PLAN_BOOK_ENTRY(N) bytes a plan. The answer is a
 * number and how many bytes of the lent list the book takes, 0 if refused:
 *   PLAN_REFUSED_COUNT       plan_count is no multiple of N + 2, or there are more than 65,535 plans
 *   PLAN_REFUSED_RANGE       some plan has a mask other than 0, or a column above 2^M - 1
 *   PLAN_REFUSED_SHORT_WORD  some plan has a word of fewer than R letters, or a column that is 0 or repeated
 *   PLAN_REFUSED_PLACES      the lent list is shorter than the book
 * The other numbers up to PLAN_REFUSED_DEPENDENT are as everywhere. */
#define PLAN_BOOK_HEAD 6
#define PLAN_BOOK_ENTRY(n) ((n) < 3 ? (n) + 2 : 3 * (n) - 2)

struct plan_bytes {
    uint8_t number;
    size_t count;
};

struct plan_bytes plan_write_book(size_t n, size_t g, size_t r, const uint8_t *plans, size_t plan_count, uint8_t *book, size_t places);

/* Reads a book of smallest forms, such as that of a catalogue. It is accepted if each entry is a smallest form of the header's N and G whose
 * words all have at least R letters, each comes after the one before in dictionary order, each pattern is that of its plan, and nothing follows
 * the last. Nothing is said of completeness: the catalogue may have entries that the book lacks. The lent list takes the bytes of the entries,
 * their masks 0, one plan after another. It needs count times PLAN_BYTES(N) places; 65,535 times PLAN_BYTES(PLAN_FACTORS) are enough for any
 * book. The answer is
 *   number      PLAN_ACCEPTED or the refusal. A refused call answers 0 for all the rest
 *   factors     N
 *   generators  G
 *   resolution  R
 *   count       how many entries the list holds
 * plan_write_book gives the same bytes again for this list with this N, G and R. The checks come in this order, and the first that fails
 * answers, whatever its number:
 *   the header        PLAN_REFUSED_KIND if the first byte is not 0x01, PLAN_REFUSED_CUT_OFF if there are fewer than PLAN_BOOK_HEAD bytes,
 *                     then PLAN_REFUSED_FACTORS, PLAN_REFUSED_GENERATORS and PLAN_REFUSED_RESOLUTION for its N, G and R
 *   the lent list     PLAN_REFUSED_PLACES if it is too short for the count of the header
 *   each entry        its columns, then its pattern: PLAN_REFUSED_KIND if the kind is another, PLAN_REFUSED_CUT_OFF if the body is cut off,
 *                     PLAN_REFUSED_UNTRUE if it is not true
 *   after the last    PLAN_REFUSED_CUT_OFF if any byte is left over
 * A kind byte that is missing, also the first of an empty book, is PLAN_REFUSED_CUT_OFF. */
struct plan_book {
    uint8_t number;
    uint8_t factors;
    uint8_t generators;
    uint8_t resolution;
    size_t count;
};

struct plan_book plan_read_book(const uint8_t *book, size_t length, uint8_t *columns, size_t places);

#ifdef __cplusplus
}
#endif

#endif
