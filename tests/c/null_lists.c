/* Lists of 0 elements whose pointer is NULL, in every place of every call. Each line has the answer with NULL and the one with a pointer to a
 * list, and what the call with NULL filled of the lent lists; if the two do not come to the same, it says so. null_lists.stdout has what must
 * be printed. */
#include "planner.h"

#include <stdio.h>
#include <string.h>

/* Any plans in bytes, words and runs; their lists are taken with 0 elements where NULL is tried. */
static const uint8_t columns[] = {1, 2, 3, 0, 0};
static const uint8_t basic_columns[] = {1, 2, 4, 0, 0};
static const uint16_t words[] = {7};
static const uint16_t runs[] = {0, 5, 6, 3};
static const uint8_t names[] = {0, 1, 2};

/* The book of one plan, and of none. */
static const uint8_t book[] = {0x01, 3, 1, 3, 1, 0, 0x23, 1, 2, 3, 0x43, 1, 0};
static const uint8_t empty_book[] = {0x01, 3, 1, 3, 0, 0};

/* A value that no result has, so that an untouched place is seen. */
enum { UNTOUCHED = 99 };

/* Lists to lend: the third is for the names of a witness. */
static uint8_t bytes[PLAN_RUNS];
static uint16_t shorts[PLAN_RUNS];
static uint8_t more_bytes[PLAN_RUNS];

static void clear(void)
{
    for (size_t i = 0; i < PLAN_RUNS; i++) {
        bytes[i] = more_bytes[i] = UNTOUCHED;
        shorts[i] = UNTOUCHED;
    }
}

/* What a call came to: its answer, its mask or signs, its place or count, its state, and the N, G and R of a book, 0 where it has none; and the
 * lent lists after it. */
struct outcome {
    uint32_t number;
    uint16_t mask;
    size_t count;
    uint32_t state;
    uint8_t sizes[3];
    uint8_t bytes[PLAN_RUNS];
    uint16_t shorts[PLAN_RUNS];
    uint8_t more_bytes[PLAN_RUNS];
};

static struct outcome outcome(uint32_t number, uint16_t mask, size_t count)
{
    struct outcome found;
    found.number = number;
    found.mask = mask;
    found.count = count;
    found.state = 0;
    memset(found.sizes, 0, sizeof found.sizes);
    memcpy(found.bytes, bytes, sizeof bytes);
    memcpy(found.shorts, shorts, sizeof shorts);
    memcpy(found.more_bytes, more_bytes, sizeof more_bytes);
    return found;
}

static struct outcome of_number(uint32_t answer)
{
    return outcome(answer, 0, 0);
}

static struct outcome of_signs(struct plan_signs answer)
{
    return outcome(answer.number, answer.signs, 0);
}

static struct outcome of_form(struct plan_form answer)
{
    return outcome(answer.number, answer.mask, answer.place);
}

static struct outcome of_state(struct plan_state answer)
{
    struct outcome found = outcome(answer.number, 0, 0);
    found.state = answer.state;
    return found;
}

static struct outcome of_entries(struct plan_entries answer)
{
    return outcome(answer.number, 0, answer.count);
}

static struct outcome of_book(struct plan_bytes answer)
{
    return outcome(answer.number, 0, answer.count);
}

static struct outcome of_reading(struct plan_book answer)
{
    struct outcome found = outcome(answer.number, 0, answer.count);
    found.sizes[0] = answer.factors;
    found.sizes[1] = answer.generators;
    found.sizes[2] = answer.resolution;
    return found;
}

static int same(const struct outcome *first, const struct outcome *second)
{
    return first->number == second->number && first->mask == second->mask && first->count == second->count &&
           first->state == second->state && memcmp(first->sizes, second->sizes, sizeof first->sizes) == 0 &&
           memcmp(first->bytes, second->bytes, sizeof bytes) == 0 && memcmp(first->shorts, second->shorts, sizeof shorts) == 0 &&
           memcmp(first->more_bytes, second->more_bytes, sizeof more_bytes) == 0;
}

/* What the call filled of the lent lists: of names, which are the library's choice, how many. */
static void print_filled(const struct outcome *found)
{
    const char *before = ", filled";
    size_t named = 0;
    for (size_t i = 0; i < PLAN_RUNS; i++) {
        if (found->bytes[i] != UNTOUCHED || found->shorts[i] != UNTOUCHED) {
            printf("%s %u", before, found->bytes[i] != UNTOUCHED ? found->bytes[i] : found->shorts[i]);
            before = "";
        }
        named += found->more_bytes[i] != UNTOUCHED;
    }
    if (named > 0) {
        printf(", %lu names", (unsigned long)named);
    }
}

static void print(const char *call, const struct outcome *with_null, const struct outcome *with_list)
{
    printf("%s: %lu %lu", call, (unsigned long)with_null->number, (unsigned long)with_list->number);
    print_filled(with_null);
    if (with_null->count > 0) {
        printf(", count %lu", (unsigned long)with_null->count);
    }
    if (with_null->state > 0) {
        printf(", state %lu", (unsigned long)with_null->state);
    }
    if (with_null->sizes[0] > 0) {
        printf(", sizes %u %u %u", with_null->sizes[0], with_null->sizes[1], with_null->sizes[2]);
    }
    printf("%s\n", same(with_null, with_list) ? "" : ", not the same");
}

/* Makes the call with NULL and the call with a list, whose answers are taken by a function of the above. */
#define TRY(name, of, with_null, with_list)                                                                                                \
    do {                                                                                                                                   \
        clear();                                                                                                                           \
        struct outcome first = of(with_null);                                                                                              \
        clear();                                                                                                                           \
        struct outcome second = of(with_list);                                                                                             \
        print(name, &first, &second);                                                                                                      \
    } while (0)

/* A call with one list read and one lent: no element in the first, then no place in the second, then neither. */
#define ONE_PLAN(call, of, list, count, lent)                                                                                              \
    TRY(#call ", nothing to read", of, call(3, 1, NULL, 0, lent, PLAN_RUNS), call(3, 1, list, 0, lent, PLAN_RUNS));                        \
    TRY(#call ", nothing lent", of, call(3, 1, list, count, NULL, 0), call(3, 1, list, count, lent, 0));                                   \
    TRY(#call ", neither", of, call(3, 1, NULL, 0, NULL, 0), call(3, 1, list, 0, lent, 0))

/* The same of words, with their signs. */
#define ONE_LIST_OF_WORDS(call, lent)                                                                                                      \
    TRY(#call ", nothing to read", of_number, call(3, 1, NULL, 0, 1, lent, PLAN_RUNS), call(3, 1, words, 0, 1, lent, PLAN_RUNS));          \
    TRY(#call ", nothing lent", of_number, call(3, 1, words, 1, 1, NULL, 0), call(3, 1, words, 1, 1, lent, 0));                            \
    TRY(#call ", neither", of_number, call(3, 1, NULL, 0, 1, NULL, 0), call(3, 1, words, 0, 1, lent, 0))

/* A call with two lists read: no element in the first, the second, or either. */
#define TWO_READ(call, n, g, list, count)                                                                                                  \
    TRY(#call ", no first", of_number, call(n, g, NULL, 0, list, count), call(n, g, list, 0, list, count));                                \
    TRY(#call ", no second", of_number, call(n, g, list, count, NULL, 0), call(n, g, list, count, list, 0));                               \
    TRY(#call ", neither", of_number, call(n, g, NULL, 0, NULL, 0), call(n, g, list, 0, list, 0))

/* A comparison: no element in the first list, the second, no place for the witness, or none in any. */
#define COMPARISON(call, list, count)                                                                                                      \
    TRY(#call ", no first", of_number, call(3, 1, NULL, 0, list, count, bytes, 3), call(3, 1, list, 0, list, count, bytes, 3));            \
    TRY(#call ", no second", of_number, call(3, 1, list, count, NULL, 0, bytes, 3), call(3, 1, list, count, list, 0, bytes, 3));           \
    TRY(#call ", no witness", of_number, call(3, 1, list, count, list, count, NULL, 0), call(3, 1, list, count, list, count, bytes, 0));   \
    TRY(#call ", none", of_number, call(3, 1, NULL, 0, NULL, 0, NULL, 0), call(3, 1, list, 0, list, 0, bytes, 0))

static void print_one_plan(void)
{
    ONE_LIST_OF_WORDS(plan_columns_of_words, bytes);
    ONE_PLAN(plan_columns_of_runs, of_number, runs, 4, bytes);
    ONE_PLAN(plan_words_of_columns, of_signs, columns, 5, shorts);
    ONE_PLAN(plan_runs_of_columns, of_number, columns, 5, shorts);
    ONE_LIST_OF_WORDS(plan_runs_of_words, shorts);
    ONE_LIST_OF_WORDS(plan_pattern_of_words, shorts);
    ONE_PLAN(plan_pattern_of_columns, of_number, columns, 5, shorts);
    ONE_PLAN(plan_pattern_of_runs, of_number, runs, 4, shorts);
    ONE_LIST_OF_WORDS(plan_resolution_of_words, bytes);
    ONE_PLAN(plan_resolution_of_columns, of_number, columns, 5, bytes);
    ONE_PLAN(plan_resolution_of_runs, of_number, runs, 4, bytes);
    ONE_LIST_OF_WORDS(plan_distances_of_words, shorts);
    ONE_PLAN(plan_distances_of_columns, of_number, columns, 5, shorts);
    ONE_PLAN(plan_distances_of_runs, of_number, runs, 4, shorts);
}

/* Of a full factorial, which has no words: here NULL is accepted. */
#define NO_WORDS(name, call, lent, places) TRY(name, of_number, call(3, 0, NULL, 0, 0, lent, places), call(3, 0, words, 0, 0, lent, places))

static void print_accepted(void)
{
    NO_WORDS("columns of no words", plan_columns_of_words, bytes, 5);
    NO_WORDS("runs of no words", plan_runs_of_words, shorts, 8);
    NO_WORDS("pattern of no words", plan_pattern_of_words, shorts, 3);
    NO_WORDS("resolution of no words", plan_resolution_of_words, bytes, 1);
    NO_WORDS("distances of no words", plan_distances_of_words, shorts, 4);
    TRY("no words of columns", of_signs, plan_words_of_columns(3, 0, basic_columns, 5, NULL, 0),
        plan_words_of_columns(3, 0, basic_columns, 5, shorts, 0));
    TWO_READ(plan_aberration_refusal, 3, 0, words, 0);
    TWO_READ(plan_less_aberration, 3, 0, words, 0);
    TRY("a catalogue without entries", of_entries, plan_catalogue(4, 2, 3, NULL, 0), plan_catalogue(4, 2, 3, bytes, 0));
}

static void print_two_plans(void)
{
    TWO_READ(plan_aberration_refusal, 3, 1, words, 1);
    TWO_READ(plan_less_aberration, 3, 1, words, 1);
    COMPARISON(plan_compare_columns, columns, 5);
    COMPARISON(plan_compare_runs, runs, 4);
    TRY("plan_check_witness, no first", of_number, plan_check_witness(3, 1, NULL, 0, runs, 4, names, 3, 0),
        plan_check_witness(3, 1, runs, 0, runs, 4, names, 3, 0));
    TRY("plan_check_witness, no second", of_number, plan_check_witness(3, 1, runs, 4, NULL, 0, names, 3, 0),
        plan_check_witness(3, 1, runs, 4, runs, 0, names, 3, 0));
    TRY("plan_check_witness, no names", of_number, plan_check_witness(3, 1, runs, 4, runs, 4, NULL, 0, 0),
        plan_check_witness(3, 1, runs, 4, runs, 4, names, 0, 0));
    TRY("plan_check_witness, none", of_number, plan_check_witness(3, 1, NULL, 0, NULL, 0, NULL, 0, 0),
        plan_check_witness(3, 1, runs, 0, runs, 0, names, 0, 0));
}

/* The smallest form of one plan, in bytes or by runs: no plan, no list to look in, which is accepted, no form, no witness, or none. */
#define SMALLEST(call, of, plan, count)                                                                                                    \
    TRY(#call ", no plan", of, call(3, 1, NULL, 0, columns, 5, bytes, 5, more_bytes, 3),                                                   \
        call(3, 1, plan, 0, columns, 5, bytes, 5, more_bytes, 3));                                                                         \
    TRY(#call ", no list", of, call(3, 1, plan, count, NULL, 0, bytes, 5, more_bytes, 3),                                                  \
        call(3, 1, plan, count, columns, 0, bytes, 5, more_bytes, 3));                                                                     \
    TRY(#call ", no form", of, call(3, 1, plan, count, columns, 5, NULL, 0, more_bytes, 3),                                                \
        call(3, 1, plan, count, columns, 5, bytes, 0, more_bytes, 3));                                                                     \
    TRY(#call ", no witness", of, call(3, 1, plan, count, columns, 5, bytes, 5, NULL, 0),                                                  \
        call(3, 1, plan, count, columns, 5, bytes, 5, more_bytes, 0));                                                                     \
    TRY(#call ", none", of, call(3, 1, NULL, 0, NULL, 0, NULL, 0, NULL, 0), call(3, 1, plan, 0, columns, 0, bytes, 0, more_bytes, 0))

static void print_smallest(void)
{
    SMALLEST(plan_smallest_of_columns, of_form, columns, 5);
    SMALLEST(plan_smallest_of_runs, of_form, runs, 4);
    TRY("plan_smallest_of_plans, no plans", of_number, plan_smallest_of_plans(3, 1, NULL, 0, bytes, 5, more_bytes, 5),
        plan_smallest_of_plans(3, 1, columns, 0, bytes, 5, more_bytes, 5));
    TRY("plan_smallest_of_plans, no forms", of_number, plan_smallest_of_plans(3, 1, columns, 5, NULL, 0, more_bytes, 5),
        plan_smallest_of_plans(3, 1, columns, 5, bytes, 0, more_bytes, 5));
    TRY("plan_smallest_of_plans, no witnesses", of_number, plan_smallest_of_plans(3, 1, columns, 5, bytes, 5, NULL, 0),
        plan_smallest_of_plans(3, 1, columns, 5, bytes, 5, more_bytes, 0));
    TRY("plan_smallest_of_plans, none", of_number, plan_smallest_of_plans(3, 1, NULL, 0, NULL, 0, NULL, 0),
        plan_smallest_of_plans(3, 1, columns, 0, bytes, 0, more_bytes, 0));
}

static void print_load(void)
{
    TRY("plan_load, nothing lent", of_state, plan_load(3, 1, 6, NULL, 0), plan_load(3, 1, 6, bytes, 0));
    TRY("plan_load, nothing lent and too many factors", of_state, plan_load(3, 2, 6, NULL, 0), plan_load(3, 2, 6, bytes, 0));
}

static void print_catalogue_and_books(void)
{
    TRY("plan_catalogue, no room", of_entries, plan_catalogue(3, 1, 3, NULL, 0), plan_catalogue(3, 1, 3, bytes, 0));
    TRY("plan_write_book, no plans", of_book, plan_write_book(3, 1, 3, NULL, 0, bytes, PLAN_RUNS),
        plan_write_book(3, 1, 3, columns, 0, bytes, PLAN_RUNS));
    TRY("plan_write_book, no places", of_book, plan_write_book(3, 1, 3, columns, 5, NULL, 0),
        plan_write_book(3, 1, 3, columns, 5, bytes, 0));
    TRY("plan_write_book, neither", of_book, plan_write_book(3, 1, 3, NULL, 0, NULL, 0), plan_write_book(3, 1, 3, columns, 0, bytes, 0));
    TRY("plan_read_book, no book", of_reading, plan_read_book(NULL, 0, bytes, PLAN_RUNS), plan_read_book(book, 0, bytes, PLAN_RUNS));
    TRY("plan_read_book, no places", of_reading, plan_read_book(book, sizeof book, NULL, 0), plan_read_book(book, sizeof book, bytes, 0));
    TRY("plan_read_book, neither", of_reading, plan_read_book(NULL, 0, NULL, 0), plan_read_book(book, 0, bytes, 0));
    TRY("a book without entries", of_reading, plan_read_book(empty_book, sizeof empty_book, NULL, 0),
        plan_read_book(empty_book, sizeof empty_book, bytes, 0));
}

int main(void)
{
    print_one_plan();
    print_accepted();
    print_two_plans();
    print_smallest();
    print_load();
    print_catalogue_and_books();
    return 0;
}
