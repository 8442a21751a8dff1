/* Books read from C: the examples of the request, and a book written again. Prints one line for each; reading.stdout has what must be
 * printed. */
#include "planner.h"

#include <stdio.h>
#include <string.h>

/* A value that no column has, so that an untouched place is seen. */
enum { UNTOUCHED = 199 };

/* Places of the lent list. */
enum { PLACES = 18 };

static uint8_t columns[PLACES];

/* The catalogue 4 1 3, and a byte that does not belong to it. */
static const uint8_t two_entries[] = {0x01, 4, 1, 3, 2, 0, 0x24, 1, 2, 3, 4, 0x44, 1, 0, 0, 0, 0x24, 1, 2, 4, 7, 0x44, 0, 0, 1, 0, 0};
enum { TWO_ENTRIES = sizeof two_entries - 1 };

static const uint8_t large_size[] = {0x01, 17, 1, 3, 0, 0};
static const uint8_t other_kind[] = {0x01, 4, 1, 3, 1, 0, 0x25, 2};
static const uint8_t short_word[] = {0x01, 4, 1, 4, 1, 0, 0x24, 1, 2, 3, 4, 0x44, 1, 0, 0, 0};
static const uint8_t no_entries[] = {0x01, 4, 2, 3, 0, 0};

/* The answer, and the places of the lent list that the call changed. */
static struct plan_book print_read(const char *name, const uint8_t *book, size_t length, size_t places)
{
    memset(columns, UNTOUCHED, PLACES);
    struct plan_book found = plan_read_book(book, length, columns, places);
    printf("%s: %u, N %u G %u R %u, %lu entries:", name, found.number, found.factors, found.generators, found.resolution,
           (unsigned long)found.count);
    for (size_t i = 0; i < PLACES; i++) {
        if (columns[i] != UNTOUCHED) {
            printf(" %u", columns[i]);
        }
    }
    printf("\n");
    return found;
}

static void print_examples(void)
{
    print_read("a list of one entry", two_entries, TWO_ENTRIES, PLAN_BYTES(4));
    print_read("a place too few", two_entries, TWO_ENTRIES, 2 * PLAN_BYTES(4) - 1);
    print_read("a byte too many", two_entries, TWO_ENTRIES + 1, PLACES);
    print_read("a byte too few", two_entries, TWO_ENTRIES - 1, PLACES);
    print_read("N 17, cut off", large_size, 5, PLACES);
    print_read("N 17", large_size, sizeof large_size, PLACES);
    print_read("five columns of 4", other_kind, sizeof other_kind, PLACES);
    print_read("a word of 3 for R 4", short_word, sizeof short_word, PLACES);
    print_read("no byte", no_entries, 0, PLACES);
    print_read("no entries", no_entries, sizeof no_entries, PLACES);
}

/* A book that is read, and written again with its N, G and R. */
static void print_again(void)
{
    uint8_t book[sizeof two_entries];
    struct plan_book found = print_read("two entries", two_entries, TWO_ENTRIES, PLACES);
    size_t bytes = found.count * PLAN_BYTES(found.factors);
    struct plan_bytes written = plan_write_book(found.factors, found.generators, found.resolution, columns, bytes, book, sizeof book);
    int same = written.count == TWO_ENTRIES && memcmp(book, two_entries, TWO_ENTRIES) == 0;
    printf("written again: %u, %s\n", written.number, same ? "the same bytes" : "other bytes");
}

int main(void)
{
    print_examples();
    print_again();
    return 0;
}
