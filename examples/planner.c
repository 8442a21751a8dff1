/* What planner.h can do, on the command line. Start here and take what you need.
 *
 *     cc planner.c $(pkg-config --cflags --libs planner) -o planner
 *
 * Every call is made the same way: sizes first (a book has its own), a seed after them, then lists, each with its count, and signs after words;
 * the answer is 0 or the number of a refusal. A plan in bytes has PLAN_BYTES(N) of them. */
#include "planner.h"

#include <stdio.h>
#include <stdlib.h>
#include <string.h>

static const char usage[] =
    "planner show N G PLAN           a plan's columns, switches, words and run table: + is high, - low\n"
    "planner compare N G PLAN PLAN   whether two plans are the same\n"
    "planner tables N G RUNS RUNS    whether two plans are the same, by run tables\n"
    "planner smallest N G R PLAN     a plan's smallest form, and its place in the catalogue\n"
    "planner loads N G SEED COUNT    plans that nobody picked, each with its place, and the state to go on from\n"
    "planner catalogue N G R         every plan of a size: resolution, columns, words, pattern\n"
    "planner runs N G R PLACE        the run table of an entry\n"
    "planner book N G R FILE         the catalogue as a book, in a file\n"
    "planner read FILE               what a book has, or why it is refused\n"
    "N factors, G generators, no word of fewer than R letters. A PLAN is its columns, as 1,2,4,7,\n"
    "or its words, as ABC,-CDE, with - for minus. RUNS as 0,5,6,3.\n"
    "Exit status: 0, or 1 for plans that are different, or 2 if refused.\n";

/* The exit statuses. */
enum { DONE = 0, DIFFERENT = 1, REFUSED = 2 };

/* The entries that our list has room for at first: as many as a book may have. */
enum { ROOM = 65535 };

/* No load has a word of fewer letters. */
enum { SHORTEST_WORD = 3 };

/* The factors' letters: I is left out. */
static const char letters[] = "ABCDEFGHJKLMNOPQ";

/* ---- reading arguments */

static size_t parse_number(const char *text)
{
    char *end;
    unsigned long value = strtoul(text, &end, 10);
    if (end == text || *end != '\0') {
        fprintf(stderr, "not a number: %s\n", text);
        exit(REFUSED);
    }
    return value;
}

static uint32_t parse_seed(const char *text)
{
    size_t value = parse_number(text);
    if (value > UINT32_MAX) {
        fprintf(stderr, "not a number of 32 bits: %s\n", text);
        exit(REFUSED);
    }
    return (uint32_t)value;
}

/* A list of numbers: as many places as the longest list of a plan has, and one more, so that a longer one is refused for its count. */
struct list {
    uint16_t numbers[PLAN_RUNS + 1];
    size_t count;
};

static struct list parse_list(const char *text)
{
    struct list list = {{0}, 0};
    while (*text != '\0' && list.count <= PLAN_RUNS) {
        char *end;
        unsigned long value = strtoul(text, &end, 10);
        if (end == text || value > UINT16_MAX || (*end != ',' && *end != '\0')) {
            fprintf(stderr, "not a list of numbers: %s\n", text);
            exit(REFUSED);
        }
        list.numbers[list.count++] = (uint16_t)value;
        text = *end == ',' ? end + 1 : end;
    }
    return list;
}

/* A word: its letters, each once. */
static uint16_t parse_word(const char *text, size_t length)
{
    uint16_t word = 0;
    for (size_t i = 0; i < length; i++) {
        const char *letter = strchr(letters, text[i]);
        if (letter == NULL || word >> (letter - letters) & 1) {
            fprintf(stderr, "not a word: %.*s\n", (int)length, text);
            exit(REFUSED);
        }
        word |= (uint16_t)(1u << (letter - letters));
    }
    return word;
}

/* Words with their signs: as many places as the signs have bits, and one more, so that a longer list is refused for its count. */
struct words {
    uint16_t words[PLAN_FACTORS + 1];
    uint16_t signs;
    size_t count;
};

static struct words parse_words(const char *text)
{
    struct words list = {{0}, 0, 0};
    while (*text != '\0' && list.count <= PLAN_FACTORS) {
        int minus = *text == '-';
        text += minus;
        size_t length = strcspn(text, ",");
        if (minus && list.count < PLAN_FACTORS) {
            list.signs |= (uint16_t)(1u << list.count);
        }
        list.words[list.count++] = parse_word(text, length);
        text += length + (text[length] == ',');
    }
    return list;
}

/* The bytes of a plan, as many as a list has. No column is above 127: a larger number stays one that is refused. */
struct plan {
    uint8_t bytes[PLAN_BYTES(PLAN_RUNS + 1)];
    size_t count;
};

/* Columns, with nothing switched. */
static struct plan parse_columns(const char *text)
{
    struct list numbers = parse_list(text);
    struct plan plan = {{0}, PLAN_BYTES(numbers.count)};
    for (size_t i = 0; i < numbers.count; i++) {
        plan.bytes[i] = (uint8_t)(numbers.numbers[i] > UINT8_MAX ? UINT8_MAX : numbers.numbers[i]);
    }
    return plan;
}

static int refuse(unsigned number);

/* A plan by columns or by words, which are told apart by their first character. */
static struct plan parse_plan(size_t n, size_t g, const char *text)
{
    if (*text >= '0' && *text <= '9') {
        return parse_columns(text);
    }
    struct words list = parse_words(text);
    struct plan plan = {{0}, PLAN_BYTES(n)};
    uint8_t number = plan_columns_of_words(n, g, list.words, list.count, list.signs, plan.bytes, sizeof plan.bytes);
    if (number != PLAN_ACCEPTED) {
        exit(refuse(number));
    }
    return plan;
}

/* ---- printing */

static int refuse(unsigned number)
{
    static const char *const reasons[] = {
        [PLAN_REFUSED_FACTORS] = "N is not from 1 to 16",
        [PLAN_REFUSED_GENERATORS] = "G is not below N, or N - G is above 7",
        [PLAN_REFUSED_RESOLUTION] = "R is not from 3 to 16",
        [PLAN_REFUSED_COUNT] = "a list has not the right count",
        [PLAN_REFUSED_RANGE] = "a number is too large, or a letter is past the last factor",
        [PLAN_REFUSED_DEPENDENT] = "words dependent, columns of too low a rank, or runs repeated or not regular",
        [PLAN_REFUSED_SHORT_WORD] = "the plan has a word of fewer than three letters",
        [PLAN_REFUSED_PLACES] = "a lent list is too short",
        [PLAN_REFUSED_ROOM] = "the catalogue has more entries than there is room for",
        [PLAN_REFUSED_CUT_OFF] = "the book is cut off, or has bytes left over after its last entry",
        [PLAN_REFUSED_KIND] = "a record of the book is not of the kind that is expected there",
        [PLAN_REFUSED_UNTRUE] = "an entry of the book is not in the catalogue of its N, G and R, is out of order, or has a wrong pattern",
    };
    fprintf(stderr, "refused by %u: %s\n", number, reasons[number]);
    return REFUSED;
}

/* The letters of a set of factors: a word or a mask. */
static void print_letters(uint16_t set)
{
    for (unsigned f = 0; f < PLAN_FACTORS; f++) {
        if (set >> f & 1) {
            putchar(letters[f]);
        }
    }
}

/* Words as people write them: - for minus. */
static void print_words(const uint16_t *words, uint16_t signs, size_t count)
{
    for (size_t i = 0; i < count; i++) {
        printf(signs >> i & 1 ? " -" : " ");
        print_letters(words[i]);
    }
}

/* The factors whose levels are switched. */
static void print_switched(uint16_t mask)
{
    printf("switched ");
    print_letters(mask);
    printf("%s\n", mask == 0 ? "none" : "");
}

static void print_bytes(const uint8_t *bytes, size_t count)
{
    for (size_t i = 0; i < count; i++) {
        printf(" %u", bytes[i]);
    }
}

/* A run table: a line for the letters, then one for each run. */
static void print_table(size_t n, size_t g, const uint16_t *runs)
{
    printf("%.*s\n", (int)n, letters);
    for (size_t j = 0; j < (size_t)1 << (n - g); j++) {
        for (size_t f = 0; f < n; f++) {
            putchar(runs[j] >> f & 1 ? '-' : '+');
        }
        putchar('\n');
    }
}

static void print_renaming(const uint8_t *witness, size_t n)
{
    printf("renaming");
    for (size_t f = 0; f < n; f++) {
        printf(" %c-%c", letters[f], letters[witness[f]]);
    }
    printf("\n");
}

/* ---- one plan */

static int show(size_t n, size_t g, const char *text)
{
    struct plan plan = parse_plan(n, g, text);
    uint16_t words[PLAN_FACTORS], runs[PLAN_RUNS];
    struct plan_signs found = plan_words_of_columns(n, g, plan.bytes, plan.count, words, PLAN_FACTORS);
    if (found.number != PLAN_ACCEPTED) {
        return refuse(found.number);
    }
    plan_runs_of_columns(n, g, plan.bytes, plan.count, runs, PLAN_RUNS);
    printf("columns");
    print_bytes(plan.bytes, n);
    printf("\n");
    print_switched((uint16_t)(plan.bytes[n] | plan.bytes[n + 1] << 8));
    printf("words");
    print_words(words, found.signs, g);
    printf("\n");
    print_table(n, g, runs);
    return DONE;
}

/* ---- two plans */

/* What a comparison answered, with its witness. */
static int print_compared(uint32_t answer, const uint8_t *witness, size_t n)
{
    uint16_t value = (uint16_t)PLAN_VALUE(answer);
    switch (PLAN_KIND(answer)) {
    case PLAN_SAME:
        printf("same\n");
        print_renaming(witness, n);
        print_switched(value);
        return DONE;
    case PLAN_DIFFERENT:
        printf(value == 0 ? "different, with one pattern\n" : "different: the words of %u letters are not as many\n", value);
        return DIFFERENT;
    default:
        return refuse(value);
    }
}

static int compare(size_t n, size_t g, const char *one, const char *other)
{
    struct plan first = parse_plan(n, g, one), second = parse_plan(n, g, other);
    uint8_t witness[PLAN_FACTORS];
    uint32_t answer = plan_compare_columns(n, g, first.bytes, first.count, second.bytes, second.count, witness, PLAN_FACTORS);
    return print_compared(answer, witness, n);
}

static int compare_tables(size_t n, size_t g, const char *one, const char *other)
{
    struct list first = parse_list(one), second = parse_list(other);
    uint8_t witness[PLAN_FACTORS];
    uint32_t answer = plan_compare_runs(n, g, first.numbers, first.count, second.numbers, second.count, witness, PLAN_FACTORS);
    return print_compared(answer, witness, n);
}

/* ---- catalogues */

/* A catalogue: the bytes of its entries, one after another. */
static uint8_t *entries;

/* Room for so many entries of any size in place of the room before. Returns how many places these are. */
static size_t make_room(size_t count)
{
    size_t places = count * PLAN_BYTES(PLAN_FACTORS);
    free(entries);
    entries = malloc(places);
    if (entries == NULL) {
        perror("room for entries");
        exit(REFUSED);
    }
    return places;
}

/* The catalogue, in a list that grows until it holds all entries. */
static struct plan_entries catalogue(size_t n, size_t g, size_t r)
{
    struct plan_entries found;
    size_t room = ROOM;
    do {
        size_t places = make_room(room);
        found = plan_catalogue(n, g, r, entries, places);
        room *= 4;
    } while (found.number == PLAN_REFUSED_ROOM);
    return found;
}

/* An entry's line: place, resolution, columns, words and the pattern from length 3 on. */
static void print_entry(size_t n, size_t g, size_t place, const uint8_t *plan)
{
    uint8_t resolution;
    uint16_t words[PLAN_FACTORS], pattern[PLAN_FACTORS];
    plan_resolution_of_columns(n, g, plan, PLAN_BYTES(n), &resolution, 1);
    struct plan_signs found = plan_words_of_columns(n, g, plan, PLAN_BYTES(n), words, PLAN_FACTORS);
    plan_pattern_of_columns(n, g, plan, PLAN_BYTES(n), pattern, PLAN_FACTORS);
    printf("%zu res %u columns", place, resolution);
    print_bytes(plan, n);
    printf(" words");
    print_words(words, found.signs, g);
    printf(" pattern");
    for (size_t length = 3; length <= n; length++) {
        printf(" %u", pattern[length - 1]);
    }
    printf("\n");
}

static void print_entries(size_t n, size_t g, size_t count)
{
    for (size_t i = 0; i < count; i++) {
        print_entry(n, g, i + 1, entries + i * PLAN_BYTES(n));
    }
}

static int list_catalogue(size_t n, size_t g, size_t r)
{
    struct plan_entries found = catalogue(n, g, r);
    print_entries(n, g, found.count);
    return found.number == PLAN_ACCEPTED ? DONE : refuse(found.number);
}

static int print_runs(size_t n, size_t g, size_t r, size_t place)
{
    struct plan_entries found = catalogue(n, g, r);
    if (found.number != PLAN_ACCEPTED) {
        return refuse(found.number);
    }
    if (place == 0 || place > found.count) {
        fprintf(stderr, "the catalogue has the places 1 to %zu\n", found.count);
        return REFUSED;
    }
    uint16_t runs[PLAN_RUNS];
    plan_runs_of_columns(n, g, entries + (place - 1) * PLAN_BYTES(n), PLAN_BYTES(n), runs, PLAN_RUNS);
    print_table(n, g, runs);
    return DONE;
}

/* ---- books */

/* The bytes of a book: as many as the longest has, and one more, so that a longer file is refused for what is left over. */
static uint8_t book[PLAN_BOOK_HEAD + ROOM * PLAN_BOOK_ENTRY(PLAN_FACTORS) + 1];

static int write_book(size_t n, size_t g, size_t r, const char *path)
{
    struct plan_entries found = catalogue(n, g, r);
    if (found.number != PLAN_ACCEPTED) {
        return refuse(found.number);
    }
    struct plan_bytes written = plan_write_book(n, g, r, entries, found.count * PLAN_BYTES(n), book, sizeof book);
    if (written.number != PLAN_ACCEPTED) {
        return refuse(written.number);
    }
    FILE *file = fopen(path, "wb");
    if (file == NULL || fwrite(book, 1, written.count, file) != written.count || fclose(file) != 0) {
        perror(path);
        return REFUSED;
    }
    printf("%zu entries, %zu bytes\n", found.count, written.count);
    return DONE;
}

static int read_book(const char *path)
{
    FILE *file = fopen(path, "rb");
    size_t length = file == NULL ? 0 : fread(book, 1, sizeof book, file);
    if (file == NULL || ferror(file) || fclose(file) != 0) {
        perror(path);
        return REFUSED;
    }
    size_t places = make_room(ROOM);
    struct plan_book found = plan_read_book(book, length, entries, places);
    if (found.number != PLAN_ACCEPTED) {
        return refuse(found.number);
    }
    printf("N %u, G %u, R %u, %zu entries\n", found.factors, found.generators, found.resolution, found.count);
    print_entries(found.factors, found.generators, found.count);
    return DONE;
}

/* ---- smallest form */

static int print_smallest(size_t n, size_t g, size_t r, const char *text)
{
    struct plan given = parse_plan(n, g, text);
    struct plan_entries found = catalogue(n, g, r);
    if (found.number != PLAN_ACCEPTED) {
        return refuse(found.number);
    }
    uint8_t smallest[PLAN_BYTES(PLAN_FACTORS)], witness[PLAN_FACTORS];
    struct plan_form form = plan_smallest_of_columns(n, g, given.bytes, given.count, entries, found.count * PLAN_BYTES(n), smallest,
                                                     sizeof smallest, witness, PLAN_FACTORS);
    if (form.number != PLAN_ACCEPTED) {
        return refuse(form.number);
    }
    printf("columns");
    print_bytes(smallest, n);
    printf("\n");
    print_renaming(witness, n);
    print_switched(form.mask);
    printf("place %zu of %zu\n", form.place, found.count);
    return DONE;
}

/* ---- loads */

/* The place of a smallest form in the catalogue, from 1; 0 if it is absent. The entries stand in dictionary order and their masks are 0, so
 * memcmp has their order. plan_smallest_of_columns finds the place too, but judges all the entries for each plan. */
static size_t place_of(const uint8_t *form, size_t n, size_t count)
{
    size_t first = 0, after = count;
    while (first < after) {
        size_t middle = first + (after - first) / 2;
        int order = memcmp(form, entries + middle * PLAN_BYTES(n), PLAN_BYTES(n));
        if (order == 0) {
            return middle + 1;
        }
        if (order < 0) {
            after = middle;
        } else {
            first = middle + 1;
        }
    }
    return 0;
}

static void print_load(size_t n, size_t g, const uint8_t *plan, size_t count)
{
    uint8_t smallest[PLAN_BYTES(PLAN_FACTORS)], witness[PLAN_FACTORS];
    plan_smallest_of_columns(n, g, plan, PLAN_BYTES(n), NULL, 0, smallest, sizeof smallest, witness, PLAN_FACTORS);
    printf("columns");
    print_bytes(plan, n);
    printf(" place %zu of %zu\n", place_of(smallest, n, count), count);
}

/* Loads in a row: each goes on from the state of the one before. */
static int print_loads(size_t n, size_t g, uint32_t state, size_t count)
{
    struct plan_entries found = catalogue(n, g, SHORTEST_WORD);
    if (found.number != PLAN_ACCEPTED) {
        return refuse(found.number);
    }
    for (size_t i = 0; i < count; i++) {
        uint8_t plan[PLAN_BYTES(PLAN_FACTORS)];
        struct plan_state load = plan_load(n, g, state, plan, sizeof plan);
        if (load.number != PLAN_ACCEPTED) {
            return refuse(load.number);
        }
        print_load(n, g, plan, found.count);
        state = load.state;
    }
    printf("state %lu\n", (unsigned long)state);
    return DONE;
}

/* ---- commands */

/* Whether the arguments are this command's: its name and then this many. */
static int is(const char *name, int count, int argc, char **argv)
{
    return argc == count + 2 && strcmp(argv[1], name) == 0;
}

int main(int argc, char **argv)
{
    if (is("show", 3, argc, argv)) {
        return show(parse_number(argv[2]), parse_number(argv[3]), argv[4]);
    }
    if (is("compare", 4, argc, argv)) {
        return compare(parse_number(argv[2]), parse_number(argv[3]), argv[4], argv[5]);
    }
    if (is("tables", 4, argc, argv)) {
        return compare_tables(parse_number(argv[2]), parse_number(argv[3]), argv[4], argv[5]);
    }
    if (is("smallest", 4, argc, argv)) {
        return print_smallest(parse_number(argv[2]), parse_number(argv[3]), parse_number(argv[4]), argv[5]);
    }
    if (is("loads", 4, argc, argv)) {
        return print_loads(parse_number(argv[2]), parse_number(argv[3]), parse_seed(argv[4]), parse_number(argv[5]));
    }
    if (is("catalogue", 3, argc, argv)) {
        return list_catalogue(parse_number(argv[2]), parse_number(argv[3]), parse_number(argv[4]));
    }
    if (is("runs", 4, argc, argv)) {
        return print_runs(parse_number(argv[2]), parse_number(argv[3]), parse_number(argv[4]), parse_number(argv[5]));
    }
    if (is("book", 4, argc, argv)) {
        return write_book(parse_number(argv[2]), parse_number(argv[3]), parse_number(argv[4]), argv[5]);
    }
    if (is("read", 1, argc, argv)) {
        return read_book(argv[2]);
    }
    fputs(usage, stderr);
    return REFUSED;
}
