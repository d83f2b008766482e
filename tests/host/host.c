/* A host like the firmware. It calls the eleven functions on a table of inputs and prints each reply and every
 * lent byte afterwards; what it must print is written by hand in expected.txt. It knows the engine from its
 * header alone: no code and no limit stands here as a number.
 *
 * It is built as C99 and as C++. Each area is a heap block of its true length, so that valgrind sees a byte
 * touched beside it. */
#include "controller.h"

#include <inttypes.h>
#include <stdio.h>
#include <stdlib.h>
#include <string.h>

typedef struct {
    const char *name;
    long number;
} constant;

#define CONSTANT(name) {#name, CONTROLLER_##name}

static const constant codes[] = {
    CONSTANT(AREA_TOO_LONG),  CONSTANT(WORK_TOO_SHORT), CONSTANT(LENGTH_TOO_LONG), CONSTANT(FUEL_TOO_HIGH),
    CONSTANT(NO_LETTER),      CONSTANT(NOT_WHOLE),      CONSTANT(BEYOND),          CONSTANT(FILE_TOO_LONG),
    CONSTANT(FILE_EMPTY),     CONSTANT(NO_LINE_END),    CONSTANT(TOO_MANY_LINES),  CONSTANT(NOT_SIX_FIELDS),
    CONSTANT(MALFORMED),      CONSTANT(UNKNOWN_RULE),   CONSTANT(BAD_PREMISE),     CONSTANT(NO_INSTANCE),
    CONSTANT(NO_CHAIN),       CONSTANT(NO_TABLE),       CONSTANT(BAD_ROW),         CONSTANT(BAD_LINE),
    CONSTANT(NAME_TAKEN),     CONSTANT(NAME_UNKNOWN),   CONSTANT(NO_CATALOGUE),    CONSTANT(NOT_NORMAL),
    CONSTANT(CATALOGUE_FULL), CONSTANT(JOIN_TOO_LARGE), CONSTANT(NORMAL),          CONSTANT(STEP_NO_ROOM),
    CONSTANT(STEPPED),        CONSTANT(WHOLE),          CONSTANT(FINISHED),        CONSTANT(SPENT),
    CONSTANT(NO_ROOM),        CONSTANT(SAME),           CONSTANT(DIFFERENT),       CONSTANT(UNDECIDED),
    CONSTANT(ACCEPTED),       CONSTANT(RUNG),           CONSTANT(ENTERED),         CONSTANT(JOINED),
    CONSTANT(MATCH),          CONSTANT(NO_MATCH),
};

static const constant limits[] = {
    CONSTANT(LARGEST_AREA),
    CONSTANT(MOST_FUEL),
    CONSTANT(LARGEST_FILE),
    CONSTANT(MOST_LINES),
    CONSTANT(RULES),
    CONSTANT(COUNTS_SIZE),
    CONSTANT(JOIN_FRAME),
    CONSTANT(FEWEST_BELLS),
    CONSTANT(MOST_BELLS),
    CONSTANT(MOST_ROWS),
    CONSTANT(STORE_SIZE),
    CONSTANT(MOST_ENTRIES),
    CONSTANT(MOST_LETTERS),
    CONSTANT(BOOK_STORE),
    CONSTANT(BOOK_LINES),
    CONSTANT(LARGEST_BOOK),
    CONSTANT(LONGEST_NAME),
};

#define COUNT(table) (sizeof(table) / sizeof(table)[0])

/* Every constant of the header with its number. */
static void constants(void)
{
    for (size_t place = 0; place < COUNT(codes); place++)
        printf("constant %s %ld\n", codes[place].name, codes[place].number);
    for (size_t place = 0; place < COUNT(limits); place++)
        printf("constant %s %ld\n", limits[place].name, limits[place].number);
}

static const char *name_of(unsigned code)
{
    for (size_t place = 0; place < COUNT(codes); place++)
        if (codes[place].number == (long)code)
            return codes[place].name;
    return "(unknown)";
}

/* The name of the code, and the parts that the header gives a reply with that code. */
static void print_reply(uint64_t reply)
{
    printf(": %s", name_of(CONTROLLER_CODE(reply)));
    if (CONTROLLER_REFUSED(reply) || CONTROLLER_CODE(reply) == CONTROLLER_WHOLE)
        printf(" at %" PRIu64, CONTROLLER_PLACE(reply));
    else
        printf(" value %" PRIu32 " size %" PRIu32, CONTROLLER_VALUE(reply), CONTROLLER_SIZE(reply));
}

/* Letters are printed as they are, a zero byte as _ and any other byte as its number. */
static void print_bytes(const char *name, const uint8_t *bytes, size_t size)
{
    printf(" %s ", name);
    for (size_t place = 0; place < size; place++) {
        if (bytes[place] == 0)
            putchar('_');
        else if (bytes[place] > ' ' && bytes[place] < 127 && bytes[place] != '_')
            putchar(bytes[place]);
        else
            printf("<%d>", bytes[place]);
    }
    if (size == 0)
        printf("(none)");
}

/* A heap block of exactly this size that starts with the text and goes on with the filling. */
static uint8_t *block(const char *text, size_t text_size, size_t size, uint8_t filling)
{
    uint8_t *bytes = (uint8_t *)malloc(size > 0 ? size : 1);
    if (bytes == NULL)
        exit(2);
    for (size_t place = 0; place < size; place++)
        bytes[place] = place < text_size ? (uint8_t)text[place] : filling;
    return bytes;
}

static uint8_t *work_of(size_t size)
{
    return block("", 0, size, 'w');
}

/* Reading, of the text and of one byte again and again. */

static void read_bytes(const char *name, const char *text, size_t size)
{
    uint8_t *bytes = block(text, size, size, 0);
    printf("read %s", name);
    print_reply(controller_read(bytes, size));
    printf(" %s\n", size == 0 || memcmp(bytes, text, size) == 0 ? "unchanged" : "CHANGED");
    free(bytes);
}

static void read_text(const char *text)
{
    read_bytes(text, text, strlen(text));
}

static void read_repeated(const char *name, char byte, size_t times, const char *end)
{
    size_t size = times + strlen(end);
    uint8_t *bytes = block("", 0, size, (uint8_t)byte);
    memcpy(bytes + times, end, strlen(end));
    printf("read %s", name);
    print_reply(controller_read(bytes, size));
    putchar('\n');
    free(bytes);
}

/* Stepping and finishing in areas of the given sizes. */

static void step(const char *term, size_t area_size, size_t term_size, size_t work_size)
{
    uint8_t *area = block(term, strlen(term), area_size, '#');
    uint8_t *work = work_of(work_size);
    printf("step %s", term);
    print_reply(controller_step(area, area_size, term_size, work, work_size));
    print_bytes("area", area, area_size);
    print_bytes("work", work, work_size);
    putchar('\n');
    free(area);
    free(work);
}

static void finish(const char *term, size_t area_size, size_t term_size, size_t work_size, uint64_t fuel)
{
    uint8_t *area = block(term, strlen(term), area_size, '#');
    uint8_t *work = work_of(work_size);
    printf("finish %s fuel %" PRIu64, term, fuel);
    print_reply(controller_finish(area, area_size, term_size, work, work_size, fuel));
    print_bytes("area", area, area_size);
    print_bytes("work", work, work_size);
    putchar('\n');
    free(area);
    free(work);
}

/* A large area is not printed; its first byte and its last are. */
static void finish_large(size_t area_size, size_t work_size)
{
    uint8_t *area = block("J", 1, area_size, '#');
    uint8_t *work = work_of(work_size);
    printf("finish in %zu and %zu", area_size, work_size);
    print_reply(controller_finish(area, area_size, 1, work, work_size, 5));
    print_bytes("first", area, 1);
    print_bytes("last", area + area_size - 1, 1);
    print_bytes("work", work, 1);
    print_bytes("last", work + work_size - 1, 1);
    putchar('\n');
    free(area);
    free(work);
}

/* Some letters over and over, then an end, in an area of exactly that size. */
static void finish_nested(const char *letters, size_t times, const char *end, uint64_t fuel)
{
    size_t size = strlen(letters) * times + strlen(end);
    uint8_t *area = block("", 0, size, 0);
    uint8_t *work = work_of(size);
    for (size_t place = 0; place < strlen(letters) * times; place++)
        area[place] = (uint8_t)letters[place % strlen(letters)];
    memcpy(area + strlen(letters) * times, end, strlen(end));
    printf("finish %s^%zu %s", letters, times, end);
    print_reply(controller_finish(area, size, size, work, size, fuel));
    print_bytes("first", area, 3);
    putchar('\n');
    free(area);
    free(work);
}

/* Finishing with counts, in a buffer of the given size. */

/* The count of each rule, and the bytes behind the counts. */
static void print_counts(const uint8_t *counts, size_t size)
{
    printf(" counts");
    for (int rule = 1; rule <= CONTROLLER_RULES; rule++)
        printf(" %" PRIu32, CONTROLLER_COUNT(counts, rule));
    print_bytes("behind", counts + CONTROLLER_COUNTS_SIZE, size - CONTROLLER_COUNTS_SIZE);
}

static uint8_t *counts_of(size_t size)
{
    return block("", 0, size, 'c');
}

static void finish_counted(const char *term, size_t area_size, size_t term_size, size_t work_size, uint64_t fuel,
                           size_t counts_size)
{
    uint8_t *area = block(term, strlen(term), area_size, '#');
    uint8_t *work = work_of(work_size);
    uint8_t *counts = counts_of(counts_size);
    uint64_t reply =
        controller_finish_counted(area, area_size, term_size, work, work_size, fuel, counts, counts_size);
    printf("count %s fuel %" PRIu64, term, fuel);
    print_reply(reply);
    print_bytes("area", area, area_size);
    print_bytes("work", work, work_size);
    if (CONTROLLER_REFUSED(reply) || counts_size < CONTROLLER_COUNTS_SIZE)
        print_bytes("counts", counts, counts_size);
    else
        print_counts(counts, counts_size);
    putchar('\n');
    free(area);
    free(work);
    free(counts);
}

/* Of large areas the first byte and the last are printed. */
static void finish_counted_large(size_t area_size, size_t counts_size)
{
    uint8_t *area = block("J", 1, area_size, '#');
    uint8_t *work = work_of(area_size);
    uint8_t *counts = counts_of(counts_size);
    printf("count in %zu and %zu", area_size, counts_size);
    print_reply(controller_finish_counted(area, area_size, 1, work, area_size, 5, counts, counts_size));
    print_bytes("first", area, 1);
    print_bytes("last", area + area_size - 1, 1);
    print_bytes("work", work, 1);
    print_bytes("last", work + area_size - 1, 1);
    print_bytes("counts", counts, 1);
    print_bytes("last", counts + counts_size - 1, 1);
    putchar('\n');
    free(area);
    free(work);
    free(counts);
}

/* Two letters over and over, then one, in an area of exactly that size. */
static void finish_counted_nested(const char *letters, size_t times, char end)
{
    size_t size = 2 * times + 1;
    uint8_t *area = block("", 0, size, (uint8_t)end);
    uint8_t *work = work_of(size);
    uint8_t *counts = counts_of(CONTROLLER_COUNTS_SIZE);
    for (size_t place = 0; place < 2 * times; place++)
        area[place] = (uint8_t)letters[place % 2];
    printf("count %s^%zu %c", letters, times, end);
    print_reply(controller_finish_counted(area, size, size, work, size, CONTROLLER_MOST_FUEL, counts,
                                          CONTROLLER_COUNTS_SIZE));
    print_counts(counts, CONTROLLER_COUNTS_SIZE);
    putchar('\n');
    free(area);
    free(work);
    free(counts);
}

/* The macro for counts, on bytes that are all different; its arguments may be sums. */
static void counts_by_macro(void)
{
    uint8_t counts[CONTROLLER_COUNTS_SIZE];
    int two = 2;
    for (size_t place = 0; place < sizeof counts; place++)
        counts[place] = (uint8_t)(255 - place);
    printf("counts of falling bytes: %" PRIu32 " %" PRIu32 " %" PRIu32 "\n", CONTROLLER_COUNT(counts, 1),
           CONTROLLER_COUNT(counts + 4, two - 1), CONTROLLER_COUNT(counts, CONTROLLER_RULES));
}

/* Comparing of two terms, in areas of these sizes. */
static void compare(const char *one, size_t one_size, const char *two, size_t two_size, size_t work_size,
                    uint64_t fuel)
{
    uint8_t *first = block(one, strlen(one), one_size, '#');
    uint8_t *second = block(two, strlen(two), two_size, '#');
    uint8_t *work = work_of(work_size);
    printf("compare %s and %s fuel %" PRIu64, one, two, fuel);
    print_reply(controller_compare(first, one_size, strlen(one), second, two_size, strlen(two), work, work_size,
                                   fuel));
    print_bytes("first", first, one_size);
    print_bytes("second", second, two_size);
    print_bytes("work", work, work_size);
    putchar('\n');
    free(first);
    free(second);
    free(work);
}

/* Joining, into an area of this size. */
static void join_bytes(const char *name, const char *f, size_t f_size, const char *g, size_t g_size,
                       size_t area_size)
{
    uint8_t *first = block(f, f_size, f_size, 0);
    uint8_t *second = block(g, g_size, g_size, 0);
    uint8_t *area = block("", 0, area_size, '#');
    printf("join %s", name);
    print_reply(controller_join(first, f_size, second, g_size, area, area_size));
    print_bytes("f", first, f_size);
    print_bytes("g", second, g_size);
    print_bytes("area", area, area_size);
    putchar('\n');
    free(first);
    free(second);
    free(area);
}

static void join(const char *f, const char *g, size_t area_size)
{
    char name[64];
    snprintf(name, sizeof name, "%s and %s", f, g);
    join_bytes(name, f, strlen(f), g, strlen(g), area_size);
}

/* One block is both terms. */
static void join_with_itself(const char *text, size_t area_size)
{
    size_t size = strlen(text);
    uint8_t *both = block(text, size, size, 0);
    uint8_t *area = block("", 0, area_size, '#');
    printf("join %s with itself", text);
    print_reply(controller_join(both, size, both, size, area, area_size));
    print_bytes("text", both, size);
    print_bytes("area", area, area_size);
    putchar('\n');
    free(both);
    free(area);
}

/* The join stands behind a full stop and before a term, and what they make up is finished. */
static void join_and_finish(const char *f, const char *g, const char *t, size_t area_size)
{
    uint8_t *area = block(".", 1, area_size, '#');
    uint8_t *work = work_of(area_size);
    uint64_t reply = controller_join((const uint8_t *)f, strlen(f), (const uint8_t *)g, strlen(g), area + 1,
                                     area_size - 1);
    size_t size = 1 + CONTROLLER_SIZE(reply) + strlen(t);
    memcpy(area + 1 + CONTROLLER_SIZE(reply), t, strlen(t));
    printf("join %s and %s, on %s", f, g, t);
    print_reply(controller_finish(area, area_size, size, work, area_size, CONTROLLER_MOST_FUEL));
    print_bytes("area", area, area_size);
    putchar('\n');
    free(area);
    free(work);
}

/* An index of so many letters with itself, in an area with so many bytes more than the join has. */
static void join_long(size_t times, size_t more)
{
    size_t size = times + 1, whole = 2 * size + CONTROLLER_JOIN_FRAME;
    uint8_t *index = block("", 0, size, 'R');
    uint8_t *area = block("", 0, whole + more, '#');
    index[times] = 'J';
    printf("join R^%zu J with itself", times);
    print_reply(controller_join(index, size, index, size, area, whole + more));
    print_bytes("first", area, 4);
    print_bytes("middle", area + 1 + size, 4);
    print_bytes("last", area + 3 + 2 * size, 9 + more);
    putchar('\n');
    free(index);
    free(area);
}

/* Rows of so many bells, into a table of this size. */
static void rows_of(const char *name, const char *term, size_t term_size, size_t bells, size_t table_size)
{
    uint8_t *piece = block(term, term_size, term_size, 0);
    uint8_t *table = block("", 0, table_size, '#');
    printf("rows %s of %zu", name, bells);
    print_reply(controller_rows(piece, term_size, bells, table, table_size));
    print_bytes("term", piece, term_size);
    print_bytes("table", table, table_size);
    putchar('\n');
    free(piece);
    free(table);
}

static void rows(const char *term, size_t bells, size_t table_size)
{
    rows_of(term, term, strlen(term), bells, table_size);
}

/* A term is finished, and what is left is rung. */
static void finish_and_ring(const char *term, size_t area_size, size_t bells, size_t table_size)
{
    uint8_t *area = block(term, strlen(term), area_size, '#');
    uint8_t *work = work_of(area_size);
    uint8_t *table = block("", 0, table_size, '#');
    uint64_t reply = controller_finish(area, area_size, strlen(term), work, area_size, CONTROLLER_MOST_FUEL);
    printf("rows %s finished, of %zu", term, bells);
    print_reply(controller_rows(area, CONTROLLER_SIZE(reply), bells, table, table_size));
    print_bytes("term", area, CONTROLLER_SIZE(reply));
    print_bytes("table", table, table_size);
    putchar('\n');
    free(area);
    free(work);
    free(table);
}

/* Some letters over and over and I; of the table the first row and the last bytes of as many are printed. */
static void rows_repeated(const char *name, const char *letters, size_t times, size_t bells, size_t table_size)
{
    size_t length = strlen(letters) * times;
    uint8_t *piece = block("", 0, length + 1, 'I');
    uint8_t *table = block("", 0, table_size, '#');
    for (size_t place = 0; place < length; place++)
        piece[place] = (uint8_t)letters[place % strlen(letters)];
    printf("rows %s of %zu in %zu", name, bells, table_size);
    print_reply(controller_rows(piece, length + 1, bells, table, table_size));
    print_bytes("first", table, CONTROLLER_MOST_BELLS);
    print_bytes("last", table + table_size - CONTROLLER_MOST_BELLS, CONTROLLER_MOST_BELLS);
    putchar('\n');
    free(piece);
    free(table);
}

/* The catalogue: entries into one store, one after the other. Of the store the fronts of two results and the first
 * letters are printed, and what is behind it; and how many of its bytes are not zero. */

#define FRONTS (8 * CONTROLLER_MOST_ENTRIES)

/* A new store, with # behind it to the end of so many bytes. */
static uint8_t *store_of(size_t size)
{
    uint8_t *store = block("", 0, size, '#');
    memset(store, 0, CONTROLLER_STORE_SIZE);
    return store;
}

static void print_store(const uint8_t *store, size_t size)
{
    size_t used = 0;
    for (size_t place = 0; place < CONTROLLER_STORE_SIZE; place++)
        used += store[place] != 0;
    print_bytes("fronts", store, 16);
    print_bytes("letters", store + FRONTS, 8);
    printf(" used %zu", used);
    print_bytes("behind", store + CONTROLLER_STORE_SIZE, size - CONTROLLER_STORE_SIZE);
}

static void enter_bytes(const char *name, const char *term, size_t term_size, uint8_t *store, size_t store_size)
{
    uint8_t *text = block(term, term_size, term_size, 0);
    printf("enter %s", name);
    print_reply(controller_enter(text, term_size, store, store_size));
    print_bytes("term", text, term_size);
    if (store_size < CONTROLLER_STORE_SIZE)
        print_bytes("store", store, store_size < 8 ? store_size : 8);
    else
        print_store(store, store_size);
    putchar('\n');
    free(text);
}

static void enter(const char *term, uint8_t *store, size_t store_size)
{
    enter_bytes(term, term, strlen(term), store, store_size);
}

/* A new store with one byte another. */
static void enter_with(size_t place, uint8_t byte, const char *term)
{
    uint8_t *store = store_of(CONTROLLER_STORE_SIZE);
    store[place] = byte;
    printf("byte %zu is %d, ", place, byte);
    enter(term, store, CONTROLLER_STORE_SIZE);
    free(store);
}

/* A term is finished, and its result is entered. */
static void finish_and_enter(const char *term, size_t area_size, uint8_t *store, size_t store_size)
{
    uint8_t *area = block(term, strlen(term), area_size, '#');
    uint8_t *work = work_of(area_size);
    uint64_t reply = controller_finish(area, area_size, strlen(term), work, area_size, CONTROLLER_MOST_FUEL);
    printf("enter %s finished", term);
    print_reply(controller_enter(area, CONTROLLER_SIZE(reply), store, store_size));
    print_bytes("term", area, CONTROLLER_SIZE(reply));
    putchar('\n');
    free(area);
    free(work);
}

/* An index of so many letters. */
static void enter_index(size_t size, uint8_t *store, size_t store_size)
{
    uint8_t *index = block("", 0, size, 'R');
    index[size - 1] = 'J';
    printf("enter an index of %zu letters", size);
    print_reply(controller_enter(index, size, store, store_size));
    print_store(store, store_size);
    putchar('\n');
    free(index);
}

/* As many indices as there may be, and one more; then a known one from a copy of the store. */
static void enter_many(void)
{
    uint8_t *store = store_of(CONTROLLER_STORE_SIZE);
    uint8_t *copy = store_of(CONTROLLER_STORE_SIZE);
    uint8_t *index = block("", 0, CONTROLLER_MOST_ENTRIES + 1, 'R');
    size_t given = 0;
    index[CONTROLLER_MOST_ENTRIES] = 'J';
    for (size_t size = 1; size <= CONTROLLER_MOST_ENTRIES; size++) {
        const uint8_t *text = index + CONTROLLER_MOST_ENTRIES + 1 - size;
        given += CONTROLLER_VALUE(controller_enter(text, size, store, CONTROLLER_STORE_SIZE)) == size;
    }
    printf("enter %d indices: %zu have their numbers; then", (int)CONTROLLER_MOST_ENTRIES, given);
    print_reply(controller_enter(index, CONTROLLER_MOST_ENTRIES + 1, store, CONTROLLER_STORE_SIZE));
    memcpy(copy, store, CONTROLLER_STORE_SIZE);
    print_reply(controller_enter(index + 1, CONTROLLER_MOST_ENTRIES, copy, CONTROLLER_STORE_SIZE));
    printf(" %s", memcmp(copy, store, CONTROLLER_STORE_SIZE) == 0 ? "unchanged" : "CHANGED");
    print_store(store, CONTROLLER_STORE_SIZE);
    putchar('\n');
    free(store);
    free(copy);
    free(index);
}

/* Books, written with / for a line feed and a space for a tab. Of the store it is printed how many of its bytes are
 * zeros afterwards, and what is behind it; of a long area its first bytes. */

static void play_bytes(const char *name, const uint8_t *book, size_t book_size, size_t area_size, size_t work_size,
                       size_t store_size, uint64_t fuel)
{
    uint8_t *area = block("", 0, area_size, '#');
    uint8_t *work = work_of(work_size);
    uint8_t *store = block("", 0, store_size, 's');
    size_t whole = CONTROLLER_BOOK_STORE, zeros = 0;
    size_t own = store_size < whole ? store_size : whole;
    printf("book %s", name);
    print_reply(controller_book(book, book_size, area, area_size, work, work_size, store, store_size, fuel));
    for (size_t place = 0; place < own; place++)
        zeros += store[place] == 0;
    print_bytes("area", area, area_size < 16 ? area_size : 16);
    print_bytes("work", work, work_size < 16 ? work_size : 16);
    printf(" zeros %zu of %zu", zeros, own);
    print_bytes("behind", store + own, store_size - own);
    putchar('\n');
    free(area);
    free(work);
    free(store);
}

static uint8_t *book_of(const char *text, size_t size)
{
    uint8_t *book = block(text, size, size, 0);
    for (size_t place = 0; place < size; place++)
        book[place] = (uint8_t)(book[place] == '/' ? '\n' : book[place] == ' ' ? '\t' : book[place]);
    return book;
}

static void play_in(const char *text, size_t area_size, size_t work_size, size_t store_size, uint64_t fuel)
{
    size_t size = strlen(text);
    uint8_t *book = book_of(text, size);
    uint8_t *before = book_of(text, size);
    play_bytes(text, book, size, area_size, work_size, store_size, fuel);
    if (memcmp(book, before, size) != 0)
        printf("the book CHANGED\n");
    free(book);
    free(before);
}

/* In an area of this size, with all else that is lent as it has to be. */
static void play(const char *text, size_t area_size, uint64_t fuel)
{
    play_in(text, area_size, area_size, CONTROLLER_BOOK_STORE, fuel);
}

/* A book of a line of so many bytes. */
static void play_long(size_t size)
{
    uint8_t *book = block("a\t", 2, size, 'R');
    char name[64];
    book[size - 2] = 'J';
    book[size - 1] = '\n';
    snprintf(name, sizeof name, "of a line of %zu bytes", size);
    play_bytes(name, book, size, CONTROLLER_LARGEST_AREA, CONTROLLER_LARGEST_AREA, CONTROLLER_BOOK_STORE, 9);
    free(book);
}

/* A line whose name has so many letters. */
static void play_name(size_t letters)
{
    uint8_t *book = block("", 0, letters + 3, 'n');
    char name[64];
    memcpy(book + letters, "\tJ\n", 3);
    snprintf(name, sizeof name, "of a name of %zu letters", letters);
    play_bytes(name, book, letters + 3, 9, 9, CONTROLLER_BOOK_STORE, 9);
    free(book);
}

/* So many lines, each with a name of two letters. */
static void play_lines(size_t lines)
{
    uint8_t *book = block("", 0, 5 * lines, 0);
    char name[64];
    for (size_t line = 0; line < lines; line++) {
        book[5 * line] = (uint8_t)('a' + line / 26);
        book[5 * line + 1] = (uint8_t)('a' + line % 26);
        memcpy(book + 5 * line + 2, "\tT\n", 3);
    }
    snprintf(name, sizeof name, "of %zu lines", lines);
    play_bytes(name, book, 5 * lines, 9, 9, CONTROLLER_BOOK_STORE, 9);
    free(book);
}

/* A line with as many letters as an area may have, and further lines. */
static void play_letters(const char *others, size_t store_size)
{
    size_t letters = CONTROLLER_LARGEST_AREA, size = letters + 3 + strlen(others);
    uint8_t *book = block("a\t", 2, size, 'R');
    uint8_t *behind = book_of(others, strlen(others));
    char name[64];
    book[letters + 1] = 'J';
    book[letters + 2] = '\n';
    memcpy(book + letters + 3, behind, strlen(others));
    snprintf(name, sizeof name, "of %zu letters, then %s", letters, others);
    play_bytes(name, book, size, letters, letters, store_size, CONTROLLER_MOST_FUEL);
    free(book);
    free(behind);
}

/* Checking of a file and of one byte again and again; matching of two files. */

static void check_bytes(const char *name, const char *file, size_t size)
{
    uint8_t *bytes = block(file, size, size, 0);
    printf("check %s", name);
    print_reply(controller_check(bytes, size));
    printf(" %s\n", size == 0 || memcmp(bytes, file, size) == 0 ? "unchanged" : "CHANGED");
    free(bytes);
}

static void check(const char *name, const char *file)
{
    check_bytes(name, file, strlen(file));
}

static void check_repeated(const char *name, char byte, size_t size)
{
    uint8_t *bytes = block("", 0, size, (uint8_t)byte);
    printf("check %s", name);
    print_reply(controller_check(bytes, size));
    putchar('\n');
    free(bytes);
}

static void match(const char *name, const char *one, const char *two)
{
    uint8_t *first = block(one, strlen(one), strlen(one), 0);
    uint8_t *second = block(two, strlen(two), strlen(two), 0);
    printf("match %s", name);
    print_reply(controller_match(first, strlen(one), second, strlen(two)));
    printf(" %s\n", memcmp(first, one, strlen(one)) == 0 && memcmp(second, two, strlen(two)) == 0 ? "unchanged"
                                                                                                  : "CHANGED");
    free(first);
    free(second);
}

/* The tables. */

static void readings(void)
{
    read_text(".BII.JRJ");
    read_text("J");
    read_text("Jx");
    read_text("xJ");
    read_text("HxJJ");
    read_text("R.");
    read_text("JJ");
    read_bytes("nothing", "", 0);
    read_bytes("HJJ and a NUL", "HJJ\0", 4);
    read_text("1");
    read_text("T");
    read_text("BEB0I");
    read_text("J1");
    read_text("10");
    read_text("HK1");
}

static void long_readings(void)
{
    read_repeated("R^17000000", 'R', 17000000, "");
    read_repeated("R^17000000 J", 'R', 17000000, "J");
    read_repeated("R^17000000 x", 'R', 17000000, "x");
    read_repeated("R^17000000 JJ", 'R', 17000000, "JJ");
}

static void steps(void)
{
    step("J", 3, 1, 3);
    step("J", 3, 1, 5);
    step(".JI", 3, 3, 3);
    step(".RJI", 5, 4, 5);
    step(".HJII", 5, 5, 5);
    step(".AIJRJ", 6, 6, 6);
    step(".IRJ", 6, 4, 6);
    step(".BRJIJ", 6, 6, 7);
    step(".BJIRRJ", 7, 7, 7);
    step(".BIIHJJ", 11, 7, 11);
    step(".BIIHJJ", 10, 7, 10);
    step(".BJIARJHJJ", 10, 10, 10);
    step(".BJII", 5, 5, 5);
    step(".BIIBJJ", 11, 7, 11);
    step(".BIIBJJ", 10, 7, 12);
    step("AI.IJ", 5, 5, 5);
    step("T", 3, 1, 3);
    step(".1J", 3, 3, 3);
    step(".1.II", 6, 5, 6);
    step(".BJI1", 5, 5, 5);
    step(".BJI.0J", 7, 7, 8);
}

static void step_refusals(void)
{
    step("J", 3, 1, 2);
    step("J", 3, 4, 3);
    step("J", 3, SIZE_MAX, 3);
    step("J", 3, (size_t)1 << 32, 3);
    step("", 0, 0, 0);
    step("JJ", 3, 2, 3);
    step("Jx", 3, 2, 3);
    step("xJ", 3, 2, 3);
    step("HJ", 3, 2, 3);
    step("R.", 2, 2, 2);
}

static void runs(void)
{
    finish("J", 2, 1, 2, 0);
    finish(".BII.JRJ", 12, 8, 12, 6);
    finish(".BII.JRJ", 12, 8, 12, 5);
    finish(".BII.JRJ", 12, 8, 12, CONTROLLER_MOST_FUEL);
    finish(".BII.JRJ", 11, 8, 11, 0);
    finish(".BII.JRJ", 11, 8, 11, 1);
    finish(".BII.JRJ", 11, 8, 11, 2);
    finish(".BIIAIRJ", 8, 8, 8, 100);
    finish(".BIIABJIRJ", 14, 10, 14, 100);
    finish(".B.AIHJJAIHJJI.II", 17, 17, 17, 100);
    finish(".AIHJJAIHJJ", 30, 11, 30, 3);
    finish(".BJI.1T", 11, 7, 11, 100);
    finish(".BJI.1T", 10, 7, 10, 100);
    finish(".B1B2B3IBRRJBRJBJI", 33, 18, 33, 100);
}

static void long_runs(void)
{
    finish_nested("R", CONTROLLER_LARGEST_AREA - 1, "J", 1);
    finish_nested(".I", CONTROLLER_LARGEST_AREA / 2 - 1, "J", CONTROLLER_MOST_FUEL);
    finish_nested(".J", CONTROLLER_LARGEST_AREA / 2 - 1, "J", CONTROLLER_MOST_FUEL);
    finish_nested(".1", CONTROLLER_LARGEST_AREA / 2 - 1, "T", CONTROLLER_MOST_FUEL);
}

static void run_refusals(void)
{
    finish("J", 3, 1, 3, CONTROLLER_MOST_FUEL + 1);
    finish("J", 3, 1, 3, UINT64_MAX);
    finish("J", 3, 4, 3, CONTROLLER_MOST_FUEL + 1);
    finish("xJ", 3, 2, 3, CONTROLLER_MOST_FUEL + 1);
    finish("JJ", 3, 2, 3, 1);
    finish("HJ", 3, 2, 3, 1);
    finish_large(CONTROLLER_LARGEST_AREA, CONTROLLER_LARGEST_AREA);
    finish_large(CONTROLLER_LARGEST_AREA + 1, CONTROLLER_LARGEST_AREA + 1);
    finish_large(CONTROLLER_LARGEST_AREA, CONTROLLER_LARGEST_AREA - 1);
}

static void counted_runs(void)
{
    finish_counted("J", 2, 1, 2, 0, CONTROLLER_COUNTS_SIZE);
    finish_counted(".BII.JRJ", 12, 8, 12, 6, CONTROLLER_COUNTS_SIZE);
    finish_counted(".BII.JRJ", 12, 8, 13, 5, CONTROLLER_COUNTS_SIZE + 3);
    finish_counted(".BII.JRJ", 11, 8, 11, 2, CONTROLLER_COUNTS_SIZE + 1);
    finish_counted(".BII.JRJ", 11, 8, 11, 0, CONTROLLER_COUNTS_SIZE);
    finish_counted(".BIIABJIRJ", 14, 10, 14, 100, CONTROLLER_COUNTS_SIZE);
    finish_counted(".BJI.1T", 11, 7, 11, 100, CONTROLLER_COUNTS_SIZE);
    finish_counted(".B1B2B3IBRRJBRJBJI", 33, 18, 33, 100, CONTROLLER_COUNTS_SIZE);
    finish_counted("H.JIH.RJIH.HJIIH.AIJ1H.IIH.BJIRJH.BJIHJ1H.BJIAIJH.BJIBIIH.1J.BJIT", 65, 65, 65,
                   CONTROLLER_MOST_FUEL, CONTROLLER_COUNTS_SIZE);
    counts_by_macro();
}

static void long_counts(void)
{
    finish_counted_nested(".I", CONTROLLER_LARGEST_AREA / 2 - 1, 'J');
    finish_counted_nested(".1", CONTROLLER_LARGEST_AREA / 2 - 1, 'T');
}

/* A short buffer comes before everything else. */
static void count_refusals(void)
{
    finish_counted("J", 3, 1, 3, 5, CONTROLLER_COUNTS_SIZE - 1);
    finish_counted("J", 3, 1, 3, 5, 0);
    finish_counted("xJ", 3, 4, 2, CONTROLLER_MOST_FUEL + 1, 1);
    finish_counted("xJ", 3, 4, 2, CONTROLLER_MOST_FUEL + 1, CONTROLLER_COUNTS_SIZE);
    finish_counted("xJ", 3, 4, 3, CONTROLLER_MOST_FUEL + 1, CONTROLLER_COUNTS_SIZE);
    finish_counted("xJ", 3, 2, 3, CONTROLLER_MOST_FUEL + 1, CONTROLLER_COUNTS_SIZE);
    finish_counted("xJ", 3, 2, 3, 5, CONTROLLER_COUNTS_SIZE);
    finish_counted("HJ", 3, 2, 3, 5, CONTROLLER_COUNTS_SIZE);
    finish_counted("JJ", 3, 2, 3, 5, CONTROLLER_COUNTS_SIZE + 1);
    finish_counted_large(CONTROLLER_LARGEST_AREA, CONTROLLER_COUNTS_SIZE);
    finish_counted_large(CONTROLLER_LARGEST_AREA + 1, CONTROLLER_COUNTS_SIZE);
    finish_counted_large(CONTROLLER_LARGEST_AREA + 1, CONTROLLER_COUNTS_SIZE - 1);
}

static void comparisons(void)
{
    compare(".BII.JRJ", 12, ".IJ", 3, 13, 6);
    compare(".BII.JRJ", 12, ".II", 4, 12, 6);
    compare(".BII.JRJ", 12, ".II", 4, 12, 1);
    compare("J", 1, ".BII.JRJ", 11, 11, 6);
    compare("1", 1, ".BJI1", 5, 6, 1);
    compare("E", 2, "T", 1, 2, 0);
    compare("J", 2, "J", 3, 3, CONTROLLER_MOST_FUEL + 1);
    compare("J", 5, "J", 3, 4, 5);
    compare("J", 3, "J", 5, 4, 5);
    compare("JJJJ", 3, "J", 3, 3, 5);
    compare("Rx", 3, "JJ", 3, 3, 5);
    compare("J", 3, "HJ", 3, 3, 5);
    compare("J", 3, "JJ", 3, 3, 5);
}

/* The area is too small, just large enough, or larger; f is read first, then g, and then there must be room. */
static void joins(void)
{
    join("I", "I", 13);
    join("I", "I", 14);
    join("1", "2", 16);
    join("Jx", "xJ", 0);
    join("J", "xJ", 0);
    join("J", "", 20);
    join("J", "J", 0);
    join("", "J", 20);
    join("HJ", "J", 20);
    join("J", "HJ", 20);
    join("R.", "JJ", 20);
    join("J", "JJ", 13);
    join("K", "", 5);
    join_bytes("J and HJJ and a NUL", "J", 1, "HJJ\0", 4, 20);
    join(".II", "H1T", CONTROLLER_JOIN_FRAME + 5);
    join(".II", "H1T", CONTROLLER_JOIN_FRAME + 6);
    join(".II", "H1T", CONTROLLER_JOIN_FRAME + 10);
    join("H0E", "R9", CONTROLLER_JOIN_FRAME + 5);
    join_with_itself("I", 14);
    join_with_itself("BEB0I", 23);
    join_with_itself("BEB0I", 21);
    join_with_itself("JJ", 20);
    join_and_finish("1", "2", "3", 24);
    join_and_finish("AIJ", "I", "T", 60);
}

static void long_joins(void)
{
    join_long(CONTROLLER_LARGEST_AREA, 3);
    join_long(1000000, 0);
}

/* The text, then the chain and the bells of a row, then the table, then each row. */
static void pieces(void)
{
    rows("I", 2, 0);
    rows("I", CONTROLLER_MOST_BELLS + 1, 0);
    rows("Jx", 1, 0);
    rows("BJI", 2, 24);
    rows("B1J", 2, 24);
    rows(".II", 2, 24);
    rows("B1I", 2, 24);
    rows("B1B2I", 2, 11);
    rows("B1B1I", 2, 24);
    rows("B1B3I", 2, 24);
    rows("B1B2B2B2I", 2, 24);
    rows("B1B2I", 2, 14);
    rows("B1B2B2B1I", 2, 24);
    rows("B1B2B1B2I", 2, 24);
    rows("", 2, 12);
    rows("HJ", 13, 5);
    rows_of("I and a NUL", "I\0", 2, 2, 12);
    rows("I", CONTROLLER_FEWEST_BELLS - 1, 3);
    rows("I", CONTROLLER_FEWEST_BELLS, 3);
    rows("I", CONTROLLER_MOST_BELLS, 13);
    rows("B1B2I", SIZE_MAX, 12);
    rows("B1B2I", ((size_t)1 << 32) + 2, 12);
    rows("BB1II", 2, 12);
    rows("B1B2B3B1I", 3, 24);
    rows("B1B1B1I", 2, 24);
    rows("B1B2B3B4B5B6B7B8B9B0BEBTI", 12, 12);
    rows("BTBEB0B9B8B7B6B5B4B3B2B1I", 12, 15);
    rows("B3B1B2B3B2B1B3B1B2I", 3, 40);
    finish_and_ring(".B1B2IBRJBJBJBRJI", 60, 2, 24);
    rows_repeated("B1B2B2B1 500 times", "B1B2B2B1", CONTROLLER_MOST_ROWS / 2, 2, 12000);
    rows_repeated("B1B2B2B1 500 times", "B1B2B2B1", CONTROLLER_MOST_ROWS / 2, 4, 12000);
    rows_repeated("B3B1B2 1000 times", "B3B1B2", CONTROLLER_MOST_ROWS, 3, 11999);
    rows_repeated("B3B1B2 1000 times", "B3B1B2", CONTROLLER_MOST_ROWS, 3, 12005);
    rows_repeated("B3B1B2 1001 times", "B3B1B2", CONTROLLER_MOST_ROWS + 1, 3, 12012);
    rows_repeated("twelve bells 1000 times", "BTB1BEB2B0B3B9B4B8B5B7B6", CONTROLLER_MOST_ROWS, 12, 12000);
}

static void long_pieces(void)
{
    rows_repeated("B2B1^1000000", "B2B1", 1000000, 2, 12000);
}

/* Too few bytes, then no catalogue, then the term, then its full stops, then the room. */
static void entries(void)
{
    size_t size = CONTROLLER_STORE_SIZE, longer = size + 3;
    uint8_t *store = store_of(longer);
    enter("J", store, size);
    enter("I", store, size);
    enter("J", store, longer);
    enter("A0T", store, longer);
    enter("A15", store, longer);
    enter("A0T", store, size);
    enter(".II", store, longer);
    enter("Jx", store, size);
    enter("xJ", store, size);
    enter("", store, size);
    enter(".I", store, size);
    enter_bytes("J and a NUL", "J\0", 2, store, size);
    finish_and_enter(".II", 3, store, size);
    finish_and_enter(".BII.JRJ", 12, store, size);
    finish_and_enter(".1T", 3, store, size);
    finish_and_enter(".BJI.1T", 11, store, size);
    enter("J", store, size - 1);
    enter(".Ix", store, size - 1);
    enter("J", store, 5);
    enter("J", store, 0);
    free(store);
    store = store_of(size);
    enter("BARJIAJJ", store, size);
    enter("ARJRRRHII", store, size);
    free(store);
    enter_with(0, 74, "J");
    enter_with(4, 1, ".II");
    enter_with(FRONTS - 1, 1, "Jx");
    enter_with(FRONTS, 'J', "J");
    enter_with(size - 1, 255, "");
    store = store_of(size);
    enter_index(CONTROLLER_MOST_LETTERS + 1, store, size);
    enter_index(CONTROLLER_MOST_LETTERS - 2, store, size);
    enter_index(3, store, size);
    enter_index(2, store, size);
    enter_index(1, store, size);
    enter_index(CONTROLLER_MOST_LETTERS - 2, store, size);
    enter(".II", store, size);
    free(store);
    enter_many();
}

/* What is lent, then the book as a whole, then line by line; then the lines are played. */
static void books(void)
{
    size_t store = CONTROLLER_BOOK_STORE, largest = CONTROLLER_LARGEST_AREA;
    const char *good = "a .II/b B(a)(a)/";
    play(good, 5, 1);
    play("a J/b R(a)/c R(b)/", 3, 0);
    play_in("a 1/b 2/c AB(a)B(b)IHRJHRRJJ/d .(c)3/", 40, 41, store + 3, 11);
    play("first .BII.JRJ/again .BII.JRJ/last H(first)(again)/", 12, 6);
    play("a J/", 0, 9);
    play_in("a J/", 0, 3, store, 9);
    play("a .II/b I/", 4, 0);
    play_in("a J/b .AIHJJAIHJJ/", 19, 20, store + 3, 3);
    play_in("a RJ/b B(a)(a)/", 4, 6, store + 3, 9);
    play("a RJ/b B(a)(a)/", 5, 9);
    play("a J/b .BII.JRJ/", 11, 9);
    play("a R(a)/", 4, 9);
    play("a (b)/b J/", 4, 9);
    play("a J/a R(b)/", 4, 9);
    play("a J/a R(/", 4, 9);
    play("a .II/b .II/c JJ/", 4, 0);
    play("/", 4, 9);
    play("a  J/", 4, 9);
    play("a ()/", 4, 9);
    play("a ((b))/", 4, 9);
    play("A J/", 4, 9);
    play("", 4, 9);
    play("a J", 4, 9);
    play("a J/b", 4, 9);
    play(good, 5, CONTROLLER_MOST_FUEL);
    play(good, 5, CONTROLLER_MOST_FUEL + 1);
    play("", 5, CONTROLLER_MOST_FUEL + 1);
    play_in(good, 5, 4, store, CONTROLLER_MOST_FUEL + 1);
    play_in(good, 5, 5, store - 1, CONTROLLER_MOST_FUEL + 1);
    play_in(good, 5, 5, 3, 9);
    play(good, largest, 1);
    play_in(good, largest + 1, 4, 3, CONTROLLER_MOST_FUEL + 1);
    play_name(CONTROLLER_LONGEST_NAME);
    play_name(CONTROLLER_LONGEST_NAME + 1);
    play_lines(CONTROLLER_BOOK_LINES);
    play_lines(CONTROLLER_BOOK_LINES + 1);
    play_long(CONTROLLER_LARGEST_BOOK);
    play_long(CONTROLLER_LARGEST_BOOK + 1);
    play_letters("b (a)/c (a)/d (a)/", store);
    play_letters("b (a)/c (a)/d (a)/e J/", store + 3);
    play_letters("b R(a)/", store);
}

#define LINE_J "*a1\tJ\ta\tJ\t-\t-\n"
#define LINE_I "1\tI\t1\tI\t-\t-\n"
#define LINE_K "1\t1\tb\tK\t-\t-\n"

static void checks(void)
{
    check("example 11", LINE_J LINE_I "1\tAIJ\t>aa\tA\t2\t1\n");
    check("example 12", LINE_J LINE_I "1\tAIJ\t>aa\tA\t1\t2\n");
    check("one line twice", LINE_I "1\t.II\t1\ts\t1\t1\n");
    check_bytes("nothing", "", 0);
    check("x", "x");
    check_repeated("one line feed more than bytes are allowed", '\n', CONTROLLER_LARGEST_FILE + 1);
    check_repeated("as many line feeds as bytes are allowed", '\n', CONTROLLER_LARGEST_FILE);
    check_repeated("one line feed more than lines are allowed", '\n', CONTROLLER_MOST_LINES + 1);
    check_repeated("as many line feeds as lines are allowed", '\n', CONTROLLER_MOST_LINES);
    check("seven fields", LINE_I "1\tI\t1\tI\t-\t-\t-\n");
    check("atom as context", "a\tI\t1\tI\t-\t-\n");
    check("long rule", "1\tI\t1\tII\t-\t-\n");
    check("premise 0", LINE_I "1\t.II\t1\ts\t0\t1\n");
    check("own number", LINE_I "1\t.II\t1\ts\t1\t2\n");
    check("carriage return", "1\tI\t1\tI\t-\t-\r\n");
    check("R gives simple types only", LINE_I "*a1\tRI\t1\tR\t1\t-\n");
    check("J in the empty context", "1\tJ\ta\tJ\t-\t-\n");
    check_bytes("NUL as the term", "1\t\0\t1\tI\t-\t-\n", 12);
    check("a bell", LINE_K);
    check("a bell of another type", "1\t1\ta\tK\t-\t-\n");
    check("a bell with a premise", LINE_K "1\t1\tb\tK\t1\t-\n");
    check("K as the term", "1\tK\tb\tK\t-\t-\n");
    check("a bell in a pair", LINE_K LINE_I "1\tB1I\t*b1\tB\t1\t2\n");
}

static void matches(void)
{
    match("a file and itself", LINE_J LINE_I, LINE_J LINE_I);
    match("claims on different terms", LINE_I "1\t.II\t1\ts\t1\t1\n", LINE_I);
    match("claims on two bells", LINE_K, "1\tT\tb\tK\t-\t-\n");
    match("different contexts", LINE_I, "*a1\tI\t1\tI\t-\t-\n");
    match("different types", LINE_J, "*a1\tI\t1\tI\t-\t-\n");
    match("first bad on line 2, second on line 1", LINE_I "1\tJ\ta\tJ\t-\t-\n", "x\n");
    match("second without its last line feed", LINE_I, "x");
}

/* Null pointers with length 0. */
static void nulls(void)
{
    uint8_t area[] = {'J', '#', '#'};
    uint8_t work[] = {'w', 'w', 'w'};
    uint8_t *counts = counts_of(CONTROLLER_COUNTS_SIZE);
    uint8_t *store = store_of(CONTROLLER_STORE_SIZE);
    const uint8_t *file = (const uint8_t *)LINE_I;
    size_t file_size = strlen(LINE_I);
    printf("read null");
    print_reply(controller_read(NULL, 0));
    printf("\nstep null and null");
    print_reply(controller_step(NULL, 0, 0, NULL, 0));
    printf("\nstep null, length 1");
    print_reply(controller_step(NULL, 0, 1, work, sizeof work));
    printf("\nstep J and null");
    print_reply(controller_step(area, sizeof area, 1, NULL, 0));
    printf("\nfinish null");
    print_reply(controller_finish(NULL, 0, 0, work, sizeof work, 5));
    printf("\ncount J, counts null");
    print_reply(controller_finish_counted(area, sizeof area, 1, work, sizeof work, 5, NULL, 0));
    printf("\ncount null, counts null");
    print_reply(controller_finish_counted(NULL, 0, 0, NULL, 0, 5, NULL, 0));
    printf("\ncount null");
    print_reply(controller_finish_counted(NULL, 0, 0, NULL, 0, 5, counts, CONTROLLER_COUNTS_SIZE));
    print_bytes("counts", counts, CONTROLLER_COUNTS_SIZE);
    printf("\ncompare J and null");
    print_reply(controller_compare(area, sizeof area, 1, NULL, 0, 0, work, sizeof work, 5));
    printf("\njoin null and J");
    print_reply(controller_join(NULL, 0, area, 1, work, sizeof work));
    printf("\njoin J and null");
    print_reply(controller_join(area, 1, NULL, 0, work, sizeof work));
    printf("\njoin J and J into null");
    print_reply(controller_join(area, 1, area, 1, NULL, 0));
    printf("\njoin null and null into null");
    print_reply(controller_join(NULL, 0, NULL, 0, NULL, 0));
    printf("\nrows null");
    print_reply(controller_rows(NULL, 0, 2, work, sizeof work));
    printf("\nrows I into null");
    print_reply(controller_rows((const uint8_t *)"I", 1, 2, NULL, 0));
    printf("\nrows B1B2I into null");
    print_reply(controller_rows((const uint8_t *)"B1B2I", 5, 2, NULL, 0));
    printf("\nrows null into null");
    print_reply(controller_rows(NULL, 0, 13, NULL, 0));
    printf("\nenter J into null");
    print_reply(controller_enter(area, 1, NULL, 0));
    printf("\nenter null into null");
    print_reply(controller_enter(NULL, 0, NULL, 0));
    printf("\nenter null");
    print_reply(controller_enter(NULL, 0, store, CONTROLLER_STORE_SIZE));
    printf("\nbook null");
    print_reply(controller_book(NULL, 0, area, sizeof area, work, sizeof work, store, CONTROLLER_STORE_SIZE, 5));
    printf("\nbook null, all else null");
    print_reply(controller_book(NULL, 0, NULL, 0, NULL, 0, NULL, 0, 5));
    printf("\nbook J, store null");
    print_reply(controller_book((const uint8_t *)"a\tJ\n", 4, area, sizeof area, work, sizeof work, NULL, 0, 5));
    printf("\nbook J, work null");
    print_reply(controller_book((const uint8_t *)"a\tJ\n", 4, area, sizeof area, NULL, 0, store,
                                CONTROLLER_STORE_SIZE, 5));
    printf("\nbook J, areas null");
    print_reply(controller_book((const uint8_t *)"a\tJ\n", 4, NULL, 0, NULL, 0, store, CONTROLLER_STORE_SIZE, 5));
    printf("\ncheck null");
    print_reply(controller_check(NULL, 0));
    printf("\nmatch null and a file");
    print_reply(controller_match(NULL, 0, file, file_size));
    printf("\nmatch a file and null");
    print_reply(controller_match(file, file_size, NULL, 0));
    print_bytes("area", area, sizeof area);
    print_bytes("work", work, sizeof work);
    putchar('\n');
    free(counts);
    free(store);
}

/* The functions themselves, by their addresses. */
static void pointers(void)
{
    uint64_t (*stepping)(uint8_t *, size_t, size_t, uint8_t *, size_t) = &controller_step;
    uint64_t (*reading)(const uint8_t *, size_t) = controller_read;
    uint64_t (*joining)(const uint8_t *, size_t, const uint8_t *, size_t, uint8_t *, size_t) = &controller_join;
    uint64_t (*ringing)(const uint8_t *, size_t, size_t, uint8_t *, size_t) = &controller_rows;
    uint64_t (*entering)(const uint8_t *, size_t, uint8_t *, size_t) = &controller_enter;
    uint64_t (*playing)(const uint8_t *, size_t, uint8_t *, size_t, uint8_t *, size_t, uint8_t *, size_t, uint64_t) =
        &controller_book;
    uint8_t table[] = {'#', '#', '#'};
    uint8_t area[] = {'.', 'I', 'J'};
    uint8_t both[2 + CONTROLLER_JOIN_FRAME];
    uint8_t work[] = {'w', 'w', 'w'};
    printf("read through a pointer");
    print_reply(reading(area, sizeof area));
    printf("\njoin through a pointer");
    print_reply(joining(area + 1, 1, area + 2, 1, both, sizeof both));
    print_bytes("area", both, sizeof both);
    printf("\nrows through a pointer");
    print_reply(ringing(area + 1, 1, CONTROLLER_MOST_BELLS, table, sizeof table));
    print_bytes("table", table, sizeof table);
    printf("\nenter through a pointer");
    print_reply(entering(area + 1, 1, table, sizeof table));
    print_bytes("store", table, sizeof table);
    printf("\nbook through a pointer");
    print_reply(playing(area, sizeof area, both, 2, work, sizeof work, table, sizeof table, 5));
    print_bytes("area", both, 2);
    print_bytes("work", work, sizeof work);
    printf("\nstep through a pointer");
    print_reply(stepping(area, sizeof area, sizeof area, work, sizeof work));
    print_bytes("area", area, sizeof area);
    print_bytes("work", work, sizeof work);
    putchar('\n');
}

/* With an argument the long calls are left out: they take minutes under valgrind. */
int main(int count, char **words)
{
    (void)words;
    constants();
    if (CONTROLLER_COUNTS_SIZE != 4 * CONTROLLER_RULES)
        return 1;
    if (CONTROLLER_STORE_SIZE != FRONTS + CONTROLLER_MOST_LETTERS)
        return 1;
    readings();
    steps();
    step_refusals();
    runs();
    run_refusals();
    counted_runs();
    count_refusals();
    comparisons();
    joins();
    pieces();
    entries();
    books();
    checks();
    matches();
    nulls();
    pointers();
    if (count == 1) {
        long_readings();
        long_runs();
        long_counts();
        long_joins();
        long_pieces();
    }
    return 0;
}
