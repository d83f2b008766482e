/*
 * The engine for the controller's firmware: eleven functions on byte pointers and numbers.
 *
 *     controller_read             is this text one term?                      answers its size
 *     controller_step             one step of a term, in place                answers the rule used
 *     controller_finish           steps until the term has none left          answers how many
 *     controller_finish_counted   the same                                    and how many by each rule
 *     controller_compare          have two terms the same result?             answers yes, no or not known
 *     controller_join             one piece after another, as one term        answers its size
 *     controller_rows             the rows of a piece, for the hammers        answers how many, and how many differ
 *     controller_enter            files a result in the catalogue             answers its number there
 *     controller_book             plays pieces that are built from pieces     answers the last line that it played
 *     controller_check            does every line of a derivation follow?     answers how many lines
 *     controller_match            do two derivations claim the same type?     answers yes or no
 *
 * NEEDS
 *   Each buffer is lent at its true length and lies apart from the other buffers of the call. Until the call
 *   returns nobody else touches it: no other thread, no interrupt handler, no DMA. No engine can test this;
 *   everything else about the arguments is tested, in the order that stands with each function.
 *   A buffer of length 0 may come as any pointer, a null pointer too (see the end of this file).
 *   The stack: 1 MB for the calling thread is enough for every call (docs/FIRMWARE.md has what was measured).
 *
 * PROMISES
 *   Every call returns. It reads and writes nothing but the buffers lent to it and its stack, keeps nothing
 *   between calls and allocates nothing, so several threads may call at once, each with buffers of its own.
 *   A refused call has changed no lent byte. After any other call that lends a term area, the area holds a
 *   term and then zeros to its end, zeros alone after a book that did not finish, and the work area holds zeros
 *   from end to end. What a catalogue has to keep from call to call stands in the store that the caller lends, and
 *   nowhere else.
 *   What a call answers and leaves is proved for all inputs; docs/PROMISES.md says where.
 *
 * RETURNS
 *   One number, taken apart by the macros below. Its lowest eight bits are a code. Codes below 100 refuse the
 *   call; docs/NUMBERS.md says for each what to do about it.
 */
#ifndef CONTROLLER_H
#define CONTROLLER_H

#include <stddef.h>
#include <stdint.h>

#ifdef __cplusplus
extern "C" {
#endif

/* ---- The parts of a reply ------------------------------------------------------------------------------ */

/* Which answer this is: one of the constants below. */
#define CONTROLLER_CODE(reply) ((unsigned)((reply) & 0xff))

/* Was the call refused? */
#define CONTROLLER_REFUSED(reply) (CONTROLLER_CODE(reply) < 100)

/*
 * Of a refusal: where the fault is, a byte of the term counted from 0, or a row of the piece or a line of the file or
 * the book counted from 1.
 * Of CONTROLLER_WHOLE: where the term ends, which is its size.
 */
#define CONTROLLER_PLACE(reply) ((uint64_t)(reply) >> 8)

/* Of any other answer: a rule's number, a count of steps, of rows or of lines, a number in the catalogue, or a line of
   the book, as stands with the constant or the function. */
#define CONTROLLER_VALUE(reply) ((uint32_t)(((reply) >> 8) & 0xffffff))

/* Of an answer of controller_step, controller_finish, controller_finish_counted, controller_join and controller_book:
   the size of the term that now stands in the area, 0 where a book did not finish. It has 32 bits, which only a join
   can exceed. Of CONTROLLER_RUNG: the number of different rows. */
#define CONTROLLER_SIZE(reply) ((uint32_t)((reply) >> 32))

/* ---- Limits -------------------------------------------------------------------------------------------- */

enum {
    CONTROLLER_LARGEST_AREA = 16384, /* bytes of a term area */
    CONTROLLER_MOST_FUEL = 1000000,  /* steps that one call may make */
    CONTROLLER_RULES = 13,           /* rules of reduction, numbered from 1 */
    CONTROLLER_COUNTS_SIZE = 52,     /* bytes that a count for each rule takes */
    CONTROLLER_JOIN_FRAME = 12,      /* letters of a join beside those of its two terms */
    CONTROLLER_FEWEST_BELLS = 2,     /* bells of a row */
    CONTROLLER_MOST_BELLS = 12,      /* bells of a row, and the bytes that each row has in the table */
    CONTROLLER_MOST_ROWS = 1000,     /* rows of a piece */
    CONTROLLER_STORE_SIZE = 67584,   /* bytes that a catalogue takes */
    CONTROLLER_MOST_LETTERS = 65536, /* bytes of the results in a catalogue, all together */
    CONTROLLER_MOST_ENTRIES = 256,   /* results in a catalogue */
    CONTROLLER_BOOK_STORE = 65536,   /* bytes that the results of a book take, all together */
    CONTROLLER_BOOK_LINES = 256,     /* lines of a book */
    CONTROLLER_LARGEST_BOOK = 65536, /* bytes of a book */
    CONTROLLER_LONGEST_NAME = 8,     /* letters of a name in a book */
    CONTROLLER_LARGEST_FILE = 65536, /* bytes of a derivation file */
    CONTROLLER_MOST_LINES = 1024     /* lines of a derivation file */
};

/* ---- Refusals ------------------------------------------------------------------------------------------ */

/* Of the functions that take a term. */
enum {
    CONTROLLER_AREA_TOO_LONG = 1,    /* a term area is longer than CONTROLLER_LARGEST_AREA; place 0 */
    CONTROLLER_WORK_TOO_SHORT = 2,   /* the work area is shorter than a term area, or there are fewer than
                                        CONTROLLER_COUNTS_SIZE bytes for counts, or than CONTROLLER_STORE_SIZE
                                        for a catalogue, or than CONTROLLER_BOOK_STORE for a book; place 0 */
    CONTROLLER_LENGTH_TOO_LONG = 3,  /* a term is said to be longer than its area; place 0 */
    CONTROLLER_FUEL_TOO_HIGH = 4,    /* the fuel is more than CONTROLLER_MOST_FUEL; place 0 */
    CONTROLLER_NO_LETTER = 5,        /* the byte at that place is none of J R H A I B . and no bell: 1 to 9, 0, E, T */
    CONTROLLER_NOT_WHOLE = 6,        /* the text ends at that place, and its term has not ended */
    CONTROLLER_BEYOND = 7,           /* the term has ended before that place, and a byte stands there */
    CONTROLLER_NO_CHAIN = 20,        /* the term is no chain of bells, or rows have no such number of bells; place 0 */
    CONTROLLER_NO_TABLE = 21,        /* the bells are no whole number of rows, or more than CONTROLLER_MOST_ROWS, or
                                        more rows than the table holds; place 0 */
    CONTROLLER_BAD_ROW = 22,         /* that row does not hold each of its bells once */
    CONTROLLER_NO_CATALOGUE = 28,    /* the store holds what no entries leave of zeros; place 0 */
    CONTROLLER_NOT_NORMAL = 29,      /* a full stop stands in the term: it is not finished; place 0 */
    CONTROLLER_CATALOGUE_FULL = 30,  /* the result is new, and there is no number left for it, or too few bytes;
                                        place 0 */
    CONTROLLER_JOIN_TOO_LARGE = 31   /* the join of two terms is larger than the area; place 0 */
};

/* Of the functions that take a derivation file; the first three of controller_book too. */
enum {
    CONTROLLER_FILE_TOO_LONG = 10,   /* the file is longer than CONTROLLER_LARGEST_FILE, or the book than
                                        CONTROLLER_LARGEST_BOOK; line 0 */
    CONTROLLER_FILE_EMPTY = 11,      /* the file or the book has no byte; line 0 */
    CONTROLLER_NO_LINE_END = 12,     /* the file or the book does not end with a line feed; line 0 */
    CONTROLLER_TOO_MANY_LINES = 13,  /* the file has more than CONTROLLER_MOST_LINES; line 0 */
    CONTROLLER_NOT_SIX_FIELDS = 14,  /* that line has more or fewer than six fields */
    CONTROLLER_MALFORMED = 15,       /* that line's context, term or type is none */
    CONTROLLER_UNKNOWN_RULE = 16,    /* that line's rule is none of J R H f A I B s K */
    CONTROLLER_BAD_PREMISE = 17,     /* a premise of that line is not what its rule has there */
    CONTROLLER_NO_INSTANCE = 18      /* that line does not follow by its rule from its premises */
};

/* Of a line of a book. */
enum {
    CONTROLLER_BAD_LINE = 25,        /* that line is not a name, a tab and one term with uses; or it is one more than
                                        CONTROLLER_BOOK_LINES */
    CONTROLLER_NAME_TAKEN = 26,      /* an earlier line has that line's name */
    CONTROLLER_NAME_UNKNOWN = 27     /* that line uses a name that no earlier line has */
};

/* ---- The functions and their answers ------------------------------------------------------------------- */

/*
 * Reads the bytes as the text of one term. They may be any number.
 *   Refusals, whichever comes first from the left: CONTROLLER_BEYOND, CONTROLLER_NO_LETTER; at the end
 *   CONTROLLER_NOT_WHOLE.
 *   Leaves every byte as it was.
 */
enum {
    CONTROLLER_WHOLE = 103           /* it is one; CONTROLLER_PLACE is its size */
};
uint64_t controller_read(const uint8_t *bytes, size_t size);

/*
 * Makes one step of the term that stands in the first term_size bytes of the area.
 *   The area has at most CONTROLLER_LARGEST_AREA bytes, the work area at least as many as the area. The work
 *   area may hold anything.
 *   Refusals, in this order: CONTROLLER_AREA_TOO_LONG, CONTROLLER_WORK_TOO_SHORT, CONTROLLER_LENGTH_TOO_LONG,
 *   then those of controller_read.
 */
enum {
    CONTROLLER_NORMAL = 100,         /* the term has no next step; it stays */
    CONTROLLER_STEP_NO_ROOM = 101,   /* the next term is larger than the area; the term stays */
    CONTROLLER_STEPPED = 102         /* a step was made; CONTROLLER_VALUE is its rule's number, 1 to 13 */
};
uint64_t controller_step(uint8_t *area, size_t area_size, size_t term_size, uint8_t *work, size_t work_size);

/*
 * Makes steps until the term is normal, or as many were made as the fuel allows, or the next term is larger
 * than the area: tested in this order before each step. CONTROLLER_VALUE is the count of steps made.
 *   Areas as for controller_step.
 *   Refusals, in this order: CONTROLLER_AREA_TOO_LONG, CONTROLLER_WORK_TOO_SHORT, CONTROLLER_LENGTH_TOO_LONG,
 *   CONTROLLER_FUEL_TOO_HIGH, then those of controller_read.
 *   A spent run is taken up again by another call on the term that it left, of CONTROLLER_SIZE bytes; one with
 *   no room by a call in a larger area. Both then make the steps of one call. docs/COMPOSERS.md says more.
 */
enum {
    CONTROLLER_FINISHED = 110,       /* the area holds the result */
    CONTROLLER_SPENT = 111,          /* the fuel is used; the area holds the term reached, which is not normal */
    CONTROLLER_NO_ROOM = 112         /* the area holds the term reached; the next one is larger than the area */
};
uint64_t controller_finish(uint8_t *area, size_t area_size, size_t term_size, uint8_t *work, size_t work_size,
                           uint64_t fuel);

/*
 * Does what controller_finish does and answers the same. Unless it refuses, it also says how often each rule was
 * used in this run: the first CONTROLLER_COUNTS_SIZE bytes of counts then hold a number of four bytes for each
 * rule, low byte first, rule 1 first. The bytes behind them stay as they were. CONTROLLER_COUNT takes one of the
 * numbers out; together they are the count of steps.
 *   Areas as for controller_step. The bytes for the counts may hold anything; there may be more of them.
 *   Refusals: CONTROLLER_WORK_TOO_SHORT where there are fewer than CONTROLLER_COUNTS_SIZE of them, then those of
 *   controller_finish.
 */
#define CONTROLLER_COUNT(counts, rule) controller_number((counts) + 4 * ((rule) - 1))
uint64_t controller_finish_counted(uint8_t *area, size_t area_size, size_t term_size, uint8_t *work,
                                   size_t work_size, uint64_t fuel, uint8_t *counts, size_t counts_size);

/*
 * Finishes two terms with the same fuel, each in its own area, and compares their results byte for byte. Both
 * are run, also where the first did not finish; each area then holds the term that its run reached.
 *   Areas as for controller_step; the one work area serves both.
 *   Refusals: those of controller_finish for the first term, then those for the second. The reply does not say
 *   whose it is.
 */
enum {
    CONTROLLER_SAME = 113,           /* both finished, with equal results */
    CONTROLLER_DIFFERENT = 114,      /* both finished, with different results */
    CONTROLLER_UNDECIDED = 115       /* one of them did not finish, or neither */
};
uint64_t controller_compare(uint8_t *first, size_t first_size, size_t first_term, uint8_t *second,
                            size_t second_size, size_t second_term, uint8_t *work, size_t work_size,
                            uint64_t fuel);

/*
 * Writes the join of two terms into the area: the term that, applied, does g first and then f. Its text is A B,
 * the text of f, B, the text of g, I H R J H R R J J, so it has CONTROLLER_JOIN_FRAME letters more than the two
 * together. Zeros stand behind it to the end of the area. Nothing is run.
 *   The terms may have any size, and the area too; to be finished, the join must stand in one of at most
 *   CONTROLLER_LARGEST_AREA bytes. The area may hold anything. f and g are only read: they may be one buffer.
 *   Refusals: those of controller_read for f, then those for g, then CONTROLLER_JOIN_TOO_LARGE. The reply does not
 *   say whether it is f or g that cannot be read.
 */
enum {
    CONTROLLER_JOINED = 160          /* the area holds the join; CONTROLLER_SIZE is its size, of which a join of
                                        four gigabytes or more shows the lowest 32 bits:
                                        f_size + g_size + CONTROLLER_JOIN_FRAME is all of it */
};
uint64_t controller_join(const uint8_t *f, size_t f_size, const uint8_t *g, size_t g_size, uint8_t *area,
                         size_t area_size);

/*
 * Reads a finished piece as rows of so many bells each and stores them in the table. The piece is a chain: B and a
 * bell, again and again, and I at the end. Each row takes CONTROLLER_MOST_BELLS bytes of the table, whatever its
 * number of bells: its bells in order, each as its number from 1 to 12, and zeros. Zeros stand behind the last
 * row to the end of the table. Nothing is run: a term that is not finished is no chain.
 *   bells is from CONTROLLER_FEWEST_BELLS to CONTROLLER_MOST_BELLS, and each row holds every bell from one to that
 *   number once. The term may have any size, and the table too; the table may hold anything.
 *   Refusals, in this order: those of controller_read, CONTROLLER_NO_CHAIN, CONTROLLER_NO_TABLE,
 *   CONTROLLER_BAD_ROW with the first such row.
 */
enum {
    CONTROLLER_RUNG = 130            /* the table holds the rows; CONTROLLER_VALUE is their number, CONTROLLER_SIZE
                                        the number of different rows: equal in a piece that repeats none */
};
uint64_t controller_rows(const uint8_t *term, size_t term_size, size_t bells, uint8_t *table, size_t table_size);

/*
 * Files the result of a finished piece in a catalogue and answers its number there. A result that is in it keeps its
 * number; any other gets the next one, from 1 on. So two pieces have one number exactly if they can be turned into
 * each other. Numbers never change, and nothing is taken out. Nothing is run: finish the piece first.
 *   The store is all that there is of a catalogue, and takes CONTROLLER_STORE_SIZE bytes. A new one is as many zeros.
 *   Copied away and back, it is the same catalogue. It holds at most CONTROLLER_MOST_ENTRIES results, of at most
 *   CONTROLLER_MOST_LETTERS bytes together. There may be more bytes: those behind the store may hold anything and
 *   stay as they are.
 *   What anything but this function has written into a store is most likely refused by CONTROLLER_NO_CATALOGUE; where
 *   it is not, the store is one that entries could have left.
 *   The term may have any size. It is only read.
 *   Refusals, in this order: CONTROLLER_WORK_TOO_SHORT, CONTROLLER_NO_CATALOGUE, those of controller_read,
 *   CONTROLLER_NOT_NORMAL, CONTROLLER_CATALOGUE_FULL.
 *   A refusal changes no byte of the store, and neither does a result that is in it.
 */
enum {
    CONTROLLER_ENTERED = 150         /* the catalogue has the result; CONTROLLER_VALUE is its number */
};
uint64_t controller_enter(const uint8_t *term, size_t term_size, uint8_t *store, size_t store_size);

/*
 * Plays a book: lines that each end with a line feed and are a name, a tab and a term. A name is one to
 * CONTROLLER_LONGEST_NAME small letters. In a term a name in round brackets may stand wherever a term can, and stands
 * for the line of that name, which comes earlier. From the first line on, results are put in the place of such uses,
 * and the term so made is finished in the area, each with the whole fuel. The last line's result is the book's: what
 * that line comes to where every use is written out, however large that would be.
 *   Areas as for controller_step; they may hold anything. Results are kept in the store in the meantime: it takes
 *   CONTROLLER_BOOK_STORE bytes, which may hold anything and hold zeros afterwards. There may be more bytes: those
 *   behind them stay as they are. The book is only read.
 *   Refusals: CONTROLLER_AREA_TOO_LONG, CONTROLLER_WORK_TOO_SHORT, CONTROLLER_FUEL_TOO_HIGH,
 *   CONTROLLER_FILE_TOO_LONG, CONTROLLER_FILE_EMPTY, CONTROLLER_NO_LINE_END, in this order and all at 0; then the
 *   first bad line with the first of CONTROLLER_BAD_LINE to CONTROLLER_NAME_UNKNOWN that fits it. All lines are
 *   tested before one is played.
 *   Answers CONTROLLER_FINISHED with the number of lines for CONTROLLER_VALUE, and the last result in the area; or
 *   CONTROLLER_SPENT or CONTROLLER_NO_ROOM with the first line that did not finish, size 0, and zeros in the area.
 *   There is no room also where a line with its results in place is larger than the area, and where its result is
 *   larger than what is left of the store.
 */
uint64_t controller_book(const uint8_t *book, size_t book_size, uint8_t *area, size_t area_size, uint8_t *work,
                         size_t work_size, uint8_t *store, size_t store_size, uint64_t fuel);

/*
 * Checks a derivation file.
 *   Refusals: CONTROLLER_FILE_TOO_LONG, CONTROLLER_FILE_EMPTY, CONTROLLER_NO_LINE_END,
 *   CONTROLLER_TOO_MANY_LINES, in this order; then the first bad line with the first of
 *   CONTROLLER_NOT_SIX_FIELDS to CONTROLLER_NO_INSTANCE that fits it.
 *   Leaves every byte as it was.
 */
enum {
    CONTROLLER_ACCEPTED = 120        /* every line follows; CONTROLLER_VALUE is the number of lines */
};
uint64_t controller_check(const uint8_t *file, size_t file_size);

/*
 * Checks two derivation files and compares the contexts and the types of their last lines.
 *   Refusals: those of controller_check for the first file, then those for the second. The reply does not say
 *   whose it is.
 *   Leaves every byte as it was.
 */
enum {
    CONTROLLER_MATCH = 180,          /* both are equal */
    CONTROLLER_NO_MATCH = 181        /* one of them differs, or both */
};
uint64_t controller_match(const uint8_t *first, size_t first_size, const uint8_t *second, size_t second_size);

#ifdef __cplusplus
}
#endif

/* ---- Numbers of four bytes ----------------------------------------------------------------------------- */

/* The number that stands there, low byte first. */
static inline uint32_t controller_number(const uint8_t *bytes)
{
    return (uint32_t)bytes[0] | (uint32_t)bytes[1] << 8 | (uint32_t)bytes[2] << 16 | (uint32_t)bytes[3] << 24;
}

/* ---- Null pointers ------------------------------------------------------------------------------------- */

/*
 * The engine itself takes no null pointer, so a call hands it a byte that it never touches in the place of a
 * null pointer of length 0. A null pointer of any other length is a fault of the caller. The macros have the
 * functions' names and use each argument once; &controller_step still names the function itself, which wants
 * pointers that are not null.
 */
static inline const uint8_t *controller_some(const uint8_t *bytes, size_t size)
{
    static const uint8_t none = 0;
    return bytes == NULL && size == 0 ? &none : bytes;
}

static inline uint8_t *controller_lent(uint8_t *bytes, size_t size)
{
    static uint8_t none = 0;
    return bytes == NULL && size == 0 ? &none : bytes;
}

static inline uint64_t controller_call_read(const uint8_t *bytes, size_t size)
{
    return controller_read(controller_some(bytes, size), size);
}

static inline uint64_t controller_call_step(uint8_t *area, size_t area_size, size_t term_size, uint8_t *work,
                                            size_t work_size)
{
    return controller_step(controller_lent(area, area_size), area_size, term_size,
                           controller_lent(work, work_size), work_size);
}

static inline uint64_t controller_call_finish(uint8_t *area, size_t area_size, size_t term_size, uint8_t *work,
                                              size_t work_size, uint64_t fuel)
{
    return controller_finish(controller_lent(area, area_size), area_size, term_size,
                             controller_lent(work, work_size), work_size, fuel);
}

static inline uint64_t controller_call_finish_counted(uint8_t *area, size_t area_size, size_t term_size,
                                                      uint8_t *work, size_t work_size, uint64_t fuel,
                                                      uint8_t *counts, size_t counts_size)
{
    return controller_finish_counted(controller_lent(area, area_size), area_size, term_size,
                                     controller_lent(work, work_size), work_size, fuel,
                                     controller_lent(counts, counts_size), counts_size);
}

static inline uint64_t controller_call_compare(uint8_t *first, size_t first_size, size_t first_term,
                                               uint8_t *second, size_t second_size, size_t second_term,
                                               uint8_t *work, size_t work_size, uint64_t fuel)
{
    return controller_compare(controller_lent(first, first_size), first_size, first_term,
                              controller_lent(second, second_size), second_size, second_term,
                              controller_lent(work, work_size), work_size, fuel);
}

static inline uint64_t controller_call_join(const uint8_t *f, size_t f_size, const uint8_t *g, size_t g_size,
                                            uint8_t *area, size_t area_size)
{
    return controller_join(controller_some(f, f_size), f_size, controller_some(g, g_size), g_size,
                           controller_lent(area, area_size), area_size);
}

static inline uint64_t controller_call_rows(const uint8_t *term, size_t term_size, size_t bells, uint8_t *table,
                                            size_t table_size)
{
    return controller_rows(controller_some(term, term_size), term_size, bells,
                           controller_lent(table, table_size), table_size);
}

static inline uint64_t controller_call_enter(const uint8_t *term, size_t term_size, uint8_t *store,
                                             size_t store_size)
{
    return controller_enter(controller_some(term, term_size), term_size, controller_lent(store, store_size),
                            store_size);
}

static inline uint64_t controller_call_book(const uint8_t *book, size_t book_size, uint8_t *area, size_t area_size,
                                            uint8_t *work, size_t work_size, uint8_t *store, size_t store_size,
                                            uint64_t fuel)
{
    return controller_book(controller_some(book, book_size), book_size, controller_lent(area, area_size), area_size,
                           controller_lent(work, work_size), work_size, controller_lent(store, store_size),
                           store_size, fuel);
}

static inline uint64_t controller_call_check(const uint8_t *file, size_t file_size)
{
    return controller_check(controller_some(file, file_size), file_size);
}

static inline uint64_t controller_call_match(const uint8_t *first, size_t first_size, const uint8_t *second,
                                             size_t second_size)
{
    return controller_match(controller_some(first, first_size), first_size,
                            controller_some(second, second_size), second_size);
}

#define controller_read(bytes, size) controller_call_read(bytes, size)
#define controller_step(area, area_size, term_size, work, work_size) \
    controller_call_step(area, area_size, term_size, work, work_size)
#define controller_finish(area, area_size, term_size, work, work_size, fuel) \
    controller_call_finish(area, area_size, term_size, work, work_size, fuel)
#define controller_finish_counted(area, area_size, term_size, work, work_size, fuel, counts, counts_size) \
    controller_call_finish_counted(area, area_size, term_size, work, work_size, fuel, counts, counts_size)
#define controller_compare(first, first_size, first_term, second, second_size, second_term, work, work_size, fuel) \
    controller_call_compare(first, first_size, first_term, second, second_size, second_term, work, work_size, fuel)
#define controller_join(f, f_size, g, g_size, area, area_size) \
    controller_call_join(f, f_size, g, g_size, area, area_size)
#define controller_rows(term, term_size, bells, table, table_size) \
    controller_call_rows(term, term_size, bells, table, table_size)
#define controller_enter(term, term_size, store, store_size) \
    controller_call_enter(term, term_size, store, store_size)
#define controller_book(book, book_size, area, area_size, work, work_size, store, store_size, fuel) \
    controller_call_book(book, book_size, area, area_size, work, work_size, store, store_size, fuel)
#define controller_check(file, file_size) controller_call_check(file, file_size)
#define controller_match(first, first_size, second, second_size) \
    controller_call_match(first, first_size, second, second_size)

#endif
