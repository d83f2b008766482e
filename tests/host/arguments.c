/* What arrives at the engine when a call is written with the header: here stand functions in the engine's
 * place that print their arguments. Each argument is used once and keeps its place, and a null pointer of
 * length 0 becomes a pointer to some byte. What is printed must be arguments.txt. */
#include "controller.h"

#include <inttypes.h>
#include <stdio.h>

static uint8_t a[3], b[3], c[3], d[3];

static const char *name_of(const uint8_t *bytes)
{
    if (bytes == NULL)
        return "null";
    return bytes == a ? "a" : bytes == b ? "b" : bytes == c ? "c" : bytes == d ? "d" : "another";
}

#ifdef __cplusplus
extern "C" {
#endif

uint64_t(controller_read)(const uint8_t *bytes, size_t size)
{
    printf("read %s %zu\n", name_of(bytes), size);
    return 1;
}

uint64_t(controller_step)(uint8_t *area, size_t area_size, size_t term_size, uint8_t *work, size_t work_size)
{
    printf("step %s %zu %zu %s %zu\n", name_of(area), area_size, term_size, name_of(work), work_size);
    return 2;
}

uint64_t(controller_finish)(uint8_t *area, size_t area_size, size_t term_size, uint8_t *work, size_t work_size,
                            uint64_t fuel)
{
    printf("finish %s %zu %zu %s %zu %" PRIu64 "\n", name_of(area), area_size, term_size, name_of(work), work_size,
           fuel);
    return 3;
}

uint64_t(controller_finish_counted)(uint8_t *area, size_t area_size, size_t term_size, uint8_t *work,
                                    size_t work_size, uint64_t fuel, uint8_t *counts, size_t counts_size)
{
    printf("finish_counted %s %zu %zu %s %zu %" PRIu64 " %s %zu\n", name_of(area), area_size, term_size,
           name_of(work), work_size, fuel, name_of(counts), counts_size);
    return 7;
}

uint64_t(controller_compare)(uint8_t *first, size_t first_size, size_t first_term, uint8_t *second,
                             size_t second_size, size_t second_term, uint8_t *work, size_t work_size,
                             uint64_t fuel)
{
    printf("compare %s %zu %zu %s %zu %zu %s %zu %" PRIu64 "\n", name_of(first), first_size, first_term,
           name_of(second), second_size, second_term, name_of(work), work_size, fuel);
    return 4;
}

uint64_t(controller_join)(const uint8_t *f, size_t f_size, const uint8_t *g, size_t g_size, uint8_t *area,
                          size_t area_size)
{
    printf("join %s %zu %s %zu %s %zu\n", name_of(f), f_size, name_of(g), g_size, name_of(area), area_size);
    return 8;
}

uint64_t(controller_rows)(const uint8_t *term, size_t term_size, size_t bells, uint8_t *table, size_t table_size)
{
    printf("rows %s %zu %zu %s %zu\n", name_of(term), term_size, bells, name_of(table), table_size);
    return 9;
}

uint64_t(controller_enter)(const uint8_t *term, size_t term_size, uint8_t *store, size_t store_size)
{
    printf("enter %s %zu %s %zu\n", name_of(term), term_size, name_of(store), store_size);
    return 10;
}

uint64_t(controller_book)(const uint8_t *book, size_t book_size, uint8_t *area, size_t area_size, uint8_t *work,
                          size_t work_size, uint8_t *store, size_t store_size, uint64_t fuel)
{
    printf("book %s %zu %s %zu %s %zu %s %zu %" PRIu64 "\n", name_of(book), book_size, name_of(area), area_size,
           name_of(work), work_size, name_of(store), store_size, fuel);
    return 11;
}

uint64_t(controller_check)(const uint8_t *file, size_t file_size)
{
    printf("check %s %zu\n", name_of(file), file_size);
    return 5;
}

uint64_t(controller_match)(const uint8_t *first, size_t first_size, const uint8_t *second, size_t second_size)
{
    printf("match %s %zu %s %zu\n", name_of(first), first_size, name_of(second), second_size);
    return 6;
}

#ifdef __cplusplus
}
#endif

static void returned(uint64_t reply)
{
    printf("returned %" PRIu64 "\n", reply);
}

int main(void)
{
    size_t n = 10;
    returned(controller_read(a, 1));
    returned(controller_read(NULL, 0));
    returned(controller_read(NULL, 7));
    returned(controller_step(a, 1, 2, b, 3));
    returned(controller_step(NULL, 0, 2, NULL, 0));
    returned(controller_finish(a, 1, 2, b, 3, 4));
    returned(controller_finish(NULL, 0, 2, NULL, 0, 4));
    returned(controller_finish_counted(a, 1, 2, b, 3, 4, c, 5));
    returned(controller_finish_counted(NULL, 0, 2, NULL, 0, 4, NULL, 0));
    returned(controller_finish_counted(a, 1, 2, b, 3, 4, NULL, 7));
    returned(controller_compare(a, 1, 2, b, 3, 4, c, 5, 6));
    returned(controller_compare(NULL, 0, 2, NULL, 0, 4, NULL, 0, 6));
    returned(controller_join(a, 1, b, 2, c, 3));
    returned(controller_join(a, 1, a, 1, c, 3));
    returned(controller_join(NULL, 0, b, 2, c, 3));
    returned(controller_join(a, 1, NULL, 0, c, 3));
    returned(controller_join(a, 1, b, 2, NULL, 0));
    returned(controller_join(NULL, 0, NULL, 0, NULL, 0));
    returned(controller_join(NULL, 7, NULL, 8, NULL, 9));
    returned(controller_rows(a, 1, 2, b, 3));
    returned(controller_rows(NULL, 0, 2, b, 3));
    returned(controller_rows(a, 1, 2, NULL, 0));
    returned(controller_rows(NULL, 0, 0, NULL, 0));
    returned(controller_rows(NULL, 7, 8, NULL, 9));
    returned(controller_enter(a, 1, b, 2));
    returned(controller_enter(NULL, 0, b, 2));
    returned(controller_enter(a, 1, NULL, 0));
    returned(controller_enter(NULL, 0, NULL, 0));
    returned(controller_enter(NULL, 7, NULL, 8));
    returned(controller_book(a, 1, b, 2, c, 3, d, 4, 5));
    returned(controller_book(NULL, 0, b, 2, c, 3, d, 4, 5));
    returned(controller_book(a, 1, NULL, 0, c, 3, d, 4, 5));
    returned(controller_book(a, 1, b, 2, NULL, 0, d, 4, 5));
    returned(controller_book(a, 1, b, 2, c, 3, NULL, 0, 5));
    returned(controller_book(NULL, 0, NULL, 0, NULL, 0, NULL, 0, 0));
    returned(controller_book(NULL, 6, NULL, 7, NULL, 8, NULL, 9, 10));
    returned(controller_check(a, 1));
    returned(controller_check(NULL, 0));
    returned(controller_match(a, 1, b, 2));
    returned(controller_match(NULL, 0, NULL, 0));
    returned(controller_read(a, n++));
    returned(controller_step(a, n++, 0, b, 0));
    returned(controller_finish_counted(a, 0, 0, b, 0, 0, c, n++));
    returned(controller_join(a, n++, b, 0, c, 0));
    returned(controller_join(a, 0, b, n++, c, 0));
    returned(controller_join(a, 0, b, 0, c, n++));
    returned(controller_rows(a, n++, 0, b, 0));
    returned(controller_rows(a, 0, n++, b, 0));
    returned(controller_rows(a, 0, 0, b, n++));
    returned(controller_enter(a, n++, b, 0));
    returned(controller_enter(a, 0, b, n++));
    returned(controller_book(a, n++, b, 0, c, 0, d, 0, 0));
    returned(controller_book(a, 0, b, n++, c, 0, d, 0, 0));
    returned(controller_book(a, 0, b, 0, c, n++, d, 0, 0));
    returned(controller_book(a, 0, b, 0, c, 0, d, n++, 0));
    returned(controller_book(a, 0, b, 0, c, 0, d, 0, n++));
    printf("n is %zu\n", n);
    return 0;
}
