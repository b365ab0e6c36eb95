/* routine same A B: whether two files hold one routine. Two routines are equal exactly when their written forms are. */
#include "commands.h"

#include <inttypes.h>
#include <stdbool.h>
#include <stdio.h>

#include "book.h"

/* The first byte where the written forms differ; the length where they don't. */
static size_t first_difference(const struct book *a, const struct book *b)
{
    size_t len = a->numbers.written < b->numbers.written ? (size_t)a->numbers.written : (size_t)b->numbers.written;
    size_t at = 0;
    while (at < len && a->image[at] == b->image[at])
        at++;
    return at;
}

static void print_names(const char *const *names)
{
    print_name(stdout, names[0]);
    printf(" and ");
    print_name(stdout, names[1]);
}

/* The part before the blocks that byte `at` is in. */
static const char *front_part(const vtil_routine_read *routine, size_t at)
{
    if (at < 8)
        return "the header";
    if (at < routine->conventions_at)
        return "the entry vip";
    return at < routine->blocks_at - COUNT_SIZE ? "the conventions" : "the number of blocks";
}

static uint64_t block_end(const struct book *book, uint64_t at)
{
    return vtil_read_block(book->image, (size_t)book->numbers.written, at).end;
}

/* The place of the block that byte `at` is in: the last block ends with the written form, so one is. */
static uint64_t block_with(const struct book *book, const vtil_routine_read *routine, size_t at)
{
    uint64_t place = 0;
    for (uint64_t end = block_end(book, routine->blocks_at); end <= at; end = block_end(book, end))
        place++;
    return place;
}

/* Up to the first difference two routines are alike, so either tells which part it is in. */
static void print_part(const struct book *book, size_t at)
{
    vtil_routine_read routine = vtil_read_routine(book->image, (size_t)book->numbers.written);
    if (at < routine.blocks_at)
        printf("%s", front_part(&routine, at));
    else
        printf("block %" PRIu64, block_with(book, &routine, at));
}

static enum status compare(const char *const *names, const struct book *a, const struct book *b)
{
    size_t at = first_difference(a, b);
    print_names(names);
    if (at == a->numbers.written && at == b->numbers.written) {
        printf(": one routine, %zu bytes written\n", at);
        return ALL_ACCEPTED;
    }
    /* No written form is the beginning of another, so both have this byte. */
    printf(": two routines: the written forms first differ at byte %zu, in ", at);
    print_part(a, at);
    printf(": %02x and %02x\n", a->image[at], b->image[at]);
    return SOME_REFUSED;
}

/* Of a file that is no routine it can't be said, which is trouble here. What is wrong is said of both. */
enum status same_command(const struct request *request)
{
    struct book a, b;
    const char *const names[] = {request->files[0], request->files[1]};
    bool a_open = book_open(names[0], 0, 0, NO_RATES, &a) == ALL_ACCEPTED;
    bool b_open = book_open(names[1], 0, 0, NO_RATES, &b) == ALL_ACCEPTED;
    enum status status = a_open && b_open ? compare(names, &a, &b) : TROUBLE;
    if (a_open)
        book_free(&a);
    if (b_open)
        book_free(&b);
    return status;
}
