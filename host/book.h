/* A routine file that is open: an image and a journal of our own, and their book. */
#ifndef ROUTINE_BOOK_H
#define ROUTINE_BOOK_H

#include <stddef.h>
#include <stdint.h>

#include "commands.h"
#include "vtil.h"

#define COUNT_SIZE 4 /* bytes of the count that stands before a list */

/* The rates of a book whose sum is not asked for. */
#define NO_RATES ((vtil_rates){{0}})

struct book {
    uint8_t *image, *journal;
    size_t image_len, journal_len;
    vtil_book numbers;
};

/*
 * Opens the file `name` ("-": standard input) into an image with `room` bytes for
 * it to grow, as far as the library's limit goes, and a journal of `journal_len`
 * bytes, at these rates. ALL_ACCEPTED when it is open: then book_free is owed.
 * Otherwise it was said why, and nothing is owed.
 */
enum status book_open(const char *name, size_t room, size_t journal_len, vtil_rates rates, struct book *out);

/* The operation of the last instruction of the block with this vip. The routine has this block, and it is not empty. */
uint32_t book_last_operation(const struct book *book, uint64_t vip);

void book_free(struct book *book);

#endif
