/*
 * A book twice: lent to the library between guard pages, and beside it in plain
 * memory for the reference. What a call has to answer and to leave behind is what
 * the reference does.
 */
#ifndef BOOK_PAIR_H
#define BOOK_PAIR_H

#include "cases.h"
#include "lent.h"
#include "reference.h"
#include "vtil.h"

extern struct lent image, journal; /* what the library is lent */
extern struct ref_book twin;       /* the reference's, of the same lengths */
extern struct lent second;         /* the second image that the library was lent last, for an outside copy */

/* Once, before all else. */
void set_up_book_pair(void);

/* Image and journal of these lengths, at most BYTES_MAX, full of bytes that were left there, in both. */
void lend_book(size_t image_len, size_t journal_len);

/*
 * The same book at other lengths, not below what counts of image and journal: the image cut or lengthened by zeros, the
 * journal cut or lengthened by any bytes.
 */
void change_lengths(size_t image_len, size_t journal_len);

/* Lends `file` and opens it in both at these rates; holds the answers and what is left behind. Whether it was accepted. */
bool open_at_rates(const struct bytes *file, vtil_rates rates);

/* The same at any rates. */
bool open_both(const struct bytes *file);

/* The library's image and journal become what the reference's are. */
void copy_twin(void);

/* These remember image, journal and numbers of the reference's, and make both books that again. */
void keep_book(void);
void bring_back_book(void);

/* Every field of the book. */
void hold_book(vtil_book got, vtil_book want);

/* The refusal, which is counted as due, and the book; and of a call that may hand out a block, which one. */
void hold_answer(vtil_answer got, vtil_answer want);
void hold_step(vtil_walk_answer got, vtil_walk_answer want);

/* Image and journal are what the reference's are. */
void hold_bytes(void);

/* Looks at every part of the book, at the places after the last, and at places that no book has; and copies it. */
void look_everywhere(vtil_book numbers);

/* Each kind of look once, at the first place, and an outside copy. */
void look_once(vtil_book numbers);

/* Each is 0, a small one, any one or the largest. */
vtil_rates any_rates(void);

/*
 * A book made by hand of these two numbers, with any rates and a sum that need not fit them; a walk is open, at the first
 * place, or not.
 */
vtil_book any_book(uint64_t written, uint64_t used);

/* The charge at these rates; holds the refusal, the cents and the bytes. Answers what was due. */
vtil_charge_look charge_both(vtil_book numbers, vtil_rates rates);

/*
 * The outside copy into a second image of this length, at most BYTES_MAX, full of bytes that were left there; holds the
 * refusal, the size, every byte of the second image and the bytes. Answers what was due.
 */
vtil_written copy_both(vtil_book numbers, size_t copy_len);

/* Places, lengths and vips at the limits of 64 bits and around `middle`. */
#define EXTREMES 11
void extremes(uint64_t middle, uint64_t out[EXTREMES]);

#endif
