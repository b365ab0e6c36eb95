/*
 * Calls on a book pair, each on both books: create, remove, append, undo and those of a
 * walk one by one, and lists of them by vtil_run and vtil_run_on. What is lent to them
 * lies between guard pages as well.
 */
#ifndef CALLS_H
#define CALLS_H

#include <stddef.h>
#include <stdint.h>

#include "cases.h"
#include "reference.h"
#include "vtil.h"

#define CALLS 60 /* the most in a list */

/* Once, after set_up_book_pair. */
void set_up_calls(void);

/* A call that is no append, which has no bytes. */
struct ref_call call_of(enum vtil_call kind, uint64_t vip);

/* A vip that some block of the book has, or one of a few others. */
uint64_t some_vip(void);

enum vtil_call any_kind(void);

/* Any call; the bytes of an append are put into `made`, which has to stay as long as the call is used. */
struct ref_call any_call(struct bytes *made);

/* Abandons a walk on both books, where one is open. */
void close_walk(void);

/* The same call on both books; holds the answers and what is left behind. Answers what was due. */
vtil_walk_answer call_both(const struct ref_call *call);

/*
 * The machine makes the same call. It sees the file, the calls and the lengths; its answer and what it says of image and
 * journal are the library's.
 */
void hold_machine(struct ref_machine *machine, const struct ref_call *call, vtil_walk_answer library);

/* These lend a list of calls and a file. Then library_run and library_run_on run the list in the library's book alone. */
void lend_list(const uint64_t *words, size_t count, const uint8_t *bytes, size_t len);
void lend_file(const struct bytes *file);
vtil_run_answer library_run(vtil_rates rates);
vtil_run_answer library_run_on(vtil_book numbers);

/* What the reference answers and leaves, call by call. */
vtil_run_answer due_of_calls(const struct ref_call *calls, size_t count);

/* Every field of a run's answer, and what is left behind. */
void hold_run(vtil_run_answer got, vtil_run_answer want);

/*
 * The calls by vtil_run at these rates, in an image and a journal of the same lengths as those that are lent. Answers what
 * was due.
 */
vtil_run_answer run_list(const struct bytes *file, const struct ref_call *calls, size_t count, vtil_rates rates);

/* The calls by vtil_run_on, on the book as it is. Answers what was due. */
vtil_run_answer run_list_on(const struct ref_call *calls, size_t count);

#endif
