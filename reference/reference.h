/*
 * The rules of docs/SPEC.md a second time, for comparison in tests: reading and writing
 * routines and their parts, the routine machine, the calls on a book and lists of them.
 * It works on plain values, in the plainest way, and shares no code with the library.
 * The guard tests (host/tests) and the comparison with the Rust (oracle) hold the
 * library to it.
 */
#ifndef REFERENCE_H
#define REFERENCE_H

#include <stdbool.h>
#include <stddef.h>
#include <stdint.h>

#include "vtil.h"

/* Files ------------------------------------------------------------------------- */

struct ref_operation {
    const char *name;
    uint32_t count;
};

/* The operations in their order, and how many there are. */
extern const struct ref_operation ref_operations[];
extern const size_t ref_operation_count;

/* The consumed length of the routine at the start of `file`, or minus the refusal (1 to 9). */
int64_t ref_check(const uint8_t *file, size_t len);

/* Whether the bytes are well-formed UTF-8. */
bool ref_is_text(const uint8_t *bytes, size_t len);

/* The sums of the counts that stand before the lists of a file, by what is listed, up to the first refusal. */
struct ref_counts {
    uint64_t registers, conventions, instructions, vips;
};

struct ref_counts ref_list_counts(const uint8_t *file, size_t len);

/* Reading by offset: what the library's vtil_read_.. have to answer. */
vtil_routine_read ref_read_routine(const uint8_t *file, size_t len);
vtil_convention_read ref_read_convention(const uint8_t *file, size_t len, uint64_t at);
vtil_register_read ref_read_register(const uint8_t *file, size_t len, uint64_t at);
vtil_block_read ref_read_block(const uint8_t *file, size_t len, uint64_t at);
vtil_instruction_read ref_read_instruction(const uint8_t *file, size_t len, uint64_t at);
vtil_vip_read ref_read_vip(const uint8_t *file, size_t len, uint64_t at);

vtil_written ref_write_instruction(const vtil_instruction_desc *value, uint8_t *image, size_t image_len);

/* Books --------------------------------------------------------------------------- */

/* What a call is lent, and its book. */
struct ref_book {
    uint8_t *image, *journal;
    size_t image_len, journal_len;
    vtil_book numbers;
};

struct ref_call {
    enum vtil_call kind;
    uint64_t vip;
    const uint8_t *bytes; /* of the appended instruction */
    size_t len;
};

/*
 * These change image, journal and numbers as the library's calls have to. A step answers as vtil_walk_next does, whatever
 * its call is: offset and length are 0 but where a next hands out a block.
 */
vtil_answer ref_open(struct ref_book *book, const uint8_t *file, size_t len, vtil_rates rates);
vtil_walk_answer ref_step(struct ref_book *book, const struct ref_call *call);

/* A list of calls, encoded in words and bytes. */
struct ref_list {
    const uint64_t *words;
    size_t words_len; /* in words */
    const uint8_t *bytes;
    size_t bytes_len;
};

bool ref_is_list(const struct ref_list *list);
vtil_run_answer ref_run(struct ref_book *book, const uint8_t *file, size_t len, const struct ref_list *list,
                        vtil_rates rates);
vtil_run_answer ref_run_on(struct ref_book *book, const struct ref_list *list);

vtil_routine_look ref_routine(const struct ref_book *book);
vtil_block_look ref_block(const struct ref_book *book, uint64_t place);
vtil_instruction_look ref_instruction(const struct ref_book *book, uint64_t block, uint64_t place);
vtil_vip_look ref_block_vip(const struct ref_book *book, uint64_t block, uint64_t list, uint64_t place);
vtil_convention_look ref_convention(const struct ref_book *book, uint64_t place);
vtil_register_look ref_convention_register(const struct ref_book *book, uint64_t convention, uint64_t list, uint64_t place);
vtil_charge_look ref_charge(const struct ref_book *book, vtil_rates rates);

/* The sum of the book's routine, worked afresh at these rates, in hundredths of a cent; 0 where the book is refused. */
uint64_t ref_sum(const struct ref_book *book, vtil_rates rates);

/* Changes the second image, `copy`, and nothing else. */
vtil_written ref_outside_copy(const struct ref_book *book, uint8_t *copy, size_t copy_len);

/* The routine machine --------------------------------------------------------------- */

/*
 * A routine, where a walk over its blocks stands, and a stack of earlier routines
 * (document 01's pile), each with the journal entry of the edit that came after it,
 * whose length is the edit's cost. It is fed the file, the calls, the lent lengths and
 * the rates, never a book. It carries no sum: the sum of each answer is worked afresh on
 * the routine that it then has. Where a block that is handed out stands, it works out
 * from the sizes of what is written before it.
 */
struct ref_machine;

/* The file has to be accepted, and to fit an image of this length. ref_machine_free is owed. */
struct ref_machine *ref_machine_start(const uint8_t *file, size_t len, size_t image_len, size_t journal_len,
                                      vtil_rates rates);
vtil_walk_answer ref_machine_step(struct ref_machine *machine, const struct ref_call *call);
void ref_machine_free(struct ref_machine *machine);

/* The charge of the machine's routine, in whole cents. */
uint64_t ref_machine_cents(const struct ref_machine *machine, vtil_rates rates);

/* What image and journal have to hold: the written form and the entries that stand, then zeros, as long as is lent. */
void ref_machine_image(const struct ref_machine *machine, uint8_t *image);
void ref_machine_journal(const struct ref_machine *machine, uint8_t *journal);

#endif
