/*
 * Routines and journals made by hand on a book pair, and calls whose refusals are
 * written out: here the reference is held to them too.
 */
#ifndef BY_HAND_H
#define BY_HAND_H

#include <stddef.h>
#include <stdint.h>

#include "cases.h"
#include "reference.h"
#include "vtil.h"

#define OPERATIONS 49
#define JMP 38
#define NOP 41
#define NOP_SIZE 32
#define BLOCK_FRONT 28 /* bytes of a block before its first instruction */
#define ENTRY 20       /* bytes of the journal for a create or an append */

/* The routine that was made last. */
extern struct bytes file;

/* Begins a routine of so many blocks, which then have to be put to it. */
void begin_routine(uint32_t blocks);

/* A block of these operations, with so many vips in each of its lists. */
void put_block(struct bytes *b, uint64_t vip, const uint32_t *ops, uint32_t count, uint32_t vips);

/* Opens the routine that was made, in an image with so many bytes to spare, at these rates or at any. */
void open_routine_at(size_t spare, size_t journal_len, vtil_rates rates);
void open_routine(size_t spare, size_t journal_len);

/* These make a call on both books that is due this refusal, or 0. */
void due(const char *what, const struct ref_call *call, uint64_t refusal);
void edit_due(const char *what, enum vtil_call kind, uint64_t vip, uint64_t refusal);
void append_bytes_due(const char *what, uint64_t vip, const struct bytes *bytes, uint64_t refusal);
void append_due(const char *what, uint64_t vip, uint32_t op, uint64_t refusal);
void undo_due(const char *what, uint64_t refusal);

/* Appends of instructions with each fault that one can have, which come before what the block is. */
void faulty_appends(uint64_t vip);

/* Makes these bytes, where there are any, and a trailer the used part of the journal. */
void use_entry(const struct bytes *block, uint64_t vip, uint32_t place, uint32_t length, uint32_t kind);

#endif
