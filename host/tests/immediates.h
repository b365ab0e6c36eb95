/*
 * Routines whose instructions have immediates, with where the values of these stand, and
 * outside copies of them on a book pair. What a copy has to be is the routine with these
 * bytes 0: here the reference is held to it too.
 */
#ifndef IMMEDIATES_H
#define IMMEDIATES_H

#include <stdbool.h>
#include <stddef.h>
#include <stdint.h>

#include "cases.h"

#define MOV 0
#define VIP 5 /* of the first block; those after it count on */
#define MOST_VALUES 4000

/* Where the values of immediates stand in `file`. */
extern size_t values_at[MOST_VALUES];
extern size_t value_count;

void set_value(size_t which, uint64_t value);

/* Begins a routine of so many blocks, as begin_routine does, and notes no value yet. */
void begin_with_values(uint32_t blocks);

/* An operand of `file`. */
void put_immediate(uint64_t value, uint32_t width);

/* Pairs of an odd value, or any one, and an odd width, in turn: which comes next, and after how many all have been. */
#define TURNS 25
extern unsigned next_turn;
void put_next_immediate(void);

/* An instruction of `file`. Operand i is a register where bit i of `registers` is set, else what `put_value` puts. */
void put_with_immediates(uint32_t op, unsigned registers, void (*put_value)(void));

/* Every operation, with an immediate or a register in every place of it; how many that are, and how many immediates. */
#define EVERY_MIX (3 + 11 * 2 + 15 * 4 + 20 * 8)
#define EVERY_VALUE (11 * 1 + 15 * 4 + 20 * 12)
void in_every_mix(void (*try)(uint32_t op, unsigned registers));

/* A routine with this instruction between others, behind an empty block and before one more. */
void make_between(uint32_t op, unsigned registers);

/* One whose last block ends in this instruction, with no links behind it. */
void make_last(uint32_t op, unsigned registers);

/* One of so many blocks: the first and each `empty`th after it have nothing, the others a mov of a register and an immediate. */
void make_blocks(uint32_t blocks, uint32_t empty);

/* The written form of the book that is open becomes `file`; reading by offset finds the values. */
void take_written_form(void);

bool all_zero(const uint8_t *bytes, size_t len);

/* Copies the book that is open, which holds `file`, into a second image with so many bytes to spare. */
void copy_due(const char *what, size_t spare);

/* A copy of the book that is open is due this refusal, at this length of the second image. */
void copy_refused(const char *what, size_t copy_len, uint64_t refusal);

#endif
