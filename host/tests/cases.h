/* Bytes for the tests to read: a buffer to build files in, pseudo-random numbers, made and damaged files. */
#ifndef CASES_H
#define CASES_H

#include <stddef.h>
#include <stdint.h>

/* No made or damaged file is longer. What does not fit is cut off, which is one more kind of damage. */
#define BYTES_MAX ((size_t)64 * 1024)

struct bytes {
    size_t len;
    uint8_t at[BYTES_MAX];
};

/* The numbers that follow depend on the seed alone. */
void seed(uint64_t start);

/* A number from 0 to limit - 1; limit is at least 1. */
uint64_t below(uint64_t limit);

/* Appends `width` bytes of `value`, the lowest first. */
void put(struct bytes *b, size_t width, uint64_t value);
void put_bytes(struct bytes *b, const void *from, size_t len);
void put_zeros(struct bytes *b, size_t len);

/* A header with the right marks, the entry vip, two empty conventions and no special ones: 110 bytes. */
void put_front(struct bytes *b);

/* A block with the given vip and number of instructions, up to where its first instruction is due: 28 bytes. */
void put_block_front(struct bytes *b, uint64_t vip, uint32_t instructions);

/* An instruction up to where its first operand is due. */
void put_operation(struct bytes *b, const void *name, size_t len, uint32_t count);

/* A whole instruction of this operation; its operands are immediates (kind 0) or registers of 1 bit (1), and all else is 0. */
void put_instruction(struct bytes *b, uint32_t op, uint32_t kind);

/* A whole routine by the layouts; in two of three there is a chance of a fault at every field. */
void make_routine(struct bytes *b);

/* As make_routine, never with a fault, and with vips that differ. */
void make_good_routine(struct bytes *b);

/*
 * A routine of one block with this vip, of this instruction again and again: as long as an image can hold it. Answers its
 * bytes, which are to be freed.
 */
uint8_t *make_full_routine(uint64_t vip, const struct bytes *instruction, size_t *len);

/* One instruction by the layouts; now and then there is a fault in it, or it is cut off, or bytes follow. */
void make_appended(struct bytes *b);

/* The files at these paths, at least one, which NULL ends; answers how many they are. */
size_t load_samples(char **paths, struct bytes **out);

/* A routine that is accepted: one of the samples, or a made one. */
void make_any_routine(const struct bytes *samples, size_t count, struct bytes *b);

/* Damages `b` in one place; `other` is a second file to take pieces from. */
void damage(struct bytes *b, const struct bytes *other);

#endif
