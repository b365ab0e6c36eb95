#include "cases.h"

#include <stdbool.h>
#include <stdio.h>
#include <stdlib.h>
#include <string.h>

#include "group.h"
#include "reference.h"

static uint64_t state;

void seed(uint64_t start)
{
    state = start;
}

/* splitmix64 */
static uint64_t any(void)
{
    uint64_t z = state += 0x9e3779b97f4a7c15;
    z = (z ^ (z >> 30)) * 0xbf58476d1ce4e5b9;
    z = (z ^ (z >> 27)) * 0x94d049bb133111eb;
    return z ^ (z >> 31);
}

uint64_t below(uint64_t limit)
{
    return any() % limit;
}

void put(struct bytes *b, size_t width, uint64_t value)
{
    for (size_t i = 0; i < width && b->len < BYTES_MAX; i++)
        b->at[b->len++] = (uint8_t)(value >> (8 * i));
}

void put_bytes(struct bytes *b, const void *from, size_t len)
{
    if (len > BYTES_MAX - b->len)
        len = BYTES_MAX - b->len;
    memcpy(b->at + b->len, from, len);
    b->len += len;
}

void put_zeros(struct bytes *b, size_t len)
{
    for (size_t i = 0; i < len; i++)
        put(b, 1, 0);
}

void put_front(struct bytes *b)
{
    put(b, 4, 0x4c495456);
    put(b, 2, 2);
    put(b, 2, 0xdead);
    put_zeros(b, 102);
}

void put_block_front(struct bytes *b, uint64_t vip, uint32_t instructions)
{
    put(b, 8, vip);
    put_zeros(b, 16);
    put(b, 4, instructions);
}

void put_operation(struct bytes *b, const void *name, size_t len, uint32_t count)
{
    put(b, 4, len);
    put_bytes(b, name, len);
    put(b, 4, count);
}

void put_instruction(struct bytes *b, uint32_t op, uint32_t kind)
{
    const struct ref_operation *operation = &ref_operations[op];
    put_operation(b, operation->name, strlen(operation->name), operation->count);
    for (uint32_t i = 0; i < operation->count; i++) {
        put(b, 4, kind);
        if (kind == 0)
            put_zeros(b, 12);
        else
            put_zeros(b, 16), put(b, 4, 1), put_zeros(b, 4);
    }
    put_zeros(b, 21);
}

/* Made routines -------------------------------------------------------------- */

static uint64_t fault_rate; /* one fault in so many fields; 0: none */
static bool any_slices;     /* a crooked register is no fault here: a file is made */

static bool faulty(void)
{
    return fault_rate != 0 && below(fault_rate) == 0;
}

static const uint32_t odd_numbers[] = {0, 1, 2, 3, 4, 0xff, 0x100, 0x10001, 0x01000000, 0x7fffffff, 0x80000000, 0xffffffff};

static uint32_t odd_number(void)
{
    return odd_numbers[below(sizeof odd_numbers / sizeof odd_numbers[0])];
}

static void make_header(struct bytes *b)
{
    put(b, 4, faulty() ? any() : 0x4c495456);
    put(b, 1, faulty() ? any() : below(3));
    put(b, 1, any());
    put(b, 2, faulty() ? any() : 0xdead);
}

/* The width of a register, and its offset. */
static void make_slice(struct bytes *b)
{
    uint64_t width = 1 + below(64);
    if (any_slices)
        put(b, 8, any());
    else if (faulty())
        put(b, 4, odd_number()), put(b, 4, odd_number());
    else
        put(b, 4, width), put(b, 4, below(65 - width));
}

static void make_register(struct bytes *b)
{
    uint64_t top = faulty() ? below(256) : below(3);
    put(b, 8, any());
    put(b, 7, any());
    put(b, 1, top);
    make_slice(b);
}

static void make_operand(struct bytes *b)
{
    uint64_t kind = below(2);
    put(b, 4, faulty() ? odd_number() : kind);
    if (kind == 1)
        make_register(b);
    else
        put(b, 8, any()), put(b, 4, any());
}

/* A name that is no operation, or no text, or (rarely) some operation after all. */
static void make_odd_name(struct bytes *b, const char *name)
{
    uint8_t odd[8];
    size_t len = strlen(name);
    memset(odd, 0, sizeof odd);
    memcpy(odd, name, len);
    switch (below(5)) {
    case 0: len = below(len + 1); break;
    case 1: len += 1; break;
    case 2: odd[below(len)] ^= (uint8_t)(1 << below(8)); break;
    case 3: odd[below(len)] = (uint8_t)any(); break;
    default: odd[0] = 0xc3, odd[1] = (uint8_t)any(), len = 2; break;
    }
    put(b, 4, faulty() ? odd_number() : len);
    put_bytes(b, odd, len);
}

static void make_instruction(struct bytes *b)
{
    const struct ref_operation *operation = &ref_operations[below(ref_operation_count)];
    if (faulty())
        make_odd_name(b, operation->name);
    else
        put(b, 4, strlen(operation->name)), put_bytes(b, operation->name, strlen(operation->name));
    put(b, 4, faulty() ? odd_number() : operation->count);
    for (uint32_t i = 0; i < operation->count; i++)
        make_operand(b);
    put(b, 8, any());
    put(b, 8, any());
    put(b, 4, any());
    put(b, 1, below(2) ? any() : below(2));
}

static void make_vip(struct bytes *b)
{
    put(b, 8, any());
}

static void make_list(struct bytes *b, void (*item)(struct bytes *), uint64_t limit)
{
    uint64_t count = below(limit);
    put(b, 4, faulty() ? odd_number() : count);
    for (uint64_t i = 0; i < count; i++)
        item(b);
}

static void make_convention(struct bytes *b)
{
    make_list(b, make_register, 3);
    make_list(b, make_register, 3);
    make_list(b, make_register, 3);
    make_register(b);
    put(b, 8, any());
    put(b, 1, any());
}

/* Vips come from a small range at times, so that some are repeated. */
static void make_block(struct bytes *b)
{
    put(b, 8, below(8) == 0 ? below(8) : any());
    put(b, 8, any());
    put(b, 8, any());
    make_list(b, make_instruction, 5);
    make_list(b, make_vip, 3);
    make_list(b, make_vip, 3);
}

void make_routine(struct bytes *b)
{
    b->len = 0;
    fault_rate = below(3) == 0 ? 0 : 80;
    any_slices = true;
    make_header(b);
    put(b, 8, any());
    make_convention(b);
    make_convention(b);
    make_list(b, make_convention, 3);
    make_list(b, make_block, 12);
    if (below(16) == 0)
        b->len = below(b->len);
    if (below(4) == 0)
        put(b, 8, any());
}

void make_good_routine(struct bytes *b)
{
    do
        make_routine(b);
    while (ref_check(b->at, b->len) < 0);
}

uint8_t *make_full_routine(uint64_t vip, const struct bytes *instruction, size_t *len)
{
    static struct bytes front;
    const size_t before = 114 + 28, links = 8, each = instruction->len;
    const size_t count = (VTIL_MOST_LENT - before - links) / each;
    *len = before + count * each + links;
    uint8_t *routine = calloc(*len, 1);
    if (routine == NULL)
        stop("the fullest routine");
    front.len = 0;
    put_front(&front);
    put(&front, 4, 1);
    put_block_front(&front, vip, (uint32_t)count);
    memcpy(routine, front.at, front.len);
    for (size_t i = 0; i < count; i++)
        memcpy(routine + before + i * each, instruction->at, each);
    return routine;
}

void make_appended(struct bytes *b)
{
    b->len = 0;
    fault_rate = below(3) == 0 ? 8 : 0;
    any_slices = false;
    make_instruction(b);
    if (below(12) == 0)
        b->len = below(b->len);
    if (below(12) == 0)
        put(b, 1 + below(4), any());
}

/* Samples ---------------------------------------------------------------------- */

static void load_sample(const char *path, struct bytes *out)
{
    FILE *from = fopen(path, "rb");
    if (from == NULL)
        stop(path);
    out->len = fread(out->at, 1, BYTES_MAX, from);
    if (ferror(from))
        stop(path);
    if (out->len == 0 || out->len == BYTES_MAX)
        stop_because(path, "empty, or too long for these tests");
    fclose(from);
}

size_t load_samples(char **paths, struct bytes **out)
{
    size_t count = 0;
    while (paths[count] != NULL)
        count++;
    if (count == 0)
        stop_because("samples", "no files are given");
    *out = calloc(count, sizeof **out);
    if (*out == NULL)
        stop("samples");
    for (size_t i = 0; i < count; i++)
        load_sample(paths[i], &(*out)[i]);
    return count;
}

void make_any_routine(const struct bytes *samples, size_t count, struct bytes *b)
{
    do
        if (below(4) == 0)
            *b = samples[below(count)];
        else
            make_good_routine(b);
    while (ref_check(b->at, b->len) < 0);
}

/* Damaged files --------------------------------------------------------------- */

static void overwrite(struct bytes *b, size_t at, size_t width, uint64_t value)
{
    for (size_t i = 0; i < width && at + i < b->len; i++)
        b->at[at + i] = (uint8_t)(value >> (8 * i));
}

static void cut_out(struct bytes *b, size_t at, size_t len)
{
    if (len > b->len - at)
        len = b->len - at;
    memmove(b->at + at, b->at + at + len, b->len - at - len);
    b->len -= len;
}

static void put_in(struct bytes *b, size_t at, const uint8_t *from, size_t len)
{
    if (len > BYTES_MAX - b->len)
        return;
    memmove(b->at + at + len, b->at + at, b->len - at);
    memcpy(b->at + at, from, len);
    b->len += len;
}

/* Puts a piece of `other` in, or over what stands there. */
static void take_piece(struct bytes *b, size_t at, const struct bytes *other)
{
    size_t from = below(other->len);
    size_t len = 1 + below(64);
    if (len > other->len - from)
        len = other->len - from;
    if (below(2))
        cut_out(b, at, len);
    put_in(b, at, other->at + from, len);
}

void damage(struct bytes *b, const struct bytes *other)
{
    if (b->len == 0)
        return;
    size_t at = below(b->len);
    switch (below(8)) {
    case 0: overwrite(b, at, 1, any()); break;
    case 1: overwrite(b, at, 1, b->at[at] ^ (1u << below(8))); break;
    case 2: overwrite(b, at, 1, below(4)); break;
    case 3: overwrite(b, at, 4, odd_number()); break;
    case 4: b->len = at; break;
    case 5: cut_out(b, at, 1 + below(40)); break;
    default: take_piece(b, at, other); break;
    }
}
