/*
 * The rules of docs/SPEC.md, one function for each layout and each call. Where slow
 * is simpler it is slow: a call on a book reads the whole routine into values, edits
 * those, and writes them again.
 */
#include "reference.h"

#include <stdio.h>
#include <stdlib.h>
#include <string.h>

/* Values ------------------------------------------------------------------------------------- */

/*
 * Beside the values stands where each list's first element was read, `.._at`, and where a block was, `at` and `end`. This
 * counts only right after reading.
 */
struct convention {
    uint64_t counts[3], registers_at[3]; /* volatile, param, retval */
    vtil_register_desc *registers[3];
    vtil_register_desc frame;
    uint64_t shadow_space;
    bool purge;
};

struct block {
    uint64_t at, end;
    uint64_t vip;
    int64_t sp_offset;
    uint32_t sp_index, last_temporary;
    uint64_t count, instructions_at;
    vtil_instruction_desc *instructions;
    uint64_t vip_counts[2], vips_at[2]; /* prev, next */
    uint64_t *vips[2];
};

struct routine {
    uint8_t machine;
    uint64_t entry;
    uint64_t conventions, blocks; /* how many; conventions: the routine's, the subroutine's, and the special ones */
    uint64_t conventions_at, blocks_at;
    struct convention *convention;
    struct block *block;
};

static void *checked(void *got)
{
    if (got == NULL) {
        perror("reference");
        exit(2);
    }
    return got;
}

/* The memory of values: it is kept until the next call of a function that the header has. */
static _Thread_local void **kept;
static _Thread_local size_t kept_count, kept_room;

static void *keep(size_t count, size_t size)
{
    if (count == 0)
        return NULL;
    if (kept_count == kept_room) {
        kept_room = 2 * kept_room + 64;
        kept = checked(realloc(kept, kept_room * sizeof *kept));
    }
    return kept[kept_count++] = checked(calloc(count, size));
}

static void forget(void)
{
    while (kept_count > 0)
        free(kept[--kept_count]);
}

/* Operations ---------------------------------------------------------------------------------- */

const struct ref_operation ref_operations[] = {
    {"mov", 2},    {"movsx", 2},  {"str", 3},   {"ldd", 3},    {"neg", 1},   {"add", 2},    {"sub", 2},
    {"mul", 2},    {"mulhi", 2},  {"imul", 2},  {"imulhi", 2}, {"div", 3},   {"rem", 3},    {"idiv", 3},
    {"irem", 3},   {"popcnt", 1}, {"bsf", 1},   {"bsr", 1},    {"not", 1},   {"shr", 2},    {"shl", 2},
    {"xor", 2},    {"or", 2},     {"and", 2},   {"ror", 2},    {"rol", 2},   {"tg", 3},     {"tge", 3},
    {"te", 3},     {"tne", 3},    {"tl", 3},    {"tle", 3},    {"tug", 3},   {"tuge", 3},   {"tul", 3},
    {"tule", 3},   {"ifs", 3},    {"js", 3},    {"jmp", 1},    {"vexit", 1}, {"vxcall", 1}, {"nop", 0},
    {"sfence", 0}, {"lfence", 0}, {"vemit", 1}, {"vpinr", 1},  {"vpinw", 1}, {"vpinrm", 3}, {"vpinwm", 3},
};
const size_t ref_operation_count = sizeof ref_operations / sizeof ref_operations[0];

/* The number of the operation of this name; where there is none, how many there are. */
static uint32_t operation_named(const uint8_t *name, size_t len)
{
    uint32_t op = 0;
    while (op < ref_operation_count &&
           (strlen(ref_operations[op].name) != len || memcmp(ref_operations[op].name, name, len) != 0))
        op++;
    return op;
}

/* Names -------------------------------------------------------------------------------------- */

static bool between(uint8_t byte, uint8_t low, uint8_t high)
{
    return low <= byte && byte <= high;
}

/* The length of the well-formed sequence at the start of `t` (Unicode Standard, table 3-7); 0 if there is none. */
static size_t sequence(const uint8_t *t, size_t len)
{
    static const struct {
        uint8_t first_low, first_high, second_low, second_high;
        size_t len;
    } rows[] = {
        {0x00, 0x7f, 0, 0, 1},       {0xc2, 0xdf, 0x80, 0xbf, 2}, {0xe0, 0xe0, 0xa0, 0xbf, 3},
        {0xe1, 0xec, 0x80, 0xbf, 3}, {0xed, 0xed, 0x80, 0x9f, 3}, {0xee, 0xef, 0x80, 0xbf, 3},
        {0xf0, 0xf0, 0x90, 0xbf, 4}, {0xf1, 0xf3, 0x80, 0xbf, 4}, {0xf4, 0xf4, 0x80, 0x8f, 4},
    };
    for (size_t row = 0; row < sizeof rows / sizeof rows[0]; row++) {
        if (!between(t[0], rows[row].first_low, rows[row].first_high))
            continue;
        if (rows[row].len > len)
            return 0;
        if (rows[row].len > 1 && !between(t[1], rows[row].second_low, rows[row].second_high))
            return 0;
        for (size_t i = 2; i < rows[row].len; i++)
            if (!between(t[i], 0x80, 0xbf))
                return 0;
        return rows[row].len;
    }
    return 0;
}

bool ref_is_text(const uint8_t *bytes, size_t len)
{
    for (size_t at = 0; at < len;) {
        size_t step = sequence(bytes + at, len - at);
        if (step == 0)
            return false;
        at += step;
    }
    return true;
}

/* Reading: chapter "Fields" ------------------------------------------------------------------- */

/* What is read, how far, and the first refusal (0: none yet). After a refusal nothing is read, and every number is 0. */
struct reader {
    const uint8_t *bytes;
    size_t len, at;
    uint64_t refusal;
    bool asks_sound; /* crooked registers are refused: an instruction that is appended is read */
    struct ref_counts counts;
};

static void refuse(struct reader *r, uint64_t refusal)
{
    if (r->refusal == 0)
        r->refusal = refusal;
}

static bool fine(const struct reader *r)
{
    return r->refusal == 0;
}

/* Where the next `len` bytes stand; NULL when refused. */
static const uint8_t *next(struct reader *r, uint64_t len)
{
    if (fine(r) && r->len - r->at < len)
        refuse(r, 1);
    if (!fine(r))
        return NULL;
    r->at += len;
    return r->bytes + r->at - len;
}

/* The next `width` bytes as an unsigned number. */
static uint64_t number(struct reader *r, size_t width)
{
    const uint8_t *bytes = next(r, width);
    uint64_t value = 0;
    for (size_t i = 0; i < width && bytes != NULL; i++)
        value += (uint64_t)bytes[i] << (8 * i);
    return value;
}

/* How many items of a list are begun: each has at least `least` bytes, so of too many the end refuses one. */
static uint64_t begun(const struct reader *r, uint64_t count, size_t least)
{
    uint64_t most = (r->len - r->at) / least + 1;
    return count < most ? count : most;
}

static uint8_t read_header(struct reader *r)
{
    if (number(r, 4) != 0x4c495456)
        refuse(r, 3);
    uint8_t machine = (uint8_t)number(r, 1);
    if (machine > 2)
        refuse(r, 4);
    number(r, 1);
    if (number(r, 2) != 0xdead)
        refuse(r, 3);
    return machine;
}

/* Sums of 32 bits would wrap. */
static bool is_sound(const vtil_register_desc *reg)
{
    return reg->bit_count >= 1 && reg->bit_offset >= 0 && (int64_t)reg->bit_count + reg->bit_offset <= 64;
}

static vtil_register_desc read_register(struct reader *r)
{
    vtil_register_desc reg;
    reg.flags = number(r, 8);
    reg.combined_id = number(r, 8);
    if (reg.combined_id >> 56 > 2)
        refuse(r, 5);
    reg.bit_count = (int32_t)number(r, 4);
    reg.bit_offset = (int32_t)number(r, 4);
    if (r->asks_sound && !is_sound(&reg))
        refuse(r, 19);
    return reg;
}

static vtil_operand_desc read_operand(struct reader *r)
{
    vtil_operand_desc operand = {0};
    operand.kind = (uint32_t)number(r, 4);
    if (operand.kind > 1)
        refuse(r, 6);
    if (operand.kind == 1) {
        operand.register_desc = read_register(r);
    } else {
        operand.immediate.value = number(r, 8);
        operand.immediate.bit_count = (uint32_t)number(r, 4);
    }
    return operand;
}

/* The name, and the count after it: 1 of the name, 2, 1 of the count, 7, 8. */
static void read_operation(struct reader *r, vtil_instruction_desc *value)
{
    uint64_t len = number(r, 4);
    const uint8_t *name = next(r, len);
    if (fine(r) && !ref_is_text(name, len))
        refuse(r, 2);
    value->count = (uint32_t)number(r, 4);
    if (!fine(r))
        return;
    value->op = operation_named(name, len);
    if (value->op == ref_operation_count)
        refuse(r, 7);
    else if (value->count != ref_operations[value->op].count)
        refuse(r, 8);
}

static vtil_instruction_desc read_instruction(struct reader *r)
{
    vtil_instruction_desc value = {0};
    read_operation(r, &value);
    for (uint32_t i = 0; i < value.count && fine(r); i++)
        value.operands[i] = read_operand(r);
    value.vip = number(r, 8);
    value.sp_offset = (int64_t)number(r, 8);
    value.sp_index = (uint32_t)number(r, 4);
    value.sp_reset = number(r, 1) != 0;
    return value;
}

static struct convention read_convention(struct reader *r)
{
    struct convention convention;
    for (int list = 0; list < 3; list++) {
        uint64_t count = convention.counts[list] = number(r, 4);
        convention.registers_at[list] = r->at;
        vtil_register_desc *registers = convention.registers[list] = keep(begun(r, count, 24), sizeof *registers);
        r->counts.registers += count;
        for (uint64_t i = 0; i < count && fine(r); i++)
            registers[i] = read_register(r);
    }
    convention.frame = read_register(r);
    convention.shadow_space = number(r, 8);
    convention.purge = number(r, 1) != 0;
    return convention;
}

static struct block read_block(struct reader *r)
{
    struct block block;
    block.at = r->at;
    block.vip = number(r, 8);
    block.sp_offset = (int64_t)number(r, 8);
    block.sp_index = (uint32_t)number(r, 4);
    block.last_temporary = (uint32_t)number(r, 4);
    block.count = number(r, 4);
    block.instructions_at = r->at;
    block.instructions = keep(begun(r, block.count, 29), sizeof *block.instructions);
    r->counts.instructions += block.count;
    for (uint64_t i = 0; i < block.count && fine(r); i++)
        block.instructions[i] = read_instruction(r);
    for (int list = 0; list < 2; list++) {
        uint64_t count = block.vip_counts[list] = number(r, 4);
        block.vips_at[list] = r->at;
        uint64_t *vips = block.vips[list] = keep(begun(r, count, 8), sizeof *vips);
        r->counts.vips += count;
        for (uint64_t i = 0; i < count && fine(r); i++)
            vips[i] = number(r, 8);
    }
    block.end = r->at;
    return block;
}

/* The routine's and the subroutine's; the number of the special ones stands between the second and them. */
static void read_conventions(struct reader *r, struct routine *routine)
{
    routine->conventions_at = r->at;
    struct convention first = read_convention(r), second = read_convention(r);
    uint64_t count = number(r, 4);
    r->counts.conventions += count;
    routine->conventions = 2 + count;
    routine->convention = keep(2 + begun(r, count, 45), sizeof *routine->convention);
    routine->convention[0] = first;
    routine->convention[1] = second;
    for (uint64_t i = 0; i < count && fine(r); i++)
        routine->convention[2 + i] = read_convention(r);
}

static int compare_vips(const void *a, const void *b)
{
    uint64_t left = *(const uint64_t *)a, right = *(const uint64_t *)b;
    return (left > right) - (left < right);
}

/* Of vips in rising order two that are equal stand side by side. */
static bool has_repeated_vip(const struct routine *routine)
{
    uint64_t *vips = keep(routine->blocks, sizeof *vips);
    for (uint64_t i = 0; i < routine->blocks; i++)
        vips[i] = routine->block[i].vip;
    if (routine->blocks > 1)
        qsort(vips, routine->blocks, sizeof *vips, compare_vips);
    for (uint64_t i = 1; i < routine->blocks; i++)
        if (vips[i - 1] == vips[i])
            return true;
    return false;
}

static struct routine read_routine(struct reader *r)
{
    struct routine routine;
    routine.machine = read_header(r);
    routine.entry = number(r, 8);
    read_conventions(r, &routine);
    routine.blocks = number(r, 4);
    routine.blocks_at = r->at;
    routine.block = keep(begun(r, routine.blocks, 36), sizeof *routine.block);
    for (uint64_t i = 0; i < routine.blocks && fine(r); i++)
        routine.block[i] = read_block(r);
    if (fine(r) && has_repeated_vip(&routine))
        refuse(r, 9);
    return routine;
}

int64_t ref_check(const uint8_t *file, size_t len)
{
    struct reader r = {.bytes = file, .len = len};
    forget();
    read_routine(&r);
    return fine(&r) ? (int64_t)r.at : -(int64_t)r.refusal;
}

struct ref_counts ref_list_counts(const uint8_t *file, size_t len)
{
    struct reader r = {.bytes = file, .len = len};
    forget();
    read_routine(&r);
    return r.counts;
}

/* Reading by offset ------------------------------------------------------------------------- */

/* A reader that begins at `at`. Past the end every field is refused 1. */
static struct reader reader_at(const uint8_t *file, size_t len, uint64_t at)
{
    forget();
    if (at > len)
        return (struct reader){.bytes = file, .len = len, .at = len, .refusal = 1};
    return (struct reader){.bytes = file, .len = len, .at = (size_t)at};
}

vtil_routine_read ref_read_routine(const uint8_t *file, size_t len)
{
    struct reader r = reader_at(file, len, 0);
    struct routine routine = read_routine(&r);
    if (!fine(&r))
        return (vtil_routine_read){.refusal = r.refusal};
    return (vtil_routine_read){0, r.at, routine.machine, routine.entry, routine.conventions_at, routine.conventions - 2,
                               routine.blocks_at, routine.blocks};
}

vtil_convention_read ref_read_convention(const uint8_t *file, size_t len, uint64_t at)
{
    struct reader r = reader_at(file, len, at);
    struct convention convention = read_convention(&r);
    if (!fine(&r))
        return (vtil_convention_read){.refusal = r.refusal};
    const uint64_t *lists_at = convention.registers_at, *counts = convention.counts;
    return (vtil_convention_read){0, r.at, convention.frame, convention.shadow_space, convention.purge, lists_at[0],
                                  counts[0], lists_at[1], counts[1], lists_at[2], counts[2]};
}

vtil_register_read ref_read_register(const uint8_t *file, size_t len, uint64_t at)
{
    struct reader r = reader_at(file, len, at);
    vtil_register_desc reg = read_register(&r);
    return fine(&r) ? (vtil_register_read){0, r.at, reg} : (vtil_register_read){.refusal = r.refusal};
}

vtil_block_read ref_read_block(const uint8_t *file, size_t len, uint64_t at)
{
    struct reader r = reader_at(file, len, at);
    struct block block = read_block(&r);
    if (!fine(&r))
        return (vtil_block_read){.refusal = r.refusal};
    const uint64_t *lists_at = block.vips_at, *counts = block.vip_counts;
    return (vtil_block_read){0, r.at, block.vip, block.sp_offset, block.sp_index, block.last_temporary,
                             block.instructions_at, block.count, lists_at[0], counts[0], lists_at[1], counts[1]};
}

vtil_instruction_read ref_read_instruction(const uint8_t *file, size_t len, uint64_t at)
{
    struct reader r = reader_at(file, len, at);
    vtil_instruction_desc value = read_instruction(&r);
    return fine(&r) ? (vtil_instruction_read){0, r.at, value} : (vtil_instruction_read){.refusal = r.refusal};
}

vtil_vip_read ref_read_vip(const uint8_t *file, size_t len, uint64_t at)
{
    struct reader r = reader_at(file, len, at);
    uint64_t vip = number(&r, 8);
    return fine(&r) ? (vtil_vip_read){0, r.at, vip} : (vtil_vip_read){.refusal = r.refusal};
}

/* The written form. Where `at` is NULL only the size is counted --------------------------- */

struct writer {
    uint8_t *at;
    size_t size;
};

static void put_bytes(struct writer *w, const void *bytes, size_t len)
{
    if (w->at != NULL && len > 0)
        memcpy(w->at + w->size, bytes, len);
    w->size += len;
}

static void put(struct writer *w, size_t width, uint64_t value)
{
    for (size_t i = 0; i < width; i++) {
        uint8_t byte = (uint8_t)(value >> (8 * i));
        put_bytes(w, &byte, 1);
    }
}

static void write_register(struct writer *w, const vtil_register_desc *reg)
{
    put(w, 8, reg->flags);
    put(w, 8, reg->combined_id);
    put(w, 4, (uint32_t)reg->bit_count);
    put(w, 4, (uint32_t)reg->bit_offset);
}

static void write_operand(struct writer *w, const vtil_operand_desc *operand)
{
    put(w, 4, operand->kind);
    if (operand->kind == 1) {
        write_register(w, &operand->register_desc);
    } else {
        put(w, 8, operand->immediate.value);
        put(w, 4, operand->immediate.bit_count);
    }
}

static void write_instruction(struct writer *w, const vtil_instruction_desc *value)
{
    const char *name = ref_operations[value->op].name;
    put(w, 4, strlen(name));
    put_bytes(w, name, strlen(name));
    put(w, 4, value->count);
    for (uint32_t i = 0; i < value->count; i++)
        write_operand(w, &value->operands[i]);
    put(w, 8, value->vip);
    put(w, 8, (uint64_t)value->sp_offset);
    put(w, 4, value->sp_index);
    put(w, 1, value->sp_reset != 0);
}

static void write_convention(struct writer *w, const struct convention *convention)
{
    for (int list = 0; list < 3; list++) {
        put(w, 4, convention->counts[list]);
        for (uint64_t i = 0; i < convention->counts[list]; i++)
            write_register(w, &convention->registers[list][i]);
    }
    write_register(w, &convention->frame);
    put(w, 8, convention->shadow_space);
    put(w, 1, convention->purge);
}

static void write_block(struct writer *w, const struct block *block)
{
    put(w, 8, block->vip);
    put(w, 8, (uint64_t)block->sp_offset);
    put(w, 4, block->sp_index);
    put(w, 4, block->last_temporary);
    put(w, 4, block->count);
    for (uint64_t i = 0; i < block->count; i++)
        write_instruction(w, &block->instructions[i]);
    for (int list = 0; list < 2; list++) {
        put(w, 4, block->vip_counts[list]);
        for (uint64_t i = 0; i < block->vip_counts[list]; i++)
            put(w, 8, block->vips[list][i]);
    }
}

static void write_routine(struct writer *w, const struct routine *routine)
{
    put(w, 4, 0x4c495456);
    put(w, 1, routine->machine);
    put(w, 1, 0);
    put(w, 2, 0xdead);
    put(w, 8, routine->entry);
    write_convention(w, &routine->convention[0]);
    write_convention(w, &routine->convention[1]);
    put(w, 4, routine->conventions - 2);
    for (uint64_t i = 2; i < routine->conventions; i++)
        write_convention(w, &routine->convention[i]);
    put(w, 4, routine->blocks);
    for (uint64_t i = 0; i < routine->blocks; i++)
        write_block(w, &routine->block[i]);
}

static size_t instruction_size(const vtil_instruction_desc *value)
{
    struct writer count = {NULL, 0};
    write_instruction(&count, value);
    return count.size;
}

static size_t block_size(const struct block *block)
{
    struct writer count = {NULL, 0};
    write_block(&count, block);
    return count.size;
}

static size_t routine_size(const struct routine *routine)
{
    struct writer count = {NULL, 0};
    write_routine(&count, routine);
    return count.size;
}

/* The written form, then zeros. */
static void fill_image(uint8_t *image, size_t len, const struct routine *routine)
{
    struct writer w = {image, 0};
    write_routine(&w, routine);
    if (w.size < len)
        memset(image + w.size, 0, len - w.size);
}

/* Writing an instruction value ------------------------------------------------------------ */

static uint64_t unwritable(const vtil_instruction_desc *value)
{
    if (value->op >= ref_operation_count)
        return 7;
    if (value->count != ref_operations[value->op].count)
        return 8;
    for (uint32_t i = 0; i < value->count; i++)
        if (value->operands[i].kind == 1 && value->operands[i].register_desc.combined_id >> 56 > 2)
            return 5;
    for (uint32_t i = 0; i < value->count; i++)
        if (value->operands[i].kind > 1)
            return 6;
    return 0;
}

vtil_written ref_write_instruction(const vtil_instruction_desc *value, uint8_t *image, size_t image_len)
{
    if (image_len > VTIL_MOST_LENT)
        return (vtil_written){10, 0};
    uint64_t refusal = unwritable(value);
    if (refusal != 0)
        return (vtil_written){refusal, 0};
    size_t size = instruction_size(value);
    if (size > image_len)
        return (vtil_written){11, 0};
    struct writer w = {image, 0};
    write_instruction(&w, value);
    return (vtil_written){0, size};
}

/* Sums, in hundredths of a cent ------------------------------------------------------------------ */

/* The group of an operation, 0 to 5. */
static int group_of(uint32_t op)
{
    static const uint32_t last_of_group[] = {3, 14, 25, 36, 40, 48};
    int group = 0;
    while (op > last_of_group[group])
        group++;
    return group;
}

/* The sum of so many instructions. */
static uint64_t instructions_sum(const vtil_instruction_desc *instructions, uint64_t count, vtil_rates rates)
{
    uint64_t sum = 0;
    for (uint64_t i = 0; i < count; i++)
        sum += rates.rate[group_of(instructions[i].op)];
    return sum;
}

/* The sum over all instructions, worked afresh. */
static uint64_t routine_sum(const struct routine *routine, vtil_rates rates)
{
    uint64_t sum = 0;
    for (uint64_t i = 0; i < routine->blocks; i++)
        sum += instructions_sum(routine->block[i].instructions, routine->block[i].count, rates);
    return sum;
}

/* Opening, and the tests for 10 and 13 --------------------------------------------------------- */

static bool too_large(const struct ref_book *book)
{
    return book->image_len > VTIL_MOST_LENT || book->journal_len > VTIL_MOST_LENT;
}

/* An answer of this refusal, 0 for none, and the book as it is. */
static vtil_answer opening(const struct ref_book *book, uint64_t refusal)
{
    return (vtil_answer){refusal, book->numbers};
}

vtil_answer ref_open(struct ref_book *book, const uint8_t *file, size_t len, vtil_rates rates)
{
    struct reader r = {.bytes = file, .len = len};
    forget();
    book->numbers = (vtil_book){0};
    if (too_large(book))
        return opening(book, 10);
    struct routine routine = read_routine(&r);
    if (!fine(&r))
        return opening(book, r.refusal);
    if (routine_size(&routine) > book->image_len)
        return opening(book, 11);
    fill_image(book->image, book->image_len, &routine);
    if (book->journal_len > 0)
        memset(book->journal, 0, book->journal_len);
    book->numbers.written = routine_size(&routine);
    book->numbers.rates = rates;
    book->numbers.sum = routine_sum(&routine, rates);
    return opening(book, 0);
}

static bool all_zero(const uint8_t *bytes, size_t len)
{
    for (size_t i = 0; i < len; i++)
        if (bytes[i] != 0)
            return false;
    return true;
}

/* Whether the bytes are the routine's written form and nothing else. */
static bool is_written(const uint8_t *bytes, size_t len, const struct routine *routine)
{
    struct writer w = {keep(routine_size(routine), 1), 0};
    write_routine(&w, routine);
    return w.size == len && memcmp(w.at, bytes, len) == 0;
}

/* 0 and the routine that the book holds, or 10 or 13. */
static uint64_t held(const struct ref_book *book, struct routine *out)
{
    if (too_large(book))
        return 10;
    if (book->numbers.written > book->image_len || book->numbers.used > book->journal_len)
        return 13;
    size_t written = (size_t)book->numbers.written;
    struct reader r = {.bytes = book->image, .len = written};
    *out = read_routine(&r);
    if (!fine(&r) || !is_written(book->image, written, out))
        return 13;
    if (book->numbers.walk != 0 && book->numbers.walk - 1 > out->blocks)
        return 13;
    return all_zero(book->image + written, book->image_len - written) ? 0 : 13;
}

/* Looking -------------------------------------------------------------------------------------- */

vtil_routine_look ref_routine(const struct ref_book *book)
{
    struct routine routine;
    forget();
    vtil_routine_look look = {.refusal = held(book, &routine)};
    if (look.refusal != 0)
        return look;
    return (vtil_routine_look){0, routine.machine, routine.entry, routine.conventions - 2, routine.blocks};
}

static uint64_t find_block(const struct ref_book *book, uint64_t place, struct block *out)
{
    struct routine routine;
    forget();
    uint64_t refusal = held(book, &routine);
    if (refusal != 0)
        return refusal;
    if (place >= routine.blocks)
        return 15;
    *out = routine.block[place];
    return 0;
}

vtil_block_look ref_block(const struct ref_book *book, uint64_t place)
{
    struct block block;
    vtil_block_look look = {.refusal = find_block(book, place, &block)};
    if (look.refusal != 0)
        return look;
    return (vtil_block_look){0, block.vip, block.sp_offset, block.sp_index, block.last_temporary, block.count,
                             block.vip_counts[0], block.vip_counts[1]};
}

vtil_instruction_look ref_instruction(const struct ref_book *book, uint64_t block, uint64_t place)
{
    struct block found;
    vtil_instruction_look look = {.refusal = find_block(book, block, &found)};
    if (look.refusal == 0 && place >= found.count)
        look.refusal = 15;
    if (look.refusal == 0)
        look.instruction = found.instructions[place];
    return look;
}

vtil_vip_look ref_block_vip(const struct ref_book *book, uint64_t block, uint64_t list, uint64_t place)
{
    struct block found;
    vtil_vip_look look = {.refusal = find_block(book, block, &found)};
    if (look.refusal == 0 && (list > 1 || place >= found.vip_counts[list]))
        look.refusal = 15;
    if (look.refusal == 0)
        look.vip = found.vips[list][place];
    return look;
}

static uint64_t find_convention(const struct ref_book *book, uint64_t place, struct convention *out)
{
    struct routine routine;
    forget();
    uint64_t refusal = held(book, &routine);
    if (refusal != 0)
        return refusal;
    if (place >= routine.conventions)
        return 15;
    *out = routine.convention[place];
    return 0;
}

vtil_convention_look ref_convention(const struct ref_book *book, uint64_t place)
{
    struct convention convention;
    vtil_convention_look look = {.refusal = find_convention(book, place, &convention)};
    if (look.refusal != 0)
        return look;
    return (vtil_convention_look){0, convention.frame, convention.shadow_space, convention.purge, convention.counts[0],
                                  convention.counts[1], convention.counts[2]};
}

vtil_register_look ref_convention_register(const struct ref_book *book, uint64_t convention, uint64_t list, uint64_t place)
{
    struct convention found;
    vtil_register_look look = {.refusal = find_convention(book, convention, &found)};
    if (look.refusal == 0 && (list > 2 || place >= found.counts[list]))
        look.refusal = 15;
    if (look.refusal == 0)
        look.register_desc = found.registers[list][place];
    return look;
}

/* The charge ------------------------------------------------------------------------------------ */

/* Whole cents, rounded up. */
static uint64_t cents(const struct routine *routine, vtil_rates rates)
{
    uint64_t sum = routine_sum(routine, rates);
    return sum % 100 == 0 ? sum / 100 : sum / 100 + 1;
}

vtil_charge_look ref_charge(const struct ref_book *book, vtil_rates rates)
{
    struct routine routine;
    forget();
    vtil_charge_look look = {.refusal = held(book, &routine)};
    if (look.refusal == 0)
        look.cents = cents(&routine, rates);
    return look;
}

uint64_t ref_sum(const struct ref_book *book, vtil_rates rates)
{
    struct routine routine;
    forget();
    return held(book, &routine) == 0 ? routine_sum(&routine, rates) : 0;
}

/* The copy for outside reviewers ------------------------------------------------------------------ */

/* The width of an immediate is no value, and stays. */
static void mask_values(vtil_instruction_desc *value)
{
    for (uint32_t i = 0; i < value->count; i++)
        if (value->operands[i].kind == 0)
            value->operands[i].immediate.value = 0;
}

vtil_written ref_outside_copy(const struct ref_book *book, uint8_t *copy, size_t copy_len)
{
    struct routine routine;
    forget();
    uint64_t refusal = copy_len > VTIL_MOST_LENT ? 10 : held(book, &routine);
    if (refusal == 0 && routine_size(&routine) > copy_len)
        refusal = 11;
    if (refusal != 0)
        return (vtil_written){refusal, 0};
    for (uint64_t i = 0; i < routine.blocks; i++)
        for (uint64_t j = 0; j < routine.block[i].count; j++)
            mask_values(&routine.block[i].instructions[j]);
    fill_image(copy, copy_len, &routine);
    return (vtil_written){0, routine_size(&routine)};
}

/* Edits: what they do to a routine, for a book and for the machine -------------------------------- */

#define CREATED 1
#define REMOVED 2
#define APPENDED 3

#define TRAILER 20 /* bytes of an entry that is no removal's */

/* Instructions that come into a routine, or go. */
struct moved {
    const vtil_instruction_desc *at;
    uint64_t count;
};

/* The routine after an edit, the journal entry of the edit, whose length is the cost, and what came or went. */
struct edited {
    struct routine routine;
    uint8_t *entry;
    size_t cost;
    struct moved came, went;
};

/* Where the block stands; where there is none, how many there are. */
static uint64_t place_of(const struct routine *routine, uint64_t vip)
{
    uint64_t place = 0;
    while (place < routine->blocks && routine->block[place].vip != vip)
        place++;
    return place;
}

/* The same routine with a list of blocks of its own, which has room for one more. */
static struct routine with_own_blocks(const struct routine *routine)
{
    struct routine copy = *routine;
    copy.block = keep(routine->blocks + 1, sizeof *copy.block);
    for (uint64_t i = 0; i < routine->blocks; i++)
        copy.block[i] = routine->block[i];
    return copy;
}

/* An entry: the removed block's bytes (remove only), then vip, place, length and kind. */
static void make_entry(struct edited *out, const struct block *removed, uint64_t vip, uint64_t place, size_t length,
                       uint32_t kind)
{
    out->cost = TRAILER + (removed == NULL ? 0 : length);
    out->entry = keep(out->cost, 1);
    struct writer w = {out->entry, 0};
    if (removed != NULL)
        write_block(&w, removed);
    put(&w, 8, vip);
    put(&w, 4, place);
    put(&w, 4, length);
    put(&w, 4, kind);
}

static uint64_t create(const struct routine *routine, uint64_t vip, struct edited *out)
{
    if (place_of(routine, vip) < routine->blocks)
        return 14;
    out->routine = with_own_blocks(routine);
    out->routine.block[out->routine.blocks++] = (struct block){.vip = vip};
    make_entry(out, NULL, vip, routine->blocks, 0, CREATED);
    return 0;
}

static uint64_t remove_block(const struct routine *routine, uint64_t vip, struct edited *out)
{
    uint64_t place = place_of(routine, vip);
    if (place == routine->blocks)
        return 15;
    out->routine = with_own_blocks(routine);
    out->routine.blocks--;
    out->routine.block[place] = routine->block[routine->blocks - 1];
    out->went = (struct moved){routine->block[place].instructions, routine->block[place].count};
    make_entry(out, &routine->block[place], vip, place, block_size(&routine->block[place]), REMOVED);
    return 0;
}

/* The engine leaves a block at js (37), jmp (38), vexit (39) and vxcall (40): with one of them last it is closed. */
static bool is_closed(const struct block *block)
{
    if (block->count == 0)
        return false;
    uint32_t last = block->instructions[block->count - 1].op;
    return last == 37 || last == 38 || last == 39 || last == 40;
}

/* Answers where it stands. */
static const vtil_instruction_desc *push_instruction(struct block *block, const vtil_instruction_desc *value)
{
    vtil_instruction_desc *longer = keep(block->count + 1, sizeof *longer);
    for (uint64_t i = 0; i < block->count; i++)
        longer[i] = block->instructions[i];
    longer[block->count] = *value;
    block->instructions = longer;
    return &longer[block->count++];
}

static uint64_t append(const struct routine *routine, const struct ref_call *call, struct edited *out)
{
    struct reader r = {.bytes = call->bytes, .len = call->len, .asks_sound = true};
    vtil_instruction_desc value = read_instruction(&r);
    if (!fine(&r))
        return r.refusal;
    if (r.at < r.len)
        return 17;
    uint64_t place = place_of(routine, call->vip);
    if (place == routine->blocks)
        return 15;
    if (is_closed(&routine->block[place]))
        return 18;
    out->routine = with_own_blocks(routine);
    out->came = (struct moved){push_instruction(&out->routine.block[place], &value), 1};
    make_entry(out, NULL, call->vip, place, call->len, APPENDED);
    return 0;
}

static uint64_t edit(const struct routine *routine, const struct ref_call *call, struct edited *out)
{
    switch (call->kind) {
    case VTIL_CREATE: return create(routine, call->vip, out);
    case VTIL_REMOVE: return remove_block(routine, call->vip, out);
    default: return append(routine, call, out);
    }
}

/* Edits then check 11, 12: an edit with its own refusals, and these. */
static uint64_t edit_within(const struct routine *routine, const struct ref_call *call, size_t image_len, size_t used,
                            size_t journal_len, struct edited *out)
{
    uint64_t refusal = edit(routine, call, out);
    if (refusal != 0)
        return refusal;
    if (routine_size(&out->routine) > image_len)
        return 11;
    if (used + out->cost > journal_len)
        return 12;
    return 0;
}

/* Walks: what a call does to one, for a book and for the machine ------------------------------------------ */

/* What is refused because a walk is open, or because none is. */
static uint64_t walk_refusal(uint64_t walk, enum vtil_call kind)
{
    switch (kind) {
    case VTIL_REMOVE:
    case VTIL_UNDO:
    case VTIL_WALK_START: return walk != 0 ? 20 : 0;
    case VTIL_WALK_NEXT:
    case VTIL_WALK_ABANDON: return walk == 0 ? 21 : 0;
    default: return 0;
    }
}

static bool is_walk_call(enum vtil_call kind)
{
    return kind == VTIL_WALK_START || kind == VTIL_WALK_NEXT || kind == VTIL_WALK_ABANDON;
}

/*
 * Moves a walk over so many blocks as the call does, where it is not refused. Answers the place of the block that it hands
 * out; where it hands out none, how many there are.
 */
static uint64_t walk_on(enum vtil_call kind, uint64_t blocks, uint64_t *walk)
{
    uint64_t place = kind == VTIL_WALK_NEXT ? *walk - 1 : blocks;
    if (kind == VTIL_WALK_START)
        *walk = 1;
    else if (place == blocks)
        *walk = 0;
    else
        *walk += 1;
    return place;
}

/* Undo on a book: taking back the journal's last entry ------------------------------------------------ */

struct trailer {
    uint64_t vip, place, length, kind;
};

static bool is_fresh(const struct block *block)
{
    return block->sp_offset == 0 && block->sp_index == 0 && block->last_temporary == 0 && block->count == 0 &&
           block->vip_counts[0] == 0 && block->vip_counts[1] == 0;
}

static bool undo_create(const struct routine *routine, const struct trailer *t, struct edited *out)
{
    if (t->length != 0 || t->place + 1 != routine->blocks)
        return false;
    const struct block *block = &routine->block[t->place];
    if (block->vip != t->vip || !is_fresh(block))
        return false;
    out->routine = with_own_blocks(routine);
    out->routine.blocks--;
    out->cost = TRAILER;
    return true;
}

/* A whole written block: read without a refusal, nothing left over, and as it would be written. */
static bool read_written_block(const uint8_t *bytes, size_t len, struct block *out)
{
    struct reader r = {.bytes = bytes, .len = len};
    *out = read_block(&r);
    if (!fine(&r) || r.at != len)
        return false;
    struct writer w = {keep(len, 1), 0};
    write_block(&w, out);
    return memcmp(w.at, bytes, len) == 0;
}

static bool undo_remove(const struct routine *routine, const struct trailer *t, const struct ref_book *book,
                        struct edited *out)
{
    struct block block;
    size_t before = (size_t)book->numbers.used - TRAILER;
    if (t->length > before || !read_written_block(book->journal + before - t->length, t->length, &block))
        return false;
    if (block.vip != t->vip || place_of(routine, t->vip) < routine->blocks || t->place > routine->blocks)
        return false;
    if (routine_size(routine) + t->length > book->image_len)
        return false;
    out->routine = with_own_blocks(routine);
    if (t->place < routine->blocks)
        out->routine.block[routine->blocks] = routine->block[t->place];
    out->routine.block[t->place] = block;
    out->routine.blocks++;
    out->came = (struct moved){block.instructions, block.count};
    out->cost = TRAILER + t->length;
    return true;
}

static bool undo_append(const struct routine *routine, const struct trailer *t, struct edited *out)
{
    if (t->place >= routine->blocks)
        return false;
    const struct block *block = &routine->block[t->place];
    if (block->vip != t->vip || block->count == 0)
        return false;
    if (instruction_size(&block->instructions[block->count - 1]) != t->length)
        return false;
    out->routine = with_own_blocks(routine);
    out->routine.block[t->place].count--;
    out->went = (struct moved){&block->instructions[block->count - 1], 1};
    out->cost = TRAILER;
    return true;
}

/* False: the journal's used part does not end in an entry that fits the image. */
static bool take_back(const struct ref_book *book, const struct routine *routine, struct edited *out)
{
    if (book->numbers.used < TRAILER)
        return false;
    struct reader r = {.bytes = book->journal + book->numbers.used - TRAILER, .len = TRAILER};
    struct trailer t;
    t.vip = number(&r, 8);
    t.place = number(&r, 4);
    t.length = number(&r, 4);
    t.kind = number(&r, 4);
    switch (t.kind) {
    case CREATED: return undo_create(routine, &t, out);
    case REMOVED: return undo_remove(routine, &t, book, out);
    case APPENDED: return undo_append(routine, &t, out);
    default: return false;
    }
}

/* Calls on a book --------------------------------------------------------------------------------------- */

/* An answer of this refusal, 0 for none, and the book as it is. */
static vtil_walk_answer answer(const struct ref_book *book, uint64_t refusal)
{
    return (vtil_walk_answer){.refusal = refusal, .book = book->numbers};
}

/* What the book's sum becomes, at the book's rates. False: it is smaller than what goes, or too large with what comes. */
static bool next_sum(const vtil_book *numbers, const struct edited *after, uint64_t *sum)
{
    uint64_t less = instructions_sum(after->went.at, after->went.count, numbers->rates);
    uint64_t more = instructions_sum(after->came.at, after->came.count, numbers->rates);
    if (numbers->sum < less || UINT64_MAX - (numbers->sum - less) < more)
        return false;
    *sum = numbers->sum - less + more;
    return true;
}

static vtil_walk_answer stored(struct ref_book *book, const struct routine *routine, uint64_t used, uint64_t sum)
{
    fill_image(book->image, book->image_len, routine);
    book->numbers.written = routine_size(routine);
    book->numbers.used = used;
    book->numbers.sum = sum;
    return answer(book, 0);
}

static vtil_walk_answer undo(struct ref_book *book, const struct routine *routine)
{
    struct edited back = {0};
    uint64_t sum;
    if (book->numbers.used == 0)
        return answer(book, 16);
    if (!take_back(book, routine, &back) || !next_sum(&book->numbers, &back, &sum))
        return answer(book, 13);
    uint64_t used = book->numbers.used - back.cost;
    memset(book->journal + used, 0, back.cost);
    return stored(book, &back.routine, used, sum);
}

/* A block that is handed out stands in the image where it was read. */
static vtil_walk_answer walk(struct ref_book *book, const struct routine *routine, enum vtil_call kind)
{
    uint64_t place = walk_on(kind, routine->blocks, &book->numbers.walk);
    vtil_walk_answer walked = answer(book, 0);
    if (place == routine->blocks)
        return walked;
    walked.offset = routine->block[place].at;
    walked.length = routine->block[place].end - routine->block[place].at;
    return walked;
}

static vtil_walk_answer edit_book(struct ref_book *book, const struct routine *routine, const struct ref_call *call)
{
    struct edited after = {0};
    uint64_t sum;
    size_t used = (size_t)book->numbers.used;
    uint64_t refusal = edit_within(routine, call, book->image_len, used, book->journal_len, &after);
    if (refusal == 0 && !next_sum(&book->numbers, &after, &sum))
        refusal = 13;
    if (refusal != 0)
        return answer(book, refusal);
    memcpy(book->journal + used, after.entry, after.cost);
    return stored(book, &after.routine, used + after.cost, sum);
}

vtil_walk_answer ref_step(struct ref_book *book, const struct ref_call *call)
{
    struct routine routine;
    forget();
    uint64_t refusal = held(book, &routine);
    if (refusal == 0)
        refusal = walk_refusal(book->numbers.walk, call->kind);
    if (refusal != 0)
        return answer(book, refusal);
    if (call->kind == VTIL_UNDO)
        return undo(book, &routine);
    if (is_walk_call(call->kind))
        return walk(book, &routine, call->kind);
    return edit_book(book, &routine, call);
}

/* Lists of calls ------------------------------------------------------------------------------------------- */

bool ref_is_list(const struct ref_list *list)
{
    if (list->words_len % 4 != 0)
        return false;
    for (size_t i = 0; i < list->words_len; i += 4) {
        uint64_t kind = list->words[i], begin = list->words[i + 2], end = list->words[i + 3];
        if (kind > VTIL_WALK_ABANDON || begin > end || end > list->bytes_len)
            return false;
    }
    return true;
}

/* A run that is refused, or has made no call. */
static vtil_run_answer run_answer(const struct ref_book *book, uint64_t refusal)
{
    return (vtil_run_answer){.refusal = refusal, .book = book->numbers};
}

vtil_run_answer ref_run_on(struct ref_book *book, const struct ref_list *list)
{
    if (!ref_is_list(list))
        return run_answer(book, 15);
    vtil_run_answer run = run_answer(book, 0);
    for (size_t i = 0; i < list->words_len; i += 4) {
        const uint64_t *words = list->words + i;
        struct ref_call call = {(enum vtil_call)words[0], words[1], list->bytes + words[2], (size_t)(words[3] - words[2])};
        vtil_walk_answer last = ref_step(book, &call);
        run = (vtil_run_answer){0, last.refusal, last.book, last.offset, last.length};
    }
    return run;
}

vtil_run_answer ref_run(struct ref_book *book, const uint8_t *file, size_t len, const struct ref_list *list,
                        vtil_rates rates)
{
    book->numbers = (vtil_book){0};
    if (!ref_is_list(list))
        return run_answer(book, 15);
    uint64_t refusal = ref_open(book, file, len, rates).refusal;
    return refusal != 0 ? run_answer(book, refusal) : ref_run_on(book, list);
}

/* The routine machine -------------------------------------------------------------------------------------- */

/* Bytes of the machine's own. */
struct form {
    uint8_t *bytes;
    size_t len;
};

struct earlier {
    struct form routine, entry;
};

/* Routines stand here as their written forms. */
struct ref_machine {
    size_t image_len, journal_len;
    vtil_rates rates;
    struct form now;
    uint64_t walk;         /* as a book has it */
    struct earlier *stack; /* document 01's pile */
    size_t count;
};

static struct form form_of(const struct routine *routine)
{
    struct form form = {checked(malloc(routine_size(routine))), routine_size(routine)};
    struct writer w = {form.bytes, 0};
    write_routine(&w, routine);
    return form;
}

static struct form entry_of(const struct edited *edited)
{
    struct form form = {checked(malloc(edited->cost)), edited->cost};
    memcpy(form.bytes, edited->entry, edited->cost);
    return form;
}

struct ref_machine *ref_machine_start(const uint8_t *file, size_t len, size_t image_len, size_t journal_len,
                                      vtil_rates rates)
{
    struct reader r = {.bytes = file, .len = len};
    struct ref_machine *machine = checked(malloc(sizeof *machine));
    forget();
    struct routine routine = read_routine(&r);
    *machine = (struct ref_machine){image_len, journal_len, rates, form_of(&routine), 0, NULL, 0};
    return machine;
}

/* Used is the sum of the stack's costs. */
static size_t used(const struct ref_machine *machine)
{
    size_t sum = 0;
    for (size_t i = 0; i < machine->count; i++)
        sum += machine->stack[i].entry.len;
    return sum;
}

static struct routine now(const struct ref_machine *machine)
{
    struct reader r = {.bytes = machine->now.bytes, .len = machine->now.len};
    return read_routine(&r);
}

static vtil_walk_answer machine_answer(const struct ref_machine *machine, uint64_t refusal)
{
    struct routine routine = now(machine);
    uint64_t sum = routine_sum(&routine, machine->rates);
    vtil_book book = {machine->now.len, used(machine), machine->rates, sum, machine->walk};
    return (vtil_walk_answer){.refusal = refusal, .book = book};
}

static vtil_walk_answer machine_undo(struct ref_machine *machine)
{
    if (machine->count == 0)
        return machine_answer(machine, 16);
    struct earlier top = machine->stack[--machine->count];
    free(machine->now.bytes);
    free(top.entry.bytes);
    machine->now = top.routine;
    return machine_answer(machine, 0);
}

/* A block that is handed out begins where the same routine with no block from its place on would end. */
static vtil_walk_answer machine_walk(struct ref_machine *machine, const struct routine *routine, enum vtil_call kind)
{
    uint64_t place = walk_on(kind, routine->blocks, &machine->walk);
    vtil_walk_answer walked = machine_answer(machine, 0);
    if (place == routine->blocks)
        return walked;
    struct routine before = *routine;
    before.blocks = place;
    walked.offset = routine_size(&before);
    walked.length = block_size(&routine->block[place]);
    return walked;
}

static vtil_walk_answer machine_edit(struct ref_machine *machine, const struct routine *routine,
                                     const struct ref_call *call)
{
    struct edited after = {0};
    uint64_t refusal = edit_within(routine, call, machine->image_len, used(machine), machine->journal_len, &after);
    if (refusal != 0)
        return machine_answer(machine, refusal);
    machine->stack = checked(realloc(machine->stack, (machine->count + 1) * sizeof *machine->stack));
    machine->stack[machine->count++] = (struct earlier){machine->now, entry_of(&after)};
    machine->now = form_of(&after.routine);
    return machine_answer(machine, 0);
}

vtil_walk_answer ref_machine_step(struct ref_machine *machine, const struct ref_call *call)
{
    forget();
    struct routine routine = now(machine);
    uint64_t refusal = walk_refusal(machine->walk, call->kind);
    if (refusal != 0)
        return machine_answer(machine, refusal);
    if (call->kind == VTIL_UNDO)
        return machine_undo(machine);
    if (is_walk_call(call->kind))
        return machine_walk(machine, &routine, call->kind);
    return machine_edit(machine, &routine, call);
}

uint64_t ref_machine_cents(const struct ref_machine *machine, vtil_rates rates)
{
    forget();
    struct routine routine = now(machine);
    return cents(&routine, rates);
}

void ref_machine_image(const struct ref_machine *machine, uint8_t *image)
{
    memset(image, 0, machine->image_len);
    memcpy(image, machine->now.bytes, machine->now.len);
}

void ref_machine_journal(const struct ref_machine *machine, uint8_t *journal)
{
    size_t at = 0;
    memset(journal, 0, machine->journal_len);
    for (size_t i = 0; i < machine->count; i++) {
        memcpy(journal + at, machine->stack[i].entry.bytes, machine->stack[i].entry.len);
        at += machine->stack[i].entry.len;
    }
}

void ref_machine_free(struct ref_machine *machine)
{
    for (size_t i = 0; i < machine->count; i++) {
        free(machine->stack[i].routine.bytes);
        free(machine->stack[i].entry.bytes);
    }
    free(machine->stack);
    free(machine->now.bytes);
    free(machine);
}
