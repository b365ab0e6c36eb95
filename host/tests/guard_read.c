/*
 * guard_read FILE..: reading by offset against the reference, of files that are whole,
 * cut and damaged, at every offset; and whole routines read part after part, against
 * the looks on a book of the same file.
 *
 * A file is lent before a page without any access or after one, and can only be read.
 */
#include <stdbool.h>
#include <stdlib.h>
#include <string.h>

#include "book_pair.h"
#include "cases.h"
#include "group.h"
#include "lent.h"
#include "reference.h"
#include "values.h"
#include "vtil.h"

#define SHORT 500 /* files of up to so many bytes are read at every offset, whatever is damaged */
#define CLOSE 30  /* so many offsets before the fault of a longer one */
#define ROUTINES 20000
#define PARTS_READ 20000
#define LONG_ENOUGH 400 /* for most blocks and conventions that are made */
#define WALKED 60

static struct bytes *samples;
static size_t sample_count;

static struct room memory;
static struct lent lent; /* the file that is read */

static void lend_file(const struct bytes *file, bool at_end)
{
    lent = lend(&memory, file->len, at_end);
    memcpy(lent.plain, file->at, file->len);
}

static bool either(void)
{
    return below(2) == 0;
}

/* Answers held to the reference's: every field, also of refused ones ------------------------- */

static void hold_number(const char *what, uint64_t at, uint64_t got, uint64_t want)
{
    hold(what, at, (int64_t)got, (int64_t)want);
}

static void hold_list(const char *what, uint64_t at, uint64_t got_at, uint64_t want_at, uint64_t got, uint64_t want)
{
    hold_number(what, at, got_at, want_at);
    hold_number(what, at, got, want);
}

static void hold_routine(uint64_t at, vtil_routine_read got, vtil_routine_read want)
{
    hold_number("routine", at, got.refusal, want.refusal);
    hold_number("routine's end", at, got.end, want.end);
    hold_number("machine", at, got.arch_id, want.arch_id);
    hold_number("entry vip", at, got.vip, want.vip);
    hold_list("conventions", at, got.conventions_at, want.conventions_at, got.spec_conventions, want.spec_conventions);
    hold_list("blocks", at, got.blocks_at, want.blocks_at, got.blocks, want.blocks);
}

static void hold_convention(uint64_t at, vtil_convention_read got, vtil_convention_read want)
{
    hold_number("convention", at, got.refusal, want.refusal);
    hold_number("convention's end", at, got.end, want.end);
    hold_register(at, &got.frame_register, &want.frame_register);
    hold_number("shadow space", at, got.shadow_space, want.shadow_space);
    hold_number("purge", at, got.purge_stack, want.purge_stack);
    hold_list("volatile", at, got.volatile_at, want.volatile_at, got.volatile_registers, want.volatile_registers);
    hold_list("param", at, got.param_at, want.param_at, got.param_registers, want.param_registers);
    hold_list("retval", at, got.retval_at, want.retval_at, got.retval_registers, want.retval_registers);
}

static void hold_register_read(uint64_t at, vtil_register_read got, vtil_register_read want)
{
    hold_number("register", at, got.refusal, want.refusal);
    hold_number("register's end", at, got.end, want.end);
    hold_register(at, &got.register_desc, &want.register_desc);
}

static void hold_block(uint64_t at, vtil_block_read got, vtil_block_read want)
{
    hold_number("block", at, got.refusal, want.refusal);
    hold_number("block's end", at, got.end, want.end);
    hold_number("block vip", at, got.vip, want.vip);
    hold("block sp offset", at, got.sp_offset, want.sp_offset);
    hold_number("block sp index", at, got.sp_index, want.sp_index);
    hold_number("last temporary", at, got.last_temporary_index, want.last_temporary_index);
    hold_list("instructions", at, got.instructions_at, want.instructions_at, got.instructions, want.instructions);
    hold_list("prev vips", at, got.prev_at, want.prev_at, got.prev_vips, want.prev_vips);
    hold_list("next vips", at, got.next_at, want.next_at, got.next_vips, want.next_vips);
}

static void hold_vip(uint64_t at, vtil_vip_read got, vtil_vip_read want)
{
    hold_number("vip", at, got.refusal, want.refusal);
    hold_number("vip's end", at, got.end, want.end);
    hold_number("vip's value", at, got.vip, want.vip);
}

/* Reading a part of the file that is lent: held to the reference's answer, which is answered ------ */

static vtil_routine_read read_routine(const struct bytes *file)
{
    vtil_routine_read want = ref_read_routine(file->at, file->len);
    next_case();
    group.answers[want.refusal]++;
    hold_routine(0, vtil_read_routine(lent.readable, lent.len), want);
    return want;
}

/* The same of a part that begins at an offset. */
#define READ(type, name, hold_it) \
    static type read_##name(const struct bytes *file, uint64_t at) \
    { \
        type want = ref_read_##name(file->at, file->len, at); \
        next_case(); \
        group.answers[want.refusal]++; \
        hold_it(at, vtil_read_##name(lent.readable, lent.len, at), want); \
        return want; \
    }

READ(vtil_convention_read, convention, hold_convention)
READ(vtil_register_read, register, hold_register_read)
READ(vtil_block_read, block, hold_block)
READ(vtil_instruction_read, instruction, hold_instruction_read)
READ(vtil_vip_read, vip, hold_vip)

enum part { CONVENTION, REGISTER, BLOCK, INSTRUCTION, VIP, PARTS };

static void read_part(const struct bytes *file, enum part part, uint64_t at)
{
    switch (part) {
    case CONVENTION: read_convention(file, at); break;
    case REGISTER: read_register(file, at); break;
    case BLOCK: read_block(file, at); break;
    case INSTRUCTION: read_instruction(file, at); break;
    default: read_vip(file, at); break;
    }
}

static void read_parts(const struct bytes *file, uint64_t at)
{
    for (enum part part = 0; part < PARTS; part++)
        read_part(file, part, at);
}

/* Offsets far past the end. Of the last ones a field's end is over 2^64, and small where it wraps. */
static const uint64_t far[] = {
    1ull << 31,       1ull << 32,       (1ull << 32) + 16, 1ull << 62,       INT64_MAX - 7,    INT64_MAX,
    1ull << 63,       (1ull << 63) + 1, UINT64_MAX - 118,  UINT64_MAX - 45,  UINT64_MAX - 44,  UINT64_MAX - 36,
    UINT64_MAX - 35,  UINT64_MAX - 28,  UINT64_MAX - 24,   UINT64_MAX - 23,  UINT64_MAX - 16,  UINT64_MAX - 15,
    UINT64_MAX - 8,   UINT64_MAX - 7,   UINT64_MAX - 6,    UINT64_MAX - 4,   UINT64_MAX - 3,   UINT64_MAX - 2,
    UINT64_MAX - 1,   UINT64_MAX,
};
#define FAR (sizeof far / sizeof far[0])

/* Every call at every offset from 0 to `last`. */
static void read_up_to(const struct bytes *file, uint64_t last)
{
    read_routine(file);
    for (uint64_t at = 0; at <= last; at++)
        read_parts(file, at);
}

/* At every offset of the file, right after it and far past it. */
static void read_everywhere(const struct bytes *file)
{
    read_up_to(file, file->len + 2);
    for (size_t i = 0; i < FAR; i++)
        read_parts(file, far[i]);
}

/* Where the parts of a routine begin, by the reference ------------------------------------------- */

static struct {
    size_t count;
    uint64_t at[BYTES_MAX / 8]; /* no part is shorter than a vip */
} begins[PARTS];

static uint64_t gather(const struct bytes *file, enum part part, uint64_t at);

/* Answers where the list ends. */
static uint64_t gather_list(const struct bytes *file, enum part part, uint64_t at, uint64_t count)
{
    for (uint64_t i = 0; i < count; i++)
        at = gather(file, part, at);
    return at;
}

static uint64_t gather_convention(const struct bytes *file, uint64_t at)
{
    vtil_convention_read read = ref_read_convention(file->at, file->len, at);
    gather_list(file, REGISTER, read.volatile_at, read.volatile_registers);
    gather_list(file, REGISTER, read.param_at, read.param_registers);
    gather_list(file, REGISTER, read.retval_at, read.retval_registers);
    return read.end;
}

static uint64_t gather_block(const struct bytes *file, uint64_t at)
{
    vtil_block_read read = ref_read_block(file->at, file->len, at);
    gather_list(file, INSTRUCTION, read.instructions_at, read.instructions);
    gather_list(file, VIP, read.prev_at, read.prev_vips);
    gather_list(file, VIP, read.next_at, read.next_vips);
    return read.end;
}

/* Answers where the part ends. */
static uint64_t gather(const struct bytes *file, enum part part, uint64_t at)
{
    begins[part].at[begins[part].count++] = at;
    switch (part) {
    case CONVENTION: return gather_convention(file, at);
    case REGISTER: return ref_read_register(file->at, file->len, at).end;
    case BLOCK: return gather_block(file, at);
    case INSTRUCTION: return ref_read_instruction(file->at, file->len, at).end;
    default: return ref_read_vip(file->at, file->len, at).end;
    }
}

/* Of a file that is refused there are none. */
static void gather_parts(const struct bytes *file)
{
    vtil_routine_read read = ref_read_routine(file->at, file->len);
    for (enum part part = 0; part < PARTS; part++)
        begins[part].count = 0;
    if (read.refusal != 0)
        return;
    uint64_t special = gather_list(file, CONVENTION, read.conventions_at, 2) + 4;
    gather_list(file, CONVENTION, special, read.spec_conventions);
    gather_list(file, BLOCK, read.blocks_at, read.blocks);
}

/* Every truncation and every damaged byte ----------------------------------------------------------- */

/* One of every part, with one element in every list but the second block's. */
static struct bytes some_of_all(void)
{
    struct bytes b = {0};
    put_front(&b);
    b.len = 16;
    for (int list = 0; list < 3; list++)
        put(&b, 4, 1), put(&b, 8, UINT64_MAX), put(&b, 8, (uint64_t)list << 56), put(&b, 8, UINT64_MAX);
    put_zeros(&b, 24 + 8), put(&b, 1, 2);
    put_zeros(&b, 45);
    put(&b, 4, 1);
    put_zeros(&b, 44), put(&b, 1, 0xff);
    put(&b, 4, 2);
    put_block_front(&b, 5, 1);
    put_operation(&b, "mov", 3, 2);
    put(&b, 4, 1), put(&b, 8, 3), put(&b, 8, 2ull << 56), put(&b, 8, 64);
    put(&b, 4, 0), put(&b, 8, UINT64_MAX), put(&b, 4, UINT32_MAX);
    put(&b, 8, 1), put(&b, 8, UINT64_MAX), put(&b, 4, UINT32_MAX), put(&b, 1, 0x80);
    put(&b, 4, 1), put(&b, 8, UINT64_MAX);
    put(&b, 4, 1), put(&b, 8, 6);
    put_block_front(&b, 6, 0);
    put_zeros(&b, 8);
    return b;
}

/* Of a longer file what is cut or damaged at `fault` is read close before it, and where a part begins. */
static void read_near(const struct bytes *file, uint64_t fault)
{
    read_routine(file);
    for (uint64_t at = fault < CLOSE ? 0 : fault - CLOSE; at <= fault + 2; at++)
        read_parts(file, at);
    for (enum part part = 0; part < PARTS; part++)
        for (size_t i = 0; i < begins[part].count && begins[part].at[i] <= fault; i++)
            read_part(file, part, begins[part].at[i]);
}

static void read_cut(const struct bytes *whole)
{
    static struct bytes file;
    file = *whole;
    for (file.len = 0; file.len <= whole->len; file.len++) {
        lend_file(&file, true);
        if (whole->len <= SHORT)
            read_everywhere(&file);
        else
            read_near(&file, file.len);
    }
}

/* What follows the damage is as it was, so it is not read again for each way. */
static void read_damaged_way(const struct bytes *file, size_t at, bool first_way)
{
    lend_file(file, either());
    if (file->len > SHORT)
        read_near(file, at);
    else if (first_way)
        read_everywhere(file);
    else
        read_up_to(file, at);
}

/* Of a longer file each byte is damaged in one of the ways, in turn. */
static void read_damaged_byte(struct bytes *file, size_t at)
{
    const uint8_t was = file->at[at], ways[] = {(uint8_t)(was + 1), (uint8_t)(was - 1), 0, 1, 2, 0x7f, 0x80, 0xff};
    for (size_t way = 0; way < sizeof ways; way++) {
        if (ways[way] == was || (file->len > SHORT && way != at % sizeof ways))
            continue;
        file->at[at] = ways[way];
        read_damaged_way(file, at, way == 0);
    }
    file->at[at] = was;
}

static void read_damaged(const struct bytes *whole)
{
    static struct bytes file;
    file = *whole;
    for (size_t at = 0; at < file.len; at++)
        read_damaged_byte(&file, at);
}

/* The samples, and a file with some of all. */
static void for_every_file(void (*read)(const struct bytes *whole))
{
    struct bytes all = some_of_all();
    hold("some of all is accepted", all.len, ref_check(all.at, all.len), (int64_t)all.len);
    gather_parts(&all);
    read(&all);
    for (size_t i = 0; i < sample_count; i++) {
        gather_parts(&samples[i]);
        read(&samples[i]);
    }
}

static const int answers_of_reading[] = {0, 1, 2, 3, 4, 5, 6, 7, 8, 9, -1};

static void read_whole(const struct bytes *file)
{
    for (int at_end = 0; at_end <= 1; at_end++) {
        lend_file(file, at_end);
        read_everywhere(file);
    }
}

static void whole_files(void)
{
    begin("every offset of whole files, and offsets up to 2^64 - 1");
    for_every_file(read_whole);
    end_of_random(1, answers_of_reading);
}

static void cut_files(void)
{
    begin("every beginning of them");
    for_every_file(read_cut);
    end();
}

static void damaged_files(void)
{
    begin("every byte of them set to one more, one less, 0, 1, 2, 7F, 80, FF");
    seed(10);
    for_every_file(read_damaged);
    end_of_random(100, answers_of_reading);
}

/* Made and damaged files ------------------------------------------------------------------------------ */

static void random_routines(void)
{
    static struct bytes file;
    begin("reading made routines");
    seed(11);
    for (int i = 0; i < ROUTINES; i++) {
        make_routine(&file);
        lend_file(&file, either());
        read_routine(&file);
    }
    end_of_random(50, answers_of_reading);
}

/* The part that begins at `at`, and what follows it, is cut and damaged; what is before it stays. */
static void damage_from(struct bytes *file, uint64_t at)
{
    static struct bytes rest;
    rest.len = 0;
    put_bytes(&rest, file->at + at, file->len - at < LONG_ENOUGH ? file->len - at : LONG_ENOUGH);
    for (uint64_t left = below(3); left > 0; left--)
        damage(&rest, &samples[below(sample_count)]);
    file->len = at;
    put_bytes(file, rest.at, rest.len);
}

static void random_parts(enum part part, const char *name, const int *answers)
{
    static struct bytes file;
    begin(name);
    seed(12 + part);
    for (int i = 0; i < PARTS_READ; i++) {
        make_good_routine(&file);
        gather_parts(&file);
        if (begins[part].count == 0)
            continue;
        uint64_t at = begins[part].at[below(begins[part].count)];
        damage_from(&file, at);
        lend_file(&file, either());
        read_part(&file, part, at);
    }
    end_of_random(50, answers);
}

static void random_files(void)
{
    static const int of_vips[] = {0, 1, -1}, of_registers[] = {0, 1, 5, -1};
    static const int of_instructions[] = {0, 1, 2, 5, 6, 7, 8, -1};
    random_routines();
    random_parts(CONVENTION, "conventions of damaged routines", of_registers);
    random_parts(REGISTER, "registers of damaged routines", of_registers);
    random_parts(BLOCK, "blocks of damaged routines", of_instructions);
    random_parts(INSTRUCTION, "instructions of damaged routines", of_instructions);
    random_parts(VIP, "vips of damaged routines", of_vips);
}

/* Whole routines, part after part, beside the looks on a book ----------------------------------------- */

#define LENT twin.numbers, image.readable, image.len, journal.readable, journal.len

/* Each answers where the list ends. */
static uint64_t walk_registers(const struct bytes *file, uint64_t at, uint64_t count, uint64_t place, uint64_t list)
{
    for (uint64_t i = 0; i < count; i++) {
        vtil_register_read read = read_register(file, at);
        vtil_register_look look = vtil_convention_register(LENT, place, list, i);
        hold_number("looking at a register", at, look.refusal, 0);
        hold_register(at, &look.register_desc, &read.register_desc);
        at = read.end;
    }
    return at;
}

static uint64_t walk_instructions(const struct bytes *file, uint64_t at, uint64_t count, uint64_t block)
{
    for (uint64_t i = 0; i < count; i++) {
        vtil_instruction_read read = read_instruction(file, at);
        vtil_instruction_look look = vtil_instruction(LENT, block, i);
        hold_number("looking at an instruction", at, look.refusal, 0);
        hold_instruction(at, &look.instruction, &read.instruction);
        at = read.end;
    }
    return at;
}

static uint64_t walk_vips(const struct bytes *file, uint64_t at, uint64_t count, uint64_t block, uint64_t list)
{
    for (uint64_t i = 0; i < count; i++) {
        vtil_vip_read read = read_vip(file, at);
        vtil_vip_look look = vtil_block_vip(LENT, block, list, i);
        hold_number("looking at a vip", at, look.refusal, 0);
        hold_number("vip's value", at, look.vip, read.vip);
        at = read.end;
    }
    return at;
}

/* The lists stand side by side, with four bytes of a count before each; 33 bytes follow them. */
static uint64_t walk_convention(const struct bytes *file, uint64_t at, uint64_t place)
{
    vtil_convention_read read = read_convention(file, at);
    vtil_convention_look look = vtil_convention(LENT, place);
    hold_number("looking at a convention", at, look.refusal, 0);
    hold_register(at, &look.frame_register, &read.frame_register);
    hold_number("shadow space", at, look.shadow_space, read.shadow_space);
    hold_number("purge", at, look.purge_stack, read.purge_stack);
    hold_list("volatile", at, read.volatile_at, at + 4, look.volatile_registers, read.volatile_registers);
    at = walk_registers(file, read.volatile_at, read.volatile_registers, place, 0);
    hold_list("param", at, read.param_at, at + 4, look.param_registers, read.param_registers);
    at = walk_registers(file, read.param_at, read.param_registers, place, 1);
    hold_list("retval", at, read.retval_at, at + 4, look.retval_registers, read.retval_registers);
    at = walk_registers(file, read.retval_at, read.retval_registers, place, 2);
    hold_number("convention's end", at, read.end, at + 24 + 8 + 1);
    return read.end;
}

static uint64_t walk_block(const struct bytes *file, uint64_t at, uint64_t place)
{
    vtil_block_read read = read_block(file, at);
    vtil_block_look look = vtil_block(LENT, place);
    hold_number("looking at a block", at, look.refusal, 0);
    hold_number("block vip", at, look.vip, read.vip);
    hold("block sp offset", at, look.sp_offset, read.sp_offset);
    hold_number("block sp index", at, look.sp_index, read.sp_index);
    hold_number("last temporary", at, look.last_temporary_index, read.last_temporary_index);
    hold_list("instructions", at, read.instructions_at, at + 24 + 4, look.instructions, read.instructions);
    at = walk_instructions(file, read.instructions_at, read.instructions, place);
    hold_list("prev vips", at, read.prev_at, at + 4, look.prev_vips, read.prev_vips);
    at = walk_vips(file, read.prev_at, read.prev_vips, place, 0);
    hold_list("next vips", at, read.next_at, at + 4, look.next_vips, read.next_vips);
    at = walk_vips(file, read.next_at, read.next_vips, place, 1);
    hold_number("block's end", at, read.end, at);
    return read.end;
}

static void walk(const struct bytes *file)
{
    lend_file(file, either());
    vtil_routine_read read = read_routine(file);
    vtil_routine_look look = vtil_routine(LENT);
    hold_number("looking at the routine", 0, look.refusal, 0);
    hold_number("machine", 0, look.arch_id, read.arch_id);
    hold_number("entry vip", 0, look.vip, read.vip);
    hold_list("conventions", 0, read.conventions_at, 16, look.spec_conventions, read.spec_conventions);
    uint64_t at = walk_convention(file, read.conventions_at, 0);
    at = walk_convention(file, at, 1) + 4;
    for (uint64_t i = 0; i < read.spec_conventions; i++)
        at = walk_convention(file, at, 2 + i);
    hold_list("blocks", at, read.blocks_at, at + 4, look.blocks, read.blocks);
    at = read.blocks_at;
    for (uint64_t i = 0; i < read.blocks; i++)
        at = walk_block(file, at, i);
    hold_number("routine's end", at, read.end, at);
    hold("what vtil_check answers", at, vtil_check(lent.readable, lent.len), (int64_t)at);
}

/* The file as it came, and the written form in the image. */
static void walk_file_and_image(const struct bytes *file)
{
    static struct bytes written;
    lend_book(file->len, 0);
    if (!open_both(file))
        return;
    walk(file);
    written.len = (size_t)twin.numbers.written;
    memcpy(written.at, twin.image, written.len);
    walk(&written);
}

static void walks(void)
{
    static struct bytes file;
    begin("routines read part after part, beside the looks on their books");
    file = some_of_all();
    walk_file_and_image(&file);
    for (size_t i = 0; i < sample_count; i++)
        walk_file_and_image(&samples[i]);
    seed(20);
    for (int i = 0; i < WALKED; i++) {
        make_good_routine(&file);
        walk_file_and_image(&file);
    }
    if (group.answers[0] < 1000)
        group.differ++;
    end();
}

/* Lengths ------------------------------------------------------------------------------------------------ */

/* Every call on `len` bytes at `file` is refused 1. */
static void hold_short(const uint8_t *file, size_t len, uint64_t at)
{
    next_case();
    hold_convention(at, vtil_read_convention(file, len, at), (vtil_convention_read){.refusal = 1});
    hold_register_read(at, vtil_read_register(file, len, at), (vtil_register_read){.refusal = 1});
    hold_block(at, vtil_read_block(file, len, at), (vtil_block_read){.refusal = 1});
    hold_instruction_read(at, vtil_read_instruction(file, len, at), (vtil_instruction_read){.refusal = 1});
    hold_vip(at, vtil_read_vip(file, len, at), (vtil_vip_read){.refusal = 1});
}

static void empty_files(void)
{
    const uint8_t *const pointers[] = {NULL, memory.readable - 1, no_access(&memory)};
    begin("length 0, with NULL and with pointers to pages without access");
    for (size_t i = 0; i < 3; i++) {
        hold_routine(0, vtil_read_routine(pointers[i], 0), (vtil_routine_read){.refusal = 1});
        for (uint64_t at = 0; at < 3; at++)
            hold_short(pointers[i], 0, at);
        for (size_t j = 0; j < FAR; j++)
            hold_short(pointers[i], 0, far[j]);
    }
    end();
}

/* The largest length: the first field passes the end, so no byte is needed. */
static void longest_file(void)
{
    const uint8_t *untouched = no_access(&memory);
    const size_t len = INT64_MAX;
    begin("length 2^63 - 1, at its end and past it, without access");
    for (uint64_t at = len - 3; at < len + 4; at++)
        hold_short(untouched, len, at);
    for (uint64_t at = UINT64_MAX; at > UINT64_MAX - 130; at--)
        hold_short(untouched, len, at);
    end();
}

int main(int argc, char **argv)
{
    (void)argc;
    set_up_groups("guard_read");
    sample_count = load_samples(argv + 1, &samples);
    set_up_book_pair();
    memory = make_room(BYTES_MAX);

    whole_files();
    cut_files();
    damaged_files();
    random_files();
    walks();
    empty_files();
    longest_file();
    return finish();
}
