/*
 * guard_book FILE..: opening, writing an instruction and looking, between guard
 * pages, against the reference.
 */
#include <stdbool.h>
#include <string.h>
#include <stdlib.h>

#include "cases.h"
#include "group.h"
#include "lent.h"
#include "reference.h"
#include "book_pair.h"

#define OPENINGS 30000
#define LOOKED_AT 60
#define VALUES 100000

static struct bytes *samples;
static size_t sample_count;

static const int answers_of_opening[] = {0, 1, 2, 3, 4, 5, 6, 7, 8, 9, 11, -1};

/* The size of the written form; 0 of a file that is refused. */
static size_t written_size(const struct bytes *file)
{
    int64_t answer = ref_check(file->at, file->len);
    return answer < 0 ? 0 : (size_t)answer;
}

/* Document 01's instances ------------------------------------------------------------- */

static void instances(void)
{
    struct bytes b = {0};
    begin("document 01's instances of opening");
    put_front(&b);
    put(&b, 4, 0);
    b.at[5] = 255;
    b.at[60] = 7;
    lend_book(200, 10);
    open_both(&b);
    hold("the pad is written 0", 0, image.plain[5], 0);
    hold("purge is written 1", 0, image.plain[60], 1);
    hold("the first byte after it is 0", 0, image.plain[114], 0);
    vtil_routine_look look = vtil_routine(twin.numbers, image.readable, image.len, journal.readable, journal.len);
    hold("machine", 0, (int64_t)look.arch_id, 2);
    hold("blocks", 0, (int64_t)look.blocks, 0);

    vtil_instruction_desc nop = {.op = 41}, mov = {.op = 0, .count = 2, .operands = {{.kind = 1}, {.kind = 0}}};
    hold("nop", 0, (int64_t)vtil_write_instruction(nop, image.writable, image.len).size, 32);
    hold("mov register, immediate", 0, (int64_t)vtil_write_instruction(mov, image.writable, image.len).size, 76);
    end();
}

/* Opening ----------------------------------------------------------------------------- */

/* Images one byte short, as long as the written form, a little and much longer; journals of no and of some bytes. */
static void open_at_lengths(const struct bytes *file)
{
    size_t size = written_size(file);
    const size_t lengths[] = {size > 0 ? size - 1 : 0, size, size + 1, size + 36, 5000};
    for (size_t i = 0; i < sizeof lengths / sizeof lengths[0]; i++) {
        lend_book(lengths[i], 0);
        open_both(file);
        lend_book(lengths[i], 1 + below(300));
        open_both(file);
    }
}

static void open_samples(void)
{
    begin("opening the samples, into images short of, as long as and longer than the written form");
    for (size_t i = 0; i < sample_count; i++)
        open_at_lengths(&samples[i]);
    end();
}

static void open_beginnings(void)
{
    static struct bytes b;
    begin("opening every beginning of every sample");
    for (size_t i = 0; i < sample_count; i++) {
        b = samples[i];
        for (b.len = 0; b.len < samples[i].len; b.len++) {
            lend_book(samples[i].len, 3);
            open_both(&b);
        }
    }
    end();
}

static void make_file(struct bytes *b)
{
    if (below(2) == 0) {
        make_routine(b);
        return;
    }
    const struct bytes *sample = &samples[below(sample_count)];
    b->len = sample->len;
    memcpy(b->at, sample->at, sample->len);
    for (uint64_t left = below(3); left > 0; left--)
        damage(b, &samples[below(sample_count)]);
}

static void open_random(void)
{
    static struct bytes b;
    begin("opening damaged samples and made routines, at tight lengths");
    seed(3);
    for (int i = 0; i < OPENINGS; i++) {
        make_file(&b);
        size_t size = written_size(&b);
        size_t room = below(4) == 0 ? below(64) : below(3);
        size_t len = size + room;
        lend_book(len > 0 && below(3) == 0 ? len - 1 : len, below(64));
        open_both(&b);
    }
    end_of_random(50, answers_of_opening);
}

/* Lendings of no bytes, and over the limit -------------------------------------------------- */

/* A file that is accepted here has no instructions. */
static void hold_open(const struct bytes *file, uint8_t *at, size_t image_len, uint8_t *to, size_t journal_len, uint64_t want)
{
    static const vtil_rates rates = {{1, 2, 3, 4, 5, UINT32_MAX}};
    next_case();
    vtil_answer got = vtil_open(file->at, file->len, at, image_len, to, journal_len, rates);
    hold("refusal", image_len, (int64_t)got.refusal, (int64_t)want);
    hold_book(got.book, want == 0 ? (vtil_book){written_size(file), 0, rates, 0, 0} : (vtil_book){0});
}

static void no_bytes(const struct room *room)
{
    static struct bytes empty, smallest;
    begin("lendings of no bytes, with NULL and with pointers to pages without access");
    put_front(&smallest);
    put(&smallest, 4, 0);
    hold_open(&smallest, NULL, 0, NULL, 0, 11);
    hold_open(&smallest, no_access(room), 0, no_access(room), 0, 11);
    hold_open(&empty, NULL, 0, NULL, 0, 1);
    lend_book(114, 0);
    hold_open(&smallest, image.writable, 114, NULL, 0, 0);
    hold_open(&smallest, image.writable, 114, no_access(room), 0, 0);
    vtil_book book = {.written = 114};
    hold("looking without a journal", 0, (int64_t)vtil_routine(book, image.readable, 114, NULL, 0).refusal, 0);
    book.written = 0;
    hold("looking without an image", 0, (int64_t)vtil_routine(book, NULL, 0, NULL, 0).refusal, 13);
    hold("looking at a block without an image", 0, (int64_t)vtil_block(book, NULL, 0, NULL, 0, 0).refusal, 13);
    vtil_instruction_desc nop = {.op = 41};
    hold("writing to no bytes", 0, (int64_t)vtil_write_instruction(nop, NULL, 0).refusal, 11);
    end();
}

static void hold_too_large(const uint8_t *at, size_t image_len, const uint8_t *to, size_t journal_len)
{
    const vtil_book books[] = {any_book(114, 0), {0}, any_book(UINT64_MAX, UINT64_MAX), {.walk = UINT64_MAX}};
    for (size_t i = 0; i < sizeof books / sizeof books[0]; i++) {
        next_case();
        vtil_book b = books[i];
        hold("routine", i, (int64_t)vtil_routine(b, at, image_len, to, journal_len).refusal, 10);
        hold("block", i, (int64_t)vtil_block(b, at, image_len, to, journal_len, 0).refusal, 10);
        hold("instruction", i, (int64_t)vtil_instruction(b, at, image_len, to, journal_len, 0, 0).refusal, 10);
        hold("vip", i, (int64_t)vtil_block_vip(b, at, image_len, to, journal_len, 0, 9, 0).refusal, 10);
        hold("convention", i, (int64_t)vtil_convention(b, at, image_len, to, journal_len, 0).refusal, 10);
        hold("register", i, (int64_t)vtil_convention_register(b, at, image_len, to, journal_len, 0, 9, 0).refusal, 10);
    }
}

/* Nothing of a lending over the limit is touched, and 10 comes before a file's refusal. */
static void over_the_limit(const struct room *room)
{
    static const size_t lengths[] = {VTIL_MOST_LENT + 1, (size_t)1 << 32, (size_t)1 << 63, SIZE_MAX};
    static struct bytes wrong;
    begin("lendings over the limit, without access: refused 10 before all else");
    put(&wrong, 8, 0);
    for (size_t i = 0; i < sizeof lengths / sizeof lengths[0]; i++) {
        hold_open(&samples[0], no_access(room), lengths[i], NULL, 0, 10);
        hold_open(&samples[0], no_access(room), 114, no_access(room), lengths[i], 10);
        hold_open(&wrong, no_access(room), lengths[i], no_access(room), lengths[i], 10);
        hold_too_large(no_access(room), lengths[i], NULL, 0);
        hold_too_large(no_access(room), 114, no_access(room), lengths[i]);
        vtil_instruction_desc bad = {.op = 49};
        hold("writing", 0, (int64_t)vtil_write_instruction(bad, no_access(room), lengths[i]).refusal, 10);
    }
    end();
}

/* Exactly the limit is within it. */
static void at_the_limit(void)
{
    struct room large = make_room(VTIL_MOST_LENT), other = make_room(VTIL_MOST_LENT);
    struct lent at = lend(&large, VTIL_MOST_LENT, true), to = lend(&other, VTIL_MOST_LENT, true);
    static struct bytes smallest;
    begin("lendings of 16,777,216 bytes");
    put_front(&smallest);
    put(&smallest, 4, 0);
    memset(at.plain, 0xff, at.len);
    memset(to.plain, 0xff, to.len);
    hold_open(&smallest, at.writable, at.len, to.writable, to.len, 0);
    vtil_book book = {.written = 114};
    hold("looking", 0, (int64_t)vtil_routine(book, at.readable, at.len, to.readable, to.len).refusal, 0);
    hold("the journal's last byte", 0, to.plain[to.len - 1], 0);
    at.plain[at.len - 1] = 1;
    hold("looking, the last byte not 0", 0, (int64_t)vtil_routine(book, at.readable, at.len, to.readable, to.len).refusal, 13);
    end();
}

/* Looking ------------------------------------------------------------------------------------ */

static void look_at_file(const struct bytes *file)
{
    lend_book(written_size(file) + below(3), below(30));
    if (open_both(file))
        look_everywhere(twin.numbers);
}

static void look_at_samples(void)
{
    begin("looking at every part of every sample, and where there is none");
    for (size_t i = 0; i < sample_count; i++)
        look_at_file(&samples[i]);
    end();
}

static void look_at_made(void)
{
    static struct bytes b;
    begin("looking at every part of made routines");
    seed(4);
    for (int i = 0; i < LOOKED_AT; i++) {
        make_good_routine(&b);
        look_at_file(&b);
    }
    end();
}

/* Every pair of extreme lengths as a book, on an image that is as opened. Rates and sum are not looked at. */
static void hand_made_books(void)
{
    begin("books made by hand, both lengths at every extreme, with any rates and sum");
    for (size_t i = 0; i < sample_count; i++) {
        uint64_t written[EXTREMES], used[EXTREMES];
        lend_book(written_size(&samples[i]) + below(3), below(100));
        if (!open_both(&samples[i]))
            continue;
        extremes(twin.numbers.written, written);
        extremes(journal.len, used);
        for (int w = 0; w < EXTREMES; w++)
            for (int u = 0; u < EXTREMES; u++)
                look_once(any_book(written[w], used[u]));
    }
    end();
}

/* Journals are not read by looking: their bytes are any. */
static void spoiled_images(void)
{
    static const uint8_t values[] = {0, 1, 2, 0xff};
    begin("images with one byte changed, and journals of any bytes");
    for (size_t i = 0; i < sample_count; i++) {
        lend_book(written_size(&samples[i]) + 5, 40);
        if (!open_both(&samples[i]))
            continue;
        vtil_book numbers = any_book(twin.numbers.written, below(41));
        for (size_t at = 0; at < image.len; at++) {
            uint8_t before = twin.image[at];
            twin.image[at] = values[below(4)];
            twin.journal[below(40)] = (uint8_t)below(256);
            copy_twin();
            look_once(numbers);
            twin.image[at] = before;
        }
    }
    if (group.answers[13] < 100 || group.answers[0] < 100)
        group.differ++;
    end();
}

/* Files that are accepted but not in written form are spoiled as images. */
static void unwritten_images(void)
{
    static struct bytes b;
    begin("images that hold a file as it came");
    seed(5);
    for (int i = 0; i < 3000; i++) {
        make_file(&b);
        if (b.len == 0)
            continue;
        lend_book(b.len + below(2) * below(4), 10);
        memcpy(twin.image, b.at, b.len);
        memset(twin.image + b.len, 0, image.len - b.len);
        copy_twin();
        size_t size = written_size(&b);
        look_once(any_book(size > 0 && below(2) ? size : b.len, 0));
    }
    end();
}

/* Writing an instruction ------------------------------------------------------------------------ */

static vtil_operand_desc any_operand(void)
{
    vtil_operand_desc operand;
    operand.kind = below(30) == 0 ? (uint32_t)below(UINT32_MAX) : (uint32_t)below(2);
    operand.immediate.value = below(UINT64_MAX);
    operand.immediate.bit_count = (uint32_t)below(UINT32_MAX);
    operand.register_desc.flags = below(UINT64_MAX);
    operand.register_desc.combined_id = below(UINT64_MAX) >> 8 | (below(20) == 0 ? below(256) : below(3)) << 56;
    operand.register_desc.bit_count = (int32_t)(uint32_t)below(UINT32_MAX);
    operand.register_desc.bit_offset = (int32_t)(uint32_t)below(UINT32_MAX);
    return operand;
}

static vtil_instruction_desc any_instruction(void)
{
    vtil_instruction_desc value = {0};
    value.op = below(40) == 0 ? (uint32_t)below(UINT32_MAX) : (uint32_t)below(50);
    value.count = value.op < ref_operation_count ? ref_operations[value.op].count : 0;
    if (below(40) == 0)
        value.count = below(2) == 0 ? (uint32_t)below(5) : (uint32_t)below(UINT32_MAX);
    for (int i = 0; i < 3; i++)
        value.operands[i] = any_operand();
    value.vip = below(UINT64_MAX);
    value.sp_offset = (int64_t)below(UINT64_MAX);
    value.sp_index = (uint32_t)below(UINT32_MAX);
    value.sp_reset = (uint8_t)below(256);
    return value;
}

static void write_values(void)
{
    static const int answers[] = {0, 5, 6, 7, 8, 11, -1};
    static const vtil_instruction_desc longest = {.op = 47, .count = 3, .operands = {{.kind = 1}, {.kind = 1}, {.kind = 1}}};
    begin("writing instruction values, at tight lengths");
    lend_book(VTIL_LONGEST_INSTRUCTION, 0);
    hold("the longest", image.len, (int64_t)vtil_write_instruction(longest, image.writable, image.len).size, (int64_t)image.len);
    seed(6);
    for (int i = 0; i < VALUES; i++) {
        vtil_instruction_desc value = any_instruction();
        uint8_t scrap[200];
        vtil_written size = ref_write_instruction(&value, scrap, sizeof scrap);
        hold("none is longer", (size_t)size.size, size.size <= VTIL_LONGEST_INSTRUCTION, 1);
        lend_book(size.refusal == 0 ? (size_t)size.size + 1 - below(3) : below(120), 0);
        next_case();
        vtil_written want = ref_write_instruction(&value, twin.image, image.len);
        vtil_written got = vtil_write_instruction(value, image.writable, image.len);
        group.answers[want.refusal]++;
        hold("refusal", image.len, (int64_t)got.refusal, (int64_t)want.refusal);
        hold("size", image.len, (int64_t)got.size, (int64_t)want.size);
        hold_bytes();
    }
    end_of_random(100, answers);
}

int main(int argc, char **argv)
{
    (void)argc;
    set_up_groups("guard_book");
    sample_count = load_samples(argv + 1, &samples);
    set_up_book_pair();
    struct room untouched = make_room(1);

    instances();
    open_samples();
    open_beginnings();
    open_random();
    no_bytes(&untouched);
    over_the_limit(&untouched);
    at_the_limit();
    look_at_samples();
    look_at_made();
    hand_made_books();
    spoiled_images();
    unwritten_images();
    write_values();
    return finish();
}
