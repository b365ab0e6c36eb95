/*
 * guard_outside FILE..: the copy for outside reviewers, between guard pages: routines
 * made by hand against copies that are written out here, files and what edits make of
 * them against where reading by offset finds the immediates, and all of them against the
 * reference.
 */
#include <stdbool.h>
#include <stdlib.h>
#include <string.h>

#include "book_pair.h"
#include "by_hand.h"
#include "calls.h"
#include "cases.h"
#include "group.h"
#include "lent.h"
#include "immediates.h"
#include "reference.h"
#include "vtil.h"

#define FRONT 114 /* bytes of a routine without blocks */
#define EMPTY_BLOCK 36
#define MADE 300
#define LISTS 60

static struct bytes *samples;
static size_t sample_count;

/* A file, or a made one, that is accepted: opened, and taken into `file`. */
static void open_file(const struct bytes *from)
{
    lend_book((size_t)ref_check(from->at, from->len) + below(3), below(30));
    hold("opened", from->len, open_both(from), 1);
    take_written_form();
}

static void open_any(void)
{
    static struct bytes b;
    make_any_routine(samples, sample_count, &b);
    open_file(&b);
}

/* Every operand ------------------------------------------------------------------------------------------------- */

/* From each turn on, so that every pair of value and width comes to every place. */
static void one_mix(uint32_t op, unsigned registers)
{
    for (unsigned turn = 0; turn < TURNS; turn++) {
        next_turn = turn;
        make_between(op, registers);
        open_routine(below(3), below(3));
        copy_due("between others", below(3));
    }
}

static void mixes(void)
{
    begin("every operation with immediates and registers in every place, of values up to 2^64 - 1 and widths up to 2^32 - 1");
    seed(71);
    in_every_mix(one_mix);
    end();
}

/* An instruction is read in another way where the bytes soon end: those of the image, or those of the copy. */
static void one_end(uint32_t op, unsigned registers)
{
    make_last(op, registers);
    open_routine(130, 0);
    for (size_t spare = 0; spare <= 130; spare++) {
        change_lengths(file.len + spare, 0);
        copy_due("the last instruction", 130 - spare);
    }
    change_lengths(file.len, 0);
    copy_due("nothing to spare", 0);
}

static void ends(void)
{
    begin("every operation last in the last block, in images and second images with 0 to 130 bytes to spare");
    seed(72);
    in_every_mix(one_end);
    end();
}

/* Values of large bytes alone: no other byte of these routines is as large. */
#define LARGE 0xf8
static void put_large_immediate(void)
{
    uint64_t value = 0;
    for (int i = 0; i < 8; i++)
        value = value << 8 | (LARGE + below(8));
    put_immediate(value, 64);
}

static void put_large(uint32_t op, unsigned registers)
{
    put_with_immediates(op, registers, put_large_immediate);
}

static size_t large_bytes(const uint8_t *bytes, size_t len)
{
    size_t count = 0;
    for (size_t i = 0; i < len; i++)
        count += bytes[i] >= LARGE;
    return count;
}

/* All in one routine: of a value not a byte is left, wherever it would be. */
static void no_byte_left(void)
{
    begin("a block of every operation in every mix: of 311 values not a single byte is in the copy");
    seed(73);
    begin_with_values(1);
    put_block_front(&file, VIP, EVERY_MIX);
    in_every_mix(put_large);
    put_zeros(&file, 8);
    open_routine(20, 20);
    hold("values", 0, (int64_t)value_count, EVERY_VALUE);
    hold("their bytes in the image", 0, (int64_t)large_bytes(image.plain, image.len), 8 * EVERY_VALUE);
    copy_due("every operation", 20);
    hold("their bytes in the copy", 0, (int64_t)large_bytes(second.plain, second.len), 0);
    take_written_form();
    hold("values that reading finds", 0, (int64_t)value_count, EVERY_VALUE);
    copy_due("by what reading finds", 0);
    end();
}

/* How often these 8 bytes stand anywhere among these. */
static size_t occurrences(const uint8_t *bytes, size_t len, uint64_t value)
{
    uint8_t wanted[8];
    size_t count = 0;
    for (size_t i = 0; i < 8; i++)
        wanted[i] = (uint8_t)(value >> (8 * i));
    for (size_t at = 0; at + 8 <= len; at++)
        count += memcmp(bytes + at, wanted, 8) == 0;
    return count;
}

/* Values that stand nowhere else are found in the image, by the same search that finds none in the second image. */
static void search(void)
{
    static uint64_t values[MOST_VALUES];
    uint64_t searched = 0;
    begin("values that stand nowhere else, searched for: each once in the image, and not in the copy");
    seed(74);
    for (int i = 0; i < MADE; i++) {
        open_any();
        for (size_t which = 0; which < value_count; which++)
            set_value(which, values[which] = below(UINT64_MAX));
        open_routine(below(20), below(20));
        copy_due("other values", below(40));
        for (size_t which = 0; which < value_count; which++) {
            hold("in the image", which, (int64_t)occurrences(image.plain, image.len, values[which]), 1);
            hold("in the copy", which, (int64_t)occurrences(second.plain, second.len, values[which]), 0);
        }
        searched += value_count;
    }
    hold("enough values", searched, searched > 2000, 1);
    end();
}

/* Every other field ------------------------------------------------------------------------------------------------- */

#define MOST_FIELDS 200
static struct field {
    const char *what;
    size_t at, width;
} fields[MOST_FIELDS];
static size_t field_count;

/* What the fields get: those of 4 bytes its lower half, flags its lowest bit. An id can have it, also with a byte changed. */
#define FILLING 0x0108070605040302

static void put_field(const char *what, size_t width)
{
    if (field_count == MOST_FIELDS)
        stop_because("fields", "too many for these tests");
    fields[field_count++] = (struct field){what, file.len, width};
    put(&file, width, width == 1 ? FILLING & 1 : FILLING);
}

static void put_register_fields(void)
{
    put_field("register flags", 8);
    put_field("register id", 8);
    put_field("register width", 4);
    put_field("register offset", 4);
}

static void put_convention_fields(void)
{
    for (int list = 0; list < 3; list++) {
        put(&file, 4, 1);
        put_register_fields();
    }
    put_register_fields();
    put_field("shadow space", 8);
    put_field("purge", 1);
}

static void put_instruction_fields(void)
{
    put_operation(&file, "te", 2, 3);
    put_immediate(FILLING, (uint32_t)FILLING);
    fields[field_count++] = (struct field){"immediate width", file.len - 4, 4};
    put(&file, 4, 1);
    put_register_fields();
    put_immediate(FILLING, (uint32_t)FILLING);
    fields[field_count++] = (struct field){"immediate width behind a register", file.len - 4, 4};
    put_field("instruction vip", 8);
    put_field("instruction sp offset", 8);
    put_field("instruction sp index", 4);
    put_field("sp reset", 1);
}

/* The blocks' vips may not be the same. */
static void put_block_fields(uint8_t place)
{
    put_field("block vip", 8);
    file.at[file.len - 2] = place;
    put_field("block sp offset", 8);
    put_field("block sp index", 4);
    put_field("last temporary", 4);
    put(&file, 4, 2);
    put_instruction_fields();
    put_instruction_fields();
    for (int list = 0; list < 2; list++) {
        put(&file, 4, 1);
        put_field("a link", 8);
    }
}

/* One of everything: three conventions, and two blocks of two instructions. */
static void make_fields(void)
{
    file.len = field_count = value_count = 0;
    put(&file, 4, 0x4c495456);
    put_field("machine", 1);
    put(&file, 1, 0);
    put(&file, 2, 0xdead);
    put_field("entry vip", 8);
    put_convention_fields();
    put_convention_fields();
    put(&file, 4, 1);
    put_convention_fields();
    put(&file, 4, 2);
    put_block_fields(2);
    put_block_fields(4);
}

/* Copies that were kept, of one length each. */
#define MOST_KEPT 300
#define KEPT_LEN 1200
static uint8_t kept[MOST_KEPT][KEPT_LEN];
static size_t kept_count;

/* The copy of the book that is open, which holds `file`. */
static void keep_copy(void)
{
    if (file.len > KEPT_LEN || kept_count == MOST_KEPT)
        stop_because("copies", "too many, or too long");
    copy_due("kept", KEPT_LEN - file.len);
    memcpy(kept[kept_count++], second.plain, KEPT_LEN);
}

/* Whether the copy of the book that is open is the last one that was kept. */
static bool same_copy(void)
{
    copy_due("compared", KEPT_LEN - file.len);
    return memcmp(kept[kept_count - 1], second.plain, KEPT_LEN) == 0;
}

static void hold_all_differ(void)
{
    for (size_t i = 0; i < kept_count; i++)
        for (size_t j = 0; j < i; j++)
            hold("two copies differ", i, memcmp(kept[i], kept[j], KEPT_LEN) != 0, 1);
}

/* Opens `file` with its byte at `at` changed, tells whether its copy is the one that was kept, and puts the byte back. */
static bool same_with_byte(size_t at)
{
    file.at[at] ^= 1;
    open_routine(below(20), below(20));
    bool same = same_copy();
    file.at[at] ^= 1;
    return same;
}

/* All that is not a value is in the copy, so another byte of it makes another copy. */
static void other_fields(void)
{
    begin("every byte of every field changed, one by one: another copy but where it is a value's");
    seed(75);
    make_fields();
    kept_count = 0;
    open_routine(0, 0);
    keep_copy();
    for (size_t i = 0; i < field_count; i++)
        for (size_t at = 0; at < fields[i].width; at++)
            hold(fields[i].what, at, same_with_byte(fields[i].at + at), 0);
    for (size_t i = 0; i < value_count; i++)
        for (size_t at = 0; at < 8; at++)
            hold("a value", at, same_with_byte(values_at[i] + at), 1);
    end();
}

/* It is not by their bytes that values are known: other fields with the same 8 bytes stay. */
static void same_bytes_elsewhere(void)
{
    begin("the value of every immediate in every other field too: as often in the copy as it is no immediate's");
    make_fields();
    open_routine(0, 0);
    copy_due("one value everywhere", 30);
    size_t before = occurrences(image.plain, image.len, FILLING), after = occurrences(second.plain, second.len, FILLING);
    hold("how often it was there", 0, (int64_t)before, 1 + 3 * 9 + 2 * (1 + 2 * 6 + 2));
    hold("how often it is there", 0, (int64_t)after, 1 + 3 * 9 + 2 * (1 + 2 * 4 + 2));
    end();
}

/*
 * A routine with so many registers in each list of its first convention, special conventions, blocks, and in each block
 * instructions, prev vips and next vips. What can be is 0, as the rest of a second image is.
 */
#define LIST_COUNTS 8
static void make_counts(const uint32_t counts[LIST_COUNTS])
{
    file.len = value_count = 0;
    put(&file, 4, 0x4c495456);
    put(&file, 2, 2);
    put(&file, 2, 0xdead);
    put_zeros(&file, 8);
    for (int list = 0; list < 3; list++)
        put(&file, 4, counts[list]), put_zeros(&file, 24 * counts[list]);
    put_zeros(&file, 24 + 9 + 45);
    put(&file, 4, counts[3]);
    put_zeros(&file, 45 * counts[3]);
    put(&file, 4, counts[4]);
    for (uint32_t vip = 0; vip < counts[4]; vip++) {
        put_block_front(&file, vip, counts[5]);
        for (uint32_t i = 0; i < counts[5]; i++)
            put_with_immediates(JMP, 0, put_next_immediate);
        for (int list = 6; list < 8; list++)
            put(&file, 4, counts[list]), put_zeros(&file, 8 * counts[list]);
    }
}

static void keep_counts(const uint32_t counts[LIST_COUNTS])
{
    make_counts(counts);
    open_routine(below(20), below(20));
    keep_copy();
}

/* The widths are made one, so that nothing but the operation and the kinds tells these routines apart. */
static void keep_mix(uint32_t op, unsigned registers)
{
    make_last(op, registers);
    for (size_t i = 0; i < value_count; i++)
        memset(file.at + values_at[i] + 8, 0, 4);
    open_routine(below(20), below(20));
    keep_copy();
}

static void other_routines(void)
{
    uint32_t counts[LIST_COUNTS] = {1, 1, 1, 1, 1, 1, 1, 1};
    begin("routines with another operation, another kind of operand, or one element more or less: no two copies are equal");
    seed(76);
    kept_count = 0;
    in_every_mix(keep_mix);
    hold("every mix", 0, (int64_t)kept_count, EVERY_MIX);
    keep_counts(counts);
    for (int list = 0; list < LIST_COUNTS; list++)
        for (uint32_t count = 0; count <= 2; count += 2) {
            counts[list] = count;
            keep_counts(counts);
            counts[list] = 1;
        }
    hold_all_differ();
    end();
}

/* Pairs of routines ---------------------------------------------------------------------------------------------------- */

/* Any numbers that do not spoil the book that is open, and a journal of any bytes. */
static void make_other_book(void)
{
    uint64_t blocks = ref_routine(&twin).blocks;
    for (size_t i = 0; i < journal.len; i++)
        twin.journal[i] = (uint8_t)below(256);
    copy_twin();
    twin.numbers = any_book(twin.numbers.written, below(journal.len + 1));
    twin.numbers.walk = below(blocks + 2);
}

/* Opens `file` at other lengths, and makes any book of it. */
static void open_other_book(void)
{
    open_routine(below(3) * below(100), below(3) * below(100));
    make_other_book();
}

/* What a book was answered first, and what its second image then held. */
static struct {
    vtil_written answer;
    uint8_t bytes[BYTES_MAX];
} first;

static void copy_first(size_t copy_len)
{
    first.answer = copy_both(twin.numbers, copy_len);
    memcpy(first.bytes, second.plain, copy_len);
}

static void same_as_first(const char *what, size_t copy_len)
{
    vtil_written answer = copy_both(twin.numbers, copy_len);
    hold(what, copy_len, (int64_t)answer.refusal, (int64_t)first.answer.refusal);
    hold(what, copy_len, (int64_t)answer.size, (int64_t)first.answer.size);
    if (answer.refusal == 0)
        hold(what, copy_len, memcmp(first.bytes, second.plain, copy_len), 0);
}

static void change_all(void)
{
    for (size_t i = 0; i < value_count; i++)
        set_value(i, below(2) == 0 ? below(UINT64_MAX) : below(3));
}

static void change_one(void)
{
    if (value_count > 0)
        set_value(below(value_count), below(UINT64_MAX));
}

/* `file` and routines that have other values: the same at each length, also where both are refused. */
static void pairs_of(void)
{
    const size_t lengths[] = {file.len, file.len + 1 + below(60), file.len - 1, below(file.len)};
    for (size_t i = 0; i < sizeof lengths / sizeof lengths[0]; i++) {
        open_other_book();
        copy_first(lengths[i]);
        hold("accepted, or not", lengths[i], (int64_t)first.answer.refusal, lengths[i] < file.len ? VTIL_IMAGE_FULL : 0);
        open_other_book();
        same_as_first("the same routine", lengths[i]);
        change_one();
        open_other_book();
        same_as_first("another value", lengths[i]);
        change_all();
        open_other_book();
        same_as_first("other values", lengths[i]);
    }
}

static void pair_of_mix(uint32_t op, unsigned registers)
{
    make_between(op, registers);
    pairs_of();
}

static void pairs(void)
{
    begin("pairs that differ in values, rates, sum, walk, used, journal and lengths: one answer, and the same bytes");
    seed(77);
    in_every_mix(pair_of_mix);
    for (int i = 0; i < MADE; i++) {
        open_any();
        pairs_of();
    }
    end();
}

/* Books ---------------------------------------------------------------------------------------------------------------- */

static void books_by_hand(void)
{
    begin("books of any rates, sum, used and walk, and journals of any bytes");
    seed(78);
    for (int i = 0; i < MADE; i++) {
        make_blocks(1 + (uint32_t)below(6), 3);
        open_other_book();
        copy_due("any book", below(30));
    }
    end();
}

/* At each place, and where nothing is left but the end, a walk counts for nothing; over that the book is spoiled. */
static void walks(void)
{
    begin("walks at every place of 0 to 6 blocks; one over and more is 13, also where the second image is short");
    seed(79);
    for (uint32_t blocks = 0; blocks <= 6; blocks++) {
        uint64_t odd[EXTREMES];
        make_blocks(blocks, 4);
        open_routine(5, 5);
        for (twin.numbers.walk = 0; twin.numbers.walk <= blocks + 1; twin.numbers.walk++)
            copy_due("at a place", below(9));
        extremes(blocks + 2, odd);
        for (int i = 0; i < EXTREMES; i++) {
            twin.numbers.walk = odd[i];
            if (odd[i] < blocks + 2)
                continue;
            copy_refused("over the count", file.len, VTIL_SPOILED_BOOK);
            copy_refused("over the count, and short", file.len - 1, VTIL_SPOILED_BOOK);
            copy_refused("over the count, and no bytes", 0, VTIL_SPOILED_BOOK);
        }
    }
    end();
}

/* 13 at every length of the second image: so before 11. */
static void spoiled_due(const char *what)
{
    const size_t lengths[] = {0, 1, file.len - 1, file.len, file.len + 9};
    for (size_t i = 0; i < sizeof lengths / sizeof lengths[0]; i++)
        copy_refused(what, lengths[i], VTIL_SPOILED_BOOK);
}

static void spoiled_numbers(const char *what, uint64_t written, uint64_t used)
{
    vtil_book before = twin.numbers;
    twin.numbers.written = written;
    twin.numbers.used = used;
    spoiled_due(what);
    twin.numbers = before;
}

static void spoiled_byte(const char *what, size_t at, uint8_t byte)
{
    uint8_t before = twin.image[at];
    twin.image[at] = byte;
    copy_twin();
    spoiled_due(what);
    twin.image[at] = before;
    copy_twin();
}

/* Two blocks: none, and a mov of a register and an immediate. */
static void spoiled_books(void)
{
    const size_t mov = FRONT + EMPTY_BLOCK + BLOCK_FRONT, reg = mov + 11 + 4, immediate = reg + 24;
    begin("each way of spoiling a book: 13 before 11, and no byte of the second image is changed");
    seed(80);
    make_blocks(2, 2);
    open_routine(10, 20);
    uint64_t written = twin.numbers.written;
    hold("where its value stands", 0, (int64_t)values_at[0], (int64_t)immediate + 4);
    copy_due("as it is", 0);
    spoiled_numbers("written over the image's length", image.len + 1, 0);
    spoiled_numbers("written far over it", UINT64_MAX, 0);
    spoiled_numbers("written over it by 2^32", written + (1ull << 32), 0);
    spoiled_numbers("used over the journal's length", written, 21);
    spoiled_numbers("used far over it", written, UINT64_MAX);
    spoiled_numbers("used over it by 2^32", written, 1ull << 32);
    spoiled_numbers("nothing written", 0, 0);
    spoiled_numbers("one byte less written", written - 1, 0);
    spoiled_numbers("one byte more written", written + 1, 0);
    spoiled_byte("wrong mark", 0, 'v');
    spoiled_byte("unknown machine", 4, 3);
    spoiled_byte("pad not 0", 5, 1);
    spoiled_byte("wrong second mark", 7, 0xdf);
    spoiled_byte("foreign frame register", 16 + 12 + 15, 3);
    spoiled_byte("purge neither 0 nor 1", 60, 2);
    spoiled_byte("one more special convention", FRONT - 8, 1);
    spoiled_byte("one more block", FRONT - 4, 3);
    spoiled_byte("one block less", FRONT - 4, 1);
    spoiled_byte("a repeated block", FRONT, VIP + 1);
    spoiled_byte("one more instruction", mov - 4, 2);
    spoiled_byte("a longer name", mov, 4);
    spoiled_byte("name not text", mov + 4, 0xff);
    spoiled_byte("unknown operation", mov + 4, 'z');
    spoiled_byte("wrong operand count", mov + 7, 1);
    spoiled_byte("unknown operand kind", immediate, 2);
    spoiled_byte("the immediate a register", immediate, 1);
    spoiled_byte("the register an immediate", reg - 4, 0);
    spoiled_byte("foreign register", reg + 15, 3);
    spoiled_byte("sp reset neither 0 nor 1", (size_t)written - 9, 2);
    spoiled_byte("one more link", (size_t)written - 4, 1);
    spoiled_byte("the byte after the written form not 0", (size_t)written, 1);
    spoiled_byte("the image's last byte not 0", image.len - 1, 1);
    copy_due("as it is, again", 9);
    end();
}

static bool is_value(size_t at)
{
    for (size_t i = 0; i < value_count; i++)
        if (values_at[i] <= at && at < values_at[i] + 8)
            return true;
    return false;
}

/* The image with this bit of this byte changed, copied into a second image that is long enough, or one byte short. */
static void change_bit(size_t at, int bit)
{
    twin.image[at] ^= (uint8_t)(1 << bit);
    copy_twin();
    vtil_written answer = copy_both(twin.numbers, file.len - (below(16) == 0));
    if (is_value(at))
        hold("a value's bit does not spoil a book", at, answer.refusal == VTIL_SPOILED_BOOK, 0);
    if (answer.refusal == 0)
        hold("the same copy, or another", at, memcmp(first.bytes, second.plain, file.len) == 0, is_value(at));
    twin.image[at] ^= (uint8_t)(1 << bit);
}

/* Where the book is not spoiled, only the bits of a value leave the copy as it is. */
static void changed_bits(void)
{
    static const int answers[] = {0, VTIL_IMAGE_FULL, VTIL_SPOILED_BOOK, -1};
    begin("every bit of made images changed: 13, or another copy, or a value's and the same copy");
    seed(81);
    for (int left = 6; left > 0;) {
        open_any();
        if (file.len > 900 || value_count < 4)
            continue;
        left--;
        copy_first(file.len);
        for (size_t at = 0; at < file.len; at++)
            for (int bit = 0; bit < 8; bit++)
                change_bit(at, bit);
    }
    end_of_random(100, answers);
}

/* Lengths ---------------------------------------------------------------------------------------------------------------- */

/* Each several times: the second image stands at the end of its room, or at the start. */
static void every_length(void)
{
    begin("second images of every length up to 140 bytes more than the copy has: 11, exactly the copy, the copy and zeros");
    seed(82);
    for (int turn = 0; turn < 6; turn++) {
        make_blocks((uint32_t)turn, 2);
        open_routine(below(20), below(20));
        for (size_t len = 0; len <= file.len + 140; len++)
            if (len < file.len)
                copy_refused("short", len, VTIL_IMAGE_FULL);
            else
                copy_due("long enough", len - file.len);
    }
    end();
}

static void hold_direct(const char *what, vtil_written got, uint64_t refusal)
{
    next_case();
    hold(what, 0, (int64_t)got.refusal, (int64_t)refusal);
    hold(what, 0, (int64_t)got.size, 0);
}

/* The lendings whose bit is set in `over` have this length; nothing of any is touched. */
static void too_large_due(uint8_t *at, unsigned over, size_t len, size_t other)
{
    const vtil_book books[] = {any_book(FRONT, 0), {0}, any_book(UINT64_MAX, UINT64_MAX), {.walk = UINT64_MAX}};
    size_t image_len = over & 1 ? len : FRONT, journal_len = over & 2 ? len : 0, copy_len = over & 4 ? len : other;
    for (size_t i = 0; i < sizeof books / sizeof books[0]; i++)
        hold_direct("over the limit", vtil_outside_copy(books[i], at, image_len, at, journal_len, at, copy_len),
                    VTIL_LENDING_TOO_LARGE);
}

static void over_the_limit(const struct room *room)
{
    const size_t most = SIZE_MAX / 2, four_gib = (size_t)1 << 32; /* most is 2^63 - 1 */
    const size_t lengths[] = {VTIL_MOST_LENT + 1, four_gib, four_gib + FRONT, most, most + 1, most + 1 + FRONT, SIZE_MAX};
    static const size_t others[] = {0, FRONT - 1, FRONT};
    begin("image, journal and second image over the limit, without access: 10 before 13 and 11");
    for (size_t i = 0; i < sizeof lengths / sizeof lengths[0]; i++)
        for (unsigned over = 1; over < 8; over++)
            for (size_t j = 0; j < sizeof others / sizeof others[0]; j++)
                too_large_due(no_access(room), over, lengths[i], others[j]);
    make_blocks(2, 2);
    open_routine(5, 5);
    for (size_t i = 0; i < sizeof lengths / sizeof lengths[0]; i++)
        hold_direct("on a book that is not spoiled",
                    vtil_outside_copy(twin.numbers, image.readable, image.len, journal.readable, journal.len, no_access(room),
                                      lengths[i]),
                    VTIL_LENDING_TOO_LARGE);
    hold_bytes();
    end();
}

static void no_bytes(const struct room *room)
{
    uint8_t *at = no_access(room);
    begin("lendings of no bytes, with NULL and with pointers to pages without access");
    begin_with_values(0);
    open_routine(0, 0);
    const vtil_book book = twin.numbers, zeros = {0};
    hold_direct("no second image", vtil_outside_copy(book, image.readable, FRONT, NULL, 0, NULL, 0), VTIL_IMAGE_FULL);
    hold_direct("the same without access", vtil_outside_copy(book, image.readable, FRONT, at, 0, at, 0), VTIL_IMAGE_FULL);
    hold_direct("nothing at all", vtil_outside_copy(zeros, NULL, 0, NULL, 0, NULL, 0), VTIL_SPOILED_BOOK);
    hold_direct("the same without access, too", vtil_outside_copy(zeros, at, 0, at, 0, at, 0), VTIL_SPOILED_BOOK);
    hold_direct("no image", vtil_outside_copy(book, NULL, 0, NULL, 0, NULL, 0), VTIL_SPOILED_BOOK);
    hold_direct("an image over the limit", vtil_outside_copy(book, at, VTIL_MOST_LENT + 1, NULL, 0, NULL, 0),
                VTIL_LENDING_TOO_LARGE);
    copy_due("without blocks and without a journal", 0);
    end();
}

/* What is lent where a book pair would be too small. */
static struct lent large_image, large_journal, large_copy;

static vtil_book open_large(const uint8_t *routine, size_t len)
{
    vtil_answer opened = vtil_open(routine, len, large_image.writable, large_image.len, large_journal.writable,
                                   large_journal.len, any_rates());
    hold("opened", len, (int64_t)opened.refusal, 0);
    return opened.book;
}

static vtil_written copy_large(vtil_book book)
{
    memset(large_copy.plain, 0xff, large_copy.len);
    return vtil_outside_copy(book, large_image.readable, large_image.len, large_journal.readable, large_journal.len,
                             large_copy.writable, large_copy.len);
}

/* The copy is these bytes, as many as are written, and then zeros. */
static void large_copy_due(vtil_book book, const uint8_t *due)
{
    vtil_written got = copy_large(book);
    size_t written = (size_t)book.written;
    next_case();
    hold("accepted", large_copy.len, (int64_t)got.refusal, 0);
    hold("its length", large_copy.len, (int64_t)got.size, (int64_t)written);
    hold("its bytes", large_copy.len, memcmp(large_copy.plain, due, written), 0);
    hold("the rest", large_copy.len, all_zero(large_copy.plain + written, large_copy.len - written), 1);
}

static void large_copy_refused(const char *what, vtil_book book, uint64_t refusal)
{
    size_t kept_bytes = 0;
    hold_direct(what, copy_large(book), refusal);
    while (kept_bytes < large_copy.len && large_copy.plain[kept_bytes] == 0xff)
        kept_bytes++;
    hold("the second image is as it was", 0, (int64_t)kept_bytes, (int64_t)large_copy.len);
}

/* A jmp of an immediate, and the same with the value 0, each again and again. */
static uint8_t *make_full(bool blank, size_t *len)
{
    static struct bytes jmp;
    file.len = value_count = jmp.len = 0;
    put_with_immediates(JMP, 0, put_large_immediate);
    if (blank)
        set_value(0, 0);
    put_bytes(&jmp, file.at, file.len);
    return make_full_routine(VIP, &jmp, len);
}

/* The reference would take long here, but the answers are plain. */
static void at_the_limit(void)
{
    struct room rooms[] = {make_room(VTIL_MOST_LENT), make_room(VTIL_MOST_LENT), make_room(VTIL_MOST_LENT)};
    size_t len;
    uint8_t *full = make_full(false, &len), *blank = make_full(true, &len);
    large_image = lend(&rooms[0], VTIL_MOST_LENT, true);
    large_journal = lend(&rooms[1], VTIL_MOST_LENT, true);
    large_copy = lend(&rooms[2], VTIL_MOST_LENT, true);
    begin("image, journal and second image of 16,777,216 bytes: as many immediates as there is room for, and no block");
    vtil_book book = open_large(full, len);
    large_copy_due(book, blank);
    large_copy = lend(&rooms[2], len, true);
    large_copy_due(book, blank);
    large_copy = lend(&rooms[2], len - 1, true);
    large_copy_refused("one byte short", book, VTIL_IMAGE_FULL);
    large_image.plain[large_image.len - 1] = 1;
    large_copy_refused("spoiled", book, VTIL_SPOILED_BOOK);
    large_copy = lend(&rooms[2], VTIL_MOST_LENT, true);
    large_copy_refused("spoiled, and long enough", book, VTIL_SPOILED_BOOK);
    begin_with_values(0);
    large_copy_due(open_large(file.at, file.len), file.at);
    end();
    free(full);
    free(blank);
}

/* Whole files ------------------------------------------------------------------------------------------------------------ */

/* The copy is a file of its own, whose copy is itself. */
static void copy_again(void)
{
    static struct bytes copy;
    size_t written = file.len;
    copy.len = 0;
    put_bytes(&copy, second.plain, second.len);
    hold("it is checked", written, vtil_check(second.readable, second.len), (int64_t)written);
    lend_book(written + below(3), below(20));
    hold("it is opened", written, open_both(&copy), 1);
    hold("as it is", written, memcmp(image.plain, copy.at, written), 0);
    copy_due("the copy of the copy", second.len - written);
    hold("is the copy", written, memcmp(second.plain, copy.at, copy.len), 0);
}

static void copy_file(const struct bytes *from)
{
    open_file(from);
    copy_refused("one byte short", file.len - 1, VTIL_IMAGE_FULL);
    copy_due("exactly", 0);
    copy_due("much longer", BYTES_MAX - file.len);
    copy_due("a file", below(60));
    copy_again();
    look_once(twin.numbers);
}

static void files(void)
{
    static struct bytes b;
    begin("the samples and made routines: their copies are opened, looked at and copied again");
    seed(83);
    for (size_t i = 0; i < sample_count; i++)
        if (ref_check(samples[i].at, samples[i].len) > 0)
            copy_file(&samples[i]);
    for (int i = 0; i < 30; i++) {
        make_good_routine(&b);
        copy_file(&b);
    }
    end();
}

static void shape_due(uint32_t blocks, uint32_t empty)
{
    make_blocks(blocks, empty);
    open_routine(below(3), below(3));
    copy_due("so many blocks", 0);
    copy_due("so many blocks, and zeros", 50);
    copy_again();
}

static void shapes(void)
{
    begin("no blocks, blocks without instructions, many blocks; and without an immediate the copy is the image");
    seed(84);
    for (uint32_t blocks = 0; blocks < 12; blocks++)
        for (uint32_t empty = 1; empty < 5; empty++)
            shape_due(blocks, empty);
    shape_due(1500, 1);
    shape_due(700, 2);
    shape_due(550, 550);
    begin_with_values(1);
    put_block_front(&file, VIP, 2);
    put_with_immediates(MOV, 3, put_next_immediate);
    put_with_immediates(NOP, 0, put_next_immediate);
    put_zeros(&file, 8);
    open_routine(30, 30);
    copy_due("no immediates", 30);
    hold("the image itself", 0, memcmp(image.plain, second.plain, image.len), 0);
    end();
}

/* Copies between edits, at any length; the edits go on as if there had been none. */
static void one_list(void)
{
    static struct bytes made, b;
    make_any_routine(samples, sample_count, &b);
    vtil_rates rates = any_rates();
    lend_book((size_t)ref_check(b.at, b.len) + below(1200), below(900));
    open_at_rates(&b, rates);
    struct ref_machine *machine = ref_machine_start(b.at, b.len, image.len, journal.len, rates);
    for (int i = 0; i < CALLS; i++) {
        struct ref_call call = any_call(&made);
        hold_machine(machine, &call, call_both(&call));
        take_written_form();
        if (below(5) == 0)
            copy_refused("short", below(file.len), VTIL_IMAGE_FULL);
        else
            copy_due("after an edit", below(3) * below(100));
    }
    copy_due("after the list", below(30));
    copy_again();
    ref_machine_free(machine);
}

static void lists(void)
{
    static const int answers[] = {0, VTIL_IMAGE_FULL, VTIL_JOURNAL_FULL, VTIL_WALK_OPEN, -1};
    begin("between the calls of long lists of edits and walks, which go on as the machine says");
    seed(85);
    for (int i = 0; i < LISTS; i++)
        one_list();
    hold("no call was refused 13", 0, (int64_t)group.answers[VTIL_SPOILED_BOOK], 0);
    end_of_random(20, answers);
}

int main(int argc, char **argv)
{
    (void)argc;
    set_up_groups("guard_outside");
    sample_count = load_samples(argv + 1, &samples);
    set_up_book_pair();
    set_up_calls();
    struct room untouched = make_room(1);

    mixes();
    ends();
    no_byte_left();
    search();
    other_fields();
    same_bytes_elsewhere();
    other_routines();
    pairs();
    books_by_hand();
    walks();
    spoiled_books();
    changed_bits();
    every_length();
    over_the_limit(&untouched);
    no_bytes(&untouched);
    at_the_limit();
    files();
    shapes();
    lists();
    return finish();
}
