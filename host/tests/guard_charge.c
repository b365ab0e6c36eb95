/*
 * guard_charge FILE..: the charge of a routine, between guard pages, against numbers
 * worked out by hand and against the reference.
 */
#include <stdlib.h>
#include <string.h>

#include "book_pair.h"
#include "cases.h"
#include "group.h"
#include "lent.h"
#include "reference.h"
#include "vtil.h"

#define GROUPS 6
#define MADE 3000
#define NOP 41
#define NOP_SIZE 32
#define EMPTY_BLOCK 36
#define FRONT 114 /* bytes of a routine without blocks */

static struct bytes *samples;
static size_t sample_count;

/* Rates ------------------------------------------------------------------------------------- */

static vtil_rates all_at(uint32_t rate)
{
    return (vtil_rates){{rate, rate, rate, rate, rate, rate}};
}

static vtil_rates one_at(int which, uint32_t rate)
{
    vtil_rates rates = {{0}};
    rates.rate[which] = rate;
    return rates;
}

static uint64_t rounded_up(uint64_t hundredths)
{
    return hundredths / 100 + (hundredths % 100 != 0);
}

/* Both charge so many cents for the book that is open. */
static void due(const char *what, vtil_rates rates, uint64_t cents)
{
    vtil_charge_look look = charge_both(twin.numbers, rates);
    hold(what, image.len, (int64_t)look.refusal, 0);
    hold(what, image.len, (int64_t)look.cents, (int64_t)cents);
}

/* Both refuse the book that is lent 13. */
static void due_spoiled(const char *what, vtil_book numbers)
{
    vtil_charge_look look = charge_both(numbers, all_at(UINT32_MAX));
    hold(what, image.len, (int64_t)look.refusal, 13);
    hold(what, image.len, (int64_t)look.cents, 0);
}

/* Routines made by hand ----------------------------------------------------------------------- */

/* A block with one instruction of each operation from first to last, so many times. */
static void put_block(struct bytes *b, uint64_t vip, uint32_t first, uint32_t last, uint32_t times)
{
    put_block_front(b, vip, times * (last - first + 1));
    for (uint32_t i = 0; i < times; i++)
        for (uint32_t op = first; op <= last; op++)
            put_instruction(b, op, 0);
    put_zeros(b, 8);
}

static void open_book(const struct bytes *file)
{
    lend_book(file->len + below(3), below(30));
    hold("opened", file->len, open_both(file), 1);
}

/* Opens a routine of so many blocks of that kind. */
static void open_blocks(uint32_t blocks, uint32_t first, uint32_t last, uint32_t times)
{
    static struct bytes b;
    b.len = 0;
    put_front(&b);
    put(&b, 4, blocks);
    for (uint32_t vip = 0; vip < blocks; vip++)
        put_block(&b, vip, first, last, times);
    open_book(&b);
}

static void open_nops(uint32_t blocks, uint32_t each)
{
    open_blocks(blocks, NOP, NOP, each);
}

/* What is charged ------------------------------------------------------------------------------- */

static void no_instructions(void)
{
    begin("no instructions: 0 cents at any rates");
    for (uint32_t blocks = 0; blocks < 4; blocks++) {
        open_nops(blocks, 0);
        due("at the largest rates", all_at(UINT32_MAX), 0);
        due("at rates of 100", all_at(100), 0);
        due("at rates of 1", all_at(1), 0);
    }
    end();
}

/* The rate that counts is told by the cents, which are the group's number and 1. */
static void operations_alone(void)
{
    static const vtil_rates rates = {{100, 200, 300, 400, 500, 600}};
    static const struct {
        uint32_t op;
        uint64_t group;
    } ends[] = {{0, 0}, {3, 0}, {4, 1}, {14, 1}, {15, 2}, {25, 2}, {26, 3}, {36, 3}, {37, 4}, {40, 4}, {41, 5}, {48, 5}};
    begin("every operation alone, and the groups of the first and the last of each by hand");
    for (size_t i = 0; i < sizeof ends / sizeof ends[0]; i++) {
        open_blocks(1, ends[i].op, ends[i].op, 1);
        due("the group's rate", rates, ends[i].group + 1);
    }
    for (uint32_t op = 0; op < ref_operation_count; op++) {
        open_blocks(1, op, op, 1);
        charge_both(twin.numbers, rates);
    }
    end();
}

static void every_operation_once(void)
{
    static const uint64_t counts[GROUPS] = {4, 11, 11, 11, 4, 8};
    begin("every operation once: how many each group has, and six different rates");
    open_blocks(1, 0, 48, 1);
    for (int i = 0; i < GROUPS; i++)
        due("instructions of a group", one_at(i, 100), counts[i]);
    due("28 + 121 + 143 + 187 + 76 + 184 hundredths", (vtil_rates){{7, 11, 13, 17, 19, 23}}, 8);
    due("as many cents", (vtil_rates){{700, 1100, 1300, 1700, 1900, 2300}}, 739);
    due("92 + 209 + 187 + 143 + 44 + 56 cents", (vtil_rates){{2300, 1900, 1700, 1300, 1100, 700}}, 731);
    due("rates far apart", (vtil_rates){{1, 100, 10000, 1000000, 100000000, 4000000000}}, 324111112);
    due("49 at the largest rate", all_at(UINT32_MAX), rounded_up(49ull * UINT32_MAX));
    due("rates of 0", all_at(0), 0);
    end();
}

static void sums(void)
{
    static const struct {
        uint32_t sum;
        uint64_t cents;
    } rows[] = {{0, 0}, {1, 1}, {99, 1}, {100, 1}, {101, 2}, {199, 2}, {200, 2}, {201, 3}};
    begin("sums of 0, 1, 99, 100, 101 hundredths and some more");
    for (size_t i = 0; i < sizeof rows / sizeof rows[0]; i++) {
        open_nops(1, 1);
        due("one instruction at that rate", all_at(rows[i].sum), rows[i].cents);
        open_nops(1, rows[i].sum);
        due("so many instructions at rate 1", all_at(1), rows[i].cents);
        open_nops(rows[i].sum, 1);
        due("so many blocks of one instruction at rate 1", all_at(1), rows[i].cents);
    }
    end();
}

/* Rounding up for each instruction, each block or each group would give more. */
static void rounded_once(void)
{
    begin("rounded up once, not for each instruction, block or group");
    open_nops(2, 1);
    due("two blocks of 50 hundredths", all_at(50), 1);
    due("two blocks of 51 hundredths", all_at(51), 2);
    open_nops(3, 2);
    due("three blocks of 66 hundredths", all_at(33), 2);
    open_nops(1, 2000);
    due("2000 instructions at rate 1", all_at(1), 20);
    open_nops(1, 2001);
    due("2001 instructions at rate 1", all_at(1), 21);
    open_blocks(1, 3, 4, 1);
    due("two groups of 50 hundredths", all_at(50), 1);
    open_blocks(1, 0, 48, 1);
    due("six groups at rate 2", all_at(2), 1);
    open_blocks(3, 0, 48, 2);
    due("three blocks of 98 instructions at rate 1", all_at(1), 3);
    end();
}

/* Opened files --------------------------------------------------------------------------------------- */

/* The charge is that of the numbers of instructions, whatever the rates. */
static void charge_by_counts(vtil_book numbers, vtil_rates rates)
{
    uint64_t sum = 0;
    for (int i = 0; i < GROUPS; i++)
        sum += charge_both(numbers, one_at(i, 100)).cents * rates.rate[i];
    hold("the cents by the counts", image.len, (int64_t)charge_both(numbers, rates).cents, (int64_t)rounded_up(sum));
}

static void charge_file(const struct bytes *file)
{
    lend_book(file->len, below(30));
    if (!open_both(file))
        return;
    charge_by_counts(twin.numbers, any_rates());
    charge_both(twin.numbers, all_at(0));
    charge_both(twin.numbers, all_at(1));
    charge_both(twin.numbers, all_at(UINT32_MAX));
}

static void opened_samples(void)
{
    begin("the samples");
    seed(21);
    for (size_t i = 0; i < sample_count; i++)
        charge_file(&samples[i]);
    end();
}

static void made_routines(void)
{
    static struct bytes b;
    begin("made routines, at rates of all sizes");
    seed(22);
    for (int i = 0; i < MADE; i++) {
        make_good_routine(&b);
        charge_file(&b);
    }
    end();
}

/* What stands after the written form and after the used part of the journal does not count, nor do the journal's bytes. */
static void other_lengths(void)
{
    static struct bytes b;
    begin("images and journals lengthened and cut: the same charge");
    seed(23);
    for (int i = 0; i < MADE; i++) {
        make_good_routine(&b);
        lend_book(b.len + below(50), below(200));
        open_both(&b);
        for (size_t at = 0; at < journal.len; at++)
            twin.journal[at] = (uint8_t)below(256);
        copy_twin();
        vtil_rates rates = any_rates();
        vtil_book numbers = any_book(twin.numbers.written, below(journal.len + 1));
        uint64_t cents = charge_both(numbers, rates).cents;
        for (int left = 3; left > 0; left--) {
            change_lengths((size_t)numbers.written + below(3) * below(100), (size_t)numbers.used + below(3) * below(100));
            due("the same cents", rates, cents);
        }
    }
    end();
}

/* Spoiled books ------------------------------------------------------------------------------------------ */

/* The book of two nops is opened, one byte of its image set, charged, and as it was again. */
static void due_spoiled_at(const char *what, size_t at, uint8_t byte)
{
    uint8_t before = twin.image[at];
    twin.image[at] = byte;
    copy_twin();
    due_spoiled(what, twin.numbers);
    twin.image[at] = before;
    copy_twin();
}

static void each_way(void)
{
    const size_t written = FRONT + EMPTY_BLOCK + 2 * NOP_SIZE, nop = FRONT + 28;
    static struct bytes b;
    begin("each way of spoiling a book: 13 and 0 cents");
    put_front(&b);
    put(&b, 4, 1);
    put_block(&b, 5, NOP, NOP, 2);
    lend_book(written + 10, 20);
    open_both(&b);
    due("as opened", all_at(100), 2);
    due_spoiled("written over the image's length", (vtil_book){.written = written + 11});
    due_spoiled("written far over it", (vtil_book){.written = UINT64_MAX});
    due_spoiled("used over the journal's length", (vtil_book){.written = written, .used = 21});
    due_spoiled("used far over it", (vtil_book){.written = written, .used = UINT64_MAX});
    due_spoiled("nothing written", (vtil_book){0});
    due_spoiled("one byte less written", (vtil_book){.written = written - 1});
    due_spoiled("one byte more written", (vtil_book){.written = written + 1});
    due_spoiled("a walk's place over the one block", (vtil_book){.written = written, .walk = 3});
    due_spoiled("a walk's place far over it", (vtil_book){.written = written, .walk = UINT64_MAX});
    twin.numbers = (vtil_book){.written = written, .used = 20, .walk = 2};
    due("all of the journal used, and a walk before its end", all_at(100), 2);
    due_spoiled_at("wrong mark", 0, 'v');
    due_spoiled_at("unknown machine", 4, 3);
    due_spoiled_at("pad not 0", 5, 1);
    due_spoiled_at("purge neither 0 nor 1", 60, 2);
    due_spoiled_at("one more block", FRONT - 4, 2);
    due_spoiled_at("one more instruction", FRONT + 24, 3);
    due_spoiled_at("one instruction less", FRONT + 24, 1);
    due_spoiled_at("unknown operation", nop + 4, 'z');
    due_spoiled_at("sp reset neither 0 nor 1", nop + NOP_SIZE - 1, 2);
    due_spoiled_at("the byte after the written form not 0", written, 1);
    due_spoiled_at("the image's last byte not 0", written + 9, 1);
    due("as opened, again", all_at(100), 2);
    end();
}

static void charge_cut(vtil_book numbers, const uint8_t *opened, size_t image_len, size_t journal_len)
{
    lend_book(image_len, journal_len);
    memcpy(twin.image, opened, image_len);
    copy_twin();
    charge_both(numbers, all_at(UINT32_MAX));
}

/* Image and journal at every length up to what counts of them, the book as it was. */
static void cut_lendings(void)
{
    static uint8_t opened[BYTES_MAX];
    begin("images and journals that are cut before their counted end");
    seed(24);
    for (size_t i = 0; i < sample_count; i++) {
        lend_book(samples[i].len, 40);
        if (!open_both(&samples[i]))
            continue;
        vtil_book numbers = any_book(twin.numbers.written, 40);
        memcpy(opened, twin.image, image.len);
        for (size_t len = 0; len <= numbers.written; len++)
            charge_cut(numbers, opened, len, 40);
        for (size_t len = 0; len <= numbers.used; len++)
            charge_cut(numbers, opened, (size_t)numbers.written, len);
    }
    if (group.answers[13] < 100)
        group.differ++;
    end();
}

/* Lendings of no bytes, over the limit and at it -------------------------------------------------------------- */

static void hold_refused(const uint8_t *at, size_t image_len, const uint8_t *to, size_t journal_len, uint64_t want)
{
    const vtil_book books[] = {any_book(FRONT, 0), {0}, any_book(UINT64_MAX, UINT64_MAX)};
    for (size_t i = 0; i < 3; i++) {
        vtil_charge_look got = vtil_charge(books[i], at, image_len, to, journal_len, all_at(UINT32_MAX));
        next_case();
        hold("refusal", i, (int64_t)got.refusal, (int64_t)want);
        hold("cents", i, (int64_t)got.cents, 0);
    }
}

static void odd_lendings(const struct room *room)
{
    static const size_t lengths[] = {VTIL_MOST_LENT + 1, (size_t)1 << 32, (size_t)1 << 63, SIZE_MAX};
    begin("lendings over the limit, without access (10), and of no bytes (13)");
    for (size_t i = 0; i < sizeof lengths / sizeof lengths[0]; i++) {
        hold_refused(no_access(room), lengths[i], NULL, 0, 10);
        hold_refused(no_access(room), FRONT, no_access(room), lengths[i], 10);
        hold_refused(no_access(room), lengths[i], no_access(room), lengths[i], 10);
    }
    hold_refused(NULL, 0, NULL, 0, 13);
    hold_refused(no_access(room), 0, no_access(room), 0, 13);
    end();
}

/* No instruction is shorter than a nop, so no routine that fits has more of them, and no sum is larger. */
static void fullest(void)
{
    static struct bytes nop;
    static const uint32_t rates[] = {0, 1, 99, 100, 101, UINT32_MAX};
    struct room large = make_room(VTIL_MOST_LENT), other = make_room(VTIL_MOST_LENT);
    struct lent at = lend(&large, VTIL_MOST_LENT, true), to = lend(&other, VTIL_MOST_LENT, true);
    size_t len;
    put_instruction(&nop, NOP, 0);
    uint8_t *file = make_full_routine(5, &nop, &len);
    const size_t nops = (len - FRONT - EMPTY_BLOCK) / NOP_SIZE;

    begin("as many nops as an image of 16,777,216 bytes holds, up to the largest rate");
    hold("how many that are", 0, (int64_t)nops, 524283);
    vtil_answer opened = vtil_open(file, len, at.writable, at.len, to.writable, to.len, any_rates());
    hold("opened", 0, (int64_t)opened.refusal, 0);
    struct ref_book same = {at.plain, to.plain, at.len, to.len, opened.book};
    for (size_t i = 0; i < sizeof rates / sizeof rates[0]; i++) {
        uint64_t sum = (uint64_t)nops * rates[i];
        vtil_charge_look got = vtil_charge(opened.book, at.readable, at.len, to.readable, to.len, all_at(rates[i]));
        next_case();
        hold("refusal", rates[i], (int64_t)got.refusal, 0);
        hold("cents", rates[i], (int64_t)got.cents, (int64_t)rounded_up(sum));
    }
    hold("the reference's cents", 0, (int64_t)ref_charge(&same, all_at(UINT32_MAX)).cents,
         (int64_t)rounded_up((uint64_t)nops * UINT32_MAX));
    next_case();
    at.plain[at.len - 1] = 1;
    vtil_charge_look spoiled = vtil_charge(opened.book, at.readable, at.len, to.readable, to.len, all_at(UINT32_MAX));
    hold("the last byte not 0", 0, (int64_t)spoiled.refusal, 13);
    hold("the cents of that", 0, (int64_t)spoiled.cents, 0);
    end();
    free(file);
}

int main(int argc, char **argv)
{
    (void)argc;
    set_up_groups("guard_charge");
    sample_count = load_samples(argv + 1, &samples);
    set_up_book_pair();
    struct room untouched = make_room(1);

    no_instructions();
    operations_alone();
    every_operation_once();
    sums();
    rounded_once();
    opened_samples();
    made_routines();
    other_lengths();
    each_way();
    cut_lendings();
    odd_lendings(&untouched);
    fullest();
    return finish();
}
