/*
 * guard_sum FILE..: the rates and the running sum that a book carries, between guard
 * pages, against sums that are worked out here and against the reference.
 */
#include <stdbool.h>
#include <stdlib.h>
#include <string.h>

#include "book_pair.h"
#include "by_hand.h"
#include "calls.h"
#include "cases.h"
#include "group.h"
#include "lent.h"
#include "reference.h"
#include "vtil.h"

#define GROUPS 6
#define LISTS 250
#define WILD_LISTS 500
#define ADD 5
#define EMPTY_BLOCK 36
#define FRONT 114 /* bytes of a routine without blocks */
#define VIP 5     /* of the block that is edited */
#define ABSENT 77 /* a vip that no block of these tests has */

static struct bytes *samples;
static size_t sample_count;

/* Sums that are worked out here ---------------------------------------------------------------- */

/* The group of each operation, written out: here the reference is held to it too. */
static const int groups[OPERATIONS] = {
    0, 0, 0, 0,                      /* mov to ldd */
    1, 1, 1, 1, 1, 1, 1, 1, 1, 1, 1, /* neg to irem */
    2, 2, 2, 2, 2, 2, 2, 2, 2, 2, 2, /* popcnt to rol */
    3, 3, 3, 3, 3, 3, 3, 3, 3, 3, 3, /* tg to ifs */
    4, 4, 4, 4,                      /* js to vxcall */
    5, 5, 5, 5, 5, 5, 5, 5,          /* nop to vpinwm */
};

static uint64_t worked(const uint32_t *ops, uint32_t count, vtil_rates rates)
{
    uint64_t sum = 0;
    for (uint32_t i = 0; i < count; i++)
        sum += rates.rate[groups[ops[i]]];
    return sum;
}

/* As include/vtil.h makes them. */
static uint64_t cents(uint64_t sum)
{
    return sum / 100 + (sum % 100 != 0);
}

/* Every operation once. */
static uint32_t every[OPERATIONS];

static void set_up_operations(void)
{
    for (uint32_t op = 0; op < OPERATIONS; op++)
        every[op] = op;
}

/* Rates ---------------------------------------------------------------------------------------- */

static vtil_rates all_at(uint32_t rate)
{
    return (vtil_rates){{rate, rate, rate, rate, rate, rate}};
}

static vtil_rates all_but_one_at(uint32_t rate, int which, uint32_t one)
{
    vtil_rates rates = all_at(rate);
    rates.rate[which] = one;
    return rates;
}

/* So far apart that other numbers of instructions in the groups, up to 39 in each, have another sum. */
static const vtil_rates far_apart = {{1, 100, 10000, 1000000, 100000000, 4000000000}};

/* All alike, far apart, and each group at 0 or the largest while the others are not. */
#define TRIED 16
static vtil_rates tried(int which)
{
    switch (which) {
    case 0: return all_at(0);
    case 1: return all_at(1);
    case 2: return all_at(UINT32_MAX);
    case 3: return far_apart;
    default: break;
    }
    return which < 10 ? all_but_one_at(0, which - 4, UINT32_MAX) : all_but_one_at(UINT32_MAX, which - 10, 0);
}

/* What a book is due: that the library's is the reference's is held after every call ----------- */

static void hold_sum(const char *what, vtil_rates rates, uint64_t sum)
{
    vtil_book book = {twin.numbers.written, twin.numbers.used, rates, sum, twin.numbers.walk};
    hold_book(twin.numbers, book);
    hold(what, image.len, (int64_t)twin.numbers.sum, (int64_t)sum);
}

/* Of a book that came from an opening: the charge worked afresh is that of the sum. */
static void hold_true_sum(const char *what, vtil_rates rates, uint64_t sum)
{
    hold_sum(what, rates, sum);
    hold(what, image.len, (int64_t)charge_both(twin.numbers, rates).cents, (int64_t)cents(sum));
}

/* Opening -------------------------------------------------------------------------------------- */

static void open_alone(uint32_t op, vtil_rates rates)
{
    begin_routine(1);
    put_block(&file, VIP, &op, 1, 0);
    open_routine_at(0, 0, rates);
    hold_true_sum("one instruction", rates, rates.rate[groups[op]]);
}

/* Every operation once, in one block or in a block for each. */
static void open_every(bool apart, vtil_rates rates, uint64_t sum)
{
    begin_routine(apart ? OPERATIONS : 1);
    if (apart)
        for (uint32_t op = 0; op < OPERATIONS; op++)
            put_block(&file, op, &op, 1, op % 3);
    else
        put_block(&file, VIP, every, OPERATIONS, 0);
    open_routine_at(0, 0, rates);
    hold_true_sum("every operation once", rates, sum);
}

static void openings(void)
{
    static const uint64_t counts[GROUPS] = {4, 11, 11, 11, 4, 8};
    begin("opening: every operation alone and all of them, at rates of 0 and the largest in every group");
    for (uint32_t op = 0; op < OPERATIONS; op++)
        for (int which = 0; which < TRIED; which++)
            open_alone(op, tried(which));
    for (int apart = 0; apart < 2; apart++) {
        open_every(apart, (vtil_rates){{7, 11, 13, 17, 19, 23}}, 28 + 121 + 143 + 187 + 76 + 184);
        open_every(apart, far_apart, 32411111104);
        open_every(apart, all_at(UINT32_MAX), 210453397455);
        for (unsigned largest = 0; largest < 1u << GROUPS; largest++) {
            vtil_rates rates = all_at(0);
            uint64_t sum = 0;
            for (int i = 0; i < GROUPS; i++)
                if (largest >> i & 1) {
                    rates.rate[i] = UINT32_MAX;
                    sum += counts[i] * UINT32_MAX;
                }
            open_every(apart, rates, sum);
        }
    }
    for (uint32_t blocks = 0; blocks < 4; blocks++) {
        begin_routine(blocks);
        for (uint32_t vip = 0; vip < blocks; vip++)
            put_block(&file, vip, NULL, 0, vip);
        open_routine_at(3, 3, far_apart);
        hold_true_sum("no instructions", far_apart, 0);
    }
    end();
}

/* The file is refused in this image by vtil_open and by vtil_run. */
static void refused_in(const struct bytes *from, size_t image_len, vtil_rates rates)
{
    struct ref_call create = call_of(VTIL_CREATE, ABSENT);
    lend_book(image_len, 60);
    hold("not opened", from->len, open_at_rates(from, rates), 0);
    hold_book(twin.numbers, (vtil_book){0});
    vtil_run_answer run = run_list(from, &create, 1, rates);
    hold("not run", from->len, run.refusal != 0 && run.last == 0, 1);
    hold_book(run.book, (vtil_book){0});
}

static void refused_openings(const struct room *room)
{
    static const uint64_t no_list[4] = {9, 0, 0, 0};
    uint8_t *at = no_access(room);
    size_t len = VTIL_MOST_LENT + 1;
    begin("refused openings and runs answer a book of zeros, the rates and the sum too");
    for (int which = 0; which < TRIED; which++) {
        vtil_rates rates = tried(which);
        for (size_t i = 0; i < sample_count; i++) {
            int64_t size = ref_check(samples[i].at, samples[i].len);
            refused_in(&samples[i], size < 0 ? samples[i].len : (size_t)size - 1, rates);
            refused_in(&samples[i], 0, rates);
            lend_list(no_list, 4, samples[i].at, 0);
            lend_file(&samples[i]);
            hold_run(library_run(rates), (vtil_run_answer){.refusal = VTIL_NO_SUCH_BLOCK});
            vtil_book wild = any_book(size < 0 ? 0 : (uint64_t)size, 0);
            hold_run(library_run_on(wild), (vtil_run_answer){.refusal = VTIL_NO_SUCH_BLOCK, .book = wild});
        }
        const struct bytes *first = &samples[0];
        next_case();
        hold_book(vtil_open(first->at, first->len, at, len, NULL, 0, rates).book, (vtil_book){0});
        hold_book(vtil_open(first->at, first->len, at, FRONT, at, len, rates).book, (vtil_book){0});
        hold_book(vtil_run(first->at, first->len, at, len, NULL, 0, NULL, 0, NULL, 0, rates).book, (vtil_book){0});
    }
    for (int refusal = VTIL_SHORT_FILE; refusal <= VTIL_REPEATED_BLOCK; refusal++)
        hold("each of 1 to 9 was due", (size_t)refusal, group.answers[refusal] > 0, 1);
    end();
}

/* Accepted calls ------------------------------------------------------------------------------- */

static void append_of_kind(uint32_t op, uint32_t kind)
{
    static struct bytes b;
    b.len = 0;
    put_instruction(&b, op, kind);
    append_bytes_due("append", VIP, &b, 0);
}

static void one_operation(uint32_t op, uint32_t kind, vtil_rates rates)
{
    const uint32_t first = NOP, second = ADD;
    uint64_t one = rates.rate[groups[op]], both = worked(&first, 1, rates) + worked(&second, 1, rates);
    begin_routine(2);
    put_block(&file, VIP, &first, 1, 1);
    put_block(&file, VIP + 1, &second, 1, 0);
    open_routine_at(VTIL_LONGEST_INSTRUCTION + EMPTY_BLOCK, 500, rates);
    hold_true_sum("opened", rates, both);
    append_of_kind(op, kind);
    hold_true_sum("appended", rates, both + one);
    undo_due("undo of the append", 0);
    hold_true_sum("taken back", rates, both);
    append_of_kind(op, kind);
    edit_due("create", VTIL_CREATE, ABSENT, 0);
    hold_true_sum("a block created", rates, both + one);
    edit_due("remove", VTIL_REMOVE, VIP, 0);
    hold_true_sum("removed", rates, rates.rate[groups[ADD]]);
    undo_due("undo of the removal", 0);
    hold_true_sum("restored", rates, both + one);
    undo_due("undo of the create", 0);
    hold_true_sum("the created block taken back", rates, both + one);
    undo_due("undo of the append", 0);
    hold_true_sum("as opened", rates, both);
}

static void operations(void)
{
    begin("every operation appended, taken back, removed and restored, at rates of 0 and the largest in every group");
    for (uint32_t op = 0; op < OPERATIONS; op++)
        for (uint32_t kind = 0; kind < 2; kind++)
            for (int which = 0; which < TRIED; which++)
                one_operation(op, kind, tried(which));
    end();
}

/* The blocks of the routine that most of these tests edit; no two have the same sum at rates that are far apart. */
#define BLOCKS 4
static const struct {
    uint32_t count, ops[5];
} blocks[BLOCKS] = {{3, {0, 4, 15}}, {5, {26, 41, 48, 14, 36}}, {0, {0}}, {2, {25, 37}}};

static uint64_t sum_of(int which, vtil_rates rates)
{
    return worked(blocks[which].ops, blocks[which].count, rates);
}

/* The sum is that of the routine without the removed block, whichever block takes its place. */
static void removals(void)
{
    begin("removals at every place, two at a time, and what restores them: the sum of the block that goes");
    for (int which = 0; which < TRIED; which++)
        for (int first = 0; first < BLOCKS; first++)
            for (int second = 0; second < BLOCKS; second++) {
                if (first == second)
                    continue;
                vtil_rates rates = tried(which);
                uint64_t sum = 0;
                begin_routine(BLOCKS);
                for (int i = 0; i < BLOCKS; i++) {
                    put_block(&file, VIP + (uint64_t)i, blocks[i].ops, blocks[i].count, (uint32_t)i);
                    sum += sum_of(i, rates);
                }
                open_routine_at(0, 1000, rates);
                hold_true_sum("opened", rates, sum);
                edit_due("the first removal", VTIL_REMOVE, VIP + (uint64_t)first, 0);
                hold_true_sum("without one", rates, sum - sum_of(first, rates));
                edit_due("the second removal", VTIL_REMOVE, VIP + (uint64_t)second, 0);
                hold_true_sum("without two", rates, sum - sum_of(first, rates) - sum_of(second, rates));
                undo_due("undo of the second", 0);
                hold_true_sum("one is back", rates, sum - sum_of(first, rates));
                undo_due("undo of the first", 0);
                hold_true_sum("both are back", rates, sum);
            }
    end();
}

/* An instruction is read in another way where its image or its journal soon ends, so they end anywhere behind it. */
static void last_at(uint32_t op, uint32_t kind, size_t spare)
{
    const uint64_t first = sum_of(0, far_apart), add = far_apart.rate[groups[ADD]], last = far_apart.rate[groups[op]];
    begin_routine(2);
    put_block(&file, VIP - 1, blocks[0].ops, blocks[0].count, 0);
    size_t block_at = file.len;
    put_block_front(&file, VIP, 2);
    put_instruction(&file, ADD, kind);
    size_t last_begin = file.len;
    put_instruction(&file, op, kind);
    size_t last_len = file.len - last_begin;
    put_zeros(&file, 8);
    open_routine_at(spare, ENTRY + file.len - block_at + spare, far_apart);
    hold_sum("opened", far_apart, first + add + last);
    edit_due("remove", VTIL_REMOVE, VIP, 0);
    hold_sum("removed", far_apart, first);
    undo_due("undo of the removal", 0);
    hold_sum("restored", far_apart, first + add + last);
    use_entry(NULL, VIP, 1, (uint32_t)last_len, 3);
    undo_due("undo of an append", 0);
    hold_sum("without the last", far_apart, first + add);
}

static void ends(void)
{
    begin("every operation last, in images and journals with 0 to 130 bytes to spare: removed, restored and taken back");
    for (uint32_t op = 0; op < OPERATIONS; op++)
        for (uint32_t kind = 0; kind < 2; kind++)
            for (size_t spare = 0; spare <= 130; spare++)
                last_at(op, kind, spare);
    end();
}

/* Sums made by hand, at the limits of what is subtracted and added ----------------------------- */

/* What the book is opened at, and the block in question, which stands between two others. */
static vtil_rates opened_at;
static const uint32_t *middle;
static uint32_t middle_count;

static void open_middle(void)
{
    begin_routine(3);
    put_block(&file, VIP - 1, blocks[0].ops, blocks[0].count, 0);
    put_block(&file, VIP, middle, middle_count, 1);
    put_block(&file, VIP + 1, blocks[1].ops, blocks[1].count, 2);
    open_routine_at(VTIL_LONGEST_INSTRUCTION + EMPTY_BLOCK, 5000, opened_at);
}

static struct bytes appended;

static struct ref_call make_append(uint32_t op)
{
    appended.len = 0;
    put_instruction(&appended, op, 0);
    return (struct ref_call){VTIL_APPEND, VIP, appended.at, appended.len};
}

/* Books on which undo takes back each kind of edit. */
static void open_appended(void)
{
    struct ref_call append = {VTIL_APPEND, VIP, appended.at, appended.len};
    open_middle();
    due("append", &append, 0);
}

static void open_removed(void)
{
    open_middle();
    edit_due("remove", VTIL_REMOVE, VIP, 0);
}

static void open_created(void)
{
    open_middle();
    edit_due("create", VTIL_CREATE, ABSENT, 0);
}

/* The call at sums around those at which it begins and ceases to be accepted. Refused, it leaves the book as it was. */
static void try_sums(const char *what, void (*prepare)(void), struct ref_call call, uint64_t less, uint64_t more)
{
    const uint64_t room = UINT64_MAX - more;
    const uint64_t sums[] = {
        0,         1,          less - 1, less, less + 1, UINT32_MAX,     1ull << 32,
        INT64_MAX, 1ull << 63, room - 1, room, room + 1, UINT64_MAX - 1, UINT64_MAX,
    };
    for (size_t i = 0; i < sizeof sums / sizeof sums[0]; i++) {
        uint64_t sum = sums[i];
        prepare();
        vtil_book before = twin.numbers;
        before.sum = twin.numbers.sum = sum;
        bool fits = sum >= less && sum - less <= room;
        due(what, &call, fits ? 0 : VTIL_SPOILED_BOOK);
        if (fits)
            hold_sum(what, opened_at, sum - less + more);
        else
            hold_book(twin.numbers, before);
    }
}

static void sums_of_blocks(const uint32_t *ops, uint32_t count)
{
    middle = ops;
    middle_count = count;
    uint64_t block = worked(ops, count, opened_at);
    try_sums("remove", open_middle, call_of(VTIL_REMOVE, VIP), block, 0);
    try_sums("undo of a removal", open_removed, call_of(VTIL_UNDO, 0), 0, block);
    try_sums("create", open_middle, call_of(VTIL_CREATE, ABSENT), 0, 0);
    try_sums("undo of a create", open_created, call_of(VTIL_UNDO, 0), 0, 0);
}

static void sums_of_instructions(uint32_t op)
{
    static const uint32_t nop = NOP;
    middle = &nop;
    middle_count = 1;
    uint64_t rate = opened_at.rate[groups[op]];
    try_sums("append", open_middle, make_append(op), 0, rate);
    try_sums("undo of an append", open_appended, call_of(VTIL_UNDO, 0), rate, 0);
}

static void sums_by_hand(void)
{
    begin("sums made by hand, around what is subtracted and what still has room: 13 exactly where there is none");
    for (int which = 0; which < TRIED; which++) {
        opened_at = tried(which);
        sums_of_blocks(NULL, 0);
        sums_of_blocks(every, OPERATIONS);
        for (int i = 0; i < BLOCKS; i++)
            sums_of_blocks(blocks[i].ops, blocks[i].count);
        for (uint32_t op = 0; op < OPERATIONS; op++)
            sums_of_instructions(op);
    }
    end();
}

/* The order of the refusals: the sum's 13 is the last ------------------------------------------ */

#define NOP_BLOCK (EMPTY_BLOCK + NOP_SIZE) /* bytes of a block of one nop */

struct tightness {
    size_t spare, journal_len;
    uint64_t sum;
};

/* Two blocks, a nop and a jmp, each instruction at the largest rate. */
static void open_tight(const struct tightness *tight)
{
    const uint32_t nop = NOP, jmp = JMP;
    begin_routine(2);
    put_block(&file, VIP, &nop, 1, 0);
    put_block(&file, VIP + 1, &jmp, 1, 0);
    open_routine_at(tight->spare, tight->journal_len, all_at(UINT32_MAX));
    twin.numbers.sum = tight->sum;
}

static uint64_t due_of_remove(const struct tightness *tight)
{
    if (tight->journal_len < ENTRY + NOP_BLOCK)
        return VTIL_JOURNAL_FULL;
    return tight->sum < UINT32_MAX ? VTIL_SPOILED_BOOK : 0;
}

static uint64_t due_of_append(const struct tightness *tight)
{
    if (tight->spare < NOP_SIZE)
        return VTIL_IMAGE_FULL;
    if (tight->journal_len < ENTRY)
        return VTIL_JOURNAL_FULL;
    return tight->sum > UINT64_MAX - UINT32_MAX ? VTIL_SPOILED_BOOK : 0;
}

static uint64_t due_of_create(const struct tightness *tight)
{
    if (tight->spare < EMPTY_BLOCK)
        return VTIL_IMAGE_FULL;
    return tight->journal_len < ENTRY ? VTIL_JOURNAL_FULL : 0;
}

static void spoiled_due(void)
{
    uint8_t before = twin.image[4];
    twin.image[4] = 3; /* the machine */
    copy_twin();
    edit_due("create, spoiled", VTIL_CREATE, ABSENT, VTIL_SPOILED_BOOK);
    edit_due("remove, spoiled", VTIL_REMOVE, ABSENT, VTIL_SPOILED_BOOK);
    append_due("append, spoiled", ABSENT, NOP, VTIL_SPOILED_BOOK);
    undo_due("undo, spoiled", VTIL_SPOILED_BOOK);
    twin.image[4] = before;
    copy_twin();
}

static void order_at(const struct tightness *tight)
{
    open_tight(tight);
    spoiled_due();
    undo_due("nothing to take back", VTIL_NOTHING_TO_TAKE_BACK);
    edit_due("create what is there", VTIL_CREATE, VIP, VTIL_BLOCK_PRESENT);
    edit_due("remove what is not there", VTIL_REMOVE, ABSENT, VTIL_NO_SUCH_BLOCK);
    append_due("append where there is none", ABSENT, NOP, VTIL_NO_SUCH_BLOCK);
    append_due("append where it is closed", VIP + 1, NOP, VTIL_CLOSED_BLOCK);
    faulty_appends(VIP);
    edit_due("remove", VTIL_REMOVE, VIP, due_of_remove(tight));
    open_tight(tight);
    append_due("append", VIP, NOP, due_of_append(tight));
    open_tight(tight);
    edit_due("create", VTIL_CREATE, ABSENT, due_of_create(tight));
}

static void orders(void)
{
    static const size_t spares[] = {0, NOP_SIZE - 1, NOP_SIZE, EMPTY_BLOCK - 1, EMPTY_BLOCK};
    static const size_t journals[] = {0, ENTRY - 1, ENTRY, ENTRY + NOP_BLOCK - 1, ENTRY + NOP_BLOCK};
    static const uint64_t sums[] = {
        0, UINT32_MAX - 1ull, UINT32_MAX, UINT64_MAX - UINT32_MAX, UINT64_MAX - UINT32_MAX + 1, UINT64_MAX,
    };
    begin("sums that have no room beside other refusals, which all come first: 13, 14 to 19, 1 to 8, 11, 12");
    for (size_t i = 0; i < sizeof spares / sizeof spares[0]; i++)
        for (size_t j = 0; j < sizeof journals / sizeof journals[0]; j++)
            for (size_t k = 0; k < sizeof sums / sizeof sums[0]; k++)
                order_at(&(struct tightness){spares[i], journals[j], sums[k]});
    end();
}

/* The byte of the last entry's trailer, made another for one undo. */
static void misfit_due(const char *what, size_t at, uint8_t byte)
{
    uint8_t *entry = twin.journal + twin.numbers.used - ENTRY + at, before = *entry;
    *entry = byte;
    copy_twin();
    undo_due(what, VTIL_SPOILED_BOOK);
    *entry = before;
    copy_twin();
}

static void misfits_at(uint64_t sum)
{
    twin.numbers.sum = sum;
    misfit_due("another vip", 0, 0xee);
    misfit_due("another place", 8, 9);
    misfit_due("another length", 12, 3);
    misfit_due("a kind that is none", 16, 4);
    twin.numbers.used--;
    undo_due("an entry that is cut", VTIL_SPOILED_BOOK);
    twin.numbers.used++;
}

/* Whether the sum has room or not; then, as it was, the undo is accepted. */
static void misfits(void (*prepare)(void))
{
    prepare();
    vtil_book before = twin.numbers;
    misfits_at(before.sum);
    misfits_at(0);
    misfits_at(UINT64_MAX);
    twin.numbers = before;
    undo_due("as it was", 0);
}

static void entries_that_do_not_fit(void)
{
    begin("undo of entries that do not fit, at sums that have room and at sums that have none: 13, and nothing changes");
    for (int which = 0; which < TRIED; which++) {
        opened_at = tried(which);
        middle = blocks[1].ops;
        middle_count = blocks[1].count;
        make_append(NOP);
        misfits(open_appended);
        misfits(open_removed);
        misfits(open_created);
    }
    end();
}

/* What does not look at the sum ---------------------------------------------------------------- */

static void looks(void)
{
    static const uint64_t sums[] = {0, 1, INT64_MAX, UINT64_MAX - 1, UINT64_MAX};
    begin("looks and the charge at any sum and any rates of the book");
    for (int which = 0; which < TRIED; which++)
        for (size_t i = 0; i < sizeof sums / sizeof sums[0]; i++) {
            opened_at = far_apart;
            middle = every;
            middle_count = OPERATIONS;
            open_removed();
            vtil_book book = {twin.numbers.written, twin.numbers.used, tried(which), sums[i], 0};
            look_once(book);
            uint64_t sum = sum_of(0, far_apart) + sum_of(1, far_apart);
            hold("the charge worked afresh", i, (int64_t)charge_both(book, far_apart).cents, (int64_t)cents(sum));
        }
    begin_routine(1);
    put_block(&file, VIP, blocks[1].ops, blocks[1].count, 2);
    open_routine(10, 10);
    look_everywhere(any_book(twin.numbers.written, 10));
    end();
}

/* Books and journals made by hand -------------------------------------------------------------- */

/* What counts is what is handed in: these rates are not those of the opening, and the sum fits neither. */
static void handed_in(vtil_rates rates, uint64_t sum)
{
    twin.numbers.rates = rates;
    twin.numbers.sum = sum;
}

static void other_rates(vtil_rates first, vtil_rates second)
{
    const uint64_t sum = 1ull << 60;
    const uint32_t op = blocks[3].ops[0];
    opened_at = far_apart;
    middle = blocks[1].ops;
    middle_count = blocks[1].count;
    open_middle();
    handed_in(first, sum);
    append_due("append", VIP, op, 0);
    hold_sum("at the book's rates", first, sum + first.rate[groups[op]]);
    handed_in(second, sum);
    undo_due("undo of the append", 0);
    hold_sum("at the rates that the book has by then", second, sum - second.rate[groups[op]]);
    handed_in(first, sum);
    edit_due("remove", VTIL_REMOVE, VIP, 0);
    hold_sum("at the book's rates", first, sum - sum_of(1, first));
    handed_in(second, sum);
    undo_due("undo of the removal", 0);
    hold_sum("at the rates that the book has by then", second, sum + sum_of(1, second));
}

static void books_by_hand(void)
{
    begin("books made by hand: a sum and rates that are not those of the opening, and others again at the undo");
    for (int first = 0; first < TRIED; first++)
        for (int second = 0; second < TRIED; second++)
            other_rates(tried(first), tried(second));
    end();
}

/* Entries that no edit of this book wrote: a block that never stood in it, an instruction and an empty block of the file. */
static void journals_at(vtil_rates rates, uint64_t sum)
{
    static struct bytes b;
    const uint32_t nop = NOP;
    for (int i = 0; i < BLOCKS; i++) {
        begin_routine(1);
        put_block(&file, VIP, &nop, 1, 0);
        open_routine_at(1000, 1000, far_apart);
        b.len = 0;
        put_block(&b, ABSENT, blocks[i].ops, blocks[i].count, 2);
        use_entry(&b, ABSENT, 0, (uint32_t)b.len, 2);
        handed_in(rates, sum);
        undo_due("a block that never stood there", sum_of(i, rates) > UINT64_MAX - sum ? VTIL_SPOILED_BOOK : 0);
        if (sum_of(i, rates) <= UINT64_MAX - sum)
            hold_sum("with that block", rates, sum + sum_of(i, rates));
    }
    for (uint32_t op = 0; op < OPERATIONS; op++) {
        begin_routine(1);
        put_block(&file, VIP, (const uint32_t[]){NOP, op}, 2, 0);
        open_routine_at(0, 1000, far_apart);
        b.len = 0;
        put_instruction(&b, op, 0);
        use_entry(NULL, VIP, 0, (uint32_t)b.len, 3);
        handed_in(rates, sum);
        undo_due("an instruction of the file", rates.rate[groups[op]] > sum ? VTIL_SPOILED_BOOK : 0);
        if (rates.rate[groups[op]] <= sum)
            hold_sum("without it", rates, sum - rates.rate[groups[op]]);
    }
    begin_routine(1);
    put_block(&file, VIP, NULL, 0, 0);
    open_routine_at(0, 1000, far_apart);
    use_entry(NULL, VIP, 0, 0, 1);
    handed_in(rates, sum);
    undo_due("an empty block of the file", 0);
    hold_sum("without it", rates, sum);
}

static void journals_by_hand(void)
{
    static const uint64_t sums[] = {0, 1, UINT32_MAX - 1ull, UINT32_MAX, 1ull << 60, UINT64_MAX - UINT32_MAX, UINT64_MAX};
    begin("journals made by hand: what undo adds and subtracts is what comes and goes, at the book's rates");
    for (int which = 0; which < TRIED; which++)
        for (size_t i = 0; i < sizeof sums / sizeof sums[0]; i++)
            journals_at(tried(which), sums[i]);
    end();
}

/* Lists of calls ------------------------------------------------------------------------------- */

static struct bytes instructions[CALLS];
static struct ref_call calls[CALLS];

/*
 * After every call the sum that is carried is the machine's, which is worked afresh on its routine; it is worked afresh on
 * the bytes of the image, too; and its cents are the charge.
 */
static void hold_afresh(vtil_walk_answer answer, vtil_rates rates)
{
    hold("the sum worked afresh", image.len, (int64_t)answer.book.sum, (int64_t)ref_sum(&twin, rates));
    hold("the cents", image.len, (int64_t)cents(answer.book.sum), (int64_t)charge_both(answer.book, rates).cents);
}

static void one_list(const struct bytes *from)
{
    vtil_rates rates = any_rates();
    size_t parted = below(CALLS + 1);
    lend_book((size_t)ref_check(from->at, from->len) + below(5) * below(150), below(5) * below(250));
    if (!open_at_rates(from, rates))
        return;
    vtil_book opened = twin.numbers;
    struct ref_machine *machine = ref_machine_start(from->at, from->len, image.len, journal.len, rates);
    for (size_t i = 0; i < CALLS; i++) {
        calls[i] = any_call(&instructions[i]);
        vtil_walk_answer answer = call_both(&calls[i]);
        hold_machine(machine, &calls[i], answer);
        hold_afresh(answer, rates);
    }
    ref_machine_free(machine);
    vtil_book last = twin.numbers;
    close_walk();
    while (twin.numbers.used > 0)
        undo_due("all is taken back", 0);
    hold_book(twin.numbers, opened);
    hold_book(run_list(from, calls, CALLS, rates).book, last);
    run_list(from, calls, parted, rates);
    hold_book(run_list_on(calls + parted, CALLS - parted).book, last);
    hold("the sum worked afresh after the runs", image.len, (int64_t)last.sum, (int64_t)ref_sum(&twin, rates));
}

static void lists(void)
{
    static const int answers[] = {0, 1, 2, 5, 6, 7, 8, 11, 12, 14, 15, 16, 17, 18, 19, 20, 21, -1};
    static struct bytes b;
    begin("lists of calls: after each the machine's sum, worked afresh, and its cents; the same by vtil_run and vtil_run_on");
    seed(41);
    for (int i = 0; i < LISTS; i++) {
        make_any_routine(samples, sample_count, &b);
        one_list(&b);
    }
    hold("no call was refused 13", 0, (int64_t)group.answers[VTIL_SPOILED_BOOK], 0);
    end_of_random(10, answers);
}

/* A sum at which calls begin to be refused: what a few instructions come to at large rates, from either end. */
static uint64_t wild_sum(void)
{
    uint64_t few = below(4) * UINT32_MAX + below(3) - 1;
    switch (below(5)) {
    case 0: return 0;
    case 1: return few;
    case 2: return UINT64_MAX - few;
    case 3: return UINT64_MAX;
    default: return below(UINT64_MAX);
    }
}

/* On a book made by hand an accepted call changes the sum by what the routine's sum changes by, at the book's rates. */
static void hold_change(vtil_book before, uint64_t afresh_before, vtil_walk_answer answer)
{
    uint64_t afresh = ref_sum(&twin, before.rates);
    if (answer.refusal != 0) {
        hold_book(answer.book, before);
        return;
    }
    hold_sum("by what the routine's sum changes by", before.rates, before.sum + (afresh - afresh_before));
    hold("no sum wraps", image.len, (answer.book.sum < before.sum) == (afresh < afresh_before), 1);
}

static void one_wild_list(const struct bytes *from)
{
    size_t count = 1 + below(CALLS);
    lend_book((size_t)ref_check(from->at, from->len) + 200 + below(400), 200 + below(2000));
    open_both(from);
    for (size_t i = 0; i < count; i++) {
        if (below(3) == 0)
            handed_in(any_rates(), wild_sum());
        calls[i] = any_call(&instructions[i]);
        vtil_book before = twin.numbers;
        uint64_t afresh = ref_sum(&twin, before.rates);
        hold_change(before, afresh, call_both(&calls[i]));
    }
    handed_in(any_rates(), wild_sum());
    run_list_on(calls, count);
}

/* Nobody writes image or journal here, so 13 is always the sum's. */
static void wild_lists(void)
{
    static const int answers[] = {0, 11, 12, 13, 14, 15, 16, 18, 19, 20, 21, -1};
    static struct bytes b;
    begin("lists of calls on books whose rates and sum are made by hand, between calls too, and by vtil_run_on");
    seed(42);
    for (int i = 0; i < WILD_LISTS; i++) {
        make_any_routine(samples, sample_count, &b);
        one_wild_list(&b);
    }
    end_of_random(100, answers);
}

/* At the limit --------------------------------------------------------------------------------- */

static void hold_one(const char *what, vtil_answer got, uint64_t refusal, vtil_book book)
{
    next_case();
    hold(what, 0, (int64_t)got.refusal, (int64_t)refusal);
    hold_book(got.book, book);
}

/* No routine that fits has more instructions, so no sum is larger. The reference would take long, but the answers are plain. */
static void fullest(void)
{
    static struct bytes nop;
    size_t len;
    put_instruction(&nop, NOP, 0);
    uint8_t *routine = make_full_routine(VIP, &nop, &len);
    const size_t nops = (len - FRONT - EMPTY_BLOCK) / NOP_SIZE;
    const size_t used = len - FRONT + ENTRY; /* of the removal */
    const uint64_t most = 2251778338324485;
    const vtil_rates rates = all_at(UINT32_MAX);
    struct room large = make_room(VTIL_MOST_LENT), other = make_room(VTIL_MOST_LENT);
    struct lent at = lend(&large, VTIL_MOST_LENT, true), to = lend(&other, VTIL_MOST_LENT, true);
    vtil_book full = {len, 0, rates, most, 0}, empty = {FRONT, used, rates, 0, 0};

    begin("as many nops as an image of 16,777,216 bytes holds, at the largest rate: opened, removed and restored");
    hold("524,283 nops at 4,294,967,295", 0, (int64_t)(nops * (uint64_t)UINT32_MAX), (int64_t)most);
    vtil_answer a = vtil_open(routine, len, at.writable, at.len, to.writable, to.len, rates);
    hold_one("open", a, 0, full);
    full.sum = most - 1;
    hold_one("remove, one short", vtil_remove_block(full, at.writable, at.len, to.writable, to.len, VIP), 13, full);
    hold("as it was opened", 0, memcmp(at.plain, routine, len), 0);
    full.sum = most;
    hold_one("remove", vtil_remove_block(full, at.writable, at.len, to.writable, to.len, VIP), 0, empty);
    empty.sum = UINT64_MAX - most + 1;
    hold_one("undo, one too many", vtil_undo(empty, at.writable, at.len, to.writable, to.len), 13, empty);
    full.sum = UINT64_MAX;
    empty.sum = UINT64_MAX - most;
    hold_one("undo", vtil_undo(empty, at.writable, at.len, to.writable, to.len), 0, full);
    hold("as it was opened, again", 0, memcmp(at.plain, routine, len), 0);
    end();
    free(routine);
}

int main(int argc, char **argv)
{
    (void)argc;
    set_up_groups("guard_sum");
    sample_count = load_samples(argv + 1, &samples);
    set_up_book_pair();
    set_up_calls();
    set_up_operations();
    struct room untouched = make_room(1);

    openings();
    refused_openings(&untouched);
    operations();
    removals();
    ends();
    sums_by_hand();
    orders();
    entries_that_do_not_fit();
    looks();
    books_by_hand();
    journals_by_hand();
    lists();
    wild_lists();
    fullest();
    return finish();
}
