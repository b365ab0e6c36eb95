#include "book_pair.h"

#include <string.h>

#include "group.h"
#include "reference.h"
#include "values.h"

struct lent image, journal, second;
struct ref_book twin;

static struct room file_room, image_room, journal_room, second_room;
static uint8_t twin_image[BYTES_MAX], twin_journal[BYTES_MAX];

void set_up_book_pair(void)
{
    file_room = make_room(BYTES_MAX);
    image_room = make_room(BYTES_MAX);
    journal_room = make_room(BYTES_MAX);
    second_room = make_room(BYTES_MAX);
}

static void leave_bytes(uint8_t *at, size_t len)
{
    for (size_t i = 0; i < len; i++)
        at[i] = (uint8_t)below(256);
}

void lend_book(size_t image_len, size_t journal_len)
{
    image = lend(&image_room, image_len, below(2) == 0);
    journal = lend(&journal_room, journal_len, below(2) == 0);
    twin = (struct ref_book){twin_image, twin_journal, image_len, journal_len, {0}};
    leave_bytes(twin_image, image_len);
    leave_bytes(twin_journal, journal_len);
    copy_twin();
}

void change_lengths(size_t image_len, size_t journal_len)
{
    if (image_len > twin.image_len)
        memset(twin_image + twin.image_len, 0, image_len - twin.image_len);
    if (journal_len > twin.journal_len)
        leave_bytes(twin_journal + twin.journal_len, journal_len - twin.journal_len);
    twin.image_len = image_len;
    twin.journal_len = journal_len;
    image = lend(&image_room, image_len, below(2) == 0);
    journal = lend(&journal_room, journal_len, below(2) == 0);
    copy_twin();
}

void copy_twin(void)
{
    memcpy(image.plain, twin.image, image.len);
    memcpy(journal.plain, twin.journal, journal.len);
}

static uint8_t kept_image[BYTES_MAX], kept_journal[BYTES_MAX];
static vtil_book kept_numbers;

void keep_book(void)
{
    memcpy(kept_image, twin.image, twin.image_len);
    memcpy(kept_journal, twin.journal, twin.journal_len);
    kept_numbers = twin.numbers;
}

void bring_back_book(void)
{
    memcpy(twin.image, kept_image, twin.image_len);
    memcpy(twin.journal, kept_journal, twin.journal_len);
    twin.numbers = kept_numbers;
    copy_twin();
}

void hold_book(vtil_book got, vtil_book want)
{
    hold("written", image.len, (int64_t)got.written, (int64_t)want.written);
    hold("used", journal.len, (int64_t)got.used, (int64_t)want.used);
    for (int i = 0; i < 6; i++)
        hold("the book's rate", (size_t)i, got.rates.rate[i], want.rates.rate[i]);
    hold("the book's sum", image.len, (int64_t)got.sum, (int64_t)want.sum);
    hold("the book's walk", image.len, (int64_t)got.walk, (int64_t)want.walk);
}

void hold_answer(vtil_answer got, vtil_answer want)
{
    group.answers[want.refusal]++;
    hold("refusal", image.len, (int64_t)got.refusal, (int64_t)want.refusal);
    hold_book(got.book, want.book);
}

void hold_step(vtil_walk_answer got, vtil_walk_answer want)
{
    hold_answer((vtil_answer){got.refusal, got.book}, (vtil_answer){want.refusal, want.book});
    hold("offset", image.len, (int64_t)got.offset, (int64_t)want.offset);
    hold("length", image.len, (int64_t)got.length, (int64_t)want.length);
}

void hold_bytes(void)
{
    hold("the image is as due", image.len, memcmp(image.plain, twin.image, image.len) == 0, 1);
    hold("the journal is as due", journal.len, memcmp(journal.plain, twin.journal, journal.len) == 0, 1);
}

bool open_at_rates(const struct bytes *file, vtil_rates rates)
{
    struct lent lent = lend(&file_room, file->len, below(2) == 0);
    memcpy(lent.plain, file->at, file->len);
    vtil_answer want = ref_open(&twin, file->at, file->len, rates);
    next_case();
    hold_answer(vtil_open(lent.readable, lent.len, image.writable, image.len, journal.writable, journal.len, rates), want);
    hold_bytes();
    return want.refusal == 0;
}

bool open_both(const struct bytes *file)
{
    return open_at_rates(file, any_rates());
}

/* Looks ------------------------------------------------------------------------------ */

#define LENT numbers, image.readable, image.len, journal.readable, journal.len

static void hold_number(const char *what, uint64_t got, uint64_t want)
{
    hold(what, image.len, (int64_t)got, (int64_t)want);
}

/* Counts the case. The other fields are compared too: those of a refused look are 0, here and there. */
static void hold_refusal(const char *what, uint64_t got, uint64_t want)
{
    next_case();
    group.answers[want]++;
    hold_number(what, got, want);
}

static void look_routine(vtil_book numbers)
{
    vtil_routine_look got = vtil_routine(LENT), want = ref_routine(&twin);
    hold_refusal("routine", got.refusal, want.refusal);
    hold_number("machine", got.arch_id, want.arch_id);
    hold_number("entry vip", got.vip, want.vip);
    hold_number("special conventions", got.spec_conventions, want.spec_conventions);
    hold_number("blocks", got.blocks, want.blocks);
}

static void look_block(vtil_book numbers, uint64_t place)
{
    vtil_block_look got = vtil_block(LENT, place), want = ref_block(&twin, place);
    hold_refusal("block", got.refusal, want.refusal);
    hold_number("block vip", got.vip, want.vip);
    hold("block sp offset", image.len, got.sp_offset, want.sp_offset);
    hold_number("block sp index", got.sp_index, want.sp_index);
    hold_number("last temporary", got.last_temporary_index, want.last_temporary_index);
    hold_number("instructions", got.instructions, want.instructions);
    hold_number("prev vips", got.prev_vips, want.prev_vips);
    hold_number("next vips", got.next_vips, want.next_vips);
}

static void look_instruction(vtil_book numbers, uint64_t block, uint64_t place)
{
    vtil_instruction_look got = vtil_instruction(LENT, block, place), want = ref_instruction(&twin, block, place);
    hold_refusal("instruction", got.refusal, want.refusal);
    hold_instruction(image.len, &got.instruction, &want.instruction);
}

static void look_vip(vtil_book numbers, uint64_t block, uint64_t list, uint64_t place)
{
    vtil_vip_look got = vtil_block_vip(LENT, block, list, place), want = ref_block_vip(&twin, block, list, place);
    hold_refusal("vip", got.refusal, want.refusal);
    hold_number("vip's value", got.vip, want.vip);
}

static void look_convention(vtil_book numbers, uint64_t place)
{
    vtil_convention_look got = vtil_convention(LENT, place), want = ref_convention(&twin, place);
    hold_refusal("convention", got.refusal, want.refusal);
    hold_register(image.len, &got.frame_register, &want.frame_register);
    hold_number("shadow space", got.shadow_space, want.shadow_space);
    hold_number("purge", got.purge_stack, want.purge_stack);
    hold_number("volatile", got.volatile_registers, want.volatile_registers);
    hold_number("param", got.param_registers, want.param_registers);
    hold_number("retval", got.retval_registers, want.retval_registers);
}

static void look_register(vtil_book numbers, uint64_t convention, uint64_t list, uint64_t place)
{
    vtil_register_look got = vtil_convention_register(LENT, convention, list, place);
    vtil_register_look want = ref_convention_register(&twin, convention, list, place);
    hold_refusal("register", got.refusal, want.refusal);
    hold_register(image.len, &got.register_desc, &want.register_desc);
}

static uint32_t any_rate(void)
{
    switch (below(4)) {
    case 0: return 0;
    case 1: return UINT32_MAX;
    case 2: return (uint32_t)below(200);
    default: return (uint32_t)below(UINT32_MAX);
    }
}

vtil_rates any_rates(void)
{
    vtil_rates rates;
    for (int i = 0; i < 6; i++)
        rates.rate[i] = any_rate();
    return rates;
}

static uint64_t any_sum(void)
{
    switch (below(4)) {
    case 0: return 0;
    case 1: return below(200);
    case 2: return UINT64_MAX - below(200);
    default: return below(UINT64_MAX);
    }
}

vtil_book any_book(uint64_t written, uint64_t used)
{
    vtil_rates rates = any_rates();
    return (vtil_book){written, used, rates, any_sum(), below(2)};
}

vtil_charge_look charge_both(vtil_book numbers, vtil_rates rates)
{
    twin.numbers = numbers;
    vtil_charge_look got = vtil_charge(LENT, rates), want = ref_charge(&twin, rates);
    hold_refusal("charge", got.refusal, want.refusal);
    hold_number("cents", got.cents, want.cents);
    hold_bytes();
    return want;
}

/* The rates are so far apart that other numbers of instructions in the groups, up to 32 in each, give other cents. */
static void look_charge(vtil_book numbers)
{
    static const vtil_rates rates = {{100, 3300, 108900, 3593700, 118592100, 3913539300}};
    charge_both(numbers, rates);
}

/* The second image is refilled, and lent anew, for each copy: what an earlier one left there counts for nothing. */
vtil_written copy_both(vtil_book numbers, size_t copy_len)
{
    static uint8_t left[BYTES_MAX], twin_second[BYTES_MAX];
    twin.numbers = numbers;
    second = lend(&second_room, copy_len, below(2) == 0);
    leave_bytes(left, copy_len);
    memcpy(twin_second, left, copy_len);
    memcpy(second.plain, left, copy_len);
    vtil_written got = vtil_outside_copy(LENT, second.writable, second.len);
    vtil_written want = ref_outside_copy(&twin, twin_second, copy_len);
    hold_refusal("outside copy", got.refusal, want.refusal);
    hold_number("the copy's length", got.size, want.size);
    hold("the second image is as due", copy_len, memcmp(second.plain, twin_second, copy_len) == 0, 1);
    if (want.refusal != 0)
        hold("the second image is as it was", copy_len, memcmp(second.plain, left, copy_len) == 0, 1);
    hold_bytes();
    return want;
}

void look_once(vtil_book numbers)
{
    twin.numbers = numbers;
    look_routine(numbers);
    look_block(numbers, 0);
    look_instruction(numbers, 0, 0);
    look_vip(numbers, 0, below(2), 0);
    look_convention(numbers, 0);
    look_register(numbers, 0, below(3), 0);
    look_charge(numbers);
    copy_both(numbers, image.len);
}

void extremes(uint64_t middle, uint64_t out[EXTREMES])
{
    const uint64_t values[EXTREMES] = {0,          1,          middle - 1,       middle,         middle + 1,    UINT32_MAX,
                                       UINT32_MAX + 1ull, INT64_MAX, INT64_MAX + 1ull, UINT64_MAX - 1, UINT64_MAX};
    memcpy(out, values, sizeof values);
}

static void look_at_block(vtil_book numbers, uint64_t place)
{
    vtil_block_look block = ref_block(&twin, place);
    uint64_t odd[EXTREMES];
    look_block(numbers, place);
    for (uint64_t i = 0; i < block.instructions; i++)
        look_instruction(numbers, place, i);
    extremes(block.instructions, odd);
    for (int i = 0; i < EXTREMES; i++)
        look_instruction(numbers, place, odd[i]);
    for (uint64_t list = 0; list < 3; list++) {
        uint64_t count = list == 0 ? block.prev_vips : block.next_vips;
        extremes(count, odd);
        for (uint64_t i = 0; i < count; i++)
            look_vip(numbers, place, list, i);
        for (int i = 0; i < EXTREMES; i++)
            look_vip(numbers, place, list, odd[i]);
    }
}

static void look_at_convention(vtil_book numbers, uint64_t place)
{
    vtil_convention_look convention = ref_convention(&twin, place);
    const uint64_t counts[4] = {convention.volatile_registers, convention.param_registers, convention.retval_registers, 1};
    uint64_t odd[EXTREMES];
    look_convention(numbers, place);
    for (uint64_t list = 0; list < 4; list++) {
        extremes(counts[list], odd);
        for (uint64_t i = 0; i < counts[list]; i++)
            look_register(numbers, place, list, i);
        for (int i = 0; i < EXTREMES; i++)
            look_register(numbers, place, list, odd[i]);
    }
}

/* Lists that no book has. */
static void look_at_odd_lists(vtil_book numbers)
{
    uint64_t odd[EXTREMES];
    extremes(3, odd);
    for (int i = 0; i < EXTREMES; i++) {
        look_vip(numbers, 0, odd[i], 0);
        look_register(numbers, 0, odd[i], 0);
    }
}

void look_everywhere(vtil_book numbers)
{
    twin.numbers = numbers;
    vtil_routine_look routine = ref_routine(&twin);
    uint64_t odd[EXTREMES];
    look_routine(numbers);
    for (uint64_t i = 0; i < routine.blocks; i++)
        look_at_block(numbers, i);
    extremes(routine.blocks, odd);
    for (int i = 0; i < EXTREMES; i++)
        look_at_block(numbers, odd[i]);
    for (uint64_t i = 0; i < 2 + routine.spec_conventions; i++)
        look_at_convention(numbers, i);
    extremes(2 + routine.spec_conventions, odd);
    for (int i = 0; i < EXTREMES; i++)
        look_at_convention(numbers, odd[i]);
    look_at_odd_lists(numbers);
    look_charge(numbers);
    copy_both(numbers, image.len);
}
