/*
 * guard_crooked: appends of instructions with crooked registers and with sound ones, and
 * crooked registers in files, between guard pages, against refusals that are written out
 * here and against the reference.
 */
#include <stdbool.h>
#include <string.h>

#include "book_pair.h"
#include "by_hand.h"
#include "calls.h"
#include "cases.h"
#include "group.h"
#include "lent.h"
#include "reference.h"
#include "values.h"
#include "vtil.h"

#define VIP 5     /* of a block with a nop */
#define CLOSED 6  /* of one with a jmp */
#define ABSENT 77 /* a vip that no block has */
#define TAIL 21   /* bytes of an instruction after its operands */

/* Widths and offsets --------------------------------------------------------------------------------- */

struct slice {
    int32_t width, offset;
};

#define EDGES 8
#define PAIRS (EDGES * EDGES)
static const int32_t edges[EDGES] = {INT32_MIN, -1, 0, 1, 63, 64, 65, INT32_MAX};

/* The sound ones of all pairs of these, written out. */
#define SOUND 6
static const struct slice sound[SOUND] = {{1, 0}, {1, 1}, {1, 63}, {63, 0}, {63, 1}, {64, 0}};

static struct slice pair(int which)
{
    return (struct slice){edges[which / EDGES], edges[which % EDGES]};
}

static bool is_sound(struct slice slice)
{
    for (int i = 0; i < SOUND; i++)
        if (sound[i].width == slice.width && sound[i].offset == slice.offset)
            return true;
    return false;
}

/* What an append is answered where this is due without the register. */
static uint64_t due_with(struct slice slice, uint64_t otherwise)
{
    return is_sound(slice) ? otherwise : VTIL_CROOKED_REGISTER;
}

/* Instructions ----------------------------------------------------------------------------------------- */

/* An operation for each number of operands: popcnt, add and te have names of 6, 3 and 2 letters. */
static const uint32_t taking[] = {0, 15, 5, 28};
#define MOST_OPERANDS 3

struct operand {
    uint32_t kind;
    uint8_t top; /* of the id: over 2 is foreign */
    struct slice slice;
};

static const struct operand immediate = {.kind = 0}, plain_register = {.kind = 1, .slice = {64, 0}};

static struct operand reg(struct slice slice)
{
    return (struct operand){.kind = 1, .slice = slice};
}

static void put_register(struct bytes *b, uint8_t top, struct slice slice)
{
    put(b, 8, 0x0123456789abcdef);
    put(b, 7, 0x0fedcba9876543);
    put(b, 1, top);
    put(b, 4, (uint32_t)slice.width);
    put(b, 4, (uint32_t)slice.offset);
}

/* An operand of another kind than 0 and 1 has as many bytes as a register. */
static void put_operand(struct bytes *b, struct operand operand)
{
    put(b, 4, operand.kind);
    if (operand.kind == 0)
        put(b, 8, UINT64_MAX), put(b, 4, 0x80000000);
    else
        put_register(b, operand.top, operand.slice);
}

static struct room room;             /* for what is read and written without a book */
static struct bytes made;            /* the instruction that was made last */
static size_t behind[MOST_OPERANDS]; /* where its operands end */

static void make_of(uint32_t op, const struct operand *operands)
{
    const char *name = ref_operations[op].name;
    made.len = 0;
    put_operation(&made, name, strlen(name), ref_operations[op].count);
    for (uint32_t i = 0; i < ref_operations[op].count; i++) {
        put_operand(&made, operands[i]);
        behind[i] = made.len;
    }
    for (uint8_t i = 1; i < TAIL; i++)
        put(&made, 1, i);
    put(&made, 1, 1); /* the flag */
}

/* So many operands: this one in this place, and that one in all others. */
static void make(uint32_t count, uint32_t place, struct operand operand, struct operand other)
{
    struct operand operands[MOST_OPERANDS] = {other, other, other};
    operands[place] = operand;
    make_of(taking[count], operands);
}

/* Each place of one, two and three operands, beside immediates and beside sound registers. */
static void in_each_place(void (*try)(uint32_t count, uint32_t place, struct operand other))
{
    for (uint32_t count = 1; count <= MOST_OPERANDS; count++)
        for (uint32_t place = 0; place < count; place++) {
            try(count, place, immediate);
            try(count, place, plain_register);
        }
}

/* Books ------------------------------------------------------------------------------------------------- */

static void open_blocks(size_t spare, size_t journal_len)
{
    begin_routine(2);
    put_block(&file, VIP, (const uint32_t[]){NOP}, 1, 1);
    put_block(&file, CLOSED, (const uint32_t[]){JMP}, 1, 0);
    open_routine_at(spare, journal_len, (vtil_rates){{1, 1, 1, 1, 1, 1}});
}

static void open_with_room(void)
{
    open_blocks(2 * VTIL_LONGEST_INSTRUCTION, 4 * ENTRY);
}

/* An append of these bytes. A refused one leaves image, journal and book as they were; an accepted one is taken back. */
static void try_bytes(const char *what, uint64_t vip, const struct bytes *bytes, uint64_t refusal)
{
    static uint8_t old_image[BYTES_MAX], old_journal[BYTES_MAX];
    vtil_book book = twin.numbers;
    memcpy(old_image, image.plain, image.len);
    memcpy(old_journal, journal.plain, journal.len);
    append_bytes_due(what, vip, bytes, refusal);
    if (refusal == 0)
        undo_due("taken back", 0);
    hold("the image as it was", image.len, memcmp(image.plain, old_image, image.len), 0);
    hold("the journal as it was", journal.len, memcmp(journal.plain, old_journal, journal.len), 0);
    hold_book(twin.numbers, book);
}

static void try_made(const char *what, uint64_t vip, uint64_t refusal)
{
    try_bytes(what, vip, &made, refusal);
}

/* The first `len` bytes of what was made. */
static void try_cut(const char *what, uint64_t vip, size_t len, uint64_t refusal)
{
    size_t whole = made.len;
    made.len = len;
    try_made(what, vip, refusal);
    made.len = whole;
}

/* What was made, and so many bytes after it. */
static void try_with_leftover(uint64_t vip, size_t leftover, uint64_t refusal)
{
    size_t whole = made.len;
    put_zeros(&made, leftover);
    try_made("bytes after it", vip, refusal);
    made.len = whole;
}

/* Which registers are crooked --------------------------------------------------------------------------- */

static void pairs_in(uint32_t count, uint32_t place, struct operand other)
{
    open_with_room();
    for (int i = 0; i < PAIRS; i++) {
        make(count, place, reg(pair(i)), other);
        try_made("a pair of edges", VIP, due_with(pair(i), 0));
    }
}

static void pairs(void)
{
    begin("widths and offsets of -2^31, -1, 0, 1, 63, 64, 65 and 2^31 - 1: 6 of the 64 pairs are sound");
    in_each_place(pairs_in);
    end();
}

static void every_operation(void)
{
    begin("every operation, with a crooked register in each place and sound ones or immediates beside it");
    open_with_room();
    for (uint32_t op = 0; op < OPERATIONS; op++)
        for (uint32_t place = 0; place < ref_operations[op].count; place++)
            for (int i = 0; i < PAIRS; i++)
                for (uint32_t kind = 0; kind < 2; kind++) {
                    struct operand other = kind == 0 ? immediate : plain_register;
                    struct operand operands[MOST_OPERANDS] = {other, other, other};
                    operands[place] = reg(pair(i));
                    make_of(op, operands);
                    try_made("of that operation", VIP, due_with(pair(i), 0));
                }
    end();
}

static void stairs(void)
{
    begin("every width from -2 to 70 with every offset from -70 to 70: of width 1 the offsets 0 to 63, .. of 64 that of 0");
    open_with_room();
    for (int32_t width = -2; width <= 70; width++)
        for (int32_t offset = -70; offset <= 70; offset++) {
            bool in_stairs = 0 < width && -1 < offset && width + offset < 65;
            make(1, 0, reg((struct slice){width, offset}), immediate);
            try_made("a stair", VIP, in_stairs ? 0 : VTIL_CROOKED_REGISTER);
        }
    end();
}

/* Twice 32 numbers: a power of 2, and one more. Bytes and halves of them are small, and sums of two wrap. */
static int32_t power(int which)
{
    return (int32_t)(((uint32_t)1 << which / 2) + (uint32_t)(which % 2));
}

static void powers(void)
{
    begin("powers of 2, and one more than each, as widths and offsets: the sum does not wrap, and no byte is left out");
    open_with_room();
    for (int i = 0; i < 64; i++)
        for (int j = 0; j < 64; j++) {
            int64_t width = power(i), offset = power(j); /* the last two are negative */
            make(1, 0, reg((struct slice){power(i), power(j)}), immediate);
            try_made("powers", VIP, width > 0 && offset > 0 && width + offset <= 64 ? 0 : VTIL_CROOKED_REGISTER);
        }
    end();
}

/* Flags and id are no part of it. */
static void flags_and_ids(void)
{
    static const uint64_t numbers[] = {0, 1, UINT64_MAX, INT64_MAX, (uint64_t)1 << 63};
    begin("sound and crooked registers with any flags, and ids of each kind");
    open_with_room();
    for (int i = 0; i < PAIRS; i++)
        for (int j = 0; j < 5; j++)
            for (uint64_t top = 0; top < 3; top++) {
                made.len = 0;
                put_operation(&made, "jmp", 3, 1);
                put(&made, 4, 1);
                put(&made, 8, numbers[j]);
                put(&made, 7, numbers[(j + 1) % 5]);
                put(&made, 1, top);
                put(&made, 4, (uint32_t)pair(i).width);
                put(&made, 4, (uint32_t)pair(i).offset);
                put_zeros(&made, TAIL);
                try_made("that register", VIP, due_with(pair(i), 0));
            }
    end();
}

static void immediates(void)
{
    begin("immediates of every width and value, in each place, beside sound registers: they are not asked");
    open_with_room();
    for (int i = 0; i < PAIRS; i++)
        for (uint32_t count = 1; count <= MOST_OPERANDS; count++)
            for (uint32_t place = 0; place < count; place++) {
                made.len = 0;
                const struct ref_operation *operation = &ref_operations[taking[count]];
                put_operation(&made, operation->name, strlen(operation->name), count);
                for (uint32_t at = 0; at < count; at++) {
                    if (at != place) {
                        put_operand(&made, plain_register);
                        continue;
                    }
                    put(&made, 4, 0);
                    put(&made, 4, (uint32_t)pair(i).width);
                    put(&made, 4, (uint32_t)pair(i).offset);
                    put(&made, 4, (uint32_t)pair(i).width);
                }
                put_zeros(&made, TAIL);
                try_made("that immediate", VIP, 0);
            }
    end();
}

/* Before every fault of a later field --------------------------------------------------------------------- */

static void cuts_in(uint32_t count, uint32_t place, struct operand other)
{
    open_with_room();
    for (int i = 0; i < PAIRS; i++) {
        make(count, place, reg(pair(i)), other);
        for (size_t len = 0; len < made.len; len++)
            try_cut("cut there", VIP, len, len < behind[place] ? VTIL_SHORT_FILE : due_with(pair(i), VTIL_SHORT_FILE));
    }
}

static void cuts(void)
{
    begin("cut at every byte: 1 up to the crooked register's end, then 19, right behind its offset too");
    in_each_place(cuts_in);
    end();
}

/* In the place after it; those that follow are sound. */
static void try_later(uint32_t count, uint32_t place, struct slice slice, struct operand other, struct operand later,
                      uint64_t refusal)
{
    struct operand operands[MOST_OPERANDS] = {other, other, other};
    operands[place] = reg(slice);
    for (uint32_t at = place + 1; at < count; at++) {
        operands[at] = later;
        make_of(taking[count], operands);
        try_made("a later operand", VIP, due_with(slice, refusal));
        operands[at] = other;
    }
}

static void later_in(uint32_t count, uint32_t place, struct operand other)
{
    static const uint32_t kinds[] = {2, 256, 0x10001, 0x80000000, UINT32_MAX};
    open_with_room();
    for (int i = 0; i < PAIRS; i++) {
        for (int j = 0; j < 5; j++)
            try_later(count, place, pair(i), other, (struct operand){.kind = kinds[j], .slice = {64, 0}},
                      VTIL_UNKNOWN_OPERAND_KIND);
        for (int top = 3; top < 256; top += 84)
            try_later(count, place, pair(i), other, (struct operand){1, (uint8_t)top, {64, 0}}, VTIL_FOREIGN_REGISTER);
        try_later(count, place, pair(i), other, reg((struct slice){0, 0}), VTIL_CROOKED_REGISTER);
    }
}

static void later_operands(void)
{
    begin("a later operand of an unknown kind, foreign, or crooked too: 19 comes first");
    in_each_place(later_in);
    end();
}

/* What else is wrong with an append of what was made, and what it is refused where no register is crooked. */
static const struct condition {
    uint64_t vip;
    size_t image_lacks, journal_lacks;
    bool full_sum;
    uint64_t refusal;
} conditions[] = {
    {VIP, 0, 0, false, 0},
    {ABSENT, 0, 0, false, VTIL_NO_SUCH_BLOCK},
    {CLOSED, 0, 0, false, VTIL_CLOSED_BLOCK},
    {VIP, 1, 0, false, VTIL_IMAGE_FULL},
    {VIP, 0, 1, false, VTIL_JOURNAL_FULL},
    {VIP, 0, ENTRY, false, VTIL_JOURNAL_FULL},
    {VIP, 0, 0, true, VTIL_SPOILED_BOOK},
    {VIP, 1, 1, true, VTIL_IMAGE_FULL},
    {CLOSED, 1, 1, true, VTIL_CLOSED_BLOCK},
    {ABSENT, 1, 1, true, VTIL_NO_SUCH_BLOCK},
};

/* A book in which what was made meets the condition. */
static void open_to_meet(const struct condition *condition)
{
    open_blocks(made.len - condition->image_lacks, ENTRY - condition->journal_lacks);
    if (condition->full_sum)
        twin.numbers.sum = UINT64_MAX;
}

static void conditions_in(uint32_t count, uint32_t place, struct operand other)
{
    for (size_t i = 0; i < sizeof conditions / sizeof conditions[0]; i++) {
        make(count, place, plain_register, other);
        open_to_meet(&conditions[i]);
        for (int j = 0; j < PAIRS; j++) {
            make(count, place, reg(pair(j)), other);
            try_made("under that condition", conditions[i].vip, due_with(pair(j), conditions[i].refusal));
            try_with_leftover(conditions[i].vip, 1, due_with(pair(j), VTIL_LEFTOVER));
            try_cut("cut behind it", conditions[i].vip, behind[place], due_with(pair(j), VTIL_SHORT_FILE));
        }
    }
}

static void other_reasons(void)
{
    begin("no such block, a closed block, a full image, a full journal, a full sum, and leftovers: 19 comes first");
    in_each_place(conditions_in);
    end();
}

/* Where much follows, an instruction may be read in another way. */
static void leftovers(void)
{
    begin("1 to 300 bytes after the instruction: 19 where a register is crooked, 17 where none is");
    open_with_room();
    for (uint32_t count = 1; count <= MOST_OPERANDS; count++)
        for (uint32_t place = 0; place < count; place++)
            for (size_t leftover = 1; leftover <= 300; leftover++) {
                make(count, place, reg((struct slice){1, 64}), plain_register);
                try_with_leftover(VIP, leftover, VTIL_CROOKED_REGISTER);
                make(count, place, reg((struct slice){1, 63}), plain_register);
                try_with_leftover(VIP, leftover, VTIL_LEFTOVER);
            }
    end();
}

/* After every fault of an earlier field --------------------------------------------------------------------- */

static void earlier_in(uint32_t count, uint32_t place, struct operand other)
{
    open_with_room();
    for (int i = 0; i < PAIRS; i++) {
        struct operand operands[MOST_OPERANDS] = {other, other, other};
        operands[place] = (struct operand){.kind = 1, .top = 3, .slice = pair(i)};
        make_of(taking[count], operands);
        try_made("foreign itself", VIP, VTIL_FOREIGN_REGISTER);
        for (size_t len = behind[place] - 8; len < made.len; len++)
            try_cut("foreign itself, cut behind its id", VIP, len, VTIL_FOREIGN_REGISTER);
        operands[place] = (struct operand){.kind = 2, .slice = pair(i)};
        make_of(taking[count], operands);
        try_made("of an unknown kind itself", VIP, VTIL_UNKNOWN_OPERAND_KIND);
        operands[place] = reg(pair(i));
        for (uint32_t at = 0; at < place; at++) {
            operands[at] = (struct operand){.kind = 2, .slice = {64, 0}};
            make_of(taking[count], operands);
            try_made("an earlier unknown kind", VIP, VTIL_UNKNOWN_OPERAND_KIND);
            operands[at] = (struct operand){.kind = 1, .top = 255, .slice = {64, 0}};
            make_of(taking[count], operands);
            try_made("an earlier foreign register", VIP, VTIL_FOREIGN_REGISTER);
            operands[at] = other;
        }
    }
}

static void earlier_operands(void)
{
    begin("a crooked register that is foreign, and earlier operands that are or have an unknown kind: 5 and 6 come first");
    in_each_place(earlier_in);
    end();
}

/* With this name and this count, and crooked registers. */
static void try_named(const char *name, size_t len, uint32_t count, uint64_t refusal)
{
    made.len = 0;
    put_operation(&made, name, len, count);
    for (int i = 0; i < MOST_OPERANDS; i++)
        put_operand(&made, reg((struct slice){0, 0}));
    put_zeros(&made, TAIL);
    try_made(name, VIP, refusal);
    try_made(name, ABSENT, refusal);
}

static void names_and_counts(void)
{
    begin("names and counts that are refused, before crooked registers: 2, 7 and 8 come first");
    open_with_room();
    try_named("\xff", 1, 3, VTIL_NAME_NOT_TEXT);
    try_named("zzz", 3, 3, VTIL_UNKNOWN_OPERATION);
    try_named("", 0, 3, VTIL_UNKNOWN_OPERATION);
    try_named("te", 2, 2, VTIL_WRONG_OPERAND_COUNT);
    try_named("nop", 3, 3, VTIL_WRONG_OPERAND_COUNT);
    try_named("te", 2, 3, VTIL_CROOKED_REGISTER);
    end();
}

static void books(void)
{
    begin("spoiled books and lendings over the limit: 13 and 10 come first");
    for (int i = 0; i < PAIRS; i++) {
        open_with_room();
        make(1, 0, reg(pair(i)), immediate);
        twin.image[4] = 3; /* the machine */
        copy_twin();
        try_made("a spoiled image", VIP, VTIL_SPOILED_BOOK);
        for (int which = 0; which < 2; which++) {
            size_t too_long = VTIL_MOST_LENT + 1;
            vtil_answer got = vtil_append(twin.numbers, no_access(&room), which == 0 ? too_long : 0, no_access(&room),
                                          which == 0 ? 0 : too_long, VIP, made.at, made.len);
            next_case();
            hold("too long", 0, (int64_t)got.refusal, VTIL_LENDING_TOO_LARGE);
            hold_book(got.book, twin.numbers);
        }
    }
    end();
}

/* Nothing else asks ------------------------------------------------------------------------------------------ */

static void hold_slice(const char *what, const vtil_instruction_desc *value, uint32_t place, struct slice slice)
{
    hold(what, place, value->operands[place].kind, 1);
    hold(what, place, value->operands[place].register_desc.bit_count, slice.width);
    hold(what, place, value->operands[place].register_desc.bit_offset, slice.offset);
}

/* A routine whose only instruction was made. */
static void make_file_of_it(void)
{
    begin_routine(1);
    put_block_front(&file, VIP, 1);
    put_bytes(&file, made.at, made.len);
    put_zeros(&file, 8);
}

static struct lent lend_bytes(const struct bytes *bytes)
{
    struct lent lent = lend(&room, bytes->len, below(2) == 0);
    memcpy(lent.plain, bytes->at, bytes->len);
    return lent;
}

static void hold_readings(uint32_t place, struct slice slice)
{
    struct lent from = lend_bytes(&file);
    size_t at = file.len - 8 - made.len;
    next_case();
    hold("checked", place, vtil_check(from.readable, from.len), (int64_t)file.len);
    hold("the routine read", place, (int64_t)vtil_read_routine(from.readable, from.len).end, (int64_t)file.len);
    hold("the block read", place, (int64_t)vtil_read_block(from.readable, from.len, at - BLOCK_FRONT).end, (int64_t)file.len);
    vtil_instruction_read read = vtil_read_instruction(from.readable, from.len, at);
    hold_instruction_read(place, read, ref_read_instruction(file.at, file.len, at));
    hold("read", place, (int64_t)read.refusal, 0);
    hold_slice("read", &read.instruction, place, slice);
    vtil_register_read own = vtil_read_register(from.readable, from.len, at + behind[place] - 24);
    hold("the register read", place, (int64_t)own.refusal, 0);
    hold("its width", place, own.register_desc.bit_count, slice.width);
    hold("its offset", place, own.register_desc.bit_offset, slice.offset);
}

static void hold_looks(uint32_t place, struct slice slice)
{
    look_once(twin.numbers);
    vtil_instruction_look look =
        vtil_instruction(twin.numbers, image.readable, image.len, journal.readable, journal.len, 0, 0);
    hold("looked at", place, (int64_t)look.refusal, 0);
    hold_slice("looked at", &look.instruction, place, slice);
    hold("charged", place, (int64_t)charge_both(twin.numbers, any_rates()).refusal, 0);
}

/* What is written of a value is what was made by hand, by the reference too. */
static void hold_writer(uint32_t place, struct slice slice)
{
    uint8_t bytes[VTIL_LONGEST_INSTRUCTION];
    struct lent to = lend(&room, made.len, below(2) == 0);
    vtil_instruction_desc value = ref_read_instruction(made.at, made.len, 0).instruction;
    vtil_written got = vtil_write_instruction(value, to.writable, to.len);
    vtil_written want = ref_write_instruction(&value, bytes, sizeof bytes);
    next_case();
    hold_slice("the value", &value, place, slice);
    hold("the writer", place, (int64_t)got.refusal, 0);
    hold("its size", place, (int64_t)got.size, (int64_t)made.len);
    hold("it wrote what was made", place, memcmp(to.plain, made.at, made.len), 0);
    hold("the reference's writer", place, (int64_t)want.size, (int64_t)made.len);
    hold("the reference wrote what was made", place, memcmp(bytes, made.at, made.len), 0);
}

static void file_in(uint32_t count, uint32_t place, struct operand other)
{
    for (int i = 0; i < PAIRS; i++) {
        make(count, place, reg(pair(i)), other);
        hold_writer(place, pair(i));
        make_file_of_it();
        hold_readings(place, pair(i));
        open_routine(VTIL_LONGEST_INSTRUCTION, 400);
        hold("the file's bytes", file.len, memcmp(image.plain, file.at, file.len), 0);
        hold_looks(place, pair(i));
        try_made("the same appended", VIP, due_with(pair(i), 0));
        append_due("a nop behind it", VIP, NOP, 0);
        edit_due("removed", VTIL_REMOVE, VIP, 0);
        undo_due("restored", 0);
        undo_due("without the nop", 0);
        hold("the file's bytes again", file.len, memcmp(image.plain, file.at, file.len), 0);
        hold_looks(place, pair(i));
        undo_due("nothing is left to take back", VTIL_NOTHING_TO_TAKE_BACK);
    }
}

static void files(void)
{
    begin("files with crooked registers: checked, read, opened, looked at, charged, removed and restored; and the writer");
    seed(51);
    in_each_place(file_in);
    end();
}

/* Three lists of one register, and the frame. */
static void put_convention(struct slice slice)
{
    for (int list = 0; list < 3; list++) {
        put(&file, 4, 1);
        put_register(&file, 0, slice);
    }
    put_register(&file, 0, slice);
    put_zeros(&file, 9);
}

static void conventions(void)
{
    begin("conventions with crooked registers, and appends to their routine");
    seed(52);
    for (int i = 0; i < PAIRS; i++) {
        file.len = 0;
        put_front(&file);
        file.len = 16; /* of it only the header and the entry vip */
        put_convention(pair(i));
        put_convention(pair(i));
        put(&file, 4, 0);
        put(&file, 4, 1);
        put_block(&file, VIP, NULL, 0, 0);
        next_case();
        hold("checked", file.len, vtil_check(lend_bytes(&file).readable, file.len), (int64_t)file.len);
        open_routine(VTIL_LONGEST_INSTRUCTION, 400);
        look_once(twin.numbers);
        make(2, 1, plain_register, plain_register);
        try_made("sound registers", VIP, 0);
        make(2, 1, reg((struct slice){0, 0}), plain_register);
        try_made("a crooked one", VIP, VTIL_CROOKED_REGISTER);
    }
    end();
}

/* No list of calls leads to an appended crooked register, but undo does not ask. */
static void journal_in(uint32_t count, uint32_t place, struct operand other)
{
    static struct bytes block;
    for (int i = 0; i < PAIRS; i++) {
        make(count, place, reg(pair(i)), other);
        make_file_of_it();
        open_routine(0, 400);
        use_entry(NULL, VIP, 0, (uint32_t)made.len, 3);
        undo_due("an append of it", 0);
        hold("the instruction is gone", file.len, (int64_t)twin.numbers.written, (int64_t)(file.len - made.len));

        block.len = 0;
        put_bytes(&block, file.at + file.len - 8 - made.len - BLOCK_FRONT, BLOCK_FRONT + made.len + 8);
        size_t whole = file.len;
        begin_routine(0);
        open_routine(whole - file.len, 400);
        use_entry(&block, VIP, 0, (uint32_t)block.len, 2);
        undo_due("a removal of its block", 0);
        hold("the block is back", whole, (int64_t)twin.numbers.written, (int64_t)whole);
        hold("as it was", whole, memcmp(image.plain + file.len, block.at, block.len), 0);
    }
}

static void journals_by_hand(void)
{
    begin("journals made by hand: undo takes back an append of a crooked register, and restores blocks that have some");
    in_each_place(journal_in);
    end();
}

/* Lists of calls ------------------------------------------------------------------------------------------------ */

#define IN_FILE 7 /* the vip of a block of the file, which has the crooked register */

enum appended { NOTHING, CROOKED, ITS_SOUND, CROOKED_JMP, SOUND_JMP, CUT, KINDS };

static const struct {
    enum vtil_call kind;
    uint64_t vip;
    enum appended appended;
    uint64_t refusal;
} steps[] = {
    {VTIL_CREATE, 5, NOTHING, 0},      {VTIL_APPEND, 5, CROOKED, 19},       {VTIL_APPEND, 5, ITS_SOUND, 0},
    {VTIL_APPEND, 5, CROOKED, 19},     {VTIL_UNDO, 0, NOTHING, 0},          {VTIL_APPEND, 5, CUT, 19},
    {VTIL_APPEND, 6, CROOKED, 19},     {VTIL_APPEND, 6, ITS_SOUND, 15},     {VTIL_APPEND, 5, CROOKED_JMP, 19},
    {VTIL_APPEND, 5, ITS_SOUND, 0},    {VTIL_APPEND, 5, SOUND_JMP, 0},      {VTIL_APPEND, 5, ITS_SOUND, 18},
    {VTIL_APPEND, 5, CROOKED, 19},     {VTIL_REMOVE, IN_FILE, NOTHING, 0},  {VTIL_APPEND, IN_FILE, CROOKED, 19},
    {VTIL_UNDO, 0, NOTHING, 0},        {VTIL_APPEND, IN_FILE, CROOKED, 19}, {VTIL_APPEND, IN_FILE, ITS_SOUND, 0},
    {VTIL_REMOVE, IN_FILE, NOTHING, 0}, {VTIL_UNDO, 0, NOTHING, 0},         {VTIL_UNDO, 0, NOTHING, 0},
    {VTIL_UNDO, 0, NOTHING, 0},        {VTIL_APPEND, 5, CROOKED_JMP, 19},   {VTIL_APPEND, 5, SOUND_JMP, 0},
};
#define STEPS (sizeof steps / sizeof steps[0])

/* A crooked register, and one of the six sound ones in its place. */
static void make_steps(struct ref_call *calls, uint32_t count, uint32_t place, struct slice crooked, struct slice straight)
{
    static struct bytes bytes[KINDS];
    make(count, place, reg(straight), plain_register);
    bytes[ITS_SOUND] = made;
    make(count, place, reg(crooked), plain_register);
    bytes[CROOKED] = bytes[CUT] = made;
    bytes[CUT].len = behind[place];
    make_of(JMP, &(struct operand){.kind = 1, .slice = crooked});
    bytes[CROOKED_JMP] = made;
    make_of(JMP, &(struct operand){.kind = 1, .slice = straight});
    bytes[SOUND_JMP] = made;
    for (size_t i = 0; i < STEPS; i++) {
        calls[i] = call_of(steps[i].kind, steps[i].vip);
        if (steps[i].kind != VTIL_APPEND)
            continue;
        calls[i].bytes = bytes[steps[i].appended].at;
        calls[i].len = bytes[steps[i].appended].len;
    }
    made = bytes[CROOKED];
}

/* What is due of a list of the first `count` steps. */
static int64_t last_due(size_t count)
{
    return count == 0 ? 0 : (int64_t)steps[count - 1].refusal;
}

static void steps_of_machine(const struct ref_call *calls)
{
    struct ref_machine *machine = ref_machine_start(file.at, file.len, image.len, journal.len, any_rates());
    for (size_t i = 0; i < STEPS; i++)
        hold("the machine's step", i, (int64_t)ref_machine_step(machine, &calls[i]).refusal, (int64_t)steps[i].refusal);
    ref_machine_free(machine);
}

static void list_of(uint32_t count, uint32_t place, struct slice crooked, struct slice straight)
{
    struct ref_call calls[STEPS];
    make_steps(calls, count, place, crooked, straight);
    begin_routine(1);
    put_block_front(&file, IN_FILE, 1);
    put_bytes(&file, made.at, made.len);
    put_zeros(&file, 8);
    open_routine(500, 700);
    for (size_t i = 0; i < STEPS; i++)
        due("one by one", &calls[i], steps[i].refusal);
    for (size_t parted = 0; parted <= STEPS; parted++) {
        hold("by vtil_run", parted, (int64_t)run_list(&file, calls, parted, any_rates()).last, last_due(parted));
        hold("the rest by vtil_run_on", parted, (int64_t)run_list_on(calls + parted, STEPS - parted).last,
             parted == STEPS ? 0 : last_due(STEPS));
    }
    steps_of_machine(calls);
}

static void lists(void)
{
    begin("a list of calls that meets crooked registers: one by one, by vtil_run, by vtil_run_on, and by the machine");
    seed(53);
    for (int i = 0; i < PAIRS; i++)
        for (uint32_t count = 1; count <= MOST_OPERANDS; count++)
            if (!is_sound(pair(i)))
                list_of(count, (uint32_t)i % count, pair(i), sound[i % SOUND]);
    end();
}

int main(void)
{
    set_up_groups("guard_crooked");
    set_up_book_pair();
    set_up_calls();
    room = make_room(BYTES_MAX);

    pairs();
    every_operation();
    stairs();
    powers();
    flags_and_ids();
    immediates();
    cuts();
    later_operands();
    other_reasons();
    leftovers();
    earlier_operands();
    names_and_counts();
    books();
    files();
    conventions();
    journals_by_hand();
    lists();
    return finish();
}
