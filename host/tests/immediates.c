#include "immediates.h"

#include <string.h>

#include "book_pair.h"
#include "by_hand.h"
#include "group.h"
#include "reference.h"
#include "vtil.h"

size_t values_at[MOST_VALUES];
size_t value_count;
unsigned next_turn;

static void note_value(size_t at)
{
    if (value_count == MOST_VALUES)
        stop_because("values", "too many for these tests");
    values_at[value_count++] = at;
}

/* Routines by hand ------------------------------------------------------------------------------------------- */

void set_value(size_t which, uint64_t value)
{
    for (size_t i = 0; i < 8; i++)
        file.at[values_at[which] + i] = (uint8_t)(value >> (8 * i));
}

void begin_with_values(uint32_t blocks)
{
    value_count = 0;
    begin_routine(blocks);
}

void put_immediate(uint64_t value, uint32_t width)
{
    put(&file, 4, 0);
    note_value(file.len);
    put(&file, 8, value);
    put(&file, 4, width);
}

void put_next_immediate(void)
{
    static const uint64_t values[] = {0, 1, 1ull << 63, UINT64_MAX};
    static const uint32_t widths[] = {0, 1, 64, 65, UINT32_MAX};
    unsigned turn = next_turn++ % TURNS;
    put_immediate(turn % 5 < 4 ? values[turn % 5] : below(UINT64_MAX), widths[turn / 5]);
}

/* Its bytes are 1 to 24, but for the highest of the id, which may not be over 2. */
static void put_register(void)
{
    put(&file, 4, 1);
    for (uint8_t i = 1; i <= 24; i++)
        put(&file, 1, i == 16 ? 2 : i);
}

void put_with_immediates(uint32_t op, unsigned registers, void (*put_value)(void))
{
    const struct ref_operation *operation = &ref_operations[op];
    put_operation(&file, operation->name, strlen(operation->name), operation->count);
    for (uint32_t i = 0; i < operation->count; i++)
        if (registers >> i & 1)
            put_register();
        else
            put_value();
    for (uint8_t i = 1; i <= 20; i++)
        put(&file, 1, i);
    put(&file, 1, 1); /* the flag */
}

void in_every_mix(void (*try)(uint32_t op, unsigned registers))
{
    for (uint32_t op = 0; op < OPERATIONS; op++)
        for (unsigned registers = 0; registers < 1u << ref_operations[op].count; registers++)
            try(op, registers);
}

void make_between(uint32_t op, unsigned registers)
{
    begin_with_values(3);
    put_block(&file, VIP, NULL, 0, 1);
    put_block_front(&file, VIP + 1, 3);
    put_with_immediates(MOV, 1, put_next_immediate);
    put_with_immediates(op, registers, put_next_immediate);
    put_with_immediates(MOV, 2, put_next_immediate);
    put_zeros(&file, 8);
    put_block_front(&file, VIP + 2, 1);
    put_with_immediates(MOV, 0, put_next_immediate);
    put_zeros(&file, 8);
}

void make_last(uint32_t op, unsigned registers)
{
    begin_with_values(1);
    put_block_front(&file, VIP, 2);
    put_with_immediates(MOV, 1, put_next_immediate);
    put_with_immediates(op, registers, put_next_immediate);
    put_zeros(&file, 8);
}

void make_blocks(uint32_t blocks, uint32_t empty)
{
    begin_with_values(blocks);
    for (uint32_t i = 0; i < blocks; i++) {
        bool filled = i % empty != 0;
        put_block_front(&file, VIP + i, filled);
        if (filled)
            put_with_immediates(MOV, 1, put_next_immediate);
        put_zeros(&file, 8);
    }
}

/* Values that are found by reading ------------------------------------------------------------------------------ */

/* Answers where the instruction ends. */
static uint64_t find_values_of(uint64_t at)
{
    vtil_instruction_read read = ref_read_instruction(file.at, file.len, at);
    size_t operand = (size_t)at + 4 + strlen(ref_operations[read.instruction.op].name) + 4;
    for (uint32_t i = 0; i < read.instruction.count; i++) {
        bool immediate = read.instruction.operands[i].kind == 0;
        if (immediate)
            note_value(operand + 4);
        operand += immediate ? 16 : 28;
    }
    return read.end;
}

static void find_values(void)
{
    vtil_routine_read routine = ref_read_routine(file.at, file.len);
    uint64_t block_at = routine.blocks_at;
    value_count = 0;
    for (uint64_t i = 0; i < routine.blocks; i++) {
        vtil_block_read block = ref_read_block(file.at, file.len, block_at);
        uint64_t at = block.instructions_at;
        for (uint64_t j = 0; j < block.instructions; j++)
            at = find_values_of(at);
        block_at = block.end;
    }
}

void take_written_form(void)
{
    file.len = 0;
    put_bytes(&file, twin.image, (size_t)twin.numbers.written);
    find_values();
}

/* Copies that are due ---------------------------------------------------------------------------------------- */

bool all_zero(const uint8_t *bytes, size_t len)
{
    size_t at = 0;
    while (at < len && bytes[at] == 0)
        at++;
    return at == len;
}

/* Whether what stands there is `file` with its values 0. */
static bool is_blanked(const uint8_t *bytes)
{
    static struct bytes blanked;
    blanked.len = 0;
    put_bytes(&blanked, file.at, file.len);
    for (size_t i = 0; i < value_count; i++)
        memset(blanked.at + values_at[i], 0, 8);
    return memcmp(bytes, blanked.at, blanked.len) == 0;
}

void copy_due(const char *what, size_t spare)
{
    vtil_written answer = copy_both(twin.numbers, file.len + spare);
    hold(what, spare, (int64_t)answer.refusal, 0);
    hold(what, spare, (int64_t)answer.size, (int64_t)file.len);
    if (answer.refusal != 0)
        return;
    hold(what, spare, is_blanked(second.plain), 1);
    hold("the rest is 0", spare, all_zero(second.plain + file.len, spare), 1);
}

void copy_refused(const char *what, size_t copy_len, uint64_t refusal)
{
    vtil_written answer = copy_both(twin.numbers, copy_len);
    hold(what, copy_len, (int64_t)answer.refusal, (int64_t)refusal);
    hold(what, copy_len, (int64_t)answer.size, 0);
}
