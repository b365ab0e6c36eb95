/*
 * The loop of include/vtil.h over all instructions of a file. All of their operands are read: what stands in the used
 * ones is added up.
 */
#include "vtil.h"

uint64_t bench_operand_sum(const uint8_t *file, size_t file_len, uint64_t *sum);

static uint64_t in_operand(const vtil_operand_desc *operand)
{
    if (operand->kind == 0)
        return operand->immediate.value + operand->immediate.bit_count;
    const vtil_register_desc *read = &operand->register_desc;
    return read->flags + read->combined_id + (uint64_t)read->bit_count + (uint64_t)read->bit_offset;
}

static uint64_t in_instruction(const vtil_instruction_desc *instruction)
{
    uint64_t sum = 0;
    for (uint32_t i = 0; i < instruction->count; i++)
        sum += in_operand(&instruction->operands[i]);
    return sum;
}

/* Answers the refusal, or 0 with the sum. */
uint64_t bench_operand_sum(const uint8_t *file, size_t file_len, uint64_t *sum)
{
    vtil_routine_read routine = vtil_read_routine(file, file_len);
    if (routine.refusal != 0)
        return routine.refusal;
    *sum = 0;
    uint64_t block_at = routine.blocks_at;
    for (uint64_t i = 0; i < routine.blocks; i++) {
        vtil_block_read block = vtil_read_block(file, file_len, block_at);
        uint64_t at = block.instructions_at;
        for (uint64_t j = 0; j < block.instructions; j++) {
            vtil_instruction_read read = vtil_read_instruction(file, file_len, at);
            *sum += in_instruction(&read.instruction);
            at = read.end;
        }
        block_at = block.end;
    }
    return 0;
}
