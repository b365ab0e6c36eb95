#include "values.h"

#include "group.h"

void hold_register(size_t about, const vtil_register_desc *got, const vtil_register_desc *want)
{
    hold("register flags", about, (int64_t)got->flags, (int64_t)want->flags);
    hold("register id", about, (int64_t)got->combined_id, (int64_t)want->combined_id);
    hold("register width", about, got->bit_count, want->bit_count);
    hold("register offset", about, got->bit_offset, want->bit_offset);
}

static void hold_operand(size_t about, const vtil_operand_desc *got, const vtil_operand_desc *want)
{
    hold("operand kind", about, (int64_t)got->kind, (int64_t)want->kind);
    hold("immediate", about, (int64_t)got->immediate.value, (int64_t)want->immediate.value);
    hold("immediate width", about, (int64_t)got->immediate.bit_count, (int64_t)want->immediate.bit_count);
    hold_register(about, &got->register_desc, &want->register_desc);
}

void hold_instruction(size_t about, const vtil_instruction_desc *got, const vtil_instruction_desc *want)
{
    hold("operation", about, (int64_t)got->op, (int64_t)want->op);
    hold("operand count", about, (int64_t)got->count, (int64_t)want->count);
    for (int i = 0; i < 3; i++)
        hold_operand(about, &got->operands[i], &want->operands[i]);
    hold("instruction vip", about, (int64_t)got->vip, (int64_t)want->vip);
    hold("instruction sp offset", about, got->sp_offset, want->sp_offset);
    hold("instruction sp index", about, (int64_t)got->sp_index, (int64_t)want->sp_index);
    hold("sp reset", about, (int64_t)got->sp_reset, (int64_t)want->sp_reset);
}

void hold_instruction_read(size_t about, vtil_instruction_read got, vtil_instruction_read want)
{
    hold("instruction", about, (int64_t)got.refusal, (int64_t)want.refusal);
    hold("instruction's end", about, (int64_t)got.end, (int64_t)want.end);
    hold_instruction(about, &got.instruction, &want.instruction);
}
