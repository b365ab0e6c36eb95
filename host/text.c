/* A routine as text for people. */
#include <inttypes.h>
#include <stdio.h>

#include "operations.h"
#include "printer.h"
#include "words.h"

static void routine(const vtil_routine_read *read)
{
    printf("routine: machine %" PRIu64 " (%s), entry vip 0x%" PRIx64 ", %" PRIu64 " conventions, %" PRIu64
           " block%s, %" PRIu64 " bytes written\n",
           read->arch_id, machine_name(read->arch_id), read->vip, 2 + read->spec_conventions, read->blocks,
           plural(read->blocks), read->end);
}

static void print_register(const vtil_register_desc *reg)
{
    printf("register 0x%" PRIx64 " flags 0x%" PRIx64 " bits %" PRId32 " at %" PRId32, reg->combined_id, reg->flags,
           reg->bit_count, reg->bit_offset);
}

static const char *whose(uint64_t place)
{
    if (place == 0)
        return "the routine's";
    return place == 1 ? "the subroutine's" : "special";
}

static void convention(uint64_t place, const vtil_convention_read *read)
{
    printf("convention %" PRIu64 " (%s): shadow space %" PRIu64 ", purge stack %s\n  frame: ", place, whose(place),
           read->shadow_space, read->purge_stack != 0 ? "yes" : "no");
    print_register(&read->frame_register);
    printf("\n");
}

static void block(uint64_t place, const vtil_block_read *read)
{
    printf("block %" PRIu64 ": vip 0x%" PRIx64 ", sp offset %" PRId64 ", sp index %" PRIu32 ", last temporary %" PRIu32 "\n",
           place, read->vip, read->sp_offset, read->sp_index, read->last_temporary_index);
}

static const char *const list_names[] = {
    [VOLATILE] = "volatile", [PARAM] = "param", [RETVAL] = "retval",
    [INSTRUCTIONS] = "instructions", [PREV] = "prev", [NEXT] = "next",
};

/* Vips stand in the list's line; other things have a line each. */
static void list(enum list list, uint64_t count)
{
    printf("  %s:%s", list_names[list], count == 0 ? " none" : "");
    if (list != PREV && list != NEXT)
        printf("\n");
}

static void list_end(enum list list)
{
    if (list == PREV || list == NEXT)
        printf("\n");
}

static void reg(uint64_t place, const vtil_register_desc *desc)
{
    printf("    %" PRIu64 ": ", place);
    print_register(desc);
    printf("\n");
}

static void print_operand(const vtil_operand_desc *operand)
{
    if (operand->kind == 1)
        print_register(&operand->register_desc);
    else
        printf("immediate 0x%" PRIx64 " bits %" PRIu32, operand->immediate.value, operand->immediate.bit_count);
}

static void instruction(uint64_t place, const vtil_instruction_desc *desc)
{
    printf("    %" PRIu64 ": %s", place, operation_name(desc->op));
    for (uint32_t i = 0; i < desc->count; i++) {
        printf(i == 0 ? " " : ", ");
        print_operand(&desc->operands[i]);
    }
    printf("; vip 0x%" PRIx64 ", sp offset %" PRId64 ", sp index %" PRIu32 "%s\n", desc->vip, desc->sp_offset,
           desc->sp_index, desc->sp_reset != 0 ? ", sp reset" : "");
}

static void vip(uint64_t place, uint64_t address)
{
    (void)place;
    printf(" 0x%" PRIx64, address);
}

static void nothing(void)
{
}

static void end(void)
{
    printf("end\n");
}

const struct printer text_printer = {
    .routine = routine,
    .convention = convention,
    .convention_end = nothing,
    .blocks = nothing,
    .block = block,
    .block_end = nothing,
    .list = list,
    .list_end = list_end,
    .reg = reg,
    .instruction = instruction,
    .vip = vip,
    .end = end,
};
