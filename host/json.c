/*
 * A routine as JSON for programs. Many readers of JSON keep 53 bits of a number, so
 * numbers of 64 bits are strings: hexadecimal, and decimal where they have a sign.
 */
#include <inttypes.h>
#include <stdio.h>

#include "operations.h"
#include "printer.h"

static void routine(const vtil_routine_read *read)
{
    printf("{\"machine\": %" PRIu64 ", \"machine_name\": \"%s\", \"entry_vip\": \"0x%" PRIx64 "\", \"written\": %" PRIu64
           ",\n\"conventions\": [",
           read->arch_id, machine_name(read->arch_id), read->vip, read->end);
}

static void print_register_fields(const vtil_register_desc *reg)
{
    printf("\"flags\": \"0x%" PRIx64 "\", \"id\": \"0x%" PRIx64 "\", \"bit_count\": %" PRId32 ", \"bit_offset\": %" PRId32,
           reg->flags, reg->combined_id, reg->bit_count, reg->bit_offset);
}

static const char *comma(uint64_t place)
{
    return place == 0 ? "" : ",";
}

static void convention(uint64_t place, const vtil_convention_read *read)
{
    printf("%s\n{\"frame_register\": {", comma(place));
    print_register_fields(&read->frame_register);
    printf("}, \"shadow_space\": \"0x%" PRIx64 "\", \"purge_stack\": %s", read->shadow_space,
           read->purge_stack != 0 ? "true" : "false");
}

static void close_object(void)
{
    printf("}");
}

static void blocks(void)
{
    printf("],\n\"blocks\": [");
}

static void block(uint64_t place, const vtil_block_read *read)
{
    printf("%s\n{\"vip\": \"0x%" PRIx64 "\", \"sp_offset\": \"%" PRId64 "\", \"sp_index\": %" PRIu32
           ", \"last_temporary_index\": %" PRIu32,
           comma(place), read->vip, read->sp_offset, read->sp_index, read->last_temporary_index);
}

static const char *const list_names[] = {
    [VOLATILE] = "volatile_registers", [PARAM] = "param_registers", [RETVAL] = "retval_registers",
    [INSTRUCTIONS] = "instructions",   [PREV] = "prev_vips",        [NEXT] = "next_vips",
};

static void list(enum list list, uint64_t count)
{
    (void)count;
    printf(",\n  \"%s\": [", list_names[list]);
}

static void list_end(enum list list)
{
    (void)list;
    printf("]");
}

static void reg(uint64_t place, const vtil_register_desc *desc)
{
    printf("%s{", place == 0 ? "" : ", ");
    print_register_fields(desc);
    printf("}");
}

static void print_operand(const vtil_operand_desc *operand)
{
    if (operand->kind == 1) {
        printf("{\"kind\": \"register\", ");
        print_register_fields(&operand->register_desc);
    } else {
        printf("{\"kind\": \"immediate\", \"value\": \"0x%" PRIx64 "\", \"bit_count\": %" PRIu32, operand->immediate.value,
               operand->immediate.bit_count);
    }
    printf("}");
}

static void instruction(uint64_t place, const vtil_instruction_desc *desc)
{
    printf("%s\n  {\"op\": %" PRIu32 ", \"name\": \"%s\", \"operands\": [", comma(place), desc->op, operation_name(desc->op));
    for (uint32_t i = 0; i < desc->count; i++) {
        printf(i == 0 ? "" : ", ");
        print_operand(&desc->operands[i]);
    }
    printf("], \"vip\": \"0x%" PRIx64 "\", \"sp_offset\": \"%" PRId64 "\", \"sp_index\": %" PRIu32 ", \"sp_reset\": %s}",
           desc->vip, desc->sp_offset, desc->sp_index, desc->sp_reset != 0 ? "true" : "false");
}

static void vip(uint64_t place, uint64_t address)
{
    printf("%s\"0x%" PRIx64 "\"", place == 0 ? "" : ", ", address);
}

static void end(void)
{
    printf("]}\n");
}

const struct printer json_printer = {
    .routine = routine,
    .convention = convention,
    .convention_end = close_object,
    .blocks = blocks,
    .block = block,
    .block_end = close_object,
    .list = list,
    .list_end = list_end,
    .reg = reg,
    .instruction = instruction,
    .vip = vip,
    .end = end,
};
