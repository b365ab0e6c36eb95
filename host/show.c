/* routine show FILE: reads every part of the routine, one after the other, and hands it to a printer. */
#include "commands.h"

#include <stdio.h>

#include "book.h"
#include "printed.h"
#include "printer.h"

const char *machine_name(uint64_t arch_id)
{
    static const char *const names[] = {"Amd64", "Arm64", "Virtual"};
    return arch_id < 3 ? names[arch_id] : "not a machine";
}

/* The written form of a book that is open: a whole routine, so none of its parts is refused. */
struct show {
    const uint8_t *bytes;
    size_t len;
    const struct printer *print;
};

/*
 * Each of the following shows the part or the list that begins at `at`. Where the
 * output fails there is nothing to go on for: that it does is said at the end.
 */

static void show_registers(const struct show *show, enum list list, uint64_t at, uint64_t count)
{
    show->print->list(list, count);
    for (uint64_t i = 0; i < count && printed_so_far(); i++) {
        vtil_register_read read = vtil_read_register(show->bytes, show->len, at);
        show->print->reg(i, &read.register_desc);
        at = read.end;
    }
    show->print->list_end(list);
}

static void show_instructions(const struct show *show, uint64_t at, uint64_t count)
{
    show->print->list(INSTRUCTIONS, count);
    for (uint64_t i = 0; i < count && printed_so_far(); i++) {
        vtil_instruction_read read = vtil_read_instruction(show->bytes, show->len, at);
        show->print->instruction(i, &read.instruction);
        at = read.end;
    }
    show->print->list_end(INSTRUCTIONS);
}

static void show_vips(const struct show *show, enum list list, uint64_t at, uint64_t count)
{
    show->print->list(list, count);
    for (uint64_t i = 0; i < count && printed_so_far(); i++) {
        vtil_vip_read read = vtil_read_vip(show->bytes, show->len, at);
        show->print->vip(i, read.vip);
        at = read.end;
    }
    show->print->list_end(list);
}

/* Answers where the convention ends. */
static uint64_t show_convention(const struct show *show, uint64_t place, uint64_t at)
{
    vtil_convention_read read = vtil_read_convention(show->bytes, show->len, at);
    show->print->convention(place, &read);
    show_registers(show, VOLATILE, read.volatile_at, read.volatile_registers);
    show_registers(show, PARAM, read.param_at, read.param_registers);
    show_registers(show, RETVAL, read.retval_at, read.retval_registers);
    show->print->convention_end();
    return read.end;
}

/* The count of the special conventions stands between the subroutine's and the first of them. */
static void show_conventions(const struct show *show, const vtil_routine_read *routine)
{
    uint64_t at = show_convention(show, 0, routine->conventions_at);
    at = show_convention(show, 1, at) + COUNT_SIZE;
    for (uint64_t i = 0; i < routine->spec_conventions && printed_so_far(); i++)
        at = show_convention(show, 2 + i, at);
}

/* Answers where the block ends. */
static uint64_t show_block(const struct show *show, uint64_t place, uint64_t at)
{
    vtil_block_read read = vtil_read_block(show->bytes, show->len, at);
    show->print->block(place, &read);
    show_instructions(show, read.instructions_at, read.instructions);
    show_vips(show, PREV, read.prev_at, read.prev_vips);
    show_vips(show, NEXT, read.next_at, read.next_vips);
    show->print->block_end();
    return read.end;
}

static void show_blocks(const struct show *show, const vtil_routine_read *routine)
{
    uint64_t at = routine->blocks_at;
    for (uint64_t i = 0; i < routine->blocks && printed_so_far(); i++)
        at = show_block(show, i, at);
}

/* What was printed before a failure has no end, so it does not look whole. */
static void show_routine(const struct show *show)
{
    vtil_routine_read routine = vtil_read_routine(show->bytes, show->len);
    show->print->routine(&routine);
    show_conventions(show, &routine);
    show->print->blocks();
    show_blocks(show, &routine);
    if (printed_so_far())
        show->print->end();
}

enum status show_command(const struct request *request)
{
    struct book book;
    enum status status = book_open(request->files[0], 0, 0, NO_RATES, &book);
    if (status != ALL_ACCEPTED)
        return status;
    const struct printer *print = request->json ? &json_printer : &text_printer;
    show_routine(&(struct show){book.image, (size_t)book.numbers.written, print});
    book_free(&book);
    return ALL_ACCEPTED;
}
