#include "by_hand.h"

#include <string.h>

#include "book_pair.h"
#include "calls.h"
#include "group.h"

struct bytes file;

/* Routines ------------------------------------------------------------------------------------ */

void begin_routine(uint32_t blocks)
{
    file.len = 0;
    put_front(&file);
    put(&file, 4, blocks);
}

static void put_vips(struct bytes *b, uint32_t count)
{
    put(b, 4, count);
    for (uint32_t i = 0; i < count; i++)
        put(b, 8, i);
}

void put_block(struct bytes *b, uint64_t vip, const uint32_t *ops, uint32_t count, uint32_t vips)
{
    put_block_front(b, vip, count);
    for (uint32_t i = 0; i < count; i++)
        put_instruction(b, ops[i], 0);
    put_vips(b, vips);
    put_vips(b, vips);
}

void open_routine_at(size_t spare, size_t journal_len, vtil_rates rates)
{
    lend_book(file.len + spare, journal_len);
    hold("opened", file.len, open_at_rates(&file, rates), 1);
}

void open_routine(size_t spare, size_t journal_len)
{
    open_routine_at(spare, journal_len, any_rates());
}

/* Calls that are due a refusal, or 0 ------------------------------------------------------------ */

void due(const char *what, const struct ref_call *call, uint64_t refusal)
{
    hold(what, image.len, (int64_t)call_both(call).refusal, (int64_t)refusal);
}

void edit_due(const char *what, enum vtil_call kind, uint64_t vip, uint64_t refusal)
{
    struct ref_call call = call_of(kind, vip);
    due(what, &call, refusal);
}

void append_bytes_due(const char *what, uint64_t vip, const struct bytes *bytes, uint64_t refusal)
{
    struct ref_call call = {VTIL_APPEND, vip, bytes->at, bytes->len};
    due(what, &call, refusal);
}

void append_due(const char *what, uint64_t vip, uint32_t op, uint64_t refusal)
{
    static struct bytes b;
    b.len = 0;
    put_instruction(&b, op, 0);
    append_bytes_due(what, vip, &b, refusal);
}

void undo_due(const char *what, uint64_t refusal)
{
    edit_due(what, VTIL_UNDO, 0, refusal);
}

void faulty_appends(uint64_t vip)
{
    static struct bytes b;
    b.len = 0;
    put_operation(&b, "\xff", 1, 0);
    put_zeros(&b, 21);
    append_bytes_due("name not text", vip, &b, VTIL_NAME_NOT_TEXT);
    b.len = 0;
    put_operation(&b, "zzz", 3, 0);
    put_zeros(&b, 21);
    append_bytes_due("unknown operation", vip, &b, VTIL_UNKNOWN_OPERATION);
    b.len = 0;
    put_operation(&b, "nop", 3, 1);
    put_zeros(&b, 16 + 21);
    append_bytes_due("wrong operand count", vip, &b, VTIL_WRONG_OPERAND_COUNT);
    b.len = 0;
    put_operation(&b, "jmp", 3, 1);
    put(&b, 4, 2);
    put_zeros(&b, 12 + 21);
    append_bytes_due("unknown operand kind", vip, &b, VTIL_UNKNOWN_OPERAND_KIND);
    b.len = 0;
    put_operation(&b, "jmp", 3, 1);
    put(&b, 4, 1);
    put_zeros(&b, 15);
    put(&b, 1, 3);
    put_zeros(&b, 8 + 21);
    append_bytes_due("foreign register", vip, &b, VTIL_FOREIGN_REGISTER);
    b.len = 0;
    put_operation(&b, "jmp", 3, 1);
    put(&b, 4, 1);
    put_zeros(&b, 24 + 21);
    append_bytes_due("crooked register", vip, &b, VTIL_CROOKED_REGISTER);
    b.len = 0;
    put_instruction(&b, NOP, 0);
    put(&b, 1, 0);
    append_bytes_due("leftover", vip, &b, VTIL_LEFTOVER);
    for (b.len = 0; b.len < NOP_SIZE; b.len++)
        append_bytes_due("short", vip, &b, VTIL_SHORT_FILE);
}

/* Journals ---------------------------------------------------------------------------------------- */

void use_entry(const struct bytes *block, uint64_t vip, uint32_t place, uint32_t length, uint32_t kind)
{
    static struct bytes entry;
    entry.len = 0;
    if (block != NULL)
        put_bytes(&entry, block->at, block->len);
    put(&entry, 8, vip);
    put(&entry, 4, place);
    put(&entry, 4, length);
    put(&entry, 4, kind);
    memcpy(twin.journal, entry.at, entry.len);
    twin.numbers.used = entry.len;
    copy_twin();
}
