/*
 * guard_closed FILE..: appends to closed blocks and to open ones, between guard pages,
 * against refusals that are written out here and against the reference.
 */
#include <stdbool.h>
#include <stdlib.h>
#include <string.h>

#include "book_pair.h"
#include "by_hand.h"
#include "calls.h"
#include "cases.h"
#include "group.h"
#include "lent.h"
#include "reference.h"
#include "vtil.h"

#define MADE 2000
#define VIP 5     /* of the block that is appended to */
#define ABSENT 77 /* a vip that no block of these tests has */

static struct bytes *samples;
static size_t sample_count;

/* The operations that close a block, js, jmp, vexit and vxcall, written out: here the reference is held to them too. */
#define CLOSING 4
static const uint32_t closing[CLOSING] = {37, 38, 39, 40};

static bool closes(uint32_t op)
{
    for (int i = 0; i < CLOSING; i++)
        if (closing[i] == op)
            return true;
    return false;
}

/* What an append is answered that has room, where this is the block's last operation. */
static uint64_t due_after(uint32_t last)
{
    return closes(last) ? VTIL_CLOSED_BLOCK : 0;
}

/* Opens a routine of one block of these operations, with room for an instruction and an edit or two. */
static void open_block(const uint32_t *ops, uint32_t count)
{
    begin_routine(1);
    put_block(&file, VIP, ops, count, 0);
    open_routine(2 * VTIL_LONGEST_INSTRUCTION, 4 * ENTRY);
}

/* An append; what was accepted is taken back, so that the book is as it was. */
static void try_append(const char *what, uint64_t vip, uint32_t op, uint64_t refusal)
{
    append_due(what, vip, op, refusal);
    if (refusal == 0)
        undo_due("taken back", 0);
}

/* Which blocks are closed ------------------------------------------------------------------------- */

static void names(void)
{
    static const char *const due_names[CLOSING] = {"js", "jmp", "vexit", "vxcall"};
    begin("the operations 37 to 40 are js, jmp, vexit and vxcall, of 49");
    next_case();
    hold("how many there are", 0, (int64_t)ref_operation_count, OPERATIONS);
    for (int i = 0; i < CLOSING; i++)
        hold("the name", closing[i], strcmp(ref_operations[closing[i]].name, due_names[i]), 0);
    end();
}

static void last_of_a_file(void)
{
    begin("every operation last in a block of a file, then every operation appended: 18 after those four alone");
    for (uint32_t last = 0; last < OPERATIONS; last++) {
        open_block(&last, 1);
        for (uint32_t op = 0; op < OPERATIONS; op++)
            try_append("after that operation", VIP, op, due_after(last));
    }
    end();
}

static void last_appended(void)
{
    begin("the same where the last operation was appended, to an empty block and to one with a nop");
    for (uint32_t nops = 0; nops < 2; nops++) {
        for (uint32_t last = 0; last < OPERATIONS; last++) {
            open_block((const uint32_t[]){NOP}, nops);
            append_due("the operation itself", VIP, last, 0);
            for (uint32_t op = 0; op < OPERATIONS; op++)
                try_append("after that operation", VIP, op, due_after(last));
        }
    }
    end();
}

static void empty_blocks(void)
{
    begin("every operation appended to an empty block: accepted");
    for (uint32_t op = 0; op < OPERATIONS; op++) {
        open_block(NULL, 0);
        try_append("to an empty block of a file", VIP, op, 0);
        edit_due("another block", VTIL_CREATE, ABSENT, 0);
        try_append("to an empty block that was created", ABSENT, op, 0);
    }
    end();
}

/* Only files hold a closing operation that is not the last of its block. */
static void not_last(void)
{
    begin("one of the four, and then every operation: the last one alone decides");
    for (int i = 0; i < CLOSING; i++) {
        for (uint32_t last = 0; last < OPERATIONS; last++) {
            open_block((const uint32_t[]){closing[i], last}, 2);
            try_append("after the last", VIP, NOP, due_after(last));
            open_block((const uint32_t[]){closing[i], last, closing[i]}, 3);
            try_append("after the same of the four again", VIP, NOP, VTIL_CLOSED_BLOCK);
        }
        open_block((const uint32_t[]){closing[i], NOP}, 2);
        append_due("after the nop", VIP, NOP, 0);
        append_due("after another nop", VIP, closing[i], 0);
        append_due("after what closed it", VIP, NOP, VTIL_CLOSED_BLOCK);
    }
    end();
}

/* Three blocks, each of them closed or not: what is not closed is empty, or has a nop last. */
static void open_three(unsigned closed, uint32_t closer, uint32_t open_count)
{
    begin_routine(3);
    for (unsigned place = 0; place < 3; place++) {
        if (closed >> place & 1)
            put_block(&file, VIP + place, (const uint32_t[]){NOP, closer}, 2, place);
        else
            put_block(&file, VIP + place, (const uint32_t[]){closer, NOP}, open_count, place);
    }
    open_routine(NOP_SIZE, ENTRY);
}

static void places(void)
{
    begin("closed blocks in the first, the middle and the last place, beside open ones");
    for (int i = 0; i < CLOSING; i++)
        for (unsigned closed = 0; closed < 8; closed++)
            for (uint32_t open_count = 0; open_count < 3; open_count += 2) {
                open_three(closed, closing[i], open_count);
                for (unsigned place = 0; place < 3; place++)
                    try_append("at that place", VIP + place, NOP, closed >> place & 1 ? VTIL_CLOSED_BLOCK : 0);
            }
    end();
}

static void links(void)
{
    begin("vips after the instructions of a closed block and of an open one");
    for (uint32_t last = 0; last < OPERATIONS; last++)
        for (uint32_t vips = 0; vips < 20; vips++)
            for (uint32_t blocks = 1; blocks < 3; blocks++) {
                begin_routine(blocks);
                put_block(&file, VIP, (const uint32_t[]){JMP, last}, 2, vips);
                if (blocks == 2)
                    put_block(&file, VIP + 1, NULL, 0, vips);
                open_routine(NOP_SIZE, ENTRY);
                try_append("before its vips", VIP, NOP, due_after(last));
            }
    end();
}

/* What an append of a nop is answered in an image with so much to spare and a journal of that length. */
static uint64_t due_within(uint32_t last, size_t spare, size_t journal_len)
{
    if (closes(last))
        return VTIL_CLOSED_BLOCK;
    if (spare < NOP_SIZE)
        return VTIL_IMAGE_FULL;
    return journal_len < ENTRY ? VTIL_JOURNAL_FULL : 0;
}

/* An instruction is read in another way where the image soon ends, so the block is its last and the image ends anywhere. */
static void ends_of_images(void)
{
    static const size_t journals[] = {0, ENTRY - 1, ENTRY};
    begin("a block at the image's end, with 0 to 130 bytes to spare: 18 comes before 11 and 12");
    seed(31);
    for (uint32_t last = 0; last < OPERATIONS; last++)
        for (uint32_t kind = 0; kind < 2; kind++) {
            begin_routine(1);
            put_block_front(&file, VIP, 2);
            put_instruction(&file, NOP, 0);
            put_instruction(&file, last, kind);
            put_zeros(&file, 8);
            for (size_t spare = 0; spare <= 130; spare++)
                for (int i = 0; i < 3; i++) {
                    open_routine(spare, journals[i]);
                    try_append("at that length", VIP, NOP, due_within(last, spare, journals[i]));
                }
        }
    end();
}

/* A block of so many instructions: nops and then this operation, or the other way round. */
static void put_long_block(uint32_t count, uint32_t op, bool closed)
{
    put_block_front(&file, VIP, count);
    for (uint32_t left = count; left > 1; left--)
        put_instruction(&file, closed ? NOP : op, left % 2);
    put_instruction(&file, closed ? op : NOP, 0);
    put_zeros(&file, 8);
}

static void long_blocks(void)
{
    begin("blocks of up to 300 instructions, with each of the four last and with a nop last");
    for (uint32_t count = 1; count <= 300; count += 1 + count / 10)
        for (int i = 0; i < CLOSING; i++)
            for (int closed = 0; closed < 2; closed++) {
                begin_routine(1);
                put_long_block(count, closing[i], closed);
                open_routine(NOP_SIZE, ENTRY);
                try_append("a jmp, which has no room", VIP, JMP, closed ? VTIL_CLOSED_BLOCK : VTIL_IMAGE_FULL);
                try_append("a nop", VIP, NOP, closed ? VTIL_CLOSED_BLOCK : 0);
            }
    end();
}

/* An immediate whose last 11 bytes are a name size, that name and an operand count. */
static void put_disguised(const char *name, uint32_t count)
{
    put(&file, 4, 0);
    put(&file, 1, 0);
    put(&file, 4, 3);
    put_bytes(&file, name, 3);
    put(&file, 4, count);
}

/* A routine of one block, up to where its only instruction is due. */
static void begin_only(void)
{
    begin_routine(1);
    put_block_front(&file, VIP, 1);
}

/* The rest of it, after the instruction's operands. */
static void open_only(void)
{
    put_zeros(&file, 21 + 8);
    open_routine(NOP_SIZE, ENTRY);
}

/* What is last is told by reading from the first instruction on, not by the bytes before the block's end. */
static void disguises(void)
{
    static struct bytes jmp;
    begin("instructions and vips with the bytes of others at their ends");
    begin_only();
    put_operation(&file, "add", 3, 2);
    put_disguised("jmp", 1);
    put_zeros(&file, 16);
    open_only();
    try_append("an add that ends like a jmp", VIP, NOP, 0);

    begin_only();
    put_operation(&file, "jmp", 3, 1);
    put_disguised("nop", 0);
    open_only();
    try_append("a jmp that ends like a nop", VIP, NOP, VTIL_CLOSED_BLOCK);

    put_instruction(&jmp, JMP, 0);
    hold("a jmp is as long as six vips", 0, (int64_t)jmp.len, 48);
    begin_only();
    put_instruction(&file, NOP, 0);
    for (int list = 0; list < 2; list++) {
        put(&file, 4, 6);
        put_bytes(&file, jmp.at, jmp.len);
    }
    open_routine(NOP_SIZE, ENTRY);
    try_append("vips with the bytes of a jmp", VIP, NOP, 0);
    end();
}

/* The order of the refusals ---------------------------------------------------------------------------- */

static void spoiled_due(void)
{
    uint8_t before = twin.image[4];
    twin.image[4] = 3; /* the machine */
    copy_twin();
    append_due("a spoiled book", VIP, NOP, VTIL_SPOILED_BOOK);
    twin.image[4] = before;
    copy_twin();
}

static void orders(void)
{
    static const size_t lengths[][2] = {
        {0, 0}, {0, ENTRY}, {NOP_SIZE, 0}, {NOP_SIZE - 1, ENTRY - 1}, {NOP_SIZE, ENTRY}, {500, 500},
    };
    begin("appends to closed blocks with other things wrong: 13, then 1, 2, 5 to 8 and 19, then 17, 15, 18, 11, 12");
    for (size_t i = 0; i < sizeof lengths / sizeof lengths[0]; i++)
        for (int j = 0; j < CLOSING; j++) {
            begin_routine(1);
            put_block(&file, VIP, &closing[j], 1, 0);
            open_routine(lengths[i][0], lengths[i][1]);
            spoiled_due();
            faulty_appends(VIP);
            faulty_appends(ABSENT);
            append_due("no such block", ABSENT, NOP, VTIL_NO_SUCH_BLOCK);
            append_due("closed", VIP, NOP, VTIL_CLOSED_BLOCK);
        }
    end();
}

/* Closed blocks and the other edits ----------------------------------------------------------------------- */

static void undo_opens(void)
{
    begin("undo of what closed a block opens it again, and is never refused 18");
    for (int i = 0; i < CLOSING; i++) {
        open_block(&closing[i], 1);
        undo_due("nothing to take back from a closed block of a file", VTIL_NOTHING_TO_TAKE_BACK);
        open_block((const uint32_t[]){closing[i], NOP}, 2);
        for (int times = 0; times < 3; times++) {
            append_due("what closes it", VIP, closing[i], 0);
            append_due("closed", VIP, NOP, VTIL_CLOSED_BLOCK);
            append_due("closed for what closes, too", VIP, closing[i], VTIL_CLOSED_BLOCK);
            undo_due("undo", 0);
            append_due("open again", VIP, NOP, 0);
            undo_due("undo of that", 0);
        }
        undo_due("nothing is left to take back", VTIL_NOTHING_TO_TAKE_BACK);
    }
    end();
}

static void removed_and_restored(void)
{
    begin("a closed block that is removed and restored, and one that moves to another place, stay closed");
    for (int i = 0; i < CLOSING; i++)
        for (unsigned place = 0; place < 3; place++) {
            begin_routine(3);
            for (unsigned other = 0; other < 3; other++)
                put_block(&file, VIP + other, (const uint32_t[]){NOP, closing[i]}, 2, other);
            open_routine(100, 400);
            edit_due("remove", VTIL_REMOVE, VIP + place, 0);
            for (unsigned other = 0; other < 3; other++)
                append_due("the other two", VIP + other, NOP, other == place ? VTIL_NO_SUCH_BLOCK : VTIL_CLOSED_BLOCK);
            edit_due("create in its stead", VTIL_CREATE, VIP + place, 0);
            append_due("that one is empty", VIP + place, NOP, 0);
            for (int left = 3; left > 0; left--)
                undo_due("undo", 0);
            for (unsigned other = 0; other < 3; other++)
                append_due("as in the file", VIP + other, NOP, VTIL_CLOSED_BLOCK);
        }
    end();
}

/* No list of calls leads to these journals: no nop is appended after one of the four. */
static void journals_by_hand(void)
{
    static struct bytes b;
    begin("journals made by hand: undo takes back a nop after one of the four, and restores blocks that hold it");
    for (int i = 0; i < CLOSING; i++) {
        const uint32_t open[2] = {closing[i], NOP}, closed[2] = {NOP, closing[i]};
        open_block(open, 2);
        use_entry(NULL, VIP, 0, NOP_SIZE, 3);
        undo_due("the nop", 0);
        append_due("closed without the nop", VIP, NOP, VTIL_CLOSED_BLOCK);

        open_block(closed, 2);
        b.len = 0;
        put_instruction(&b, closing[i], 0);
        use_entry(NULL, VIP, 0, (uint32_t)b.len, 3);
        undo_due("what closes it", 0);
        append_due("open without it", VIP, NOP, 0);

        for (int which = 0; which < 2; which++) {
            b.len = 0;
            put_block(&b, VIP, which == 0 ? open : closed, 2, 0);
            begin_routine(0);
            open_routine(400, 400);
            use_entry(&b, VIP, 0, (uint32_t)b.len, 2);
            undo_due("the block is restored", 0);
            append_due("as it was", VIP, NOP, which == 0 ? 0 : VTIL_CLOSED_BLOCK);
        }
    }
    end();
}

/* Lists of calls ------------------------------------------------------------------------------------------- */

#define CLOSER UINT32_MAX /* stands for each of the four */

static const struct {
    enum vtil_call kind;
    uint64_t vip;
    uint32_t op;
    uint64_t refusal;
} steps[] = {
    {VTIL_CREATE, 5, 0, 0},       {VTIL_APPEND, 5, NOP, 0},    {VTIL_APPEND, 5, CLOSER, 0},  {VTIL_APPEND, 5, NOP, 18},
    {VTIL_APPEND, 5, CLOSER, 18}, {VTIL_CREATE, 6, 0, 0},      {VTIL_APPEND, 6, CLOSER, 0},  {VTIL_APPEND, 6, NOP, 18},
    {VTIL_REMOVE, 5, 0, 0},       {VTIL_APPEND, 6, NOP, 18},   {VTIL_APPEND, 5, NOP, 15},    {VTIL_UNDO, 0, 0, 0},
    {VTIL_APPEND, 5, NOP, 18},    {VTIL_UNDO, 0, 0, 0},        {VTIL_APPEND, 6, NOP, 0},     {VTIL_APPEND, 5, NOP, 18},
    {VTIL_UNDO, 0, 0, 0},         {VTIL_UNDO, 0, 0, 0},        {VTIL_APPEND, 5, NOP, 18},    {VTIL_UNDO, 0, 0, 0},
    {VTIL_APPEND, 5, NOP, 0},     {VTIL_APPEND, 5, CLOSER, 0}, {VTIL_APPEND, 5, CLOSER, 18}, {VTIL_CREATE, 5, 0, 14},
};
#define STEPS (sizeof steps / sizeof steps[0])

static void make_steps(struct ref_call *calls, uint32_t closer)
{
    static struct bytes made[STEPS];
    for (size_t i = 0; i < STEPS; i++) {
        calls[i] = call_of(steps[i].kind, steps[i].vip);
        if (steps[i].kind != VTIL_APPEND)
            continue;
        made[i].len = 0;
        put_instruction(&made[i], steps[i].op == CLOSER ? closer : steps[i].op, 0);
        calls[i].bytes = made[i].at;
        calls[i].len = made[i].len;
    }
}

/* What is due of a list of the first `count` steps. */
static uint64_t last_due(size_t count)
{
    return count == 0 ? 0 : steps[count - 1].refusal;
}

static void steps_of_machine(const struct ref_call *calls)
{
    struct ref_machine *machine = ref_machine_start(file.at, file.len, image.len, journal.len, any_rates());
    for (size_t i = 0; i < STEPS; i++)
        hold("the machine's step", i, (int64_t)ref_machine_step(machine, &calls[i]).refusal, (int64_t)steps[i].refusal);
    ref_machine_free(machine);
}

static void lists(void)
{
    struct ref_call calls[STEPS];
    begin("a list of calls that meets closed blocks: one by one, by vtil_run, by vtil_run_on, and by the machine");
    for (int i = 0; i < CLOSING; i++) {
        make_steps(calls, closing[i]);
        begin_routine(0);
        open_routine(400, 400);
        for (size_t j = 0; j < STEPS; j++)
            due("one by one", &calls[j], steps[j].refusal);
        for (size_t count = 0; count <= STEPS; count++) {
            hold("by vtil_run", count, (int64_t)run_list(&file, calls, count, any_rates()).last,
                 (int64_t)last_due(count));
            hold("the rest by vtil_run_on", count, (int64_t)run_list_on(calls + count, STEPS - count).last,
                 count == STEPS ? 0 : (int64_t)last_due(STEPS));
        }
        steps_of_machine(calls);
    }
    end();
}

/* Files that are there -------------------------------------------------------------------------------------- */

/* A nop to each block, by the operation that the library says is its last. The routine can be looked at as any other. */
static void append_everywhere(const struct bytes *from)
{
    lend_book(from->len + NOP_SIZE, ENTRY);
    if (!open_both(from))
        return;
    look_once(twin.numbers);
    uint64_t blocks = ref_routine(&twin).blocks;
    for (uint64_t place = 0; place < blocks; place++) {
        vtil_block_look block = vtil_block(twin.numbers, image.readable, image.len, journal.readable, journal.len, place);
        vtil_instruction_look last = vtil_instruction(twin.numbers, image.readable, image.len, journal.readable,
                                                      journal.len, place, block.instructions - 1);
        try_append("to a block of it", block.vip, NOP, block.instructions == 0 ? 0 : due_after(last.instruction.op));
    }
}

static void opened_samples(void)
{
    begin("a nop to every block of the samples: of three, one ends with js, one with jmp, one with vexit");
    for (size_t i = 0; i < sample_count; i++)
        append_everywhere(&samples[i]);
    hold("closed blocks", 0, (int64_t)group.answers[VTIL_CLOSED_BLOCK], 3);
    end();
}

static void made_routines(void)
{
    static const int answers[] = {0, VTIL_CLOSED_BLOCK, -1};
    static struct bytes b;
    begin("a nop to every block of made routines");
    seed(32);
    for (int i = 0; i < MADE; i++) {
        make_good_routine(&b);
        append_everywhere(&b);
    }
    end_of_random(100, answers);
}

/* Opened and looked at as before, in every part. */
static void looks(void)
{
    begin("looks at routines of closed blocks");
    for (unsigned closed = 0; closed < 8; closed++)
        for (int i = 0; i < CLOSING; i++) {
            open_three(closed, closing[i], 2);
            look_everywhere(twin.numbers);
        }
    end();
}

/* At the limit ------------------------------------------------------------------------------------------------ */

/* A routine of one block, as long as an image can hold it: nops, and this operation last. Answers how long it is. */
static size_t make_fullest(uint8_t *out, uint32_t last)
{
    static struct bytes front, nop, rest;
    front.len = nop.len = rest.len = 0;
    put_instruction(&nop, NOP, 0);
    put_instruction(&rest, last, 0);
    put_zeros(&rest, 8);
    put_front(&front);
    put(&front, 4, 1);
    uint32_t nops = (uint32_t)((VTIL_MOST_LENT - front.len - BLOCK_FRONT - rest.len) / NOP_SIZE);
    put_block_front(&front, VIP, nops + 1);
    memcpy(out, front.at, front.len);
    for (uint32_t i = 0; i < nops; i++)
        memcpy(out + front.len + NOP_SIZE * i, nop.at, NOP_SIZE);
    memcpy(out + front.len + NOP_SIZE * nops, rest.at, rest.len);
    return front.len + NOP_SIZE * nops + rest.len;
}

static void append_to_fullest(const struct lent *at, const uint8_t *routine, size_t len, uint64_t refusal)
{
    static struct bytes nop;
    nop.len = 0;
    put_instruction(&nop, NOP, 0);
    vtil_answer opened = vtil_open(routine, len, at->writable, at->len, NULL, 0, any_rates());
    vtil_answer got = vtil_append(opened.book, at->writable, at->len, NULL, 0, VIP, nop.at, nop.len);
    next_case();
    hold("opened", len, (int64_t)opened.refusal, 0);
    hold("append", len, (int64_t)got.refusal, (int64_t)refusal);
    hold_book(got.book, opened.book);
    hold("as it was opened", len, memcmp(at->plain, routine, len), 0);
}

/* The reference would take long here, but the answers are plain. */
static void at_the_limit(void)
{
    struct room large = make_room(VTIL_MOST_LENT);
    struct lent at = lend(&large, VTIL_MOST_LENT, true);
    uint8_t *routine = malloc(VTIL_MOST_LENT);
    if (routine == NULL)
        stop("an image at the limit");
    begin("images of 16,777,216 bytes, full: 18 with each of the four last, 11 with a nop last");
    for (int i = 0; i < CLOSING; i++)
        append_to_fullest(&at, routine, make_fullest(routine, closing[i]), VTIL_CLOSED_BLOCK);
    append_to_fullest(&at, routine, make_fullest(routine, NOP), VTIL_IMAGE_FULL);
    end();
    free(routine);
}

int main(int argc, char **argv)
{
    (void)argc;
    set_up_groups("guard_closed");
    sample_count = load_samples(argv + 1, &samples);
    set_up_book_pair();
    set_up_calls();

    names();
    last_of_a_file();
    last_appended();
    empty_blocks();
    not_last();
    places();
    links();
    ends_of_images();
    long_blocks();
    disguises();
    orders();
    undo_opens();
    removed_and_restored();
    journals_by_hand();
    lists();
    opened_samples();
    made_routines();
    looks();
    at_the_limit();
    return finish();
}
