/*
 * stack: no call takes more stack than include/vtil.h says. Each runs on a stack of
 * its own that was painted before, one byte like the other; the deepest byte that
 * was changed tells how much it took. The routine has many blocks without order, so
 * that repeated ones have to be searched for, and instructions at its end, where
 * the fast way of reading them has no room.
 */
#define _XOPEN_SOURCE 700

#include <stdbool.h>
#include <stdio.h>
#include <stdlib.h>
#include <string.h>
#include <ucontext.h>

#include "cases.h"
#include "group.h"
#include "vtil.h"

#define MOST_STACK 67000 /* as include/vtil.h and README.md say */
#define STACK (16 * (size_t)MOST_STACK)
#define BLOCKS 20000 /* the search gathers 8,000 of them at a time */
#define ROOM 500
#define PAINT 0xa5
#define LONGEST 47 /* an operation with the longest name and three operands */

static uint8_t stack[STACK];
static uint8_t *file, *image, *journal, *second;
static size_t file_len, image_len, journal_len;
static size_t last_block; /* where it begins in the file */
static vtil_book book;
static const vtil_rates rates = {{1, 2, 3, 4, 5, 6}};
static struct bytes nop, longest, immediates; /* instructions */

/* The routine -------------------------------------------------------------------------------- */

static uint64_t vip_of(size_t place)
{
    return (uint64_t)place * 0x9e3779b97f4a7c15; /* odd, so no two are equal modulo 2^64 */
}

/* Up to where the first block is due: the first convention has a register. */
static void put_first_parts(struct bytes *b)
{
    put(b, 4, 0x4c495456);
    put(b, 2, 2);
    put(b, 2, 0xdead);
    put_zeros(b, 8);
    put(b, 4, 1);
    put_zeros(b, 24 + 41);
    put_zeros(b, 45 + 4);
    put(b, 4, BLOCKS);
}

/* The last two blocks have an instruction and a link each, the others nothing. */
static void put_block(struct bytes *b, size_t place)
{
    bool empty = place + 2 < BLOCKS;
    put_block_front(b, vip_of(place), empty ? 0 : 1);
    if (!empty)
        put_bytes(b, nop.at, nop.len);
    put(b, 4, empty ? 0 : 1);
    put_zeros(b, empty ? 4 : 8 + 4);
}

static uint8_t *make_bytes(size_t len)
{
    uint8_t *bytes = calloc(len, 1);
    if (bytes == NULL)
        stop("the routine");
    return bytes;
}

static void add(const struct bytes *part)
{
    memcpy(file + file_len, part->at, part->len);
    file_len += part->len;
}

static void make_file(void)
{
    static struct bytes part;
    file = make_bytes(ROOM + 36 * BLOCKS);
    put_operation(&nop, "nop", 3, 0);
    put_zeros(&nop, 21);
    put_instruction(&longest, LONGEST, 1);
    put_instruction(&immediates, LONGEST, 0);
    put_first_parts(&part);
    add(&part);
    for (size_t i = 0; i < BLOCKS; i++) {
        part.len = 0;
        put_block(&part, i);
        last_block = file_len;
        add(&part);
    }
    image_len = file_len + ROOM;
    image = make_bytes(image_len);
    second = make_bytes(image_len);
    journal_len = ROOM;
    journal = make_bytes(journal_len);
}

/* The calls, each accepted ---------------------------------------------------------------------- */

#define LENT book, image, image_len, journal, journal_len
#define LAST (BLOCKS - 1)
#define NEW 1 /* a vip that no block has */

static uint64_t refusal;
static uint8_t *top; /* of the stack when the call was made */

/* Right before a call, since what its caller has on the stack is not the call's. */
#define MARK_TOP() __asm__ volatile("mov %%rsp, %0" : "=m"(top))

static void take(vtil_answer answer)
{
    refusal = answer.refusal;
    book = answer.book;
}

static void check(void)
{
    MARK_TOP();
    refusal = vtil_check(file, file_len) == (int64_t)file_len ? 0 : 1;
}

static void open_file(void)
{
    MARK_TOP();
    take(vtil_open(file, file_len, image, image_len, journal, journal_len, rates));
}

static void write_instruction(void)
{
    static const vtil_instruction_desc value = {.op = LONGEST, .count = 3, .operands = {{.kind = 1}, {.kind = 1}, {.kind = 1}}};
    uint8_t bytes[VTIL_LONGEST_INSTRUCTION];
    MARK_TOP();
    refusal = vtil_write_instruction(value, bytes, sizeof bytes).refusal;
}

/* The routine's convention and its register, the last block, its instruction and its vip. */
static void read_routine(void)
{
    MARK_TOP();
    refusal = vtil_read_routine(file, file_len).refusal;
}

static void read_convention(void)
{
    MARK_TOP();
    refusal = vtil_read_convention(file, file_len, 16).refusal;
}

static void read_register(void)
{
    MARK_TOP();
    refusal = vtil_read_register(file, file_len, 16 + 4).refusal;
}

static void read_block(void)
{
    MARK_TOP();
    refusal = vtil_read_block(file, file_len, last_block).refusal;
}

static void read_instruction(void)
{
    MARK_TOP();
    refusal = vtil_read_instruction(file, file_len, last_block + 28).refusal;
}

static void read_vip(void)
{
    MARK_TOP();
    refusal = vtil_read_vip(file, file_len, last_block + 28 + nop.len + 4).refusal;
}

static void look_routine(void)
{
    MARK_TOP();
    refusal = vtil_routine(LENT).refusal;
}

static void look_block(void)
{
    MARK_TOP();
    refusal = vtil_block(LENT, LAST).refusal;
}

static void look_instruction(void)
{
    MARK_TOP();
    refusal = vtil_instruction(LENT, LAST, 0).refusal;
}

static void look_vip(void)
{
    MARK_TOP();
    refusal = vtil_block_vip(LENT, LAST, 0, 0).refusal;
}

static void look_convention(void)
{
    MARK_TOP();
    refusal = vtil_convention(LENT, 1).refusal;
}

static void look_register(void)
{
    MARK_TOP();
    refusal = vtil_convention_register(LENT, 0, 0, 0).refusal;
}

static void look_charge(void)
{
    MARK_TOP();
    refusal = vtil_charge(LENT, rates).refusal;
}

static void copy_outside(void)
{
    MARK_TOP();
    refusal = vtil_outside_copy(LENT, second, image_len).refusal;
}

static void create(void)
{
    MARK_TOP();
    take(vtil_create_block(LENT, NEW));
}

static void append(void)
{
    MARK_TOP();
    take(vtil_append(LENT, NEW, nop.at, nop.len));
}

static void append_longest(void)
{
    MARK_TOP();
    take(vtil_append(LENT, NEW, longest.at, longest.len));
}

static void append_immediates(void)
{
    MARK_TOP();
    take(vtil_append(LENT, NEW, immediates.at, immediates.len));
}

static void remove_empty(void)
{
    MARK_TOP();
    take(vtil_remove_block(LENT, vip_of(1)));
}

/* Its instruction is read for the sum, here and where the block comes back. */
static void remove_last(void)
{
    MARK_TOP();
    take(vtil_remove_block(LENT, vip_of(LAST)));
}

static void undo(void)
{
    MARK_TOP();
    take(vtil_undo(LENT));
}

static void walk_start(void)
{
    MARK_TOP();
    take(vtil_walk_start(LENT));
}

static void walk_next(void)
{
    MARK_TOP();
    vtil_walk_answer answer = vtil_walk_next(LENT);
    take((vtil_answer){answer.refusal, answer.book});
}

/* Every block before it is passed. */
static void walk_to_last(void)
{
    book.walk = 1 + LAST;
    walk_next();
}

static void walk_abandon(void)
{
    MARK_TOP();
    take(vtil_walk_abandon(LENT));
}

static void take_run(vtil_run_answer answer)
{
    refusal = answer.refusal != 0 ? answer.refusal : answer.last;
    book = answer.book;
}

#define CALLS 7
static uint64_t words[4 * CALLS];

static void make_list(void)
{
    const uint64_t list[4 * CALLS] = {
        VTIL_CREATE,       NEW,       0, 0,
        VTIL_APPEND,       NEW,       0, nop.len,
        VTIL_REMOVE,       vip_of(1), 0, 0,
        VTIL_UNDO,         0,         0, 0,
        VTIL_WALK_START,   0,         0, 0,
        VTIL_WALK_NEXT,    0,         0, 0,
        VTIL_WALK_ABANDON, 0,         0, 0,
    };
    memcpy(words, list, sizeof list);
}

static void run_list(void)
{
    MARK_TOP();
    take_run(vtil_run(file, file_len, image, image_len, journal, journal_len, words, 4 * CALLS, nop.at, nop.len, rates));
}

static void run_list_on(void)
{
    MARK_TOP();
    take_run(vtil_run_on(LENT, words, 4 * CALLS, nop.at, nop.len));
}

/* Measuring ------------------------------------------------------------------------------------- */

/* The stack grows down, so what is left of the paint is at its start. */
static size_t touched(void)
{
    const uint8_t *at = stack;
    while (at < top && *at == PAINT)
        at++;
    return (size_t)(top - at);
}

static size_t stack_of(void (*call)(void))
{
    ucontext_t here, there;
    if (getcontext(&there) != 0)
        stop("getcontext");
    there.uc_stack.ss_sp = stack;
    there.uc_stack.ss_size = STACK;
    there.uc_link = &here;
    memset(stack, PAINT, STACK); /* before makecontext, which puts the way back onto it */
    makecontext(&there, call, 0);
    if (swapcontext(&here, &there) != 0)
        stop("swapcontext");
    return touched();
}

/* A call takes image and book as the one before it left them. */
static void measure(const char *name, void (*call)(void))
{
    begin(name);
    next_case();
    size_t took = stack_of(call);
    hold("refusal", 0, (int64_t)refusal, 0);
    printf("stack: %s: %zu bytes\n", name, took);
    hold("within what include/vtil.h says", took, took <= MOST_STACK, 1);
    end();
}

int main(void)
{
    set_up_groups("stack");
    make_file();
    make_list();
    run_list(); /* functions of the C library are bound at their first call, which takes stack of its own */
    measure("vtil_check", check);
    measure("vtil_read_routine", read_routine);
    measure("vtil_read_convention", read_convention);
    measure("vtil_read_register", read_register);
    measure("vtil_read_block", read_block);
    measure("vtil_read_instruction", read_instruction);
    measure("vtil_read_vip", read_vip);
    measure("vtil_open", open_file);
    measure("vtil_write_instruction", write_instruction);
    measure("vtil_routine", look_routine);
    measure("vtil_block", look_block);
    measure("vtil_instruction", look_instruction);
    measure("vtil_block_vip", look_vip);
    measure("vtil_convention", look_convention);
    measure("vtil_convention_register", look_register);
    measure("vtil_charge", look_charge);
    measure("vtil_outside_copy", copy_outside);
    measure("vtil_create_block", create);
    measure("vtil_append, to an empty block", append);
    measure("vtil_append, behind an instruction", append);
    measure("vtil_append, of three immediates", append_immediates);
    measure("vtil_outside_copy, of three immediates last", copy_outside);
    measure("vtil_undo, an append of three immediates", undo);
    measure("vtil_append, of three registers", append_longest);
    measure("vtil_outside_copy, of three registers last", copy_outside);
    measure("vtil_undo, an append of three registers", undo);
    measure("vtil_undo, an append", undo);
    measure("vtil_undo, an append to an empty block", undo);
    measure("vtil_undo, a create", undo);
    measure("vtil_remove_block, an empty one", remove_empty);
    measure("vtil_undo, a remove of an empty block", undo);
    measure("vtil_remove_block", remove_last);
    measure("vtil_undo, a remove", undo);
    measure("vtil_walk_start", walk_start);
    measure("vtil_walk_next", walk_next);
    measure("vtil_walk_abandon", walk_abandon);
    measure("vtil_walk_start, again", walk_start);
    measure("vtil_walk_next, the last block", walk_to_last);
    measure("vtil_walk_next, the end", walk_next);
    measure("vtil_run_on", run_list_on);
    measure("vtil_run", run_list);
    return finish();
}
