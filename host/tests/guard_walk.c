/*
 * guard_walk: walks over the blocks of a book, between guard pages: what they hand out,
 * what is allowed meanwhile, and walks made by hand, against answers that are written
 * out here and against the reference.
 */
#include <stdbool.h>

#include "book_pair.h"
#include "by_hand.h"
#include "calls.h"
#include "cases.h"
#include "group.h"
#include "lent.h"
#include "reference.h"
#include "vtil.h"

#define ADD 5
#define LFENCE 43
#define EMPTY_BLOCK 36
#define MOST_BLOCKS 6
#define VIP 5     /* of the first block; those after it count on */
#define NEW 50    /* of a block that is created */
#define ABSENT 77 /* a vip that no block of these tests has */
#define CONVENTION 45
#define REGISTER 24

/* Calls of a walk that are due an answer ------------------------------------------------------------- */

/* Of the book nothing changes but the walk, which is then due to be this. */
static vtil_walk_answer walk_due(const char *what, enum vtil_call kind, uint64_t refusal, uint64_t walk)
{
    struct ref_call call = call_of(kind, ABSENT);
    vtil_book book = twin.numbers;
    vtil_walk_answer answer = call_both(&call);
    book.walk = walk;
    hold(what, image.len, (int64_t)answer.refusal, (int64_t)refusal);
    hold_book(answer.book, book);
    return answer;
}

static void start_due(const char *what)
{
    walk_due(what, VTIL_WALK_START, 0, 1);
}

static void next_due(const char *what, uint64_t walk, uint64_t offset, uint64_t length)
{
    vtil_walk_answer answer = walk_due(what, VTIL_WALK_NEXT, 0, walk);
    hold(what, image.len, (int64_t)answer.offset, (int64_t)offset);
    hold(what, image.len, (int64_t)answer.length, (int64_t)length);
}

static void end_due(const char *what)
{
    next_due(what, 0, 0, 0);
}

/* A refused call leaves the walk, and hands out nothing. */
static void walk_refused(const char *what, enum vtil_call kind, uint64_t refusal)
{
    vtil_walk_answer answer = walk_due(what, kind, refusal, twin.numbers.walk);
    hold(what, image.len, answer.offset == 0 && answer.length == 0, 1);
}

static void closed_due(void)
{
    walk_refused("next without a walk", VTIL_WALK_NEXT, VTIL_NO_WALK);
    walk_refused("abandon without a walk", VTIL_WALK_ABANDON, VTIL_NO_WALK);
}

static void open_due(void)
{
    walk_refused("start in a walk", VTIL_WALK_START, VTIL_WALK_OPEN);
    walk_refused("remove in a walk", VTIL_REMOVE, VTIL_WALK_OPEN);
    walk_refused("undo in a walk", VTIL_UNDO, VTIL_WALK_OPEN);
}

/* Routines ------------------------------------------------------------------------------------------- */

/* Blocks of several sizes: 36, 68, 119, 116, 196 and 84 bytes. */
static const struct {
    uint32_t count, ops[3], vips;
} shapes[MOST_BLOCKS] = {
    {0, {0}, 0}, {1, {NOP}, 0}, {2, {NOP, LFENCE}, 1}, {1, {JMP}, 2}, {3, {ADD, NOP, ADD}, 0}, {0, {0}, 3},
};

/* Where each block of the routine that was made last begins, and where the last one ends. */
static size_t begins[MOST_BLOCKS + 1];
static uint32_t block_count;

static void put_blocks(uint32_t count, uint32_t first_shape)
{
    block_count = count;
    for (uint32_t i = 0; i < count; i++) {
        uint32_t shape = (first_shape + i) % MOST_BLOCKS;
        begins[i] = file.len;
        put_block(&file, VIP + i, shapes[shape].ops, shapes[shape].count, shapes[shape].vips);
    }
    begins[count] = file.len;
}

static void make_blocks(uint32_t count, uint32_t first_shape)
{
    begin_routine(count);
    put_blocks(count, first_shape);
}

static void put_convention(uint32_t registers)
{
    for (int list = 0; list < 3; list++) {
        put(&file, 4, registers);
        put_zeros(&file, (size_t)registers * REGISTER);
    }
    put_zeros(&file, CONVENTION - 12);
}

/* A routine with so many special conventions, and so many registers in every list of each convention. */
static void make_conventions(uint32_t special, uint32_t registers, uint32_t blocks)
{
    file.len = 0;
    put(&file, 4, 0x4c495456);
    put(&file, 2, 1);
    put(&file, 2, 0xdead);
    put(&file, 8, VIP);
    put_convention(registers);
    put_convention(registers + 1);
    put(&file, 4, special);
    for (uint32_t i = 0; i < special; i++)
        put_convention(registers);
    put(&file, 4, blocks);
    put_blocks(blocks, special);
}

static size_t length_of(uint32_t place)
{
    return begins[place + 1] - begins[place];
}

/* Walks that nobody disturbs -------------------------------------------------------------------------- */

/* From the start to the end: each block once, in order, and the end only after the last. */
static void walk_over(void)
{
    start_due("start");
    for (uint32_t place = 0; place < block_count; place++)
        next_due("a block", place + 2, begins[place], length_of(place));
    end_due("the end");
    closed_due();
}

static void plain_walks(void)
{
    begin("walks over 0 to 6 blocks of all sizes, behind conventions of all sizes, twice in a row");
    for (uint32_t special = 0; special < 3; special++)
        for (uint32_t registers = 0; registers < 2; registers++)
            for (uint32_t blocks = 0; blocks <= MOST_BLOCKS; blocks++) {
                make_conventions(special, registers, blocks);
                open_routine(below(3), below(3));
                closed_due();
                walk_over();
                walk_over();
            }
    for (uint32_t blocks = 0; blocks <= MOST_BLOCKS; blocks++)
        for (uint32_t shape = 0; shape < MOST_BLOCKS; shape++) {
            make_blocks(blocks, shape);
            open_routine(0, 0);
            walk_over();
            change_lengths(file.len + 40, 30);
            walk_over();
        }
    end();
}

/* The walk's numbers are in the book alone: it goes on at other lengths, and beside other books on the same bytes. */
static void kept_places(void)
{
    begin("walks at every place: others beside them, lengths that change, abandon, and a start at the first block again");
    for (uint32_t blocks = 0; blocks <= MOST_BLOCKS; blocks++) {
        make_blocks(blocks, blocks);
        for (uint32_t place = 0; place <= blocks; place++) {
            open_routine(20, 20);
            start_due("start");
            for (uint32_t i = 0; i < place; i++)
                next_due("a block before it", i + 2, begins[i], length_of(i));
            open_due();
            vtil_book here = twin.numbers;
            walk_due("abandoned", VTIL_WALK_ABANDON, 0, 0);
            closed_due();
            walk_over();
            twin.numbers = here;
            change_lengths(file.len, below(20));
            if (place < blocks)
                next_due("where it stood", place + 2, begins[place], length_of(place));
            else
                end_due("the end, where it stood");
        }
    }
    end();
}

/* An instruction is read in another way where its image soon ends, so the image ends anywhere behind it. */
static void ends(void)
{
    begin("every operation last in the last block, in images with 0 to 130 bytes to spare");
    for (uint32_t op = 0; op < OPERATIONS; op++)
        for (uint32_t kind = 0; kind < 2; kind++) {
            make_blocks(1, 1);
            put_block_front(&file, VIP + 1, 2);
            put_instruction(&file, ADD, kind);
            put_instruction(&file, op, kind);
            put_zeros(&file, 8);
            file.at[begins[0] - 4] = 2; /* blocks */
            for (size_t spare = 0; spare <= 130; spare++) {
                open_routine(spare, 0);
                twin.numbers.walk = 2;
                next_due("the last block", 3, begins[1], file.len - begins[1]);
                end_due("the end");
            }
        }
    end();
}

/* Authors at work ---------------------------------------------------------------------------------------- */

/* An append or a create, after which the walk stands where it stood. */
static void edit_keeps(const char *what, const struct ref_call *call, uint64_t refusal)
{
    uint64_t walk = twin.numbers.walk;
    due(what, call, refusal);
    hold(what, image.len, (int64_t)twin.numbers.walk, (int64_t)walk);
}

static void create_keeps(const char *what, uint64_t vip, uint64_t refusal)
{
    struct ref_call call = call_of(VTIL_CREATE, vip);
    edit_keeps(what, &call, refusal);
}

static void append_keeps(const char *what, uint64_t vip, uint32_t op, uint64_t refusal)
{
    static struct bytes b;
    b.len = 0;
    put_instruction(&b, op, 0);
    edit_keeps(what, &(struct ref_call){VTIL_APPEND, vip, b.at, b.len}, refusal);
}

/* Three blocks: a nop, none, and a jmp. */
static void one_afternoon(void)
{
    static const uint32_t nop[] = {NOP}, jmp[] = {JMP};
    begin("blocks that are created and appended to before they are sent, and after: written out");
    begin_routine(3);
    put_block(&file, VIP, nop, 1, 0);
    put_block(&file, VIP + 1, NULL, 0, 0);
    put_block(&file, VIP + 2, jmp, 1, 0);
    hold("their end", 0, (int64_t)file.len, 114 + 68 + 36 + 84);
    open_routine(400, 400);
    start_due("start");
    next_due("the first", 2, 114, 68);
    append_keeps("to the one that was sent", VIP, NOP, 0);
    next_due("the second has moved", 3, 114 + 100, 36);
    append_keeps("to the one that was sent last", VIP + 1, NOP, 0);
    append_keeps("to a closed one", VIP + 2, NOP, VTIL_CLOSED_BLOCK);
    create_keeps("a new block", NEW, 0);
    create_keeps("the same again", NEW, VTIL_BLOCK_PRESENT);
    open_due();
    next_due("the third has moved twice", 4, 114 + 100 + 68, 84);
    append_keeps("to the new one, before it is sent", NEW, NOP, 0);
    append_keeps("to the first one", VIP, NOP, 0);
    next_due("the new one with its nop", 5, 114 + 132 + 68 + 84, 68);
    create_keeps("a block when the last was sent", NEW + 1, 0);
    append_keeps("to the new one, after it was sent", NEW, NOP, 0);
    next_due("the newest", 6, 114 + 132 + 68 + 84 + 100, 36);
    append_keeps("to it, after it was sent", NEW + 1, NOP, 0);
    open_due();
    end_due("the end");
    closed_due();
    for (int edits = 8; edits > 0; edits--)
        undo_due("undo when the walk is closed", 0);
    undo_due("nothing is left to take back", VTIL_NOTHING_TO_TAKE_BACK);
    walk_due("start on what was opened", VTIL_WALK_START, 0, 1);
    next_due("the first as it was", 2, 114, 68);
    end();
}

/* No block of a routine is there when the walk starts; each is created when the one before it was sent. */
static void grown_from_nothing(void)
{
    begin("a walk over a routine without blocks, into which one after the other is put");
    make_blocks(0, 0);
    open_routine(10 * EMPTY_BLOCK, 10 * ENTRY);
    start_due("start");
    for (uint64_t place = 0; place < 10; place++) {
        create_keeps("a block", NEW + place, 0);
        next_due("it is sent", place + 2, 114 + EMPTY_BLOCK * place, EMPTY_BLOCK);
    }
    create_keeps("no room for another", NEW + 10, VTIL_IMAGE_FULL);
    end_due("the end");
    edit_due("the last is removed", VTIL_REMOVE, NEW + 9, VTIL_JOURNAL_FULL);
    undo_due("the last is taken back", 0);
    edit_due("the first is removed", VTIL_REMOVE, NEW, VTIL_JOURNAL_FULL);
    end();
}

/* What is refused with a walk open ------------------------------------------------------------------------ */

/* Edits that are refused leave the walk, whatever refuses them; and next goes on where it stood. */
static void refused_edits(uint32_t place)
{
    static struct bytes b;
    twin.numbers.walk = place + 1;
    create_keeps("a vip that is there", VIP, VTIL_BLOCK_PRESENT);
    append_keeps("no such block", ABSENT, NOP, VTIL_NO_SUCH_BLOCK);
    append_keeps("a closed block", VIP + 2, NOP, VTIL_CLOSED_BLOCK);
    b.len = 0;
    put_instruction(&b, NOP, 0);
    b.at[4] = 'N';
    edit_keeps("an unknown operation", &(struct ref_call){VTIL_APPEND, VIP, b.at, b.len}, VTIL_UNKNOWN_OPERATION);
    b.at[4] = 'n';
    put(&b, 1, 0);
    edit_keeps("leftover", &(struct ref_call){VTIL_APPEND, VIP, b.at, b.len}, VTIL_LEFTOVER);
    edit_keeps("short", &(struct ref_call){VTIL_APPEND, VIP, b.at, b.len - 2}, VTIL_SHORT_FILE);
    create_keeps("no room in the image", NEW, VTIL_IMAGE_FULL);
    append_keeps("no room in the image for a nop", VIP, NOP, VTIL_IMAGE_FULL);
    change_lengths(file.len + 100, ENTRY - 1);
    create_keeps("no room in the journal", NEW, VTIL_JOURNAL_FULL);
    append_keeps("no room in the journal for a nop", VIP, NOP, VTIL_JOURNAL_FULL);
    change_lengths(file.len + 100, ENTRY);
    twin.numbers.sum = UINT64_MAX;
    append_keeps("a sum over 2^64 - 1", VIP, NOP, VTIL_SPOILED_BOOK);
    open_due();
    if (place < block_count)
        next_due("where it stood", place + 2, begins[place], length_of(place));
    else
        end_due("the end, where it stood");
}

static void refused_meanwhile(void)
{
    const vtil_rates rates = {{1, 1, 1, 1, 1, 1}};
    begin("create and append refused for every reason at every place of a walk, which stays");
    make_blocks(5, 1);
    for (uint32_t place = 0; place <= block_count; place++) {
        open_routine_at(NOP_SIZE - 1, 100, rates);
        refused_edits(place);
    }
    end();
}

/*
 * Remove and undo in a walk are 20 whatever else is wrong with them, as long as the book is not spoiled at first sight. The
 * same without a walk shows that something is.
 */
static void barred(const char *what, enum vtil_call kind, uint64_t vip, uint64_t refusal)
{
    keep_book();
    edit_due(what, kind, vip, refusal);
    bring_back_book();
    for (uint64_t walk = 1; walk <= 1 + block_count; walk++) {
        twin.numbers.walk = walk;
        edit_due(what, kind, vip, VTIL_WALK_OPEN);
        hold("the walk stays", image.len, (int64_t)twin.numbers.walk, (int64_t)walk);
        bring_back_book();
    }
}

static void barred_calls(void)
{
    const vtil_rates rates = {{7, 7, 7, 7, 7, 7}};
    begin("remove and undo in a walk are 20, before 15, 12, 16, an entry that does not fit, and the sum");
    make_blocks(3, 0);
    open_routine_at(50, length_of(2) + ENTRY, rates);
    barred("a block that can go", VTIL_REMOVE, VIP + 2, 0);
    barred("a block that is not there", VTIL_REMOVE, ABSENT, VTIL_NO_SUCH_BLOCK);
    barred("nothing to take back", VTIL_UNDO, 0, VTIL_NOTHING_TO_TAKE_BACK);
    twin.numbers.sum = 6;
    barred("a sum that is too small for the block", VTIL_REMOVE, VIP + 2, VTIL_SPOILED_BOOK);
    change_lengths(image.len, length_of(2) + ENTRY - 1);
    barred("no room in the journal", VTIL_REMOVE, VIP + 2, VTIL_JOURNAL_FULL);

    open_routine_at(50, 100, rates);
    use_entry(NULL, VIP + 1, 1, NOP_SIZE, 3);
    barred("an append that can be taken back", VTIL_UNDO, 0, 0);
    twin.numbers.sum = 6;
    barred("a sum that is too small for its rate", VTIL_UNDO, 0, VTIL_SPOILED_BOOK);
    twin.numbers.sum = 7;
    use_entry(NULL, VIP + 1, 1, NOP_SIZE + 1, 3);
    barred("an entry of another size", VTIL_UNDO, 0, VTIL_SPOILED_BOOK);
    use_entry(NULL, VIP + 1, 1, NOP_SIZE, 4);
    barred("an entry of no kind", VTIL_UNDO, 0, VTIL_SPOILED_BOOK);
    twin.numbers.used = ENTRY - 1;
    barred("less than an entry", VTIL_UNDO, 0, VTIL_SPOILED_BOOK);
    end();
}

/* Walks made by hand --------------------------------------------------------------------------------------- */

/* Every call, with what it is due where no walk is open, and where one is. */
static const struct {
    const char *what;
    enum vtil_call kind;
    uint64_t vip;
    uint64_t closed, open;
} every_call[] = {
    {"create", VTIL_CREATE, ABSENT, 0, 0},
    {"create again", VTIL_CREATE, NEW, VTIL_BLOCK_PRESENT, VTIL_BLOCK_PRESENT},
    {"append", VTIL_APPEND, NEW, 0, 0},
    {"append to no block", VTIL_APPEND, ABSENT, VTIL_NO_SUCH_BLOCK, VTIL_NO_SUCH_BLOCK},
    {"remove", VTIL_REMOVE, NEW, 0, VTIL_WALK_OPEN},
    {"remove no block", VTIL_REMOVE, ABSENT, VTIL_NO_SUCH_BLOCK, VTIL_WALK_OPEN},
    {"undo", VTIL_UNDO, 0, 0, VTIL_WALK_OPEN},
    {"start", VTIL_WALK_START, 0, 0, VTIL_WALK_OPEN},
    {"next", VTIL_WALK_NEXT, 0, VTIL_NO_WALK, 0},
    {"abandon", VTIL_WALK_ABANDON, 0, VTIL_NO_WALK, 0},
};
#define EVERY_CALL (sizeof every_call / sizeof every_call[0])

/* Where the walk stands after a call that was accepted. */
static uint64_t walk_after(enum vtil_call kind, uint64_t walk, uint64_t blocks)
{
    switch (kind) {
    case VTIL_WALK_START: return 1;
    case VTIL_WALK_NEXT: return walk == blocks + 1 ? 0 : walk + 1;
    case VTIL_WALK_ABANDON: return 0;
    default: return walk;
    }
}

static struct ref_call call_with_nop(enum vtil_call kind, uint64_t vip)
{
    static struct bytes nop;
    struct ref_call call = call_of(kind, vip);
    if (kind != VTIL_APPEND)
        return call;
    nop.len = 0;
    put_instruction(&nop, NOP, 0);
    call.bytes = nop.at;
    call.len = nop.len;
    return call;
}

/* The call by itself and as a list of one, every time on the same book. */
static void both_ways(const char *what, const struct ref_call *call, uint64_t refusal, uint64_t walk)
{
    keep_book();
    vtil_walk_answer answer = call_both(call);
    hold(what, (size_t)walk, (int64_t)answer.refusal, (int64_t)refusal);
    hold("the walk after it", (size_t)walk, (int64_t)answer.book.walk, (int64_t)walk);
    bring_back_book();
    vtil_run_answer run = run_list_on(call, 1);
    hold("the run", (size_t)walk, run.refusal == 0 && run.last == refusal && run.book.walk == walk, 1);
    hold("what the run hands out", (size_t)walk, run.offset == answer.offset && run.length == answer.length, 1);
    bring_back_book();
}

static void each_call_at(uint64_t walk, uint64_t blocks)
{
    bool spoiled = walk > 0 && walk - 1 > blocks;
    twin.numbers.walk = walk;
    hold("spoiled, or not", (size_t)walk, (int64_t)ref_routine(&twin).refusal, spoiled ? VTIL_SPOILED_BOOK : 0);
    look_once(twin.numbers);
    for (size_t i = 0; i < EVERY_CALL; i++) {
        struct ref_call call = call_with_nop(every_call[i].kind, every_call[i].vip);
        uint64_t refusal = walk == 0 ? every_call[i].closed : every_call[i].open;
        if (spoiled)
            refusal = VTIL_SPOILED_BOOK;
        both_ways(every_call[i].what, &call, refusal, refusal != 0 ? walk : walk_after(call.kind, walk, blocks));
    }
}

/* A book of so many blocks, of which the last was created, so that there is something to take back. */
static void open_created(uint32_t blocks)
{
    make_blocks(blocks - 1, 0);
    open_routine(EMPTY_BLOCK + EMPTY_BLOCK, 200);
    edit_due("create", VTIL_CREATE, NEW, 0);
    twin.numbers.sum = 1ull << 40; /* enough for every call here, and not too much for any */
}

static void numbers_by_hand(void)
{
    begin("every call, by itself and as a list, at walks of 0 to 2^64 - 1: spoiled over the block count, and not at it");
    seed(62);
    for (uint32_t blocks = 1; blocks <= MOST_BLOCKS; blocks++) {
        uint64_t walks[EXTREMES];
        open_created(blocks);
        for (uint64_t walk = 0; walk <= blocks + 3; walk++)
            each_call_at(walk, blocks);
        extremes(blocks + 2, walks);
        for (int i = 0; i < EXTREMES; i++)
            each_call_at(walks[i], blocks);
        for (unsigned bit = 3; bit < 64; bit++) {
            each_call_at(1ull << bit, blocks);
            each_call_at((1ull << bit) + 1, blocks); /* the bits of the place above the lowest are looked at too */
        }
    }
    end();
}

/* Without blocks the first place is the end, and any other is spoiled. */
static void no_blocks_by_hand(void)
{
    static const struct {
        enum vtil_call kind;
        uint64_t closed, open;
    } due_of[] = {
        {VTIL_CREATE, 0, 0},      {VTIL_APPEND, 15, 15},   {VTIL_REMOVE, 15, 20},      {VTIL_UNDO, 16, 20},
        {VTIL_WALK_START, 0, 20}, {VTIL_WALK_NEXT, 21, 0}, {VTIL_WALK_ABANDON, 21, 0},
    };
    uint64_t walks[EXTREMES];
    begin("the same without a block: a walk at the first place comes to its end");
    make_blocks(0, 0);
    open_routine(100, 100);
    extremes(2, walks);
    for (int i = 0; i < EXTREMES; i++) {
        uint64_t walk = twin.numbers.walk = walks[i];
        for (size_t kind = 0; kind < sizeof due_of / sizeof due_of[0]; kind++) {
            struct ref_call call = call_with_nop(due_of[kind].kind, ABSENT);
            uint64_t refusal = walk == 0 ? due_of[kind].closed : due_of[kind].open;
            if (walk > 1)
                refusal = VTIL_SPOILED_BOOK;
            both_ways("without a block", &call, refusal, refusal != 0 ? walk : walk_after(call.kind, walk, 0));
        }
        look_everywhere(twin.numbers);
    }
    end();
}

/* Looks and the charge take an open walk as they take a closed one: the same answers, at every place of the routine. */
static void looks(void)
{
    begin("looks everywhere and the charge at every place of a walk, and over the block count");
    make_conventions(2, 1, 3);
    open_routine(10, 10);
    for (uint64_t walk = 0; walk <= 6; walk++) {
        twin.numbers.walk = walk;
        look_everywhere(twin.numbers);
        uint64_t refusal = walk > 4 ? VTIL_SPOILED_BOOK : 0;
        hold("the charge", (size_t)walk, (int64_t)charge_both(twin.numbers, any_rates()).refusal, (int64_t)refusal);
    }
    end();
}

/* Every call is refused 13 on a book that is spoiled otherwise, whatever its walk: so that comes before 20 and 21. */
static void spoiled_due(const char *what)
{
    const uint64_t walks[] = {0, 1, 2, 3, 4, 5, 1ull << 63, UINT64_MAX};
    for (size_t i = 0; i < sizeof walks / sizeof walks[0]; i++) {
        twin.numbers.walk = walks[i];
        look_once(twin.numbers);
        for (size_t j = 0; j < EVERY_CALL; j++) {
            struct ref_call call = call_with_nop(every_call[j].kind, every_call[j].vip);
            both_ways(what, &call, VTIL_SPOILED_BOOK, walks[i]);
        }
    }
}

static void spoiled_numbers(const char *what, uint64_t written, uint64_t used)
{
    open_created(3);
    twin.numbers.written = written;
    twin.numbers.used = used;
    spoiled_due(what);
}

static void spoiled_byte(const char *what, size_t at, uint8_t byte)
{
    open_created(3);
    twin.image[at] = byte;
    copy_twin();
    spoiled_due(what);
}

static void spoiled_otherwise(void)
{
    begin("books that are spoiled otherwise: 13 by every call at every walk, before 20 and 21");
    open_created(3);
    uint64_t written = twin.numbers.written, used = twin.numbers.used;
    spoiled_numbers("nothing written", 0, 0);
    spoiled_numbers("one byte less", written - 1, used);
    spoiled_numbers("one byte more", written + 1, used);
    spoiled_numbers("written over the image", image.len + 1, used);
    spoiled_numbers("written far over the image", UINT64_MAX, used);
    spoiled_numbers("used over the journal", written, journal.len + 1);
    spoiled_numbers("used far over the journal", written, UINT64_MAX);
    spoiled_byte("a wrong mark", 0, 'v');
    spoiled_byte("the pad", 5, 1);
    spoiled_byte("one block less", 110, 2);
    spoiled_byte("one block more", 110, 4);
    spoiled_byte("a repeated block", begins[1], VIP);
    spoiled_byte("a byte after the routine", (size_t)written, 1);
    spoiled_byte("the last byte of the image", image.len - 1, 1);
    end();
}

/* These have a refusal of their own for the walk: 10 comes before it, and nothing that is lent is touched. */
static void too_large_due(uint8_t *at, size_t image_len, size_t journal_len, vtil_book book)
{
    const vtil_walk_answer next = vtil_walk_next(book, at, image_len, at, journal_len);
    const vtil_answer got[] = {
        vtil_remove_block(book, at, image_len, at, journal_len, VIP), vtil_undo(book, at, image_len, at, journal_len),
        vtil_walk_start(book, at, image_len, at, journal_len),        {next.refusal, next.book},
        vtil_walk_abandon(book, at, image_len, at, journal_len),
    };
    for (size_t i = 0; i < sizeof got / sizeof got[0]; i++) {
        next_case();
        hold("refusal", i, (int64_t)got[i].refusal, VTIL_LENDING_TOO_LARGE);
        hold_book(got[i].book, book);
    }
    hold("nothing is handed out", 0, next.offset == 0 && next.length == 0, 1);
}

static void over_the_limit(const struct room *room)
{
    static const uint64_t walks[] = {0, 1, UINT64_MAX};
    static const size_t lengths[] = {VTIL_MOST_LENT + 1, (size_t)1 << 32, (size_t)1 << 63, SIZE_MAX};
    begin("lendings over the limit, without access: 10 before 20 and 21, whatever the walk");
    for (size_t i = 0; i < sizeof walks / sizeof walks[0]; i++)
        for (size_t j = 0; j < sizeof lengths / sizeof lengths[0]; j++) {
            vtil_book book = any_book(114, 0);
            book.walk = walks[i];
            too_large_due(no_access(room), lengths[j], 0, book);
            too_large_due(no_access(room), 114, lengths[j], book);
        }
    end();
}

static struct ref_call calls[CALLS];

/* Words that are no list leave a book with any walk, and hand out nothing; a list of no calls does not look at it either. */
static void no_lists(void)
{
    static const uint64_t kinds[] = {7, 8, 255, 256, 1ull << 32, 1ull << 63, UINT64_MAX};
    begin("kinds over 6 are no list: 15 by vtil_run and vtil_run_on, and the book as it was, whatever the walk");
    make_blocks(2, 1);
    for (size_t i = 0; i < sizeof kinds / sizeof kinds[0]; i++)
        for (uint64_t walk = 0; walk < 6; walk++) {
            const uint64_t words[12] = {VTIL_WALK_START, 0, 0, 0, VTIL_WALK_NEXT, 0, 0, 0, kinds[i], 0, 0, 0};
            open_routine(0, 0);
            twin.numbers.walk = walk == 5 ? UINT64_MAX : walk;
            lend_list(words, 12, file.at, 0);
            hold_run(library_run_on(twin.numbers), (vtil_run_answer){.refusal = 15, .book = twin.numbers});
            run_list_on(calls, 0);
            lend_list(words, 12, file.at, 0);
            lend_file(&file);
            hold_run(library_run(any_rates()), (vtil_run_answer){.refusal = 15});
        }
    end();
}

/* Lists ------------------------------------------------------------------------------------------------------- */

/* A list with what each of its calls is due, on a routine of two blocks: at 114 with 68 bytes, and then one with 119. */
static const struct step {
    enum vtil_call kind;
    uint64_t vip, refusal, offset, length;
} steps[] = {
    {VTIL_WALK_NEXT, 0, 21, 0, 0},   {VTIL_WALK_ABANDON, 0, 21, 0, 0}, {VTIL_WALK_START, 0, 0, 0, 0},
    {VTIL_WALK_START, 0, 20, 0, 0},  {VTIL_WALK_NEXT, 0, 0, 114, 68},  {VTIL_APPEND, 5, 0, 0, 0},
    {VTIL_REMOVE, 5, 20, 0, 0},      {VTIL_UNDO, 0, 20, 0, 0},         {VTIL_WALK_NEXT, 0, 0, 214, 119},
    {VTIL_CREATE, 50, 0, 0, 0},      {VTIL_APPEND, 50, 0, 0, 0},       {VTIL_WALK_NEXT, 0, 0, 333, 68},
    {VTIL_CREATE, 50, 14, 0, 0},     {VTIL_WALK_NEXT, 0, 0, 0, 0},     {VTIL_WALK_NEXT, 0, 21, 0, 0},
    {VTIL_UNDO, 0, 0, 0, 0},         {VTIL_REMOVE, 5, 0, 0, 0},        {VTIL_WALK_START, 0, 0, 0, 0},
    {VTIL_WALK_NEXT, 0, 0, 114, 36}, {VTIL_WALK_ABANDON, 0, 0, 0, 0},  {VTIL_WALK_ABANDON, 0, 21, 0, 0},
    {VTIL_WALK_START, 0, 0, 0, 0},   {VTIL_WALK_NEXT, 0, 0, 114, 36},  {VTIL_WALK_NEXT, 0, 0, 150, 119},
    {VTIL_WALK_START, 0, 20, 0, 0},  {VTIL_WALK_NEXT, 0, 0, 0, 0},     {VTIL_UNDO, 0, 0, 0, 0},
};
#define STEPS (sizeof steps / sizeof steps[0])

static void make_steps(void)
{
    for (size_t i = 0; i < STEPS; i++)
        calls[i] = call_with_nop(steps[i].kind, steps[i].vip);
}

static void open_two(void)
{
    make_blocks(2, 1);
    open_routine(200, 400);
}

/* What a list of the first `count` steps is due; of no steps, nothing. */
static void hold_last(const char *what, size_t count, vtil_run_answer run)
{
    static const struct step none = {VTIL_CREATE, 0, 0, 0, 0};
    const struct step *last = count == 0 ? &none : &steps[count - 1];
    hold(what, count, (int64_t)run.refusal, 0);
    hold(what, count, (int64_t)run.last, (int64_t)last->refusal);
    hold(what, count, (int64_t)run.offset, (int64_t)last->offset);
    hold(what, count, (int64_t)run.length, (int64_t)last->length);
}

static void written_out(void)
{
    begin("a list of every kind of call: one by one, by the machine, and parted everywhere by vtil_run and vtil_run_on");
    make_steps();
    open_two();
    struct ref_machine *machine = ref_machine_start(file.at, file.len, image.len, journal.len, twin.numbers.rates);
    for (size_t i = 0; i < STEPS; i++) {
        vtil_walk_answer answer = call_both(&calls[i]);
        hold_last("one by one", i + 1, (vtil_run_answer){0, answer.refusal, answer.book, answer.offset, answer.length});
        hold_machine(machine, &calls[i], answer);
    }
    ref_machine_free(machine);
    for (size_t count = 0; count <= STEPS; count++)
        for (size_t then = count; then <= STEPS; then++) {
            hold_last("by vtil_run", count, run_list(&file, calls, count, any_rates()));
            hold_last("by vtil_run_on", then == count ? 0 : then, run_list_on(calls + count, then - count));
        }
    end();
}

/* The vips and the parts that calls of a walk have in a list are ignored; but a part has to be one. */
static void odd_parts(void)
{
    static const uint8_t bytes[4] = {1, 2, 3, 4};
    begin("lists of walks with vips, and with parts of the bytes, that count for nothing");
    for (uint64_t from = 0; from <= 5; from++)
        for (uint64_t to = 0; to <= 5; to++) {
            const uint64_t words[8] = {VTIL_WALK_START, ABSENT, from, to, VTIL_WALK_NEXT, UINT64_MAX, from, to};
            bool part = from <= to && to <= 4;
            open_two();
            vtil_book book = twin.numbers;
            struct ref_list list = {words, 8, bytes, sizeof bytes};
            lend_list(words, 8, bytes, sizeof bytes);
            vtil_run_answer due = ref_run_on(&twin, &list);
            hold("a list, or none", from, (int64_t)due.refusal, part ? 0 : VTIL_NO_SUCH_BLOCK);
            hold("the first block, or nothing", from, (int64_t)due.length, part ? 68 : 0);
            hold_run(library_run_on(book), due);
        }
    end();
}

int main(void)
{
    set_up_groups("guard_walk");
    set_up_book_pair();
    set_up_calls();
    struct room untouched = make_room(1);

    plain_walks();
    kept_places();
    ends();
    one_afternoon();
    grown_from_nothing();
    refused_meanwhile();
    barred_calls();
    numbers_by_hand();
    no_blocks_by_hand();
    looks();
    spoiled_otherwise();
    over_the_limit(&untouched);
    no_lists();
    written_out();
    odd_parts();
    return finish();
}
