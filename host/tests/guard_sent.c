/*
 * guard_sent FILE..: what walks over the blocks of files hand out while authors work,
 * between guard pages, against the reference, the routine machine and reading by offset;
 * and lists of calls with walks in them, one by one and by vtil_run and vtil_run_on.
 */
#include <stdbool.h>
#include <string.h>

#include "book_pair.h"
#include "by_hand.h"
#include "calls.h"
#include "cases.h"
#include "group.h"
#include "reference.h"
#include "vtil.h"

#define MADE 400
#define BUSY 600
#define LISTS 150
#define SHORT 14 /* calls in a list that is run in all its parts */

static struct bytes *samples;
static size_t sample_count;

/* Walks that nobody disturbs -------------------------------------------------------------------------- */

/* Where the block at this place stands in the image, by reading by offset; the end: 0 and 0. */
struct part {
    uint64_t offset, length;
};

static struct part part_at(uint64_t place)
{
    size_t written = (size_t)twin.numbers.written;
    vtil_routine_read routine = ref_read_routine(twin.image, written);
    struct part part = {routine.blocks_at, 0};
    if (place == routine.blocks)
        return (struct part){0, 0};
    for (uint64_t i = 0; i <= place; i++) {
        part.offset += part.length;
        part.length = ref_read_block(twin.image, written, part.offset).end - part.offset;
    }
    return part;
}

/* Every block, and the end, is handed out as reading by offset has it, and as the machine says. */
static void walk_file(const struct bytes *from)
{
    vtil_rates rates = any_rates();
    lend_book(from->len + below(30), below(30));
    if (!open_at_rates(from, rates))
        return;
    struct ref_machine *machine = ref_machine_start(from->at, from->len, image.len, journal.len, rates);
    struct ref_call start = call_of(VTIL_WALK_START, 0), next = call_of(VTIL_WALK_NEXT, 0);
    uint64_t blocks = ref_routine(&twin).blocks;
    hold_machine(machine, &start, call_both(&start));
    for (uint64_t place = 0; place <= blocks; place++) {
        struct part part = part_at(place);
        vtil_walk_answer answer = call_both(&next);
        hold_machine(machine, &next, answer);
        hold("offset", place, (int64_t)answer.offset, (int64_t)part.offset);
        hold("length", place, (int64_t)answer.length, (int64_t)part.length);
        hold("walk", place, (int64_t)answer.book.walk, place == blocks ? 0 : (int64_t)place + 2);
        if (below(4) == 0)
            look_once(twin.numbers);
    }
    ref_machine_free(machine);
}

static void files(void)
{
    static struct bytes b;
    begin("walks over the samples and over made routines: what reading by offset has, and the machine");
    seed(61);
    for (size_t i = 0; i < sample_count; i++)
        walk_file(&samples[i]);
    for (int i = 0; i < MADE; i++) {
        make_good_routine(&b);
        walk_file(&b);
    }
    end();
}

/* Lists ------------------------------------------------------------------------------------------------------- */

static struct ref_call calls[CALLS];
static struct bytes instructions[CALLS];

/* Half of them are calls of a walk. */
static struct ref_call any_walking(struct bytes *made)
{
    if (below(3) == 0)
        return call_of(VTIL_WALK_NEXT, some_vip());
    if (below(10) == 0)
        return call_of(VTIL_WALK_START, some_vip());
    return any_call(made);
}

static void one_list(const struct bytes *from)
{
    vtil_rates rates = any_rates();
    lend_book((size_t)ref_check(from->at, from->len) + below(5) * below(150), below(5) * below(250));
    if (!open_at_rates(from, rates))
        return;
    struct ref_machine *machine = ref_machine_start(from->at, from->len, image.len, journal.len, rates);
    for (size_t i = 0; i < CALLS; i++) {
        calls[i] = any_walking(&instructions[i]);
        vtil_walk_answer answer = call_both(&calls[i]);
        hold_machine(machine, &calls[i], answer);
        if (below(16) == 0)
            look_once(answer.book);
    }
    ref_machine_free(machine);
    hold_book(run_list(from, calls, CALLS, rates).book, twin.numbers);
    for (size_t count = 0; count <= SHORT; count++) {
        run_list(from, calls, count, rates);
        run_list_on(calls + count, SHORT - count);
    }
    run_list_on(calls + SHORT, CALLS - SHORT);
}

static void lists(void)
{
    static const int answers[] = {0, 1, 7, 11, 12, 14, 15, 16, 17, 18, 19, 20, 21, -1};
    static struct bytes b;
    begin("long lists of calls, half of them of walks: against the machine, and by vtil_run and vtil_run_on in parts");
    seed(63);
    for (int i = 0; i < LISTS; i++) {
        make_any_routine(samples, sample_count, &b);
        one_list(&b);
    }
    hold("no call was refused 13", 0, (int64_t)group.answers[VTIL_SPOILED_BOOK], 0);
    end_of_random(20, answers);
}

/* Any numbers in the book between the calls, at which the walk is sound or not; what follows is the reference's. */
static void wild_lists(void)
{
    static const int answers[] = {0, 11, 12, 13, 14, 15, 16, 18, 20, 21, -1};
    static struct bytes b;
    begin("lists of calls on books whose walk is made by hand, between calls too, and by vtil_run_on");
    seed(64);
    for (int i = 0; i < LISTS; i++) {
        uint64_t walks[EXTREMES];
        make_any_routine(samples, sample_count, &b);
        lend_book((size_t)ref_check(b.at, b.len) + 100 + below(400), 100 + below(900));
        open_both(&b);
        for (size_t j = 0; j < CALLS; j++) {
            calls[j] = any_walking(&instructions[j]);
            extremes(ref_routine(&twin).blocks + 1, walks);
            if (below(3) == 0)
                twin.numbers.walk = walks[below(EXTREMES)];
            else if (below(3) == 0)
                twin.numbers.walk = below(3);
            call_both(&calls[j]);
        }
        twin.numbers.walk = below(3);
        run_list_on(calls, CALLS);
    }
    end_of_random(20, answers);
}

/* What the policy system gets --------------------------------------------------------------------------------- */

#define MOST_SENT 64

/* Its copies of the blocks, one after the other, and of each how many instructions came to the block after it was sent. */
static struct bytes sent;
static struct copy {
    size_t at, len;
    uint64_t late;
} copies[MOST_SENT];
static size_t sent_count;

static struct ref_machine *machine;

static vtil_walk_answer make_call(const struct ref_call *call)
{
    vtil_walk_answer answer = call_both(call);
    hold_machine(machine, call, answer);
    return answer;
}

/* The bytes are copied out of the image before anything can move them. */
static void take_copy(vtil_walk_answer answer)
{
    bool inside = answer.offset <= image.len && answer.length <= image.len - answer.offset;
    hold("a part of the image", image.len, inside, 1);
    if (!inside || sent_count == MOST_SENT)
        return;
    copies[sent_count++] = (struct copy){sent.len, (size_t)answer.length, 0};
    put_bytes(&sent, image.plain + answer.offset, (size_t)answer.length);
}

/* The next block, as it stands there. Whether there was one. */
static bool send_next(void)
{
    struct ref_call next = call_of(VTIL_WALK_NEXT, 0);
    struct part part = part_at(sent_count);
    vtil_walk_answer answer = make_call(&next);
    hold("accepted", image.len, (int64_t)answer.refusal, 0);
    hold("the offset of the next block", sent_count, (int64_t)answer.offset, (int64_t)part.offset);
    hold("the length of the next block", sent_count, (int64_t)answer.length, (int64_t)part.length);
    if (answer.length != 0)
        take_copy(answer);
    return answer.length != 0;
}

/* The place of the block with this vip; where there is none, how many there are. */
static uint64_t place_of(uint64_t vip)
{
    uint64_t place = 0, blocks = ref_routine(&twin).blocks;
    while (place < blocks && ref_block(&twin, place).vip != vip)
        place++;
    return place;
}

static void append_some(void)
{
    static struct bytes made;
    struct ref_call call = call_of(VTIL_APPEND, some_vip());
    uint64_t place = place_of(call.vip);
    make_appended(&made);
    call.bytes = made.at;
    call.len = made.len;
    if (make_call(&call).refusal == 0 && place < sent_count)
        copies[place].late++;
}

/* An author at work, who tries what is not allowed now too. */
static void author(void)
{
    struct ref_call call = call_of(VTIL_CREATE, below(3) == 0 ? some_vip() : below(UINT64_MAX));
    switch (below(10)) {
    case 0:
    case 1:
    case 2: make_call(&call); return;
    case 3: call = call_of(VTIL_REMOVE, some_vip()); break;
    case 4: call = call_of(VTIL_UNDO, 0); break;
    case 5: call = call_of(VTIL_WALK_START, 0); break;
    case 6: look_once(twin.numbers); return;
    default: append_some(); return;
    }
    hold("not in a walk", image.len, (int64_t)make_call(&call).refusal, VTIL_WALK_OPEN);
}

/* The block as it stands at the end is the one that was sent, with what came to it later behind its last instruction. */
static void hold_copy(const struct copy *copy, const uint8_t *at, const vtil_block_read *standing)
{
    const uint8_t *bytes = sent.at + copy->at;
    vtil_block_read block = ref_read_block(bytes, copy->len, 0);
    size_t instructions = (size_t)(block.prev_at - 4 - BLOCK_FRONT), links = copy->len - (size_t)(block.prev_at - 4);
    hold("a block is sent", copy->at, block.refusal == 0 && block.end == copy->len, 1);
    if (block.refusal != 0)
        return;
    hold("the next one that stands", copy->at, (int64_t)block.vip, (int64_t)standing->vip);
    hold("its front", copy->at, memcmp(bytes, at, BLOCK_FRONT - 4), 0);
    hold("its instructions", copy->at, (int64_t)(block.instructions + copy->late), (int64_t)standing->instructions);
    hold("their bytes", copy->at, memcmp(bytes + BLOCK_FRONT, at + BLOCK_FRONT, instructions), 0);
    hold("its links", copy->at, memcmp(bytes + block.prev_at - 4, twin.image + standing->prev_at - 4, links), 0);
}

/* Every block that stands, each once and in order. */
static void hold_copies(void)
{
    size_t written = (size_t)twin.numbers.written;
    vtil_routine_read routine = ref_read_routine(twin.image, written);
    uint64_t at = routine.blocks_at;
    hold("every block is sent", image.len, (int64_t)sent_count, (int64_t)routine.blocks);
    for (size_t i = 0; i < sent_count && i < routine.blocks; i++) {
        vtil_block_read standing = ref_read_block(twin.image, written, at);
        hold_copy(&copies[i], twin.image + at, &standing);
        at = standing.end;
    }
}

/* A whole walk, with authors at work between its calls. */
static void busy_walk(void)
{
    struct ref_call start = call_of(VTIL_WALK_START, 0);
    sent.len = 0;
    sent_count = 0;
    hold("started", image.len, (int64_t)make_call(&start).refusal, 0);
    do
        for (uint64_t left = below(4); left > 0; left--)
            author();
    while (send_next());
    hold_copies();
}

/* One that is abandoned; the next one sends everything again. */
static void left_walk(void)
{
    struct ref_call start = call_of(VTIL_WALK_START, 0), abandon = call_of(VTIL_WALK_ABANDON, 0);
    sent_count = 0;
    make_call(&start);
    for (uint64_t left = below(5); left > 0; left--) {
        author();
        if (!send_next())
            return;
    }
    hold("abandoned", image.len, (int64_t)make_call(&abandon).refusal, 0);
}

static void policy_system(void)
{
    static const int answers[] = {0, 11, 12, 14, 15, 18, 20, -1};
    static struct bytes b;
    begin("what a policy system gets while authors work: every block that stands, each once and in order, as it stood");
    seed(65);
    for (int i = 0; i < BUSY; i++) {
        vtil_rates rates = any_rates();
        make_any_routine(samples, sample_count, &b);
        lend_book((size_t)ref_check(b.at, b.len) + below(1200), below(700));
        open_at_rates(&b, rates);
        machine = ref_machine_start(b.at, b.len, image.len, journal.len, rates);
        if (below(2) == 0)
            left_walk();
        busy_walk();
        struct ref_call undo = call_of(VTIL_UNDO, 0), remove = call_of(VTIL_REMOVE, some_vip());
        make_call(&remove);
        make_call(&undo);
        make_call(&undo);
        busy_walk();
        ref_machine_free(machine);
    }
    hold("no call was refused 13", 0, (int64_t)group.answers[VTIL_SPOILED_BOOK], 0);
    end_of_random(20, answers);
}

/* Blocks that are sent by lists, each of which ends in a next: the answer of the list is that of the next. */
static void sent_by_lists(void)
{
    static struct bytes b;
    begin("blocks that are sent by lists of edits, each with a next at its end");
    seed(66);
    for (int i = 0; i < BUSY; i++) {
        vtil_run_answer run = {.book = {0}};
        make_any_routine(samples, sample_count, &b);
        lend_book((size_t)ref_check(b.at, b.len) + below(600), below(500));
        open_both(&b);
        edit_due("start", VTIL_WALK_START, 0, 0);
        for (uint64_t place = 0; run.refusal == 0 && (place == 0 || run.length != 0); place++) {
            size_t count = below(4);
            for (size_t j = 0; j < count; j++)
                do
                    calls[j] = any_call(&instructions[j]);
                while (calls[j].kind >= VTIL_WALK_START);
            calls[count] = call_of(VTIL_WALK_NEXT, 0);
            run = run_list_on(calls, count + 1);
            struct part part = part_at(run.length == 0 ? ref_routine(&twin).blocks : place);
            hold("accepted", place, (int64_t)run.last, 0);
            hold("the offset", place, (int64_t)run.offset, (int64_t)part.offset);
            hold("the length", place, (int64_t)run.length, (int64_t)part.length);
            hold("the end when all are sent", place, run.length == 0, place == ref_routine(&twin).blocks);
        }
        edit_due("next after the end", VTIL_WALK_NEXT, 0, VTIL_NO_WALK);
    }
    end();
}

int main(int argc, char **argv)
{
    (void)argc;
    set_up_groups("guard_sent");
    sample_count = load_samples(argv + 1, &samples);
    set_up_book_pair();
    set_up_calls();

    files();
    lists();
    wild_lists();
    policy_system();
    sent_by_lists();
    return finish();
}
