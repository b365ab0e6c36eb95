#include "calls.h"

#include <string.h>

#include "book_pair.h"
#include "group.h"
#include "lent.h"

static struct room instruction_room, words_room, bytes_room, file_room;
static struct lent lent_words, lent_bytes, lent_file;

void set_up_calls(void)
{
    instruction_room = make_room(BYTES_MAX);
    words_room = make_room(4 * CALLS * sizeof(uint64_t));
    bytes_room = make_room(BYTES_MAX);
    file_room = make_room(BYTES_MAX);
}

/* One call in both ------------------------------------------------------------------------ */

#define EDITED numbers, image.writable, image.len, journal.writable, journal.len
#define WALKED numbers, image.readable, image.len, journal.readable, journal.len

static vtil_walk_answer no_block(vtil_answer answer)
{
    return (vtil_walk_answer){.refusal = answer.refusal, .book = answer.book};
}

static vtil_walk_answer library_call(vtil_book numbers, const struct ref_call *call)
{
    struct lent bytes = lend(&instruction_room, call->len, below(2) == 0);
    memcpy(bytes.plain, call->bytes, call->len);
    switch (call->kind) {
    case VTIL_CREATE: return no_block(vtil_create_block(EDITED, call->vip));
    case VTIL_REMOVE: return no_block(vtil_remove_block(EDITED, call->vip));
    case VTIL_APPEND: return no_block(vtil_append(EDITED, call->vip, bytes.readable, bytes.len));
    case VTIL_UNDO: return no_block(vtil_undo(EDITED));
    case VTIL_WALK_START: return no_block(vtil_walk_start(WALKED));
    case VTIL_WALK_NEXT: return vtil_walk_next(WALKED);
    default: return no_block(vtil_walk_abandon(WALKED));
    }
}

vtil_walk_answer call_both(const struct ref_call *call)
{
    vtil_book before = twin.numbers;
    vtil_walk_answer want = ref_step(&twin, call);
    next_case();
    hold_step(library_call(before, call), want);
    hold_bytes();
    return want;
}

void hold_machine(struct ref_machine *machine, const struct ref_call *call, vtil_walk_answer library)
{
    static uint8_t due_image[BYTES_MAX], due_journal[BYTES_MAX];
    vtil_walk_answer due = ref_machine_step(machine, call);
    ref_machine_image(machine, due_image);
    ref_machine_journal(machine, due_journal);
    hold("the machine's refusal", image.len, (int64_t)library.refusal, (int64_t)due.refusal);
    hold_book(library.book, due.book);
    hold("the machine's offset", image.len, (int64_t)library.offset, (int64_t)due.offset);
    hold("the machine's length", image.len, (int64_t)library.length, (int64_t)due.length);
    hold("the machine's image", image.len, memcmp(image.plain, due_image, image.len) == 0, 1);
    hold("the machine's journal", journal.len, memcmp(journal.plain, due_journal, journal.len) == 0, 1);
}

struct ref_call call_of(enum vtil_call kind, uint64_t vip)
{
    static const uint8_t no_bytes_at[1];
    return (struct ref_call){kind, vip, no_bytes_at, 0};
}

uint64_t some_vip(void)
{
    vtil_routine_look routine = ref_routine(&twin);
    if (routine.refusal == 0 && routine.blocks > 0 && below(4) != 0)
        return ref_block(&twin, below(routine.blocks)).vip;
    return below(6);
}

/* The more often one stands here, the more often it comes. */
enum vtil_call any_kind(void)
{
    static const enum vtil_call kinds[] = {
        VTIL_CREATE, VTIL_CREATE, VTIL_CREATE, VTIL_REMOVE, VTIL_REMOVE,     VTIL_APPEND,    VTIL_APPEND,    VTIL_APPEND,
        VTIL_APPEND, VTIL_APPEND, VTIL_UNDO,   VTIL_UNDO,   VTIL_WALK_START, VTIL_WALK_NEXT, VTIL_WALK_NEXT, VTIL_WALK_ABANDON,
    };
    return kinds[below(sizeof kinds / sizeof kinds[0])];
}

struct ref_call any_call(struct bytes *made)
{
    enum vtil_call kind = any_kind();
    struct ref_call call = call_of(kind, some_vip());
    if (kind == VTIL_CREATE && below(3) != 0)
        call.vip = below(UINT64_MAX);
    if (kind != VTIL_APPEND)
        return call;
    make_appended(made);
    call.bytes = made->at;
    call.len = made->len;
    return call;
}

void close_walk(void)
{
    struct ref_call abandon = call_of(VTIL_WALK_ABANDON, 0);
    if (twin.numbers.walk != 0)
        hold("abandoned", image.len, (int64_t)call_both(&abandon).refusal, 0);
}

/* Lists in one call ---------------------------------------------------------------------------- */

#define LIST (const uint64_t *)(const void *)lent_words.readable, lent_words.len / 8, lent_bytes.readable, lent_bytes.len

void lend_list(const uint64_t *words, size_t count, const uint8_t *bytes, size_t len)
{
    lent_words = lend(&words_room, 8 * count, below(2) == 0);
    lent_bytes = lend(&bytes_room, len, below(2) == 0);
    memcpy(lent_words.plain, words, 8 * count);
    memcpy(lent_bytes.plain, bytes, len);
}

/* Each call's words, and the bytes of all. */
static void lend_calls(const struct ref_call *calls, size_t count)
{
    static uint64_t words[4 * CALLS];
    static struct bytes bytes;
    bytes.len = 0;
    for (size_t i = 0; i < count; i++) {
        const struct ref_call *call = &calls[i];
        words[4 * i] = call->kind;
        words[4 * i + 1] = call->vip;
        words[4 * i + 2] = bytes.len;
        put_bytes(&bytes, call->bytes, call->len);
        words[4 * i + 3] = bytes.len;
    }
    lend_list(words, 4 * count, bytes.at, bytes.len);
}

void lend_file(const struct bytes *file)
{
    lent_file = lend(&file_room, file->len, below(2) == 0);
    memcpy(lent_file.plain, file->at, file->len);
}

vtil_run_answer library_run(vtil_rates rates)
{
    return vtil_run(lent_file.readable, lent_file.len, image.writable, image.len, journal.writable, journal.len, LIST, rates);
}

vtil_run_answer library_run_on(vtil_book numbers)
{
    return vtil_run_on(numbers, image.writable, image.len, journal.writable, journal.len, LIST);
}

vtil_run_answer due_of_calls(const struct ref_call *calls, size_t count)
{
    vtil_run_answer due = {.book = twin.numbers};
    for (size_t i = 0; i < count; i++) {
        vtil_walk_answer last = ref_step(&twin, &calls[i]);
        due = (vtil_run_answer){0, last.refusal, last.book, last.offset, last.length};
    }
    return due;
}

void hold_run(vtil_run_answer got, vtil_run_answer want)
{
    next_case();
    group.answers[want.refusal != 0 ? want.refusal : want.last]++;
    hold("refusal", image.len, (int64_t)got.refusal, (int64_t)want.refusal);
    hold("the last call's refusal", image.len, (int64_t)got.last, (int64_t)want.last);
    hold_book(got.book, want.book);
    hold("the last call's offset", image.len, (int64_t)got.offset, (int64_t)want.offset);
    hold("the last call's length", image.len, (int64_t)got.length, (int64_t)want.length);
    hold_bytes();
}

vtil_run_answer run_list(const struct bytes *file, const struct ref_call *calls, size_t count, vtil_rates rates)
{
    lend_calls(calls, count);
    lend_file(file);
    lend_book(image.len, journal.len);
    vtil_answer opened = ref_open(&twin, file->at, file->len, rates);
    vtil_run_answer want = {.refusal = opened.refusal, .book = opened.book};
    if (opened.refusal == 0)
        want = due_of_calls(calls, count);
    hold_run(library_run(rates), want);
    return want;
}

vtil_run_answer run_list_on(const struct ref_call *calls, size_t count)
{
    vtil_book before = twin.numbers;
    lend_calls(calls, count);
    vtil_run_answer want = due_of_calls(calls, count);
    hold_run(library_run_on(before), want);
    return want;
}
