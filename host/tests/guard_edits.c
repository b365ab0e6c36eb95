/*
 * guard_edits FILE..: create, remove, append, undo, run and run_on, and among them the
 * calls of a walk, between guard pages, against the reference: its calls on a book, and
 * the routine machine.
 */
#include <stdbool.h>
#include <stdlib.h>
#include <string.h>

#include "book_pair.h"
#include "calls.h"
#include "cases.h"
#include "group.h"
#include "lent.h"
#include "reference.h"

#define LISTS 350
#define DAMAGED_JOURNALS 6000
#define RANDOM_WORDS 16000

static struct bytes *samples;
static size_t sample_count;

/* A number near `middle`, or an extreme one. */
static uint64_t near(uint64_t middle)
{
    uint64_t odd[EXTREMES];
    extremes(middle, odd);
    return below(3) == 0 ? odd[below(EXTREMES)] : middle + below(3) - 1;
}

/* Document 01's instances -------------------------------------------------------------------- */

static void due(enum vtil_call kind, uint64_t vip, uint64_t refusal, uint64_t written, uint64_t used)
{
    struct ref_call call = call_of(kind, vip);
    vtil_walk_answer answer = call_both(&call);
    hold("document 01's refusal", (size_t)vip, (int64_t)answer.refusal, (int64_t)refusal);
    hold("document 01's length", (size_t)vip, (int64_t)answer.book.written, (int64_t)written);
    hold("document 01's used", (size_t)vip, (int64_t)answer.book.used, (int64_t)used);
}

static void open_smallest(size_t image_len, size_t journal_len)
{
    static struct bytes smallest;
    smallest.len = 0;
    put_front(&smallest);
    put(&smallest, 4, 0);
    lend_book(image_len, journal_len);
    open_both(&smallest);
}

static void hold_vips(size_t count, const uint64_t *vips)
{
    for (size_t i = 0; i < count; i++) {
        vtil_block_look look = vtil_block(twin.numbers, image.readable, image.len, journal.readable, journal.len, i);
        hold("the vip at a place", i, (int64_t)look.vip, (int64_t)vips[i]);
    }
}

static void instances(void)
{
    begin("document 01's instances of editing");
    open_smallest(222, 116);
    due(VTIL_UNDO, 0, 16, 114, 0);
    due(VTIL_CREATE, 5, 0, 150, 20);
    due(VTIL_CREATE, 6, 0, 186, 40);
    due(VTIL_CREATE, 7, 0, 222, 60);
    hold_vips(3, (const uint64_t[]){5, 6, 7});
    due(VTIL_REMOVE, 5, 0, 186, 116);
    hold_vips(2, (const uint64_t[]){7, 6});
    due(VTIL_UNDO, 0, 0, 222, 60);
    hold_vips(3, (const uint64_t[]){5, 6, 7});

    open_smallest(150, 40);
    due(VTIL_CREATE, 1, 0, 150, 20);
    due(VTIL_CREATE, 2, 11, 150, 20);
    open_smallest(149, 19);
    due(VTIL_CREATE, 1, 11, 114, 0);
    open_smallest(150, 19);
    due(VTIL_CREATE, 1, 12, 114, 0);
    end();
}

/* Long lists of calls ---------------------------------------------------------------------------- */

static struct bytes instructions[CALLS];
static struct ref_call calls[CALLS];

static void make_call(size_t which)
{
    calls[which] = any_call(&instructions[which]);
}

/* The machine's routine is charged what the library charges for the book. */
static void hold_machine_charge(const struct ref_machine *machine, vtil_book numbers)
{
    vtil_rates rates = any_rates();
    vtil_charge_look got = vtil_charge(numbers, image.readable, image.len, journal.readable, journal.len, rates);
    hold("the charge's refusal", image.len, (int64_t)got.refusal, 0);
    hold("the machine's charge", image.len, (int64_t)got.cents, (int64_t)ref_machine_cents(machine, rates));
}

/* Undo until nothing stands: the file's routine and its book again, and a journal of zeros. */
static void take_all_back(const uint8_t *opened, vtil_book book)
{
    struct ref_call undo = call_of(VTIL_UNDO, 0);
    close_walk();
    while (call_both(&undo).refusal == 0)
        continue;
    hold_book(twin.numbers, book);
    hold("the routine of the file", image.len, memcmp(image.plain, opened, image.len) == 0, 1);
}

/* The list in one call; parted, both parts by a run; and parted, the first part call by call. */
static void run_in_parts(const struct bytes *file)
{
    size_t parted = below(CALLS + 1);
    vtil_rates rates = any_rates();
    run_list(file, calls, CALLS, rates);
    run_list(file, calls, parted, rates);
    run_list_on(calls + parted, CALLS - parted);
    open_both(file);
    for (size_t i = 0; i < parted; i++)
        call_both(&calls[i]);
    run_list_on(calls + parted, CALLS - parted);
}

static void one_list(const struct bytes *file)
{
    static uint8_t opened[BYTES_MAX];
    size_t size = (size_t)ref_check(file->at, file->len);
    lend_book(size + below(5) * below(100), below(5) * below(150));
    if (!open_both(file))
        return;
    memcpy(opened, image.plain, image.len);
    vtil_book book = twin.numbers;
    struct ref_machine *machine = ref_machine_start(file->at, file->len, image.len, journal.len, book.rates);
    for (size_t i = 0; i < CALLS; i++) {
        make_call(i);
        vtil_walk_answer answer = call_both(&calls[i]);
        hold_machine(machine, &calls[i], answer);
        hold_machine_charge(machine, answer.book);
        if (below(16) == 0)
            look_once(answer.book);
    }
    ref_machine_free(machine);
    take_all_back(opened, book);
    run_in_parts(file);
}

static void lists(void)
{
    static const int answers[] = {0, 1, 2, 5, 6, 7, 8, 11, 12, 14, 15, 16, 17, 18, 19, 20, 21, -1};
    static struct bytes b;
    begin("long lists of calls at tight lengths, against the machine, and the same by vtil_run and vtil_run_on");
    seed(7);
    for (int i = 0; i < LISTS; i++) {
        make_any_routine(samples, sample_count, &b);
        one_list(&b);
    }
    end_of_random(10, answers);
}

/* An undo that a cut image has no room for is refused 13; all else is as it is at lengths that stay. */
static void changed_lengths(void)
{
    static const int answers[] = {0, 11, 12, 13, 14, 15, 16, 18, 19, 20, 21, -1};
    static struct bytes b;
    begin("lists of calls between which image and journal are lengthened or cut");
    seed(12);
    for (int i = 0; i < LISTS; i++) {
        make_good_routine(&b);
        lend_book((size_t)ref_check(b.at, b.len) + below(100), below(200));
        open_both(&b);
        for (size_t left = CALLS; left > 0; left--) {
            make_call(0);
            vtil_walk_answer answer = call_both(&calls[0]);
            if (answer.refusal == 13)
                hold("only an undo is refused 13", image.len, calls[0].kind, VTIL_UNDO);
            if (below(3) == 0)
                change_lengths((size_t)twin.numbers.written + below(3) * below(100),
                               (size_t)twin.numbers.used + below(3) * below(150));
        }
    }
    end_of_random(10, answers);
}

/* The runs at their edges: files that are refused, lists of no calls, words that stand for no part of the bytes. */
static void odd_runs(void)
{
    begin("vtil_run and vtil_run_on: refused openings and empty lists");
    seed(8);
    for (size_t i = 0; i < sample_count; i++) {
        int64_t size = ref_check(samples[i].at, samples[i].len);
        lend_book(size < 0 ? 100 : (size_t)size + 40, 60);
        calls[0] = call_of(VTIL_CREATE, 77);
        run_list(&samples[i], calls, 0, any_rates());
        run_list_on(calls, 0);
        run_list(&samples[i], calls, 1, any_rates());
        run_list_on(calls, 0);
        lend_book(size < 1 ? 0 : (size_t)size - 1, 60);
        run_list(&samples[i], calls, 1, any_rates());
        run_list_on(calls, 0);
        run_list_on(calls, 1);
    }
    end();
}

static const uint8_t four_bytes[4] = {1, 0, 0, 0};

static void make_smallest(struct bytes *smallest)
{
    smallest->len = 0;
    put_front(smallest);
    put(smallest, 4, 0);
}

/* No list of calls: no file is opened, a good one or one that is refused, and no book is changed, a good one or a spoiled one. */
static void hold_no_list(const uint64_t *words, size_t count)
{
    static struct bytes smallest;
    const vtil_book spoiled = any_book(UINT64_MAX, UINT64_MAX);
    struct ref_call create = call_of(VTIL_CREATE, 9);
    make_smallest(&smallest);
    for (int cut = 0; cut < 2; cut++) {
        lend_book(200, 60);
        lend_list(words, count, four_bytes, sizeof four_bytes);
        smallest.len -= (size_t)cut;
        lend_file(&smallest);
        hold_run(library_run(any_rates()), (vtil_run_answer){.refusal = VTIL_NO_SUCH_BLOCK});
    }
    make_smallest(&smallest);
    open_both(&smallest);
    call_both(&create);
    lend_list(words, count, four_bytes, sizeof four_bytes);
    hold_run(library_run_on(twin.numbers), (vtil_run_answer){.refusal = VTIL_NO_SUCH_BLOCK, .book = twin.numbers});
    hold_run(library_run_on(spoiled), (vtil_run_answer){.refusal = VTIL_NO_SUCH_BLOCK, .book = spoiled});
}

/* A list of one call, whose words need not be those that lend_calls makes. */
static void hold_one_call(const uint64_t *words, const struct ref_call *call)
{
    static struct bytes smallest;
    make_smallest(&smallest);
    lend_book(200, 60);
    lend_list(words, 4, four_bytes, sizeof four_bytes);
    lend_file(&smallest);
    vtil_rates rates = any_rates();
    ref_open(&twin, smallest.at, smallest.len, rates);
    vtil_run_answer want = due_of_calls(call, 1);
    hold_run(library_run(rates), want);
    vtil_book before = twin.numbers;
    want = due_of_calls(call, 1);
    hold_run(library_run_on(before), want);
}

/* Words that are no list of calls are refused before anything is opened or tested, and nothing is read outside the bytes. */
static void odd_words(void)
{
    static const uint64_t two_calls[8] = {VTIL_CREATE, 5, 0, 0, VTIL_UNDO, 0, 0, 0};
    uint64_t odd[EXTREMES], kinds[EXTREMES];
    begin("words that are no list of calls are refused 15 by vtil_run and vtil_run_on, and nothing changes");
    seed(13);
    extremes(4, odd);
    extremes(VTIL_WALK_ABANDON, kinds);
    for (int i = 0; i < EXTREMES; i++) {
        for (int j = 0; j < EXTREMES; j++) {
            /* the second call's part, after a call that would be made */
            uint64_t words[8] = {VTIL_CREATE, 5, 0, 0, VTIL_APPEND, 5, odd[i], odd[j]};
            if (odd[i] <= odd[j] && odd[j] <= 4)
                continue;
            hold_no_list(words + 4, 4);
            hold_no_list(words, 8);
            words[4] = VTIL_CREATE;
            hold_no_list(words + 4, 4);
        }
        uint64_t words[8] = {VTIL_CREATE, 5, 0, 0, kinds[i], 6, 0, 0};
        if (kinds[i] > VTIL_WALK_ABANDON) {
            hold_no_list(words + 4, 4);
            hold_no_list(words, 8);
        }
    }
    for (size_t count = 1; count < 8; count++)
        if (count != 4)
            hold_no_list(two_calls, count);
    struct ref_call undo = call_of(VTIL_UNDO, 5), remove = call_of(VTIL_REMOVE, 5);
    hold_one_call((const uint64_t[]){VTIL_UNDO, 5, 4, 4}, &undo);
    hold_one_call((const uint64_t[]){VTIL_REMOVE, 5, 0, 4}, &remove);
    for (int kind = VTIL_WALK_START; kind <= VTIL_WALK_ABANDON; kind++) {
        struct ref_call walk = call_of((enum vtil_call)kind, 5);
        hold_one_call((const uint64_t[]){(uint64_t)kind, 5, 1, 4}, &walk);
    }
    end();
}

/* Words of all sorts, of which some are lists: what they are, and what their calls do, is what the reference says. */
static void random_words(void)
{
    static const int answers[] = {0, 1, 11, 12, 14, 15, 16, 17, 18, 19, 20, 21, -1};
    static struct bytes b, bytes;
    uint64_t words[24]; /* whole calls are made, of which the last may be cut */
    begin("random words, by vtil_run and then others by vtil_run_on");
    seed(14);
    for (int i = 0; i < RANDOM_WORDS; i++) {
        if (i % 16 == 0) {
            make_good_routine(&b);
            make_appended(&bytes);
        }
        size_t size = (size_t)ref_check(b.at, b.len);
        lend_book(size + below(4) * 36 - below(8) / 7, below(100));
        for (int on = 0; on < 2; on++) {
            size_t count = below(8) == 0 ? below(24) : 4 * below(6);
            for (size_t at = 0; at < count; at += 4) {
                words[at] = below(32) == 0 ? near(VTIL_WALK_ABANDON) : any_kind();
                words[at + 1] = some_vip();
                words[at + 2] = below(16) == 0 ? near(0) : 0;
                words[at + 3] = below(16) == 0 ? near(bytes.len) : bytes.len;
            }
            vtil_book before = twin.numbers;
            struct ref_list list = {words, count, bytes.at, bytes.len};
            lend_list(words, count, bytes.at, bytes.len);
            lend_file(&b);
            if (on == 0) {
                vtil_rates rates = any_rates();
                vtil_run_answer want = ref_run(&twin, b.at, b.len, &list, rates);
                hold_run(library_run(rates), want);
            } else {
                vtil_run_answer want = ref_run_on(&twin, &list);
                hold_run(library_run_on(before), want);
            }
        }
    }
    end_of_random(40, answers);
}

/* Books and images made by hand ---------------------------------------------------------------------- */

static void make_instruction_call(struct ref_call *call)
{
    static struct bytes nop;
    nop.len = 0;
    put_operation(&nop, "nop", 3, 0);
    put_zeros(&nop, 20);
    put(&nop, 1, 7);
    call->bytes = nop.at;
    call->len = nop.len;
}

/* Each kind of call on the book with these numbers, every time on the same bytes; then all in a list. */
static void call_each(vtil_book numbers)
{
    twin.numbers = numbers;
    keep_book();
    uint64_t there = some_vip();
    for (int kind = VTIL_CREATE; kind <= VTIL_WALK_ABANDON; kind++) {
        struct ref_call call = call_of((enum vtil_call)kind, kind == VTIL_CREATE ? 0x1234567 : there);
        if (kind == VTIL_APPEND)
            make_instruction_call(&call);
        calls[kind] = call;
        call_both(&call);
        bring_back_book();
    }
    run_list_on(calls, VTIL_WALK_ABANDON + 1);
    bring_back_book();
}

static void hand_made_books(void)
{
    begin("books made by hand, both lengths at every extreme, with any rates and sum");
    seed(9);
    for (size_t i = 0; i < sample_count; i++) {
        uint64_t written[EXTREMES], used[EXTREMES];
        int64_t size = ref_check(samples[i].at, samples[i].len);
        if (size < 0)
            continue;
        lend_book((size_t)size + 40, 60);
        open_both(&samples[i]);
        extremes((uint64_t)size, written);
        extremes(journal.len, used);
        for (int w = 0; w < EXTREMES; w++)
            for (int u = 0; u < EXTREMES; u++)
                call_each(any_book(written[w], used[u]));
    }
    end();
}

static void spoiled_images(void)
{
    static const uint8_t values[] = {0, 1, 2, 0xff};
    begin("images with one byte changed");
    for (size_t i = 0; i < sample_count; i++) {
        int64_t size = ref_check(samples[i].at, samples[i].len);
        if (size < 0)
            continue;
        lend_book((size_t)size + 40, 300);
        open_both(&samples[i]);
        vtil_book numbers = twin.numbers;
        size_t step = image.len > 2000 ? 7 : 1; /* a sample of the long ones */
        for (size_t at = 0; at < image.len; at += step) {
            uint8_t before = twin.image[at];
            twin.image[at] = values[below(4)];
            copy_twin();
            call_each(numbers);
            twin.image[at] = before;
        }
    }
    if (group.answers[13] < 100 || group.answers[0] < 100)
        group.differ++;
    end();
}

/* Journals full of damage ------------------------------------------------------------------------------- */

static void put_at(uint8_t *at, size_t width, uint64_t value)
{
    for (size_t i = 0; i < width; i++)
        at[i] = (uint8_t)(value >> (8 * i));
}

/* Damages the last entry, or puts another in its place; some stay as they were. */
static void damage_entry(void)
{
    if (twin.numbers.used < 20 || twin.numbers.used > journal.len)
        return;
    uint8_t *entry = twin.journal + twin.numbers.used - 20;
    uint64_t place = entry[8], length = entry[12] + 256u * entry[13];
    switch (below(8)) {
    case 0: put_at(entry, 8, some_vip()); break;
    case 1: put_at(entry + 8, 4, near(place)); break;
    case 2: put_at(entry + 12, 4, near(length)); break;
    case 3: put_at(entry + 16, 4, near(2)); break;
    case 4: twin.journal[below(twin.numbers.used)] = (uint8_t)below(4); break;
    case 5: twin.journal[below(twin.numbers.used)] ^= (uint8_t)(1u << below(8)); break;
    case 6: twin.numbers.used = below(2) ? near(twin.numbers.used) : below(journal.len + 1); break;
    default: break;
    }
}

static void one_journal(const struct bytes *file)
{
    lend_book((size_t)ref_check(file->at, file->len) + below(200), 200 + below(2000));
    if (!open_both(file))
        return;
    for (uint64_t left = 1 + below(5); left > 0; left--) {
        make_call(0);
        call_both(&calls[0]);
    }
    close_walk(); /* an undo that is refused 20 reads no journal */
    for (uint64_t left = 1 + below(2); left > 0; left--)
        damage_entry();
    copy_twin();
    struct ref_call undo = call_of(VTIL_UNDO, 0);
    for (int i = 0; i < 4; i++)
        call_both(&undo);
}

/* Entries that were written for another image: a block goes back whose vip is there again, or into no room. */
static void stale_entry(const struct bytes *file)
{
    static uint8_t entries[BYTES_MAX];
    one_journal(file);
    uint64_t used = journal.len < 60 ? 0 : 20 + below(journal.len - 20);
    memcpy(entries, twin.journal, journal.len);
    make_call(0);
    call_both(&calls[0]);
    close_walk();
    memcpy(twin.journal, entries, journal.len);
    twin.numbers.used = below(2) ? twin.numbers.used : used;
    copy_twin();
    struct ref_call undo = call_of(VTIL_UNDO, 0);
    call_both(&undo);
}

static void damaged_journals(void)
{
    static const int answers[] = {0, 13, 16, -1};
    static struct bytes b;
    begin("undo of journals full of damage");
    seed(10);
    for (int i = 0; i < DAMAGED_JOURNALS; i++) {
        if (i % 16 == 0)
            make_good_routine(&b);
        if (below(3) == 0)
            stale_entry(&b);
        else
            one_journal(&b);
    }
    end_of_random(100, answers);
}

static void noise_journals(void)
{
    static struct bytes b;
    begin("undo of journals of random bytes");
    seed(11);
    for (int i = 0; i < DAMAGED_JOURNALS; i++) {
        if (i % 64 == 0)
            make_good_routine(&b);
        lend_book((size_t)ref_check(b.at, b.len) + below(100), 20 + below(400));
        open_both(&b);
        for (size_t at = 0; at < journal.len; at++)
            twin.journal[at] = (uint8_t)(below(2) ? below(4) : below(256));
        twin.numbers.used = below(journal.len + 1);
        if (twin.numbers.used >= 20)
            put_at(twin.journal + twin.numbers.used - 4, 4, below(5));
        copy_twin();
        struct ref_call undo = call_of(VTIL_UNDO, 0);
        call_both(&undo);
    }
    end();
}

/* Lendings over the limit, of no bytes, and at the limit ------------------------------------------------- */

static const vtil_rates some_rates = {{1, 2, 3, 4, 5, UINT32_MAX}};

static void hold_answer_of_run(vtil_run_answer got, uint64_t refusal, uint64_t last, vtil_book book)
{
    next_case();
    hold("refusal", 0, (int64_t)got.refusal, (int64_t)refusal);
    hold("the last call's refusal", 0, (int64_t)got.last, (int64_t)last);
    hold_book(got.book, book);
    hold("no block is handed out", 0, got.offset == 0 && got.length == 0, 1);
}

/* The calls of a list test the book, an empty list does not, and what is no list comes first. */
static void hold_run_on(uint8_t *at, size_t image_len, uint8_t *to, size_t journal_len, vtil_book book, uint64_t want)
{
    const uint64_t words[8] = {VTIL_CREATE, 5, 0, 0, VTIL_WALK_NEXT, 0, 0, 0};
    hold_answer_of_run(vtil_run_on(book, at, image_len, to, journal_len, words, 8, NULL, 0), 0, want, book);
    hold_answer_of_run(vtil_run_on(book, at, image_len, to, journal_len, words, 0, NULL, 0), 0, 0, book);
    hold_answer_of_run(vtil_run_on(book, at, image_len, to, journal_len, words, 7, NULL, 0), 15, 0, book);
}

static void hold_each(uint8_t *at, size_t image_len, uint8_t *to, size_t journal_len, vtil_book book, uint64_t want)
{
    const vtil_walk_answer next = vtil_walk_next(book, at, image_len, to, journal_len);
    const vtil_answer got[] = {
        vtil_create_block(book, at, image_len, to, journal_len, 5),
        vtil_remove_block(book, at, image_len, to, journal_len, 5),
        vtil_append(book, at, image_len, to, journal_len, 5, NULL, 0),
        vtil_undo(book, at, image_len, to, journal_len),
        vtil_walk_start(book, at, image_len, to, journal_len),
        {next.refusal, next.book},
        vtil_walk_abandon(book, at, image_len, to, journal_len),
    };
    for (size_t i = 0; i < sizeof got / sizeof got[0]; i++) {
        next_case();
        hold("refusal", i, (int64_t)got[i].refusal, (int64_t)want);
        hold_book(got[i].book, book);
    }
    hold("no block is handed out", 0, next.offset == 0 && next.length == 0, 1);
    hold_run_on(at, image_len, to, journal_len, book, want);
}

static void odd_lendings(const struct room *room)
{
    static const size_t lengths[] = {VTIL_MOST_LENT + 1, (size_t)1 << 32, (size_t)1 << 63, SIZE_MAX};
    const vtil_book books[] = {any_book(114, 0), {0}, any_book(UINT64_MAX, UINT64_MAX), {.written = 114, .walk = UINT64_MAX}};
    begin("lendings over the limit, without access (10), and of no bytes (13)");
    for (size_t b = 0; b < sizeof books / sizeof books[0]; b++) {
        for (size_t i = 0; i < sizeof lengths / sizeof lengths[0]; i++) {
            hold_each(no_access(room), lengths[i], NULL, 0, books[b], 10);
            hold_each(no_access(room), 114, no_access(room), lengths[i], books[b], 10);
        }
        hold_each(NULL, 0, NULL, 0, books[b], 13);
        hold_each(no_access(room), 0, no_access(room), 0, books[b], 13);
    }
    const struct bytes *file = &samples[0];
    const uint64_t no_list[1] = {0};
    uint8_t *at = no_access(room);
    size_t len = VTIL_MOST_LENT + 1;
    hold_answer_of_run(vtil_run(file->at, file->len, at, len, NULL, 0, NULL, 0, NULL, 0, some_rates), 10, 0, (vtil_book){0});
    hold_answer_of_run(vtil_run(file->at, file->len, at, len, NULL, 0, no_list, 1, NULL, 0, some_rates), 15, 0, (vtil_book){0});
    end();
}

/* No block of these has an instruction, so the sum is 0. */
static void hold_one(const char *what, vtil_answer got, uint64_t refusal, uint64_t written, uint64_t used)
{
    next_case();
    hold(what, 0, (int64_t)got.refusal, (int64_t)refusal);
    hold_book(got.book, (vtil_book){written, used, some_rates, 0, 0});
}

/* A walk on such a book is handed in at one number and due another, and it hands out one of the empty blocks, or none. */
static void hold_next(struct lent at, struct lent to, vtil_book book, uint64_t walk, uint64_t due_walk, uint64_t offset)
{
    book.walk = walk;
    vtil_walk_answer next = vtil_walk_next(book, at.readable, at.len, to.readable, to.len);
    next_case();
    book.walk = due_walk;
    hold("next", (size_t)walk, (int64_t)next.refusal, due_walk == walk ? VTIL_SPOILED_BOOK : 0);
    hold_book(next.book, book);
    hold("offset", (size_t)walk, (int64_t)next.offset, (int64_t)offset);
    hold("length", (size_t)walk, (int64_t)next.length, offset == 0 ? 0 : 36);
}

/* As many empty blocks as an image at the limit has room for; the reference would take too long, but the answers are plain. */
static void at_the_limit(void)
{
    const size_t blocks = (VTIL_MOST_LENT - 114) / 36, len = 114 + 36 * blocks;
    struct room large = make_room(VTIL_MOST_LENT), other = make_room(VTIL_MOST_LENT);
    struct lent at = lend(&large, VTIL_MOST_LENT, true), to = lend(&other, 76, true);
    struct bytes front = {0};
    uint8_t *file = calloc(len, 1);
    if (file == NULL)
        stop("an image at the limit");
    put_front(&front);
    put(&front, 4, blocks);
    memcpy(file, front.at, front.len);
    for (size_t i = 0; i < blocks; i++)
        put_at(file + 114 + 36 * i, 8, i);

    begin("an image of 16,777,216 bytes, full of blocks");
    vtil_answer a = vtil_open(file, len, at.writable, at.len, to.writable, to.len, some_rates);
    hold_one("open", a, 0, len, 0);
    hold_one("create", vtil_create_block(a.book, at.writable, at.len, to.writable, to.len, blocks), 11, len, 0);
    hold_one("create again", vtil_create_block(a.book, at.writable, at.len, to.writable, to.len, blocks - 1), 14, len, 0);
    a = vtil_remove_block(a.book, at.writable, at.len, to.writable, to.len, 1);
    hold_one("remove", a, 0, len - 36, 56);
    hold("the last block took its place", 0, memcmp(at.plain + 150, file + len - 36, 36), 0);
    a = vtil_create_block(a.book, at.writable, at.len, to.writable, to.len, UINT64_MAX);
    hold_one("create in its room", a, 0, len, 76);
    a = vtil_undo(a.book, at.writable, at.len, to.writable, to.len);
    hold_one("undo", a, 0, len - 36, 56);
    a = vtil_undo(a.book, at.writable, at.len, to.writable, to.len);
    hold_one("undo again", a, 0, len, 0);
    hold("as it was opened", 0, memcmp(at.plain, file, len), 0);
    hold_next(at, to, a.book, 1, 2, 114);
    hold_next(at, to, a.book, blocks, blocks + 1, len - 36);
    hold_next(at, to, a.book, blocks + 1, 0, 0);
    hold_next(at, to, a.book, blocks + 2, blocks + 2, 0);
    end();
    free(file);
}

int main(int argc, char **argv)
{
    (void)argc;
    set_up_groups("guard_edits");
    sample_count = load_samples(argv + 1, &samples);
    set_up_book_pair();
    set_up_calls();
    struct room untouched = make_room(1);

    instances();
    lists();
    changed_lengths();
    odd_runs();
    odd_words();
    random_words();
    hand_made_books();
    spoiled_images();
    damaged_journals();
    noise_journals();
    odd_lendings(&untouched);
    at_the_limit();
    return finish();
}
