/*
 * guard FILE..: vtil_check against the reference, on the given files and on many
 * others made from them or from the layouts.
 *
 * Every file is lent twice: so that it ends where a page without any access
 * begins, and so that it begins where such a page ends. The pages between allow
 * reading only. So a read past either end and any write is a crash, which is
 * reported with the case it happened in.
 */
#include <inttypes.h>
#include <stdbool.h>
#include <stdio.h>
#include <stdlib.h>
#include <string.h>

#include "cases.h"
#include "group.h"
#include "lent.h"
#include "reference.h"
#include "vtil.h"

#define MUTATIONS 200000
#define MADE 60000
#define MANY_BLOCKS 20000 /* more than the search for repeated vips holds at a time */

/* What random files have to reach: accepted, and refusals 1 to 9. */
static const int answers_of_reading[] = {0, 1, 2, 3, 4, 5, 6, 7, 8, 9, -1};

static struct room memory;

static int64_t check_at(bool at_end, const uint8_t *file, size_t len)
{
    struct lent lent = lend(&memory, len, at_end);
    memcpy(lent.plain, file, len);
    return vtil_check(lent.readable, len);
}

/* The answer is known: the library must give it, lent both ways. */
static void expect(const uint8_t *file, size_t len, int64_t want)
{
    next_case();
    hold("lent before a guard page", len, check_at(true, file, len), want);
    hold("lent after a guard page", len, check_at(false, file, len), want);
}

/* The reference says what the answer is. */
static void compare(const uint8_t *file, size_t len)
{
    int64_t want = ref_check(file, len);
    group.answers[want > 0 ? 0 : -want]++;
    expect(file, len, want);
}

/* The cases ------------------------------------------------------------------------- */

static struct bytes *samples;
static size_t sample_count;

/* An instance of docs/SPEC.md: its answer is written there, and holds of the reference too. */
static void instance(const struct bytes *b, int64_t want)
{
    expect(b->at, b->len, want);
    hold("the reference", b->len, ref_check(b->at, b->len), want);
}

static struct bytes smallest(void)
{
    struct bytes b = {0};
    put_front(&b);
    put(&b, 4, 0);
    return b;
}

static void header_instances(void)
{
    struct bytes b = smallest();
    instance(&b, 114);
    b.at[5] = 255;
    instance(&b, 114);
    b.at[60] = 7;
    instance(&b, 114);
    b.len = 113;
    instance(&b, -1);
    b.len = 0;
    instance(&b, -1);

    b = smallest();
    b.at[4] = 3;
    b.at[6] = 0;
    instance(&b, -4);
    b.len = 5;
    instance(&b, -4);
    b.len = 114;
    b.at[0] = 0;
    instance(&b, -3);
}

static void register_instances(void)
{
    /* The frame register's id ends at 28 + 16: after header, entry vip and three counts, 28, and the flags, 8. */
    struct bytes b = smallest();
    b.at[43] = 2;
    instance(&b, 114);
    b.at[43] = 3;
    instance(&b, -5);
    b.len = 44;
    instance(&b, -5);
    b.len = 43;
    instance(&b, -1);

    /* A count of 2^32 - 1 registers: read on to the end. */
    b.len = 0;
    put_front(&b);
    b.len = 16;
    put(&b, 4, 0xffffffff);
    instance(&b, -1);
}

/* A routine of one block, up to where the first of its `count` instructions is due. */
static struct bytes one_block(uint32_t count)
{
    struct bytes b = {0};
    put_front(&b);
    put(&b, 4, 1);
    put_block_front(&b, 5, count);
    return b;
}

static void instruction_instances(void)
{
    struct bytes b = one_block(1);
    put_operation(&b, "nop", 3, 0);
    put_zeros(&b, 21 + 8);
    instance(&b, 114 + 36 + 32);

    b = one_block(1);
    put_operation(&b, "mov", 3, 2);
    put(&b, 4, 1);
    put_zeros(&b, 24);
    put(&b, 4, 0);
    put_zeros(&b, 12 + 21 + 8);
    instance(&b, 114 + 36 + 76);

    b = one_block(1);
    put(&b, 4, 1);
    put(&b, 1, 0xff);
    instance(&b, -2);

    b = one_block(1);
    put(&b, 4, 3);
    put_bytes(&b, "zzz", 3);
    instance(&b, -1);
    put(&b, 4, 0);
    instance(&b, -7);

    b = one_block(1);
    put_operation(&b, "nop", 3, 1);
    instance(&b, -8);

    b = one_block(1);
    put_operation(&b, "jmp", 3, 1);
    put(&b, 4, 2);
    instance(&b, -6);
}

static void block_instances(void)
{
    struct bytes b = {0};
    put_front(&b);
    put(&b, 4, 2);
    for (int i = 0; i < 2; i++) {
        put_block_front(&b, 5, 0);
        put_zeros(&b, 8);
    }
    instance(&b, -9);

    /* A later block's fault comes before the repeated block. */
    b.at[110] = 3;
    instance(&b, -1);
    put_block_front(&b, 6, 1);
    put_operation(&b, "zzz", 3, 0);
    instance(&b, -7);
}

static void instances(void)
{
    begin("document 01's instances of reading");
    header_instances();
    register_instances();
    instruction_instances();
    block_instances();
    end();
}

static void whole_samples(void)
{
    begin("samples");
    for (size_t i = 0; i < sample_count; i++)
        compare(samples[i].at, samples[i].len);
    end();
}

static void truncations(void)
{
    begin("every beginning of every sample");
    for (size_t i = 0; i < sample_count; i++)
        for (size_t len = 0; len < samples[i].len; len++)
            compare(samples[i].at, len);
    end();
}

static void changed_bytes(void)
{
    static const uint8_t values[] = {0, 1, 2, 3, 0x7f, 0x80, 0xff};
    begin("every byte of every sample set to 0, 1, 2, 3, 7F, 80, FF");
    for (size_t i = 0; i < sample_count; i++) {
        struct bytes b = samples[i];
        for (size_t at = 0; at < b.len; at++) {
            for (size_t v = 0; v < sizeof values; v++) {
                b.at[at] = values[v];
                compare(b.at, b.len);
            }
            b.at[at] = samples[i].at[at];
        }
    }
    end();
}

static void copy_sample(struct bytes *b, const struct bytes *sample)
{
    b->len = sample->len; /* the rest of the room is not worth copying */
    memcpy(b->at, sample->at, sample->len);
}

static void mutations(void)
{
    static struct bytes b;
    begin("damaged samples");
    seed(1);
    for (int i = 0; i < MUTATIONS; i++) {
        copy_sample(&b, &samples[below(sample_count)]);
        for (uint64_t left = 1 + below(3); left > 0; left--)
            damage(&b, &samples[below(sample_count)]);
        compare(b.at, b.len);
    }
    end_of_random(100, answers_of_reading);
}

static void made_routines(void)
{
    static struct bytes b;
    begin("routines made from the layouts");
    seed(2);
    for (int i = 0; i < MADE; i++) {
        make_routine(&b);
        compare(b.at, b.len);
    }
    end_of_random(100, answers_of_reading);
}

/* A routine of one instruction with this name and count; its operands, immediates, are there. */
static void compare_operation(const void *name, size_t len, uint32_t count)
{
    static struct bytes front, b;
    if (front.len == 0)
        front = one_block(1);
    copy_sample(&b, &front);
    put_operation(&b, name, len, count);
    put_zeros(&b, 16 * (size_t)count + 21 + 8);
    compare(b.at, b.len);
}

static void operation_names(void)
{
    begin("the 49 names and names near them, counts 0 to 4");
    for (size_t i = 0; i < ref_operation_count; i++) {
        char name[16] = {0};
        size_t len = strlen(ref_operations[i].name);
        memcpy(name, ref_operations[i].name, len);
        for (uint32_t count = 0; count <= 4; count++) {
            compare_operation(name, len, count);
            compare_operation(name, len - 1, count);
            compare_operation(name, len + 1, count);
            name[0] ^= 0x20;
            compare_operation(name, len, count);
            name[0] ^= 0x20;
        }
    }
    /* Each of the 49 once, and those that come again as another name's beginning, as tg of tge. */
    printf("guard: %s: %" PRIu64 " accepted\n", group.name, group.answers[0]);
    if (group.answers[0] < ref_operation_count)
        group.differ++;
    end();
}

static void texts(void)
{
    /* The bytes at and beside every limit of the Unicode Standard's table of well-formed UTF-8. */
    static const uint8_t limits[] = {0x00, 0x41, 0x7f, 0x80, 0x8f, 0x90, 0x9f, 0xa0, 0xbf, 0xc0, 0xc1, 0xc2,
                                     0xdf, 0xe0, 0xe1, 0xec, 0xed, 0xee, 0xef, 0xf0, 0xf1, 0xf3, 0xf4, 0xf5, 0xff};
    const size_t n = sizeof limits;
    begin("names of 4 bytes at the limits of UTF-8, and their shorter beginnings");
    for (size_t i = 0; i < n * n * n * n; i++) {
        uint8_t name[4] = {limits[i % n], limits[i / n % n], limits[i / n / n % n], limits[i / n / n / n]};
        compare_operation(name, 4, 0);
        if (i < n * n * n)
            compare_operation(name, 3, 0);
        if (i < n * n)
            compare_operation(name, 2, 0);
        if (i < n)
            compare_operation(name, 1, 0);
    }
    if (group.answers[2] == 0 || group.answers[7] == 0)
        group.differ++;
    end();
}

/* Many empty blocks ------------------------------------------------------------------ */

static void set_vip(uint8_t *file, size_t place, uint64_t vip)
{
    for (size_t i = 0; i < 8; i++)
        file[114 + 36 * place + i] = (uint8_t)(vip >> (8 * i));
}

/* `rising` or, by the odd factor, without order; an odd factor keeps different numbers different modulo 2^64. */
static void number_blocks(uint8_t *file, size_t count, bool rising)
{
    for (size_t i = 0; i < count; i++)
        set_vip(file, i, rising ? i : (uint64_t)i * 0x9e3779b97f4a7c15);
}

static void many_blocks(void)
{
    const size_t count = MANY_BLOCKS, len = 114 + 36 * count;
    uint8_t *file = calloc(len, 1);
    if (file == NULL)
        stop("many blocks");
    struct bytes front = {0};
    put_front(&front);
    put(&front, 4, count);
    memcpy(file, front.at, front.len);

    begin("many blocks, rising and without order, with and without a repeated vip");
    for (int rising = 0; rising <= 1; rising++) {
        number_blocks(file, count, rising);
        expect(file, len, (int64_t)len);
        set_vip(file, count - 1, 0); /* the first one's */
        expect(file, len, -9);
        number_blocks(file, count, rising);
        set_vip(file, count / 2, rising ? count / 2 + 1 : (uint64_t)(count / 2 + 1) * 0x9e3779b97f4a7c15);
        expect(file, len, -9);
    }
    end();
    free(file);
}

/* Lengths ------------------------------------------------------------------------------- */

static void hold_length(const uint8_t *file, size_t len, int64_t want)
{
    next_case();
    hold("called directly", len, vtil_check(file, len), want);
}

static void empty_files(void)
{
    begin("length 0, with NULL and with pointers to pages without access");
    hold_length(NULL, 0, -1);
    hold_length(memory.readable - 1, 0, -1);
    hold_length(no_access(&memory), 0, -1);
    end();
}

static void huge_lengths(void)
{
    const uint8_t *untouched = no_access(&memory);
    const size_t over = (size_t)1 << 63;
    begin("lengths over 2^63 - 1, with NULL and with a pointer to a page without access");
    hold_length(untouched, over, -10);
    hold_length(untouched, over + 114, -10);
    hold_length(untouched, SIZE_MAX, -10);
    hold_length(NULL, over, -10);
    hold_length(NULL, SIZE_MAX, -10);
    end();

    /* The largest length that isn't over: the first field is wrong, so nothing after the page is needed. */
    begin("length 2^63 - 1 is not over");
    memset(memory.plain, 0, memory.len);
    hold_length(memory.readable, over - 1, -3);
    end();
}

int main(int argc, char **argv)
{
    (void)argc;
    set_up_groups("guard");
    sample_count = load_samples(argv + 1, &samples);
    memory = make_room(114 + 36 * MANY_BLOCKS > BYTES_MAX ? 114 + 36 * MANY_BLOCKS : BYTES_MAX);

    instances();
    whole_samples();
    truncations();
    changed_bytes();
    operation_names();
    texts();
    mutations();
    made_routines();
    many_blocks();
    empty_files();
    huge_lengths();
    return finish();
}
