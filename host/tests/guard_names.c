/*
 * guard_names: the names of instructions, between guard pages, against the reference and
 * against its table of operations, which is looked through here in another way.
 *
 * Where 128 bytes stand from an instruction on, the library has a faster way to look its
 * name up. So each name is tried there, with 0 to 3 operands, and also as the last
 * instruction of what is lent: read with 0 to 15 bytes before it, in turn, and checked as
 * the only instruction of a routine.
 *
 * The names are the 49; these with a byte changed to each of the 256, with a byte more at
 * each place, with some less, with zeros, with two bytes exchanged; the beginnings of one
 * with the ends of another; all of 0 to 2 bytes, all of three letters, and random ones.
 * The 49 are also tried with wrong counts, at each offset up to 15, in files of each
 * length, under sizes that are not theirs, and as the beginnings of long names.
 */
#include <stdbool.h>
#include <stdio.h>
#include <string.h>

#include "cases.h"
#include "group.h"
#include "lent.h"
#include "reference.h"
#include "values.h"
#include "vtil.h"

#define FRONT 142        /* bytes of a routine before its first instruction */
#define NAME (FRONT + 4) /* where that one's name begins */
#define ENOUGH 128       /* bytes from an instruction on, for the faster way */
#define LONGEST 144      /* bytes from an instruction on, here */
#define BEHIND 8         /* bytes of a block after its instructions, where it has no vips */
#define COUNTS 4         /* an operation has 0 to 3 operands */
#define OFFSETS 16
#define SIZES 13 /* 0 to 12 */
#define RANDOM 100000

static struct room memory;
static struct bytes file; /* a routine of one instruction, and bytes that are no part of it */
static size_t end_at;     /* where the instruction ends */
static uint32_t turn;     /* how many instructions were tried */

static void make_front(void)
{
    put_front(&file);
    put(&file, 4, 1);
    put_block_front(&file, 5, 1);
    if (file.len != FRONT)
        stop_because("a routine", "its first instruction begins elsewhere");
}

/* The instruction of this name, which is said to have `size` bytes. Its operands are immediates. */
static void make_sized(const void *name, size_t len, uint64_t size, uint32_t count)
{
    file.len = FRONT;
    put(&file, 4, size);
    put_bytes(&file, name, len);
    put(&file, 4, count);
    for (uint32_t i = 0; i < count; i++)
        put(&file, 4, 0), put(&file, 8, UINT64_MAX - i), put(&file, 4, 8 + i);
    put(&file, 8, 5), put(&file, 8, UINT64_MAX), put(&file, 4, 6), put(&file, 1, 1);
    end_at = file.len;
    put_zeros(&file, BEHIND);
    memset(file.at + file.len, 'v', FRONT + LONGEST - file.len);
    file.len = FRONT + LONGEST;
}

/* What is due, by the table ------------------------------------------------------------------- */

static bool is_name(const char *listed, const uint8_t *name, size_t len)
{
    size_t i = 0;
    while (i < len && listed[i] != '\0' && (uint8_t)listed[i] == name[i])
        i++;
    return i == len && listed[i] == '\0';
}

/* The number of the operation of this name; where there is none, how many there are. */
static uint32_t operation_of(const uint8_t *name, size_t len)
{
    uint32_t op = 0;
    while (op < ref_operation_count && !is_name(ref_operations[op].name, name, len))
        op++;
    return op;
}

static uint32_t number_at(size_t at)
{
    uint32_t value = 0;
    for (size_t i = 4; i > 0; i--)
        value = value << 8 | file.at[at + i - 1];
    return value;
}

/* The refusal of the instruction where the file ends at `to`, or 0, and its operation. */
static uint64_t due_before(size_t to, uint32_t *op)
{
    if (to < NAME || to - NAME < number_at(FRONT))
        return VTIL_SHORT_FILE;
    uint32_t size = number_at(FRONT);
    if (!ref_is_text(file.at + NAME, size))
        return VTIL_NAME_NOT_TEXT;
    if (to - NAME - size < 4)
        return VTIL_SHORT_FILE;
    *op = operation_of(file.at + NAME, size);
    if (*op == ref_operation_count)
        return VTIL_UNKNOWN_OPERATION;
    if (number_at(NAME + size) != ref_operations[*op].count)
        return VTIL_WRONG_OPERAND_COUNT;
    return to < end_at ? VTIL_SHORT_FILE : 0;
}

/* One instruction ----------------------------------------------------------------------------- */

static struct lent lend_part(size_t from, size_t to, bool at_end)
{
    struct lent lent = lend(&memory, to - from, at_end);
    memcpy(lent.plain, file.at + from, to - from);
    return lent;
}

/* The bytes of the instruction that differs first. */
static void show_first(uint64_t differed)
{
    if (differed > 0 || group.differ == 0)
        return;
    printf("guard_names: %s: case %llu begins", group.name, (unsigned long long)group.cases);
    for (size_t i = 0; i < 24; i++)
        printf(" %02x", file.at[FRONT + i]);
    printf("\n");
}

/* The file is lent up to `to`, with so many bytes before its instruction, and that is read. */
static void read_lent(size_t before, size_t to, bool at_end)
{
    struct lent lent = lend_part(FRONT - before, to, at_end);
    uint64_t differed = group.differ;
    uint32_t op = 0;
    uint64_t due = due_before(to, &op);
    next_case();
    group.answers[due]++;
    vtil_instruction_read got = vtil_read_instruction(lent.readable, lent.len, before);
    hold("by the table", to - FRONT, (int64_t)got.refusal, (int64_t)due);
    if (due == 0)
        hold("number by the table", to - FRONT, got.instruction.op, op);
    hold_instruction_read(to - FRONT, got, ref_read_instruction(lent.plain, lent.len, before));
    show_first(differed);
}

/* The whole file is lent up to `to`, and checked. */
static void check_lent(size_t to)
{
    struct lent lent = lend_part(0, to, true);
    uint64_t differed = group.differ;
    uint32_t op;
    uint64_t due = due_before(to, &op);
    next_case();
    group.answers[due]++;
    int64_t got = vtil_check(lent.readable, lent.len);
    hold("checked, by the table", to - FRONT, got, due == 0 ? (int64_t)(end_at + BEHIND) : -(int64_t)due);
    hold("checked", to - FRONT, got, ref_check(lent.plain, lent.len));
    show_first(differed);
}

/* The instruction that was made, as the last of what is lent. */
static void try_last(void)
{
    read_lent(turn % OFFSETS, end_at, true);
    check_lent(end_at + BEHIND);
}

/* The same, before other bytes. */
static void try_before_others(void)
{
    read_lent(turn % OFFSETS, FRONT + ENOUGH, true);
    check_lent(FRONT + ENOUGH);
}

static void try_both(void)
{
    try_last();
    try_before_others();
    turn++;
}

/* The count of this name's operation, or some count where it has none. */
static uint32_t count_for(const void *name, size_t len)
{
    uint32_t op = operation_of(name, len);
    return op < ref_operation_count ? ref_operations[op].count : turn % COUNTS;
}

/* With every count: the faster way answers only where the operation that it has found takes so many operands. */
static void try_name(const void *name, size_t len)
{
    for (uint32_t count = 0; count < COUNTS; count++) {
        make_sized(name, len, len, count);
        try_before_others();
    }
    make_sized(name, len, len, count_for(name, len));
    try_last();
    turn++;
}

/* Names that are put together ------------------------------------------------------------------- */

static struct {
    size_t len;
    uint8_t at[2 * SIZES];
} made;

static void add(const void *from, size_t len)
{
    memcpy(made.at + made.len, from, len);
    made.len += len;
}

static void try_made(void)
{
    try_name(made.at, made.len);
}

/* These bytes between the beginning of a name, up to `first`, and its end, from `second` on. */
static void try_between(const char *name, size_t first, const void *bytes, size_t len, size_t second)
{
    made.len = 0;
    add(name, first);
    add(bytes, len);
    add(name + second, strlen(name) - second);
    try_made();
}

/* The cases ------------------------------------------------------------------------------------- */

static void for_every_name(void (*run)(const char *name, size_t len))
{
    for (size_t op = 0; op < ref_operation_count; op++)
        run(ref_operations[op].name, strlen(ref_operations[op].name));
}

/* The table itself: each name stands in it once, and so many have 0 letters, 1, and so on. */
static void the_table(void)
{
    static const int due[] = {0, 0, 5, 26, 5, 6, 7};
    int found[sizeof due / sizeof due[0]] = {0};
    for (uint32_t op = 0; op < ref_operation_count; op++) {
        const char *name = ref_operations[op].name;
        hold("number of that name", op, operation_of((const uint8_t *)name, strlen(name)), op);
        found[strlen(name)]++;
    }
    for (size_t len = 0; len < sizeof due / sizeof due[0]; len++)
        hold("names of that length", len, found[len], due[len]);
}

static void with_each_count(const char *name, size_t len)
{
    for (uint32_t count = 0; count <= COUNTS; count++) {
        make_sized(name, len, len, count);
        try_both();
    }
}

static void listed(void)
{
    static const int answers[] = {0, VTIL_WRONG_OPERAND_COUNT, -1};
    begin("the 49 names, each with 0 to 4 operands");
    the_table();
    for_every_name(with_each_count);
    end_of_random(2 * 49, answers);
}

static void in_each_length(const char *name, size_t len)
{
    make_sized(name, len, len, count_for(name, len));
    for (size_t to = FRONT; to <= file.len; to++)
        read_lent(0, to, true);
}

static void lengths(void)
{
    begin("files of every length up to 144 bytes from the instruction on");
    for_every_name(in_each_length);
    in_each_length("zzzzzzz", 7);
    in_each_length("zzz", 3);
    in_each_length("", 0);
    in_each_length("mo\xff", 3);
    end();
}

static void at_each_offset(const char *name, size_t len)
{
    for (int other = 0; other < 2; other++) {
        make_sized(name, len, len, count_for(name, len));
        file.at[NAME] += (uint8_t)other;
        for (size_t before = 0; before < OFFSETS; before++)
            for (int at_end = 0; at_end < 2; at_end++) {
                read_lent(before, end_at, at_end);
                read_lent(before, FRONT + ENOUGH, at_end);
                read_lent(before, FRONT + ENOUGH + before, at_end);
            }
    }
}

static void offsets(void)
{
    begin("offsets 0 to 15");
    for_every_name(at_each_offset);
    end();
}

static void with_a_byte_changed(const char *name, size_t len)
{
    for (size_t at = 0; at < len; at++)
        for (int byte = 0; byte < 256; byte++)
            try_between(name, at, &(uint8_t){(uint8_t)byte}, 1, at + 1);
}

static void with_a_byte_more(const char *name, size_t len)
{
    for (size_t at = 0; at <= len; at++)
        for (int byte = 0; byte < 256; byte++)
            try_between(name, at, &(uint8_t){(uint8_t)byte}, 1, at);
}

/* Text, but not letters: of two bytes, three and four. */
static void with_a_character(const char *name, size_t len)
{
    static const char *const characters[] = {"\xc3\xa9", "\xe2\x82\xac", "\xf0\x9d\x84\x9e"};
    for (size_t i = 0; i < 3; i++)
        for (size_t at = 0; at <= len; at++)
            for (size_t next = at; next <= len; next++)
                try_between(name, at, characters[i], 2 + i, next);
}

static void with_bytes_less(const char *name, size_t len)
{
    for (size_t at = 0; at <= len; at++)
        for (size_t next = at; next <= len; next++)
            try_between(name, at, "", 0, next);
}

static void with_zeros(const char *name, size_t len)
{
    static const uint8_t zeros[8];
    for (size_t more = 1; len + more <= 8; more++) {
        try_between(name, len, zeros, more, len);
        try_between(name, 0, zeros, more, 0);
    }
}

static void with_bytes_exchanged(const char *name, size_t len)
{
    for (size_t i = 0; i < len; i++)
        for (size_t j = i + 1; j < len; j++) {
            made.len = 0;
            add(name, len);
            made.at[i] = (uint8_t)name[j];
            made.at[j] = (uint8_t)name[i];
            try_made();
        }
}

static void changed(void)
{
    static const int answers[] = {0, VTIL_NAME_NOT_TEXT, VTIL_UNKNOWN_OPERATION, -1};
    begin("each with a byte changed to all 256, a byte more at each place, some less, zeros, bytes exchanged");
    for_every_name(with_a_byte_changed);
    for_every_name(with_a_byte_more);
    for_every_name(with_a_character);
    for_every_name(with_bytes_less);
    for_every_name(with_zeros);
    for_every_name(with_bytes_exchanged);
    end_of_random(1000, answers);
}

static void with_ends_of_others(const char *name, size_t len)
{
    for (size_t first = 1; first <= len; first++)
        for (size_t op = 0; op < ref_operation_count; op++)
            for (const char *rest = ref_operations[op].name; *rest != '\0'; rest++) {
                made.len = 0;
                add(name, first);
                add(rest, strlen(rest));
                try_made();
            }
}

static void mixed(void)
{
    static const int answers[] = {0, VTIL_UNKNOWN_OPERATION, -1};
    begin("every beginning of one with every end of another, up to both names joined");
    for_every_name(with_ends_of_others);
    end_of_random(1000, answers);
}

/* Every name of so many bytes from `low` to `high`, behind those that stand. */
static void all_of(size_t left, int low, int high)
{
    if (left == 0) {
        try_made();
        return;
    }
    for (int byte = low; byte <= high; byte++) {
        made.at[made.len++] = (uint8_t)byte;
        all_of(left - 1, low, high);
        made.len--;
    }
}

static void short_names(void)
{
    begin("all names of 0, 1 and 2 bytes, and of 3 letters a to z");
    made.len = 0;
    for (size_t len = 0; len <= 2; len++)
        all_of(len, 0, 255);
    all_of(3, 'a', 'z');
    end();
}

/* The letters of the names, each once. */
static size_t gather_letters(uint8_t *letters)
{
    size_t count = 0;
    for (int letter = 'a'; letter <= 'z'; letter++)
        for (size_t op = 0; op < ref_operation_count; op++)
            if (strchr(ref_operations[op].name, letter) != NULL) {
                letters[count++] = (uint8_t)letter;
                break;
            }
    return count;
}

static void random_names(void)
{
    static const int answers[] = {0, VTIL_UNKNOWN_OPERATION, -1};
    uint8_t letters['z' - 'a' + 1];
    size_t count = gather_letters(letters);
    begin("random names of 0 to 12 of the letters that names have");
    seed(40);
    for (int i = 0; i < RANDOM; i++) {
        made.len = below(SIZES);
        for (size_t at = 0; at < made.len; at++)
            made.at[at] = letters[below(count)];
        try_made();
    }
    end_of_random(100, answers);
}

static void under_sizes(const char *name, size_t len)
{
    const uint32_t sizes[] = {
        (1u << 8) + (uint32_t)len, (1u << 16) + (uint32_t)len, (1u << 24) + (uint32_t)len, (1u << 31) + (uint32_t)len,
        1u << 31, INT32_MAX, UINT32_MAX, UINT32_MAX - 3, UINT32_MAX - 7, (uint32_t)-(int32_t)len,
    };
    for (uint32_t size = 0; size < SIZES; size++) {
        make_sized(name, len, size, count_for(name, len));
        try_both();
    }
    for (size_t i = 0; i < sizeof sizes / sizeof sizes[0]; i++) {
        make_sized(name, len, sizes[i], count_for(name, len));
        try_both();
    }
}

static void read_long(const struct lent *lent, uint64_t due)
{
    next_case();
    vtil_instruction_read got = vtil_read_instruction(lent->readable, lent->len, 0);
    hold("a long name", lent->len, (int64_t)got.refusal, (int64_t)due);
    hold_instruction_read(lent->len, got, ref_read_instruction(lent->plain, lent->len, 0));
}

/* The name and so many zeros, all said to be the name; the file ends so many bytes behind them. */
static void with_many_zeros(const char *name, size_t len, size_t zeros, size_t behind)
{
    size_t count_at = 4 + len + zeros;
    struct lent lent = lend(&memory, count_at + behind, true);
    memset(lent.plain, 0, lent.len);
    make_sized(name, len, len + zeros, 0);
    memcpy(lent.plain, file.at + FRONT, 4 + len);
    if (behind >= 4)
        lent.plain[count_at] = (uint8_t)count_for(name, len);
    read_long(&lent, behind < 4 ? VTIL_SHORT_FILE : VTIL_UNKNOWN_OPERATION);
    lent.plain[count_at - 1] = 0xff;
    read_long(&lent, VTIL_NAME_NOT_TEXT);
}

static void long_names(const char *name, size_t len)
{
    static const size_t zeros[] = {ENOUGH, 1 << 8, 1 << 16}, behind[] = {0, 1, 2, 3, 4, 4 + 3 * 16 + 21};
    for (size_t i = 0; i < sizeof zeros / sizeof zeros[0]; i++)
        for (size_t j = 0; j < sizeof behind / sizeof behind[0]; j++)
            with_many_zeros(name, len, zeros[i], behind[j]);
}

static void sizes(void)
{
    begin("each under the sizes 0 to 12 and others up to 2^32 - 1, and with 128, 256 and 65,536 zeros behind it");
    for_every_name(under_sizes);
    for_every_name(long_names);
    end();
}

int main(void)
{
    set_up_groups("guard_names");
    memory = make_room(2 * BYTES_MAX);
    make_front();

    listed();
    lengths();
    offsets();
    changed();
    mixed();
    short_names();
    random_names();
    sizes();
    return finish();
}
