#include "book.h"

#include <stdlib.h>

#include "file.h"

/* No more of a file is read: a routine that does not end within these bytes is longer than an image can be. */
#define MOST_READ ((size_t)VTIL_MOST_LENT + 1)

/*
 * How many bytes the routine at the start of the file has, or minus a refusal. Where so many bytes were too short for
 * it, it is the image that is, whatever follows them in the file.
 */
static int64_t routine_size(const struct file *file)
{
    int64_t answer = vtil_check(file->bytes, file->len);
    if (answer > VTIL_MOST_LENT || (answer == -VTIL_SHORT_FILE && file->len == MOST_READ))
        return -VTIL_IMAGE_FULL;
    return answer;
}

static enum status say_not_opened(const char *name, uint64_t refusal)
{
    say_refused(name, refusal);
    if (refusal == VTIL_IMAGE_FULL)
        fprintf(stderr, "routine: a routine of over 16,777,216 bytes can only be checked\n");
    return SOME_REFUSED;
}

/*
 * Every call reads the whole image, and its length stays as long as the book is open. So it is long enough for the
 * routine and its room, and no longer, whatever follows the routine in the file.
 */
static bool make_room(size_t size, size_t room, size_t journal_len, struct book *out)
{
    out->image_len = room < VTIL_MOST_LENT - size ? size + room : VTIL_MOST_LENT;
    out->journal_len = journal_len;
    out->image = malloc(out->image_len);
    out->journal = malloc(journal_len + 1); /* never 0 bytes, for which malloc may answer NULL */
    return out->image != NULL && out->journal != NULL;
}

static enum status open_file(const char *name, const struct file *file, vtil_rates rates, struct book *book)
{
    vtil_answer answer =
        vtil_open(file->bytes, file->len, book->image, book->image_len, book->journal, book->journal_len, rates);
    book->numbers = answer.book;
    return answer.refusal == 0 ? ALL_ACCEPTED : say_not_opened(name, answer.refusal);
}

static enum status check_and_open(const char *name, const struct file *file, size_t room, size_t journal_len,
                                  vtil_rates rates, struct book *out)
{
    int64_t size = routine_size(file);
    if (size < 0)
        return say_not_opened(name, (uint64_t)-size);
    enum status status = TROUBLE;
    if (make_room((size_t)size, room, journal_len, out))
        status = open_file(name, file, rates, out);
    else
        say_unread(name, "too large for memory");
    if (status != ALL_ACCEPTED)
        book_free(out);
    return status;
}

enum status book_open(const char *name, size_t room, size_t journal_len, vtil_rates rates, struct book *out)
{
    struct file file;
    const char *problem = file_read(name, MOST_READ, &file);
    if (problem != NULL) {
        say_unread(name, problem);
        return TROUBLE;
    }
    enum status status = check_and_open(name, &file, room, journal_len, rates, out);
    file_free(&file);
    return status;
}

/* The block with this vip, read where it lies in the image; refused where the routine has none. */
static vtil_block_read find_block(const struct book *book, uint64_t vip)
{
    size_t len = (size_t)book->numbers.written;
    vtil_routine_read routine = vtil_read_routine(book->image, len);
    vtil_block_read block = vtil_read_block(book->image, len, routine.blocks_at);
    while (block.refusal == 0 && block.vip != vip)
        block = vtil_read_block(book->image, len, block.end);
    return block;
}

uint32_t book_last_operation(const struct book *book, uint64_t vip)
{
    vtil_block_read block = find_block(book, vip);
    vtil_instruction_read last = {.end = block.instructions_at};
    for (uint64_t i = 0; i < block.instructions; i++)
        last = vtil_read_instruction(book->image, (size_t)book->numbers.written, last.end);
    return last.instruction.op;
}

void book_free(struct book *book)
{
    free(book->image);
    free(book->journal);
    book->image = NULL;
    book->journal = NULL;
}
