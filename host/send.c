/* routine send FILE DIR: the blocks of the routine, handed out one by one by a walk, each in a file of its own. */
#define _XOPEN_SOURCE 700

#include "commands.h"

#include <dirent.h>
#include <errno.h>
#include <inttypes.h>
#include <stdio.h>
#include <stdlib.h>
#include <string.h>

#include "book.h"
#include "output.h"
#include "words.h"

#define ENDING ".block"

static bool is_block_name(const char *name)
{
    size_t len = strlen(name), ending = strlen(ENDING);
    return len >= ending && strcmp(name + len - ending, ENDING) == 0;
}

/* NULL where blocks can be put into the open folder, else why not. */
static const char *problem_with(DIR *folder)
{
    const struct dirent *entry;
    errno = 0; /* what readdir answers at the end and when it fails is the same */
    while ((entry = readdir(folder)) != NULL)
        if (is_block_name(entry->d_name))
            return "files whose names end in " ENDING " are in it already";
    return errno == 0 ? NULL : strerror(errno);
}

/* A folder that has blocks of another sending would have those of both after this one. */
static bool is_free(const char *path)
{
    DIR *folder = opendir(path);
    const char *problem = folder == NULL ? strerror(errno) : problem_with(folder);
    if (folder != NULL)
        closedir(folder);
    if (problem != NULL)
        say_unwritten(path, problem);
    return problem == NULL;
}

/* Such as DIR/000003-0x40.block: a shell lists the files in the order of the blocks, of which a routine has no million. */
static char *block_path(const char *folder, uint64_t place, uint64_t vip)
{
    size_t len = strlen(folder), size = len + sizeof "/18446744073709551615-0xffffffffffffffff" ENDING;
    const char *slash = len > 0 && folder[len - 1] == '/' ? "" : "/";
    char *path = malloc(size);
    if (path != NULL)
        snprintf(path, size, "%s%s%06" PRIu64 "-0x%" PRIx64 ENDING, folder, slash, place, vip);
    return path;
}

/* Writes the block that stands there in the image, before anything can move it. */
static enum status write_block(const char *folder, const struct book *book, uint64_t place, uint64_t offset, uint64_t length)
{
    uint64_t vip = vtil_read_block(book->image, (size_t)book->numbers.written, offset).vip;
    char *path = block_path(folder, place, vip);
    if (path == NULL) {
        say_unwritten(folder, "not enough memory");
        return TROUBLE;
    }
    enum status status = output_write(path, book->image + offset, (size_t)length);
    free(path);
    return status;
}

/* Not of a book that was just opened; but a walk that is refused is never taken for its end. */
static enum status refused(const char *name, uint64_t refusal)
{
    say_refused(name, refusal);
    return SOME_REFUSED;
}

/* Counts the blocks that were sent, also where something fails. */
static enum status send_blocks(const char *name, const char *folder, struct book *book, uint64_t *sent)
{
    vtil_answer started = vtil_walk_start(book->numbers, book->image, book->image_len, book->journal, book->journal_len);
    if (started.refusal != 0)
        return refused(name, started.refusal);
    book->numbers = started.book;
    for (*sent = 0;; *sent += 1) {
        vtil_walk_answer next = vtil_walk_next(book->numbers, book->image, book->image_len, book->journal, book->journal_len);
        if (next.refusal != 0)
            return refused(name, next.refusal);
        book->numbers = next.book;
        if (next.length == 0)
            return ALL_ACCEPTED;
        enum status status = write_block(folder, book, *sent, next.offset, next.length);
        if (status != ALL_ACCEPTED)
            return status;
    }
}

/* The folder is looked at first: where it can't be used, the file is not read. */
enum status send_command(const struct request *request)
{
    struct book book;
    uint64_t sent = 0;
    if (!is_free(request->files[1]))
        return TROUBLE;
    enum status status = book_open(request->files[0], 0, 0, NO_RATES, &book);
    if (status != ALL_ACCEPTED)
        return status;
    status = send_blocks(request->files[0], request->files[1], &book, &sent);
    printf("%" PRIu64 " block%s sent\n", sent, plural(sent));
    book_free(&book);
    return status;
}
