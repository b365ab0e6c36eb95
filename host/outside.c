/* routine outside FILE -o OUT: the copy for outside reviewers, in which the values of immediates are 0, as a file. */
#include "commands.h"

#include <stdlib.h>

#include "book.h"
#include "output.h"

/* A book that was just opened is not refused; but where there is no copy, nothing is written. */
static enum status write_copy(const struct request *request, const struct book *book, uint8_t *copy, size_t len)
{
    vtil_written made =
        vtil_outside_copy(book->numbers, book->image, book->image_len, book->journal, book->journal_len, copy, len);
    if (made.refusal != 0) {
        say_refused(request->files[0], made.refusal);
        return SOME_REFUSED;
    }
    return output_write(request->out, copy, (size_t)made.size);
}

/* The copy is as long as the written form. */
static enum status copy_book(const struct request *request, const struct book *book)
{
    size_t len = (size_t)book->numbers.written;
    uint8_t *copy = malloc(len);
    if (copy == NULL) {
        say_unwritten(request->out, "not enough memory");
        return TROUBLE;
    }
    enum status status = write_copy(request, book, copy, len);
    free(copy);
    return status;
}

/* Written over FILE, the copy would be all that is left of it. So OUT is looked at first: where it is FILE, nothing is read. */
enum status outside_command(const struct request *request)
{
    struct book book;
    if (output_is_input(request->out, request->files[0])) {
        say_unwritten(request->out, "it is the file that is read, and its values would be lost");
        return TROUBLE;
    }
    enum status status = book_open(request->files[0], 0, 0, NO_RATES, &book);
    if (status != ALL_ACCEPTED)
        return status;
    status = copy_book(request, &book);
    book_free(&book);
    return status;
}
