/* routine normalize FILE -o OUT: the routine's written form as a file. */
#include "commands.h"

#include "book.h"
#include "output.h"

enum status normalize_command(const struct request *request)
{
    struct book book;
    enum status status = book_open(request->files[0], 0, 0, NO_RATES, &book);
    if (status != ALL_ACCEPTED)
        return status;
    status = output_write(request->out, book.image, (size_t)book.numbers.written);
    book_free(&book);
    return status;
}
