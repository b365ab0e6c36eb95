/* routine edit FILE -s SCRIPT [--rates R0,R1,R2,R3,R4,R5] [-o OUT]: runs the script's lines as calls on the routine. */
#include "commands.h"

#include <inttypes.h>
#include <stdio.h>

#include "book.h"
#include "operations.h"
#include "output.h"
#include "printed.h"
#include "rates.h"
#include "script.h"
#include "words.h"

#define EMPTY_BLOCK 36 /* bytes of a block that was just created */

/* How many bytes the routine can grow by. The library's limit makes more than that useless. */
static size_t growth(const struct script *script)
{
    size_t room = 0;
    for (size_t i = 0; i < script->count && room < VTIL_MOST_LENT; i++)
        room += script->lines[i].call == VTIL_CREATE ? EMPTY_BLOCK : script->lines[i].len;
    return room;
}

static vtil_answer run_line(const struct line *line, struct book *book)
{
    switch (line->call) {
    case VTIL_CREATE:
        return vtil_create_block(book->numbers, book->image, book->image_len, book->journal, book->journal_len, line->vip);
    case VTIL_REMOVE:
        return vtil_remove_block(book->numbers, book->image, book->image_len, book->journal, book->journal_len, line->vip);
    case VTIL_APPEND:
        return vtil_append(book->numbers, book->image, book->image_len, book->journal, book->journal_len, line->vip,
                           line->bytes, line->len);
    default:
        return vtil_undo(book->numbers, book->image, book->image_len, book->journal, book->journal_len);
    }
}

static void print_line(FILE *to, const struct line *line)
{
    fprintf(to, "line %zu: ", line->number);
    switch (line->call) {
    case VTIL_CREATE: fprintf(to, "create 0x%" PRIx64, line->vip); break;
    case VTIL_REMOVE: fprintf(to, "remove 0x%" PRIx64, line->vip); break;
    case VTIL_APPEND: fprintf(to, "append 0x%" PRIx64 ", %zu byte%s", line->vip, line->len, plural(line->len)); break;
    default: fprintf(to, "undo"); break;
    }
}

/* The refusal's words name all operations that close a block; here it is said which one closes this block. */
static void print_closed(FILE *to, const struct line *line, const struct book *book)
{
    uint32_t last = book_last_operation(book, line->vip);
    fprintf(to, ": refused %d: closed block: its last instruction is %s", VTIL_CLOSED_BLOCK, operation_name(last));
}

static bool is_crooked(const vtil_register_desc *reg)
{
    return reg->bit_count < 1 || reg->bit_offset < 0 || reg->bit_count > 64 - reg->bit_offset;
}

/* Here it is said which register is crooked, and how. Up to its end nothing else is wrong with the line's bytes. */
static void print_crooked(FILE *to, const struct line *line)
{
    static const char *const places[] = {"first", "second", "third"};
    size_t at = 4 + line->bytes[0] + 4; /* after the size of the name, which is at most 6, the name, and the count */
    for (int i = 0; i < 3; i++) {
        bool is_register = line->bytes[at] == 1;
        vtil_register_desc reg = vtil_read_register(line->bytes, line->len, at + 4).register_desc;
        if (is_register && is_crooked(&reg)) {
            fprintf(to, ": refused %d: crooked register: its %s operand has width %" PRId32 " and offset %" PRId32,
                    VTIL_CROOKED_REGISTER, places[i], reg.bit_count, reg.bit_offset);
            return;
        }
        at += is_register ? 28 : 16;
    }
}

/* What the line was answered; a refused one left the book as it is. */
static void print_answer(FILE *to, const struct line *line, const struct book *book, vtil_answer answer)
{
    if (answer.refusal == VTIL_CLOSED_BLOCK)
        print_closed(to, line, book);
    else if (answer.refusal == VTIL_CROOKED_REGISTER)
        print_crooked(to, line);
    else if (answer.refusal != 0)
        fprintf(to, ": refused %" PRIu64 ": %s", answer.refusal, refusal_words((int64_t)answer.refusal));
    else
        fprintf(to, ": accepted, %" PRIu64 " bytes written, %" PRIu64 " of the journal used", answer.book.written,
                answer.book.used);
}

/* The cents of the sum that the book carries, as vtil.h makes them of it. */
static void print_charge(FILE *to, vtil_book book)
{
    uint64_t cents = book.sum / 100 + (book.sum % 100 != 0);
    fprintf(to, "charge %" PRIu64 " cent%s", cents, plural(cents));
}

/* Makes the line's call and says what it gave, with the charge after it where that is asked for. Whether it was accepted. */
static bool try_line(FILE *to, const struct line *line, bool charged, struct book *book)
{
    vtil_answer answer = run_line(line, book);
    print_line(to, line);
    print_answer(to, line, book, answer);
    if (charged) {
        fputs(answer.refusal == 0 ? ", " : "; ", to); /* the words of some refusals have commas */
        print_charge(to, answer.book);
    }
    fprintf(to, "\n");
    book->numbers = answer.book; /* after a refusal the one handed in */
    return answer.refusal == 0;
}

/* Answers how many lines were refused. */
static size_t run_lines(FILE *to, const struct script *script, bool charged, struct book *book)
{
    size_t refused = 0;
    if (charged) {
        fprintf(to, "opened: %" PRIu64 " bytes written, ", book->numbers.written);
        print_charge(to, book->numbers);
        fprintf(to, "\n");
    }
    for (size_t i = 0; i < script->count; i++)
        refused += !try_line(to, &script->lines[i], charged, book);
    fprintf(to, "%zu line%s, %zu refused\n", script->count, plural(script->count), refused);
    return refused;
}

static bool was_shown(FILE *to)
{
    return to == stdout ? printed_whole() : fflush(to) == 0 && !ferror(to);
}

static enum status edit_book(const struct request *request, const struct script *script, struct book *book)
{
    /* The answers don't stand among the routine's bytes. */
    FILE *to = request->out != NULL && output_is_standard(request->out) ? stderr : stdout;
    bool charged = request->rates != NULL;
    enum status status = run_lines(to, script, charged, book) == 0 ? ALL_ACCEPTED : SOME_REFUSED;
    bool shown = was_shown(to);
    if (request->out == NULL)
        return status; /* that standard output failed is said at the end */
    /* Nothing is written where it can't be seen what was refused. */
    if (!shown) {
        say_unwritten(request->out, "the lines' answers could not be shown");
        return TROUBLE;
    }
    return worse(status, output_write(request->out, book->image, (size_t)book->numbers.written));
}

/* The rates are read first: where they are none, neither the script nor the file is. */
enum status edit_command(const struct request *request)
{
    vtil_rates rates = NO_RATES;
    struct script script;
    struct book book;
    if (request->rates != NULL && !rates_read(request->rates, &rates))
        return TROUBLE;
    enum status status = script_read(request->script, &script);
    if (status != ALL_ACCEPTED)
        return status;
    status = book_open(request->files[0], growth(&script), VTIL_MOST_LENT, rates, &book);
    if (status == ALL_ACCEPTED) {
        status = edit_book(request, &script, &book);
        book_free(&book);
    }
    script_free(&script);
    return status;
}
