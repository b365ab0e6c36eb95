/* routine charge FILE --rates R0,R1,R2,R3,R4,R5: what the routine is charged, and for which instructions. */
#include "commands.h"

#include <inttypes.h>
#include <stdio.h>

#include "book.h"
#include "operations.h"
#include "rates.h"
#include "words.h"

/* The operations of each group, for a reader. Which group an instruction is in is told by the library alone. */
static const struct {
    uint32_t first, last;
} operations[GROUPS] = {{0, 3}, {4, 14}, {15, 25}, {26, 36}, {37, 40}, {41, 48}};

struct charge {
    vtil_rates rates;
    uint64_t instructions[GROUPS], hundredths[GROUPS];
    uint64_t sum; /* the hundredths of all groups */
    uint64_t cents;
};

static vtil_charge_look charge_at(const struct book *book, vtil_rates rates)
{
    return vtil_charge(book->numbers, book->image, book->image_len, book->journal, book->journal_len, rates);
}

/* Where an instruction of the group costs a cent and any other nothing, the charge is how many there are. */
static uint64_t count_group(const struct book *book, int group)
{
    vtil_rates rates = {{0}};
    rates.rate[group] = 100;
    return charge_at(book, rates).cents;
}

/* The cents are those of the same book, so no count of it is refused. */
static struct charge charge_groups(const struct book *book, vtil_rates rates, uint64_t cents)
{
    struct charge charge = {.rates = rates, .cents = cents};
    for (int i = 0; i < GROUPS; i++) {
        charge.instructions[i] = count_group(book, i);
        charge.hundredths[i] = charge.instructions[i] * rates.rate[i];
        charge.sum += charge.hundredths[i];
    }
    return charge;
}

static void print_text(const struct charge *charge)
{
    for (int i = 0; i < GROUPS; i++) {
        uint32_t first = operations[i].first, last = operations[i].last;
        printf("group %d: operations %" PRIu32 " to %" PRIu32 " (%s to %s), %" PRIu64 " instruction%s, rate %" PRIu32
               ", %" PRIu64 " hundredth%s\n",
               i, first, last, operation_name(first), operation_name(last), charge->instructions[i],
               plural(charge->instructions[i]), charge->rates.rate[i], charge->hundredths[i], plural(charge->hundredths[i]));
    }
    printf("sum: %" PRIu64 " hundredth%s of a cent\n", charge->sum, plural(charge->sum));
    printf("charge: %" PRIu64 " cent%s\n", charge->cents, plural(charge->cents));
}

/* Amounts are plain numbers here: no sum reaches 2^52 (vtil.h), and readers of JSON keep 53 bits of a number. */
static void print_json(const struct charge *charge)
{
    printf("{\"cents\": %" PRIu64 ", \"hundredths\": %" PRIu64 ",\n\"groups\": [", charge->cents, charge->sum);
    for (int i = 0; i < GROUPS; i++)
        printf("%s\n{\"operations\": [%" PRIu32 ", %" PRIu32 "], \"instructions\": %" PRIu64 ", \"rate\": %" PRIu32
               ", \"hundredths\": %" PRIu64 "}",
               i == 0 ? "" : ",", operations[i].first, operations[i].last, charge->instructions[i], charge->rates.rate[i],
               charge->hundredths[i]);
    printf("]}\n");
}

static enum status print_charge(const struct request *request, const struct book *book, vtil_rates rates)
{
    vtil_charge_look look = charge_at(book, rates);
    /* Not of a book that was just opened; but the 0 cents of a refused charge are never printed as a charge. */
    if (look.refusal != 0) {
        say_refused(request->files[0], look.refusal);
        return SOME_REFUSED;
    }
    if (!request->verbose && !request->json) {
        printf("%" PRIu64 "\n", look.cents);
        return ALL_ACCEPTED;
    }
    struct charge charge = charge_groups(book, rates, look.cents);
    if (request->json)
        print_json(&charge);
    else
        print_text(&charge);
    return ALL_ACCEPTED;
}

/* The rates are read first: where they are none, the file is not. */
enum status charge_command(const struct request *request)
{
    vtil_rates rates;
    struct book book;
    if (!rates_read(request->rates, &rates))
        return TROUBLE;
    enum status status = book_open(request->files[0], 0, 0, NO_RATES, &book);
    if (status != ALL_ACCEPTED)
        return status;
    status = print_charge(request, &book, rates);
    book_free(&book);
    return status;
}
