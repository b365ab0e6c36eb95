#include "rates.h"

#include <stddef.h>
#include <string.h>

#include "commands.h"

/* The rate that `at` begins with, up to the next comma or the end. What is wrong with it; NULL when nothing is. */
static const char *read_rate(const char *at, uint32_t *rate)
{
    size_t len = strcspn(at, ","), digits = strspn(at, "0123456789");
    uint64_t value = 0;
    if (len == 0)
        return "is empty";
    if (digits < len)
        return "is not a decimal number";
    for (size_t i = 0; i < len && value <= UINT32_MAX; i++)
        value = 10 * value + (uint64_t)(at[i] - '0');
    if (value > UINT32_MAX)
        return "is over 4294967295";
    *rate = (uint32_t)value;
    return NULL;
}

/* Where the rate after this one begins; NULL when there is none. */
static const char *next_rate(const char *at)
{
    const char *comma = strchr(at, ',');
    return comma == NULL ? NULL : comma + 1;
}

/* What is wrong with the rate at *place, the first that is wrong; NULL when none is. */
static const char *read_rates(const char *at, vtil_rates *out, int *place)
{
    for (*place = 0; *place < GROUPS; *place += 1) {
        if (at == NULL)
            return "is missing: six rates are due, R0 to R5";
        const char *problem = read_rate(at, &out->rate[*place]);
        if (problem != NULL)
            return problem;
        at = next_rate(at);
    }
    return at == NULL ? NULL : "is one too many: six rates are due, R0 to R5";
}

bool rates_read(const char *word, vtil_rates *out)
{
    int place;
    const char *problem = read_rates(word, out, &place);
    if (problem != NULL)
        say_bad_rate(word, place, problem);
    return problem == NULL;
}
