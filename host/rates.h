/* The rates of a charge as a word: six decimal numbers of 32 bits with commas between them. */
#ifndef ROUTINE_RATES_H
#define ROUTINE_RATES_H

#include <stdbool.h>

#include "vtil.h"

#define GROUPS 6 /* of operations; each has a rate */

/* False when the word is no six rates: then it was said. */
bool rates_read(const char *word, vtil_rates *out);

#endif
