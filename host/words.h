/* The words for numbers. */
#ifndef ROUTINE_WORDS_H
#define ROUTINE_WORDS_H

#include <stdint.h>

/* The words of the library's refusal `number`; for a number that is none, words that say so. Never NULL. */
const char *refusal_words(int64_t number);

/* The end of a noun after this number: "s", but nothing after 1. */
const char *plural(uint64_t count);

#endif
