/* Standard output: whether what was printed could be written, and why not. */
#ifndef ROUTINE_PRINTED_H
#define ROUTINE_PRINTED_H

#include <stdbool.h>

/*
 * Whether all that was printed could be written so far. The first call after a
 * failure keeps its reason, out of errno: so it comes before anything else that can
 * fail.
 */
bool printed_so_far(void);

/* The same after writing what is buffered. */
bool printed_whole(void);

/* The reason in words, where one of the two was false. */
const char *printed_problem(void);

#endif
