/* The names of the operations. */
#ifndef ROUTINE_OPERATIONS_H
#define ROUTINE_OPERATIONS_H

#include <stdint.h>

/* The name of operation `op` (0 to 48); for any other number, words that say so. Never NULL. */
const char *operation_name(uint32_t op);

#endif
