/*
 * Memory to lend to the library. A room lies between two pages without any access;
 * what is lent ends where the one begins, or begins where the other ends, so that a
 * step outside it is a crash. The same bytes are there three times: to be read only,
 * to be read and written, and outside the guards, to fill and compare them.
 */
#ifndef LENT_H
#define LENT_H

#include <stdbool.h>
#include <stddef.h>
#include <stdint.h>

struct room {
    size_t len; /* whole pages */
    uint8_t *plain, *readable, *writable;
};

/* A room of at least `len` bytes. */
struct room make_room(size_t len);

/* `len` bytes of a room, at its end or at its start. */
struct lent {
    size_t len;
    uint8_t *plain, *writable;
    const uint8_t *readable;
};

struct lent lend(const struct room *room, size_t len, bool at_end);

/* A pointer to a page without access: whatever is lent there can't be touched. */
uint8_t *no_access(const struct room *room);

#endif
