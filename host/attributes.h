/* What a file that replaces another takes over from it: owner, group, access control list and mode. */
#ifndef ROUTINE_ATTRIBUTES_H
#define ROUTINE_ATTRIBUTES_H

#include <stdbool.h>
#include <sys/stat.h>

/*
 * Gives the open file `fd`, which only its owner can use so far, the attributes of the
 * file `path`, whose numbers are `old`, as far as this user may: never does a group or
 * another user get a right that it didn't have. False, and errno, where the file has
 * more rights than it should.
 */
bool attributes_copy(int fd, const char *path, const struct stat *old);

#endif
