/* Reading a file into memory. */
#ifndef ROUTINE_FILE_H
#define ROUTINE_FILE_H

#include <stddef.h>
#include <stdint.h>

struct file {
    uint8_t *bytes; /* never NULL after file_read, also for an empty file */
    size_t len;
};

/*
 * Reads `path` ("-": standard input), a regular file, a pipe or a device: all of it,
 * or its first `most` bytes where it has more; SIZE_MAX: all of it. NULL when it was
 * read: then file_free is owed. Otherwise the reason in words, and nothing is owed.
 */
const char *file_read(const char *path, size_t most, struct file *out);

void file_free(struct file *file);

#endif
