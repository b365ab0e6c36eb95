/* Writing a file whole or not at all. */
#ifndef ROUTINE_OUTPUT_H
#define ROUTINE_OUTPUT_H

#include <stddef.h>
#include <stdint.h>

#include "commands.h"

/*
 * Makes `len` bytes the content of the file `path`. They go to a new file in the
 * same folder first, which takes the path's name when it is safe on the disk: so
 * whatever fails, the path holds either what it held or all of the bytes. A path
 * that is no regular file, such as a pipe or a device, and standard output are
 * written to directly. ALL_ACCEPTED when it is written, and its new name is safe on
 * the disk as well, as far as that can be had: a folder that this user may not read,
 * or whose file system syncs no folders, is passed over. Otherwise it was said what
 * is so.
 */
enum status output_write(const char *path, const uint8_t *bytes, size_t len);

/* Whether `path` is standard output: "-", or a name of the file that standard output leads to. */
bool output_is_standard(const char *path);

/*
 * Whether `path` is the file that is read as `input` ("-": standard input), by the same
 * name or by another: a path, a symbolic or a hard link, or what standard input or
 * output leads to. Never of a pipe, a terminal or another device that keeps no bytes,
 * since none can be lost there.
 */
bool output_is_input(const char *path, const char *input);

#endif
