#define _POSIX_C_SOURCE 200809L
#define _FILE_OFFSET_BITS 64

#include "file.h"

#include <errno.h>
#include <fcntl.h>
#include <stdbool.h>
#include <stdlib.h>
#include <string.h>
#include <sys/stat.h>
#include <unistd.h>

static const char too_large[] = "too large for memory";

/* Room at the start where the size is not known: pipes, devices and the files of /proc. */
#define UNKNOWN_SIZE ((size_t)64 * 1024)

/* POSIX leaves it to the host what a read of more than SSIZE_MAX bytes does; Linux gives at most 2^31 - 4096 at a time. */
#define READ_AT_ONCE ((size_t)1 << 30)

static bool is_standard_input(const char *path)
{
    return strcmp(path, "-") == 0;
}

static size_t at_most(size_t a, size_t b)
{
    return a < b ? a : b;
}

/*
 * The room to ask for first. The size of a regular file is only a hint, since the
 * file may grow or shrink while it is read. One byte more lets the read that finds
 * the end happen without asking for more room.
 */
static const char *first_room(int fd, size_t most, size_t *room)
{
    struct stat about;
    *room = at_most(UNKNOWN_SIZE, most);
    if (fstat(fd, &about) != 0)
        return strerror(errno);
    if (S_ISDIR(about.st_mode))
        return "is a directory";
    if (!S_ISREG(about.st_mode) || about.st_size <= 0)
        return NULL;
    if ((uintmax_t)about.st_size >= most) {
        *room = most;
        return most == SIZE_MAX ? too_large : NULL;
    }
    *room = (size_t)about.st_size + 1;
    return NULL;
}

static const char *double_room(struct file *file, size_t most, size_t *room)
{
    if (*room > SIZE_MAX / 2)
        return too_large;
    size_t wanted = at_most(*room * 2, most);
    uint8_t *larger = realloc(file->bytes, wanted);
    if (larger == NULL)
        return too_large;
    file->bytes = larger;
    *room = wanted;
    return NULL;
}

/* Reads until the end of the file, or until there are `most` bytes. file->bytes has `room` bytes. */
static const char *read_bytes(int fd, size_t most, struct file *file, size_t room)
{
    while (file->len < most) {
        if (file->len == room) {
            const char *problem = double_room(file, most, &room);
            if (problem != NULL)
                return problem;
        }
        ssize_t got = read(fd, file->bytes + file->len, at_most(room - file->len, READ_AT_ONCE));
        if (got == 0)
            return NULL;
        if (got > 0)
            file->len += (size_t)got;
        else if (errno != EINTR)
            return strerror(errno);
    }
    return NULL;
}

static const char *read_descriptor(int fd, size_t most, struct file *out)
{
    size_t room;
    const char *problem = first_room(fd, most, &room);
    if (problem != NULL)
        return problem;
    out->len = 0;
    out->bytes = malloc(room);
    if (out->bytes == NULL)
        return too_large;
    problem = read_bytes(fd, most, out, room);
    if (problem != NULL)
        file_free(out);
    return problem;
}

/* Standard input gives its bytes only once: a second reading would look like an empty file. */
static const char *read_standard_input(size_t most, struct file *out)
{
    static bool read_before = false;
    if (read_before)
        return "standard input was read already";
    read_before = true;
    return read_descriptor(STDIN_FILENO, most, out);
}

const char *file_read(const char *path, size_t most, struct file *out)
{
    if (is_standard_input(path))
        return read_standard_input(most, out);
    int fd = open(path, O_RDONLY | O_NOCTTY);
    if (fd < 0)
        return strerror(errno);
    const char *problem = read_descriptor(fd, most, out);
    close(fd); /* a failing close of a file that was only read loses nothing */
    return problem;
}

void file_free(struct file *file)
{
    free(file->bytes);
    file->bytes = NULL;
    file->len = 0;
}
