#define _XOPEN_SOURCE 700
#define _FILE_OFFSET_BITS 64

#include "output.h"

#include <errno.h>
#include <fcntl.h>
#include <limits.h>
#include <signal.h>
#include <stdbool.h>
#include <stdio.h>
#include <stdlib.h>
#include <string.h>
#include <sys/stat.h>
#include <time.h>
#include <unistd.h>

#include "attributes.h"

/* How many symbolic links are followed for a file that is not there yet; Linux follows as many. */
#define MOST_LINKS 40

/* What became of a path. */
struct outcome {
    bool written;
    const char *problem; /* NULL where there is none */
};

static const struct outcome fine = {true, NULL};

static struct outcome unwritten(void)
{
    return (struct outcome){false, strerror(errno)};
}

static bool write_all(int fd, const uint8_t *bytes, size_t len)
{
    while (len > 0) {
        ssize_t wrote = write(fd, bytes, len);
        if (wrote < 0 && errno == EINTR)
            continue;
        if (wrote < 0)
            return false;
        bytes += wrote;
        len -= (size_t)wrote;
    }
    return true;
}

/* What was printed before goes first. */
static struct outcome write_standard_output(const uint8_t *bytes, size_t len)
{
    return fflush(stdout) == 0 && write_all(STDOUT_FILENO, bytes, len) ? fine : unwritten();
}

static struct outcome write_directly(const char *path, const uint8_t *bytes, size_t len)
{
    int fd = open(path, O_WRONLY | O_NOCTTY);
    if (fd < 0)
        return unwritten();
    struct outcome outcome = write_all(fd, bytes, len) ? fine : unwritten();
    if (close(fd) != 0 && outcome.written)
        outcome = unwritten();
    return outcome;
}

/* The part of `path` before its last slash, which it keeps; "./" where it has none. NULL without memory. */
static char *folder_of(const char *path)
{
    const char *slash = strrchr(path, '/');
    return slash == NULL ? strdup("./") : strndup(path, (size_t)(slash - path) + 1);
}

static char *joined(const char *first, const char *second)
{
    char *both = malloc(strlen(first) + strlen(second) + 1);
    if (both != NULL)
        strcat(strcpy(both, first), second);
    return both;
}

/* Where names are tried from, so that two commands at a time don't try the same ones. */
static unsigned first_name(void)
{
    struct timespec now = {0, 0};
    clock_gettime(CLOCK_REALTIME, &now);
    return (unsigned)getpid() * 4096u + (unsigned)now.tv_nsec;
}

/*
 * Makes a file of a name that nothing has: six digits take the place of the last six
 * characters of `path`. Unlike mkstemp it makes a file of any mode, so that a new file
 * gets the mode that its folder and this user's mask give.
 */
static int make_file(char *path, mode_t mode)
{
    char *digits = path + strlen(path) - 6;
    unsigned name = first_name();
    for (int tries = 0; tries < 1000; tries++) {
        snprintf(digits, 7, "%06x", (name + (unsigned)tries) & 0xffffff);
        int fd = open(path, O_WRONLY | O_CREAT | O_EXCL, mode);
        if (fd >= 0 || errno != EEXIST)
            return fd;
    }
    return -1;
}

/* The file that a new one replaces. */
struct replaced {
    const char *path;
    struct stat about;
};

/* Fills the open temporary file, and has it on the disk. `old` is NULL where there is none. */
static bool fill(int fd, const struct replaced *old, const uint8_t *bytes, size_t len)
{
    if (old != NULL && !attributes_copy(fd, old->path, &old->about))
        return false;
    return write_all(fd, bytes, len) && fsync(fd) == 0;
}

/* Leaves no temporary file behind, whatever fails. */
static struct outcome write_and_rename(char *temporary, const char *path, const struct replaced *old, const uint8_t *bytes,
                                       size_t len)
{
    /* Nobody else can look into a file before it has its mode. */
    int fd = make_file(temporary, old != NULL ? 0600 : 0666);
    if (fd < 0)
        return unwritten();
    struct outcome outcome = fill(fd, old, bytes, len) ? fine : unwritten();
    if (close(fd) != 0 && outcome.written)
        outcome = unwritten();
    if (outcome.written && rename(temporary, path) != 0)
        outcome = unwritten();
    if (!outcome.written)
        unlink(temporary);
    return outcome;
}

/*
 * The new name is safe on the disk when its folder is. Two folders are passed over, since nothing can be done about
 * them: one that this user may write but not read (EACCES), and one whose file system syncs no folders (EINVAL).
 */
static struct outcome sync_folder(const char *folder)
{
    int fd = open(folder, O_RDONLY | O_DIRECTORY);
    if (fd < 0 && errno == EACCES)
        return fine;
    if (fd < 0)
        return (struct outcome){true, strerror(errno)};
    struct outcome outcome = fine;
    if (fsync(fd) != 0 && errno != EINVAL)
        outcome.problem = strerror(errno);
    close(fd);
    return outcome;
}

/* A signal that ends the command waits until the temporary file has its name or is gone. */
static void hold_signals(sigset_t *before)
{
    static const int ending[] = {SIGINT, SIGTERM, SIGHUP, SIGQUIT, SIGALRM, SIGXCPU};
    sigset_t held;
    sigemptyset(&held);
    for (size_t i = 0; i < sizeof ending / sizeof ending[0]; i++)
        sigaddset(&held, ending[i]);
    sigprocmask(SIG_BLOCK, &held, before);
}

static struct outcome replace(const char *path, const struct replaced *old, const uint8_t *bytes, size_t len)
{
    char *folder = folder_of(path);
    char *temporary = folder == NULL ? NULL : joined(folder, ".routine-XXXXXX");
    struct outcome outcome = {false, "not enough memory"};
    if (temporary != NULL) {
        sigset_t before;
        hold_signals(&before);
        outcome = write_and_rename(temporary, path, old, bytes, len);
        if (outcome.written)
            outcome = sync_folder(folder);
        sigprocmask(SIG_SETMASK, &before, NULL);
    }
    free(temporary);
    free(folder);
    return outcome;
}

/*
 * Through a symbolic link the file that it leads to is replaced, and the link stays.
 * What the user may not write is not replaced either, though its folder would allow it.
 */
static struct outcome replace_existing(const char *path, const struct stat *about, const uint8_t *bytes, size_t len)
{
    if (access(path, W_OK) != 0)
        return unwritten();
    char *real = realpath(path, NULL);
    if (real == NULL)
        return unwritten();
    const struct replaced old = {real, *about};
    struct outcome outcome = replace(real, &old, bytes, len);
    free(real);
    return outcome;
}

static bool is_link(const char *path)
{
    struct stat about;
    return lstat(path, &about) == 0 && S_ISLNK(about.st_mode);
}

/* What the symbolic link `path` leads to, as seen from here. NULL, and errno, where that can't be told. */
static char *link_target(const char *path)
{
    char target[PATH_MAX];
    ssize_t len = readlink(path, target, sizeof target - 1);
    if (len < 0)
        return NULL;
    target[len] = '\0';
    if (target[0] == '/')
        return strdup(target);
    char *folder = folder_of(path);
    char *whole = folder == NULL ? NULL : joined(folder, target);
    free(folder);
    return whole;
}

/* Makes a file that is not there. Where `path` is a link that leads to nothing, its target is made, and the link stays. */
static struct outcome write_new(const char *path, int links, const uint8_t *bytes, size_t len)
{
    if (!is_link(path))
        return replace(path, NULL, bytes, len);
    if (links == 0)
        return (struct outcome){false, strerror(ELOOP)};
    char *target = link_target(path);
    if (target == NULL)
        return unwritten();
    struct outcome outcome = write_new(target, links - 1, bytes, len);
    free(target);
    return outcome;
}

/* What stands for a standard output that was closed at the start can only be read (guard_streams in routine.c). */
static bool can_be_written(int fd)
{
    int flags = fcntl(fd, F_GETFL);
    return flags >= 0 && (flags & O_ACCMODE) != O_RDONLY;
}

static bool is_one_file(const struct stat *a, const struct stat *b)
{
    return a->st_dev == b->st_dev && a->st_ino == b->st_ino;
}

bool output_is_standard(const char *path)
{
    struct stat named, standard;
    if (strcmp(path, "-") == 0)
        return true;
    return can_be_written(STDOUT_FILENO) && fstat(STDOUT_FILENO, &standard) == 0 && stat(path, &named) == 0 &&
           is_one_file(&named, &standard);
}

/* What `path` leads to; where it is "-", what the stream does. False where there is nothing. */
static bool look_at(const char *path, int stream, struct stat *about)
{
    return (strcmp(path, "-") == 0 ? fstat(stream, about) : stat(path, about)) == 0;
}

static bool keeps_bytes(const struct stat *about)
{
    return S_ISREG(about->st_mode) || S_ISBLK(about->st_mode);
}

bool output_is_input(const char *path, const char *input)
{
    struct stat out, in;
    return look_at(path, STDOUT_FILENO, &out) && look_at(input, STDIN_FILENO, &in) && is_one_file(&out, &in) &&
           keeps_bytes(&out);
}

static struct outcome write_path(const char *path, const uint8_t *bytes, size_t len)
{
    struct stat about;
    if (output_is_standard(path))
        return write_standard_output(bytes, len);
    if (stat(path, &about) == 0)
        return S_ISREG(about.st_mode) ? replace_existing(path, &about, bytes, len) : write_directly(path, bytes, len);
    return errno == ENOENT ? write_new(path, MOST_LINKS, bytes, len) : unwritten();
}

enum status output_write(const char *path, const uint8_t *bytes, size_t len)
{
    struct outcome outcome = write_path(path, bytes, len);
    if (outcome.problem == NULL)
        return ALL_ACCEPTED;
    if (outcome.written)
        say_unsafe(path, outcome.problem);
    else
        say_unwritten(path, outcome.problem);
    return TROUBLE;
}
