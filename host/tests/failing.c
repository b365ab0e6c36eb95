/*
 * For the tests of what the command writes: loaded before libc (LD_PRELOAD), it makes
 * calls of the command fail that don't fail on the disk of a test. The variable FAILING
 * says which:
 *
 *   folder      fsync of a folder
 *   no syncing  fsync of a folder, as on a file system that can't do that
 *   fchmod      every fchmod, as on a file system without modes
 *   owner       every fchown that gives a file another owner, as for a user who isn't root
 *   fchown      every fchown
 *   fsetxattr   every fsetxattr
 *   full N      every write to a regular file after the Nth, of which half goes through,
 *               as on a disk that gets full
 *   signal N    no call, but signal N comes when the new file is filled
 */
#define _GNU_SOURCE
#include <errno.h>
#include <signal.h>
#include <stdbool.h>
#include <stdlib.h>
#include <string.h>
#include <sys/stat.h>
#include <sys/syscall.h>
#include <sys/types.h>
#include <unistd.h>

static bool fails(const char *what)
{
    const char *failing = getenv("FAILING");
    return failing != NULL && strcmp(failing, what) == 0;
}

static int failed(int reason)
{
    errno = reason;
    return -1;
}

/* The number after the word, where that is what FAILING says; else 0. */
static int number_of(const char *word)
{
    const char *failing = getenv("FAILING");
    size_t len = strlen(word);
    return failing != NULL && strncmp(failing, word, len) == 0 ? atoi(failing + len) : 0;
}

static void send_signal(void)
{
    int number = number_of("signal ");
    if (number != 0)
        raise(number);
}

static bool is_regular(int fd)
{
    struct stat about;
    return fstat(fd, &about) == 0 && S_ISREG(about.st_mode);
}

ssize_t write(int fd, const void *bytes, size_t len)
{
    static int writes;
    int full = number_of("full ");
    if (full != 0 && is_regular(fd))
        writes++;
    if (full != 0 && writes > full)
        return failed(ENOSPC);
    return syscall(SYS_write, fd, bytes, full != 0 && writes == full ? len / 2 : len);
}

int fsync(int fd)
{
    if (is_regular(fd))
        send_signal();
    else if (fails("folder"))
        return failed(EIO);
    else if (fails("no syncing"))
        return failed(EINVAL);
    return (int)syscall(SYS_fsync, fd);
}

int fchmod(int fd, mode_t mode)
{
    return fails("fchmod") ? failed(EPERM) : (int)syscall(SYS_fchmod, fd, mode);
}

int fchown(int fd, uid_t owner, gid_t group)
{
    if (fails("fchown") || (fails("owner") && owner != (uid_t)-1))
        return failed(EPERM);
    return (int)syscall(SYS_fchown, fd, owner, group);
}

int fsetxattr(int fd, const char *name, const void *value, size_t size, int flags)
{
    return fails("fsetxattr") ? failed(EOPNOTSUPP) : (int)syscall(SYS_fsetxattr, fd, name, value, size, flags);
}
