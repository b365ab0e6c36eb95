#define _XOPEN_SOURCE 700
#define _FILE_OFFSET_BITS 64

#include "attributes.h"

#include <errno.h>
#include <stdint.h>
#include <sys/xattr.h>
#include <unistd.h>

static const char acl_name[] = "system.posix_acl_access";

/* Linux keeps no extended attribute that is longer. */
#define MOST_ACL 65536

/* Of a call that failed: the file has no list, or its file system none at all. */
static bool has_no_acl(void)
{
    return errno == ENODATA || errno == ENOTSUP || errno == ENOSYS;
}

/* The length of the file's access control list: 0 where it has none, -1 where that can't be told. */
static ssize_t read_acl(const char *path, uint8_t *acl)
{
    ssize_t len = getxattr(path, acl_name, acl, MOST_ACL);
    return len < 0 && has_no_acl() ? 0 : len;
}

/* A folder can give every new file in it a list. */
static bool drop_acl(int fd)
{
    return fremovexattr(fd, acl_name) == 0 || has_no_acl();
}

/*
 * Only root can give a file away, and others can give it to the groups that they are in.
 * Some file systems refuse any change, but have one group for all files.
 */
static bool keep_group(int fd, const struct stat *old)
{
    struct stat now;
    if (fchown(fd, old->st_uid, old->st_gid) == 0 || fchown(fd, (uid_t)-1, old->st_gid) == 0)
        return true;
    return fstat(fd, &now) == 0 && now.st_gid == old->st_gid;
}

/*
 * For a file of another group than before. Who was in the group is one of the others now, and who is in the new one was
 * one of the others: so both get what both had.
 */
static mode_t rights_of_both(mode_t mode)
{
    mode_t both = mode >> 3 & mode & 07;
    return (mode & 0700) | both << 3 | both;
}

/* A file system without modes refuses to set one. That does no harm where the file has no right too many. */
static bool set_mode(int fd, mode_t mode)
{
    struct stat now;
    if (fchmod(fd, mode) == 0)
        return true;
    int kept = errno;
    bool fine = fstat(fd, &now) == 0 && (now.st_mode & 0777 & ~mode) == 0;
    errno = kept;
    return fine;
}

bool attributes_copy(int fd, const char *path, const struct stat *old)
{
    uint8_t acl[MOST_ACL];
    ssize_t len = read_acl(path, acl);
    bool same_group = keep_group(fd, old);
    mode_t mode = old->st_mode & 0777;
    if (len == 0 && drop_acl(fd))
        return set_mode(fd, same_group ? mode : rights_of_both(mode));
    /* The list holds the mode as well, and what the group may do. */
    if (len > 0 && same_group && fsetxattr(fd, acl_name, acl, (size_t)len, 0) == 0)
        return true;
    /* With a list the group's bits of the mode are the most that the list gives to anyone, not what the group may do. */
    return set_mode(fd, mode & 0700);
}
