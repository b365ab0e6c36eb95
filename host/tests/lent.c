#define _GNU_SOURCE

#include "lent.h"

#include <sys/mman.h>
#include <unistd.h>

#include "group.h"

static void *map(void *at, size_t len, int access, int flags, int fd)
{
    void *got = mmap(at, len, access, flags, fd, 0);
    if (got == MAP_FAILED)
        stop("mmap");
    return got;
}

static uint8_t *map_guarded(int fd, size_t len, int access)
{
    size_t page = (size_t)sysconf(_SC_PAGESIZE);
    uint8_t *all = map(NULL, len + 2 * page, PROT_NONE, MAP_PRIVATE | MAP_ANONYMOUS, -1);
    return map(all + page, len, access, MAP_SHARED | MAP_FIXED, fd);
}

struct room make_room(size_t len)
{
    size_t page = (size_t)sysconf(_SC_PAGESIZE);
    struct room room = {.len = (len / page + 1) * page};
    int fd = memfd_create("lent", 0);
    if (fd < 0 || ftruncate(fd, (off_t)room.len) != 0)
        stop("memfd");
    room.plain = map(NULL, room.len, PROT_READ | PROT_WRITE, MAP_SHARED, fd);
    room.readable = map_guarded(fd, room.len, PROT_READ);
    room.writable = map_guarded(fd, room.len, PROT_READ | PROT_WRITE);
    close(fd);
    return room;
}

struct lent lend(const struct room *room, size_t len, bool at_end)
{
    size_t at = at_end ? room->len - len : 0;
    return (struct lent){len, room->plain + at, room->writable + at, room->readable + at};
}

uint8_t *no_access(const struct room *room)
{
    return room->readable + room->len;
}
