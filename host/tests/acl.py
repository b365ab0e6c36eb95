"""acl.py set FILE | default FOLDER | show FILE: the access control list of a file, without tools that may be missing.

Both set and default give the owner and one more user, of number 12345, the right to read and write, and the group and all
others none. show prints the list in hexadecimal, nothing where there is none.
"""
import errno
import os
import struct
import sys

ACCESS, DEFAULT = "system.posix_acl_access", "system.posix_acl_default"
OWNER, USER, GROUP, MASK, OTHERS = 0x01, 0x02, 0x04, 0x10, 0x20
NOBODY = 0xFFFFFFFF


def entries():
    lines = [(OWNER, 6, NOBODY), (USER, 6, 12345), (GROUP, 0, NOBODY), (MASK, 6, NOBODY), (OTHERS, 0, NOBODY)]
    return struct.pack("<I", 2) + b"".join(struct.pack("<HHI", *line) for line in lines)


def show(path):
    try:
        return os.getxattr(path, ACCESS).hex()
    except OSError as error:
        if error.errno not in (errno.ENODATA, errno.ENOTSUP):
            raise
        return ""


def main(what, path):
    if what == "show":
        print(show(path))
        return
    os.setxattr(path, ACCESS if what == "set" else DEFAULT, entries())


if __name__ == "__main__":
    main(*sys.argv[1:])
