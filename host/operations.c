#include "operations.h"

/* By number. host/tests/format.sh holds this table to the library's. */
static const char *const names[] = {
    "mov",  "movsx",  "str",    "ldd",    "neg",  "add",   "sub",   "mul",   "mulhi",  "imul",
    "imulhi", "div",  "rem",    "idiv",   "irem", "popcnt", "bsf",  "bsr",   "not",    "shr",
    "shl",  "xor",    "or",     "and",    "ror",  "rol",   "tg",    "tge",   "te",     "tne",
    "tl",   "tle",    "tug",    "tuge",   "tul",  "tule",  "ifs",   "js",    "jmp",    "vexit",
    "vxcall", "nop",  "sfence", "lfence", "vemit", "vpinr", "vpinw", "vpinrm", "vpinwm",
};

const char *operation_name(uint32_t op)
{
    if (op >= sizeof names / sizeof names[0])
        return "not an operation";
    return names[op];
}
