#include "words.h"

#include "vtil.h"

static const char *const words[] = {
    [VTIL_SHORT_FILE] = "short file: a field or name passes the end",
    [VTIL_NAME_NOT_TEXT] = "name not text: not well-formed UTF-8 (Unicode Standard)",
    [VTIL_WRONG_MARK] = "wrong mark: either header mark differs",
    [VTIL_UNKNOWN_MACHINE] = "unknown machine: over 2",
    [VTIL_FOREIGN_REGISTER] = "foreign register: id divided by 2^56 is over 2",
    [VTIL_UNKNOWN_OPERAND_KIND] = "unknown operand kind: neither 0 nor 1",
    [VTIL_UNKNOWN_OPERATION] = "unknown operation: name not among the 49",
    [VTIL_WRONG_OPERAND_COUNT] = "wrong operand count for the name",
    [VTIL_REPEATED_BLOCK] = "repeated block: two blocks share a vip",
    [VTIL_LENDING_TOO_LARGE] = "lending too large: image or journal over 16,777,216 bytes",
    [VTIL_IMAGE_FULL] = "image full: the new written size passes the image's length",
    [VTIL_JOURNAL_FULL] = "journal full: used plus cost passes the journal's length",
    [VTIL_SPOILED_BOOK] = "spoiled book",
    [VTIL_BLOCK_PRESENT] = "block present",
    [VTIL_NO_SUCH_BLOCK] = "no such block, or no such place",
    [VTIL_NOTHING_TO_TAKE_BACK] = "nothing to take back",
    [VTIL_LEFTOVER] = "leftover: bytes after the appended instruction",
    [VTIL_CLOSED_BLOCK] = "closed block: its last instruction is js, jmp, vexit or vxcall",
    [VTIL_CROOKED_REGISTER] = "crooked register: width under 1, offset under 0, or their sum over 64",
    [VTIL_WALK_OPEN] = "walk open: it was started, and neither ended nor abandoned",
    [VTIL_NO_WALK] = "no walk: none was started, or it has ended or was abandoned",
};

const char *refusal_words(int64_t number)
{
    if (number < VTIL_SHORT_FILE || (uint64_t)number >= sizeof words / sizeof words[0])
        return "not a refusal number";
    return words[number];
}

const char *plural(uint64_t count)
{
    return count == 1 ? "" : "s";
}
