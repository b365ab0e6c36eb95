/*
 * vtil.h: the C interface of libvtil.a, a library for VTIL routine files.
 *
 * For C11 and later and for C++. Compile with this folder in the include path
 * and link with libvtil.a; nothing else is needed.
 *
 * The rules behind it are in docs/SPEC.md: sections 2 the refusals, 3 and 4 the
 * files, 5 the writer, 6 the check and reading by offset, 7 opening, 8 every call
 * on a book, 9 looking, the charge, sending block by block and the copy for outside
 * reviewers, 10 the edits, 11 the journal and undo, 13 lists of calls.
 *
 * No function allocates memory, writes a file, prints, keeps a pointer after it
 * returns, or has state between calls. So every function may be called from
 * several threads at once, as long as nobody writes the memory that is lent to
 * it while it runs.
 *
 * A call takes up to 67,000 bytes of stack (host/tests/stack.c measures it), for
 * the search for repeated blocks, and time that grows with the file or the image.
 * Where the vips of the blocks do not rise, the blocks are passed over once more
 * for each 8,000 of them: the 466,000 that a file of 16 MB can hold take half a
 * second in the worst order known.
 */
#ifndef VTIL_H
#define VTIL_H

#include <stddef.h>
#include <stdint.h>

#ifdef __cplusplus
extern "C" {
#endif

/* An image, a second image (vtil_outside_copy) and a journal have at most so many bytes. */
#define VTIL_MOST_LENT 16777216

/* An instruction has at most so many bytes: a name of six, and three registers. */
#define VTIL_LONGEST_INSTRUCTION 119

/*
 * The refusals. The numbers are fixed. Reading a file can give 1 to 9; the
 * first field that fails, in the order of the file, decides which. 9 comes only
 * where no field fails.
 */
enum vtil_refusal {
    VTIL_SHORT_FILE = 1,            /* short file: a field or name passes the end */
    VTIL_NAME_NOT_TEXT = 2,         /* name not text: not well-formed UTF-8 (Unicode Standard) */
    VTIL_WRONG_MARK = 3,            /* wrong mark: either header mark differs */
    VTIL_UNKNOWN_MACHINE = 4,       /* unknown machine: over 2 */
    VTIL_FOREIGN_REGISTER = 5,      /* foreign register: id divided by 2^56 is over 2 */
    VTIL_UNKNOWN_OPERAND_KIND = 6,  /* unknown operand kind: neither 0 nor 1 */
    VTIL_UNKNOWN_OPERATION = 7,     /* unknown operation: name not among the 49 */
    VTIL_WRONG_OPERAND_COUNT = 8,   /* wrong operand count for the name */
    VTIL_REPEATED_BLOCK = 9,        /* repeated block: two blocks share a vip */
    VTIL_LENDING_TOO_LARGE = 10,    /* lending too large: image or journal over 16,777,216 bytes */
    VTIL_IMAGE_FULL = 11,           /* image full: the new written size passes the image's length */
    VTIL_JOURNAL_FULL = 12,         /* journal full: used plus cost passes the journal's length */
    VTIL_SPOILED_BOOK = 13,         /* spoiled book */
    VTIL_BLOCK_PRESENT = 14,        /* block present */
    VTIL_NO_SUCH_BLOCK = 15,        /* no such block, or no such place */
    VTIL_NOTHING_TO_TAKE_BACK = 16, /* nothing to take back */
    VTIL_LEFTOVER = 17,             /* leftover: bytes after the appended instruction */
    VTIL_CLOSED_BLOCK = 18,         /* closed block: its last instruction is js, jmp, vexit or vxcall */
    VTIL_CROOKED_REGISTER = 19,     /* crooked register: width under 1, offset under 0, or their sum over 64 */
    VTIL_WALK_OPEN = 20,            /* walk open: it was started, and neither ended nor abandoned */
    VTIL_NO_WALK = 21               /* no walk: none was started, or it has ended or was abandoned */
};

/* ==== Checking a file ============================================================ */

/*
 * vtil_check reads a routine file that lies in memory and says whether it is
 * well formed.
 *
 *   file      the first byte of the file. It may be NULL when file_len is 0.
 *   file_len  the number of bytes at `file`, all of them readable.
 *
 * Answers
 *   the number of bytes of the routine (at least 114, at most file_len) when the
 *   file is accepted. Bytes after the routine are not an error: the file has some
 *   exactly when the answer is less than file_len;
 *   minus a refusal number from 1 to 9, such as -VTIL_WRONG_MARK, when it is
 *   refused;
 *   -VTIL_LENDING_TOO_LARGE, before all else, when file_len is over 2^63 - 1.
 * 0 is never answered. No byte outside the file is read and no byte is written.
 */
int64_t vtil_check(const uint8_t *file, size_t file_len);

/* ==== Values ====================================================================== */

/* Numbers are those of the file; bit_count is a width in bits. */
typedef struct {
    uint64_t value; /* its 64 bits, whether they are meant signed or not */
    uint32_t bit_count;
} vtil_immediate_desc;

typedef struct {
    uint64_t flags;
    uint64_t combined_id;          /* divided by 2^56 at most 2 */
    int32_t bit_count, bit_offset; /* any numbers; vtil_append alone asks more of them */
} vtil_register_desc;

/* The fields of the one that does not count are 0 when read and ignored when written. */
typedef struct {
    uint32_t kind; /* 0: the immediate counts, 1: the register counts */
    vtil_immediate_desc immediate;
    vtil_register_desc register_desc;
} vtil_operand_desc;

typedef struct {
    uint32_t op;                   /* the operation's number, 0 to 48; docs/FORMAT.md has the names */
    uint32_t count;                /* how many of the operands are used; each operation takes one number of them */
    vtil_operand_desc operands[3]; /* unused ones are all 0 when read and ignored when written */
    uint64_t vip;
    int64_t sp_offset;
    uint32_t sp_index;
    uint8_t sp_reset; /* 0 or 1 when read; when written, anything but 0 is 1 */
} vtil_instruction_desc;

/* ==== Reading by offset =========================================================== */

/*
 * Each call reads one part of a routine, at an offset of a file or of an image that
 * lies in memory, and answers it by value with the offset after it. No book is
 * needed and nothing else is lent. A part with lists answers for each list where
 * its first element begins (of an empty list, the offset after its count) and how
 * many elements there are; they stand one after the other, each beginning where the
 * one before it ends.
 *
 * The file need not be a routine: `at` may be any number, and a part is read
 * wherever its layout accepts the bytes. vtil_read_routine alone says that a whole
 * file is well formed, as vtil_check does. So all instructions of a file, in time
 * that grows with its length:
 *
 *     vtil_routine_read routine = vtil_read_routine(file, file_len);
 *     if (routine.refusal != 0)
 *         return routine.refusal;
 *     uint64_t block_at = routine.blocks_at;
 *     for (uint64_t i = 0; i < routine.blocks; i++) {
 *         vtil_block_read block = vtil_read_block(file, file_len, block_at);
 *         uint64_t at = block.instructions_at;
 *         for (uint64_t j = 0; j < block.instructions; j++) {
 *             vtil_instruction_read read = vtil_read_instruction(file, file_len, at);
 *             use(&read.instruction);
 *             at = read.end;
 *         }
 *         block_at = block.end;
 *     }
 *
 * After an accepted vtil_read_routine no call in this loop is refused, as long as
 * nobody changes the bytes. The written form in a book's image is read the same way:
 * hand in the image, with the book's `written` as the length.
 *
 * Of the conventions vtil_read_routine answers where the routine's begins. The
 * subroutine's begins where that one ends, and the special ones four bytes, their
 * count, after the end of the subroutine's.
 *
 * Of every call here:
 *   file      the first byte. It may be NULL when file_len is 0. It is only read.
 *   file_len  the number of bytes at `file`, all of them readable. There is no limit.
 *   at        where the part begins, from 0.
 * The refusal is that of the first field that fails in the order of the file; where
 * `at` is past the end it is 1. Each call below says which it can give. In a refused
 * answer every field but the refusal is 0, also those of a struct within it. A part's
 * time grows with its bytes; that of the routine is vtil_check's.
 */

/* Refusals: 1 to 8; then 9, where no field fails. */
typedef struct {
    uint64_t refusal;
    uint64_t end;              /* the offset after the routine: what vtil_check answers */
    uint64_t arch_id;          /* the machine: 0 Amd64, 1 Arm64, 2 Virtual */
    uint64_t vip;              /* the entry vip */
    uint64_t conventions_at;   /* where the routine's convention begins */
    uint64_t spec_conventions; /* how many special conventions there are */
    uint64_t blocks_at, blocks;
} vtil_routine_read;

vtil_routine_read vtil_read_routine(const uint8_t *file, size_t file_len);

/* Refusals: 1, 5. */
typedef struct {
    uint64_t refusal, end;
    vtil_register_desc frame_register;
    uint64_t shadow_space;
    uint64_t purge_stack; /* 0 or 1 */
    uint64_t volatile_at, volatile_registers;
    uint64_t param_at, param_registers;
    uint64_t retval_at, retval_registers;
} vtil_convention_read;

vtil_convention_read vtil_read_convention(const uint8_t *file, size_t file_len, uint64_t at);

/* An element of a convention's three lists. Refusals: 1, 5. */
typedef struct {
    uint64_t refusal, end;
    vtil_register_desc register_desc;
} vtil_register_read;

vtil_register_read vtil_read_register(const uint8_t *file, size_t file_len, uint64_t at);

/* Refusals: 1, 2, 5 to 8. */
typedef struct {
    uint64_t refusal, end;
    uint64_t vip;
    int64_t sp_offset;
    uint32_t sp_index, last_temporary_index;
    uint64_t instructions_at, instructions;
    uint64_t prev_at, prev_vips;
    uint64_t next_at, next_vips;
} vtil_block_read;

vtil_block_read vtil_read_block(const uint8_t *file, size_t file_len, uint64_t at);

/* Refusals: 1, 2, 5 to 8. */
typedef struct {
    uint64_t refusal, end;
    vtil_instruction_desc instruction;
} vtil_instruction_read;

vtil_instruction_read vtil_read_instruction(const uint8_t *file, size_t file_len, uint64_t at);

/* An element of a block's lists of vips. Refusal: 1. */
typedef struct {
    uint64_t refusal, end;
    uint64_t vip;
} vtil_vip_read;

vtil_vip_read vtil_read_vip(const uint8_t *file, size_t file_len, uint64_t at);

/* ==== Books: opening a file, writing an instruction, looking, the charge ========== */

/*
 * What a routine is billed at. The operations are six groups: numbers 0 to 3, 4 to 14,
 * 15 to 25, 26 to 36, 37 to 40 and 41 to 48. Each group has a rate, which is any
 * number. Every instruction of every block counts the rate of its operation's group;
 * the sum, rounded up once to whole cents, is the charge.
 */
typedef struct {
    uint32_t rate[6]; /* hundredths of a cent per instruction, by group */
} vtil_rates;

/*
 * A routine that is open for looking and editing has three parts, all kept by the
 * caller:
 *
 *   image    lent memory that holds the routine's written form, then zeros. The
 *            written form is the routine as a file would hold it, with the pad 0
 *            and every flag 0 or 1. It is what to save.
 *   journal  lent memory that holds what vtil_undo needs. It may have length 0:
 *            then the routine can be looked at, but every edit is refused.
 *   book     two lengths, how many bytes of the image are the written form and how
 *            many bytes of the journal are used; for the charge the rates that it was
 *            opened at, and the running sum; and the place of a walk that is open
 *            ("Sending block by block", below).
 *
 * Keep the three together: hand to each call the book that the call before it
 * answered, with the same image and journal at the same lengths, unchanged in
 * between. An image may also be lengthened by zeros or cut after `written`, and a
 * journal lengthened by any bytes or cut after `used`: what is said of each call
 * holds at the lengths that it is lent, but what is proved of whole lists of calls
 * is proved for lengths that stay. (A removed block comes back only into an image
 * that has room for it.) A book is not trusted: no call touches a byte outside what
 * it was lent, whatever the numbers in the book and the bytes in image and journal
 * are.
 *
 * A book is spoiled, and every call on it is refused 13, when `written` is over
 * the image's length, `used` is over the journal's length, the first `written`
 * bytes of the image are not exactly one routine in written form, a byte after
 * them is not 0, or a walk is open and its place, `walk` - 1, is over the number of
 * blocks. What the journal holds is tested by vtil_undo alone.
 *
 * The rates of a book are those that it was opened at: no call changes them. Its sum
 * is that of all instructions at these rates. vtil_open works it out; from then on
 * vtil_append adds the rate of the instruction, vtil_remove_block subtracts the sum of
 * the block, and vtil_undo takes either back, without a pass over the routine for it.
 * So the charge is there after every call. In whole cents, rounded up once, it is
 *
 *     sum / 100 + (sum % 100 != 0)
 *
 * and not (sum + 99) / 100, which wraps where a sum made by hand is near 2^64. As long
 * as image, journal and book were kept together since the opening, these are the cents
 * that vtil_charge works out afresh at the same rates.
 *
 * So hand a book back as it was answered. A call counts on from the sum, and at the
 * rates, that it is handed, and does not see that they are others. Only where the sum
 * is smaller than what is to be subtracted, or would pass 2^64 - 1 with what is to be
 * added, is the call refused 13, and that is its last test. vtil_remove_block,
 * vtil_append and vtil_undo make it, where they change the sum; all other calls take
 * any sum.
 *
 * Of every call here:
 *   Each pointer has as many bytes behind it as the length after it says, and may
 *   be NULL when that length is 0. Image, journal and whatever else is lent to one
 *   call do not overlap. Nothing is kept after the call.
 *   A refused call changes no byte of what it is lent. Where it answers a book,
 *   it is the one that was handed in (vtil_open and vtil_run: a book of zeros, the
 *   rates, the sum and the walk too).
 * Of every call here but vtil_run and vtil_run_on, which make several of the others:
 *   Image and journal have at most 16,777,216 bytes each (VTIL_MOST_LENT), and so has
 *   a second image; a longer one is refused 10 before anything else.
 *   Every call on a book reads the whole image first, to see that it is not
 *   spoiled: a call's time grows with the image's length.
 */
typedef struct {
    uint64_t written; /* bytes of the image that are the written form */
    uint64_t used;    /* bytes of the journal that are used */
    vtil_rates rates; /* those of the opening */
    uint64_t sum;     /* of all instructions at these rates, in hundredths of a cent */
    uint64_t walk;    /* 0 where no walk is open; else 1 + the place of the block to be handed out next */
} vtil_book;

typedef struct {
    uint64_t refusal; /* 0: accepted */
    vtil_book book;   /* to be handed to the next call */
} vtil_answer;

/*
 * vtil_open reads a routine file and puts its written form into the image; the
 * rest of the image and the whole journal become 0.
 *
 *   rates  the book's, from now on. Any numbers; all 0 where no charge is wanted.
 *
 * Answers the book of the routine; its written length is what vtil_check answers
 * for the same file, nothing of the journal is used, its sum is that of the file's
 * instructions, less than 2^52 at any rates, and no walk is open. The file may be let
 * go.
 *
 * Refusals, in this order: 10; 1 to 9, as vtil_check; 11 when the written form is
 * longer than the image. The journal is not a reason: any length up to the limit
 * will do.
 */
vtil_answer vtil_open(const uint8_t *file, size_t file_len, uint8_t *image, size_t image_len, uint8_t *journal,
                      size_t journal_len, vtil_rates rates);

/* What vtil_write_instruction answers, and vtil_outside_copy. */
typedef struct {
    uint64_t refusal; /* 0: written */
    uint64_t size;    /* how long what was written is, without zeros after it; 0 when refused */
} vtil_written;

/*
 * vtil_write_instruction writes an instruction at the start of the lent bytes, in
 * the layout that vtil_append takes; the bytes after it are not touched. No book is
 * involved: `image` is any memory; 119 bytes (VTIL_LONGEST_INSTRUCTION) are always
 * enough.
 *
 * It writes crooked registers too, as files may have them. So what it has written
 * may be refused by vtil_append, 19; it never is by vtil_read_instruction.
 *
 * Refusals, in this order: 10; 7 when the operation's number is over 48; 8 when
 * the count is not the operation's; 5 when some used operand of kind 1 has a
 * foreign register; 6 when some used operand has a kind other than 0 and 1; 11
 * when the instruction is longer than the lent bytes.
 */
vtil_written vtil_write_instruction(vtil_instruction_desc value, uint8_t *image, size_t image_len);

/*
 * Looking. Each call answers a part of the routine, named by places that count
 * from 0. Image and journal are only read. A walk may be open. In a refused answer
 * every field but the refusal is 0, also those of a struct within it.
 *
 * As every call on a book each of these reads the whole image first. To look at all
 * of a routine, read it by offset, above: a loop over these costs a pass over the
 * image for each element.
 *
 * Refusals, in this order: 10; 13 when the book is spoiled; 15 when there is no
 * such block, convention, list or place.
 */
typedef struct {
    uint64_t refusal;
    uint64_t arch_id;          /* the machine: 0 Amd64, 1 Arm64, 2 Virtual */
    uint64_t vip;              /* the entry vip */
    uint64_t spec_conventions; /* how many special conventions there are, after convention 0 and 1 */
    uint64_t blocks;           /* how many blocks there are */
} vtil_routine_look;

vtil_routine_look vtil_routine(vtil_book book, const uint8_t *image, size_t image_len, const uint8_t *journal,
                               size_t journal_len);

typedef struct {
    uint64_t refusal;
    uint64_t vip;
    int64_t sp_offset;
    uint32_t sp_index, last_temporary_index;
    uint64_t instructions, prev_vips, next_vips; /* how many there are of each */
} vtil_block_look;

vtil_block_look vtil_block(vtil_book book, const uint8_t *image, size_t image_len, const uint8_t *journal,
                           size_t journal_len, uint64_t place);

typedef struct {
    uint64_t refusal;
    vtil_instruction_desc instruction;
} vtil_instruction_look;

vtil_instruction_look vtil_instruction(vtil_book book, const uint8_t *image, size_t image_len, const uint8_t *journal,
                                       size_t journal_len, uint64_t block, uint64_t place);

typedef struct {
    uint64_t refusal;
    uint64_t vip;
} vtil_vip_look;

/* list 0: the vips of the blocks before it (prev), 1: of those after it (next) */
vtil_vip_look vtil_block_vip(vtil_book book, const uint8_t *image, size_t image_len, const uint8_t *journal,
                             size_t journal_len, uint64_t block, uint64_t list, uint64_t place);

typedef struct {
    uint64_t refusal;
    vtil_register_desc frame_register;
    uint64_t shadow_space;
    uint64_t purge_stack;                                            /* 0 or 1 */
    uint64_t volatile_registers, param_registers, retval_registers; /* how many there are of each */
} vtil_convention_look;

/* place 0: the routine's convention, 1: the subroutine's, then the special ones */
vtil_convention_look vtil_convention(vtil_book book, const uint8_t *image, size_t image_len, const uint8_t *journal,
                                     size_t journal_len, uint64_t place);

typedef struct {
    uint64_t refusal;
    vtil_register_desc register_desc;
} vtil_register_look;

/* list 0: volatile, 1: param, 2: retval */
vtil_register_look vtil_convention_register(vtil_book book, const uint8_t *image, size_t image_len,
                                            const uint8_t *journal, size_t journal_len, uint64_t convention,
                                            uint64_t list, uint64_t place);

/*
 * vtil_charge answers the charge of a routine in whole cents, worked afresh at the rates
 * that are handed in here. The rates and the sum of the book are not looked at. Image
 * and journal are only read, and a walk may be open; as every call on a book this one
 * reads the whole image first, and then once more.
 *
 * No sum wraps: what an image can hold comes to less than 2^52 hundredths of a cent.
 * How many instructions of group g there are is the charge at rate 100 for group g
 * and 0 for the others.
 *
 * Refusals, in this order: 10; 13 when the book is spoiled. The cents are then 0.
 */
typedef struct {
    uint64_t refusal;
    uint64_t cents;
} vtil_charge_look;

vtil_charge_look vtil_charge(vtil_book book, const uint8_t *image, size_t image_len, const uint8_t *journal,
                             size_t journal_len, vtil_rates rates);

/* ==== Editing ===================================================================== */

/*
 * Each accepted edit changes the routine in the image, writes an entry into the
 * journal after the part that is used, and answers the new book. The links between
 * blocks (prev and next vips) are never adjusted. Every edit is refused 10 and then
 * 13 as any call on a book; its own refusals come next; then come 11, when the new
 * written form is longer than the image, and 12, when the entry does not fit what is
 * left of the journal; and last, where the sum changes, 13 of the sum.
 *
 * While a walk is open vtil_create_block and vtil_append go on as ever, and leave the
 * walk at its place. vtil_remove_block and vtil_undo would move blocks across that
 * place or take them away, and are refused 20.
 */

/*
 * vtil_create_block adds an empty block with this vip after the last one; its
 * other numbers are 0. The image needs 36 bytes more and the journal 20. The sum
 * stays, whatever it is.
 *
 * Refusals, in this order: 10, 13; 14 when a block has this vip; 11, 12.
 */
vtil_answer vtil_create_block(vtil_book book, uint8_t *image, size_t image_len, uint8_t *journal, size_t journal_len,
                              uint64_t vip);

/*
 * vtil_remove_block removes the block with this vip; the last block takes its
 * place. The journal needs the block's size and 20 bytes more. The sum of the block
 * at the book's rates is subtracted.
 *
 * Refusals, in this order: 10, 13; 20 when a walk is open; 15 when no block has this
 * vip; 12; 13 when the book's sum is smaller than the block's.
 */
vtil_answer vtil_remove_block(vtil_book book, uint8_t *image, size_t image_len, uint8_t *journal, size_t journal_len,
                              uint64_t vip);

/*
 * vtil_append adds an instruction after the last one of the block with this vip.
 * The instruction is lent as its bytes in the file's layout, exactly one;
 * vtil_write_instruction makes them. The image needs as many bytes more and the
 * journal 20. The book's rate for the instruction's group is added to the sum.
 *
 * A block is closed when its last instruction is js, jmp, vexit or vxcall, the
 * operations 37 to 40: the engine leaves the block there, so it would never come to
 * an instruction after that one. A closed block takes no more. An empty block is
 * open, and so is one whose last instruction is another, whatever stands before it:
 * a file may have one of the four in the middle of a block. vtil_undo of the append
 * that closed a block opens it again.
 *
 * A register is sound when its width (bit_count) is at least 1, its offset
 * (bit_offset) at least 0, and the sum of the two at most 64; any other is crooked.
 * An appended instruction may only name sound ones. Immediates are not asked, and
 * nothing but this call asks: a file with crooked registers is checked, opened, read
 * and looked at as any other, and vtil_undo brings back a removed block that has them.
 *
 * Refusals, in this order: 10, 13; 1, 2, 5, 6, 7, 8 or 19, whichever field of the
 * instruction fails first (1: its bytes end too early; 19: a crooked register fails as
 * soon as its offset has been read, whatever is wrong behind it); 17 when bytes are
 * left after the instruction; 15 when no block has this vip; 18 when the block is
 * closed; 11, 12; 13 when the book's sum would pass 2^64 - 1 with that rate.
 */
vtil_answer vtil_append(vtil_book book, uint8_t *image, size_t image_len, uint8_t *journal, size_t journal_len,
                        uint64_t vip, const uint8_t *instruction, size_t instruction_len);

/*
 * vtil_undo takes back the last accepted edit that was not taken back yet: image
 * and book are then as they were before it, but for a walk that was open then: none
 * is now. Its entry in the journal is 0. Every edit since vtil_open can be taken back,
 * one call for each. The sum of a block that comes back is added, the rate of an
 * instruction that goes is subtracted, both at the book's rates; where a created block
 * goes the sum stays, whatever it is.
 *
 * Refusals, in this order: 10, 13; 20 when a walk is open; 16 when nothing of the
 * journal is used; 13 when its used part does not end in an entry that fits the image;
 * 13 when the book's sum is smaller than what is to be subtracted, or would pass
 * 2^64 - 1 with what is to be added. Neither of these two happens to a book from
 * vtil_open that was handed on as it was answered, and whose image and journal nobody
 * else wrote or cut.
 */
vtil_answer vtil_undo(vtil_book book, uint8_t *image, size_t image_len, uint8_t *journal, size_t journal_len);

/* ==== Sending block by block ====================================================== */

/*
 * A walk hands out the blocks of an open routine one by one, first place first, while
 * authors go on working. Start it, and take the next block until the length is 0: that
 * is the end, which closes the walk. To send them all:
 *
 *     vtil_answer started = vtil_walk_start(book, image, image_len, journal, journal_len);
 *     if (started.refusal != 0)
 *         return started.refusal;
 *     book = started.book;
 *     for (;;) {
 *         vtil_walk_answer next = vtil_walk_next(book, image, image_len, journal, journal_len);
 *         if (next.refusal != 0)
 *             return next.refusal;
 *         book = next.book;
 *         if (next.length == 0)
 *             break;
 *         send(image + next.offset, next.length);
 *     }
 *
 * The bytes that are handed out are those of the block in the image, in written form;
 * vtil_read_block reads them at the offset. They stand there until the next edit: an
 * append makes its block longer and moves every block after it. So send or copy them
 * first.
 *
 * Between two turns of this loop create and append are allowed. Each is handed the
 * book that the walk answered, and the walk goes on with the book that it answers.
 *   A new block comes last, so it is sent too; also one that is created when the last
 *   block has been handed out and the end has not been said.
 *   An instruction that is appended to a block still to come is sent with it. One that
 *   is appended to a block already handed out is not sent: the block is not handed out
 *   again.
 *   vtil_remove_block and vtil_undo are refused 20 until the walk is closed.
 * So a walk that has come to its end has handed out every block that stands then, each
 * once and in order, as it stood when it was handed out.
 *
 * A walk is closed by its end or by vtil_walk_abandon. The next one begins with the
 * first block again and sends all of them again.
 *
 * Where the walk stands is in the book, in `walk`, and nowhere else: no byte of image
 * and journal tells of it, and undo does not take it back. These calls only read image
 * and journal, and leave all of the book but `walk`. A refused one leaves that too.
 *
 * As every call on a book each of these reads the whole image first, so a walk costs a
 * pass over the image for each block. Where nobody edits meanwhile, read the blocks by
 * offset, above, which takes one pass for all.
 */

/*
 * vtil_walk_start opens a walk, which hands out the first block next. A routine without
 * blocks can be walked too: its first next is the end.
 *
 * Refusals, in this order: 10, 13; 20 when a walk is open.
 */
vtil_answer vtil_walk_start(vtil_book book, const uint8_t *image, size_t image_len, const uint8_t *journal,
                            size_t journal_len);

/* The end, which closes the walk, is refusal 0 and length 0: a block has 36 bytes at least. */
typedef struct {
    uint64_t refusal; /* 0: accepted */
    vtil_book book;   /* to be handed to the next call */
    uint64_t offset;  /* where the block begins in the image; 0 at the end, and when refused */
    uint64_t length;  /* how many bytes it has there; 0 at the end, and when refused */
} vtil_walk_answer;

/*
 * vtil_walk_next answers where the next block stands in the image, and how long it is.
 * After the last block it answers the end; the answer that hands out the last block
 * does not say so.
 *
 * Refusals, in this order: 10, 13; 21 when no walk is open.
 */
vtil_walk_answer vtil_walk_next(vtil_book book, const uint8_t *image, size_t image_len, const uint8_t *journal,
                                size_t journal_len);

/*
 * vtil_walk_abandon closes a walk wherever it stands.
 *
 * Refusals, in this order: 10, 13; 21 when no walk is open.
 */
vtil_answer vtil_walk_abandon(vtil_book book, const uint8_t *image, size_t image_len, const uint8_t *journal,
                              size_t journal_len);

/* ==== A copy for outside reviewers ================================================ */

/*
 * vtil_outside_copy puts the routine into a second image without its values: in its
 * written form, but with the value of every immediate operand 0. The width of each
 * immediate stays, and so does all else: registers, conventions, vips, links and stack
 * numbers are no immediates. The bytes after it become 0, so nothing of what the second
 * image held before is left in it.
 *
 *   copy      the second image, other memory than the first. It may be NULL when
 *             copy_len is 0.
 *   copy_len  the number of bytes at `copy`: as many as the book's `written` are enough,
 *             and at most 16,777,216.
 *
 * Answers the copy's length, which is the book's `written`, and nothing else: image and
 * journal are only read, and the book stays the caller's. A walk may be open. The copy is
 * a file that vtil_check accepts and vtil_open opens.
 *
 * So the copy tells nothing of the values. Take two books that are not spoiled, with no
 * image or journal over the limit, and second images of one length. Where their routines
 * differ only in the values of immediates, the answers are equal, and where the calls are
 * accepted so are the copies, whatever the rates, sums, walks and journals of the two
 * are. Where they are accepted and the routines differ in anything else, the copies do
 * too. But a number that also stands elsewhere, in a vip, a link or a stack number, can
 * still be read there, and where a jump led can be seen by the links of its block.
 *
 * As every call on a book this one reads the whole image first; then come one copy and
 * one light pass over it.
 *
 * Refusals, in this order: 10 when image, journal or copy has over 16,777,216 bytes; 13
 * when the book is spoiled; 11 when the copy is shorter than the written form. The size
 * is then 0, and no byte of the second image is changed.
 */
vtil_written vtil_outside_copy(vtil_book book, const uint8_t *image, size_t image_len, const uint8_t *journal,
                               size_t journal_len, uint8_t *copy, size_t copy_len);

/* ==== Lists of calls ============================================================== */

/* The kinds of calls in a list. The numbers are fixed. */
enum vtil_call {
    VTIL_CREATE = 0,      /* vtil_create_block */
    VTIL_REMOVE = 1,      /* vtil_remove_block */
    VTIL_APPEND = 2,      /* vtil_append */
    VTIL_UNDO = 3,        /* vtil_undo */
    VTIL_WALK_START = 4,  /* vtil_walk_start */
    VTIL_WALK_NEXT = 5,   /* vtil_walk_next */
    VTIL_WALK_ABANDON = 6 /* vtil_walk_abandon */
};

/*
 * A list of calls is lent as words and bytes:
 *
 *   words      four for each call: its kind (enum vtil_call), its vip, and where
 *              its part of `bytes` begins and ends. A kind that has no use for the
 *              vip or the part ignores them; all the same the part has to lie
 *              within `bytes`, as 0 and 0 do.
 *   words_len  the number of words, not of bytes: four times the number of calls.
 *   bytes      the instructions to append, as vtil_append takes them.
 *
 * Words that are not four for each call, a kind over 6, or a part that does not
 * begin at or before its end within `bytes` are no list of calls. They are refused
 * 15 before all else.
 *
 * The calls are made in turn, each with the book that the one before it answered.
 * Each does what the single call above does. A refused one changes nothing, and
 * the next one is made all the same: the run is accepted, and says what its last
 * call answered. So where `refusal` is 0, image and journal hold what the accepted
 * calls of the list did, whatever `last` says. A refused run makes no call and
 * changes no byte of image and journal.
 *
 * A list may start a walk, go on with one and close it. What vtil_walk_next answers
 * is told of the last call alone: of the others only where they leave the walk. So to
 * send blocks, let each list end in its VTIL_WALK_NEXT.
 */
typedef struct {
    uint64_t refusal; /* of the words (15) or of the opening: then nothing was changed. 0: the calls were made */
    uint64_t last;    /* the refusal of the last call; 0 where it was accepted, the list is empty or the run is refused */
    vtil_book book;   /* after the list, to be handed to the next call */
    uint64_t offset;  /* what vtil_walk_next answered, where the last call is one; else 0 */
    uint64_t length;  /* the same */
} vtil_run_answer;

/*
 * vtil_run opens a file as vtil_open does, at these rates, and makes a list of calls
 * on its book.
 *
 * Refusals, in this order: 15 when the words are no list of calls; 10, 1 to 9 and
 * 11, as vtil_open. The book is then one of zeros.
 */
vtil_run_answer vtil_run(const uint8_t *file, size_t file_len, uint8_t *image, size_t image_len, uint8_t *journal,
                         size_t journal_len, const uint64_t *words, size_t words_len, const uint8_t *bytes,
                         size_t bytes_len, vtil_rates rates);

/*
 * vtil_run_on makes a list of calls on a book that is there, at the book's rates. The
 * book is tested by each call of the list: where it is spoiled, or image or journal
 * are too long, each is refused 13 or 10, which `last` says. An empty list tests
 * nothing and answers the book that was handed in.
 *
 * Refusals: 15 when the words are no list of calls. The book is then the one that
 * was handed in.
 */
vtil_run_answer vtil_run_on(vtil_book book, uint8_t *image, size_t image_len, uint8_t *journal, size_t journal_len,
                            const uint64_t *words, size_t words_len, const uint8_t *bytes, size_t bytes_len);

/* ==== The end ===================================================================== */

#ifdef __cplusplus
}
#endif

#endif
