use crate::c::{self, Numbers, Rates};
use crate::list::{Call, Encoded};
use crate::look::{Block, Convention, Links, Overview, Registers};
use crate::read::{self, RoutineRef};
use crate::refusal::{accepted, Refusal};
use crate::value::{Instruction, Register, Vip};
use crate::walk;
use std::ops::Range;

/// What the last call of a list answers. Those before it were made too, whatever it says.
///
/// Where it is a [`Call::WalkNext`] that hands out a block, the range is where that block lies in the image; else there
/// is none.
pub type Last = Result<Option<Range<usize>>, Refusal>;

/// An open routine in an image and a journal whose lengths stay as they are: memory that the caller lends
/// (`Book<&mut [u8]>`) or hands over (`Book<Vec<u8>>`). The image holds the routine's written form and then zeros,
/// the journal what [`Book::undo`] needs. Image and journal have at most [`MOST_LENT`](crate::MOST_LENT) bytes each.
///
/// Every call is the library's call of that name, on the memory as it is lent: nothing is copied or allocated, but
/// for the operands of an [`Instruction`] that is looked at and the list that [`Book::run`] or [`Book::run_on`]
/// encodes. Refusals come in the order in which they are listed. Before those of the call itself there are two more:
/// 10, the image or the journal is too long; 13, the numbers, the image and the journal do not fit each other, which
/// happens only to a book from [`Book::resume`], and after a [`Book::reopen`] or a [`Book::run`] whose opening was
/// refused. (An edit or an undo may be refused 13 once more in the end, for the sum of a resumed book: see
/// [`Numbers`].)
///
/// A refused edit leaves the book as it was. Every call reads the whole image: its time grows with the image. To look
/// at more than a part or two, use [`Book::read`].
///
/// What the routine costs at the rates that it was opened at is kept with every edit: [`Book::sum`] and
/// [`Book::cents`] read it off, without a look at the image.
///
/// [`Book::walk`] hands out the routine block by block, and the routine can be edited meanwhile. [`Book::outside_copy`]
/// is the routine without the values of its immediates, for those who may not see them.
#[derive(Clone, Debug)]
pub struct Book<M> {
    pub(crate) numbers: Numbers,
    pub(crate) image: M,
    pub(crate) journal: M,
}

impl<M> Book<M> {
    /// Goes on with a book that was kept: its numbers, and its image and journal at the same lengths as before.
    /// Nothing is tested here; each call tests it, and refuses 13 where the three do not fit.
    pub fn resume(numbers: Numbers, image: M, journal: M) -> Book<M> {
        Book { numbers, image, journal }
    }

    /// The book's numbers: all there is to keep of it beside image and journal.
    pub fn numbers(&self) -> Numbers {
        self.numbers
    }

    /// The rates that the routine was opened at; all 0 after a refused opening.
    pub fn rates(&self) -> Rates {
        self.numbers.rates
    }

    /// What the routine costs at [`Book::rates`], in hundredths of a cent. It is kept with every edit and every undo,
    /// so it is only read off here.
    ///
    /// The charge in whole cents is [`Book::cents`]; [`Book::charge`] works it out from the routine, at any rates.
    ///
    /// ```
    /// use vtil::{Book, Instruction, Rates, Vip};
    ///
    /// # fn main() -> Result<(), Box<dyn std::error::Error>> {
    /// # let folder = concat!(env!("CARGO_MANIFEST_DIR"), "/../../samples");
    /// let file = std::fs::read(format!("{folder}/minimal.vtil"))?;
    /// let rates = Rates([150, 0, 0, 0, 310, 20]);
    /// let mut book = Book::open(&file, vec![0; 500], vec![0; 100], rates)?;
    /// book.create_block(Vip(1))?;
    /// assert_eq!((book.sum(), book.cents()), (0, 0));
    /// let nop = Instruction { op: vtil::operation("nop").unwrap(), ..Default::default() };
    /// book.append(Vip(1), &nop.to_bytes()?)?;
    /// assert_eq!((book.sum(), book.cents()), (20, 1));
    /// assert_eq!(book.charge(rates)?, 1);
    /// # Ok(())
    /// # }
    /// ```
    pub fn sum(&self) -> u64 {
        self.numbers.sum
    }

    /// [`Book::sum`] in whole cents, rounded up: the charge, as long as the routine is billed at [`Book::rates`].
    pub fn cents(&self) -> u64 {
        self.numbers.cents()
    }
}

/// Looking. Each call that answers one part by its place costs a pass over the image; a loop over [`Book::read`] costs
/// one pass for all parts.
impl<M: AsRef<[u8]>> Book<M> {
    /// The whole image: the written form, then zeros.
    pub fn image(&self) -> &[u8] {
        self.image.as_ref()
    }

    /// The whole journal: the part that is used, then bytes that no call reads.
    pub fn journal(&self) -> &[u8] {
        self.journal.as_ref()
    }

    /// The routine's written form: what a file of it holds. (Where a resumed book says that it is longer than the
    /// image, the image.)
    pub fn written(&self) -> &[u8] {
        let image = self.image();
        image.get(..self.numbers.written as usize).unwrap_or(image)
    }

    /// The routine's parts, to be read where they lie in the image. [`Book::written`] is validated once, here, as a file
    /// is; whether the book is spoiled is not tested.
    ///
    /// Refusals: 1 to 9, whichever field fails first. They come only to a book from [`Book::resume`] whose written bytes
    /// are no routine, and after a refused opening. 10 and 13 never come.
    pub fn read(&self) -> Result<RoutineRef<'_>, Refusal> {
        read::read(self.written())
    }

    /// The routine as a whole. It costs a pass over the image.
    pub fn overview(&self) -> Result<Overview, Refusal> {
        let (image, journal) = (self.image(), self.journal());
        // SAFETY: each pointer and length is a slice's.
        let look =
            unsafe { c::vtil_routine(self.numbers, image.as_ptr(), image.len(), journal.as_ptr(), journal.len()) };
        accepted(look.refusal)?;
        Ok(Overview {
            machine: look.arch_id,
            entry_vip: Vip(look.vip),
            special_conventions: look.spec_conventions,
            blocks: look.blocks,
        })
    }

    /// The block at a place, counted from 0. It costs a pass over the image. Refusals: 15, there is none.
    pub fn block(&self, place: u64) -> Result<Block, Refusal> {
        let (image, journal) = (self.image(), self.journal());
        // SAFETY: each pointer and length is a slice's.
        let look =
            unsafe { c::vtil_block(self.numbers, image.as_ptr(), image.len(), journal.as_ptr(), journal.len(), place) };
        accepted(look.refusal)?;
        Ok(Block {
            vip: Vip(look.vip),
            sp_offset: look.sp_offset,
            sp_index: look.sp_index,
            last_temporary_index: look.last_temporary_index,
            instructions: look.instructions,
            prev_vips: look.prev_vips,
            next_vips: look.next_vips,
        })
    }

    /// The instruction at a place of the block at a place. It costs a pass over the image. Refusals: 15, there is none.
    pub fn instruction(&self, block: u64, place: u64) -> Result<Instruction, Refusal> {
        let (image, journal) = (self.image(), self.journal());
        // SAFETY: each pointer and length is a slice's.
        let look = unsafe {
            c::vtil_instruction(
                self.numbers,
                image.as_ptr(),
                image.len(),
                journal.as_ptr(),
                journal.len(),
                block,
                place,
            )
        };
        accepted(look.refusal)?;
        Ok(Instruction::from_c(&look.instruction))
    }

    /// The vip at a place of a list of the block at a place. It costs a pass over the image. Refusals: 15, there is
    /// none.
    pub fn block_vip(&self, block: u64, list: Links, place: u64) -> Result<Vip, Refusal> {
        let (image, journal) = (self.image(), self.journal());
        // SAFETY: each pointer and length is a slice's.
        let look = unsafe {
            c::vtil_block_vip(
                self.numbers,
                image.as_ptr(),
                image.len(),
                journal.as_ptr(),
                journal.len(),
                block,
                list as u64,
                place,
            )
        };
        accepted(look.refusal)?;
        Ok(Vip(look.vip))
    }

    /// The convention at a place: 0 the routine's, 1 the subroutine's, then the special ones. It costs a pass over the
    /// image. Refusals: 15, there is none.
    pub fn convention(&self, place: u64) -> Result<Convention, Refusal> {
        let (image, journal) = (self.image(), self.journal());
        // SAFETY: each pointer and length is a slice's.
        let look = unsafe {
            c::vtil_convention(self.numbers, image.as_ptr(), image.len(), journal.as_ptr(), journal.len(), place)
        };
        accepted(look.refusal)?;
        Ok(Convention {
            frame_register: Register::from_c(&look.frame_register),
            shadow_space: look.shadow_space,
            purge_stack: look.purge_stack != 0,
            volatile_registers: look.volatile_registers,
            param_registers: look.param_registers,
            retval_registers: look.retval_registers,
        })
    }

    /// The register at a place of a list of the convention at a place. It costs a pass over the image. Refusals: 15,
    /// there is none.
    pub fn convention_register(&self, convention: u64, list: Registers, place: u64) -> Result<Register, Refusal> {
        let (image, journal) = (self.image(), self.journal());
        // SAFETY: each pointer and length is a slice's.
        let look = unsafe {
            c::vtil_convention_register(
                self.numbers,
                image.as_ptr(),
                image.len(),
                journal.as_ptr(),
                journal.len(),
                convention,
                list as u64,
                place,
            )
        };
        accepted(look.refusal)?;
        Ok(Register::from_c(&look.register_desc))
    }

    /// What the routine is billed at, in whole cents: every instruction of every block counts the rate of its
    /// operation's group, and the sum is rounded up once. It is worked out from the routine at the rates that are
    /// handed in, whatever the book's own rates and sum are, and costs two passes over the image. At the rates of the
    /// opening [`Book::cents`] says the same at once.
    ///
    /// How many instructions of a group there are is the charge at rate 100 for that group and 0 for the others.
    ///
    /// ```
    /// use vtil::{Book, Rates};
    ///
    /// # fn main() -> Result<(), Box<dyn std::error::Error>> {
    /// # let folder = concat!(env!("CARGO_MANIFEST_DIR"), "/../../samples");
    /// let file = std::fs::read(format!("{folder}/blocks.vtil"))?;
    /// let book = Book::open(&file, vec![0; file.len()], vec![], Rates::default())?;
    /// let branches = book.charge(Rates([0, 0, 0, 0, 100, 0]))?;
    /// assert_eq!(branches, 4);
    /// // A mov and a str at 1.5 cents each, and the branches at 3.1 cents each: 15.4 cents.
    /// assert_eq!(book.charge(Rates([150, 0, 0, 0, 310, 0]))?, 16);
    /// # Ok(())
    /// # }
    /// ```
    pub fn charge(&self, rates: Rates) -> Result<u64, Refusal> {
        let (image, journal) = (self.image(), self.journal());
        // SAFETY: each pointer and length is a slice's.
        let look = unsafe {
            c::vtil_charge(self.numbers, image.as_ptr(), image.len(), journal.as_ptr(), journal.len(), rates)
        };
        accepted(look.refusal)?;
        Ok(look.cents)
    }

    /// Puts a copy for outside reviewers into lent bytes, a second image, and answers its length: the routine's written
    /// form with the value of every immediate operand 0. The width of each immediate stays, and so does all else:
    /// registers, conventions, vips, links and stack numbers are no immediates. The copy is a routine file itself, as
    /// long as [`Book::written`]; the lent bytes after it become 0, so nothing is left of what they held.
    ///
    /// Where two routines differ only in the values of immediates, copies of them in lent bytes of one length are the
    /// same bytes, whatever the books' rates, sums, walks and journals are; where they differ in anything else, so do the
    /// copies. A walk may be open: where the book is lent to one,
    /// [`Walk::book`](crate::Walk::book) has it. After the pass over the image that every call makes come one copy and
    /// one light pass over it.
    ///
    /// Refusals: 10 as of every call, and also where over [`MOST_LENT`](crate::MOST_LENT) bytes are lent for the copy;
    /// 13 as of every call; 11, the copy is longer than the lent bytes. No byte of these is then touched.
    ///
    /// ```
    /// use vtil::{Book, Instruction, Operand, Rates};
    ///
    /// # fn main() -> Result<(), Box<dyn std::error::Error>> {
    /// # let folder = concat!(env!("CARGO_MANIFEST_DIR"), "/../../samples");
    /// let file = std::fs::read(format!("{folder}/blocks.vtil"))?;
    /// let book = Book::open(&file, vec![0; 2000], vec![], Rates::default())?;
    /// let mut second = vec![0xff; 2000];
    /// let length = book.outside_copy(&mut second)?;
    /// let copy = Book::open(&second[..length], vec![0; 2000], vec![], Rates::default())?;
    /// let value = |mov: Instruction| match mov.operands[1] {
    ///     Operand::Immediate(immediate) => (immediate.value, immediate.bit_count),
    ///     Operand::Register(_) => panic!("it is an immediate"),
    /// };
    /// assert_eq!(value(book.instruction(0, 0)?), (0x1122334455667788, 64));
    /// assert_eq!(value(copy.instruction(0, 0)?), (0, 64));
    /// assert!(second[length..].iter().all(|&byte| byte == 0));
    /// # Ok(())
    /// # }
    /// ```
    pub fn outside_copy(&self, copy: &mut [u8]) -> Result<usize, Refusal> {
        let (image, journal) = (self.image(), self.journal());
        // SAFETY: each pointer and length is a slice's, and the one that can be written overlaps no other.
        let written = unsafe {
            c::vtil_outside_copy(
                self.numbers,
                image.as_ptr(),
                image.len(),
                journal.as_ptr(),
                journal.len(),
                copy.as_mut_ptr(),
                copy.len(),
            )
        };
        accepted(written.refusal)?;
        Ok(written.size as usize)
    }
}

/// Opening and editing.
impl<M: AsMut<[u8]>> Book<M> {
    /// Opens the routine at the start of `file`; bytes after it are ignored. The journal may have any length: an edit
    /// that it has no room for is refused. The book keeps the rates, and from here on the sum at them; where nothing is
    /// billed they are `Rates::default()`.
    ///
    /// Refusals: 1 to 9, whichever field fails first; 11, the routine is longer than the image. Image and journal are
    /// then as they were.
    pub fn open(file: &[u8], image: M, journal: M, rates: Rates) -> Result<Book<M>, Refusal> {
        let mut book = Book::resume(Numbers::default(), image, journal);
        book.reopen(file, rates)?;
        Ok(book)
    }

    /// Opens another routine, or the same at other rates, in the same image and journal. No walk is open after it.
    ///
    /// Refusals: as [`Book::open`]. Image and journal are then as they were, but all numbers are 0, rates and sum
    /// too: no routine is open, and every other call is refused 13.
    pub fn reopen(&mut self, file: &[u8], rates: Rates) -> Result<(), Refusal> {
        // SAFETY: each pointer and length is a slice's, and slices that can be written overlap no other.
        self.call(|_, image, journal| unsafe {
            c::vtil_open(
                file.as_ptr(),
                file.len(),
                image.as_mut_ptr(),
                image.len(),
                journal.as_mut_ptr(),
                journal.len(),
                rates,
            )
        })
    }

    /// Adds an empty block after the last one, which costs nothing. The image needs 36 bytes more and the journal 20.
    ///
    /// Refusals: 14, a block has this vip; 11, the image is full; 12, the journal is full.
    pub fn create_block(&mut self, vip: Vip) -> Result<(), Refusal> {
        // SAFETY: as in `reopen`.
        self.call(|book, image, journal| unsafe {
            c::vtil_create_block(book, image.as_mut_ptr(), image.len(), journal.as_mut_ptr(), journal.len(), vip.0)
        })
    }

    /// Removes a block; the last one takes its place. The journal needs the block's size and 20 bytes more.
    ///
    /// Refusals: 20, a walk is open; 15, no block has this vip; 12, the journal is full; 13, the sum of a resumed book
    /// is less than what the block costs.
    pub fn remove_block(&mut self, vip: Vip) -> Result<(), Refusal> {
        // SAFETY: as in `reopen`.
        self.call(|book, image, journal| unsafe {
            c::vtil_remove_block(book, image.as_mut_ptr(), image.len(), journal.as_mut_ptr(), journal.len(), vip.0)
        })
    }

    /// Adds an instruction, as a file holds it, after the last one of the block. The image needs its size more and
    /// the journal 20 bytes.
    ///
    /// A block is closed when its last instruction is js, jmp, vexit or vxcall (37 to 40 of
    /// [`OPERATIONS`](crate::OPERATIONS)): the engine leaves the block there, so the block takes no more. An empty block
    /// is open, and [`Book::undo`] of the append that closed a block opens it again.
    ///
    /// A register is crooked, and refused 19, unless its width (`bit_count`) is at least 1, its offset (`bit_offset`) at
    /// least 0, and the sum of the two at most 64. Only an append asks this: files may have any.
    ///
    /// Refusals: 1, 2, 5 to 8, 19, whichever field fails first (19: the offset of a crooked register); 17, bytes are
    /// left after it; 15, no block has this vip; 18, the block is closed; 11, the image is full; 12, the journal is
    /// full; 13, the sum of a resumed book would pass 2^64 - 1.
    pub fn append(&mut self, vip: Vip, instruction: &[u8]) -> Result<(), Refusal> {
        // SAFETY: as in `reopen`.
        self.call(|book, image, journal| unsafe {
            c::vtil_append(
                book,
                image.as_mut_ptr(),
                image.len(),
                journal.as_mut_ptr(),
                journal.len(),
                vip.0,
                instruction.as_ptr(),
                instruction.len(),
            )
        })
    }

    /// Takes back the last edit that was not taken back yet.
    ///
    /// Refusals: 20, a walk is open; 16, there is none; 13, the journal of a resumed book does not end in an edit of
    /// this image, or its sum is less than what goes or would pass 2^64 - 1 by what comes back.
    pub fn undo(&mut self) -> Result<(), Refusal> {
        // SAFETY: as in `reopen`.
        self.call(|book, image, journal| unsafe {
            c::vtil_undo(book, image.as_mut_ptr(), image.len(), journal.as_mut_ptr(), journal.len())
        })
    }

    /// Opens another routine in the same image and journal, as [`Book::reopen`] does, and runs a list of calls on it,
    /// in which a refused call changes nothing and the next one follows all the same. The list is encoded for the
    /// library first, which allocates.
    ///
    /// Answers what the last call of the list answers; where the list is empty, that it was accepted.
    ///
    /// Refusals: as [`Book::open`]. No call is run then, and the book is left as a refused [`Book::reopen`] leaves it.
    pub fn run(&mut self, file: &[u8], calls: &[Call], rates: Rates) -> Result<Last, Refusal> {
        let Encoded { words, bytes } = Encoded::of(calls);
        // SAFETY: as in `reopen`.
        self.list(|_, image, journal| unsafe {
            c::vtil_run(
                file.as_ptr(),
                file.len(),
                image.as_mut_ptr(),
                image.len(),
                journal.as_mut_ptr(),
                journal.len(),
                words.as_ptr(),
                words.len(),
                bytes.as_ptr(),
                bytes.len(),
                rates,
            )
        })
    }

    /// Runs a list of calls on the routine that is open, as [`Book::run`] does.
    ///
    /// Answers what the last call of the list answers; where the list is empty, that it was accepted.
    pub fn run_on(&mut self, calls: &[Call]) -> Last {
        let Encoded { words, bytes } = Encoded::of(calls);
        // SAFETY: as in `reopen`.
        let run = self.list(|book, image, journal| unsafe {
            c::vtil_run_on(
                book,
                image.as_mut_ptr(),
                image.len(),
                journal.as_mut_ptr(),
                journal.len(),
                words.as_ptr(),
                words.len(),
                bytes.as_ptr(),
                bytes.len(),
            )
        });
        run.expect("the library takes every list that is encoded")
    }

    /// The numbers are those that the library answers, of a refused call too.
    fn call(&mut self, call: impl FnOnce(Numbers, &mut [u8], &mut [u8]) -> c::Answer) -> Result<(), Refusal> {
        let answer = call(self.numbers, self.image.as_mut(), self.journal.as_mut());
        self.numbers = answer.book;
        accepted(answer.refusal)
    }

    /// As `call`, of a run over a list.
    fn list(&mut self, run: impl FnOnce(Numbers, &mut [u8], &mut [u8]) -> c::RunAnswer) -> Result<Last, Refusal> {
        let answer = run(self.numbers, self.image.as_mut(), self.journal.as_mut());
        self.numbers = answer.book;
        accepted(answer.refusal)?;
        Ok(accepted(answer.last).map(|()| walk::part(answer.offset, answer.length)))
    }
}
