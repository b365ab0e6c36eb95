use crate::book::Book;
use crate::c::Rates;
use crate::look::{Block, Convention, Links, Overview, Registers};
use crate::read::RoutineRef;
use crate::refusal::Refusal;
use crate::value::{Instruction, Register, Vip};
use crate::walk::{Sent, Walk};
use crate::MOST_LENT;

/// An open routine: a [`Book`] that owns its image and journal. Both grow as they have to, up to [`MOST_LENT`] bytes
/// each; so [`Refusal::ImageFull`] and [`Refusal::JournalFull`] come only there.
///
/// A refused call leaves the routine as it was. Every call reads the whole image: its time grows with the routine. To
/// look at more than a part or two, use [`Routine::read`]. What the routine costs at the rates that it was opened at
/// is kept with every edit, and [`Routine::sum`] and [`Routine::cents`] read it off.
///
/// What the library proves of each call holds here; what it proves of whole lists of calls is for an image and a
/// journal whose lengths stay, as a [`Book`]'s do.
#[derive(Clone, Debug)]
pub struct Routine {
    book: Book<Vec<u8>>,
}

/// More room for an edit that was refused for want of it. False where that was not why, or there can be no more.
fn more_room(book: &mut Book<Vec<u8>>, refusal: Refusal) -> bool {
    match refusal {
        Refusal::ImageFull => grow(&mut book.image),
        Refusal::JournalFull => grow(&mut book.journal),
        _ => false,
    }
}

/// Twice the room; false where there can be no more.
fn grow(bytes: &mut Vec<u8>) -> bool {
    let larger = (2 * bytes.len()).clamp(4096, MOST_LENT);
    let grows = larger > bytes.len();
    if grows {
        bytes.resize(larger, 0);
    }
    grows
}

impl Routine {
    /// Opens the routine at the start of `file`; bytes after it are ignored. The routine keeps the rates, and from
    /// here on the sum at them; where nothing is billed they are `Rates::default()`.
    ///
    /// Refusals: 1 to 9, whichever field fails first; 11, the routine has over 16,777,216 bytes.
    pub fn open(file: &[u8], rates: Rates) -> Result<Routine, Refusal> {
        // The written form is no longer than what it was read from.
        let image = vec![0; file.len().min(MOST_LENT)];
        let mut book = Book::open(file, image, Vec::new(), rates)?;
        let written = book.written().len();
        book.image.truncate(written);
        Ok(Routine { book })
    }

    /// The routine's written form: what a file of it holds.
    pub fn written(&self) -> &[u8] {
        self.book.written()
    }

    /// The routine's parts, to be read where they lie. The image is validated once, here.
    pub fn read(&self) -> RoutineRef<'_> {
        self.book.read().expect("nobody else writes the image, so it holds a routine")
    }

    /// Runs an edit, with more room where it lacks some.
    fn edit(&mut self, call: impl Fn(&mut Book<Vec<u8>>) -> Result<(), Refusal>) -> Result<(), Refusal> {
        self.book.with_room(more_room, call)
    }

    /// Adds an empty block after the last one.
    ///
    /// Refusals: 14, a block has this vip; 11 and 12 at the limit.
    pub fn create_block(&mut self, vip: Vip) -> Result<(), Refusal> {
        self.edit(|book| book.create_block(vip))
    }

    /// Removes a block; the last one takes its place.
    ///
    /// Refusals: 20, a walk is open; 15, no block has this vip; 12 at the limit.
    pub fn remove_block(&mut self, vip: Vip) -> Result<(), Refusal> {
        self.edit(|book| book.remove_block(vip))
    }

    /// Adds an instruction, as a file holds it, after the last one of the block. A block whose last instruction is js,
    /// jmp, vexit or vxcall is closed and takes no more, and no block takes a crooked register, as [`Book::append`] says.
    ///
    /// Refusals, in this order: 1, 2, 5 to 8, 19, whichever field fails first; 17, bytes are left after it; 15, no block
    /// has this vip; 18, the block is closed; 11 and 12 at the limit.
    pub fn append(&mut self, vip: Vip, instruction: &[u8]) -> Result<(), Refusal> {
        self.edit(|book| book.append(vip, instruction))
    }

    /// As [`Routine::append`], of an instruction by value; first come the refusals of [`Instruction::to_bytes`].
    pub fn append_instruction(&mut self, vip: Vip, instruction: &Instruction) -> Result<(), Refusal> {
        self.append(vip, &instruction.to_bytes()?)
    }

    /// Takes back the last edit that was not taken back yet.
    ///
    /// Refusals: 20, a walk is open; 16, there is none.
    pub fn undo(&mut self) -> Result<(), Refusal> {
        self.edit(Book::undo)
    }

    /// Starts a walk and lends the routine to it, as [`Book::walk`] does: a loop over all blocks, with edits in between
    /// where there are any. Image and journal grow as they have to.
    ///
    /// Refusals: 20, a walk is open.
    pub fn walk(&mut self) -> Result<Walk<'_, Vec<u8>>, Refusal> {
        self.book.walk_with_room(more_room)
    }

    /// Starts a walk, as [`Book::walk_start`] does. Refusals: 20, a walk is open.
    pub fn walk_start(&mut self) -> Result<(), Refusal> {
        self.book.walk_start()
    }

    /// The next block of the walk that is open, as [`Book::walk_next`] answers it: none at the end, and then the walk is
    /// closed. Refusals: 21, no walk is open.
    pub fn walk_next(&mut self) -> Result<Option<Sent<'_>>, Refusal> {
        self.book.walk_next()
    }

    /// Closes the walk that is open. Refusals: 21, no walk is open.
    pub fn walk_abandon(&mut self) -> Result<(), Refusal> {
        self.book.walk_abandon()
    }

    /// The place of the block that the open walk hands out next, from 0; none where no walk is open.
    pub fn walk_place(&self) -> Option<u64> {
        self.book.walk_place()
    }

    /// The routine as a whole. It costs a pass over the image.
    pub fn overview(&self) -> Overview {
        self.book.overview().expect("nobody else writes the image, so it is not spoiled")
    }

    /// The block at a place, counted from 0. It costs a pass over the image. Refusals: 15, there is none.
    pub fn block(&self, place: u64) -> Result<Block, Refusal> {
        self.book.block(place)
    }

    /// The instruction at a place of the block at a place. It costs a pass over the image. Refusals: 15, there is none.
    pub fn instruction(&self, block: u64, place: u64) -> Result<Instruction, Refusal> {
        self.book.instruction(block, place)
    }

    /// The vip at a place of a list of the block at a place. It costs a pass over the image. Refusals: 15, there is
    /// none.
    pub fn block_vip(&self, block: u64, list: Links, place: u64) -> Result<Vip, Refusal> {
        self.book.block_vip(block, list, place)
    }

    /// The convention at a place: 0 the routine's, 1 the subroutine's, then the special ones. It costs a pass over the
    /// image. Refusals: 15, there is none.
    pub fn convention(&self, place: u64) -> Result<Convention, Refusal> {
        self.book.convention(place)
    }

    /// The register at a place of a list of the convention at a place. It costs a pass over the image. Refusals: 15,
    /// there is none.
    pub fn convention_register(&self, convention: u64, list: Registers, place: u64) -> Result<Register, Refusal> {
        self.book.convention_register(convention, list, place)
    }

    /// The rates that the routine was opened at.
    pub fn rates(&self) -> Rates {
        self.book.rates()
    }

    /// What the routine costs at [`Routine::rates`], in hundredths of a cent, as [`Book::sum`] says. It is only read
    /// off.
    pub fn sum(&self) -> u64 {
        self.book.sum()
    }

    /// [`Routine::sum`] in whole cents, rounded up.
    pub fn cents(&self) -> u64 {
        self.book.cents()
    }

    /// What the routine is billed at, in whole cents, at any rates, as [`Book::charge`] says. It costs two passes
    /// over the image.
    pub fn charge(&self, rates: Rates) -> u64 {
        self.book.charge(rates).expect("nobody else writes the image, so it is not spoiled")
    }

    /// A copy for outside reviewers, as [`Book::outside_copy`] says: [`Routine::written`] with the value of every
    /// immediate operand 0. It costs two passes over the image and is made in memory of its own, of exactly its length.
    ///
    /// ```
    /// use vtil::{Rates, Routine};
    ///
    /// # fn main() -> Result<(), Box<dyn std::error::Error>> {
    /// # let folder = concat!(env!("CARGO_MANIFEST_DIR"), "/../../samples");
    /// let file = std::fs::read(format!("{folder}/blocks.vtil"))?;
    /// let routine = Routine::open(&file, Rates::default())?;
    /// let copy = routine.outside_copy();
    /// assert_eq!(copy.len(), routine.written().len());
    /// // Nothing is left in it to leave out.
    /// assert_eq!(Routine::open(&copy, Rates::default())?.outside_copy(), copy);
    /// # Ok(())
    /// # }
    /// ```
    pub fn outside_copy(&self) -> Vec<u8> {
        let mut copy = vec![0; self.written().len()];
        let length = self.book.outside_copy(&mut copy).expect("nobody else writes the image, so it is not spoiled");
        copy.truncate(length);
        copy
    }
}
