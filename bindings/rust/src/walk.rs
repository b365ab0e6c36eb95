//! Sending block by block: a walk over the blocks of a routine, on which edits go on meanwhile.

use crate::book::Book;
use crate::c::{self, Numbers};
use crate::refusal::{accepted, Refusal};
use crate::value::Vip;
use std::iter::FusedIterator;
use std::ops::Range;

/// A block that a walk hands out, as it stands now. A later edit may move it or change it, so what is to be sent is
/// sent or copied before that; the borrow sees to it.
#[derive(Clone, Copy, Debug, PartialEq, Eq)]
pub struct Sent<'a> {
    /// The block's place, from 0. No two blocks of a walk have the same.
    pub place: u64,
    /// Where the block begins in the image.
    pub offset: usize,
    /// The block as a file holds it. [`read_at`](crate::read_at) reads it as a [`BlockRef`](crate::BlockRef) at 0.
    pub bytes: &'a [u8],
}

/// Where in the image a block lies; none where the answer has none.
pub(crate) fn part(offset: u64, length: u64) -> Option<Range<usize>> {
    let (start, length) = (offset as usize, length as usize);
    // A block has 36 bytes at least.
    (length > 0).then_some(start..start + length)
}

/// The numbers are those that the library answers, of a refused call too.
fn next<'a>(numbers: &mut Numbers, image: &'a [u8], journal: &[u8]) -> Result<Option<Sent<'a>>, Refusal> {
    let before = *numbers;
    // SAFETY: each pointer and length is a slice's.
    let answer = unsafe { c::vtil_walk_next(before, image.as_ptr(), image.len(), journal.as_ptr(), journal.len()) };
    *numbers = answer.book;
    accepted(answer.refusal)?;
    let sent = |part: Range<usize>| Sent { place: before.walk - 1, offset: part.start, bytes: &image[part] };
    Ok(part(answer.offset, answer.length).map(sent))
}

type WalkCall = unsafe extern "C" fn(Numbers, *const u8, usize, *const u8, usize) -> c::Answer;

/// Sending block by block. A walk hands out the blocks one by one, first place first, each as it stands then. How far
/// it is stands in the book's numbers ([`Numbers::walk`]) and in nothing else: it goes on wherever the book goes on, and
/// image and journal are only read.
///
/// While a walk is open [`Book::create_block`] and [`Book::append`] go on as ever. A new block comes last, so it is
/// handed out too; what is appended to a block that was handed out already is not handed out any more.
/// [`Book::remove_block`] and [`Book::undo`] are refused 20, since they would move blocks across the walk's place. All
/// looking goes on.
///
/// [`Book::walk`] lends the book to a loop, and gives it back in the end. Where the blocks are asked for from several
/// places of a program, use [`Book::walk_start`], [`Book::walk_next`] and [`Book::walk_abandon`]:
///
/// ```
/// use vtil::{Book, Rates, Refusal, Vip};
///
/// # fn main() -> Result<(), Box<dyn std::error::Error>> {
/// # let folder = concat!(env!("CARGO_MANIFEST_DIR"), "/../../samples");
/// let file = std::fs::read(format!("{folder}/blocks.vtil"))?;
/// let mut book = Book::open(&file, vec![0; 2000], vec![0; 100], Rates::default())?;
/// book.walk_start()?;
/// let message = book.walk_next()?.map(|sent| sent.bytes.to_vec());
/// // The message is under way. Meanwhile, somewhere else:
/// book.create_block(Vip(1))?;
/// assert_eq!(book.undo(), Err(Refusal::WalkOpen));
/// // The program may even end here, and go on with the book that it has kept.
/// let mut book = Book::resume(book.numbers(), book.image().to_vec(), book.journal().to_vec());
/// assert_eq!(book.walk_place(), Some(1));
/// let mut messages = vec![message.unwrap()];
/// while let Some(sent) = book.walk_next()? {
///     messages.push(sent.bytes.to_vec());
/// }
/// assert_eq!((messages.len(), messages[3].len()), (4, 36));
/// assert_eq!(book.walk_place(), None);
/// book.undo()?;
/// # Ok(())
/// # }
/// ```
impl<M: AsRef<[u8]>> Book<M> {
    /// Starts a walk and lends the book to it: a loop over all blocks, with edits in between where there are any.
    ///
    /// Refusals: 20, a walk is open.
    pub fn walk(&mut self) -> Result<Walk<'_, M>, Refusal> {
        self.walk_with_room(|_, _| false)
    }

    /// As [`Book::walk`], with a way to more room for the edits.
    pub(crate) fn walk_with_room(&mut self, more_room: MoreRoom<M>) -> Result<Walk<'_, M>, Refusal> {
        self.walk_start()?;
        Ok(Walk { book: self, more_room })
    }

    /// Starts a walk at the first block, also where there is none. It costs a pass over the image.
    ///
    /// Refusals: 20, a walk is open.
    pub fn walk_start(&mut self) -> Result<(), Refusal> {
        self.walk_call(c::vtil_walk_start)
    }

    /// The next block of the walk that is open. After the last one it is none: that is the end, and the walk is closed.
    /// It costs a pass over the image.
    ///
    /// Refusals: 21, no walk is open.
    pub fn walk_next(&mut self) -> Result<Option<Sent<'_>>, Refusal> {
        next(&mut self.numbers, self.image.as_ref(), self.journal.as_ref())
    }

    /// Closes the walk that is open; the next one starts at the first block again. It costs a pass over the image.
    ///
    /// Refusals: 21, no walk is open.
    pub fn walk_abandon(&mut self) -> Result<(), Refusal> {
        self.walk_call(c::vtil_walk_abandon)
    }

    /// The numbers are those that the library answers, of a refused call too.
    fn walk_call(&mut self, call: WalkCall) -> Result<(), Refusal> {
        let (image, journal) = (self.image.as_ref(), self.journal.as_ref());
        // SAFETY: each pointer and length is a slice's.
        let answer = unsafe { call(self.numbers, image.as_ptr(), image.len(), journal.as_ptr(), journal.len()) };
        self.numbers = answer.book;
        accepted(answer.refusal)
    }
}

/// Makes room for a call that was refused for want of it. False where that was not why, or there is no more room.
pub(crate) type MoreRoom<M> = fn(&mut Book<M>, Refusal) -> bool;

impl<M> Book<M> {
    /// The place of the block that the open walk hands out next, from 0; none where no walk is open. It is only read
    /// off, from [`Numbers::walk`].
    pub fn walk_place(&self) -> Option<u64> {
        self.numbers.walk.checked_sub(1)
    }

    /// Makes a call, again and again as long as there is more room for it.
    pub(crate) fn with_room(
        &mut self,
        more_room: MoreRoom<M>,
        call: impl Fn(&mut Book<M>) -> Result<(), Refusal>,
    ) -> Result<(), Refusal> {
        loop {
            match call(self) {
                Err(refusal) if more_room(self, refusal) => {}
                answer => return answer,
            }
        }
    }
}

/// A walk that has a book lent to it, from [`Book::walk`] or [`Routine::walk`](crate::Routine::walk). Here are
/// the calls that go on meanwhile: [`Walk::create_block`] and [`Walk::append`], and all looking by [`Walk::book`]. The
/// others have to wait until the book is given back, where the walk is dropped. A walk that has not ended by then is
/// abandoned.
///
/// ```
/// use vtil::{Book, Rates, Vip};
///
/// # fn main() -> Result<(), Box<dyn std::error::Error>> {
/// # let folder = concat!(env!("CARGO_MANIFEST_DIR"), "/../../samples");
/// let file = std::fs::read(format!("{folder}/blocks.vtil"))?;
/// let mut book = Book::open(&file, vec![0; 2000], vec![0; 100], Rates::default())?;
/// let mut walk = book.walk()?;
/// let mut sizes = vec![];
/// while let Some(sent) = walk.next()? {
///     sizes.push(sent.bytes.len());
///     if sent.place == 0 {
///         walk.create_block(Vip(1))?;
///     }
/// }
/// assert_eq!((sizes.len(), sizes[3]), (4, 36));
/// drop(walk);
/// book.remove_block(Vip(1))?;
/// # Ok(())
/// # }
/// ```
///
/// Where nothing is edited in between, [`Walk::rest`] is an iterator as any other:
///
/// ```
/// # use vtil::{Book, Rates, Vip};
/// # fn main() -> Result<(), Box<dyn std::error::Error>> {
/// # let folder = concat!(env!("CARGO_MANIFEST_DIR"), "/../../samples");
/// # let file = std::fs::read(format!("{folder}/blocks.vtil"))?;
/// # let mut book = Book::open(&file, vec![0; 2000], vec![0; 100], Rates::default())?;
/// for sent in book.walk()?.rest() {
///     println!("block {} has {} bytes", sent.place, sent.bytes.len());
/// }
/// # Ok(())
/// # }
/// ```
///
/// A block that was handed out cannot be kept over an edit, which may move it: this does not compile.
///
/// ```compile_fail,E0499
/// # use vtil::{Book, Rates, Refusal, Vip};
/// # fn send(mut book: Book<Vec<u8>>) -> Result<(), Refusal> {
/// let mut walk = book.walk()?;
/// let first = walk.next()?;
/// walk.create_block(Vip(1))?;
/// println!("{first:?}");
/// # Ok(())
/// # }
/// ```
#[derive(Debug)]
#[must_use = "a walk that is dropped before its end is abandoned"]
pub struct Walk<'b, M: AsRef<[u8]>> {
    book: &'b mut Book<M>,
    more_room: MoreRoom<M>,
}

impl<M: AsRef<[u8]>> Walk<'_, M> {
    /// The next block, as [`Book::walk_next`] answers it: none at the end, after the last one, and then the walk is
    /// closed. It costs a pass over the image.
    ///
    /// Refusals: 21, the walk has ended.
    // Not Iterator's: what it answers is borrowed from the walk, so that edits can follow.
    #[allow(clippy::should_implement_trait)]
    pub fn next(&mut self) -> Result<Option<Sent<'_>>, Refusal> {
        self.book.walk_next()
    }

    /// The blocks that are left, where nothing is edited in between. The walk stays where the iterator is dropped, and
    /// has ended where the iterator has. Each block costs a pass over the image.
    pub fn rest(&mut self) -> Rest<'_> {
        let Book { numbers, image, journal } = &mut *self.book;
        Rest { numbers, image: M::as_ref(image), journal: M::as_ref(journal) }
    }

    /// The book as it stands, to look at.
    pub fn book(&self) -> &Book<M> {
        self.book
    }

    /// Closes the walk, and gives the book back. Dropping it does the same, and says nothing.
    ///
    /// Refusals: 21, the walk has ended.
    pub fn abandon(self) -> Result<(), Refusal> {
        self.book.walk_abandon()
    }
}

/// Editing while the walk is open.
impl<M: AsRef<[u8]> + AsMut<[u8]>> Walk<'_, M> {
    /// Adds an empty block after the last one, as [`Book::create_block`] does. The walk hands it out too.
    pub fn create_block(&mut self, vip: Vip) -> Result<(), Refusal> {
        self.book.with_room(self.more_room, |book| book.create_block(vip))
    }

    /// Adds an instruction after the last one of the block, as [`Book::append`] does. The walk hands it out with the
    /// block, or not at all where it has handed out the block already.
    pub fn append(&mut self, vip: Vip, instruction: &[u8]) -> Result<(), Refusal> {
        self.book.with_room(self.more_room, |book| book.append(vip, instruction))
    }
}

/// The book is given back with no walk open.
impl<M: AsRef<[u8]>> Drop for Walk<'_, M> {
    fn drop(&mut self) {
        if self.book.walk_place().is_some() {
            // Nobody else had the book. Should its memory be spoiled all the same, its next call says so.
            let _ = self.book.walk_abandon();
        }
    }
}

/// The blocks that a walk has not handed out yet, from [`Walk::rest`].
#[derive(Debug)]
pub struct Rest<'a> {
    numbers: &'a mut Numbers,
    image: &'a [u8],
    journal: &'a [u8],
}

impl<'a> Iterator for Rest<'a> {
    type Item = Sent<'a>;

    fn next(&mut self) -> Option<Sent<'a>> {
        if self.numbers.walk == 0 {
            return None;
        }
        next(self.numbers, self.image, self.journal).expect("nobody writes the image, so its walk goes on")
    }
}

impl FusedIterator for Rest<'_> {}
