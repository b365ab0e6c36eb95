//! VTIL routine files: reading, checking, editing and writing them. A safe wrapper of libvtil.a.
//!
//! A [`Routine`] owns its memory:
//!
//! ```
//! use vtil::{Rates, Routine, Vip};
//!
//! # fn main() -> Result<(), Box<dyn std::error::Error>> {
//! # let folder = concat!(env!("CARGO_MANIFEST_DIR"), "/../../samples");
//! let file = std::fs::read(format!("{folder}/blocks.vtil"))?;
//! // What an instruction of each group of operations costs, in hundredths of a cent.
//! let mut routine = Routine::open(&file, Rates([150, 200, 200, 250, 310, 0]))?;
//! assert_eq!(routine.cents(), 20);
//! routine.remove_block(Vip(0x1010))?;
//! assert_eq!(routine.cents(), 15);
//! routine.undo()?;
//! assert_eq!((routine.written(), routine.cents()), (&file[..], 20));
//! # Ok(())
//! # }
//! ```
//!
//! [`read`] reads a file where it lies, part by part, and so do [`Routine::read`] and [`Book::read`] with what is open:
//!
//! ```
//! # fn main() -> Result<(), Box<dyn std::error::Error>> {
//! # let folder = concat!(env!("CARGO_MANIFEST_DIR"), "/../../samples");
//! let file = std::fs::read(format!("{folder}/blocks.vtil"))?;
//! let links: usize = vtil::read(&file)?.explored_blocks().map(|block| block.next_vip().len()).sum();
//! assert_eq!(links, 3);
//! # Ok(())
//! # }
//! ```
//!
//! A [`Book`] is the same as a [`Routine`], in memory of fixed lengths that the caller lends:
//!
//! ```
//! use vtil::{Book, Rates, Refusal, Vip};
//!
//! # fn main() -> Result<(), Box<dyn std::error::Error>> {
//! # let folder = concat!(env!("CARGO_MANIFEST_DIR"), "/../../samples");
//! let file = std::fs::read(format!("{folder}/minimal.vtil"))?;
//! let (mut image, mut journal) = ([0; 114 + 36], [0; 20]);
//! let mut book = Book::open(&file, &mut image[..], &mut journal[..], Rates::default())?;
//! book.create_block(Vip(1))?;
//! assert_eq!(book.create_block(Vip(2)), Err(Refusal::ImageFull));
//! # Ok(())
//! # }
//! ```

mod book;
#[doc(hidden)] // for the comparison in oracle/, which also looks at what C gets
pub mod c;
mod list;
mod look;
mod read;
mod refusal;
mod routine;
mod value;
mod walk;

pub use book::{Book, Last};
pub use c::{Numbers, Rates};
pub use list::Call;
pub use look::{Block, Convention, Links, Overview, Registers};
pub use read::{read, read_at, BlockRef, ConventionRef, InstructionRef, Part, Parts, RoutineRef};
pub use refusal::Refusal;
pub use routine::Routine;
pub use value::{operation, Immediate, Instruction, Operand, Register, Vip, LONGEST_INSTRUCTION, OPERATIONS};
pub use walk::{Rest, Sent, Walk};

/// The examples of the crate's page are run with its tests.
#[cfg(doctest)]
#[doc = include_str!("../README.md")]
struct Readme;

/// The library takes no image, no journal and no memory for a copy that is longer.
pub const MOST_LENT: usize = 16_777_216;

/// How many bytes the routine at the start of `file` has; bytes after it are ignored. The file is read where it lies.
///
/// Refusals: 1 to 9, whichever field fails first.
pub fn check(file: &[u8]) -> Result<usize, Refusal> {
    // SAFETY: the pointer and the length are a slice's.
    let answer = unsafe { check_raw(file.as_ptr(), file.len()) };
    match usize::try_from(answer) {
        Ok(consumed) => Ok(consumed),
        Err(_) => {
            Err(Refusal::from_number(answer.unsigned_abs()).expect("the library refuses by the number of a refusal"))
        }
    }
}

/// As [`check`], of a pointer and a length as C hands them over, with the answer as C gets it: how many bytes the
/// routine has, or minus the number of the refusal. It is there for a length that no slice has: one over 2^63 - 1 is
/// answered minus 10 before a byte is read.
///
/// # Safety
///
/// There are `length` bytes at `file` that nobody writes during the call, or `length` is over 2^63 - 1.
pub unsafe fn check_raw(file: *const u8, length: usize) -> i64 {
    c::vtil_check(file, length)
}
