//! The reference: what docs/SPEC.md says of files and of lists of calls. It is written in C (reference/ of the
//! repository), where the guard tests of the C side use it too; here it is called.

use crate::charge::Rates;
use std::ffi::CStr;
use std::os::raw::c_char;
use std::sync::OnceLock;

/// A refusal by its number in docs/SPEC.md.
pub type Refusal = u64;

pub const SHORT_FILE: Refusal = 1;
pub const NAME_NOT_TEXT: Refusal = 2;
pub const WRONG_MARK: Refusal = 3;
pub const UNKNOWN_MACHINE: Refusal = 4;
pub const FOREIGN_REGISTER: Refusal = 5;
pub const UNKNOWN_OPERAND_KIND: Refusal = 6;
pub const UNKNOWN_OPERATION: Refusal = 7;
pub const WRONG_OPERAND_COUNT: Refusal = 8;
pub const REPEATED_BLOCK: Refusal = 9;
pub const LENDING_TOO_LARGE: Refusal = 10;
pub const IMAGE_FULL: Refusal = 11;
pub const JOURNAL_FULL: Refusal = 12;
pub const SPOILED_BOOK: Refusal = 13;
pub const BLOCK_PRESENT: Refusal = 14;
pub const NO_SUCH_BLOCK: Refusal = 15;
pub const NOTHING_TO_TAKE_BACK: Refusal = 16;
pub const LEFTOVER: Refusal = 17;
pub const CLOSED_BLOCK: Refusal = 18;
pub const CROOKED_REGISTER: Refusal = 19;
pub const WALK_OPEN: Refusal = 20;
pub const NO_WALK: Refusal = 21;

/// The declarations of reference.h.
mod c {
    use super::{c_char, Answer, Book, Counted, Opened, Refusal};

    #[repr(C)]
    pub struct Operation {
        pub name: *const c_char,
        pub count: u32,
    }

    #[repr(C)]
    pub struct LentBook {
        pub image: *mut u8,
        pub journal: *mut u8,
        pub image_len: usize,
        pub journal_len: usize,
        pub numbers: Book,
    }

    #[repr(C)]
    pub struct Rates {
        pub rate: [u32; 6],
    }

    #[repr(C)]
    pub struct ChargeLook {
        pub refusal: Refusal,
        pub cents: u64,
    }

    #[repr(C)]
    pub struct Written {
        pub refusal: Refusal,
        pub size: u64,
    }

    #[repr(C)]
    pub struct Call {
        pub kind: u32,
        pub vip: u64,
        pub bytes: *const u8,
        pub len: usize,
    }

    #[repr(C)]
    pub struct Machine {
        _private: [u8; 0],
    }

    extern "C" {
        pub static ref_operations: Operation;
        pub static ref_operation_count: usize;
        pub fn ref_check(file: *const u8, len: usize) -> i64;
        pub fn ref_is_text(bytes: *const u8, len: usize) -> bool;
        pub fn ref_list_counts(file: *const u8, len: usize) -> Counted;
        pub fn ref_open(book: *mut LentBook, file: *const u8, len: usize, rates: Rates) -> Opened;
        pub fn ref_step(book: *mut LentBook, call: *const Call) -> Answer;
        pub fn ref_charge(book: *const LentBook, rates: Rates) -> ChargeLook;
        pub fn ref_outside_copy(book: *const LentBook, copy: *mut u8, copy_len: usize) -> Written;
        pub fn ref_machine_start(
            file: *const u8,
            len: usize,
            image_len: usize,
            journal_len: usize,
            rates: Rates,
        ) -> *mut Machine;
        pub fn ref_machine_step(machine: *mut Machine, call: *const Call) -> Answer;
        pub fn ref_machine_image(machine: *const Machine, image: *mut u8);
        pub fn ref_machine_journal(machine: *const Machine, journal: *mut u8);
        pub fn ref_machine_free(machine: *mut Machine);
    }
}

#[repr(C)]
#[derive(Clone, Copy, Debug, Default, PartialEq)]
pub struct Book {
    pub written: u64,
    pub used: u64,
    pub rates: Rates,
    pub sum: u64,
    pub walk: u64,
}

/// What an opening answers: the refusal (0: accepted), and the book.
#[repr(C)]
#[derive(Clone, Copy, Debug, PartialEq)]
pub struct Opened {
    pub refusal: Refusal,
    pub book: Book,
}

/// What a call answers: the refusal (0: accepted), the book after it, and where the block that it hands out begins in
/// the image and how long it is. Both are 0 where it hands out none.
#[repr(C)]
#[derive(Clone, Copy, Debug, PartialEq)]
pub struct Answer {
    pub refusal: Refusal,
    pub book: Book,
    pub offset: u64,
    pub length: u64,
}

/// The sums of the counts that were read, for the lists that the Rust reserves memory for. (It reserves none for the
/// blocks.)
#[repr(C)]
#[derive(Clone, Copy, Debug)]
pub struct Counted {
    pub registers: u64,
    pub conventions: u64,
    pub instructions: u64,
    pub vips: u64,
}

/// The operations in the order of `Op`: each one's name and operand count.
pub fn ops() -> &'static [(&'static str, u32)] {
    static OPS: OnceLock<Vec<(&str, u32)>> = OnceLock::new();
    OPS.get_or_init(|| {
        // SAFETY: the reference has this many operations, whose names are strings that stay.
        let listed =
            unsafe { std::slice::from_raw_parts(std::ptr::addr_of!(c::ref_operations), c::ref_operation_count) };
        listed
            .iter()
            .map(|op| (unsafe { CStr::from_ptr(op.name) }.to_str().expect("names are ASCII"), op.count))
            .collect()
    })
}

/// The consumed length, or the refusal.
pub fn check(file: &[u8]) -> Result<usize, Refusal> {
    // SAFETY: the pointer has the slice's bytes behind it; so has every pointer below that comes with a length.
    let answer = unsafe { c::ref_check(file.as_ptr(), file.len()) };
    usize::try_from(answer).map_err(|_| answer.unsigned_abs())
}

pub fn is_text(bytes: &[u8]) -> bool {
    unsafe { c::ref_is_text(bytes.as_ptr(), bytes.len()) }
}

pub fn list_counts(file: &[u8]) -> Counted {
    unsafe { c::ref_list_counts(file.as_ptr(), file.len()) }
}

fn lent(numbers: Book, image: &mut [u8], journal: &mut [u8]) -> c::LentBook {
    c::LentBook {
        image: image.as_mut_ptr(),
        journal: journal.as_mut_ptr(),
        image_len: image.len(),
        journal_len: journal.len(),
        numbers,
    }
}

/// Opens a file into an image and a journal, at these rates.
pub fn open(file: &[u8], image: &mut [u8], journal: &mut [u8], rate: Rates) -> Opened {
    let mut book = lent(Book::default(), image, journal);
    unsafe { c::ref_open(&mut book, file.as_ptr(), file.len(), c::Rates { rate }) }
}

/// A call on a book, whatever its numbers are.
pub fn step(numbers: Book, image: &mut [u8], journal: &mut [u8], call: &Call) -> Answer {
    let mut book = lent(numbers, image, journal);
    unsafe { c::ref_step(&mut book, &as_c(call)) }
}

/// For calls that write neither; the struct is that of calls that do.
fn lent_to_look(numbers: Book, image: &[u8], journal: &[u8]) -> c::LentBook {
    c::LentBook {
        image: image.as_ptr().cast_mut(),
        journal: journal.as_ptr().cast_mut(),
        image_len: image.len(),
        journal_len: journal.len(),
        numbers,
    }
}

/// The charge of a book in whole cents, or the refusal.
pub fn charge(numbers: Book, image: &[u8], journal: &[u8], rate: Rates) -> Result<u64, Refusal> {
    let book = lent_to_look(numbers, image, journal);
    match unsafe { c::ref_charge(&book, c::Rates { rate }) } {
        c::ChargeLook { refusal: 0, cents } => Ok(cents),
        c::ChargeLook { refusal, .. } => Err(refusal),
    }
}

/// A copy of the book for outside reviewers into a second image: the refusal (0: made), and its length.
pub fn outside_copy(numbers: Book, image: &[u8], journal: &[u8], copy: &mut [u8]) -> (Refusal, u64) {
    let book = lent_to_look(numbers, image, journal);
    let c::Written { refusal, size } = unsafe { c::ref_outside_copy(&book, copy.as_mut_ptr(), copy.len()) };
    (refusal, size)
}

/// The written form of an accepted file, which consumes this many bytes.
pub fn written(file: &[u8], consumed: usize) -> Vec<u8> {
    let mut image = vec![0; consumed];
    let answer = open(file, &mut image, &mut [], Rates::default());
    assert_eq!(
        (answer.refusal, answer.book.written),
        (0, consumed as u64),
        "a written form is as long as what was read"
    );
    image
}

#[derive(Clone, Debug)]
pub enum Call {
    Create(u64),
    Remove(u64),
    Append(u64, Vec<u8>),
    Undo,
    Start,
    Next,
    Abandon,
}

/// The call's kind, its vip, and what it appends.
fn parts(call: &Call) -> (u32, u64, &[u8]) {
    match call {
        Call::Create(vip) => (0, *vip, &[]),
        Call::Remove(vip) => (1, *vip, &[]),
        Call::Append(vip, bytes) => (2, *vip, bytes),
        Call::Undo => (3, 0, &[]),
        Call::Start => (4, 0, &[]),
        Call::Next => (5, 0, &[]),
        Call::Abandon => (6, 0, &[]),
    }
}

/// The struct points to the call's bytes.
fn as_c(call: &Call) -> c::Call {
    let (kind, vip, bytes) = parts(call);
    c::Call { kind, vip, bytes: bytes.as_ptr(), len: bytes.len() }
}

/// A list as C hands it over: four words for each call, and the bytes of what is appended.
pub fn as_words(calls: &[Call]) -> (Vec<u64>, Vec<u8>) {
    let (mut words, mut bytes) = (vec![], vec![]);
    for (kind, vip, appended) in calls.iter().map(parts) {
        let begin = bytes.len() as u64;
        bytes.extend(appended);
        words.extend([kind.into(), vip, begin, bytes.len() as u64]);
    }
    (words, bytes)
}

/// The routine machine.
pub struct Machine {
    machine: *mut c::Machine,
    image_length: usize,
    journal_length: usize,
}

impl Machine {
    /// The file has to be accepted, and to fit the image.
    pub fn start(file: &[u8], image_length: usize, journal_length: usize, rate: Rates) -> Machine {
        assert!(check(file).is_ok_and(|size| size <= image_length), "the file is accepted and fits the image");
        let rates = c::Rates { rate };
        let machine = unsafe { c::ref_machine_start(file.as_ptr(), file.len(), image_length, journal_length, rates) };
        Machine { machine, image_length, journal_length }
    }

    pub fn step(&mut self, call: &Call) -> Answer {
        unsafe { c::ref_machine_step(self.machine, &as_c(call)) }
    }

    /// What the image has to hold.
    pub fn image(&self) -> Vec<u8> {
        let mut image = vec![0; self.image_length];
        unsafe { c::ref_machine_image(self.machine, image.as_mut_ptr()) };
        image
    }

    /// What the journal has to hold.
    pub fn journal(&self) -> Vec<u8> {
        let mut journal = vec![0; self.journal_length];
        unsafe { c::ref_machine_journal(self.machine, journal.as_mut_ptr()) };
        journal
    }
}

impl Drop for Machine {
    fn drop(&mut self) {
        unsafe { c::ref_machine_free(self.machine) };
    }
}

#[cfg(test)]
mod tests {
    use super::is_text;

    #[test]
    fn texts_are_those_of_rust_on_every_three_bytes() {
        for n in 0..1u32 << 24 {
            let bytes = n.to_be_bytes();
            assert_eq!(is_text(&bytes[1..]), std::str::from_utf8(&bytes[1..]).is_ok(), "{bytes:x?}");
        }
    }

    #[test]
    fn texts_are_those_of_rust_on_the_boundary_names() {
        for name in crate::names::boundary_names() {
            assert_eq!(is_text(&name), std::str::from_utf8(&name).is_ok(), "{name:x?}");
        }
    }
}
