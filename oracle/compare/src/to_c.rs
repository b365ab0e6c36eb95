//! What the library answers to C. Of an answer without a block the safe functions hand on no offset, and of a refused one
//! the refusal alone; but what has to be 0 there is compared too.

use crate::report::numbers;
use oracle::lists::List;
use oracle::reference::{as_words, Answer, Call};
use vtil::c::{self, RunAnswer, WalkAnswer, Written};
use vtil::{Book, Rates};

/// A next on the book, which is only read.
pub fn next_difference(book: &Book<Vec<u8>>, due: &Answer) -> Option<String> {
    let (image, journal) = (book.image(), book.journal());
    // SAFETY: each pointer and length is a slice's; so it is below.
    let got =
        unsafe { c::vtil_walk_next(book.numbers(), image.as_ptr(), image.len(), journal.as_ptr(), journal.len()) };
    let Answer { refusal, book, offset, length } = *due;
    let due = WalkAnswer { refusal, book: numbers(book), offset, length };
    (got != due).then(|| format!("next to C {got:?}, due {due:?}"))
}

/// A copy for outside reviewers of the book, which is only read.
pub fn outside_copy(book: &Book<Vec<u8>>, copy: &mut [u8]) -> Written {
    let (image, journal) = (book.image(), book.journal());
    unsafe {
        c::vtil_outside_copy(
            book.numbers(),
            image.as_ptr(),
            image.len(),
            journal.as_ptr(),
            journal.len(),
            copy.as_mut_ptr(),
            copy.len(),
        )
    }
}

/// Of a list whose last call is due to answer this.
fn run_difference(got: RunAnswer, last: &Answer) -> Option<String> {
    let Answer { refusal, book, offset, length } = *last;
    let due = RunAnswer { refusal: 0, last: refusal, book: numbers(book), offset, length };
    (got != due).then(|| format!("list to C {got:?}, due {due:?}"))
}

/// A list on a copy of the book, whose last call is due to answer this.
pub fn list_difference(book: &Book<Vec<u8>>, calls: &[Call], last: &Answer) -> Option<String> {
    let (words, bytes) = as_words(calls);
    let (mut image, mut journal) = (book.image().to_vec(), book.journal().to_vec());
    let got = unsafe {
        c::vtil_run_on(
            book.numbers(),
            image.as_mut_ptr(),
            image.len(),
            journal.as_mut_ptr(),
            journal.len(),
            words.as_ptr(),
            words.len(),
            bytes.as_ptr(),
            bytes.len(),
        )
    };
    run_difference(got, last)
}

/// The same on the list's file.
pub fn file_list_difference(list: &List, last: &Answer) -> Option<String> {
    let (words, bytes) = as_words(&list.calls);
    let (mut image, mut journal) = (vec![0xa5; list.image_length], vec![0x5a; list.journal_length]);
    let got = unsafe {
        c::vtil_run(
            list.file.as_ptr(),
            list.file.len(),
            image.as_mut_ptr(),
            image.len(),
            journal.as_mut_ptr(),
            journal.len(),
            words.as_ptr(),
            words.len(),
            bytes.as_ptr(),
            bytes.len(),
            Rates(list.rates),
        )
    };
    run_difference(got, last)
}
