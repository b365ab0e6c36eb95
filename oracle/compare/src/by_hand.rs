//! Books made by hand. The routine machine is fed no book and so says nothing of these: a call on one has to answer and
//! to leave what the reference's call on a book does.

use crate::calls::{self, Answer};
use crate::report::{for_reference, held};
use crate::to_c;
use oracle::reference::{self, Call};
use vtil::{Book, Numbers};

/// A copy of the book at other numbers.
pub fn with(book: &Book<Vec<u8>>, numbers: Numbers) -> Book<Vec<u8>> {
    Book::resume(numbers, book.image().to_vec(), book.journal().to_vec())
}

/// Makes the call by the library and by the reference: what both answered, or where they differ.
pub fn made_by_both(book: &mut Book<Vec<u8>>, call: &Call) -> Result<Answer, String> {
    by_both(book, call).map(|(answer, _)| answer)
}

/// Also answers what the reference said.
fn by_both(book: &mut Book<Vec<u8>>, call: &Call) -> Result<(Answer, reference::Answer), String> {
    let before = book.numbers();
    let (mut image, mut journal) = (book.image().to_vec(), book.journal().to_vec());
    let step = reference::step(for_reference(before), &mut image, &mut journal, call);
    if matches!(call, Call::Next) {
        held(to_c::next_difference(book, &step))?;
    }
    let due = Answer::due(&step, before, &image);
    let got = calls::made(book, call);
    if got != due {
        return Err(format!("on {before:?} library {got:?}, document 02 {due:?}"));
    }
    if (book.image(), book.journal()) != (&image[..], &journal[..]) {
        return Err(format!("on {before:?} another image or journal than document 02's"));
    }
    Ok((got, step))
}

/// As [`made_by_both`], and what both answered has to be what is due by the Rust.
pub fn made_as_due(mut book: Book<Vec<u8>>, call: &Call, due: &Answer) -> Result<Answer, String> {
    let before = book.numbers();
    match made_by_both(&mut book, call)? {
        got if got == *due => Ok(got),
        got => Err(format!("on {before:?} library and document 02 {got:?}, Rust {due:?}")),
    }
}

/// A whole list on a book: each call in turn, by both, and then all at once. `note` is told of every call's answer, and
/// of the book after it.
pub fn list_difference(
    start: &Book<Vec<u8>>,
    calls: &[Call],
    mut note: impl FnMut(&Book<Vec<u8>>, &Call, &Answer),
) -> Result<(), String> {
    let mut book = start.clone();
    let mut last = Answer::plain(0, start.numbers());
    let mut to_c = reference::Answer { refusal: 0, book: for_reference(start.numbers()), offset: 0, length: 0 };
    for call in calls {
        (last, to_c) = by_both(&mut book, call)?;
        note(&book, call, &last);
    }
    let mut at_once = start.clone();
    let got = at_once.run_on(&calls::listed(calls));
    held(calls::difference_at_once("at once", (got, &at_once), (&last, &book)))?;
    held(to_c::list_difference(start, calls, &to_c))
}
