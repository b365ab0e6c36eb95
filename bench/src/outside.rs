//! The copy for outside reviewers, beside opening the same file: both pass over the whole routine, copy it, and pass over
//! the copy lightly.

use crate::clock::{heading, middle_of_both, print_with_goal, time, ROUNDS};
use crate::inputs::RATES;
use crate::reading::{library_opens, opened_inputs, Input};
use oracle::outside::copy;
use std::time::Duration;
use vtil::{Book, Numbers, Rates};
use vtil_parser::Routine;

/// How fast the copy has to be at least, in times the speed of an opening: it takes at most as long.
const GOAL: f64 = 1.0;

/// The second image is lent, so nothing is allocated inside the clock.
fn library_copies(book: &Book<&mut [u8]>, second: &mut [u8]) -> Duration {
    let mut length = Ok(0);
    let took = time(|| length = book.outside_copy(second));
    assert_eq!(length, Ok(second.len()), "an opened book can be copied");
    took
}

pub fn copies(most_blocks: usize) {
    heading(&format!("an outside copy, the middle of {ROUNDS} rounds"), "library open", "library copy");
    for Input { name, file, .. } in opened_inputs(most_blocks) {
        // Each side has an image of its own, and so both find it as their last round left it.
        let (mut image, mut journal) = (vec![1; file.len()], vec![1; 4096]);
        let (mut other_image, mut other_journal) = (image.clone(), journal.clone());
        let mut opened = Book::resume(Numbers::default(), &mut image[..], &mut journal[..]);
        let book = Book::open(&file, &mut other_image[..], &mut other_journal[..], Rates(RATES))
            .expect("the measured files can be opened");
        let mut second = vec![1; file.len()];
        let times = middle_of_both(|| library_opens(&file, &mut opened), || library_copies(&book, &mut second));
        print_with_goal(name, file.len(), times, GOAL);
        let due = copy(Routine::from_vec(&file).expect("the measured files are accepted"));
        assert!(second == due, "the copy is what the Rust writes without values");
    }
}
