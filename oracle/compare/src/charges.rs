//! The charge of a book, at several rates: the library's beside the reference's, and beside the sum over the Rust's own
//! routine. And the sum that an opening works out, beside the same.

use crate::report::for_reference;
use oracle::charge::{counts, sum, Counts, Rates};
use oracle::reference;
use oracle::rng::Rng;
use std::array::from_fn;
use vtil::{Book, Numbers, Refusal};
use vtil_parser::Routine;

/// One group at 100 and the others at 0: the charge is how many instructions of the group there are.
fn alone(group: usize) -> Rates {
    from_fn(|other| if other == group { 100 } else { 0 })
}

/// The same bytes get the same numbers, so that a difference stays one while it is made smaller.
pub fn rng_for(bytes: &[u8]) -> Rng {
    Rng::new(bytes.iter().fold(0u64, |seed, byte| seed.wrapping_mul(31).wrapping_add((*byte).into())))
}

fn rates_for(written: &[u8]) -> Vec<Rates> {
    let mut rng = rng_for(written);
    let mut rates = vec![[0; 6], [u32::MAX; 6]];
    rates.extend((0..6).map(alone));
    rates.push(from_fn(|_| rng.edgy() as u32));
    // A few instructions at such rates come to sums on both sides of whole cents.
    rates.push(from_fn(|_| rng.below(102) as u32));
    rates
}

/// The reference is given the same numbers, image and journal, which were compared with its own before.
fn difference_at(book: &Book<Vec<u8>>, rust: &Counts, rates: Rates) -> Option<String> {
    let got = book.charge(vtil::Rates(rates)).map_err(Refusal::number);
    let due = reference::charge(for_reference(book.numbers()), book.image(), book.journal(), rates);
    let rust = sum(rust, rates).div_ceil(100);
    if got == due && due == Ok(rust) {
        return None;
    }
    Some(format!("charge at {rates:?}: library {got:?}, document 02 {due:?}, Rust {rust}"))
}

/// `rust` counts the instructions of the routine that the book holds.
pub fn difference(book: &Book<Vec<u8>>, rust: &Counts) -> Option<String> {
    rates_for(book.written()).into_iter().find_map(|rates| difference_at(book, rust, rates))
}

/// The book has to keep these rates, and the sum at them.
pub fn sum_difference(book: &Book<Vec<u8>>, rust: &Counts, rates: Rates) -> Option<String> {
    let (got, due) = ((book.rates(), book.sum()), (vtil::Rates(rates), sum(rust, rates)));
    (got != due).then(|| format!("rates and sum of the book {got:?}, Rust {due:?}"))
}

/// The book of a file that both accept, which consumes this many bytes.
pub fn file_difference(file: &[u8], consumed: usize) -> Option<String> {
    let rust = counts(&Routine::from_vec(file).expect("the Rust accepted the same bytes"));
    let mut book = Book::resume(Numbers::default(), vec![0; consumed], vec![]);
    let mut opened_at = |rates| {
        book.reopen(file, vtil::Rates(rates)).expect("the library opened the same bytes");
        sum_difference(&book, &rust, rates)
    };
    let opened = rates_for(&file[..consumed]).into_iter().find_map(&mut opened_at);
    opened.or_else(|| difference(&book, &rust))
}
