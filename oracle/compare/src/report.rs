//! Differences: each is printed in hex, cut down to a small input, and counted.

use oracle::reference;
use vtil::{Numbers, Rates};

const PRINTED: usize = 20;

#[derive(Default)]
pub struct Report {
    pub differences: usize,
}

/// A call's answer as docs/SPEC.md numbers it: 0 where it is accepted.
pub fn number(answer: Result<(), vtil::Refusal>) -> u64 {
    answer.err().map_or(0, vtil::Refusal::number)
}

/// The reference's book as the library's crate has it.
pub fn numbers(book: reference::Book) -> Numbers {
    let reference::Book { written, used, rates, sum, walk } = book;
    Numbers { written, used, rates: Rates(rates), sum, walk }
}

/// And the library's as the reference has it.
pub fn for_reference(numbers: Numbers) -> reference::Book {
    let Numbers { written, used, rates: Rates(rates), sum, walk } = numbers;
    reference::Book { written, used, rates, sum, walk }
}

/// Nothing, or the difference.
pub fn held(difference: Option<String>) -> Result<(), String> {
    difference.map_or(Ok(()), Err)
}

pub fn hex(bytes: &[u8]) -> String {
    bytes.iter().map(|byte| format!("{byte:02x}")).collect()
}

impl Report {
    /// After the first few, differences are only counted.
    pub fn difference(&mut self, text: impl FnOnce() -> String) {
        self.differences += 1;
        if self.differences <= PRINTED {
            println!("DIFFERENCE {}", text());
        }
    }
}

/// A smaller list that is still different: parts are left out, halves first, single items last.
pub fn shrink<T: Clone>(items: &[T], is_different: impl Fn(&[T]) -> bool) -> Vec<T> {
    let mut items = items.to_vec();
    let mut part = items.len().div_ceil(2);
    while part > 0 {
        let mut at = 0;
        while at < items.len() {
            let end = (at + part).min(items.len());
            let shorter = [&items[..at], &items[end..]].concat();
            if is_different(&shorter) {
                items = shorter;
            } else {
                at = end;
            }
        }
        part /= 2;
    }
    items
}
