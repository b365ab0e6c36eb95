//! Books whose sum or rates were made by hand. Where the machine accepts a call, the sum has to become what the Rust's
//! routine makes of it.

use crate::by_hand::{self, made_as_due};
use crate::calls::Answer;
use oracle::charge::{sum, Counts, Rates};
use oracle::reference::{Call, Refusal, SPOILED_BOOK};
use std::array::from_fn;
use std::collections::BTreeMap;
use vtil::{Book, Numbers};

/// How the calls on such books were answered.
#[derive(Default)]
pub struct Tally {
    accepted: usize,
    refused: usize,
    /// Refused 13 for the sum, by what the call would have done.
    by_sum: BTreeMap<&'static str, usize>,
}

impl Tally {
    /// But for sum and rates the books are those of lists, which are never refused 13. The book is the one before the
    /// call, or after it where it was refused.
    fn count(&mut self, book: &Book<Vec<u8>>, call: &Call, refusal: Refusal) {
        match refusal {
            0 => self.accepted += 1,
            SPOILED_BOOK => *self.by_sum.entry(name(book, call)).or_default() += 1,
            _ => self.refused += 1,
        }
    }

    pub fn print(&self) {
        let by_sum: usize = self.by_sum.values().sum();
        let names: Vec<String> = self.by_sum.iter().map(|(name, count)| format!("{name} {count}")).collect();
        let (names, calls) = (names.join(", "), self.accepted + self.refused + by_sum);
        print!("calls at sums and rates made by hand {calls}, accepted {}, ", self.accepted);
        println!("refused 13 for the sum {by_sum} ({names}), refused else {}", self.refused);
    }
}

/// What the call does. What an undo takes back is told by the kind of the journal's last entry, which ends in it.
fn name(book: &Book<Vec<u8>>, call: &Call) -> &'static str {
    match call {
        Call::Create(_) => "create",
        Call::Remove(_) => "remove",
        Call::Append(..) => "append",
        Call::Undo => match book.journal()[book.numbers().used as usize - 4] {
            1 => "undo of create",
            2 => "undo of remove",
            _ => "undo of append",
        },
        Call::Start | Call::Next | Call::Abandon => "walk",
    }
}

/// How many instructions of each group the Rust's routine has before a call and after it.
pub struct Change {
    pub before: Counts,
    pub after: Counts,
}

impl Change {
    fn sums(&self, rates: Rates) -> (u64, u64) {
        (sum(&self.before, rates), sum(&self.after, rates))
    }

    /// What a sum becomes by the call; none where it cannot.
    fn applied(&self, rates: Rates, handed_in: u64) -> Option<u64> {
        match self.sums(rates) {
            (before, after) if after < before => handed_in.checked_sub(before - after),
            (before, after) => handed_in.checked_add(after - before),
        }
    }

    /// The ends of 64 bits, and both sides of where the call begins to be refused. Where it changes nothing, the ends.
    fn edges(&self, rates: Rates) -> Vec<u64> {
        let (before, after) = self.sums(rates);
        let by = before.abs_diff(after);
        let most = u64::MAX - by;
        let mut edges = vec![0, by.wrapping_sub(1), by, most, most.wrapping_add(1), u64::MAX];
        edges.sort_unstable();
        edges.dedup();
        edges
    }

    /// What is due of the call where these numbers are handed in, and the machine answers `step`.
    fn due(&self, step: &Answer, handed_in: Numbers) -> Answer {
        if step.refusal != 0 {
            return Answer::plain(step.refusal, handed_in);
        }
        match self.applied(handed_in.rates.0, handed_in.sum) {
            Some(sum) => Answer { numbers: Numbers { rates: handed_in.rates, sum, ..step.numbers }, ..step.clone() },
            None => Answer::plain(SPOILED_BOOK, handed_in),
        }
    }
}

/// A copy of the book at another sum and other rates.
fn with(book: &Book<Vec<u8>>, rates: Rates, sum: u64) -> Book<Vec<u8>> {
    by_hand::with(book, Numbers { rates: vtil::Rates(rates), sum, ..book.numbers() })
}

/// A call on copies of the book at other sums, with the book's rates and with others. `step` is the machine's answer.
pub fn call_difference(
    book: &Book<Vec<u8>>,
    call: &Call,
    step: &Answer,
    change: &Change,
    tally: &mut Tally,
) -> Option<String> {
    let own = book.rates().0;
    let other = from_fn(|group| u32::MAX - own[5 - group]);
    let mut tries =
        [own, other].into_iter().flat_map(|rates| change.edges(rates).into_iter().map(move |sum| (rates, sum)));
    tries.find_map(|(rates, sum)| {
        let copy = with(book, rates, sum);
        let due = change.due(step, copy.numbers());
        let answer = made_as_due(copy, call, &due);
        answer.map(|answer| tally.count(book, call, answer.refusal)).err()
    })
}

/// Looking does not ask for the sum.
fn look_difference(book: &Book<Vec<u8>>, opened: &Book<Vec<u8>>) -> Result<(), String> {
    let looks = |book: &Book<Vec<u8>>| (book.overview(), book.charge(opened.rates()));
    if looks(book) == looks(opened) {
        return Ok(());
    }
    Err(format!("looks {:?}, with the opening's sum {:?}", looks(book), looks(opened)))
}

/// A whole list, from its opening at another sum.
fn list_difference_from(sum: u64, opened: &Book<Vec<u8>>, calls: &[Call], tally: &mut Tally) -> Result<(), String> {
    let book = with(opened, opened.rates().0, sum);
    look_difference(&book, opened)?;
    by_hand::list_difference(&book, calls, |book, call, answer| tally.count(book, call, answer.refusal))
}

pub fn list_difference(opened: &Book<Vec<u8>>, calls: &[Call], tally: &mut Tally) -> Option<String> {
    let sums = [0, opened.sum() / 2, u64::MAX];
    let mut difference = |sum| list_difference_from(sum, opened, calls, tally).err();
    sums.into_iter().find_map(|sum| difference(sum).map(|text| format!("from sum {sum}: {text}")))
}
