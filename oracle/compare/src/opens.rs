//! Opening, by itself and by a list without calls: the book, the image and the journal beside the reference, whose
//! written form is held to the Rust's elsewhere.

use crate::charges::rng_for;
use crate::report::{number, numbers, Report};
use oracle::charge::{any_rates, Rates};
use oracle::draft::minimal_routine;
use oracle::reference::{self, Refusal};
use vtil::{Book, Numbers, MOST_LENT};

/// What the lent memory holds before the opening, to see what it touches.
const IMAGE_BEFORE: u8 = 0xa5;
const JOURNAL_BEFORE: u8 = 0x5a;

/// What the book says before the opening, to see that a refused one answers zeros.
const NUMBERS_BEFORE: Numbers = Numbers { written: 1, used: 1, rates: vtil::Rates([1; 6]), sum: 1, walk: 1 };

/// What an opening is given beside the file.
#[derive(Clone, Copy, Debug)]
struct Given {
    image_length: usize,
    journal_length: usize,
    rates: Rates,
}

/// The answer (0: accepted), the book, the image and the journal after the opening.
#[derive(PartialEq)]
struct Opened {
    refusal: Refusal,
    numbers: Numbers,
    image: Vec<u8>,
    journal: Vec<u8>,
}

impl Given {
    fn memory(&self) -> (Vec<u8>, Vec<u8>) {
        (vec![IMAGE_BEFORE; self.image_length], vec![JOURNAL_BEFORE; self.journal_length])
    }

    /// What the reference says.
    fn due(&self, file: &[u8]) -> Opened {
        let (mut image, mut journal) = self.memory();
        let answer = reference::open(file, &mut image, &mut journal, self.rates);
        Opened { refusal: answer.refusal, numbers: numbers(answer.book), image, journal }
    }

    /// What the library does, by one of its ways to open.
    fn opened(&self, open: impl FnOnce(&mut Book<&mut [u8]>, vtil::Rates) -> Result<(), vtil::Refusal>) -> Opened {
        let (mut image, mut journal) = self.memory();
        let mut book = Book::resume(NUMBERS_BEFORE, &mut image[..], &mut journal[..]);
        let refusal = number(open(&mut book, vtil::Rates(self.rates)));
        Opened { refusal, numbers: book.numbers(), image, journal }
    }
}

/// What a list without calls says of its last one.
fn of_no_call(last: vtil::Last) {
    assert_eq!(last, Ok(None), "no call was made");
}

fn difference_between(got: &Opened, due: &Opened) -> Option<String> {
    if got == due {
        return None;
    }
    if (got.refusal, got.numbers) != (due.refusal, due.numbers) {
        return Some(format!("{} {:?}, due {} {:?}", got.refusal, got.numbers, due.refusal, due.numbers));
    }
    Some(format!("another {}", if got.image != due.image { "image" } else { "journal" }))
}

fn difference_at(file: &[u8], given: Given) -> Option<String> {
    let due = given.due(file);
    let single = given.opened(|book, rates| book.reopen(file, rates));
    let list = given.opened(|book, rates| book.run(file, &[], rates).map(of_no_call));
    let named = |way, got| difference_between(got, &due).map(|what| format!("{way} with {given:?}: {what}"));
    named("open", &single).or_else(|| named("list without calls", &list))
}

/// Opens the file with just enough room, with more, and with one byte too few.
pub fn difference(file: &[u8], consumed: Result<usize, Refusal>) -> Option<String> {
    let size = consumed.unwrap_or(file.len());
    let rates = any_rates(&mut rng_for(file));
    let lendings = [(size, 0), (size + 50, 30), (size.saturating_sub(1), 20)];
    let given = |(image_length, journal_length)| Given { image_length, journal_length, rates };
    lendings.into_iter().find_map(|lending| difference_at(file, given(lending)))
}

/// The limit on what is lent, beside an accepted file and a refused one.
pub fn limits(report: &mut Report) {
    const OVER: usize = MOST_LENT + 1;
    let rates = [1, 20, 300, 4_000, 50_000, 600_000];
    for file in [minimal_routine(), vec![]] {
        for (image_length, journal_length) in [(MOST_LENT, 20), (OVER, 20), (200, MOST_LENT), (200, OVER), (OVER, OVER)]
        {
            if let Some(text) = difference_at(&file, Given { image_length, journal_length, rates }) {
                report.difference(|| text);
            }
        }
    }
}
