//! The copy for outside reviewers: beside what the Rust writes of its own routine once the value of every immediate
//! operand is 0, and beside the reference's; in second images of several lengths, and on books made by hand too.

use crate::by_hand::with;
use crate::charges::rng_for;
use crate::report::{for_reference, Report};
use crate::to_c;
use crate::walks;
use oracle::blocks::filled_block;
use oracle::draft::{Draft, MIDDLING};
use oracle::outside::{copy, with_values};
use oracle::reference::{self, Refusal, IMAGE_FULL, LENDING_TOO_LARGE, SPOILED_BOOK};
use oracle::rng::Rng;
use std::fmt;
use vtil::{Book, Numbers, Rates, MOST_LENT};
use vtil_parser::Routine;

/// What the second image holds before the call, to see what it touches.
const BEFORE: u8 = 0xc3;

/// Of longer files no books are made by hand: each costs many passes over the image.
const MOST_BY_HAND: usize = 50_000;

/// How the calls were answered.
#[derive(Clone, Copy, Default)]
pub struct Tally {
    made: usize,
    too_large: usize,
    spoiled: usize,
    full: usize,
    /// Values other than 0 in the routines that were copied.
    values: usize,
}

impl Tally {
    fn count(&mut self, refusal: Refusal) {
        match refusal {
            0 => self.made += 1,
            LENDING_TOO_LARGE => self.too_large += 1,
            SPOILED_BOOK => self.spoiled += 1,
            IMAGE_FULL => self.full += 1,
            _ => unreachable!("the reference refuses a copy by no other number"),
        }
    }

    pub fn add(&mut self, other: &Tally) {
        self.made += other.made;
        self.too_large += other.too_large;
        self.spoiled += other.spoiled;
        self.full += other.full;
        self.values += other.values;
    }
}

impl fmt::Display for Tally {
    fn fmt(&self, to: &mut fmt::Formatter) -> fmt::Result {
        let Tally { made, too_large, spoiled, full, values } = self;
        let calls = made + too_large + spoiled + full;
        write!(to, "outside copies {calls}, made {made}, refused 10 {too_large}, 13 {spoiled}, 11 {full}; ")?;
        write!(to, "values other than 0 in the routines {values}")
    }
}

/// What the call answers (0: made), as C gets it, and the second image after it.
#[derive(PartialEq)]
struct Copied {
    refusal: Refusal,
    size: u64,
    second: Vec<u8>,
}

/// A way to make the call.
type Way = fn(&Book<Vec<u8>>, usize) -> Copied;

/// What the reference does.
fn by_reference(book: &Book<Vec<u8>>, length: usize) -> Copied {
    let mut second = vec![BEFORE; length];
    let numbers = for_reference(book.numbers());
    let (refusal, size) = reference::outside_copy(numbers, book.image(), book.journal(), &mut second);
    Copied { refusal, size, second }
}

/// What is due where the reference answers so: the copy that the Rust's routine makes, and zeros; or nothing at all.
fn due(refusal: Refusal, rust: &[u8], length: usize) -> Copied {
    if refusal != 0 {
        return Copied { refusal, size: 0, second: vec![BEFORE; length] };
    }
    let mut second = rust.to_vec();
    second.resize(length, 0);
    Copied { refusal, size: rust.len() as u64, second }
}

fn by_crate(book: &Book<Vec<u8>>, length: usize) -> Copied {
    let mut second = vec![BEFORE; length];
    match book.outside_copy(&mut second) {
        Ok(size) => Copied { refusal: 0, size: size as u64, second },
        Err(refusal) => Copied { refusal: refusal.number(), size: 0, second },
    }
}

fn by_c(book: &Book<Vec<u8>>, length: usize) -> Copied {
    let mut second = vec![BEFORE; length];
    let vtil::c::Written { refusal, size } = to_c::outside_copy(book, &mut second);
    Copied { refusal, size, second }
}

fn difference_between(got: &Copied, due: &Copied) -> Option<String> {
    if got == due {
        return None;
    }
    if (got.refusal, got.size) != (due.refusal, due.size) {
        return Some(format!("{} of {} bytes, due {} of {} bytes", got.refusal, got.size, due.refusal, due.size));
    }
    let place = got.second.iter().zip(&due.second).position(|(got, due)| got != due);
    Some(format!("another second image, from byte {place:?} on"))
}

/// Into second images of these lengths. The book's image and journal have to stay.
fn difference_at(book: &Book<Vec<u8>>, rust: &[u8], lengths: &[usize], tally: &mut Tally) -> Option<String> {
    let before = book.clone();
    let stays = || (book.image(), book.journal()) == (before.image(), before.journal());
    let ways: [(&str, Way); 3] = [("by document 02", by_reference), ("by the crate", by_crate), ("to C", by_c)];
    let mut difference = |length| {
        let due = due(by_reference(book, length).refusal, rust, length);
        tally.count(due.refusal);
        ways.into_iter().find_map(|(name, way)| {
            let text = difference_between(&way(book, length), &due);
            let text = text.or_else(|| (!stays()).then(|| "another image or journal than before".to_string()));
            text.map(|text| format!("outside copy {name} of {:?} into {length} bytes: {text}", book.numbers()))
        })
    };
    lengths.iter().find_map(|&length| difference(length))
}

/// Around what the copy needs, and nothing lent at all.
fn lengths(written: usize) -> [usize; 6] {
    [0, 1, written - 1, written, written + 1, written + 50]
}

/// The Rust's copy, with the values counted that go.
fn counted_copy(routine: Routine, tally: &mut Tally) -> Vec<u8> {
    with_values(routine, |value| {
        tally.values += usize::from(value != 0);
        0
    })
}

/// The Rust has the routine that the book holds.
pub fn difference(book: &Book<Vec<u8>>, routine: Routine, tally: &mut Tally) -> Option<String> {
    let rust = counted_copy(routine, tally);
    difference_at(book, &rust, &lengths(rust.len()), tally)
}

/// The Rust reads what the book says is its written form, where the reference says that this is a routine.
fn read_by_rust(book: &Book<Vec<u8>>) -> Option<Vec<u8>> {
    let look = reference::charge(for_reference(book.numbers()), book.image(), book.journal(), [0; 6]);
    look.is_ok().then(|| copy(Routine::from_vec(book.written()).expect("document 01 accepts the same bytes")))
}

/// Copies of the book with other numbers: some are spoiled, and some ask for the same copy, whatever their rates, sums,
/// walks and journals are.
fn with_numbers(book: &Book<Vec<u8>>) -> Vec<Book<Vec<u8>>> {
    let own = book.numbers();
    let blocks = book.overview().expect("the book is not spoiled").blocks as usize;
    let (image, journal) = (book.image().len() as u64, book.journal().len() as u64);
    let mut all = vec![
        Numbers::default(),
        Numbers { rates: Rates([u32::MAX; 6]), sum: 0, ..own },
        Numbers { rates: Rates([0; 6]), sum: u64::MAX, ..own },
    ];
    let writtens = [0, own.written - 1, own.written + 1, image, image + 1, own.written + (1 << 32), u64::MAX];
    all.extend(writtens.map(|written| Numbers { written, ..own }));
    all.extend([0, 1, journal, journal + 1, u64::MAX].map(|used| Numbers { used, ..own }));
    all.extend(walks::edges(blocks).into_iter().map(|walk| Numbers { walk, ..own }));
    all.into_iter().map(|numbers| with(book, numbers)).collect()
}

/// Copies of the book with other bytes: a journal of others; an image that ends one byte before its written form does, and
/// one that ends with it; one with a byte that is not 0 behind it; another pad; and some in which a bit is another, which
/// may be another routine.
fn with_bytes(book: &Book<Vec<u8>>) -> Vec<Book<Vec<u8>>> {
    let mut rng = rng_for(book.image());
    let (numbers, written) = (book.numbers(), book.written().len());
    let with_image = |image: Vec<u8>| Book::resume(numbers, image, book.journal().to_vec());
    let changed = |at: usize, by: u8| {
        let mut image = book.image().to_vec();
        image.resize(image.len().max(at + 1), 0);
        image[at] ^= by;
        with_image(image)
    };
    let other_journal = book.journal().iter().map(|byte| !byte).collect();
    let mut books = vec![
        Book::resume(numbers, book.image().to_vec(), other_journal),
        with_image(book.image()[..written - 1].to_vec()),
        with_image(book.image()[..written].to_vec()),
        changed(written, 1),
        changed(written + 70, 0x80),
        changed(5, 1),
    ];
    books.extend((0..4).map(|_| changed(rng.below(written), 1 << rng.below(8))));
    books
}

/// Books made by hand from this one.
pub fn by_hand_difference(book: &Book<Vec<u8>>, tally: &mut Tally) -> Option<String> {
    let lengths = lengths(book.written().len());
    let mut books = with_numbers(book).into_iter().chain(with_bytes(book));
    books.find_map(|book| {
        let rust = read_by_rust(&book).unwrap_or_default();
        difference_at(&book, &rust, &lengths, tally)
    })
}

/// The book of a file that both accept, which consumes this many bytes; one of the same routine with other values of its
/// immediates, opened otherwise; and books made by hand.
pub fn file_difference(file: &[u8], consumed: usize, tally: &mut Tally) -> Option<String> {
    let read = || Routine::from_vec(file).expect("the Rust accepted the same bytes");
    let opened = |file: &[u8], more: usize, journal: usize, rates| {
        let book = Book::open(file, vec![0; consumed + more], vec![0; journal], Rates(rates));
        book.expect("the library opened the same bytes")
    };
    let book = opened(file, 3, 20, [1; 6]);
    let mut rng = rng_for(file);
    let other_values = with_values(read(), |_| rng.edgy());
    let mut twin = opened(&other_values, 0, 0, [u32::MAX; 6]);
    twin.walk_start().expect("no walk is open after an opening");
    // As the file has it: in written form, or with an odd pad and odd flags.
    let unwritten = Book::resume(book.numbers(), file[..consumed].to_vec(), vec![0; 20]);
    let rust = copy(read());
    let lengths = lengths(consumed);
    difference(&book, read(), tally)
        .or_else(|| difference_at(&twin, &rust, &lengths, tally))
        .or_else(|| difference_at(&unwritten, &rust, &lengths, tally))
        .or_else(|| if consumed <= MOST_BY_HAND { by_hand_difference(&book, tally) } else { None })
}

/// As many instructions as an image has room for.
fn longest() -> Vec<u8> {
    const INSTRUCTIONS: usize = 40;
    let (mut draft, mut rng) = (Draft::default(), Rng::new(1));
    (0..INSTRUCTIONS).for_each(|_| draft.instruction(&mut rng));
    filled_block(&draft.bytes, INSTRUCTIONS, MOST_LENT)
}

/// The three limits on what is lent, of books that are spoiled and of such as are not; and the longest copies.
pub fn limits(report: &mut Report) {
    const OVER: usize = MOST_LENT + 1;
    let mut tally = Tally::default();
    let mut try_at = |file: &[u8], image: usize, journal: usize, seconds: &[usize]| {
        let routine = Routine::from_vec(file).expect("the Rust accepts what every rule accepts");
        let rust = counted_copy(routine, &mut tally);
        let opened = Book::open(file, vec![0; image.min(MOST_LENT)], vec![], Rates::default());
        let opened = opened.expect("the image has room");
        let mut bytes = opened.image().to_vec();
        bytes.resize(image, 0);
        let book = Book::resume(opened.numbers(), bytes, vec![0; journal]);
        let spoiled = with(&book, Numbers { written: book.numbers().written - 1, ..book.numbers() });
        for book in [book, spoiled] {
            if let Some(text) = difference_at(&book, &rust, seconds, &mut tally) {
                report.difference(|| format!("image {image}, journal {journal}: {text}"));
            }
        }
    };
    let small = Draft::routine_of(&mut Rng::new(1), MIDDLING, 5).bytes;
    let size = small.len();
    for (image, journal) in [(size, 0), (MOST_LENT, 0), (size, MOST_LENT), (OVER, 0), (size, OVER), (OVER, OVER)] {
        try_at(&small, image, journal, &[0, size - 1, size, MOST_LENT, OVER]);
    }
    let long = longest();
    try_at(&long, MOST_LENT, 0, &[0, size, long.len() - 1, long.len(), MOST_LENT, OVER]);
    println!("at the limit of what is lent: {tally}");
}
