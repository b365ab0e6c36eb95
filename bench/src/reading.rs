//! Reading a file: the check beside from_vec, opening beside from_vec with into_bytes, and the charge beside a sum over
//! what from_vec made. Every opening is at rates, and so works out the routine's sum.

use crate::clock::{best_of_both, heading, print, time};
use crate::inputs::{in_order, instructions, sound_instructions, RATES};
use oracle::blocks::{Order, ORDERS};
use oracle::charge::charge;
use std::time::Duration;
use vtil::{Book, Numbers, Rates};
use vtil_parser::Routine;

fn rust_reads(file: &[u8]) -> Duration {
    time(|| Routine::from_vec(file).expect("the measured files are accepted"))
}

fn library_checks(file: &[u8]) -> Duration {
    let mut answer = Ok(0);
    let took = time(|| answer = vtil::check(file));
    assert_eq!(answer, Ok(file.len()), "the measured files are accepted whole");
    took
}

pub struct Input {
    pub name: &'static str,
    pub blocks: usize,
    pub file: Vec<u8>,
}

/// Some 8 MB.
pub fn routine_of_instructions() -> Input {
    Input { name: "100,000 instructions, 4,000 blocks", blocks: 4_000, file: instructions() }
}

/// The inputs that have no more blocks than this.
fn inputs(most_blocks: usize) -> Vec<Input> {
    let mut inputs = vec![
        routine_of_instructions(),
        Input { name: "the same, all registers sound", blocks: 4_000, file: sound_instructions() },
        Input { name: "100,000 empty blocks, rising", blocks: 100_000, file: in_order(100_000, Order::Rising) },
        Input { name: "100,000 empty blocks, shuffled", blocks: 100_000, file: in_order(100_000, Order::Shuffled) },
    ];
    inputs.retain(|input| input.blocks <= most_blocks);
    inputs
}

pub fn checks(most_blocks: usize) {
    heading("check", "Rust from_vec", "library check");
    for Input { name, file, .. } in inputs(most_blocks) {
        print(name, file.len(), best_of_both(|| rust_reads(&file), || library_checks(&file)));
    }
}

pub fn repeated_vips(most_blocks: usize) {
    heading("repeated vips, empty blocks", "Rust from_vec", "library check");
    for count in [1_000, 10_000, 100_000, 466_000].into_iter().filter(|&count| count <= most_blocks) {
        for (order, name) in ORDERS {
            let file = in_order(count, order);
            let name = format!("{count} {name}");
            print(&name, file.len(), best_of_both(|| rust_reads(&file), || library_checks(&file)));
        }
    }
}

fn rust_reads_and_writes(file: &[u8]) -> Duration {
    time(|| Routine::from_vec(file).expect("the measured files are accepted").into_bytes())
}

/// The image and the journal are lent, so nothing is allocated inside the clock.
pub fn library_opens(file: &[u8], book: &mut Book<&mut [u8]>) -> Duration {
    let mut answer = Ok(());
    let took = time(|| answer = book.reopen(file, Rates(RATES)));
    assert_eq!(answer, Ok(()), "the measured files can be opened");
    took
}

/// The first input as the Rust writes it: the pad 0, and every flag 0 or 1.
fn in_written_form() -> Input {
    let routine = Routine::from_vec(&instructions()).expect("the measured files are accepted");
    let file = routine.into_bytes().expect("what was read is written");
    Input { name: "100,000 instructions, in written form", blocks: 4_000, file }
}

/// What opening is measured on.
pub fn opened_inputs(most_blocks: usize) -> impl Iterator<Item = Input> {
    let written = Some(in_written_form()).filter(|input| input.blocks <= most_blocks);
    inputs(most_blocks).into_iter().chain(written)
}

pub fn opens(most_blocks: usize) {
    heading("open, the sum worked out", "from_vec, into_bytes", "library open");
    for Input { name, file, .. } in opened_inputs(most_blocks) {
        let (mut image, mut journal) = (vec![1; file.len()], vec![1; 4096]);
        let mut book = Book::resume(Numbers::default(), &mut image[..], &mut journal[..]);
        let times = best_of_both(|| rust_reads_and_writes(&file), || library_opens(&file, &mut book));
        print(name, file.len(), times);
    }
}

pub fn library_looks<M: AsRef<[u8]>>(book: &Book<M>) -> Duration {
    let mut is_accepted = false;
    let took = time(|| is_accepted = book.overview().is_ok());
    assert!(is_accepted, "an opened book can be looked at");
    took
}

/// What every call on a book waits for: the whole image is validated.
pub fn looks(most_blocks: usize) {
    heading("validating an image", "library look", "memcpy of it");
    for Input { name, file, .. } in inputs(most_blocks) {
        let (mut image, mut journal) = (vec![1; file.len()], vec![1; 4096]);
        let book = Book::open(&file, &mut image[..], &mut journal[..], Rates(RATES))
            .expect("the measured files can be opened");
        let mut copy = vec![1; file.len()];
        let memcpy = || time(|| std::hint::black_box(&mut copy).copy_from_slice(&file));
        print(name, file.len(), best_of_both(|| library_looks(&book), memcpy));
    }
}

/// How long a side took, and the cents that it came to.
type Charged = (Duration, u64);

fn rust_reads_and_charges(file: &[u8]) -> Charged {
    let mut cents = 0;
    let took = time(|| {
        let routine = Routine::from_vec(file).expect("the measured files are accepted");
        cents = charge(&routine, RATES);
        routine
    });
    (took, cents)
}

fn library_charges(book: &Book<&mut [u8]>) -> Charged {
    let mut answer = Ok(0);
    let took = time(|| answer = book.charge(Rates(RATES)));
    (took, answer.expect("an opened book has a charge"))
}

/// The sum stands in the book that the opening answers.
fn library_opens_and_charges(file: &[u8], book: &mut Book<&mut [u8]>) -> Charged {
    let took = library_opens(file, book);
    (took, book.cents())
}

/// The time of a side that has to come to the cents that are due.
fn coming_to(due: u64, (took, cents): Charged) -> Duration {
    assert_eq!(cents, due, "all sides come to the same charge");
    took
}

/// A look reads the image once; the charge reads it once more.
pub fn charges(most_blocks: usize) {
    heading("charging a book", "library look", "library charge");
    for Input { name, file, .. } in inputs(most_blocks) {
        let (mut image, mut journal) = (vec![1; file.len()], vec![1; 4096]);
        let book = Book::open(&file, &mut image[..], &mut journal[..], Rates(RATES))
            .expect("the measured files can be opened");
        let (_, due) = rust_reads_and_charges(&file);
        let charged = || coming_to(due, library_charges(&book));
        print(name, file.len(), best_of_both(|| library_looks(&book), charged));
    }
}

/// The charge from a file's bytes.
pub fn charges_of_files(most_blocks: usize) {
    heading("charging a file", "from_vec, summed up", "library open");
    for Input { name, file, .. } in inputs(most_blocks) {
        let (mut image, mut journal) = (vec![1; file.len()], vec![1; 4096]);
        let mut book = Book::resume(Numbers::default(), &mut image[..], &mut journal[..]);
        let (_, due) = rust_reads_and_charges(&file);
        let rust = || coming_to(due, rust_reads_and_charges(&file));
        let library = || coming_to(due, library_opens_and_charges(&file, &mut book));
        print(name, file.len(), best_of_both(rust, library));
    }
}
