//! Edits of an opened book. The Rust's way from bytes to bytes is from_vec, the edit and into_bytes; it has no undo. And
//! the charge after an edit: read off the book, beside worked out afresh.

use crate::clock::{best_of_both, heading, print, print_one_side, time};
use crate::inputs::{appended, one_block, vip_of, with_size, RATES};
use std::time::Duration;
use vtil::{BlockRef, Book, Rates, Refusal};
use vtil_parser::{Routine, Vip};

/// A vip that no block has.
const NEW: u64 = 1;
const SIZES: [(&str, usize); 3] = [("10 kB", 10_000), ("1 MB", 1_000_000), ("16 MB", 16_000_000)];
const IMAGE_ROOM: usize = 1_000;
const JOURNAL: usize = 65_536;

/// A routine, and a book of it in memory that is lent once for all runs.
struct Bench<'a> {
    file: &'a [u8],
    book: Book<&'a mut [u8]>,
}

/// An edit by the library.
type Edited = Result<(), Refusal>;

/// Does an edit and takes it back; answers how long each took.
fn there_and_back(bench: &mut Bench, edit: impl Fn(&mut Book<&mut [u8]>) -> Edited) -> (Duration, Duration) {
    let before = bench.book.numbers();
    let (mut edited, mut undone) = (Ok(()), Ok(()));
    let there = time(|| edited = edit(&mut bench.book));
    assert_eq!(edited, Ok(()), "the measured edits are accepted");
    let back = time(|| undone = bench.book.undo());
    assert_eq!((undone, bench.book.numbers()), (Ok(()), before), "every edit can be taken back");
    (there, back)
}

fn rust_edits(file: &[u8], edit: impl Fn(&mut Routine)) -> Duration {
    time(|| {
        let mut routine = Routine::from_vec(file).expect("the measured files are accepted");
        edit(&mut routine);
        routine.into_bytes()
    })
}

/// The edit of a routine that was read before and is not written after: no bytes come in or go out.
fn rust_edits_in_memory(file: &[u8], edit: impl Fn(&mut Routine)) -> Duration {
    let mut routine = Routine::from_vec(file).expect("the measured files are accepted");
    time(|| edit(&mut routine))
}

fn measure(
    bench: &mut Bench,
    name: &str,
    rust: impl Fn(&mut Routine),
    library: impl Fn(&mut Book<&mut [u8]>) -> Edited,
) {
    let file = bench.file;
    let (mut best_back, mut best_in_memory) = (Duration::MAX, Duration::MAX);
    let edit = || {
        let (there, back) = there_and_back(bench, &library);
        best_back = best_back.min(back);
        there
    };
    let rust_side = || {
        best_in_memory = best_in_memory.min(rust_edits_in_memory(file, &rust));
        rust_edits(file, &rust)
    };
    print(name, file.len(), best_of_both(rust_side, edit));
    print_one_side(&format!("{name}, in memory only"), Some(best_in_memory), None);
    print_one_side(&format!("{name}, taken back"), None, Some(best_back));
}

/// The first block from the middle on that is open. A closed one, whose last instruction is js, jmp, vexit or vxcall,
/// takes no append: the time would be that of a refusal.
fn open_block(file: &[u8]) -> u64 {
    let blocks = vtil::read(file).expect("the measured files are accepted").explored_blocks();
    let middle = blocks.len() / 2;
    let is_closed = |block: &BlockRef| block.instructions().last().is_some_and(|last| (37..=40).contains(&last.op()));
    blocks.skip(middle).find(|block| !is_closed(block)).expect("some block is open").vip().0
}

fn append(bench: &mut Bench, name: &str) {
    let vip = open_block(bench.file);
    let bytes = appended();
    let append_rust = |routine: &mut Routine| {
        let block = routine.explored_blocks.get_mut(&Vip(vip)).expect("the block is there");
        let instruction = scroll::Pread::pread_with(&bytes[..], 0, scroll::LE).expect("an instruction");
        block.instructions.push(instruction);
    };
    measure(bench, &format!("{name}, append"), append_rust, |book| book.append(vtil::Vip(vip), &bytes));
}

fn create_and_remove(bench: &mut Bench, name: &str) {
    let create_rust = |routine: &mut Routine| {
        routine.create_block(Vip(NEW));
    };
    measure(bench, &format!("{name}, create"), create_rust, |book| book.create_block(vtil::Vip(NEW)));

    let blocks = vtil::read(bench.file).expect("the measured files are accepted").explored_blocks().len();
    let middle = vip_of(blocks / 2);
    let remove_rust = |routine: &mut Routine| {
        routine.remove_block(Vip(middle));
    };
    measure(bench, &format!("{name}, remove"), remove_rust, |book| book.remove_block(vtil::Vip(middle)));
}

fn with_book(file: &[u8], measures: impl FnOnce(&mut Bench)) {
    let (mut image, mut journal) = (vec![1; file.len() + IMAGE_ROOM], vec![1; JOURNAL]);
    let book = Book::open(file, &mut image[..], &mut journal[..], Rates(RATES));
    measures(&mut Bench { file, book: book.expect("the measured files can be opened") });
}

pub fn edits() {
    heading("edits", "from_vec, edit, into_bytes", "library call");
    for (name, size) in SIZES {
        with_book(&with_size(size), |bench| {
            create_and_remove(bench, name);
            append(bench, name);
        });
    }
    // The way to the end of a block's instructions passes all of them.
    with_book(&one_block(), |bench| append(bench, "8 MB in one block"));
}

/// A way to the cents of a book's charge.
type Charge = fn(&Book<&mut [u8]>) -> u64;

fn afresh(book: &Book<&mut [u8]>) -> u64 {
    book.charge(Rates(RATES)).expect("an opened book has a charge")
}

fn read_off(book: &Book<&mut [u8]>) -> u64 {
    book.cents()
}

/// How long an append with the charge after it took, and the cents. The append is taken back.
fn append_and_charge(bench: &mut Bench, vip: u64, bytes: &[u8], charge: Charge) -> (Duration, u64) {
    let mut cents = Ok(0);
    let took = time(|| cents = bench.book.append(vtil::Vip(vip), bytes).map(|()| charge(&bench.book)));
    assert_eq!(bench.book.undo(), Ok(()), "every edit can be taken back");
    (took, cents.expect("the measured edits are accepted"))
}

/// The sides are measured in turn, so each has a book.
fn measure_charge(name: &str, left: &mut Bench, right: &mut Bench) {
    let (vip, bytes) = (open_block(left.file), appended());
    let (_, due) = append_and_charge(left, vip, &bytes, afresh);
    let timed = |bench: &mut Bench, charge| {
        let (took, cents) = append_and_charge(bench, vip, &bytes, charge);
        assert_eq!(cents, due, "both sides come to the same charge");
        took
    };
    print(name, left.file.len(), best_of_both(|| timed(left, afresh), || timed(right, read_off)));
}

/// What a screen shows after every keystroke: the charge by the sum that the book keeps, beside a walk over the routine.
pub fn charges_after_edits() {
    heading("the charge after an edit", "append, charge afresh", "append, sum read off");
    for (name, size) in SIZES {
        let file = with_size(size);
        with_book(&file, |left| with_book(&file, |right| measure_charge(&format!("{name}, append"), left, right)));
    }
}
