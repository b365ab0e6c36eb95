//! The sum that a book keeps: worked out at the opening, true after every call, and refused where it was made by hand
//! and cannot be.

use std::ops::RangeInclusive;
use vtil::{
    operation, Book, Call, Immediate, Instruction, Numbers, Operand, Rates, Refusal, Routine, Vip, MOST_LENT,
    OPERATIONS,
};

/// The operations of each group, by number.
const GROUPS: [RangeInclusive<usize>; 6] = [0..=3, 4..=14, 15..=25, 26..=36, 37..=40, 41..=48];

/// Six different ones: no sum of a few of them is a sum of a few others.
const RATES: Rates = Rates([1, 20, 300, 4_000, 50_000, 600_000]);

const FREE: Rates = Rates([0; 6]);
const LARGEST: Rates = Rates([u32::MAX; 6]);
const MIXED: Rates = Rates([0, u32::MAX, 0, 7, u32::MAX - 1, 99]);

const MINIMAL: usize = 114;

fn sample(name: &str) -> Vec<u8> {
    let path = format!("{}/../../samples/{name}.vtil", env!("CARGO_MANIFEST_DIR"));
    std::fs::read(&path).unwrap_or_else(|error| panic!("{path}: {error}"))
}

/// Its operands are immediates.
fn instruction(op: usize) -> Vec<u8> {
    let operands = vec![Operand::Immediate(Immediate::default()); OPERATIONS[op].1];
    Instruction { op: op as u32, operands, ..Default::default() }.to_bytes().unwrap()
}

fn named(name: &str) -> Vec<u8> {
    instruction(operation(name).unwrap() as usize)
}

type Owned = Book<Vec<u8>>;

fn opened(name: &str, rates: Rates) -> Owned {
    let file = sample(name);
    Book::open(&file, vec![0xa5; file.len() + 500], vec![0x5a; 2000], rates).unwrap()
}

/// The sum at some rates, by how many instructions of each group there are. The charge alone would be rounded up.
fn afresh(book: &Owned, rates: Rates) -> u64 {
    let of_group = |group| {
        let mut alone = [0; 6];
        alone[group] = 100;
        book.charge(Rates(alone)).unwrap() * u64::from(rates.0[group])
    };
    (0..6).map(of_group).sum()
}

/// The book keeps these rates and the true sum at them.
fn hold(book: &Owned, rates: Rates, after: &str) {
    let sum = afresh(book, rates);
    assert_eq!((book.rates(), book.sum()), (rates, sum), "{after}");
    assert_eq!((book.numbers().rates, book.numbers().sum), (rates, sum), "{after}");
    assert_eq!(Ok(book.cents()), book.charge(rates), "{after}");
}

/// A copy of the book whose sum is another.
fn with_sum(book: &Owned, sum: u64) -> Owned {
    Book::resume(Numbers { sum, ..book.numbers() }, book.image().to_vec(), book.journal().to_vec())
}

/// At this sum the call is refused, and the book stays as it was.
fn refused(book: &Owned, sum: u64, call: Call, due: Refusal) {
    let mut copy = with_sum(book, sum);
    assert_eq!(copy.run_on(&[call]), Err(due), "{call:?} at {sum}");
    assert_eq!(copy.numbers(), Numbers { sum, ..book.numbers() }, "{call:?}");
    assert_eq!((copy.image(), copy.journal()), (book.image(), book.journal()), "{call:?}");
}

/// At this sum the call is done, and leaves the sum that is due; all else is as the call leaves it at the book's own
/// sum.
fn done(book: &Owned, sum: u64, call: Call, due: u64) {
    let (mut copy, mut own) = (with_sum(book, sum), book.clone());
    assert_eq!((copy.run_on(&[call]), own.run_on(&[call])), (Ok(None), Ok(None)), "{call:?} at {sum}");
    assert_eq!(copy.numbers(), Numbers { sum: due, ..own.numbers() }, "{call:?} at {sum}");
    assert_eq!((copy.image(), copy.journal()), (own.image(), own.journal()), "{call:?}");
}

/// What the call subtracts can be subtracted from that and more, and from nothing less.
fn subtracts(book: &Owned, call: Call, cost: u64) {
    for (sum, due) in [(cost, 0), (cost + 1, 1), (u64::MAX, u64::MAX - cost)] {
        done(book, sum, call, due);
    }
    for sum in [0, cost - 1] {
        refused(book, sum, call, Refusal::SpoiledBook);
    }
}

/// What the call adds can be added up to 2^64 - 1, and no further.
fn adds(book: &Owned, call: Call, cost: u64) {
    for (sum, due) in [(0, cost), (1, cost + 1), (u64::MAX - cost, u64::MAX)] {
        done(book, sum, call, due);
    }
    for sum in [u64::MAX, u64::MAX - cost + 1] {
        refused(book, sum, call, Refusal::SpoiledBook);
    }
}

/// Any sum will do, and stays.
fn leaves(book: &Owned, call: Call) {
    for sum in [0, 1, u64::MAX - 1, u64::MAX] {
        done(book, sum, call, sum);
    }
}

#[test]
fn opening_works_the_sum_out() {
    for name in ["minimal", "odd-flags", "blocks", "all-operations", "trailing"] {
        for rates in [FREE, RATES, LARGEST, MIXED] {
            hold(&opened(name, rates), rates, name);
        }
    }
    // A mov and a str, an add, a tg, four branches and a nop.
    assert_eq!(opened("blocks", RATES).sum(), 2 + 20 + 4_000 + 4 * 50_000 + 600_000);
    assert_eq!((opened("blocks", FREE).sum(), opened("minimal", LARGEST).sum()), (0, 0));
}

#[test]
fn each_operation_costs_the_rate_of_its_group() {
    for (group, operations) in GROUPS.into_iter().enumerate() {
        for op in operations {
            let mut book = opened("minimal", RATES);
            book.create_block(Vip(1)).unwrap();
            book.append(Vip(1), &instruction(op)).unwrap();
            assert_eq!(book.sum(), RATES.0[group].into(), "{}", OPERATIONS[op].0);
            book.undo().unwrap();
            assert_eq!(book.sum(), 0, "{}", OPERATIONS[op].0);
        }
    }
}

/// Calls of each kind on the sample "blocks", accepted and refused, and all of them taken back.
fn some_calls<'a>(nop: &'a [u8], jmp: &'a [u8], mov: &'a [u8]) -> Vec<Call<'a>> {
    let mut calls = vec![
        Call::Create(Vip(7)),
        Call::Append(Vip(7), nop),
        Call::Append(Vip(7), mov),
        Call::Append(Vip(7), &mov[1..]),
        Call::Remove(Vip(0x1000)),
        Call::Append(Vip(7), jmp),
        Call::Append(Vip(7), nop),
        Call::Undo,
        Call::Append(Vip(7), nop),
        Call::Undo,
        Call::Create(Vip(7)),
        Call::Remove(Vip(7)),
        Call::Remove(Vip(7)),
        Call::Create(Vip(0x1000)),
        Call::Append(Vip(0x1000), jmp),
        Call::Remove(Vip(0x1000)),
        Call::Remove(Vip(0x1010)),
        Call::Remove(Vip(0x1020)),
    ];
    calls.extend([Call::Undo; 12]);
    calls
}

#[test]
fn the_sum_is_true_after_every_call() {
    let (nop, jmp, mov) = (named("nop"), named("jmp"), named("mov"));
    let calls = some_calls(&nop, &jmp, &mov);
    let file = sample("blocks");
    for rates in [FREE, RATES, LARGEST, MIXED] {
        let mut book = opened("blocks", rates);
        let (at_first, mut sums) = (book.sum(), vec![]);
        for (place, call) in calls.iter().enumerate() {
            let last = book.run_on(&[*call]);
            hold(&book, rates, &format!("call {place}, {call:?}"));
            sums.push(book.sum());
            // The list up to here, in one call.
            let mut whole = Book::resume(Numbers::default(), vec![0; book.image().len()], vec![0; 2000]);
            assert_eq!(whole.run(&file, &calls[..=place], rates), Ok(last), "up to call {place}");
            assert_eq!(whole.numbers(), book.numbers(), "up to call {place}");
        }
        assert_eq!((book.run_on(&[Call::Undo]), book.sum()), (Err(Refusal::NothingToTakeBack), at_first));
        assert_eq!((book.written(), book.numbers().used), (&file[..], 0));
        if rates == RATES {
            assert!(sums.contains(&0) && sums.iter().any(|sum| *sum > at_first), "{sums:?}");
        }
    }
}

/// By the calls of their own names, which a list makes too.
#[test]
fn single_calls_keep_the_sum() {
    let mut book = opened("blocks", RATES);
    let at_first = book.sum();
    book.create_block(Vip(7)).unwrap();
    assert_eq!(book.sum(), at_first);
    book.append(Vip(7), &named("nop")).unwrap();
    assert_eq!(book.sum(), at_first + 600_000);
    book.remove_block(Vip(0x1010)).unwrap();
    assert_eq!(book.sum(), at_first + 600_000 - (20 + 50_000 + 600_000));
    for due in [at_first + 600_000, at_first, at_first] {
        book.undo().unwrap();
        hold(&book, RATES, "undo");
        assert_eq!(book.sum(), due);
    }
}

/// No rates and no sum are left of an opening that was refused, nor of the book before it.
#[test]
fn a_refused_opening_answers_zeros() {
    let calls = [Call::Undo];
    for name in ["wrong-mark", "repeated-block"] {
        let mut book = opened("blocks", RATES);
        assert!(book.reopen(&sample(name), LARGEST).is_err());
        assert_eq!(
            (book.numbers(), book.rates(), book.sum(), book.cents()),
            (Numbers::default(), FREE, 0, 0),
            "{name}"
        );
        let mut book = opened("blocks", RATES);
        assert!(book.run(&sample(name), &calls, LARGEST).is_err());
        assert_eq!(book.numbers(), Numbers::default(), "{name}");
    }
    let before = Numbers { written: 1, used: 1, rates: RATES, sum: u64::MAX, walk: 1 };
    for (image, journal, due) in [(1133, 0, Refusal::ImageFull), (1134, MOST_LENT + 1, Refusal::LendingTooLarge)] {
        let mut book = Book::resume(before, vec![0; image], vec![0; journal]);
        assert_eq!((book.reopen(&sample("blocks"), LARGEST), book.numbers()), (Err(due), Numbers::default()));
        let mut book = Book::resume(before, vec![0; image], vec![0; journal]);
        assert_eq!((book.run(&sample("blocks"), &calls, LARGEST), book.numbers()), (Err(due), Numbers::default()));
    }
}

#[test]
fn the_same_routine_at_other_rates() {
    let mut book = opened("blocks", RATES);
    book.reopen(&sample("blocks"), MIXED).unwrap();
    hold(&book, MIXED, "reopened");
    assert_eq!(book.run(&sample("blocks"), &[], RATES), Ok(Ok(None)));
    hold(&book, RATES, "opened by a list without calls");
}

#[test]
fn a_sum_made_by_hand_is_counted_on_from() {
    let (nop, jmp) = (named("nop"), named("jmp"));
    let mut book = opened("blocks", RATES);
    // An add, a nop and a branch.
    subtracts(&book, Call::Remove(Vip(0x1010)), 650_020);
    leaves(&book, Call::Create(Vip(7)));
    book.create_block(Vip(7)).unwrap();
    leaves(&book, Call::Undo);
    leaves(&book, Call::Remove(Vip(7)));
    adds(&book, Call::Append(Vip(7), &nop), 600_000);
    adds(&book, Call::Append(Vip(7), &jmp), 50_000);
    book.append(Vip(7), &jmp).unwrap();
    subtracts(&book, Call::Undo, 50_000);
    book.remove_block(Vip(0x1010)).unwrap();
    adds(&book, Call::Undo, 650_020);
    // A block without instructions comes back at any sum.
    book.create_block(Vip(8)).unwrap();
    book.remove_block(Vip(8)).unwrap();
    leaves(&book, Call::Undo);
}

/// At rates of 0 nothing is added or subtracted; at the largest what comes or goes is still exact.
#[test]
fn sums_made_by_hand_at_rates_of_0_and_of_the_largest() {
    let nop = named("nop");
    let mut free = opened("blocks", FREE);
    free.create_block(Vip(7)).unwrap();
    leaves(&free, Call::Remove(Vip(0x1010)));
    leaves(&free, Call::Append(Vip(7), &nop));
    free.append(Vip(7), &nop).unwrap();
    leaves(&free, Call::Undo);
    free.remove_block(Vip(0x1010)).unwrap();
    leaves(&free, Call::Undo);

    let rate = u64::from(u32::MAX);
    let mut dear = opened("blocks", LARGEST);
    dear.create_block(Vip(7)).unwrap();
    subtracts(&dear, Call::Remove(Vip(0x1010)), 3 * rate);
    adds(&dear, Call::Append(Vip(7), &nop), rate);
    dear.append(Vip(7), &nop).unwrap();
    subtracts(&dear, Call::Undo, rate);
    dear.remove_block(Vip(0x1010)).unwrap();
    adds(&dear, Call::Undo, 3 * rate);
}

/// Whatever else is wrong is said first.
#[test]
fn the_sum_is_tested_last() {
    let (nop, jmp) = (named("nop"), named("jmp"));
    let longer = [&nop[..], &[0]].concat();
    let file = sample("blocks");
    let full = |image, journal| {
        let mut book = Book::open(&file, vec![0; file.len() + 36 + image], vec![0; 20 + journal], RATES).unwrap();
        book.create_block(Vip(7)).unwrap();
        book
    };
    // Removed is a block of 3 instructions, whose size is what the image has less after it.
    let size = {
        let mut book = opened("blocks", RATES);
        book.remove_block(Vip(0x1010)).unwrap();
        file.len() - book.written().len()
    };
    refused(&full(0, 20 + size - 1), 0, Call::Remove(Vip(0x1010)), Refusal::JournalFull);
    refused(&full(0, 20 + size), 0, Call::Remove(Vip(0x1010)), Refusal::SpoiledBook);
    refused(&full(0, 0), 0, Call::Remove(Vip(9)), Refusal::NoSuchBlock);

    let append =
        |bytes, image, journal, due| refused(&full(image, journal), u64::MAX, Call::Append(Vip(7), bytes), due);
    append(&nop, 32, 20, Refusal::SpoiledBook);
    append(&nop, 32, 19, Refusal::JournalFull);
    append(&nop, 31, 19, Refusal::ImageFull);
    append(&longer, 32, 20, Refusal::Leftover);
    append(&nop[..31], 32, 20, Refusal::ShortFile);
    refused(&full(32, 20), u64::MAX, Call::Append(Vip(9), &nop), Refusal::NoSuchBlock);
    refused(&full(32, 20), u64::MAX, Call::Append(Vip(0x1010), &jmp), Refusal::ClosedBlock);
    refused(&opened("blocks", RATES), 0, Call::Undo, Refusal::NothingToTakeBack);

    // A book that is spoiled anyhow is refused before its call is looked at.
    let spoiled = Book::resume(Numbers { written: 1, ..opened("blocks", RATES).numbers() }, file, vec![]);
    for sum in [0, u64::MAX] {
        refused(&spoiled, sum, Call::Append(Vip(9), &[]), Refusal::SpoiledBook);
    }
}

/// The first test for 13 leaves sum and rates alone, and the charge is at the rates that are handed to it.
#[test]
fn looking_takes_any_sum_and_any_rates() {
    let book = opened("blocks", RATES);
    for (rates, sum) in [(FREE, 0), (FREE, u64::MAX), (LARGEST, 0), (LARGEST, u64::MAX), (MIXED, 1)] {
        let numbers = Numbers { rates, sum, ..book.numbers() };
        let other = Book::resume(numbers, book.image(), book.journal());
        assert_eq!(other.overview(), book.overview());
        assert_eq!((other.block(1), other.instruction(1, 0)), (book.block(1), book.instruction(1, 0)));
        assert_eq!(other.charge(RATES), book.charge(RATES));
        assert_eq!(other.charge(FREE), Ok(0));
        assert_eq!(other.numbers(), numbers);
    }
}

/// A book is billed on at the rates that are handed in with it.
#[test]
fn rates_made_by_hand() {
    let mut book = opened("blocks", RATES);
    book.create_block(Vip(7)).unwrap();
    let numbers = Numbers { rates: MIXED, ..book.numbers() };
    let mut other = Book::resume(numbers, book.image().to_vec(), book.journal().to_vec());
    other.append(Vip(7), &named("nop")).unwrap();
    assert_eq!((other.rates(), other.sum()), (MIXED, book.sum() + 99));
    // An add and a branch cost more than the sum has.
    let before = other.numbers();
    assert_eq!((other.remove_block(Vip(0x1010)), other.numbers()), (Err(Refusal::SpoiledBook), before));
}

/// In a list a call that the sum refuses changes nothing, and the next one follows.
#[test]
fn a_list_goes_on_after_a_sum_that_cannot_be() {
    let nop = named("nop");
    let calls =
        [Call::Create(Vip(7)), Call::Remove(Vip(0x1010)), Call::Append(Vip(7), &nop), Call::Remove(Vip(0x1010))];
    let mut book = with_sum(&opened("blocks", RATES), 600_000);
    for (call, due, sum) in [
        (calls[0], Ok(None), 600_000),
        (calls[1], Err(Refusal::SpoiledBook), 600_000),
        (calls[2], Ok(None), 1_200_000),
        (calls[3], Ok(None), 1_200_000 - 650_020),
    ] {
        assert_eq!((book.run_on(&[call]), book.sum()), (due, sum), "{call:?}");
    }
    let mut at_once = with_sum(&opened("blocks", RATES), 600_000);
    assert_eq!((at_once.run_on(&calls), at_once.numbers()), (Ok(None), book.numbers()));
    assert_eq!((at_once.image(), at_once.journal()), (book.image(), book.journal()));
}

#[test]
fn cents_are_rounded_up() {
    let largest_whole = u64::MAX - 15;
    for (sum, cents) in [
        (0, 0),
        (1, 1),
        (99, 1),
        (100, 1),
        (101, 2),
        (200, 2),
        (largest_whole, 184_467_440_737_095_516),
        (largest_whole + 1, 184_467_440_737_095_517),
        (u64::MAX - 98, 184_467_440_737_095_516),
        (u64::MAX, 184_467_440_737_095_517),
    ] {
        let numbers = Numbers { sum, ..Numbers::default() };
        assert_eq!((numbers.cents(), Book::resume(numbers, [0; 0], [0; 0]).cents()), (cents, cents), "{sum}");
    }
}

/// One block with as many instructions as an image has room for, at the highest rates: out, and back.
#[test]
fn the_largest_sum() {
    let nop = named("nop");
    let count = (MOST_LENT - MINIMAL - 36) / nop.len();
    let mut file = sample("minimal");
    file[110] = 1;
    file.extend([0; 24]);
    file.extend((count as u32).to_le_bytes());
    file.extend(nop.repeat(count));
    file.extend([0; 8]);
    let mut book = Book::open(&file, vec![0; MOST_LENT], vec![0; MOST_LENT], LARGEST).unwrap();
    let sum = count as u64 * u64::from(u32::MAX);
    assert_eq!((book.sum(), Ok(book.cents())), (sum, book.charge(LARGEST)));
    book.remove_block(Vip(0)).unwrap();
    assert_eq!(book.sum(), 0);
    book.undo().unwrap();
    assert_eq!((book.sum(), book.rates()), (sum, LARGEST));
}

#[test]
fn a_routine_keeps_its_sum() {
    let file = sample("blocks");
    let mut routine = Routine::open(&file, RATES).unwrap();
    let at_first = routine.sum();
    assert_eq!((at_first, routine.rates()), (804_022, RATES));
    routine.create_block(Vip(7)).unwrap();
    // Image and journal grow on the way.
    for count in 1..=500 {
        routine.append(Vip(7), &named("nop")).unwrap();
        assert_eq!(routine.sum(), at_first + count * 600_000);
    }
    assert_eq!(routine.append(Vip(9), &named("nop")), Err(Refusal::NoSuchBlock));
    assert_eq!((routine.cents(), routine.sum()), (routine.charge(RATES), at_first + 500 * 600_000));
    routine.remove_block(Vip(7)).unwrap();
    assert_eq!(routine.sum(), at_first);
    while routine.undo().is_ok() {}
    assert_eq!((routine.sum(), routine.rates(), routine.written()), (at_first, RATES, &file[..]));
}
