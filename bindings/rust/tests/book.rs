//! Books over lent memory: what each call leaves in it, and every refusal at exact lengths.

use vtil::{
    check, check_raw, operation, Book, Call, Immediate, Instruction, Numbers, Operand, Rates, Refusal, Register,
    Routine, Vip, MOST_LENT,
};

const MINIMAL: usize = 114;

fn sample(name: &str) -> Vec<u8> {
    let path = format!("{}/../../samples/{name}.vtil", env!("CARGO_MANIFEST_DIR"));
    std::fs::read(&path).unwrap_or_else(|error| panic!("{path}: {error}"))
}

fn nop() -> Instruction {
    Instruction { op: operation("nop").unwrap(), ..Default::default() }
}

/// A jmp of 48 bytes, which closes a block.
fn jmp() -> Instruction {
    let operands = vec![Operand::Immediate(Immediate::default())];
    Instruction { op: operation("jmp").unwrap(), operands, ..Default::default() }
}

/// The rates of every opening here.
const RATES: Rates = Rates([1, 20, 300, 4_000, 50_000, 600_000]);

/// Of a routine without instructions.
fn numbers(written: usize, used: usize) -> Numbers {
    Numbers { written: written as u64, used: used as u64, rates: RATES, sum: 0, walk: 0 }
}

/// Bytes that no call leaves by accident.
fn image_before(length: usize) -> Vec<u8> {
    vec![0xa5; length]
}

fn journal_before(length: usize) -> Vec<u8> {
    vec![0x5a; length]
}

#[test]
fn opening_fills_what_is_lent() {
    let file = sample("odd-flags");
    let (mut image, mut journal) = (image_before(file.len() + 50), journal_before(30));
    let book = Book::open(&file, &mut image[..], &mut journal[..], RATES).unwrap();
    assert_eq!(book.numbers(), Numbers { sum: 600_000, ..numbers(file.len(), 0) });
    assert_eq!(book.written(), Routine::open(&file, RATES).unwrap().written());
    assert_eq!(book.image()[..file.len()], *book.written());
    assert_eq!(book.image()[file.len()..], [0; 50]);
    assert_eq!(book.journal(), [0; 30]);
}

/// What a refused opening answers, which has to leave the memory alone.
fn refused_opening(file: &[u8], image_length: usize, journal_length: usize) -> Refusal {
    let (mut image, mut journal) = (image_before(image_length), journal_before(journal_length));
    let refusal = Book::open(file, &mut image[..], &mut journal[..], RATES).expect_err("it has to be refused");
    assert!(image == image_before(image_length) && journal == journal_before(journal_length));
    refusal
}

#[test]
fn opening_is_refused_at_exact_lengths() {
    let file = sample("minimal");
    for (image, journal, due) in [
        (MINIMAL - 1, 20, Refusal::ImageFull),
        (0, 0, Refusal::ImageFull),
        (MOST_LENT + 1, 20, Refusal::LendingTooLarge),
        (200, MOST_LENT + 1, Refusal::LendingTooLarge),
    ] {
        assert_eq!(refused_opening(&file, image, journal), due, "image {image}, journal {journal}");
    }
    assert_eq!(refused_opening(&[], 0, 0), Refusal::ShortFile);
    assert_eq!(refused_opening(&[], MOST_LENT + 1, 0), Refusal::LendingTooLarge);
    for (image, journal) in [(MINIMAL, 0), (MOST_LENT, MOST_LENT)] {
        assert!(Book::open(&file, image_before(image), journal_before(journal), RATES).is_ok());
    }
}

/// Nothing is open after a refused opening, whatever was before it.
#[test]
fn a_book_is_opened_again() {
    let mut book = Book::open(&sample("minimal"), image_before(1500), journal_before(20), RATES).unwrap();
    book.create_block(Vip(1)).unwrap();
    book.reopen(&sample("blocks"), RATES).unwrap();
    assert_eq!((book.numbers(), book.overview().unwrap().blocks), (Numbers { sum: 804_022, ..numbers(1134, 0) }, 3));
    assert_eq!(book.written(), sample("blocks"));

    assert_eq!(book.reopen(&sample("wrong-mark"), RATES), Err(Refusal::WrongMark));
    assert_eq!((book.numbers(), book.written()), (Numbers::default(), &[][..]));
    assert_eq!(book.image()[..1134], sample("blocks"));
    assert_eq!(book.overview(), Err(Refusal::SpoiledBook));
    assert_eq!(book.undo(), Err(Refusal::SpoiledBook));
}

/// 11 comes before 12, and both at one byte too few.
#[test]
fn edits_are_refused_at_exact_lengths() {
    let create = |image, journal| {
        let mut book = Book::open(&sample("minimal"), image_before(image), journal_before(journal), RATES).unwrap();
        book.create_block(Vip(1))
    };
    assert_eq!(create(MINIMAL + 36, 20), Ok(()));
    assert_eq!(create(MINIMAL + 35, 20), Err(Refusal::ImageFull));
    assert_eq!(create(MINIMAL + 35, 19), Err(Refusal::ImageFull));
    assert_eq!(create(MINIMAL + 36, 19), Err(Refusal::JournalFull));

    let append = |image, journal| {
        let mut book = Book::open(&sample("minimal"), image_before(image), journal_before(journal), RATES).unwrap();
        book.create_block(Vip(1)).unwrap();
        book.append(Vip(1), &nop().to_bytes().unwrap())
    };
    assert_eq!(append(MINIMAL + 36 + 32, 40), Ok(()));
    assert_eq!(append(MINIMAL + 36 + 31, 40), Err(Refusal::ImageFull));
    assert_eq!(append(MINIMAL + 36 + 32, 39), Err(Refusal::JournalFull));

    let remove = |journal| {
        let mut book =
            Book::open(&sample("minimal"), image_before(MINIMAL + 36), journal_before(journal), RATES).unwrap();
        book.create_block(Vip(1)).unwrap();
        book.remove_block(Vip(1))
    };
    assert_eq!(remove(20 + 20 + 36), Ok(()));
    assert_eq!(remove(20 + 20 + 35), Err(Refusal::JournalFull));
}

/// A closed block is refused before a full image and a full journal, and after all that is wrong with the call itself.
#[test]
fn a_closed_block_is_refused_in_its_order() {
    let (nop, jmp) = (nop().to_bytes().unwrap(), jmp().to_bytes().unwrap());
    let longer = [&nop[..], &[0]].concat();
    for (image, journal) in [(0, 0), (0, 20), (32, 0), (31, 19), (32, 20), (500, 500)] {
        let image = image_before(MINIMAL + 36 + jmp.len() + image);
        let mut book = Book::open(&sample("minimal"), image, journal_before(40 + journal), RATES).unwrap();
        book.create_block(Vip(1)).unwrap();
        book.append(Vip(1), &jmp).unwrap();
        let before = book.clone();
        assert_eq!(book.append(Vip(1), &nop[..31]), Err(Refusal::ShortFile));
        assert_eq!(book.append(Vip(1), b"\x03\0\0\0zzz\0\0\0\0"), Err(Refusal::UnknownOperation));
        assert_eq!(book.append(Vip(1), &longer), Err(Refusal::Leftover));
        assert_eq!(book.append(Vip(2), &nop), Err(Refusal::NoSuchBlock));
        assert_eq!(book.append(Vip(1), &nop), Err(Refusal::ClosedBlock));
        assert_eq!(book.numbers(), before.numbers());
        assert_eq!((book.image(), book.journal()), (before.image(), before.journal()));
        book.undo().unwrap();
        assert_eq!(book.append(Vip(1), &nop), Ok(()));
    }
}

/// A crooked register is refused before whatever is wrong after its offset, and after what is wrong before that.
#[test]
fn a_crooked_register_is_refused_in_its_order() {
    let crooked = Register { bit_count: 65, ..Default::default() };
    let operands = vec![Operand::Register(crooked), Operand::Immediate(Immediate::default())];
    let mov = Instruction { op: operation("mov").unwrap(), operands, ..Default::default() }.to_bytes().unwrap();
    let (kind, id, behind) = (11, 11 + 4 + 15, 11 + 28);
    let with = |at: usize, byte| {
        let mut bytes = mov.clone();
        bytes[at] = byte;
        bytes
    };
    for (image, journal) in [(0, 0), (0, 20), (500, 0), (500, 500)] {
        let image = image_before(MINIMAL + 2 * 36 + jmp().to_bytes().unwrap().len() + image);
        let mut book = Book::open(&sample("minimal"), image, journal_before(60 + journal), RATES).unwrap();
        book.create_block(Vip(1)).unwrap();
        book.create_block(Vip(2)).unwrap();
        book.append(Vip(2), &jmp().to_bytes().unwrap()).unwrap();
        let before = book.clone();
        for vip in [Vip(1), Vip(2), Vip(3)] {
            for end in 0..behind {
                assert_eq!(book.append(vip, &mov[..end]), Err(Refusal::ShortFile), "{end}");
            }
            assert_eq!(book.append(vip, &with(kind, 2)), Err(Refusal::UnknownOperandKind));
            assert_eq!(book.append(vip, &with(id, 3)), Err(Refusal::ForeignRegister));
            for end in behind..=mov.len() {
                assert_eq!(book.append(vip, &mov[..end]), Err(Refusal::CrookedRegister), "{end}");
            }
            assert_eq!(book.append(vip, &with(behind, 2)), Err(Refusal::CrookedRegister));
            assert_eq!(book.append(vip, &[&mov[..], &[0]].concat()), Err(Refusal::CrookedRegister));
        }
        let list = [Call::Append(Vip(3), &mov[..behind - 1]), Call::Append(Vip(3), &mov)];
        assert_eq!(book.run_on(&list), Err(Refusal::CrookedRegister));
        assert_eq!(book.numbers(), before.numbers());
        assert_eq!((book.image(), book.journal()), (before.image(), before.journal()));
    }
}

/// What a list of calls answers of a closed block is what the single calls answer.
#[test]
fn a_list_meets_a_closed_block() {
    let (file, nop, jmp) = (sample("minimal"), nop().to_bytes().unwrap(), jmp().to_bytes().unwrap());
    let calls = [
        (Call::Create(Vip(1)), Ok(None)),
        (Call::Append(Vip(1), &nop), Ok(None)),
        (Call::Append(Vip(1), &jmp), Ok(None)),
        (Call::Append(Vip(1), &nop), Err(Refusal::ClosedBlock)),
        (Call::Append(Vip(1), &jmp), Err(Refusal::ClosedBlock)),
        (Call::Undo, Ok(None)),
        (Call::Append(Vip(1), &nop), Ok(None)),
        (Call::Append(Vip(1), &jmp), Ok(None)),
        (Call::Append(Vip(1), &nop), Err(Refusal::ClosedBlock)),
    ];
    let list: Vec<Call> = calls.iter().map(|(call, _)| *call).collect();
    let mut one_by_one = Book::open(&file, image_before(400), journal_before(200), RATES).unwrap();
    for (place, (call, due)) in calls.iter().enumerate() {
        assert_eq!(&one_by_one.run_on(&[*call]), due, "call {place}");
        let mut whole = Book::resume(Numbers::default(), image_before(400), journal_before(200));
        assert_eq!(whole.run(&file, &list[..=place], RATES), Ok(due.clone()), "up to call {place}");
        assert_eq!(whole.numbers(), one_by_one.numbers());
        assert_eq!((whole.image(), whole.journal()), (one_by_one.image(), one_by_one.journal()));
    }
}

#[test]
fn a_refused_edit_leaves_the_book_as_it_was() {
    let mut book = Book::open(&sample("minimal"), image_before(MINIMAL + 36), journal_before(40), RATES).unwrap();
    book.create_block(Vip(1)).unwrap();
    let before = book.clone();
    assert_eq!(book.create_block(Vip(1)), Err(Refusal::BlockPresent));
    assert_eq!(book.create_block(Vip(2)), Err(Refusal::ImageFull));
    assert_eq!(book.remove_block(Vip(2)), Err(Refusal::NoSuchBlock));
    assert_eq!(book.append(Vip(1), &[]), Err(Refusal::ShortFile));
    assert_eq!(book.numbers(), before.numbers());
    assert_eq!((book.image(), book.journal()), (before.image(), before.journal()));
}

#[test]
fn an_edit_and_its_entry_are_taken_back() {
    let (mut image, mut journal) = (image_before(MINIMAL + 36), journal_before(20));
    let mut book = Book::open(&sample("minimal"), &mut image[..], &mut journal[..], RATES).unwrap();
    book.create_block(Vip(7)).unwrap();
    assert_eq!(book.numbers(), numbers(MINIMAL + 36, 20));
    assert_eq!(book.journal(), [7, 0, 0, 0, 0, 0, 0, 0, 0, 0, 0, 0, 0, 0, 0, 0, 1, 0, 0, 0]);
    book.undo().unwrap();
    assert_eq!(book.numbers(), numbers(MINIMAL, 0));
    assert_eq!((book.written(), book.journal()), (&sample("minimal")[..], &[0; 20][..]));
    assert_eq!(book.undo(), Err(Refusal::NothingToTakeBack));
}

/// A book that was kept goes on, and memory that can only be read can be looked at.
#[test]
fn a_kept_book_goes_on() {
    let (mut image, mut journal) = (image_before(MINIMAL + 36), journal_before(20));
    let mut book = Book::open(&sample("minimal"), &mut image[..], &mut journal[..], RATES).unwrap();
    book.create_block(Vip(7)).unwrap();
    let kept = book.numbers();

    let read_only = Book::resume(kept, &image[..], &journal[..]);
    assert_eq!(read_only.block(0).unwrap().vip, Vip(7));
    let mut book = Book::resume(kept, &mut image[..], &mut journal[..]);
    book.undo().unwrap();
    assert_eq!(book.written(), sample("minimal"));
}

/// A book that does not fit its memory is refused, not trusted.
#[test]
fn a_spoiled_book_is_refused() {
    let file = sample("minimal");
    let image = [&file[..], &[0; 36]].concat();
    let at = |kept| Book::resume(kept, image.clone(), journal_before(20));
    assert_eq!(at(numbers(MINIMAL, 0)).overview().unwrap().blocks, 0);
    for kept in [numbers(MINIMAL - 1, 0), numbers(MINIMAL + 1, 0), numbers(MINIMAL, 21), numbers(usize::MAX, 0)] {
        assert_eq!(at(kept).overview(), Err(Refusal::SpoiledBook), "{kept:?}");
        assert_eq!(at(kept).create_block(Vip(1)), Err(Refusal::SpoiledBook), "{kept:?}");
    }
    // These 20 bytes of journal are no edit of this image.
    assert_eq!(at(numbers(MINIMAL, 20)).undo(), Err(Refusal::SpoiledBook));
    assert_eq!(at(numbers(usize::MAX, 0)).written(), image);

    let mut odd = image.clone();
    odd[MINIMAL] = 1;
    let book = Book::resume(numbers(MINIMAL, 0), odd, vec![]);
    assert_eq!(book.block(0), Err(Refusal::SpoiledBook));
    let long = Book::resume(numbers(MINIMAL, 0), image, vec![0; MOST_LENT + 1]);
    assert_eq!(long.block(0), Err(Refusal::LendingTooLarge));
}

/// Calls of each kind, of which the third and the last are refused.
fn some_calls(nop: &[u8]) -> [Call<'_>; 6] {
    [
        Call::Create(Vip(1)),
        Call::Append(Vip(1), nop),
        Call::Append(Vip(1), &nop[..31]),
        Call::Create(Vip(2)),
        Call::Undo,
        Call::Remove(Vip(3)),
    ]
}

/// A list leaves what its calls leave one by one, and answers what the last one answers.
#[test]
fn a_list_is_run() {
    let (file, nop) = (sample("minimal"), nop().to_bytes().unwrap());
    let calls = some_calls(&nop);
    let mut one_by_one = Book::open(&file, image_before(300), journal_before(100), RATES).unwrap();
    one_by_one.create_block(Vip(1)).unwrap();
    one_by_one.append(Vip(1), &nop).unwrap();
    let mut book = Book::resume(Numbers::default(), image_before(300), journal_before(100));
    assert_eq!(book.run(&file, &calls, RATES), Ok(Err(Refusal::NoSuchBlock)));
    assert_eq!(book.numbers(), one_by_one.numbers());
    assert_eq!((book.image(), book.journal()), (one_by_one.image(), one_by_one.journal()));

    assert_eq!(book.run(&file, &calls[..5], RATES), Ok(Ok(None)));
    assert_eq!(book.run(&file, &calls[..3], RATES), Ok(Err(Refusal::ShortFile)));
    assert_eq!((book.run(&file, &[], RATES), book.numbers()), (Ok(Ok(None)), numbers(MINIMAL, 0)));
    assert_eq!(book.run(&[], &calls, RATES), Err(Refusal::ShortFile));
    assert_eq!((book.numbers(), book.image()[..MINIMAL].to_vec()), (Numbers::default(), file));
}

/// The same on a book that is there, wherever the list is parted.
#[test]
fn a_list_is_run_on_a_book() {
    let (file, nop) = (sample("minimal"), nop().to_bytes().unwrap());
    let calls = some_calls(&nop);
    let open = || Book::open(&file, image_before(300), journal_before(100), RATES).unwrap();
    let mut whole = open();
    assert_eq!(whole.run(&file, &calls, RATES), Ok(Err(Refusal::NoSuchBlock)));
    for parted in 0..calls.len() {
        let mut book = open();
        let first = book.run_on(&calls[..parted]);
        assert_eq!(first, if parted == 3 { Err(Refusal::ShortFile) } else { Ok(None) }, "{parted}");
        assert_eq!(book.run_on(&calls[parted..]), Err(Refusal::NoSuchBlock), "{parted}");
        assert_eq!(book.numbers(), whole.numbers(), "{parted}");
        assert_eq!((book.image(), book.journal()), (whole.image(), whole.journal()), "{parted}");
    }
    let before = whole.clone();
    assert_eq!((whole.run_on(&[]), whole.numbers()), (Ok(None), before.numbers()));
    assert_eq!((whole.image(), whole.journal()), (before.image(), before.journal()));

    let mut spoiled = Book::resume(numbers(MINIMAL - 1, 0), file.clone(), journal_before(20));
    assert_eq!(spoiled.run_on(&calls), Err(Refusal::SpoiledBook));
    assert_eq!((spoiled.numbers(), spoiled.image()), (numbers(MINIMAL - 1, 0), &file[..]));
}

#[test]
fn an_instruction_in_lent_bytes() {
    let mut bytes = [0xff; 40];
    assert_eq!(nop().write_to(&mut bytes), Ok(32));
    assert_eq!((bytes[..32].to_vec(), &bytes[32..]), (nop().to_bytes().unwrap(), &[0xff; 8][..]));
    let mut bytes = [0xff; 31];
    assert_eq!(nop().write_to(&mut bytes), Err(Refusal::ImageFull));
    assert_eq!(nop().write_to(&mut vec![0; MOST_LENT + 1]), Err(Refusal::LendingTooLarge));
    assert_eq!(Instruction { op: 49, ..nop() }.write_to(&mut bytes), Err(Refusal::UnknownOperation));
    assert_eq!(bytes, [0xff; 31]);
}

#[test]
fn the_check_as_c_gets_it() {
    for name in ["minimal", "trailing", "wrong-mark", "repeated-block"] {
        let file = sample(name);
        // SAFETY: the pointer and the length are a vector's.
        let number = unsafe { check_raw(file.as_ptr(), file.len()) };
        let due = check(&file).map_or_else(|refusal| -(refusal.number() as i64), |consumed| consumed as i64);
        assert_eq!(number, due, "{name}");
    }
    let minimal = sample("minimal");
    for length in [1 << 63, usize::MAX] {
        // SAFETY: the length is over 2^63 - 1.
        assert_eq!(unsafe { check_raw(minimal.as_ptr(), length) }, -10);
    }
}
