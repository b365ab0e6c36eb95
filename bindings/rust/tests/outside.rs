//! The copy for outside reviewers: which values go and what stays, the length of the second image, and the refusals.

use std::ops::Range;
use vtil::c::{self, vtil_outside_copy};
use vtil::{
    check, operation, read, Book, Immediate, Instruction, InstructionRef, Numbers, Operand, Rates, Refusal, Register,
    Routine, Vip, MOST_LENT, OPERATIONS,
};

const RATES: Rates = Rates([1, 20, 300, 4_000, 50_000, 600_000]);

/// Every sample that is accepted.
const SAMPLES: [&str; 5] = ["all-operations", "blocks", "minimal", "odd-flags", "trailing"];

/// What the second image holds before the call.
const BEFORE: u8 = 0xc3;

fn sample(name: &str) -> Vec<u8> {
    let path = format!("{}/../../samples/{name}.vtil", env!("CARGO_MANIFEST_DIR"));
    std::fs::read(&path).unwrap_or_else(|error| panic!("{path}: {error}"))
}

type Owned = Book<Vec<u8>>;

/// With room after the written form, and an edit in the journal.
fn edited(name: &str) -> Owned {
    let file = sample(name);
    let mut book = Book::open(&file, vec![0xa5; file.len() + 500], vec![0x5a; 100], RATES).unwrap();
    book.create_block(Vip(7)).unwrap();
    book
}

/// The instruction with immediates of value 0.
fn without_values(instruction: &Instruction) -> Instruction {
    let mut instruction = instruction.clone();
    for operand in &mut instruction.operands {
        if let Operand::Immediate(immediate) = operand {
            immediate.value = 0;
        }
    }
    instruction
}

/// Where the instruction stands in the bytes that it is read from.
fn place(written: &[u8], instruction: &InstructionRef) -> Range<usize> {
    let at = instruction.bytes().as_ptr() as usize - written.as_ptr() as usize;
    at..at + instruction.bytes().len()
}

/// What the copy has to be: each instruction written anew by its value, without those of its immediates.
fn masked(written: &[u8]) -> Vec<u8> {
    let mut masked = written.to_vec();
    for instruction in read(written).unwrap().explored_blocks().flat_map(|block| block.instructions()) {
        let bytes = without_values(&instruction.to_instruction()).to_bytes().unwrap();
        masked[place(written, &instruction)].copy_from_slice(&bytes);
    }
    masked
}

/// The call answers the written form's length, and the second image of this length holds the copy and then zeros. The
/// book stays as it was.
fn copied(book: &Owned, length: usize, due: &[u8]) {
    let before = book.clone();
    let mut second = vec![BEFORE; length];
    assert_eq!(book.outside_copy(&mut second), Ok(due.len()), "{:?} into {length} bytes", book.numbers());
    assert_eq!(second[..due.len()], *due, "{:?} into {length} bytes", book.numbers());
    assert!(second[due.len()..] == vec![0; length - due.len()], "{:?} into {length} bytes", book.numbers());
    stays(book, &before);
}

fn stays(book: &Owned, before: &Owned) {
    assert_eq!(book.numbers(), before.numbers());
    assert!((book.image(), book.journal()) == (before.image(), before.journal()), "image and journal are only read");
}

/// No byte of the second image is touched, and the book stays as it was. C gets size 0.
fn refused(book: &Owned, length: usize, due: Refusal) {
    let before = book.clone();
    let mut second = vec![BEFORE; length];
    assert_eq!(book.outside_copy(&mut second), Err(due), "{:?} into {length} bytes", book.numbers());
    assert_eq!(to_c(book, &mut second), c::Written { refusal: due.number(), size: 0 });
    assert!(second == vec![BEFORE; length], "{:?} into {length} bytes", book.numbers());
    stays(book, &before);
}

fn to_c(book: &Owned, second: &mut [u8]) -> c::Written {
    let (image, journal) = (book.image(), book.journal());
    // SAFETY: each pointer and length is a slice's, and the one that can be written overlaps no other.
    unsafe {
        vtil_outside_copy(
            book.numbers(),
            image.as_ptr(),
            image.len(),
            journal.as_ptr(),
            journal.len(),
            second.as_mut_ptr(),
            second.len(),
        )
    }
}

/// Second images from exactly enough bytes to the most.
fn lengths(written: usize) -> [usize; 5] {
    [written, written + 1, written + 8, written + 1000, MOST_LENT]
}

/// Every bit that can be set is: what is cleared by mistake is seen.
const REGISTER: Register = Register { flags: u64::MAX, combined_id: (3 << 56) - 1, bit_count: 1, bit_offset: 63 };
const IMMEDIATE: Immediate = Immediate { value: u64::MAX, bit_count: u32::MAX };

/// The operation with its operands in each mix of this immediate and a register.
fn mixes(op: usize, immediate: Immediate) -> impl Iterator<Item = Instruction> {
    let count = OPERATIONS[op].1;
    let operand =
        move |is_immediate| if is_immediate { Operand::Immediate(immediate) } else { Operand::Register(REGISTER) };
    (0..1 << count).map(move |mix| Instruction {
        op: op as u32,
        operands: (0..count).map(|place| operand(mix >> place & 1 == 1)).collect(),
        vip: Vip(u64::MAX),
        sp_offset: -1,
        sp_index: u32::MAX,
        sp_reset: true,
    })
}

/// The operation of this name, with immediates alone.
fn immediates(name: &str) -> Instruction {
    mixes(operation(name).unwrap() as usize, IMMEDIATE).last().unwrap()
}

/// A routine with a block for each instruction, so that those which close a block are taken too.
fn routine_of(instructions: &[Instruction]) -> Routine {
    let mut routine = Routine::open(&sample("minimal"), RATES).unwrap();
    for (place, instruction) in instructions.iter().enumerate() {
        let vip = Vip(place as u64);
        routine.create_block(vip).unwrap();
        routine.append_instruction(vip, instruction).unwrap();
    }
    routine
}

#[test]
fn values_go_and_widths_stay_in_every_operand() {
    let some = [(u64::MAX, u32::MAX), (1, 0), (1 << 63, 1), (0x80, 8), (u64::MAX, 64), (u64::MAX, 65)];
    for (op, (name, _)) in OPERATIONS.iter().enumerate() {
        let all = some.into_iter().flat_map(|(value, bit_count)| mixes(op, Immediate { value, bit_count }));
        let instructions: Vec<Instruction> = all.collect();
        let zeros: Vec<Instruction> = instructions.iter().map(without_values).collect();
        let (routine, due) = (routine_of(&instructions), routine_of(&zeros));
        assert_eq!(routine.outside_copy(), due.written(), "{name}");
        // Nothing else differed.
        assert_eq!(routine.written() == due.written(), OPERATIONS[op].1 == 0, "{name}");
    }
}

/// Byte by byte: a jmp to an immediate in the one block of a routine.
#[test]
fn the_eight_bytes_of_a_value() {
    let value = 114 + 28 + 4 + 3 + 4 + 4;
    let mut file = sample("minimal");
    file[110] = 1;
    file.extend([0x11; 24]);
    file.extend([1, 0, 0, 0, 3, 0, 0, 0, b'j', b'm', b'p', 1, 0, 0, 0, 0, 0, 0, 0]);
    assert_eq!(file.len(), value);
    file.extend([0xff; 8]);
    file.extend([0xee; 4]);
    file.extend([0xdd; 20]);
    file.push(1);
    file.extend([1, 0, 0, 0, 0xcc, 0xcc, 0xcc, 0xcc, 0xcc, 0xcc, 0xcc, 0xcc, 0, 0, 0, 0]);
    let mut due = file.clone();
    due[value..value + 8].fill(0);
    assert_eq!(Routine::open(&file, RATES).unwrap().outside_copy(), due);
}

#[test]
fn second_images_of_all_lengths() {
    for name in SAMPLES {
        let book = edited(name);
        let due = masked(book.written());
        for length in lengths(due.len()) {
            copied(&book, length, &due);
        }
        for length in [0, 1, 113, due.len() / 2, due.len() - 1] {
            refused(&book, length, Refusal::ImageFull);
        }
        refused(&book, MOST_LENT + 1, Refusal::LendingTooLarge);
    }
}

/// C may lend nothing at all.
#[test]
fn no_second_image() {
    let book = edited("blocks");
    let (image, journal) = (book.image(), book.journal());
    let copy = |numbers| {
        // SAFETY: the pointers and lengths are slices', and of 0 bytes none is touched.
        unsafe {
            vtil_outside_copy(
                numbers,
                image.as_ptr(),
                image.len(),
                journal.as_ptr(),
                journal.len(),
                std::ptr::null_mut(),
                0,
            )
        }
    };
    assert_eq!(copy(book.numbers()), c::Written { refusal: 11, size: 0 });
    assert_eq!(copy(Numbers { used: 101, ..book.numbers() }), c::Written { refusal: 13, size: 0 });
}

/// Copies of the book that are refused 13: its numbers do not fit, or its image is in no written form.
fn spoiled(book: &Owned) -> Vec<Owned> {
    let numbers = book.numbers();
    let blocks = book.overview().unwrap().blocks;
    let at = |numbers| Book::resume(numbers, book.image().to_vec(), book.journal().to_vec());
    let changed = |at: usize, byte| {
        let mut image = book.image().to_vec();
        image[at] = byte;
        Book::resume(numbers, image, book.journal().to_vec())
    };
    vec![
        at(Numbers::default()),
        at(Numbers { written: 0, ..numbers }),
        at(Numbers { written: numbers.written - 1, ..numbers }),
        at(Numbers { written: numbers.written + 1, ..numbers }),
        at(Numbers { written: u64::MAX, ..numbers }),
        at(Numbers { used: 101, ..numbers }),
        at(Numbers { walk: blocks + 2, ..numbers }),
        at(Numbers { walk: u64::MAX, ..numbers }),
        // The mark, the pad, and the bytes after the written form.
        changed(0, 0),
        changed(5, 1),
        changed(numbers.written as usize, 1),
        changed(book.image().len() - 1, 1),
    ]
}

/// 10 of all three lendings, then 13, then 11.
#[test]
fn refused_in_order() {
    let book = edited("blocks");
    let written = book.written().len();
    for spoiled in spoiled(&book) {
        for length in [0, 1, written - 1, written, written + 1, MOST_LENT] {
            refused(&spoiled, length, Refusal::SpoiledBook);
        }
        refused(&spoiled, MOST_LENT + 1, Refusal::LendingTooLarge);
    }
    let over = vec![0; MOST_LENT + 1];
    let long_journal = Book::resume(book.numbers(), book.image().to_vec(), over.clone());
    let long_image = Book::resume(book.numbers(), over, book.journal().to_vec());
    for book in [long_journal, long_image] {
        for length in [0, written - 1, written, MOST_LENT + 1] {
            refused(&book, length, Refusal::LendingTooLarge);
        }
    }
}

#[test]
fn nothing_is_open_after_a_refused_opening() {
    let mut book = edited("blocks");
    assert!(book.reopen(&[], RATES).is_err());
    refused(&book, 0, Refusal::SpoiledBook);
    refused(&book, MOST_LENT, Refusal::SpoiledBook);
}

#[test]
fn a_copy_while_a_walk_is_open() {
    let mut book = edited("blocks");
    let due = masked(book.written());
    book.walk_start().unwrap();
    loop {
        copied(&book, due.len() + 3, &due);
        if book.walk_next().unwrap().is_none() {
            break;
        }
    }
    let mut walk = book.walk().unwrap();
    walk.next().unwrap();
    walk.create_block(Vip(9)).unwrap();
    let due = masked(walk.book().written());
    copied(walk.book(), due.len(), &due);
    assert_eq!(walk.next().unwrap().map(|sent| sent.place), Some(1));
}

/// The routine and the second image's length decide, and nothing else.
#[test]
fn what_a_copy_does_not_depend_on() {
    let book = edited("blocks");
    let (due, written) = (masked(book.written()), book.written());
    let numbers = book.numbers();
    let image = |length| [written, &vec![0; length - written.len()]].concat();
    for (numbers, image_length, journal) in [
        (Numbers { rates: Rates([u32::MAX; 6]), ..numbers }, written.len(), vec![0xff; 100]),
        (Numbers { sum: 0, ..numbers }, written.len() + 1, vec![0; 20]),
        (Numbers { sum: u64::MAX, used: 0, ..numbers }, written.len(), vec![]),
        (Numbers { used: 3, ..numbers }, written.len() + 900, vec![1; 3]),
        (numbers, MOST_LENT, vec![2; MOST_LENT]),
    ] {
        let other = Book::resume(numbers, image(image_length), journal);
        copied(&other, due.len(), &due);
        copied(&other, due.len() + 77, &due);
    }
}

#[test]
fn a_copy_is_a_file_without_values() {
    for name in SAMPLES {
        let routine = Routine::open(&sample(name), RATES).unwrap();
        let copy = routine.outside_copy();
        assert_eq!(check(&copy), Ok(copy.len()), "{name}");
        let opened = Routine::open(&copy, RATES).unwrap();
        assert_eq!((opened.written(), opened.sum()), (&copy[..], routine.sum()), "{name}");
        assert_eq!(opened.outside_copy(), copy, "{name}");
        let instructions = |bytes| -> Vec<Instruction> {
            let blocks = read(bytes).unwrap().explored_blocks();
            blocks.flat_map(|block| block.instructions()).map(|each| each.to_instruction()).collect()
        };
        let due: Vec<Instruction> = instructions(routine.written()).iter().map(without_values).collect();
        assert_eq!(instructions(&copy), due, "{name}");
    }
}

/// Where the values of the immediates stand in the written form.
fn values(written: &[u8]) -> Vec<Range<usize>> {
    let mut values = vec![];
    for instruction in read(written).unwrap().explored_blocks().flat_map(|block| block.instructions()) {
        let mut at = place(written, &instruction).start + 4 + instruction.name().len() + 4;
        for operand in instruction.operands() {
            match operand {
                Operand::Immediate(_) => {
                    values.push(at + 4..at + 12);
                    at += 16;
                }
                Operand::Register(_) => at += 28,
            }
        }
    }
    values
}

/// Each byte of a routine is changed. Where that is another routine, its copy is the same exactly where the byte is one
/// of a value.
#[test]
fn copies_differ_where_more_than_values_do() {
    for name in ["blocks", "all-operations"] {
        let routine = Routine::open(&sample(name), RATES).unwrap();
        let (written, copy) = (routine.written(), routine.outside_copy());
        let values = values(written);
        let (mut hidden, mut seen) = (0, 0);
        for at in 0..written.len() {
            let mut changed = written.to_vec();
            changed[at] ^= 1;
            let Ok(other) = Routine::open(&changed, RATES) else { continue };
            let is_value = values.iter().any(|value| value.contains(&at));
            let is_same = other.written() == written;
            assert_eq!(other.outside_copy() == copy, is_value || is_same, "{name}, byte {at}");
            hidden += usize::from(is_value);
            seen += usize::from(!is_value && !is_same);
        }
        assert_eq!(hidden, 8 * values.len(), "{name}");
        assert!(hidden > 0 && seen > hidden, "{name}: {hidden} {seen}");
    }
}

#[test]
fn the_copy_follows_every_edit() {
    let mut routine = Routine::open(&sample("blocks"), RATES).unwrap();
    let first = routine.outside_copy();
    routine.create_block(Vip(7)).unwrap();
    routine.append_instruction(Vip(7), &immediates("str")).unwrap();
    routine.append_instruction(Vip(7), &immediates("vexit")).unwrap();
    assert_eq!(routine.outside_copy(), masked(routine.written()));
    routine.remove_block(Vip(0x1010)).unwrap();
    let copy = routine.outside_copy();
    assert_eq!((copy.len(), &copy), (routine.written().len(), &masked(routine.written())));
    for _ in 0..4 {
        routine.undo().unwrap();
    }
    assert_eq!(routine.outside_copy(), first);
}

/// One block with as many instructions as an image has room for, copied into the longest second image.
#[test]
fn the_longest_copy() {
    let full = immediates("ldd");
    let file = |instruction: &Instruction| {
        let bytes = instruction.to_bytes().unwrap();
        let count = (MOST_LENT - 114 - 36) / bytes.len();
        let mut file = sample("minimal");
        file[110] = 1;
        file.extend([0; 24]);
        file.extend((count as u32).to_le_bytes());
        file.extend(bytes.repeat(count));
        file.extend([0; 8]);
        file
    };
    let book = Book::open(&file(&full), vec![0; MOST_LENT], vec![], RATES).unwrap();
    let due = file(&without_values(&full));
    assert!(MOST_LENT - due.len() < 80);
    copied(&book, MOST_LENT, &due);
    copied(&book, due.len(), &due);
    refused(&book, due.len() - 1, Refusal::ImageFull);
}
