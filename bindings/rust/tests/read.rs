//! Reading by offset: every part beside the look at its place, and any bytes at any offset.

use vtil::{
    check, operation, read, read_at, BlockRef, Book, ConventionRef, Immediate, Instruction, InstructionRef, Links,
    Numbers, Operand, Part, Rates, Refusal, Register, Registers, Routine, RoutineRef, Vip,
};

const ACCEPTED: [&str; 5] = ["minimal", "trailing", "odd-flags", "blocks", "all-operations"];
const REFUSED: [&str; 9] = [
    "short-file",
    "name-not-text",
    "wrong-mark",
    "unknown-machine",
    "foreign-register",
    "unknown-operand-kind",
    "unknown-operation",
    "wrong-operand-count",
    "repeated-block",
];

fn sample(name: &str) -> Vec<u8> {
    let path = format!("{}/../../samples/{name}.vtil", env!("CARGO_MANIFEST_DIR"));
    std::fs::read(&path).unwrap_or_else(|error| panic!("{path}: {error}"))
}

/// A convention beside the looks at it.
fn assert_convention(routine: &Routine, place: usize, read: ConventionRef) {
    let look = routine.convention(place as u64).unwrap();
    assert_eq!(read.frame_register(), look.frame_register);
    assert_eq!((read.shadow_space(), read.purge_stack()), (look.shadow_space, look.purge_stack));
    for (list, registers, count) in [
        (Registers::Volatile, read.volatile_registers(), look.volatile_registers),
        (Registers::Param, read.param_registers(), look.param_registers),
        (Registers::Retval, read.retval_registers(), look.retval_registers),
    ] {
        assert_eq!(registers.len() as u64, count, "{list:?}");
        for (at, register) in registers.enumerate() {
            assert_eq!(Ok(register), routine.convention_register(place as u64, list, at as u64), "{list:?} {at}");
        }
    }
}

/// A block beside the looks at it.
fn assert_block(routine: &Routine, place: usize, read: BlockRef) {
    let look = routine.block(place as u64).unwrap();
    assert_eq!((read.vip(), read.sp_offset(), read.sp_index()), (look.vip, look.sp_offset, look.sp_index));
    assert_eq!(read.last_temporary_index(), look.last_temporary_index);
    assert_eq!(read.instructions().len() as u64, look.instructions);
    for (at, instruction) in read.instructions().enumerate() {
        assert_eq!(Ok(instruction.to_instruction()), routine.instruction(place as u64, at as u64), "instruction {at}");
        assert_eq!(Some(instruction.name()), instruction.to_instruction().name());
    }
    for (list, vips, count) in
        [(Links::Prev, read.prev_vip(), look.prev_vips), (Links::Next, read.next_vip(), look.next_vips)]
    {
        assert_eq!(vips.len() as u64, count, "{list:?}");
        for (at, vip) in vips.enumerate() {
            assert_eq!(Ok(vip), routine.block_vip(place as u64, list, at as u64), "{list:?} {at}");
        }
    }
}

fn conventions(read: RoutineRef<'_>) -> impl Iterator<Item = ConventionRef<'_>> {
    [read.routine_convention(), read.subroutine_convention()].into_iter().chain(read.spec_subroutine_conventions())
}

/// All parts, of the file and of the image that it was opened in, beside the looks.
#[test]
fn samples_are_read_as_looks_show_them() {
    for name in ACCEPTED {
        let file = sample(name);
        let routine = Routine::open(&file, Rates::default()).unwrap();
        let look = routine.overview();
        for read in [read(&file).unwrap(), routine.read()] {
            assert_eq!((read.arch_id(), read.vip()), (look.machine, look.entry_vip), "{name}");
            assert_eq!(read.spec_subroutine_conventions().len() as u64, look.special_conventions, "{name}");
            assert_eq!(read.explored_blocks().len() as u64, look.blocks, "{name}");
            conventions(read).enumerate().for_each(|(place, part)| assert_convention(&routine, place, part));
            read.explored_blocks().enumerate().for_each(|(place, part)| assert_block(&routine, place, part));
        }
    }
}

#[test]
fn a_file_is_read_or_refused_as_it_is_checked() {
    for name in ACCEPTED.into_iter().chain(REFUSED) {
        let file = sample(name);
        for length in 0..=file.len() {
            let file = &file[..length];
            assert_eq!(read(file).map(|routine| routine.bytes().len()), check(file), "{name}, {length} bytes");
        }
    }
    for name in REFUSED {
        assert!(read(&sample(name)).is_err(), "{name}");
    }
}

/// The parts of a routine with what stands between them are its bytes, from the first to the last.
#[test]
fn parts_lie_one_after_the_other() {
    for name in ACCEPTED {
        let file = sample(name);
        let routine = read(&file).unwrap();
        assert_eq!(routine.bytes(), &file[..check(&file).unwrap()], "{name}");
        let count = |length: usize| u32::try_from(length).unwrap().to_le_bytes();
        let mut laid = file[..16].to_vec();
        laid.extend([routine.routine_convention().bytes(), routine.subroutine_convention().bytes()].concat());
        laid.extend(count(routine.spec_subroutine_conventions().len()));
        routine.spec_subroutine_conventions().for_each(|convention| laid.extend(convention.bytes()));
        laid.extend(count(routine.explored_blocks().len()));
        for block in routine.explored_blocks() {
            let begin = laid.len();
            laid.extend(&block.bytes()[..24]);
            laid.extend(count(block.instructions().len()));
            block.instructions().for_each(|instruction| laid.extend(instruction.bytes()));
            for vips in [block.prev_vip(), block.next_vip()] {
                laid.extend(count(vips.len()));
                vips.for_each(|vip| laid.extend(vip.0.to_le_bytes()));
            }
            assert_eq!(laid[begin..], *block.bytes(), "{name}, {:?}", block.vip());
        }
        assert_eq!(laid, routine.bytes(), "{name}");
    }
}

/// The rest of a list is counted exactly, and a list that has ended stays so.
#[test]
fn lists_are_counted() {
    let file = sample("blocks");
    let routine = read(&file).unwrap();
    let mut blocks = routine.explored_blocks();
    let mut vips = vec![];
    for left in (0..3).rev() {
        vips.push(blocks.next().unwrap().vip());
        assert_eq!((blocks.len(), blocks.size_hint()), (left, (left, Some(left))));
        assert_eq!(blocks.clone().count(), left);
    }
    assert_eq!(vips, [Vip(0x1000), Vip(0x1010), Vip(0x1020)]);
    assert!(blocks.next().is_none() && blocks.next().is_none());
    assert_eq!((blocks.len(), routine.explored_blocks().len()), (0, 3));
}

#[test]
fn a_block_is_found_by_its_vip() {
    let file = sample("blocks");
    let routine = read(&file).unwrap();
    for block in routine.explored_blocks() {
        assert_eq!(routine.find_block(block.vip()).unwrap().bytes(), block.bytes());
    }
    assert!(routine.find_block(Vip(0x1001)).is_none());
    assert!(read(&sample("minimal")).unwrap().find_block(Vip(0)).is_none());
}

#[test]
fn operands_are_a_slice() {
    let register = Register { flags: 1, combined_id: 0x0200_0000_0000_0005, bit_count: 32, bit_offset: -8 };
    let immediate = Immediate { value: u64::MAX, bit_count: 64 };
    let mov = Instruction {
        op: operation("mov").unwrap(),
        operands: vec![Operand::Register(register), Operand::Immediate(immediate)],
        vip: Vip(0x1000),
        sp_offset: -8,
        sp_index: 3,
        sp_reset: true,
    };
    let bytes = mov.to_bytes().unwrap();
    let (read, end) = read_at::<InstructionRef>(&bytes, 0).unwrap();
    assert_eq!((end, read.bytes(), read.name()), (76, &bytes[..], "mov"));
    assert_eq!((read.op(), read.vip(), read.sp_offset()), (mov.op, Vip(0x1000), -8));
    assert_eq!((read.sp_index(), read.sp_reset()), (3, true));
    let [Operand::Register(to), Operand::Immediate(from)] = *read.operands() else { panic!("{read:?}") };
    assert_eq!((to, from, read.to_instruction()), (register, immediate, mov));

    let nop = Instruction { op: operation("nop").unwrap(), ..Default::default() }.to_bytes().unwrap();
    assert_eq!(read_at::<InstructionRef>(&nop, 0).unwrap().0.operands(), []);
}

/// A part ends within the bytes, and nothing begins past their end, or at it.
fn assert_offsets<'a, P: Part<'a>>(bytes: &'a [u8], least: usize, all: impl Fn(P)) -> usize {
    let mut accepted = 0;
    for at in 0..bytes.len() {
        match read_at::<P>(bytes, at) {
            Ok((part, end)) => {
                assert!(at + least <= end && end <= bytes.len(), "{at} to {end}");
                // It needs its bytes, and none after them.
                assert_eq!(read_at::<P>(&bytes[..end], at).map(|(_, end)| end), Ok(end), "{at} to {end}");
                let cut = read_at::<P>(&bytes[..end - 1], at).map(|_| ());
                assert_eq!(cut, Err(Refusal::ShortFile), "{at} to {end}");
                all(part);
                accepted += 1;
            }
            Err(refusal) => assert!([1, 2, 5, 6, 7, 8].contains(&refusal.number()), "{at}: {refusal}"),
        }
    }
    let end = bytes.len();
    for at in [end, end + 1, 1 << 63, usize::MAX] {
        assert_eq!(read_at::<P>(bytes, at).map(|_| ()), Err(Refusal::ShortFile), "{at}");
        assert_eq!(read_at::<P>(&[], at).map(|_| ()), Err(Refusal::ShortFile), "{at}");
    }
    accepted
}

/// Wherever a part is accepted, all that is in it can be read too.
#[test]
fn parts_are_read_at_any_offset() {
    for name in ACCEPTED.into_iter().chain(REFUSED) {
        let file = sample(name);
        let registers = assert_offsets::<Register>(&file, 24, |_| {});
        let vips = assert_offsets::<Vip>(&file, 8, |_| {});
        let instructions = assert_offsets::<InstructionRef>(&file, 29, |instruction| {
            assert_eq!(instruction.to_instruction().to_bytes().unwrap().len(), instruction.bytes().len());
        });
        let conventions = assert_offsets::<ConventionRef>(&file, 45, |convention| {
            let lists = [convention.volatile_registers(), convention.param_registers(), convention.retval_registers()];
            let registers: usize = lists.into_iter().map(|list| list.count()).sum();
            assert_eq!(convention.bytes().len(), 45 + 24 * registers);
        });
        let blocks = assert_offsets::<BlockRef>(&file, 36, |block| {
            let instructions: usize = block.instructions().map(|instruction| instruction.bytes().len()).sum();
            let vips = block.prev_vip().chain(block.next_vip()).count();
            assert_eq!(block.bytes().len(), 36 + instructions + 8 * vips);
        });
        assert_eq!(vips, file.len().saturating_sub(7), "{name}");
        if let Ok(routine) = read(&file) {
            let blocks_due = routine.explored_blocks().len();
            let instructions_due: usize = routine.explored_blocks().map(|block| block.instructions().len()).sum();
            assert!(conventions >= 2 && registers >= 2 && blocks >= blocks_due, "{name}");
            assert!(instructions >= instructions_due, "{name}");
        }
    }
}

/// The image of a book is read as it is after each edit, and what is read can be appended.
#[test]
fn a_book_is_read() {
    let file = sample("blocks");
    let (mut image, mut journal) = ([0xa5; 2000], [0x5a; 1000]);
    let mut book = Book::open(&file, &mut image[..], &mut journal[..], Rates::default()).unwrap();
    book.create_block(Vip(7)).unwrap();
    let other = read(&file).unwrap();
    for instruction in other.find_block(Vip(0x1000)).unwrap().instructions() {
        book.append(Vip(7), instruction.bytes()).unwrap();
    }
    let routine = book.read().unwrap();
    assert_eq!((routine.bytes(), routine.explored_blocks().len()), (book.written(), 4));
    let of = |routine: RoutineRef, vip| -> Vec<Instruction> {
        let block = routine.find_block(vip).unwrap();
        block.instructions().map(|instruction| instruction.to_instruction()).collect()
    };
    assert_eq!(of(routine, Vip(7)), of(other, Vip(0x1000)));
    book.remove_block(Vip(0x1010)).unwrap();
    let vips: Vec<u64> = book.read().unwrap().explored_blocks().map(|block| block.vip().0).collect();
    assert_eq!(vips, [0x1000, 7, 0x1020]);
}

/// What is read of a book is its written bytes, which may be no routine.
#[test]
fn a_book_without_a_routine_is_refused() {
    let file = sample("minimal");
    let at = |written, image: &[u8]| Book::resume(Numbers { written, ..Numbers::default() }, image.to_vec(), vec![]);
    assert_eq!(at(114, &file).read().map(|routine| routine.bytes().len()), Ok(114));
    assert_eq!(at(113, &file).read().map(|_| ()), Err(Refusal::ShortFile));
    assert_eq!(at(114, &[0; 114]).read().map(|_| ()), Err(Refusal::WrongMark));
    let mut book = at(114, &file);
    assert_eq!(book.reopen(&sample("wrong-mark"), Rates::default()), Err(Refusal::WrongMark));
    assert_eq!(book.read().map(|_| ()), Err(Refusal::ShortFile));
}

/// A part outlives what it was read from, but not the bytes.
#[test]
fn parts_borrow_the_bytes_alone() {
    let file = sample("blocks");
    let instruction = {
        let routine = read(&file).unwrap();
        let block = routine.explored_blocks().next().unwrap();
        block.instructions().next().unwrap()
    };
    assert_eq!(instruction.name(), "mov");
    assert!(format!("{:?}", read(&file).unwrap()).contains("1134 bytes"));
}
