//! The crate over the archive: document 01's instances, the samples, and every kind of call and refusal.

use vtil::{
    check, operation, Immediate, Instruction, Links, Operand, Overview, Rates, Refusal, Register, Registers, Routine,
    Vip, LONGEST_INSTRUCTION, OPERATIONS,
};

fn sample(name: &str) -> Vec<u8> {
    let path = format!("{}/../../samples/{name}.vtil", env!("CARGO_MANIFEST_DIR"));
    std::fs::read(&path).unwrap_or_else(|error| panic!("{path}: {error}"))
}

/// Nothing is billed here.
const FREE: Rates = Rates([0; 6]);

fn opened(name: &str) -> Routine {
    Routine::open(&sample(name), FREE).unwrap()
}

fn nop() -> Instruction {
    Instruction { op: operation("nop").unwrap(), ..Default::default() }
}

/// Its operands are immediates.
fn instruction(op: usize) -> Instruction {
    let operands = vec![Operand::Immediate(Immediate::default()); OPERATIONS[op].1];
    Instruction { op: op as u32, operands, ..Default::default() }
}

fn vips(routine: &Routine) -> Vec<u64> {
    (0..routine.overview().blocks).map(|place| routine.block(place).unwrap().vip.0).collect()
}

#[test]
fn samples_are_accepted_or_refused() {
    let lines =
        String::from_utf8(std::fs::read(format!("{}/../../samples/EXPECTED", env!("CARGO_MANIFEST_DIR"))).unwrap());
    for line in lines.unwrap().lines() {
        let (path, words) = line.split_once(": ").unwrap();
        let file = sample(path.trim_start_matches("samples/").trim_end_matches(".vtil"));
        match check(&file) {
            Ok(consumed) => assert!(words.starts_with(&format!("accepted, {consumed} bytes consumed")), "{line}"),
            Err(refusal) => assert_eq!(words, refusal.to_string()),
        }
        assert_eq!(Routine::open(&file, FREE).map(|routine| routine.written().len()), check(&file), "{line}");
    }
}

#[test]
fn refusals_have_numbers_and_words() {
    for number in 1..=21 {
        let refusal = Refusal::from_number(number).unwrap();
        assert_eq!(refusal.number(), number);
        assert_eq!(refusal.to_string(), format!("refused {number}: {}", refusal.words()));
    }
    assert_eq!(Refusal::from_number(0), None);
    assert_eq!(Refusal::from_number(22), None);
}

#[test]
fn the_written_form_is_normal() {
    let file = sample("odd-flags");
    let routine = Routine::open(&file, FREE).unwrap();
    let changed: Vec<usize> = (0..file.len()).filter(|&i| file[i] != routine.written()[i]).collect();
    assert_eq!(changed, [5, 60, 173]);
    assert_eq!(Routine::open(routine.written(), FREE).unwrap().written(), routine.written());
    assert_eq!(opened("trailing").written(), sample("minimal"));
}

#[test]
fn create_remove_and_undo() {
    let mut routine = opened("minimal");
    assert_eq!(routine.undo(), Err(Refusal::NothingToTakeBack));
    for vip in [5, 6, 7] {
        routine.create_block(Vip(vip)).unwrap();
    }
    assert_eq!((vips(&routine), routine.written().len()), (vec![5, 6, 7], 222));
    assert_eq!(routine.create_block(Vip(6)), Err(Refusal::BlockPresent));
    routine.remove_block(Vip(5)).unwrap();
    assert_eq!((vips(&routine), routine.written().len()), (vec![7, 6], 186));
    assert_eq!(routine.remove_block(Vip(5)), Err(Refusal::NoSuchBlock));
    routine.undo().unwrap();
    assert_eq!(vips(&routine), [5, 6, 7]);
    for _ in 0..3 {
        routine.undo().unwrap();
    }
    assert_eq!(routine.written(), sample("minimal"));
    assert_eq!(routine.undo(), Err(Refusal::NothingToTakeBack));
}

#[test]
fn append_and_look() {
    let register = Register { flags: 1, combined_id: 0x0200_0000_0000_0005, bit_count: 32, bit_offset: 8 };
    let mov = Instruction {
        op: operation("mov").unwrap(),
        operands: vec![Operand::Register(register), Operand::Immediate(Immediate { value: u64::MAX, bit_count: 64 })],
        vip: Vip(0x1000),
        sp_offset: -8,
        sp_index: 3,
        sp_reset: true,
    };
    assert_eq!((nop().to_bytes().unwrap().len(), mov.to_bytes().unwrap().len()), (32, 76));
    let mut routine = opened("minimal");
    assert_eq!(routine.append_instruction(Vip(1), &mov), Err(Refusal::NoSuchBlock));
    routine.create_block(Vip(1)).unwrap();
    routine.append_instruction(Vip(1), &mov).unwrap();
    routine.append(Vip(1), &nop().to_bytes().unwrap()).unwrap();
    assert_eq!(routine.instruction(0, 0), Ok(mov));
    assert_eq!(routine.instruction(0, 1), Ok(nop()));
    assert_eq!(routine.instruction(0, 2), Err(Refusal::NoSuchBlock));
    assert_eq!(routine.instruction(1, 0), Err(Refusal::NoSuchBlock));
    assert_eq!(routine.written().len(), 114 + 36 + 76 + 32);
}

#[test]
fn refused_instructions() {
    let foreign = Operand::Register(Register { combined_id: 3 << 56, ..Default::default() });
    let jmp = operation("jmp").unwrap();
    let with = |op, operands| Instruction { op, operands, ..Default::default() }.to_bytes();
    assert_eq!(with(49, vec![]), Err(Refusal::UnknownOperation));
    assert_eq!(with(jmp, vec![]), Err(Refusal::WrongOperandCount));
    assert_eq!(with(jmp, vec![foreign; 4]), Err(Refusal::WrongOperandCount));
    assert_eq!(with(jmp, vec![foreign]), Err(Refusal::ForeignRegister));

    let mut routine = opened("odd-flags");
    let before = routine.written().to_vec();
    let bytes = nop().to_bytes().unwrap();
    let longer = [&bytes[..], &[0]].concat();
    assert_eq!(routine.append(Vip(5), &[]), Err(Refusal::ShortFile));
    assert_eq!(routine.append(Vip(5), &bytes[..31]), Err(Refusal::ShortFile));
    assert_eq!(routine.append(Vip(5), &longer), Err(Refusal::Leftover));
    assert_eq!(routine.append(Vip(6), &longer), Err(Refusal::Leftover));
    assert_eq!(routine.append(Vip(5), &[1, 0, 0, 0, 0xff]), Err(Refusal::NameNotText));
    assert_eq!(routine.append(Vip(5), b"\x03\0\0\0zzz\0\0\0\0"), Err(Refusal::UnknownOperation));
    assert_eq!(routine.append(Vip(5), b"\x03\0\0\0jmp\x01\0\0\0\x02\0\0\0"), Err(Refusal::UnknownOperandKind));
    assert_eq!(routine.written(), before);
}

/// Each in a block of its own, since some of them close it.
#[test]
fn every_operation_is_written_and_read() {
    let mut routine = opened("minimal");
    let register = Operand::Register(Register::default());
    let mut longest = 0;
    for (op, (name, count)) in OPERATIONS.into_iter().enumerate() {
        let instruction = instruction(op);
        assert_eq!(instruction.name(), Some(name));
        assert_eq!(&instruction.to_bytes().unwrap()[4..4 + name.len()], name.as_bytes());
        routine.create_block(Vip(op as u64)).unwrap();
        routine.append_instruction(Vip(op as u64), &instruction).unwrap();
        assert_eq!(routine.instruction(op as u64, 0), Ok(instruction));
        let longer = Instruction { op: op as u32, operands: vec![register; count], ..Default::default() };
        longest = longest.max(longer.to_bytes().unwrap().len());
    }
    assert_eq!(longest, LONGEST_INSTRUCTION);
}

/// Exactly js, jmp, vexit and vxcall close a block, whatever stands before them and whatever is appended next.
#[test]
fn a_closed_block_takes_no_more() {
    for before in [None, Some(nop())] {
        for (op, (name, _)) in OPERATIONS.into_iter().enumerate() {
            let mut routine = opened("minimal");
            routine.create_block(Vip(5)).unwrap();
            before.iter().for_each(|nop| routine.append_instruction(Vip(5), nop).unwrap());
            routine.append_instruction(Vip(5), &instruction(op)).unwrap();
            let closed = ["js", "jmp", "vexit", "vxcall"].contains(&name);
            let due = if closed { Err(Refusal::ClosedBlock) } else { Ok(()) };
            let written = routine.written().to_vec();
            for next in [nop(), instruction(op)] {
                assert_eq!(routine.append_instruction(Vip(5), &next), due, "{name}");
                if closed {
                    assert_eq!(routine.written(), written);
                } else {
                    routine.undo().unwrap();
                }
            }
        }
    }
}

#[test]
fn undo_opens_a_closed_block() {
    for op in 37..=40 {
        let mut routine = opened("odd-flags");
        routine.append_instruction(Vip(5), &instruction(op)).unwrap();
        assert_eq!(routine.append_instruction(Vip(5), &nop()), Err(Refusal::ClosedBlock));
        routine.undo().unwrap();
        assert_eq!(routine.append_instruction(Vip(5), &nop()), Ok(()));
        assert_eq!(routine.append_instruction(Vip(5), &instruction(op)), Ok(()));
        assert_eq!(routine.append_instruction(Vip(5), &instruction(op)), Err(Refusal::ClosedBlock));
    }
}

/// The blocks of the one sample end with js, jmp and vexit; in the other, each of the four has instructions after it.
#[test]
fn closed_blocks_of_a_file() {
    let file = sample("blocks");
    let mut routine = Routine::open(&file, FREE).unwrap();
    for vip in vips(&routine) {
        assert_eq!(routine.append_instruction(Vip(vip), &nop()), Err(Refusal::ClosedBlock), "{vip:#x}");
    }
    assert_eq!(routine.written(), file);
    // A block that comes back is closed as before; one that is made in its place is empty, so it is open.
    routine.remove_block(Vip(0x1010)).unwrap();
    assert_eq!(routine.append_instruction(Vip(0x1010), &nop()), Err(Refusal::NoSuchBlock));
    routine.create_block(Vip(0x1010)).unwrap();
    routine.append_instruction(Vip(0x1010), &nop()).unwrap();
    for _ in 0..3 {
        routine.undo().unwrap();
    }
    assert_eq!(routine.append_instruction(Vip(0x1010), &nop()), Err(Refusal::ClosedBlock));
    assert_eq!(routine.written(), file);

    let mut open = opened("all-operations");
    assert_eq!(open.append_instruction(Vip(1), &nop()), Ok(()));
}

/// A width and an offset that no append takes, and others that it does: (1, 63) and (64, 0) are at the limit.
const CROOKED: [(i32, i32); 14] = [
    (0, 0),
    (0, 64),
    (-1, 2),
    (i32::MIN, 0),
    (i32::MIN, i32::MIN),
    (1, -1),
    (64, -1),
    (1, i32::MIN),
    (65, 0),
    (64, 1),
    (1, 64),
    (1, i32::MAX),
    (i32::MAX, 1),
    (i32::MAX, i32::MAX),
];
const SOUND: [(i32, i32); 6] = [(1, 0), (1, 63), (32, 32), (63, 1), (64, 0), (8, 8)];

fn register((bit_count, bit_offset): (i32, i32)) -> Operand {
    Operand::Register(Register { bit_count, bit_offset, ..Default::default() })
}

/// In each place of every operation, beside sound registers and beside immediates whose width is nobody's business.
#[test]
fn a_crooked_register_is_not_appended() {
    let mut routine = opened("odd-flags");
    for (op, (name, count)) in OPERATIONS.into_iter().enumerate() {
        for place in 0..count {
            for other in [register((64, 0)), Operand::Immediate(Immediate { value: u64::MAX, bit_count: u32::MAX })] {
                let with = |slice| {
                    let mut operands = vec![other; count];
                    operands[place] = register(slice);
                    Instruction { op: op as u32, operands, ..Default::default() }
                };
                for slice in CROOKED {
                    let before = routine.written().to_vec();
                    assert_eq!(
                        routine.append_instruction(Vip(5), &with(slice)),
                        Err(Refusal::CrookedRegister),
                        "{name} {place} {slice:?}"
                    );
                    assert_eq!(routine.written(), before);
                }
                for slice in SOUND {
                    assert_eq!(routine.append_instruction(Vip(5), &with(slice)), Ok(()), "{name} {place} {slice:?}");
                    routine.undo().unwrap();
                }
            }
        }
    }
}

/// Files hold crooked registers: they are written, read, opened, looked at, removed and restored as others are.
#[test]
fn crooked_registers_of_a_file() {
    for slice in CROOKED {
        let mov = Instruction { operands: vec![register((64, 0)), register(slice)], ..Default::default() };
        let bytes = mov.to_bytes().unwrap();
        let mut file = opened("minimal");
        file.create_block(Vip(5)).unwrap();
        // The instruction stands between the block's front, of 28 bytes, and its two empty lists.
        let mut file = file.written().to_vec();
        file.splice(114 + 28..114 + 28, bytes.iter().copied());
        file[114 + 24] = 1;
        assert_eq!(check(&file), Ok(file.len()));
        let mut routine = Routine::open(&file, FREE).unwrap();
        assert_eq!(routine.instruction(0, 0), Ok(mov.clone()));
        let read = routine.read().find_block(Vip(5)).unwrap().instructions().next().unwrap().to_instruction();
        assert_eq!(read, mov);
        assert_eq!(routine.append_instruction(Vip(5), &mov), Err(Refusal::CrookedRegister));
        routine.append_instruction(Vip(5), &nop()).unwrap();
        routine.remove_block(Vip(5)).unwrap();
        routine.undo().unwrap();
        routine.undo().unwrap();
        assert_eq!(routine.written(), file);
    }
}

#[test]
fn looks_at_a_sample() {
    let routine = opened("blocks");
    let overview = Overview { machine: 0, entry_vip: Vip(0x1000), special_conventions: 2, blocks: 3 };
    assert_eq!(routine.overview(), overview);
    let first = routine.block(0).unwrap();
    assert_eq!((first.instructions, first.prev_vips, first.next_vips, first.last_temporary_index), (4, 0, 2, 6));
    assert_eq!(routine.block_vip(0, Links::Next, 1), Ok(Vip(0x1020)));
    assert_eq!(routine.block_vip(0, Links::Prev, 0), Err(Refusal::NoSuchBlock));
    assert_eq!(routine.block(3), Err(Refusal::NoSuchBlock));
    assert_eq!(routine.instruction(2, 1).unwrap().sp_offset, i64::MIN);

    let own = routine.convention(0).unwrap();
    assert_eq!((own.shadow_space, own.purge_stack, own.volatile_registers), (32, true, 2));
    assert_eq!(own.frame_register, Register { flags: 9, combined_id: 0, bit_count: 64, bit_offset: 0 });
    assert_eq!(routine.convention_register(0, Registers::Volatile, 1).unwrap().combined_id, 0x26);
    assert_eq!(routine.convention_register(3, Registers::Param, 0).unwrap().combined_id, 0x0100_0000_0000_00c7);
    assert_eq!(routine.convention_register(1, Registers::Param, 0), Err(Refusal::NoSuchBlock));
    assert_eq!(routine.convention(4), Err(Refusal::NoSuchBlock));
}

/// Image and journal grow: more blocks than the first room holds, all taken back.
#[test]
fn room_grows() {
    let mut routine = opened("minimal");
    for vip in 0..1000 {
        routine.create_block(Vip(vip)).unwrap();
    }
    for vip in 0..500 {
        routine.remove_block(Vip(vip)).unwrap();
    }
    assert_eq!(routine.overview().blocks, 500);
    while routine.undo().is_ok() {}
    assert_eq!(routine.written(), sample("minimal"));
}

#[test]
fn a_copy_is_another_routine() {
    let mut one = opened("minimal");
    one.create_block(Vip(1)).unwrap();
    let mut two = one.clone();
    two.undo().unwrap();
    assert_eq!((one.overview().blocks, two.overview().blocks), (1, 0));
}

/// Over the limit there is no room: a routine of one block with so many links.
#[test]
fn the_limit() {
    let mut file = sample("minimal");
    let links = 2_097_152u32;
    file[110] = 1;
    file.extend([0; 28]);
    file.extend(links.to_le_bytes());
    file.resize(file.len() + 8 * links as usize + 4, 0);
    assert_eq!(check(&file), Ok(file.len()));
    assert_eq!(Routine::open(&file, FREE).err(), Some(Refusal::ImageFull));
}
