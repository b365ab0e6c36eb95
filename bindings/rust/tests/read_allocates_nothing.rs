//! Every part of a routine is read, handed out by a walk, and copied for outside reviewers, without a single allocation.

use std::alloc::{GlobalAlloc, Layout, System};
use std::cell::Cell;

use vtil::{read, Book, ConventionRef, Operand, Rates, Routine, RoutineRef};

thread_local! {
    static ALLOCATIONS: Cell<usize> = const { Cell::new(0) };
}

/// The system's memory, with the allocations of each thread counted.
struct Counting;

// SAFETY: the system does all of it.
unsafe impl GlobalAlloc for Counting {
    unsafe fn alloc(&self, layout: Layout) -> *mut u8 {
        ALLOCATIONS.set(ALLOCATIONS.get() + 1);
        System.alloc(layout)
    }

    unsafe fn dealloc(&self, place: *mut u8, layout: Layout) {
        System.dealloc(place, layout);
    }
}

#[global_allocator]
static COUNTING: Counting = Counting;

fn allocations_of(work: impl FnOnce()) -> usize {
    let before = ALLOCATIONS.get();
    work();
    ALLOCATIONS.get() - before
}

fn registers(convention: ConventionRef) -> usize {
    [convention.volatile_registers(), convention.param_registers(), convention.retval_registers()]
        .into_iter()
        .flatten()
        .filter(|register| register.combined_id != u64::MAX)
        .count()
}

/// How many registers, instructions, operands and vips there are, each of them read.
fn count(routine: RoutineRef) -> [usize; 4] {
    let mut counts = [registers(routine.routine_convention()) + registers(routine.subroutine_convention()), 0, 0, 0];
    counts[0] += routine.spec_subroutine_conventions().map(registers).sum::<usize>();
    for block in routine.explored_blocks() {
        for instruction in block.instructions() {
            counts[1] += 1;
            let is_read = |operand: &&Operand| !matches!(operand, Operand::Register(register) if register.flags == 77);
            counts[2] += instruction.operands().iter().filter(is_read).count();
        }
        counts[3] += block.prev_vip().chain(block.next_vip()).count();
        assert!(routine.find_block(block.vip()).is_some());
    }
    counts
}

#[test]
fn nothing_is_allocated() {
    let path = format!("{}/../../samples/blocks.vtil", env!("CARGO_MANIFEST_DIR"));
    let file = std::fs::read(&path).unwrap_or_else(|error| panic!("{path}: {error}"));
    let mut opened = Routine::open(&file, Rates::default()).unwrap();
    let mut counted = [[0; 4]; 2];
    let allocations = allocations_of(|| counted = [count(read(&file).unwrap()), count(opened.read())]);
    assert_eq!((counted[0], allocations), (counted[1], 0));
    assert!(counted[0].iter().all(|&count| count > 0), "{counted:?}");
    let mut handed_out = 0;
    let allocations = allocations_of(|| handed_out = opened.walk().unwrap().rest().count());
    assert_eq!((handed_out, allocations), (3, 0));
    let book = Book::open(&file, vec![0; file.len()], vec![], Rates::default()).unwrap();
    let (mut copy, mut length) = (vec![0; file.len()], Ok(0));
    let allocations = allocations_of(|| length = book.outside_copy(&mut copy));
    assert_eq!((length, allocations), (Ok(file.len()), 0));
    // The count does count: an instruction of its own has its operands on the heap.
    let mut instructions = read(&file).unwrap().explored_blocks().flat_map(|block| block.instructions());
    let mov = instructions.next().unwrap();
    assert_eq!(allocations_of(|| drop(mov.to_instruction())), 1);
}
