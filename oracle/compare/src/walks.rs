//! The walk: what a call makes of it and what it hands out, worked out from the Rust's blocks; a finished walk beside the
//! routine that stands at its end; and books whose walk was made by hand.

use crate::by_hand::{list_difference as list_by_hand, made_as_due, made_by_both, with};
use crate::calls::{made, Answer, Handed};
use crate::reads::caught;
use crate::report::{held, Report};
use oracle::blocks::{empty_blocks, filled_block};
use oracle::draft::{minimal_routine, Draft};
use oracle::original;
use oracle::reference::{Call, Refusal, NO_WALK, SPOILED_BOOK, WALK_OPEN};
use oracle::rng::Rng;
use oracle::walk::{blocks, written, Block, Walk};
use std::fmt;
use vtil::{Book, Links, Numbers, Rates, Registers, MOST_LENT};
use vtil_parser::{BasicBlock, Routine, Vip};

/// Files with more blocks are walked at their ends and in the middle alone: every next is a pass over the image.
const MOST_WALKED: usize = 64;

/// The bytes of a block with nothing in it.
const EMPTY_BLOCK: usize = 36;

fn handed_out(place: u64, blocks: &[Block]) -> Handed {
    let Block { offset, bytes } = &blocks[place as usize];
    Handed { place, offset: *offset, bytes: bytes.clone() }
}

/// What is due of a call on a book with these numbers, where the walk decides it: what it refuses, and all of start, next
/// and abandon. None where it is an edit or an undo that the walk lets through.
pub fn by_rust(before: Numbers, call: &Call, blocks: &[Block]) -> Option<Answer> {
    let walk = Walk::from_number(before.walk);
    if let Some(refusal) = walk.refusal(call, blocks.len()) {
        return Some(Answer::plain(refusal, before));
    }
    if !matches!(call, Call::Start | Call::Next | Call::Abandon) {
        return None;
    }
    let (after, place) = walk.after(call, blocks.len());
    let handed = place.map(|place| handed_out(place, blocks));
    Some(Answer { refusal: 0, numbers: Numbers { walk: after.number(), ..before }, handed })
}

/// A walk has come to its end and has handed out these. They have to be all blocks of the routine that stands then, each
/// once and in order. Only appends can have changed one since, so each was the block as it is now up to some instruction.
pub fn finished_difference(sent: &[Handed], routine: Routine) -> Option<String> {
    if sent.len() != routine.explored_blocks.len() {
        return Some(format!("a walk of {} blocks over {}", sent.len(), routine.explored_blocks.len()));
    }
    let standing = routine.explored_blocks.into_values();
    let mut places = sent.iter().zip(standing).enumerate();
    places.find_map(|(place, (sent, block))| {
        if sent.place == place as u64 && is_earlier(&sent.bytes, block) {
            return None;
        }
        Some(format!("a finished walk has handed out {sent:?} for block {place}"))
    })
}

/// Whether the bytes are the block before some appends to it, by the Rust's reader and writer of a block.
fn is_earlier(bytes: &[u8], mut block: BasicBlock) -> bool {
    let Ok((earlier, _)) = original::read_at::<BasicBlock>(bytes, 0) else { return false };
    block.instructions.truncate(earlier.instructions.len());
    written(block) == bytes
}

/// What the walks of the lists came to.
#[derive(Default)]
pub struct Walks {
    started: usize,
    ended: usize,
    abandoned: usize,
    handed_out: usize,
    /// Blocks that were created while a walk was open.
    created: usize,
    /// Appends while a walk was open: to a block that it had handed out already, and to one still to come.
    appended_behind: usize,
    appended_ahead: usize,
}

impl Walks {
    /// An accepted call, the walk's number before it, and the routine after it.
    pub fn count(&mut self, call: &Call, walk: u64, answer: &Answer, routine: &Routine) {
        match call {
            Call::Start => self.started += 1,
            Call::Next if answer.handed.is_some() => self.handed_out += 1,
            Call::Next => self.ended += 1,
            Call::Abandon => self.abandoned += 1,
            Call::Create(_) => self.created += usize::from(walk != 0),
            Call::Append(vip, _) if walk != 0 => self.count_append(*vip, walk - 1, routine),
            Call::Append(..) | Call::Remove(_) | Call::Undo => {}
        }
    }

    fn count_append(&mut self, vip: u64, place: u64, routine: &Routine) {
        match routine.explored_blocks.get_index_of(&Vip(vip)) {
            Some(block) if (block as u64) < place => self.appended_behind += 1,
            _ => self.appended_ahead += 1,
        }
    }
}

impl fmt::Display for Walks {
    fn fmt(&self, to: &mut fmt::Formatter) -> fmt::Result {
        let Walks { started, ended, abandoned, handed_out, created, appended_behind, appended_ahead } = self;
        write!(to, "walks {started}, of which ended {ended}, abandoned {abandoned}; blocks handed out {handed_out}; ")?;
        write!(to, "meanwhile blocks created {created}, appends to a block handed out already {appended_behind}, ")?;
        write!(to, "to one still to come {appended_ahead}")
    }
}

/// How calls on books whose walk was made by hand were answered.
#[derive(Default)]
pub struct ByHand {
    accepted: usize,
    spoiled: usize,
    open: usize,
    none: usize,
    else_refused: usize,
}

impl ByHand {
    fn count(&mut self, refusal: Refusal) {
        match refusal {
            0 => self.accepted += 1,
            SPOILED_BOOK => self.spoiled += 1,
            WALK_OPEN => self.open += 1,
            NO_WALK => self.none += 1,
            _ => self.else_refused += 1,
        }
    }
}

impl fmt::Display for ByHand {
    fn fmt(&self, to: &mut fmt::Formatter) -> fmt::Result {
        let ByHand { accepted, spoiled, open, none, else_refused } = self;
        let calls = accepted + spoiled + open + none + else_refused;
        write!(to, "calls at walks made by hand {calls}, accepted {accepted}, refused 13 {spoiled}, 20 {open}, ")?;
        write!(to, "21 {none}, refused else {else_refused}")
    }
}

/// None open; the first places; the last block, the end, and the first place that spoils a book; the end but for a bit
/// above 32; and the most that there is.
pub fn edges(blocks: usize) -> Vec<u64> {
    let end = blocks as u64 + 1;
    let mut edges = vec![0, 1, 2, end - 1, end, end + 1, (1 << 32) + end, u64::MAX];
    edges.sort_unstable();
    edges.dedup();
    edges
}

fn at_walk(book: &Book<Vec<u8>>, walk: u64) -> Book<Vec<u8>> {
    with(book, Numbers { walk, ..book.numbers() })
}

/// A call on copies of the book at other walks. `step` is the machine's answer at the book's own, and `blocks` are the
/// Rust's before the call.
pub fn call_difference(
    book: &Book<Vec<u8>>,
    call: &Call,
    step: &Answer,
    blocks: &[Block],
    tally: &mut ByHand,
) -> Option<String> {
    let mut difference = |walk| {
        let mut copy = at_walk(book, walk);
        let answer = match due_at(copy.numbers(), call, step, blocks) {
            Some(due) => made_as_due(copy, call, &due),
            None => made_by_both(&mut copy, call),
        };
        answer.map(|answer| tally.count(answer.refusal)).err()
    };
    edges(blocks.len()).into_iter().find_map(&mut difference)
}

/// An edit that the walk lets through does what it does at the book's own walk; but where that one refused it, only the
/// reference says what that is.
fn due_at(before: Numbers, call: &Call, step: &Answer, blocks: &[Block]) -> Option<Answer> {
    let by_walk = by_rust(before, call, blocks);
    if by_walk.is_some() {
        return by_walk;
    }
    match step.refusal {
        0 => Some(Answer::plain(0, Numbers { walk: before.walk, ..step.numbers })),
        WALK_OPEN => None,
        refusal => Some(Answer::plain(refusal, before)),
    }
}

/// The answers of all calls that look, each about a part that is there or not.
fn looks(book: &Book<Vec<u8>>) -> [Result<String, Refusal>; 7] {
    fn shown<T: fmt::Debug>(look: Result<T, vtil::Refusal>) -> Result<String, Refusal> {
        look.map(|look| format!("{look:?}")).map_err(vtil::Refusal::number)
    }
    [
        shown(book.overview()),
        shown(book.block(0)),
        shown(book.instruction(0, 0)),
        shown(book.block_vip(0, Links::Prev, 0)),
        shown(book.convention(1)),
        shown(book.convention_register(0, Registers::Param, 0)),
        shown(book.charge(book.rates())),
    ]
}

/// A look is what it is without a walk, or 13.
fn look_difference(book: &Book<Vec<u8>>, blocks: usize) -> Option<String> {
    let plain = looks(&at_walk(book, 0));
    let mut difference = |walk| {
        let is_spoiled = Walk::from_number(walk).0.is_some_and(|place| place > blocks as u64);
        let got = looks(&at_walk(book, walk));
        let due = if is_spoiled { std::array::from_fn(|_| Err(SPOILED_BOOK)) } else { plain.clone() };
        (got != due).then(|| format!("looks at walk {walk} of {blocks} blocks {got:?}, due {due:?}"))
    };
    edges(blocks).into_iter().find_map(&mut difference)
}

/// A whole list, from its opening at other walks. `blocks` are those of its file.
pub fn list_difference(opened: &Book<Vec<u8>>, calls: &[Call], blocks: usize, tally: &mut ByHand) -> Option<String> {
    let mut difference = |walk| {
        let start = at_walk(opened, walk);
        let list = list_by_hand(&start, calls, |_, _, answer| tally.count(answer.refusal));
        list.err().map(|text| format!("from walk {walk}: {text}"))
    };
    let end = blocks as u64 + 1;
    let listed = [end, end + 1].into_iter().find_map(&mut difference);
    listed.or_else(|| look_difference(opened, blocks))
}

/// The walk over a file that both accept, which consumes this many bytes.
pub fn file_difference(file: &[u8], consumed: usize) -> Option<String> {
    caught(|| held(walked_difference(file, consumed))).err()
}

fn walked_difference(file: &[u8], consumed: usize) -> Option<String> {
    let due = blocks(Routine::from_vec(file).expect("the Rust accepted the same bytes"));
    let opened = Book::open(file, vec![0; consumed], vec![], Rates::default());
    let book = opened.expect("the library opened the same bytes");
    if due.len() <= MOST_WALKED {
        return whole_difference(book, &due);
    }
    let places = [0, 1, due.len() / 2, due.len() - 1, due.len(), due.len() + 1];
    places.into_iter().find_map(|place| difference_of(&mut at_walk(&book, place as u64 + 1), &Call::Next, &due))
}

/// From the start to the end, and once more.
fn whole_difference(mut book: Book<Vec<u8>>, blocks: &[Block]) -> Option<String> {
    let nexts = vec![Call::Next; blocks.len() + 2];
    let start = difference_of(&mut book, &Call::Start, blocks);
    start.or_else(|| nexts.iter().find_map(|next| difference_of(&mut book, next, blocks)))
}

/// A call of the walk, beside what the Rust's blocks make of it.
fn difference_of(book: &mut Book<Vec<u8>>, call: &Call, blocks: &[Block]) -> Option<String> {
    let due = by_rust(book.numbers(), call, blocks).expect("the walk decides its own calls");
    let got = made(book, call);
    (got != due).then(|| format!("{call:?}: library {got:?}, Rust {due:?}"))
}

/// As many blocks as an image has room for.
fn most_blocks() -> Vec<u8> {
    let count = (MOST_LENT - minimal_routine().len()) / EMPTY_BLOCK;
    empty_blocks(&(0..count as u64).collect::<Vec<_>>())
}

/// One block, with as many instructions as an image has room for.
fn longest_block() -> Vec<u8> {
    let mut nop = Draft::default();
    nop.operation(b"nop", 0);
    nop.operands_and_rest(&mut Rng::new(1), 0);
    filled_block(&nop.bytes, 1, MOST_LENT)
}

/// Offsets, lengths and places at the limit of what is lent.
pub fn limits(report: &mut Report) {
    for (name, file) in [("the most blocks", most_blocks()), ("the longest block", longest_block())] {
        if file_difference(&file, file.len()).is_some() {
            report.difference(|| format!("{name} that an image holds: a walk hands out what the Rust does not have"));
        }
    }
}
