//! Lists of calls: after every call the answer, the book, the image and the journal beside the reference's routine
//! machine, and the written bytes, the sum, the charge, the walk and the copy for outside reviewers beside the Rust, which
//! has create_block and remove_block of its own. Then the whole list again, in one call, and in two: from the opening to
//! its middle, and on from there. Every call and every list is also made on books with sums and walks made by hand.

use crate::by_rust::{edit, refusal_difference, Crooked};
use crate::calls::{self, Answer, Handed};
use crate::charges;
use crate::outside;
use crate::report::{for_reference, held, hex, shrink, Report};
use crate::sums::{self, Change};
use crate::to_c;
use crate::walks::{self, finished_difference, Walks};
use oracle::charge::{counts, Counts};
use oracle::lists::{self, List};
use oracle::original;
use oracle::reference::{self, Call, Machine, Refusal, NOTHING_TO_TAKE_BACK};
use oracle::rng::Rng;
use oracle::walk::{blocks, Block};
use std::cmp::Ordering;
use std::collections::BTreeMap;
use vtil::{Book, Numbers, Rates};
use vtil_parser::Routine;

/// Keeps the edits that none has taken back.
fn note(history: &mut Vec<Call>, call: &Call) {
    match call {
        Call::Undo => {
            history.pop();
        }
        Call::Start | Call::Next | Call::Abandon => {}
        edit => history.push(edit.clone()),
    }
}

/// One list, in an image and a journal of exactly its lengths, as far as the first difference.
struct Run<'a> {
    list: &'a List,
    machine: Machine,
    history: Vec<Call>,
    book: Book<Vec<u8>>,
    /// How many instructions of each group the Rust's routine has, and its blocks.
    counts: Counts,
    blocks: Vec<Block>,
    /// What the library has handed out since the last walk was started.
    sent: Vec<Handed>,
    /// What the last call answered, or the opening.
    last: Answer,
    /// What the machine says of the last call.
    step: reference::Answer,
}

/// An image and a journal of exactly the list's lengths, in which nothing is open.
fn memory_for(list: &List) -> Book<Vec<u8>> {
    Book::resume(Numbers::default(), vec![0xa5; list.image_length], vec![0x5a; list.journal_length])
}

fn opened(list: &List) -> Book<Vec<u8>> {
    let mut book = memory_for(list);
    book.reopen(&list.file, Rates(list.rates)).expect("lists have room for their files");
    book
}

/// By the Rust.
fn read(list: &List) -> Routine {
    Routine::from_vec(&list.file).expect("document 01 accepts this file")
}

fn machine_for(list: &List) -> Machine {
    Machine::start(&list.file, list.image_length, list.journal_length, list.rates)
}

/// What the lists came to, beside the machine's answers.
#[derive(Default)]
struct Tally {
    /// How often a call left a larger sum, a smaller one, and the same.
    larger: usize,
    smaller: usize,
    same: usize,
    crooked: Crooked,
    walks: Walks,
    sums_by_hand: sums::Tally,
    walks_by_hand: walks::ByHand,
    copies: outside::Tally,
}

impl Tally {
    fn count(&mut self, before: u64, after: u64) {
        match after.cmp(&before) {
            Ordering::Greater => self.larger += 1,
            Ordering::Less => self.smaller += 1,
            Ordering::Equal => self.same += 1,
        }
    }

    fn print(&self) {
        println!("{}", self.crooked);
        println!("{}", self.walks);
        println!("sums after a call: larger {}, smaller {}, as before {}", self.larger, self.smaller, self.same);
        self.sums_by_hand.print();
        println!("{}", self.walks_by_hand);
        println!("in lists: {}", self.copies);
    }
}

impl Run<'_> {
    fn start(list: &List) -> Run<'_> {
        let book = opened(list);
        let numbers = book.numbers();
        Run {
            list,
            machine: machine_for(list),
            history: vec![],
            book,
            counts: counts(&read(list)),
            blocks: blocks(read(list)),
            sent: vec![],
            last: Answer::plain(0, numbers),
            step: reference::Answer { refusal: 0, book: for_reference(numbers), offset: 0, length: 0 },
        }
    }

    /// The Rust's routine is no value to keep: it is read again, and every edit that still stands is done again.
    fn replayed(&self) -> Result<Routine, original::Answer> {
        let mut routine = read(self.list);
        self.history.iter().try_for_each(|call| edit(&mut routine, call))?;
        Ok(routine)
    }

    /// Of rates and sum after the opening, or after a call.
    fn sum_difference(&self) -> Option<String> {
        charges::sum_difference(&self.book, &self.counts, self.list.rates)
    }

    /// Makes the call, by all sides.
    fn make(&mut self, call: &Call, tally: &mut Tally) -> Result<(), String> {
        let before = self.book.numbers();
        self.step = self.machine.step(call);
        let due = Answer::due(&self.step, before, &self.machine.image());
        held(self.rust_difference(call, &due, tally))?;
        if due.refusal == 0 {
            note(&mut self.history, call);
        }
        let refused = |answer| format!("document 01 does what the Rust refuses: {answer:?}");
        let rust = self.replayed().map_err(refused)?;
        let change = Change { before: self.counts, after: counts(&rust) };
        held(sums::call_difference(&self.book, call, &due, &change, &mut tally.sums_by_hand))?;
        held(walks::call_difference(&self.book, call, &due, &self.blocks, &mut tally.walks_by_hand))?;
        held(self.library_difference(call, &due))?;
        self.counts = change.after;
        tally.count(before.sum, due.numbers.sum);
        if due.refusal == 0 {
            tally.walks.count(call, before.walk, &due, &rust);
            held(self.accepted_difference(call, &due))?;
        }
        self.last = due;
        held(self.memory_difference(rust))?;
        held(self.outside_difference(tally))
    }

    /// What the Rust's values before the call make of it: of the walk, and of the refusals of an edit.
    fn rust_difference(&self, call: &Call, due: &Answer, tally: &mut Tally) -> Option<String> {
        let before = self.book.numbers();
        if let Some(rust) = walks::by_rust(before, call, &self.blocks) {
            return (*due != rust).then(|| format!("document 02 {due:?}, Rust {rust:?}"));
        }
        if due.numbers.walk != before.walk {
            return Some(format!("document 02 leaves walk {} of {}", due.numbers.walk, before.walk));
        }
        if matches!(call, Call::Undo) {
            let rust = if self.history.is_empty() { NOTHING_TO_TAKE_BACK } else { 0 };
            return (due.refusal != rust).then(|| format!("document 01 refuses {}, Rust {rust}", due.refusal));
        }
        if due.refusal == 0 {
            return None;
        }
        let routine = self.replayed().expect("the Rust did the same edits");
        tally.crooked.count(&routine, call, due.refusal);
        refusal_difference(routine, call, due.refusal)
    }

    fn library_difference(&mut self, call: &Call, due: &Answer) -> Option<String> {
        if matches!(call, Call::Next) {
            let to_c = to_c::next_difference(&self.book, &self.step);
            if to_c.is_some() {
                return to_c;
            }
        }
        let got = calls::made(&mut self.book, call);
        (got != *due).then(|| format!("library {got:?}, document 01 {due:?}"))
    }

    /// Keeps what an accepted call changed: the Rust's blocks, and what was handed out.
    fn accepted_difference(&mut self, call: &Call, answer: &Answer) -> Option<String> {
        let routine = self.replayed().expect("the Rust did the same edits");
        match call {
            Call::Start => self.sent.clear(),
            Call::Next if answer.handed.is_none() => return finished_difference(&self.sent, routine),
            Call::Next => self.sent.extend(answer.handed.clone()),
            Call::Abandon => {}
            Call::Create(_) | Call::Remove(_) | Call::Append(..) | Call::Undo => self.blocks = blocks(routine),
        }
        None
    }

    fn memory_difference(&self, rust: Routine) -> Option<String> {
        if self.book.image() != self.machine.image() {
            return Some("another image than document 01's".to_string());
        }
        if self.book.journal() != self.machine.journal() {
            return Some("another journal than document 01's".to_string());
        }
        if self.book.written() != rust.into_bytes().expect("the sink has the routine's size") {
            return Some("other written bytes than the Rust's".to_string());
        }
        self.sum_difference().or_else(|| charges::difference(&self.book, &self.counts))
    }

    fn outside_difference(&self, tally: &mut Tally) -> Option<String> {
        let routine = self.replayed().expect("the Rust did the same edits");
        outside::difference(&self.book, routine, &mut tally.copies)
    }
}

/// The list in one call, or in one for each half, has to leave what its calls left one by one.
fn difference_at_once(run: &Run) -> Option<String> {
    let calls = calls::listed(&run.list.calls);
    let (first, second) = calls.split_at(calls.len() / 2);
    let (file, rates) = (&run.list.file, Rates(run.list.rates));
    let mut whole = memory_for(run.list);
    let last = whole.run(file, &calls, rates).expect("lists have room for their files");
    let mut halves = memory_for(run.list);
    let first = halves.run(file, first, rates).expect("lists have room for their files");
    let second = if second.is_empty() { first } else { halves.run_on(second) };
    let due = (&run.last, &run.book);
    calls::difference_at_once("at once", (last, &whole), due)
        .or_else(|| calls::difference_at_once("in halves", (second, &halves), due))
        .or_else(|| to_c::file_list_difference(run.list, &run.step))
        .or_else(|| to_c::list_difference(&opened(run.list), &run.list.calls, &run.step))
}

/// The list from its opening, on books made by hand.
fn difference_by_hand(list: &List, tally: &mut Tally) -> Option<String> {
    let (opened, calls) = (opened(list), &list.calls);
    sums::list_difference(&opened, calls, &mut tally.sums_by_hand).or_else(|| {
        let blocks = read(list).explored_blocks.len();
        walks::list_difference(&opened, calls, blocks, &mut tally.walks_by_hand)
    })
}

fn difference(list: &List, tally: &mut Tally) -> Option<String> {
    let mut run = Run::start(list);
    run.sum_difference()
        .or_else(|| list.calls.iter().find_map(|call| run.make(call, tally).err()))
        .or_else(|| difference_at_once(&run))
        .or_else(|| outside::by_hand_difference(&run.book, &mut tally.copies))
        .or_else(|| difference_by_hand(list, tally))
}

fn with_calls(list: &List, calls: &[Call]) -> List {
    List { file: list.file.clone(), calls: calls.to_vec(), ..*list }
}

fn describe(list: &List) -> String {
    let difference = |calls: &[Call]| difference(&with_calls(list, calls), &mut Tally::default());
    let calls = shrink(&list.calls, |calls| difference(calls).is_some());
    let text = difference(&calls).expect("shrinking keeps the difference");
    let List { image_length: image, journal_length: journal, rates, .. } = list;
    let file = hex(&list.file);
    format!("list: {text}: image {image}, journal {journal}, rates {rates:?}, calls {calls:?}, file {file}")
}

/// How often the machine gave each answer: 0 where it accepted, else the refusal.
#[derive(Default)]
struct Answers(BTreeMap<Refusal, usize>);

impl Answers {
    fn count(&mut self, list: &List) {
        let mut machine = machine_for(list);
        for call in &list.calls {
            *self.0.entry(machine.step(call).refusal).or_default() += 1;
        }
    }

    fn print(&self) {
        let calls: usize = self.0.values().sum();
        let accepted = self.0.get(&0).unwrap_or(&0);
        let refused = self.0.iter().filter(|(&refusal, _)| refusal != 0);
        let refused: Vec<String> = refused.map(|(refusal, count)| format!("{refusal}: {count}")).collect();
        println!("calls {calls}, accepted {accepted}, refused {}", refused.join(", "));
    }
}

pub fn run(count: usize, seed: u64, report: &mut Report) {
    let mut rng = Rng::new(seed);
    let (mut answers, mut tally) = (Answers::default(), Tally::default());
    let (mut at_0, mut at_largest) = (0, 0);
    for _ in 0..count {
        let list = lists::list(&mut rng);
        answers.count(&list);
        at_0 += usize::from(list.rates == [0; 6]);
        at_largest += usize::from(list.rates == [u32::MAX; 6]);
        if difference(&list, &mut tally).is_some() {
            report.difference(|| describe(&list));
        }
    }
    println!("lists {count}, of which opened at rates of 0 {at_0}, of 2^32 - 1 {at_largest}");
    answers.print();
    tally.print();
}
