//! The walk over a routine's blocks: what it hands out, which edits go on meanwhile, and books whose walk was made by
//! hand.

use vtil::c::{vtil_run_on, vtil_walk_next};
use vtil::{
    operation, read_at, BlockRef, Book, Call, Immediate, Instruction, Last, Links, Numbers, Operand, Rates, Refusal,
    Registers, Routine, Sent, Vip, MOST_LENT, OPERATIONS,
};

const RATES: Rates = Rates([1, 20, 300, 4_000, 50_000, 600_000]);

const MINIMAL: usize = 114;
const EMPTY_BLOCK: usize = 36;

/// How many blocks the sample "blocks" has.
const BLOCKS: u64 = 3;

fn sample(name: &str) -> Vec<u8> {
    let path = format!("{}/../../samples/{name}.vtil", env!("CARGO_MANIFEST_DIR"));
    std::fs::read(&path).unwrap_or_else(|error| panic!("{path}: {error}"))
}

/// Its operands are immediates.
fn named(name: &str) -> Vec<u8> {
    let op = operation(name).unwrap();
    let operands = vec![Operand::Immediate(Immediate::default()); OPERATIONS[op as usize].1];
    Instruction { op, operands, ..Default::default() }.to_bytes().unwrap()
}

type Owned = Book<Vec<u8>>;

fn opened(name: &str) -> Owned {
    let file = sample(name);
    Book::open(&file, vec![0xa5; file.len() + 500], vec![0x5a; 2000], RATES).unwrap()
}

/// The sample "blocks" with an edit to take back, and a walk that has handed out so many blocks.
fn walked(handed_out: u64) -> Owned {
    let mut book = opened("blocks");
    book.create_block(Vip(7)).unwrap();
    book.walk_start().unwrap();
    for _ in 0..handed_out {
        assert!(book.walk_next().unwrap().is_some());
    }
    book
}

/// A copy of the book whose walk is another.
fn with_walk(book: &Owned, walk: u64) -> Owned {
    Book::resume(Numbers { walk, ..book.numbers() }, book.image().to_vec(), book.journal().to_vec())
}

/// The vips of the blocks, in order.
fn vips(book: &Owned) -> Vec<u64> {
    book.read().unwrap().explored_blocks().map(|block| block.vip().0).collect()
}

fn vip_of(sent: &Sent) -> u64 {
    let (block, end) = read_at::<BlockRef>(sent.bytes, 0).unwrap();
    assert_eq!(end, sent.bytes.len());
    block.vip().0
}

/// The next block is the one at this place, whole and where it lies in the image.
fn hands_out(book: &mut Owned, place: u64) {
    let before = book.clone();
    let block = before.read().unwrap().explored_blocks().nth(place as usize).unwrap();
    let offset = block.bytes().as_ptr() as usize - before.image().as_ptr() as usize;
    assert_eq!(book.walk_next(), Ok(Some(Sent { place, offset, bytes: block.bytes() })));
    leaves_all_but_walk(book, &before, place + 2);
}

fn ends(book: &mut Owned) {
    let before = book.clone();
    assert_eq!(book.walk_next(), Ok(None));
    leaves_all_but_walk(book, &before, 0);
}

fn leaves_all_but_walk(book: &Owned, before: &Owned, walk: u64) {
    assert_eq!(book.numbers(), Numbers { walk, ..before.numbers() });
    assert_eq!((book.image(), book.journal()), (before.image(), before.journal()));
    assert_eq!(book.walk_place(), walk.checked_sub(1));
}

/// The call is refused, and the book stays as it was.
fn refused(book: &Owned, call: Call, due: Refusal) {
    let mut copy = book.clone();
    assert_eq!(single(&mut copy, call), Err(due), "{call:?} on {:?}", book.numbers());
    let mut listed = book.clone();
    assert_eq!(listed.run_on(&[call]), Err(due), "{call:?} on {:?}", book.numbers());
    for copy in [copy, listed] {
        assert_eq!(copy.numbers(), book.numbers(), "{call:?}");
        assert_eq!((copy.image(), copy.journal()), (book.image(), book.journal()), "{call:?}");
    }
}

/// The call by its own name, answered as in a list.
fn single(book: &mut Owned, call: Call) -> Last {
    match call {
        Call::Create(vip) => book.create_block(vip).map(|()| None),
        Call::Remove(vip) => book.remove_block(vip).map(|()| None),
        Call::Append(vip, bytes) => book.append(vip, bytes).map(|()| None),
        Call::Undo => book.undo().map(|()| None),
        Call::WalkStart => book.walk_start().map(|()| None),
        Call::WalkNext => {
            book.walk_next().map(|sent| sent.map(|Sent { offset, bytes, .. }| offset..offset + bytes.len()))
        }
        Call::WalkAbandon => book.walk_abandon().map(|()| None),
    }
}

#[test]
fn a_walk_hands_out_each_block_once() {
    let mut book = opened("blocks");
    assert_eq!((book.numbers().walk, book.walk_place()), (0, None));
    // After its end it can be started again, and hands out all again.
    for _ in 0..2 {
        let before = book.clone();
        book.walk_start().unwrap();
        leaves_all_but_walk(&book, &before, 1);
        (0..BLOCKS).for_each(|place| hands_out(&mut book, place));
        ends(&mut book);
        refused(&book, Call::WalkNext, Refusal::NoWalk);
    }
}

#[test]
fn a_routine_without_blocks_is_walked_too() {
    let mut book = opened("minimal");
    book.walk_start().unwrap();
    refused(&book, Call::WalkStart, Refusal::WalkOpen);
    ends(&mut book);
    refused(&book, Call::WalkNext, Refusal::NoWalk);
    // A block that is created before the end is said is handed out.
    book.walk_start().unwrap();
    book.create_block(Vip(1)).unwrap();
    hands_out(&mut book, 0);
    ends(&mut book);
}

#[test]
fn an_abandoned_walk_is_closed_wherever_it_stands() {
    for handed_out in 0..=BLOCKS + 1 {
        let mut book = walked(handed_out);
        let before = book.clone();
        book.walk_abandon().unwrap();
        leaves_all_but_walk(&book, &before, 0);
        refused(&book, Call::WalkAbandon, Refusal::NoWalk);
        refused(&book, Call::WalkNext, Refusal::NoWalk);
        book.walk_start().unwrap();
        hands_out(&mut book, 0);
    }
}

/// Start, remove and undo wait until the walk is closed. That is said before everything but 10 and 13.
#[test]
fn what_waits_until_the_walk_is_closed() {
    for handed_out in 0..=BLOCKS + 1 {
        let book = walked(handed_out);
        refused(&book, Call::WalkStart, Refusal::WalkOpen);
        refused(&book, Call::Remove(Vip(7)), Refusal::WalkOpen);
        refused(&book, Call::Undo, Refusal::WalkOpen);
        // Before 15, before 16, before 12 and 13 of the sum.
        refused(&book, Call::Remove(Vip(9)), Refusal::WalkOpen);
        let mut nothing = Book::open(&sample("blocks"), vec![0; 1134], vec![], RATES).unwrap();
        nothing.walk_start().unwrap();
        let nothing = Book::resume(Numbers { sum: 0, ..nothing.numbers() }, nothing.image().to_vec(), vec![]);
        refused(&nothing, Call::Undo, Refusal::WalkOpen);
        refused(&nothing, Call::Remove(Vip(0x1010)), Refusal::WalkOpen);

        let mut book = book;
        book.walk_abandon().unwrap();
        book.remove_block(Vip(0x1010)).unwrap();
        book.undo().unwrap();
        book.undo().unwrap();
        assert_eq!(book.written(), sample("blocks"));
    }
}

/// 10 and 13 come before 20 and 21.
#[test]
fn a_book_that_is_refused_anyhow() {
    let book = walked(1);
    let calls = [Call::WalkStart, Call::WalkNext, Call::WalkAbandon, Call::Remove(Vip(9)), Call::Undo];
    for walk in [0, 2] {
        let spoiled = |written, used| {
            let numbers = Numbers { written, used, walk, ..book.numbers() };
            Book::resume(numbers, book.image().to_vec(), book.journal().to_vec())
        };
        let long = Book::resume(Numbers { walk, ..book.numbers() }, book.image().to_vec(), vec![0; MOST_LENT + 1]);
        for call in calls {
            refused(&spoiled(book.numbers().written - 1, 20), call, Refusal::SpoiledBook);
            refused(&spoiled(u64::MAX, 20), call, Refusal::SpoiledBook);
            refused(&spoiled(book.numbers().written, 2001), call, Refusal::SpoiledBook);
            let mut copy = long.clone();
            assert_eq!((single(&mut copy, call), copy.numbers()), (Err(Refusal::LendingTooLarge), long.numbers()));
        }
    }
    let mut odd = book.image().to_vec();
    *odd.last_mut().unwrap() = 1;
    refused(&Book::resume(book.numbers(), odd, book.journal().to_vec()), Call::WalkNext, Refusal::SpoiledBook);
    refused(&Book::resume(Numbers::default(), vec![], vec![]), Call::WalkStart, Refusal::SpoiledBook);
}

/// A new block comes last: it is sent too, also where it came after the last of the others.
#[test]
fn a_new_block_is_handed_out() {
    for created_after in 0..=BLOCKS {
        let mut book = opened("blocks");
        book.walk_start().unwrap();
        for place in 0..BLOCKS {
            if place == created_after {
                book.create_block(Vip(7)).unwrap();
            }
            hands_out(&mut book, place);
        }
        if created_after == BLOCKS {
            book.create_block(Vip(7)).unwrap();
        }
        let last = book.walk_next().unwrap().unwrap();
        assert_eq!((last.place, vip_of(&last), last.bytes.len()), (BLOCKS, 7, EMPTY_BLOCK));
        ends(&mut book);
        // No more of a walk is left than of any other edit: all is taken back.
        book.undo().unwrap();
        assert_eq!(book.written(), sample("blocks"));
    }
}

/// What is appended to a block still to come is sent with it; to one that was sent already, not at all.
#[test]
fn an_appended_instruction_is_handed_out_with_its_block() {
    let nop = named("nop");
    for (handed_out, size) in [(0, 2 * nop.len()), (3, 2 * nop.len()), (4, nop.len())] {
        let mut book = opened("blocks");
        book.create_block(Vip(7)).unwrap();
        book.append(Vip(7), &nop).unwrap();
        book.walk_start().unwrap();
        let mut sizes = vec![];
        for place in 0..4 {
            if place == handed_out {
                book.append(Vip(7), &nop).unwrap();
            }
            sizes.push(book.walk_next().unwrap().unwrap().bytes.len());
        }
        if handed_out == 4 {
            book.append(Vip(7), &nop).unwrap();
        }
        assert_eq!(sizes[3], EMPTY_BLOCK + size);
        ends(&mut book);
    }
}

/// An append to a block before the walk's place moves those after it: where they begin is told as it is then.
#[test]
fn an_append_moves_the_blocks_after_it() {
    let (mut book, nop) = (opened("minimal"), named("nop"));
    for vip in [5, 6] {
        book.create_block(Vip(vip)).unwrap();
    }
    book.walk_start().unwrap();
    hands_out(&mut book, 0);
    book.append(Vip(5), &nop).unwrap();
    let sent = book.walk_next().unwrap().unwrap();
    assert_eq!((sent.offset, vip_of(&sent)), (MINIMAL + EMPTY_BLOCK + nop.len(), 6));
    ends(&mut book);
}

#[test]
fn a_refused_edit_leaves_the_walk() {
    let nop = named("nop");
    for handed_out in 0..=BLOCKS + 1 {
        let book = walked(handed_out);
        refused(&book, Call::Create(Vip(7)), Refusal::BlockPresent);
        refused(&book, Call::Append(Vip(9), &nop), Refusal::NoSuchBlock);
        refused(&book, Call::Append(Vip(7), &nop[1..]), Refusal::ShortFile);
    }
    let mut full = Book::open(&sample("blocks"), vec![0; 1134], vec![0; 100], RATES).unwrap();
    full.walk_start().unwrap();
    refused(&full, Call::Create(Vip(7)), Refusal::ImageFull);
    let mut full = Book::open(&sample("blocks"), vec![0; 1200], vec![0; 19], RATES).unwrap();
    full.walk_start().unwrap();
    refused(&full, Call::Create(Vip(7)), Refusal::JournalFull);
}

/// A walk is no concern of looking.
#[test]
fn looking_goes_on() {
    let plain = with_walk(&walked(0), 0);
    for handed_out in 0..=BLOCKS + 1 {
        assert_eq!(looks(&walked(handed_out)), looks(&plain), "{handed_out}");
    }
}

/// An answer of each call that looks.
fn looks<M: AsRef<[u8]>>(book: &Book<M>) -> Vec<Result<String, Refusal>> {
    vec![
        book.overview().map(|look| format!("{look:?}")),
        book.block(1).map(|look| format!("{look:?}")),
        book.instruction(1, 0).map(|look| format!("{look:?}")),
        book.block_vip(0, Links::Next, 0).map(|look| format!("{look:?}")),
        book.convention(0).map(|look| format!("{look:?}")),
        book.convention_register(0, Registers::Volatile, 0).map(|look| format!("{look:?}")),
        book.charge(RATES).map(|look| format!("{look:?}")),
    ]
}

/// What is due of a call where the walk was made by hand and there are so many blocks: the refusal, or the walk after it.
fn due_by_hand(call: Call, walk: u64, blocks: u64) -> Result<u64, Refusal> {
    match call {
        _ if walk > blocks + 1 => Err(Refusal::SpoiledBook),
        Call::Remove(_) | Call::Undo | Call::WalkStart if walk != 0 => Err(Refusal::WalkOpen),
        Call::WalkNext | Call::WalkAbandon if walk == 0 => Err(Refusal::NoWalk),
        Call::WalkStart => Ok(1),
        Call::WalkNext if walk <= blocks => Ok(walk + 1),
        Call::WalkNext | Call::WalkAbandon => Ok(0),
        _ => Ok(walk),
    }
}

/// The call is accepted and leaves this walk. What an edit does beside that is what it does where no walk is open; the
/// walk's own calls do no more.
fn accepted_by_hand(at: &Owned, call: Call, after: u64) {
    let (mut copy, mut listed) = (at.clone(), at.clone());
    let answer = single(&mut copy, call).unwrap();
    assert_eq!(listed.run_on(&[call]), Ok(answer.clone()), "{call:?} on {:?}", at.numbers());
    let is_handed_out = call == Call::WalkNext && after != 0;
    assert_eq!(answer.is_some(), is_handed_out, "{call:?} on {:?}", at.numbers());
    let mut due = with_walk(at, 0);
    if !matches!(call, Call::WalkStart | Call::WalkNext | Call::WalkAbandon) {
        single(&mut due, call).unwrap();
    }
    for copy in [copy, listed] {
        assert_eq!(copy.numbers(), Numbers { walk: after, ..due.numbers() }, "{call:?} on {:?}", at.numbers());
        assert_eq!((copy.image(), copy.journal()), (due.image(), due.journal()), "{call:?} on {:?}", at.numbers());
    }
}

/// Each call at walks made by hand, by itself and in a list. The routine has so many blocks, one of them with vip 7.
fn hold_by_hand(book: &Owned, blocks: u64) {
    let nop = named("nop");
    let edits = [Call::Create(Vip(9)), Call::Append(Vip(7), &nop), Call::Remove(Vip(7)), Call::Undo];
    let walks = [Call::WalkStart, Call::WalkNext, Call::WalkAbandon];
    for walk in [0, 1, 2, blocks, blocks + 1, blocks + 2, blocks + 3, (1 << 32) + blocks, 1 << 63, u64::MAX] {
        let at = with_walk(book, walk);
        let is_spoiled = walk > blocks + 1;
        let due = if is_spoiled { vec![Err(Refusal::SpoiledBook); 7] } else { looks(book) };
        assert_eq!(looks(&at), due, "{walk} of {blocks}");
        for call in edits.into_iter().chain(walks) {
            match due_by_hand(call, walk, blocks) {
                Ok(after) => accepted_by_hand(&at, call, after),
                Err(refusal) => refused(&at, call, refusal),
            }
        }
    }
}

#[test]
fn walks_made_by_hand() {
    let mut book = opened("minimal");
    book.create_block(Vip(7)).unwrap();
    hold_by_hand(&book, 1);
    let mut book = opened("blocks");
    book.create_block(Vip(7)).unwrap();
    hold_by_hand(&book, BLOCKS + 1);
}

/// No block, and so no place but that of the end.
#[test]
fn walks_made_by_hand_over_no_block() {
    let book = opened("minimal");
    for walk in [2, 3, u64::MAX] {
        for call in [Call::Create(Vip(7)), Call::Undo, Call::WalkStart, Call::WalkNext, Call::WalkAbandon] {
            refused(&with_walk(&book, walk), call, Refusal::SpoiledBook);
        }
        assert_eq!(with_walk(&book, walk).overview(), Err(Refusal::SpoiledBook));
    }
    ends(&mut with_walk(&book, 1));
    let mut at_end = with_walk(&book, 1);
    at_end.create_block(Vip(7)).unwrap();
    hands_out(&mut at_end, 0);
}

/// A walk made by hand hands out from its place on.
#[test]
fn a_walk_made_by_hand_goes_on() {
    for place in 0..=BLOCKS {
        let mut book = with_walk(&opened("blocks"), place + 1);
        (place..BLOCKS).for_each(|place| hands_out(&mut book, place));
        ends(&mut book);
    }
}

#[test]
fn no_opening_leaves_a_walk_open() {
    let file = sample("blocks");
    let mut book = walked(2);
    book.reopen(&file, RATES).unwrap();
    assert_eq!(book.walk_place(), None);
    let mut book = walked(2);
    assert_eq!((book.run(&file, &[], RATES), book.walk_place()), (Ok(Ok(None)), None));
    // A refused one answers zeros, the walk's number too.
    let mut book = walked(2);
    assert_eq!((book.reopen(&[], RATES), book.numbers()), (Err(Refusal::ShortFile), Numbers::default()));
    let mut book = walked(2);
    let start = [Call::WalkStart];
    assert_eq!((book.run(&[], &start, RATES), book.numbers()), (Err(Refusal::ShortFile), Numbers::default()));
}

/// Calls of each kind on the sample "blocks", accepted and refused, with three walks.
fn some_calls<'a>(nop: &'a [u8], jmp: &'a [u8]) -> Vec<Call<'a>> {
    vec![
        Call::WalkNext,
        Call::WalkStart,
        Call::WalkNext,
        Call::Undo,
        Call::Create(Vip(7)),
        Call::WalkNext,
        Call::Append(Vip(7), nop),
        Call::Append(Vip(0x1000), nop),
        Call::Remove(Vip(7)),
        Call::WalkNext,
        Call::WalkStart,
        Call::WalkNext,
        Call::Append(Vip(7), jmp),
        Call::WalkNext,
        Call::WalkNext,
        Call::Remove(Vip(0x1000)),
        Call::WalkAbandon,
        Call::WalkStart,
        Call::WalkNext,
        Call::WalkAbandon,
        Call::Undo,
        Call::Undo,
        Call::WalkStart,
        Call::WalkNext,
        Call::WalkNext,
        Call::WalkNext,
        Call::Create(Vip(8)),
        Call::WalkNext,
        Call::WalkNext,
        Call::WalkNext,
        Call::WalkNext,
        Call::Undo,
    ]
}

/// A list leaves what its calls leave one by one, wherever it is parted, and says what its last call hands out.
#[test]
fn lists_of_calls_with_walks() {
    let (nop, jmp, file) = (named("nop"), named("jmp"), sample("blocks"));
    let calls = some_calls(&nop, &jmp);
    let mut one_by_one = opened("blocks");
    let mut handed_out = 0;
    for (place, call) in calls.iter().enumerate() {
        let last = single(&mut one_by_one, *call);
        handed_out += usize::from(matches!(last, Ok(Some(_))));
        let mut whole = Book::resume(Numbers::default(), vec![0; one_by_one.image().len()], vec![0; 2000]);
        assert_eq!(whole.run(&file, &calls[..=place], RATES), Ok(last.clone()), "up to call {place}");
        let mut halves = opened("blocks");
        halves.run_on(&calls[..place]).ok();
        assert_eq!(halves.run_on(&calls[place..=place]), last, "call {place}");
        for book in [whole, halves] {
            assert_eq!(book.numbers(), one_by_one.numbers(), "up to call {place}");
            assert_eq!((book.image(), book.journal()), (one_by_one.image(), one_by_one.journal()), "{place}");
        }
    }
    assert_eq!(handed_out, 10);
}

/// Only what the last call hands out is told, and an empty list hands out nothing, wherever the walk stands.
#[test]
fn what_a_list_hands_out() {
    let mut book = opened("blocks");
    let blocks: Vec<Vec<u8>> = book.read().unwrap().explored_blocks().map(|block| block.bytes().to_vec()).collect();
    assert_eq!(book.run_on(&[Call::WalkStart, Call::WalkNext, Call::Create(Vip(7))]), Ok(None));
    assert_eq!((book.run_on(&[]), book.walk_place()), (Ok(None), Some(1)));
    let part = book.run_on(&[Call::Undo, Call::WalkNext]).unwrap().unwrap();
    assert_eq!(book.image()[part], blocks[1]);
    assert_eq!(book.run_on(&[Call::WalkNext, Call::WalkStart]), Err(Refusal::WalkOpen));
    let part = book.run_on(&[Call::WalkNext]).unwrap().unwrap();
    assert_eq!(part.len(), EMPTY_BLOCK);
    assert_eq!((book.run_on(&[Call::WalkNext]), book.walk_place()), (Ok(None), None));
    assert_eq!(book.run_on(&[Call::WalkNext]), Err(Refusal::NoWalk));
    assert_eq!(book.run_on(&[Call::WalkStart, Call::WalkAbandon]), Ok(None));
}

/// What the safe functions do not hand on: of an answer without a block offset and length are 0.
#[test]
fn an_answer_without_a_block_is_zeros_to_c() {
    let book = opened("blocks");
    for (walk, refusal) in [(0, 21), (BLOCKS + 1, 0), (BLOCKS + 2, 13), (u64::MAX, 13)] {
        let numbers = Numbers { walk, ..book.numbers() };
        let (image, journal) = (book.image(), book.journal());
        // SAFETY: each pointer and length is a slice's.
        let next = unsafe { vtil_walk_next(numbers, image.as_ptr(), image.len(), journal.as_ptr(), journal.len()) };
        assert_eq!((next.refusal, next.offset, next.length), (refusal, 0, 0), "{walk}");
    }
    let [start, next, abandon] = [[4, 0, 0, 0], [5, 0, 0, 0], [6, 0, 0, 0]];
    for (words, last) in [([start, next, start], 20), ([start, next, abandon], 0), ([next, abandon, start], 0)] {
        let (mut image, mut journal, words) = (book.image().to_vec(), book.journal().to_vec(), words.concat());
        // SAFETY: as above, and nothing overlaps.
        let run = unsafe {
            vtil_run_on(
                book.numbers(),
                image.as_mut_ptr(),
                image.len(),
                journal.as_mut_ptr(),
                journal.len(),
                words.as_ptr(),
                words.len(),
                [].as_ptr(),
                0,
            )
        };
        assert_eq!((run.refusal, run.last, run.offset, run.length), (0, last, 0, 0), "{words:?}");
    }
}

/// The walk only reads: image and journal that cannot be written are walked too.
#[test]
fn memory_that_is_only_read() {
    let book = opened("blocks");
    let mut read_only = Book::resume(book.numbers(), book.image(), book.journal());
    let vips_of_all: Vec<u64> = read_only.walk().unwrap().rest().map(|sent| vip_of(&sent)).collect();
    assert_eq!((vips_of_all, read_only.walk_place()), (vips(&book), None));
}

/// A book that was kept with a walk open goes on with it.
#[test]
fn a_kept_walk_goes_on() {
    let book = walked(2);
    let mut kept = Book::resume(book.numbers(), book.image().to_vec(), book.journal().to_vec());
    assert_eq!(kept.walk().map(|_| ()), Err(Refusal::WalkOpen));
    hands_out(&mut kept, 2);
    hands_out(&mut kept, 3);
    ends(&mut kept);
}

/// Offsets and lengths at the limit: the last block of the longest image, and one block that fills it.
#[test]
fn the_last_block_of_the_longest_image() {
    let count = (MOST_LENT - MINIMAL) / EMPTY_BLOCK;
    let mut file = sample("minimal");
    file[110..114].copy_from_slice(&(count as u32).to_le_bytes());
    for vip in 0..count as u64 {
        file.extend(vip.to_le_bytes());
        file.extend([0; EMPTY_BLOCK - 8]);
    }
    let book = Book::open(&file, vec![0; MOST_LENT], vec![], RATES).unwrap();
    let mut book = with_walk(&book, count as u64);
    let last = MINIMAL + EMPTY_BLOCK * (count - 1);
    let due = Sent { place: count as u64 - 1, offset: last, bytes: &file[last..] };
    assert_eq!(book.walk_next(), Ok(Some(due)));
    ends(&mut book);

    let nop = named("nop");
    let count = (MOST_LENT - MINIMAL - EMPTY_BLOCK) / nop.len();
    let mut file = sample("minimal");
    file[110] = 1;
    file.extend([0; 24]);
    file.extend((count as u32).to_le_bytes());
    file.extend(nop.repeat(count));
    file.extend([0; 8]);
    let mut book = Book::open(&file, vec![0; MOST_LENT], vec![], RATES).unwrap();
    book.walk_start().unwrap();
    let due = Sent { place: 0, offset: MINIMAL, bytes: &file[MINIMAL..] };
    assert_eq!(book.walk_next(), Ok(Some(due)));
}

/// The book is lent to the walk, and given back with none open.
#[test]
fn a_walk_gives_the_book_back() {
    let mut book = opened("blocks");
    let mut walk = book.walk().unwrap();
    let mut places = vec![];
    while let Some(sent) = walk.next().unwrap() {
        places.push((sent.place, vip_of(&sent)));
    }
    assert_eq!(walk.next(), Err(Refusal::NoWalk));
    drop(walk);
    assert_eq!(places, [(0, 0x1000), (1, 0x1010), (2, 0x1020)]);
    assert_eq!(book.numbers(), opened("blocks").numbers());

    // One that is dropped before its end is abandoned, wherever it stands.
    for handed_out in 0..=BLOCKS {
        let mut walk = book.walk().unwrap();
        for _ in 0..handed_out {
            walk.next().unwrap();
        }
        assert_eq!(walk.book().walk_place(), Some(handed_out));
        drop(walk);
        assert_eq!(book.numbers(), opened("blocks").numbers());
        book.remove_block(Vip(0x1010)).unwrap();
        book.undo().unwrap();
    }
    book.walk().unwrap().abandon().unwrap();
    assert_eq!(book.walk_place(), None);
    let mut walk = book.walk().unwrap();
    walk.rest().for_each(drop);
    assert_eq!(walk.abandon(), Err(Refusal::NoWalk));

    // One that is forgotten stays open, and is closed by the call of that name.
    std::mem::forget(book.walk().unwrap());
    assert_eq!(book.walk().map(|_| ()), Err(Refusal::WalkOpen));
    assert_eq!(book.undo(), Err(Refusal::WalkOpen));
    book.walk_abandon().unwrap();
    assert_eq!(book.undo(), Err(Refusal::NothingToTakeBack));
}

#[test]
fn edits_while_the_book_is_lent() {
    let (mut book, nop) = (opened("blocks"), named("nop"));
    let mut walk = book.walk().unwrap();
    walk.next().unwrap();
    walk.create_block(Vip(7)).unwrap();
    assert_eq!(walk.create_block(Vip(7)), Err(Refusal::BlockPresent));
    walk.append(Vip(7), &nop).unwrap();
    assert_eq!(walk.append(Vip(9), &nop), Err(Refusal::NoSuchBlock));
    assert_eq!(walk.book().overview().unwrap().blocks, BLOCKS + 1);
    let rest: Vec<u64> = walk.rest().map(|sent| vip_of(&sent)).collect();
    assert_eq!(rest, [0x1010, 0x1020, 7]);
    drop(walk);
    assert_eq!(book.sum(), opened("blocks").sum() + 600_000);
    book.undo().unwrap();
    book.undo().unwrap();
    assert_eq!(book.written(), sample("blocks"));
}

/// The iterator goes on from the walk's place, and leaves it where it is dropped.
#[test]
fn the_rest_of_a_walk() {
    let mut book = opened("blocks");
    let mut walk = book.walk().unwrap();
    assert_eq!(walk.rest().map(|sent| sent.place).next(), Some(0));
    assert_eq!(walk.next().unwrap().unwrap().place, 1);
    let mut rest = walk.rest();
    assert_eq!(rest.next().map(|sent| sent.place), Some(2));
    assert_eq!((rest.next(), rest.next()), (None, None));
    assert_eq!(walk.rest().next(), None);
    assert_eq!(walk.next(), Err(Refusal::NoWalk));
    drop(walk);

    // What it hands out may be kept together, since nothing is edited meanwhile.
    let mut walk = book.walk().unwrap();
    let all: Vec<Sent> = walk.rest().collect();
    let whole: Vec<u8> = all.iter().flat_map(|sent| sent.bytes).copied().collect();
    assert_eq!(whole, sample("blocks")[all[0].offset..]);
}

/// Its memory grows for an edit within a walk as for any other.
#[test]
fn a_routine_is_walked() {
    let (file, nop) = (sample("blocks"), named("nop"));
    let mut routine = Routine::open(&file, RATES).unwrap();
    let mut walk = routine.walk().unwrap();
    walk.next().unwrap();
    walk.create_block(Vip(7)).unwrap();
    for _ in 0..300 {
        walk.append(Vip(7), &nop).unwrap();
    }
    let sizes: Vec<usize> = walk.rest().map(|sent| sent.bytes.len()).collect();
    assert_eq!((sizes.len(), sizes[2]), (3, EMPTY_BLOCK + 300 * nop.len()));
    drop(walk);

    routine.walk_start().unwrap();
    assert_eq!((routine.walk_start(), routine.walk().map(|_| ())), (Err(Refusal::WalkOpen), Err(Refusal::WalkOpen)));
    assert_eq!((routine.undo(), routine.remove_block(Vip(7))), (Err(Refusal::WalkOpen), Err(Refusal::WalkOpen)));
    assert_eq!(routine.walk_next().unwrap().map(|sent| vip_of(&sent)), Some(0x1000));
    routine.create_block(Vip(8)).unwrap();
    assert_eq!(routine.walk_place(), Some(1));
    routine.walk_abandon().unwrap();
    assert_eq!(routine.walk_place(), None);
    assert_eq!((routine.walk_abandon(), routine.walk_next()), (Err(Refusal::NoWalk), Err(Refusal::NoWalk)));
    while routine.undo().is_ok() {}
    assert_eq!(routine.written(), file);
}
