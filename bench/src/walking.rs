//! A walk over the blocks of the 8 MB routine: one next, wherever the walk stands, beside a look at the same book, since
//! both pass over the image once; and a walk from its start to its end.

use crate::clock::{heading, middle_of_both, print_middle, print_with_goal, time, ROUNDS};
use crate::inputs::RATES;
use crate::reading::{library_looks, routine_of_instructions, Input};
use std::time::Duration;
use vtil::{Book, Numbers, Rates};

/// How fast a look has to be at least, in times the speed of a next: a next takes at most a tenth more.
const GOAL: f64 = 1.0 / 1.1;

/// The next of a walk that stands at this place.
fn library_next(book: &Book<&[u8]>, place: u64) -> Duration {
    let mut book = Book::resume(Numbers { walk: place + 1, ..book.numbers() }, book.image(), book.journal());
    let mut sent = None;
    let took = time(|| sent = book.walk_next().map(|sent| sent.map(|sent| sent.place)).ok());
    assert_eq!(sent, Some(Some(place)), "the block at the walk's place is handed out");
    took
}

/// How long each next of a whole walk took, that of the end too.
fn whole_walk(book: &mut Book<&[u8]>, blocks: usize) -> Vec<Duration> {
    let mut walk = book.walk().expect("an opened book can be walked");
    let mut places = vec![];
    let one = |_| time(|| places.extend(walk.next().expect("the walk is open").map(|sent| sent.place)));
    let took = (0..=blocks).map(one).collect();
    assert!(places.into_iter().eq(0..blocks as u64), "every block is handed out, in order");
    assert_eq!(walk.book().walk_place(), None, "the walk has come to its end");
    took
}

pub fn walks(most_blocks: usize) {
    let Some(Input { file, blocks, .. }) = Some(routine_of_instructions()).filter(|input| input.blocks <= most_blocks)
    else {
        return;
    };
    let (mut image, mut journal) = (vec![1; file.len()], vec![1; 4096]);
    let opened = Book::open(&file, &mut image[..], &mut journal[..], Rates(RATES));
    let numbers = opened.expect("the measured files can be opened").numbers();
    let mut book = Book::resume(numbers, &image[..], &journal[..]);

    heading(&format!("a walk, 8 MB, the middle of {ROUNDS} rounds"), "library look", "library next");
    for (name, place) in [("first", 0), ("middle", blocks / 2), ("last", blocks - 1)] {
        let times = middle_of_both(|| library_looks(&book), || library_next(&book, place as u64));
        print_with_goal(&format!("next, the {name} of 4,000 blocks"), file.len(), times, GOAL);
    }
    print_middle("a whole walk, one of its nexts", whole_walk(&mut book, blocks));
}
