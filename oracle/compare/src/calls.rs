//! A call of a list, by the library: by itself, and as a part of a list that is made at once.

use crate::report::{number, numbers};
use oracle::reference::{self, Call, Refusal};
use std::ops::Range;
use vtil::{Book, Last, Numbers, Sent, Vip};

/// A block that a call hands out.
#[derive(Clone, Debug, PartialEq)]
pub struct Handed {
    pub place: u64,
    pub offset: usize,
    pub bytes: Vec<u8>,
}

/// What a call answers: the refusal (0: accepted), the book's numbers after it, and the block that it hands out.
#[derive(Clone, Debug, PartialEq)]
pub struct Answer {
    pub refusal: Refusal,
    pub numbers: Numbers,
    pub handed: Option<Handed>,
}

impl Answer {
    /// The same without a block.
    pub fn plain(refusal: Refusal, numbers: Numbers) -> Answer {
        Answer { refusal, numbers, handed: None }
    }

    /// The reference's, of a call on a book with these numbers. The image is the one after the call.
    pub fn due(answer: &reference::Answer, before: Numbers, image: &[u8]) -> Answer {
        let (offset, length) = (answer.offset as usize, answer.length as usize);
        let handed = || Handed { place: before.walk - 1, offset, bytes: image[offset..][..length].to_vec() };
        Answer { refusal: answer.refusal, numbers: numbers(answer.book), handed: (length > 0).then(handed) }
    }

    /// Where in the image the block lies.
    fn part(&self) -> Option<Range<usize>> {
        self.handed.as_ref().map(|handed| handed.offset..handed.offset + handed.bytes.len())
    }
}

pub fn made(book: &mut Book<Vec<u8>>, call: &Call) -> Answer {
    let mut handed = None;
    let copied = |Sent { place, offset, bytes }: Sent| Handed { place, offset, bytes: bytes.to_vec() };
    let answer = match call {
        Call::Create(vip) => book.create_block(Vip(*vip)),
        Call::Remove(vip) => book.remove_block(Vip(*vip)),
        Call::Append(vip, bytes) => book.append(Vip(*vip), bytes),
        Call::Undo => book.undo(),
        Call::Start => book.walk_start(),
        Call::Next => book.walk_next().map(|sent| handed = sent.map(copied)),
        Call::Abandon => book.walk_abandon(),
    };
    Answer { refusal: number(answer), numbers: book.numbers(), handed }
}

pub fn listed(calls: &[Call]) -> Vec<vtil::Call<'_>> {
    let listed = |call| match call {
        &Call::Create(vip) => vtil::Call::Create(Vip(vip)),
        &Call::Remove(vip) => vtil::Call::Remove(Vip(vip)),
        Call::Append(vip, bytes) => vtil::Call::Append(Vip(*vip), bytes),
        Call::Undo => vtil::Call::Undo,
        Call::Start => vtil::Call::WalkStart,
        Call::Next => vtil::Call::WalkNext,
        Call::Abandon => vtil::Call::WalkAbandon,
    };
    calls.iter().map(listed).collect()
}

/// What a list left, and what it said of its last call, beside what its calls left one by one and the last of them
/// answered.
pub fn difference_at_once(
    way: &str,
    (got, book): (Last, &Book<Vec<u8>>),
    (last, one_by_one): (&Answer, &Book<Vec<u8>>),
) -> Option<String> {
    let due = (last.refusal, last.part(), one_by_one.numbers());
    let got = match got {
        Ok(part) => (0, part, book.numbers()),
        Err(refusal) => (refusal.number(), None, book.numbers()),
    };
    if got != due {
        return Some(format!("{way} {got:?}, one by one {due:?}"));
    }
    if (book.image(), book.journal()) != (one_by_one.image(), one_by_one.journal()) {
        return Some(format!("{way} another image or journal than one by one"));
    }
    None
}
