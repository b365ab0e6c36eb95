use crate::c;
use crate::value::Vip;

/// A call of a list that [`Book::run`](crate::Book::run) runs.
#[derive(Clone, Copy, Debug, PartialEq, Eq)]
pub enum Call<'a> {
    Create(Vip),
    Remove(Vip),
    /// The instruction is as a file holds it.
    Append(Vip, &'a [u8]),
    Undo,
    WalkStart,
    /// What it hands out is told where it is the last call of the list: see [`Last`](crate::Last).
    WalkNext,
    WalkAbandon,
}

/// A list of calls as the library takes it: four words for each call, and the instructions of all of them.
#[derive(Default)]
pub(crate) struct Encoded {
    pub words: Vec<u64>,
    pub bytes: Vec<u8>,
}

impl Encoded {
    pub fn of(calls: &[Call]) -> Encoded {
        let mut encoded = Encoded::default();
        calls.iter().for_each(|call| encoded.push(call));
        encoded
    }

    fn push(&mut self, call: &Call) {
        let (kind, vip, bytes): (u64, Vip, &[u8]) = match *call {
            Call::Create(vip) => (c::CREATE, vip, &[]),
            Call::Remove(vip) => (c::REMOVE, vip, &[]),
            Call::Append(vip, bytes) => (c::APPEND, vip, bytes),
            Call::Undo => (c::UNDO, Vip(0), &[]),
            Call::WalkStart => (c::WALK_START, Vip(0), &[]),
            Call::WalkNext => (c::WALK_NEXT, Vip(0), &[]),
            Call::WalkAbandon => (c::WALK_ABANDON, Vip(0), &[]),
        };
        let begin = self.bytes.len();
        self.bytes.extend(bytes);
        self.words.extend([kind, vip.0, begin as u64, self.bytes.len() as u64]);
    }
}
