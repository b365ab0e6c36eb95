//! The walk over the blocks, worked out from the Rust's own values; the Rust has no such call.

use crate::reference::{Call, Refusal, NO_WALK, SPOILED_BOOK, WALK_OPEN};
use scroll::{ctx::SizeWith, Pwrite};
use vtil_parser::{BasicBlock, Routine};

/// A block as the Rust writes it, and where it stands in what the Rust writes of the routine.
#[derive(Clone, Debug, PartialEq)]
pub struct Block {
    pub offset: usize,
    pub bytes: Vec<u8>,
}

/// By the Rust's writer of one block.
pub fn written(block: BasicBlock) -> Vec<u8> {
    let mut bytes = vec![0; BasicBlock::size_with(&block)];
    bytes.pwrite_with::<BasicBlock>(block, 0, scroll::LE).expect("the sink has the block's size");
    bytes
}

/// All blocks, in the Rust's order.
pub fn blocks(routine: Routine) -> Vec<Block> {
    let of_blocks: usize = routine.explored_blocks.values().map(BasicBlock::size_with).sum();
    let mut offset = Routine::size_with(&routine) - of_blocks;
    let mut blocks = vec![];
    for block in routine.explored_blocks.into_values() {
        let bytes = written(block);
        let end = offset + bytes.len();
        blocks.push(Block { offset, bytes });
        offset = end;
    }
    blocks
}

/// All that there is to a walk: the place of the block that it hands out next; none where none is open.
#[derive(Clone, Copy, Debug, Default, PartialEq)]
pub struct Walk(pub Option<u64>);

impl Walk {
    /// As a book has it.
    pub fn from_number(number: u64) -> Walk {
        Walk(number.checked_sub(1))
    }

    pub fn number(self) -> u64 {
        self.0.map_or(0, |place| place + 1)
    }

    /// What the walk refuses of a call, before all that is the call's own, where there are so many blocks.
    pub fn refusal(self, call: &Call, blocks: usize) -> Option<Refusal> {
        match (call, self.0) {
            (_, Some(place)) if place > blocks as u64 => Some(SPOILED_BOOK),
            (Call::Start | Call::Remove(_) | Call::Undo, Some(_)) => Some(WALK_OPEN),
            (Call::Next | Call::Abandon, None) => Some(NO_WALK),
            _ => None,
        }
    }

    /// The walk after a call that is not refused, and the place of the block that the call hands out.
    pub fn after(self, call: &Call, blocks: usize) -> (Walk, Option<u64>) {
        match call {
            Call::Start => (Walk(Some(0)), None),
            Call::Next => match self.0 {
                Some(place) if place < blocks as u64 => (Walk(Some(place + 1)), Some(place)),
                _ => (Walk(None), None),
            },
            Call::Abandon => (Walk(None), None),
            Call::Create(_) | Call::Remove(_) | Call::Append(..) | Call::Undo => (self, None),
        }
    }
}

#[cfg(test)]
mod tests {
    use super::*;
    use crate::draft::{Draft, MIDDLING};
    use crate::rng::Rng;

    /// The blocks stand one after the other, and the last ends where the routine does.
    #[test]
    fn blocks_are_the_end_of_what_is_written() {
        let mut rng = Rng::new(1);
        for count in 0..9 {
            let file = Draft::routine_of(&mut rng, MIDDLING, count).bytes;
            let read = || Routine::from_vec(&file).expect("the Rust accepts what every rule accepts");
            let (whole, blocks) = (read().into_bytes().expect("the sink has the routine's size"), blocks(read()));
            assert_eq!(blocks.len(), count);
            let mut end = blocks.first().map_or(whole.len(), |block| block.offset);
            for Block { offset, bytes } in &blocks {
                assert_eq!((*offset, &whole[*offset..][..bytes.len()]), (end, &bytes[..]));
                end += bytes.len();
            }
            assert_eq!(end, whole.len());
        }
    }

    #[test]
    fn a_walk_over_two_blocks() {
        let mut walk = Walk::default();
        assert_eq!(walk.refusal(&Call::Next, 2), Some(NO_WALK));
        assert_eq!(walk.refusal(&Call::Undo, 2), None);
        let mut handed_out = vec![];
        for call in [Call::Start, Call::Next, Call::Next, Call::Next] {
            assert_eq!(walk.refusal(&call, 2), None);
            let (after, place) = walk.after(&call, 2);
            handed_out.push((after.number(), place));
            walk = after;
        }
        assert_eq!(handed_out, [(1, None), (2, Some(0)), (3, Some(1)), (0, None)]);
    }

    #[test]
    fn a_place_over_the_blocks_is_spoiled() {
        for call in [Call::Create(1), Call::Undo, Call::Start, Call::Next, Call::Abandon] {
            for number in [4, u64::MAX] {
                assert_eq!(Walk::from_number(number).refusal(&call, 2), Some(SPOILED_BOOK));
            }
            assert_ne!(Walk::from_number(3).refusal(&call, 2), Some(SPOILED_BOOK));
        }
    }
}
