//! Files from a seed, in classes.

use crate::draft::{minimal_routine, Draft, Field, FieldAt, FOREIGN, MANY_BLOCKS, MIDDLING, SMALL};
use crate::faults::{apply, change, foreign_id, places, Fault, FAULTS};
use crate::names;
use crate::reference::ops;
use crate::rng::Rng;
use crate::widths::{edge, put_all};

#[derive(Clone, Copy, Debug, PartialEq, Eq)]
pub enum Class {
    /// Accepted routines over all operations and lists, with odd pad and flag bytes.
    Structured,
    /// The same with bytes after them.
    Trailing,
    /// Every beginning of a small file.
    Truncated,
    /// A small file with one byte changed, at every place.
    Damaged,
    /// Two faults, in either order.
    Pairs,
    /// Names at the boundaries of UTF-8 and of the list of operations.
    Names,
    /// Register ids on both sides of 3 * 2^56.
    Ids,
    /// Two blocks of one vip, with and without another fault.
    Repeated,
    /// Counts up to 2^32 - 1.
    Counts,
    /// Bytes without a plan.
    Noise,
    /// Accepted routines whose registers have the widths and offsets at which append begins to refuse.
    Widths,
}

pub const CLASSES: [Class; 11] = [
    Class::Structured,
    Class::Trailing,
    Class::Truncated,
    Class::Damaged,
    Class::Pairs,
    Class::Names,
    Class::Ids,
    Class::Repeated,
    Class::Counts,
    Class::Noise,
    Class::Widths,
];

pub struct Generator {
    rng: Rng,
    names: Vec<Vec<u8>>,
    next_name: usize,
}

impl Generator {
    pub fn new(seed: u64) -> Generator {
        Generator { rng: Rng::new(seed), names: names::all(), next_name: 0 }
    }

    /// Some files of a class: one, or those that belong together.
    pub fn batch(&mut self, class: Class) -> Vec<Vec<u8>> {
        match class {
            Class::Structured => vec![self.structured().bytes],
            Class::Trailing => vec![self.trailing()],
            Class::Truncated => self.truncated(),
            Class::Damaged => self.damaged(),
            Class::Pairs => self.pairs(),
            Class::Names => self.named(),
            Class::Ids => self.ids(),
            Class::Repeated => vec![self.repeated()],
            Class::Counts => vec![self.counts()],
            Class::Noise => vec![self.noise()],
            Class::Widths => vec![self.widths()],
        }
    }

    fn small(&mut self) -> Draft {
        Draft::routine(&mut self.rng, SMALL)
    }

    fn structured(&mut self) -> Draft {
        match self.rng.below(100) {
            0 => Draft::routine(&mut self.rng, MANY_BLOCKS),
            1..=40 => Draft::routine(&mut self.rng, MIDDLING),
            _ => self.small(),
        }
    }

    fn bytes(&mut self, length: usize) -> Vec<u8> {
        (0..length).map(|_| self.rng.byte()).collect()
    }

    fn trailing(&mut self) -> Vec<u8> {
        let mut file = self.structured().bytes;
        let length = 1 + self.rng.below(64);
        let after = match self.rng.below(3) {
            0 => vec![0; length],
            1 => minimal_routine(),
            _ => self.bytes(length),
        };
        file.extend(after);
        file
    }

    fn truncated(&mut self) -> Vec<Vec<u8>> {
        let file = self.small().bytes;
        (0..=file.len()).map(|length| file[..length].to_vec()).collect()
    }

    fn damaged(&mut self) -> Vec<Vec<u8>> {
        let file = self.small().bytes;
        (0..file.len()).map(|at| self.with_change(&file, at)).collect()
    }

    fn with_change(&mut self, file: &[u8], at: usize) -> Vec<u8> {
        let mut file = file.to_vec();
        change(&mut file, at, &mut self.rng);
        file
    }

    /// Two faults of two kinds, once with each of them first where the layout allows both.
    fn pairs(&mut self) -> Vec<Vec<u8>> {
        let draft = Draft::routine_of(&mut self.rng, SMALL, 2);
        let one = self.rng.pick(&FAULTS);
        let other = self.rng.pick(&FAULTS);
        let places_of_one = places(&draft, one);
        let places_of_other = places(&draft, other);
        let couples: Vec<(FieldAt, FieldAt)> =
            places_of_one.iter().flat_map(|&a| places_of_other.iter().map(move |&b| (a, b))).collect();
        let (first, second): (Vec<_>, Vec<_>) = couples.into_iter().partition(|(a, b)| a.at <= b.at);
        [first, second]
            .iter()
            .filter(|order| !order.is_empty())
            .map(|order| {
                let (a, b) = self.rng.pick(order);
                self.with_two(&draft, (one, a), (other, b))
            })
            .collect()
    }

    fn with_two(&mut self, draft: &Draft, one: (Fault, FieldAt), other: (Fault, FieldAt)) -> Vec<u8> {
        let mut draft = draft.clone();
        let (early, late) = if one.0 == Fault::Cut { (other, one) } else { (one, other) };
        // Of two cuts the second may lie behind the end by now; the first says all.
        if early.0 != Fault::Cut {
            apply(&mut draft, early.0, early.1, &mut self.rng);
        }
        apply(&mut draft, late.0, late.1, &mut self.rng);
        draft.bytes
    }

    /// The next name with some count of operands, in a file that is whole or ends soon after.
    fn named(&mut self) -> Vec<Vec<u8>> {
        let name = self.names[self.next_name].clone();
        self.next_name = (self.next_name + 1) % self.names.len();
        let listed = ops().iter().find(|(listed, _)| listed.as_bytes() == name);
        let due = listed.map_or(0, |(_, count)| *count);
        let count = self.rng.pick(&[due, due, 0, 1, 2, 3, 4, u32::MAX]);

        let mut draft = Draft::up_to_an_instruction();
        let name_at = draft.bytes.len() + 4;
        draft.operation(&name, count);
        let count_end = draft.bytes.len();
        draft.operands_and_rest(&mut self.rng, count.min(3));
        draft.bytes.extend([0; 8]);

        let ends = [name_at, name_at + name.len(), count_end - 1, count_end];
        let end = self.rng.pick(&ends);
        vec![draft.bytes[..end].to_vec(), draft.bytes]
    }

    /// One id changed to each side of the border; once with the file ending there.
    fn ids(&mut self) -> Vec<Vec<u8>> {
        let draft = self.small();
        let place = self.rng.pick(&draft.fields_of(Field::RegisterId));
        let id = foreign_id(&mut self.rng);
        let with = |id: u64| {
            let mut bytes = draft.bytes.clone();
            bytes[place.at..place.at + 8].copy_from_slice(&id.to_le_bytes());
            bytes
        };
        let foreign = with(id);
        let ending = foreign[..place.at + 8].to_vec();
        vec![with(FOREIGN - 1), with(FOREIGN), foreign, ending]
    }

    fn repeated(&mut self) -> Vec<u8> {
        let shape = if self.rng.one_in(20) { MANY_BLOCKS } else { SMALL };
        let blocks = 2 + self.rng.below(shape.blocks);
        let mut draft = Draft::routine_of(&mut self.rng, shape, blocks);
        let place = self.rng.pick(&places(&draft, Fault::RepeatedVip));
        apply(&mut draft, Fault::RepeatedVip, place, &mut self.rng);
        if self.rng.one_in(3) {
            let at = self.rng.below(draft.bytes.len());
            change(&mut draft.bytes, at, &mut self.rng);
        }
        draft.bytes
    }

    /// A count of any kind changed, in a file that is whole or ends soon after it.
    fn counts(&mut self) -> Vec<u8> {
        const COUNTED: [Field; 3] = [Field::ListCount, Field::NameSize, Field::OperandCount];
        let mut draft = self.small();
        let counts: Vec<FieldAt> =
            draft.fields.iter().copied().filter(|place| COUNTED.contains(&place.field)).collect();
        let at = self.rng.pick(&counts).at;
        let old = u32::from_le_bytes(draft.bytes[at..at + 4].try_into().expect("a count has four bytes"));
        let new = match self.rng.below(4) {
            0 => old.wrapping_add(1),
            1 => old.wrapping_sub(1),
            2 => self.rng.pick(&[0, 255, 65_535, 65_536, 1 << 20, 1 << 24, 1 << 31, u32::MAX - 1, u32::MAX]),
            _ => self.rng.u32() >> self.rng.below(32),
        };
        draft.bytes[at..at + 4].copy_from_slice(&new.to_le_bytes());
        if self.rng.one_in(4) {
            let end = at + 4 + self.rng.below(draft.bytes.len() - at - 3);
            draft.bytes.truncate(end);
        }
        draft.bytes
    }

    fn noise(&mut self) -> Vec<u8> {
        let length = self.rng.below(300);
        match self.rng.below(4) {
            0 => self.bytes(length),
            1 => [&minimal_routine()[..8], &self.bytes(length)].concat(),
            2 => [&minimal_routine()[..8], &vec![self.rng.byte(); length]].concat(),
            _ => self.spliced(),
        }
    }

    fn widths(&mut self) -> Vec<u8> {
        let mut draft = self.structured();
        put_all(&mut draft, &mut self.rng, edge);
        draft.bytes
    }

    /// The beginning of one file, then the end of another.
    fn spliced(&mut self) -> Vec<u8> {
        let one = self.small().bytes;
        let other = self.small().bytes;
        let (end, start) = (self.rng.below(one.len()), self.rng.below(other.len()));
        [&one[..end], &other[start..]].concat()
    }
}
