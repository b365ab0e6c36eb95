use std::fmt;

/// Why a call was refused: the numbers and words of docs/SPEC.md.
#[derive(Clone, Copy, Debug, PartialEq, Eq, Hash)]
#[repr(u64)]
pub enum Refusal {
    ShortFile = 1,
    NameNotText = 2,
    WrongMark = 3,
    UnknownMachine = 4,
    ForeignRegister = 5,
    UnknownOperandKind = 6,
    UnknownOperation = 7,
    WrongOperandCount = 8,
    RepeatedBlock = 9,
    LendingTooLarge = 10,
    ImageFull = 11,
    JournalFull = 12,
    SpoiledBook = 13,
    BlockPresent = 14,
    NoSuchBlock = 15,
    NothingToTakeBack = 16,
    Leftover = 17,
    ClosedBlock = 18,
    CrookedRegister = 19,
    WalkOpen = 20,
    NoWalk = 21,
}

use Refusal::*;

const ALL: &[Refusal] = &[
    ShortFile,
    NameNotText,
    WrongMark,
    UnknownMachine,
    ForeignRegister,
    UnknownOperandKind,
    UnknownOperation,
    WrongOperandCount,
    RepeatedBlock,
    LendingTooLarge,
    ImageFull,
    JournalFull,
    SpoiledBook,
    BlockPresent,
    NoSuchBlock,
    NothingToTakeBack,
    Leftover,
    ClosedBlock,
    CrookedRegister,
    WalkOpen,
    NoWalk,
];

impl Refusal {
    /// The number.
    pub fn number(self) -> u64 {
        self as u64
    }

    /// The refusal with this number.
    pub fn from_number(number: u64) -> Option<Refusal> {
        ALL.iter().copied().find(|refusal| refusal.number() == number)
    }

    /// The words for it.
    pub fn words(self) -> &'static str {
        match self {
            ShortFile => "short file: a field or name passes the end",
            NameNotText => "name not text: not well-formed UTF-8 (Unicode Standard)",
            WrongMark => "wrong mark: either header mark differs",
            UnknownMachine => "unknown machine: over 2",
            ForeignRegister => "foreign register: id divided by 2^56 is over 2",
            UnknownOperandKind => "unknown operand kind: neither 0 nor 1",
            UnknownOperation => "unknown operation: name not among the 49",
            WrongOperandCount => "wrong operand count for the name",
            RepeatedBlock => "repeated block: two blocks share a vip",
            LendingTooLarge => "lending too large: image or journal over 16,777,216 bytes",
            ImageFull => "image full: the new written size passes the image's length",
            JournalFull => "journal full: used plus cost passes the journal's length",
            SpoiledBook => "spoiled book",
            BlockPresent => "block present",
            NoSuchBlock => "no such block, or no such place",
            NothingToTakeBack => "nothing to take back",
            Leftover => "leftover: bytes after the appended instruction",
            ClosedBlock => "closed block: its last instruction is js, jmp, vexit or vxcall",
            CrookedRegister => "crooked register: width under 1, offset under 0, or their sum over 64",
            WalkOpen => "walk open: it was started, and neither ended nor abandoned",
            NoWalk => "no walk: none was started, or it has ended or was abandoned",
        }
    }
}

impl fmt::Display for Refusal {
    fn fmt(&self, out: &mut fmt::Formatter) -> fmt::Result {
        write!(out, "refused {}: {}", self.number(), self.words())
    }
}

impl std::error::Error for Refusal {}

/// What the library's number says: 0 is accepted.
#[inline]
pub(crate) fn accepted(number: u64) -> Result<(), Refusal> {
    if number == 0 {
        return Ok(());
    }
    Err(Refusal::from_number(number).expect("the library refuses by the number of a refusal"))
}
