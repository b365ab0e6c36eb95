//! Single parts at every offset of files of all classes, whether a part begins there or not: the part and its end, or
//! the refusal, beside the Rust's reader at the same offset.

use crate::reads::{self, caught, same, Same};
use crate::report::{hex, shrink, Report};
use oracle::generate::{Generator, CLASSES};
use oracle::original;
use scroll::{ctx::TryFromCtx, Endian};
use std::fmt::Debug;
use vtil::{BlockRef, ConventionRef, InstructionRef, Part};
use vtil_parser::{BasicBlock, Error, Instruction, RegisterDesc, RoutineConvention, Vip};

/// Files longer than this are left out: the time grows with the square of the length.
const LONGEST: usize = 2_000;

/// How many parts were accepted, and how many refused.
#[derive(Default)]
struct Tally {
    accepted: usize,
    refused: usize,
}

/// The part that the library accepts, beside the Rust's.
fn accepted<'a, L, R>(bytes: &'a [u8], at: usize, got: (L, usize), part: impl Fn(L, &R) -> Same) -> Same
where
    R: TryFromCtx<'a, Endian, Error = Error> + Debug,
{
    let (due, end) = original::read_at::<R>(bytes, at).map_err(|due| format!("accepted, Rust {due:?}"))?;
    same("end", got.1, end)?;
    part(got.0, &due)
}

/// A part without lists, accepted or refused.
fn single<'a, L, R>(bytes: &'a [u8], at: usize, tally: &mut Tally, part: impl Fn(L, &R) -> Same) -> Same
where
    L: Part<'a>,
    R: TryFromCtx<'a, Endian, Error = Error> + Debug,
{
    match vtil::read_at::<L>(bytes, at) {
        Ok(got) => {
            tally.accepted += 1;
            accepted(bytes, at, got, part)
        }
        Err(refusal) => {
            tally.refused += 1;
            match original::read_at::<R>(bytes, at) {
                Err(due) if due.is_refusal(refusal.number()) => Ok(()),
                due => Err(format!("{refusal}, Rust {due:?}")),
            }
        }
    }
}

/// A part with lists. Where it is refused the Rust is not asked: it might reserve memory for any count.
fn with_lists<'a, L, R>(bytes: &'a [u8], at: usize, tally: &mut Tally, part: impl Fn(L, &R) -> Same) -> Same
where
    L: Part<'a>,
    R: TryFromCtx<'a, Endian, Error = Error> + Debug,
{
    let Ok(got) = vtil::read_at::<L>(bytes, at) else { return Ok(()) };
    tally.accepted += 1;
    accepted(bytes, at, got, part)
}

fn at(bytes: &[u8], at: usize, tally: &mut Tally) -> Same {
    let named = |what: &str, same: Same| same.map_err(|text| format!("{what} at {at}: {text}"));
    named("vip", single::<vtil::Vip, Vip>(bytes, at, tally, reads::vip))?;
    named("register", single::<vtil::Register, RegisterDesc>(bytes, at, tally, reads::register))?;
    named("instruction", single::<InstructionRef, Instruction>(bytes, at, tally, reads::instruction))?;
    named("convention", with_lists::<ConventionRef, RoutineConvention>(bytes, at, tally, reads::convention))?;
    named("block", with_lists::<BlockRef, BasicBlock>(bytes, at, tally, reads::block))
}

/// Up to one past the end.
fn difference(bytes: &[u8], tally: &mut Tally) -> Option<String> {
    (0..=bytes.len() + 1).find_map(|offset| caught(|| at(bytes, offset, tally)).err())
}

fn describe(bytes: &[u8]) -> String {
    let difference = |bytes: &[u8]| difference(bytes, &mut Tally::default());
    let bytes = shrink(bytes, |bytes| difference(bytes).is_some());
    let text = difference(&bytes).expect("shrinking keeps the difference");
    format!("{text}: {}", hex(&bytes))
}

pub fn run(files: usize, seed: u64, report: &mut Report) {
    let mut generator = Generator::new(seed);
    let mut tally = Tally::default();
    let mut left = files;
    for class in CLASSES.into_iter().cycle() {
        if left == 0 {
            break;
        }
        let batch = generator.batch(class);
        // Those of a batch are much alike: its last file stands for them.
        let Some(file) = batch.last().filter(|file| file.len() <= LONGEST) else { continue };
        left -= 1;
        if difference(file, &mut tally).is_some() {
            report.difference(|| describe(file));
        }
    }
    let Tally { accepted, refused } = tally;
    println!("files read at every offset {files}: parts accepted {accepted}, refused {refused}");
}
