//! Files: the library's check and its reading by offset, the reference and the Rust, each asked about the same bytes.

use crate::aborts::Aborts;
use crate::charges;
use crate::opens;
use crate::outside;
use crate::reads;
use crate::report::{hex, shrink, Report};
use crate::walks;
use oracle::generate::{Class, Generator, CLASSES};
use oracle::original::{self, Answer};
use oracle::reference::{self, Refusal, REPEATED_BLOCK};

pub enum Verdict {
    Same,
    /// The Rust panics, the library refuses 9.
    RepeatedVip,
    /// The Rust would abort and was not asked; the library answers as docs/SPEC.md says.
    HugeCount,
    Different(String),
}

/// The Rust's answer beside the reference's, and where both accept, all parts, the walk, the charge and the copy for
/// outside reviewers beside the Rust's.
fn beside_the_rust(file: &[u8], due: Result<usize, Refusal>, copies: &mut outside::Tally) -> Verdict {
    let answer = original::ask(file);
    let is_same = match (&answer, due) {
        (Answer::Accepted { consumed, written }, Ok(length)) => {
            *consumed == length && *written == reference::written(file, length)
        }
        (Answer::RepeatedVip, Err(REPEATED_BLOCK)) => return Verdict::RepeatedVip,
        (answer, Err(refusal)) => answer.is_refusal(refusal),
        _ => false,
    };
    if !is_same {
        return Verdict::Different(format!("document 01 {due:?}, Rust {answer:?}"));
    }
    let within = |length| {
        let parts = reads::difference(file).or_else(|| walks::file_difference(file, length));
        let looks = parts.or_else(|| charges::file_difference(file, length));
        looks.or_else(|| outside::file_difference(file, length, copies))
    };
    match due.ok().and_then(within) {
        Some(text) => Verdict::Different(text),
        None => Verdict::Same,
    }
}

/// `copies` is told of the copies for outside reviewers.
pub fn judge(file: &[u8], copies: &mut outside::Tally) -> Verdict {
    let due = reference::check(file);
    let library = vtil::check(file).map_err(vtil::Refusal::number);
    if library != due {
        return Verdict::Different(format!("library {library:?}, document 01 {due:?}"));
    }
    if let Some(text) = reads::whole_difference(file, due).or_else(|| opens::difference(file, due)) {
        return Verdict::Different(text);
    }
    if original::reserves_too_much(&reference::list_counts(file)) {
        return Verdict::HugeCount;
    }
    beside_the_rust(file, due, copies)
}

fn is_different(file: &[u8]) -> bool {
    matches!(judge(file, &mut outside::Tally::default()), Verdict::Different(_))
}

/// Puts 0 for every byte that the difference does not need.
fn with_zeros(file: &[u8]) -> Vec<u8> {
    let mut file = file.to_vec();
    for at in 0..file.len() {
        let byte = std::mem::replace(&mut file[at], 0);
        if !is_different(&file) {
            file[at] = byte;
        }
    }
    file
}

/// Counts that become 0 leave items over, so bytes are left out again, until none can be.
fn smallest(file: &[u8]) -> Vec<u8> {
    let mut file = shrink(file, is_different);
    loop {
        let shorter = shrink(&with_zeros(&file), is_different);
        if shorter.len() == file.len() {
            return shorter;
        }
        file = shorter;
    }
}

fn describe(class: Class, file: &[u8]) -> String {
    let small = smallest(file);
    let Verdict::Different(text) = judge(&small, &mut outside::Tally::default()) else {
        unreachable!("shrinking keeps the difference");
    };
    format!("{class:?}: {text}: {}", hex(&small))
}

/// How many files got each answer: accepted, then refusals 1 to 9.
#[derive(Clone, Copy, Default)]
struct Tally {
    files: usize,
    answers: [usize; 10],
    repeated_vip: usize,
    huge_count: usize,
    copies: outside::Tally,
}

impl Tally {
    fn add(&mut self, other: &Tally) {
        self.files += other.files;
        self.repeated_vip += other.repeated_vip;
        self.huge_count += other.huge_count;
        self.copies.add(&other.copies);
        for (sum, more) in self.answers.iter_mut().zip(other.answers) {
            *sum += more;
        }
    }

    fn row(&self, name: &str) -> String {
        let answers: String = self.answers.iter().map(|count| format!("{count:>9}")).collect();
        format!("{name:<11}{:>9}{answers}{:>11}{:>11}", self.files, self.repeated_vip, self.huge_count)
    }
}

const HEADING: &str = "class          files accepted        1        2        3        4        5        6        \
                       7        8        9  9 by panic  huge count";

fn one(class: Class, file: &[u8], tally: &mut Tally, aborts: &mut Aborts, report: &mut Report) {
    tally.files += 1;
    tally.answers[reference::check(file).err().unwrap_or(0) as usize] += 1;
    match judge(file, &mut tally.copies) {
        Verdict::Same => {}
        Verdict::RepeatedVip => tally.repeated_vip += 1,
        Verdict::HugeCount => {
            tally.huge_count += 1;
            aborts.ask(file, report);
        }
        Verdict::Different(_) => report.difference(|| describe(class, file)),
    }
}

/// The class with the fewest files so far is next, so that the classes come out even.
fn next_class(tallies: &[Tally; CLASSES.len()]) -> usize {
    (0..CLASSES.len()).min_by_key(|&i| tallies[i].files).expect("there are classes")
}

pub fn run(files: usize, seed: u64, report: &mut Report) {
    let mut generator = Generator::new(seed);
    let mut tallies = [Tally::default(); CLASSES.len()];
    let mut aborts = Aborts::default();
    let mut left = files;
    while left > 0 {
        let i = next_class(&tallies);
        for file in generator.batch(CLASSES[i]).iter().take(left) {
            one(CLASSES[i], file, &mut tallies[i], &mut aborts, report);
            left -= 1;
        }
    }

    println!("{HEADING}");
    let mut total = Tally::default();
    for (class, tally) in CLASSES.iter().zip(&tallies) {
        println!("{}", tally.row(&format!("{class:?}").to_lowercase()));
        total.add(tally);
    }
    println!("{}", total.row("all"));
    println!(
        "known differences: {} panics on a repeated vip, {} huge counts ({aborts})",
        total.repeated_vip, total.huge_count
    );
    println!("of files: {}", total.copies);
}

/// A length over 2^63 - 1, which no Rust slice has, gets minus 10. The file's first four bytes are there, and are no
/// mark, should they be read all the same.
pub fn overlong(report: &mut Report) {
    let file = [0; 8];
    for length in [1 << 63, usize::MAX] {
        // SAFETY: the length is over 2^63 - 1.
        let answer = unsafe { vtil::check_raw(file.as_ptr(), length) };
        if answer != -10 {
            report.difference(|| format!("length {length}: library {answer}, document 01 -10"));
        }
    }
}
