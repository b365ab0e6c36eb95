//! Compares the library with the Rust and with the reference, on files and lists of calls from a seed.
//! The exit status is 0 where nothing differs, 1 where something does, 2 on a bad command line.

mod aborts;
mod by_hand;
mod by_rust;
mod calls;
mod charges;
mod edits;
mod files;
mod large;
mod offsets;
mod opens;
mod options;
mod outside;
mod reads;
mod report;
mod sums;
mod to_c;
mod walks;

use options::{Options, USAGE};
use report::Report;
use std::process::ExitCode;

/// One file for so many is also read at every offset, which takes longer than all else that is done with it.
const FILES_FOR_OFFSETS: usize = 100;

fn compare(options: &Options) -> Report {
    let mut report = Report::default();
    println!("seed {}", options.seed);
    files::overlong(&mut report);
    files::run(options.files, options.seed, &mut report);
    large::run(options.large, options.seed, &mut report);
    offsets::run(options.files / FILES_FOR_OFFSETS, options.seed, &mut report);
    opens::limits(&mut report);
    walks::limits(&mut report);
    outside::limits(&mut report);
    edits::run(options.lists, options.seed, &mut report);
    println!("differences {}", report.differences);
    report
}

fn main() -> ExitCode {
    let words: Vec<String> = std::env::args().skip(1).collect();
    if words == [aborts::CHILD] {
        aborts::child();
        return ExitCode::SUCCESS;
    }
    let options = match Options::parse(words.into_iter()) {
        Ok(options) => options,
        Err(message) => {
            eprintln!("compare: {message}\n{USAGE}");
            return ExitCode::from(2);
        }
    };
    oracle::original::note_panics();
    let report = compare(&options);
    ExitCode::from(u8::from(report.differences > 0))
}
