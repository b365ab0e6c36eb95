//! Measures the library and the Rust side by side, on the same bytes.

mod by_offset;
mod clock;
mod editing;
mod inputs;
mod names;
mod outside;
mod reading;
mod walking;

use std::process::ExitCode;

const USAGE: &str = "usage: run.sh [--most-blocks N]   (files with more blocks are left out)";

fn most_blocks() -> Result<usize, String> {
    let words: Vec<String> = std::env::args().skip(1).collect();
    match words.as_slice() {
        [] => Ok(usize::MAX),
        [name, number] if name == "--most-blocks" => {
            number.parse().map_err(|_| format!("--most-blocks wants a number, not '{number}'"))
        }
        _ => Err(format!("cannot read '{}'", words.join(" "))),
    }
}

fn main() -> ExitCode {
    let most_blocks = match most_blocks() {
        Ok(number) => number,
        Err(message) => {
            eprintln!("bench: {message}\n{USAGE}");
            return ExitCode::from(2);
        }
    };
    println!("best of up to {} runs, the two sides in turn; ratio: left time by right time", clock::RUNS);
    println!("file, image and journal are in memory and were touched before; the Rust gets its memory from malloc in");
    println!("each run, and what it made is dropped after the clock has stopped");
    reading::checks(most_blocks);
    reading::opens(most_blocks);
    reading::looks(most_blocks);
    reading::charges(most_blocks);
    reading::charges_of_files(most_blocks);
    by_offset::every_instruction(most_blocks);
    names::lookups();
    reading::repeated_vips(most_blocks);
    editing::edits();
    editing::charges_after_edits();
    walking::walks(most_blocks);
    outside::copies(most_blocks);
    ExitCode::SUCCESS
}
