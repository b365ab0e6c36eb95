//! Writes a fixed sample of the Rust's answers, to be replayed where there is no Rust.
//!
//! A record: u32 the file's length, the file, i64 the consumed length or minus the refusal; little-endian. The Rust
//! decides the answer. Where it says only "some other error", the reference tells 1 from 2; where it panics on a repeated
//! vip the answer is 9; where it would abort on a huge count, the reference decides alone.

use oracle::draft::minimal_routine;
use oracle::generate::{Generator, CLASSES};
use oracle::original::{ask, note_panics, reserves_too_much, Answer};
use oracle::reference::{check, list_counts, REPEATED_BLOCK};
use std::process::ExitCode;

const USAGE: &str = "usage: sample [--seed S] [--records N] --out PATH";

/// Larger files say nothing more, and the sample stays small.
const LARGEST_FILE: usize = 450;

/// How many classes are sampled: all but the last, whose files differ from structured ones in what append alone asks.
const SAMPLED: usize = CLASSES.len() - 1;

struct Options {
    seed: u64,
    records: usize,
    out: String,
}

fn options() -> Result<Options, String> {
    let (mut seed, mut records, mut out) = (1, 3_000, None);
    let mut words = std::env::args().skip(1);
    while let Some(word) = words.next() {
        let value = words.next().ok_or_else(|| format!("{word} wants a value"))?;
        let bad = |_| format!("{word} wants a number, not '{value}'");
        match word.as_str() {
            "--seed" => seed = value.parse().map_err(bad)?,
            "--records" => records = value.parse().map_err(bad)?,
            "--out" => out = Some(value),
            _ => return Err(format!("unknown word '{word}'")),
        }
    }
    Ok(Options { seed, records, out: out.ok_or("--out is missing")? })
}

/// What the reference says.
fn due(file: &[u8]) -> i64 {
    check(file).map_or_else(|refusal| -(refusal as i64), |consumed| consumed as i64)
}

fn answer(file: &[u8]) -> i64 {
    if reserves_too_much(&list_counts(file)) {
        return due(file);
    }
    match ask(file) {
        Answer::Accepted { consumed, .. } => consumed as i64,
        Answer::Refused(refusal) => -(refusal as i64),
        Answer::RepeatedVip => -(REPEATED_BLOCK as i64),
        Answer::Other => due(file),
        Answer::Unexpected(text) => panic!("the Rust answered what no refusal covers: {text}"),
    }
}

/// Files in turn from every class, no class giving many more of one answer than of another.
struct Sample {
    records: Vec<(Vec<u8>, i64)>,
    /// How many records each class has for each answer: accepted, then refusals 1 to 9.
    kept: [[usize; 10]; SAMPLED],
    most: usize,
}

impl Sample {
    fn add(&mut self, class: usize, file: Vec<u8>) {
        if file.len() > LARGEST_FILE {
            return;
        }
        let answer = answer(&file);
        let kept = &mut self.kept[class][answer.min(0).unsigned_abs() as usize];
        if *kept < self.most {
            *kept += 1;
            self.records.push((file, answer));
        }
    }

    fn bytes(&self) -> Vec<u8> {
        let mut bytes = vec![];
        for (file, answer) in &self.records {
            bytes.extend((file.len() as u32).to_le_bytes());
            bytes.extend(file);
            bytes.extend(answer.to_le_bytes());
        }
        bytes
    }
}

fn sample(options: &Options) -> Sample {
    let mut generator = Generator::new(options.seed);
    let mut sample = Sample { records: vec![], kept: Default::default(), most: options.records / 40 + 1 };
    let minimal = minimal_routine();
    for file in [&minimal[..], &minimal[..113], &[]] {
        sample.records.push((file.to_vec(), answer(file)));
    }
    for turn in 0.. {
        let class = turn % SAMPLED;
        for file in generator.batch(CLASSES[class]) {
            sample.add(class, file);
            if sample.records.len() >= options.records {
                return sample;
            }
        }
    }
    unreachable!("turns go on until there are enough records")
}

fn main() -> ExitCode {
    let options = match options() {
        Ok(options) => options,
        Err(message) => {
            eprintln!("sample: {message}\n{USAGE}");
            return ExitCode::from(2);
        }
    };
    note_panics();
    let sample = sample(&options);
    if let Err(error) = std::fs::write(&options.out, sample.bytes()) {
        eprintln!("sample: {}: {error}", options.out);
        return ExitCode::FAILURE;
    }
    for refusal in 0..10 {
        let count = sample.records.iter().filter(|(_, answer)| answer.min(&0).unsigned_abs() == refusal).count();
        println!("{refusal} {count}");
    }
    ExitCode::SUCCESS
}
