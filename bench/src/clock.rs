//! Times: the best of several runs, or the middle one, the two sides in turn, so that both meet the same machine.

use std::time::{Duration, Instant};

pub const RUNS: usize = 9;

/// How many runs there are where the middle one counts.
pub const ROUNDS: usize = 101;

/// No more runs are begun once they took this long together.
const TIME_LIMIT: Duration = Duration::from_secs(4);

/// How long `work` takes. What it hands back is dropped after the clock has stopped.
pub fn time<T>(work: impl FnOnce() -> T) -> Duration {
    let start = Instant::now();
    let kept = std::hint::black_box(work());
    let took = start.elapsed();
    drop(kept);
    took
}

pub fn best_of_both(mut left: impl FnMut() -> Duration, mut right: impl FnMut() -> Duration) -> (Duration, Duration) {
    let start = Instant::now();
    let (mut best_left, mut best_right) = (left(), right());
    for _ in 1..RUNS {
        if start.elapsed() > TIME_LIMIT {
            break;
        }
        best_left = best_left.min(left());
        best_right = best_right.min(right());
    }
    (best_left, best_right)
}

pub fn middle_of_both(mut left: impl FnMut() -> Duration, mut right: impl FnMut() -> Duration) -> (Duration, Duration) {
    let (lefts, rights): (Vec<_>, Vec<_>) = (0..ROUNDS).map(|_| (left(), right())).unzip();
    (middle(lefts), middle(rights))
}

fn middle(mut times: Vec<Duration>) -> Duration {
    times.sort_unstable();
    times[times.len() / 2]
}

fn shown(time: Duration) -> String {
    let nanos = time.as_nanos() as f64;
    match nanos {
        n if n < 1e4 => format!("{n:.0} ns"),
        n if n < 1e7 => format!("{:.1} us", n / 1e3),
        n if n < 1e10 => format!("{:.1} ms", n / 1e6),
        n => format!("{:.1} s", n / 1e9),
    }
}

fn rate(bytes: usize, time: Duration) -> String {
    format!("{:.0} MB/s", bytes as f64 / 1e6 / time.as_secs_f64())
}

fn line(name: &str, bytes: usize, (left, right): (Duration, Duration)) -> String {
    let ratio = left.as_secs_f64() / right.as_secs_f64();
    format!(
        "{name:<44}{:>11}{:>12}{:>11}{:>12}{ratio:>9.2}",
        shown(left),
        rate(bytes, left),
        shown(right),
        rate(bytes, right)
    )
}

/// A line: both times, both rates, and how many times longer the left side takes.
pub fn print(name: &str, bytes: usize, times: (Duration, Duration)) {
    println!("{}", line(name, bytes, times));
}

/// The same, with the least that the ratio should be.
pub fn print_with_goal(name: &str, bytes: usize, times: (Duration, Duration), goal: f64) {
    println!("{}   goal: at least {goal:.2}", line(name, bytes, times));
}

/// A line on small works of which `count` were timed together: both times of one, without rates.
pub fn print_each(name: &str, count: usize, (left, right): (Duration, Duration)) {
    let ratio = left.as_secs_f64() / right.as_secs_f64();
    let each = |time: Duration| format!("{:.1} ns", time.as_nanos() as f64 / count as f64);
    println!("{name:<44}{:>11}{:>12}{:>11}{:>12}{ratio:>9.2}", each(left), "", each(right), "");
}

/// A line on what only one side has.
pub fn print_one_side(name: &str, left: Option<Duration>, right: Option<Duration>) {
    let show = |side: Option<Duration>| side.map_or("-".to_string(), shown);
    println!("{name:<44}{:>11}{:>12}{:>11}", show(left), "", show(right));
}

/// A line on many works of the right side: the time of the middle one, how many there were, and the time of all.
pub fn print_middle(name: &str, times: Vec<Duration>) {
    let (count, all) = (times.len(), times.iter().sum());
    println!(
        "{name:<44}{:>11}{:>12}{:>11}   the middle of {count}, together {}",
        "-",
        "",
        shown(middle(times)),
        shown(all)
    );
}

pub fn heading(title: &str, left: &str, right: &str) {
    println!("\n{title:<44}{left:>23}{right:>23}    ratio");
}
