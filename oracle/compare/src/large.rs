//! Files with more blocks than the search for repeated vips holds at a time. They are too large for the other classes.

use crate::files::{judge, Verdict};
use crate::outside;
use crate::report::{shrink, Report};
use oracle::blocks::{empty_blocks, many_vips};
use oracle::rng::Rng;

fn verdict(vips: &[u64]) -> Verdict {
    judge(&empty_blocks(vips), &mut outside::Tally::default())
}

fn describe(vips: &[u64]) -> String {
    let vips = shrink(vips, |vips| matches!(verdict(vips), Verdict::Different(_)));
    let Verdict::Different(text) = verdict(&vips) else {
        unreachable!("shrinking keeps the difference");
    };
    format!("many blocks: {text}: empty blocks of the vips {vips:x?}")
}

pub fn run(count: usize, seed: u64, report: &mut Report) {
    let mut rng = Rng::new(seed);
    let mut repeated = 0;
    for _ in 0..count {
        let vips = many_vips(&mut rng);
        match verdict(&vips) {
            Verdict::Same => {}
            Verdict::RepeatedVip => repeated += 1,
            Verdict::HugeCount => unreachable!("these files have no list but the blocks"),
            Verdict::Different(_) => report.difference(|| describe(&vips)),
        }
    }
    println!("files of 8,000 to 28,000 blocks {count}, 9 by panic {repeated}");
}
