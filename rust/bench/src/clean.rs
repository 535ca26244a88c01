//! Clean and list: what marks, rings, tallies and the skin list add to the checks
//! of the table. The proved engine has no stage times of its own. A job from grown
//! marks and the same job with a mark that is refused take turns, and the median
//! of the differences is told: what else the machine does then falls out.

use crate::{families, grown};
use bench::{median, micros, ratio, Timed};
use common::MOST_ROWS;
use jobs::{Job, Random};
use plain::Stages;
use std::time::Duration;

pub(crate) fn print() {
    println!("\nMarks, rings, tallies and skin list of a job from grown marks, medians:\n");
    println!("| table | skin | track | plain | ratio |");
    println!("|---|---|---|---|---|");
    let random = &mut Random::new(1);
    for (title, table) in families(MOST_ROWS, random) {
        let clean = grown(&table, random);
        let mut refused = clean.clone();
        refused.marks[0] = 2;
        let (skin, track, plain) = time(&clean, &refused);
        println!(
            "| {title} | {skin} | {} | {} | {:.2} |",
            micros(track),
            micros(plain),
            ratio(track, plain),
        );
    }
}

fn time(clean: &Job, refused: &Job) -> (u32, Duration, Duration) {
    let mut whole = Timed::new(clean);
    let mut checks = Timed::new(refused);
    assert_eq!((whole.outcome.code, checks.outcome.code), (0, 10));
    let track = median(|| {
        let before = checks.track_once();
        whole.track_once().saturating_sub(before)
    });
    let plain = median(|| {
        // There is no proposal: that stage has the tallies alone.
        let Stages {
            clean,
            proposals,
            list,
            ..
        } = whole.stages();
        clean + proposals + list
    });
    (whole.outcome.triangles, track, plain)
}
