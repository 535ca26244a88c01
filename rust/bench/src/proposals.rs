//! Proposals: what as many as a job may have add to the same job without any.
//! For each engine the two jobs take turns, and the median of the differences is
//! told. The tallies are counted in both jobs.

use crate::{jobs_to_time, start};
use bench::{median, micros, ratio, Timed};
use jobs::Random;

pub(crate) fn print() {
    println!("\nThe proposals, medians:\n");
    println!("| table | start | taken | track | plain | ratio |");
    println!("|---|---|---|---|---|---|");
    for pair in jobs_to_time(&mut Random::new(1)).chunks_exact(2) {
        let [(title, without), (_, with)] = pair else {
            unreachable!("chunks of two")
        };
        let mut before = Timed::new(without);
        let mut whole = Timed::new(with);
        let track = median(|| whole.track_once().saturating_sub(before.track_once()));
        let plain = median(|| whole.plain_once().saturating_sub(before.plain_once()));
        println!(
            "| {title} | {} | {} | {} | {} | {:.2} |",
            start(with),
            whole.outcome.taken,
            micros(track),
            micros(plain),
            ratio(track, plain),
        );
    }
}
