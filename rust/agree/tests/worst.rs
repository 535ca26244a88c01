//! The worst jobs: both engines agree on each, each gets its code, and none
//! takes 50 times as long as the usual one.

use agree::{with_stack, Comparer};
use common::Buffers;
use jobs::worst::{self, Worst};
use jobs::{Job, Random};
use std::time::{Duration, Instant};

#[test]
fn worst_jobs() {
    with_stack(|| {
        let mut comparer = Comparer::new(env!("CARGO_TARGET_TMPDIR"));
        let random = &mut Random::new(7);
        for Worst { name, code, job } in worst::all() {
            let buffers = random.buffers(job.rooms());
            let before = comparer.codes[code as usize];
            comparer.compare(&name.replace(' ', "-"), name, &job.bytes(), &buffers);
            let given = comparer.codes[code as usize] - before;
            assert_eq!(given, 1, "{name} does not get code {code}");
        }
        comparer.report("worst jobs");
    });
}

const RUNS: usize = 8;
const MOST: u32 = 50;

#[test]
fn none_is_far_from_the_usual() {
    if track::EMULATED {
        return;
    }
    with_stack(|| {
        let usual = best(&worst::usual());
        for Worst { name, job, .. } in worst::all() {
            let time = best(&job);
            assert!(time < MOST * usual, "{name}: {time:?} to {usual:?}");
        }
    });
}

/// The best time of the proved engine.
fn best(job: &Job) -> Duration {
    let mut buffers = Buffers::zeros(job.rooms());
    let job = job.bytes();
    let mut once = || {
        let before = Instant::now();
        track::run(&job, buffers.lend());
        before.elapsed()
    };
    (0..RUNS).map(|_| once()).min().expect("some runs")
}
