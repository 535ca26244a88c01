//! Timing of the proved engine beside `plain`.

use common::{Buffers, Outcome};
use jobs::Job;
use plain::Stages;
use std::time::{Duration, Instant};

/// Time given to each median.
const TIME: Duration = Duration::from_millis(1000);

/// A job with the buffers lent for it, which are not cleared between its runs,
/// and the best time of each engine.
pub struct Timed {
    job: Vec<u8>,
    buffers: Buffers,
    pub outcome: Outcome,
    /// How many runs of each engine its best time is of.
    pub runs: usize,
    pub track: Duration,
    pub plain: Duration,
}

impl Timed {
    pub fn new(job: &Job) -> Timed {
        let mut buffers = Buffers::zeros(job.rooms());
        let job = job.bytes();
        Timed {
            outcome: track::run(&job, buffers.lend()),
            job,
            buffers,
            runs: 0,
            track: Duration::MAX,
            plain: Duration::MAX,
        }
    }

    /// The time of one run of the proved engine.
    pub fn track_once(&mut self) -> Duration {
        let before = Instant::now();
        track::run(&self.job, self.buffers.lend());
        before.elapsed()
    }

    /// The time of one run of `plain`.
    pub fn plain_once(&mut self) -> Duration {
        let before = Instant::now();
        plain::run(&self.job, self.buffers.lend());
        before.elapsed()
    }

    /// Runs both engines once more.
    pub fn run(&mut self) {
        self.runs += 1;
        self.track = self.track.min(self.track_once());
        self.plain = self.plain.min(self.plain_once());
    }

    /// How many times as long as `plain` the proved engine takes.
    pub fn ratio(&self) -> f64 {
        ratio(self.track, self.plain)
    }

    /// The stages of one run of `plain`.
    pub fn stages(&mut self) -> Stages {
        let mut stages = Stages::default();
        plain::run_timed(&self.job, self.buffers.lend(), &mut stages);
        stages
    }
}

pub fn median(mut once: impl FnMut() -> Duration) -> Duration {
    let begun = Instant::now();
    let mut times = Vec::new();
    while begun.elapsed() < TIME {
        times.push(once());
    }
    times.sort();
    times[times.len() / 2]
}

pub fn ratio(time: Duration, other: Duration) -> f64 {
    time.as_secs_f64() / other.as_secs_f64()
}

/// The fewest and the most runs that a best time is of.
pub fn runs<'a>(timed: impl IntoIterator<Item = &'a Timed>) -> String {
    let runs: Vec<usize> = timed.into_iter().map(|timed| timed.runs).collect();
    let [fewest, most] = [runs.iter().min(), runs.iter().max()].map(|runs| runs.expect("a job"));
    format!("{fewest} to {most} runs")
}

/// The smallest ratio and the largest.
pub fn ratios<'a>(timed: impl IntoIterator<Item = &'a Timed>) -> String {
    let ratios: Vec<f64> = timed.into_iter().map(Timed::ratio).collect();
    let smallest = ratios.iter().copied().fold(f64::INFINITY, f64::min);
    let largest = ratios.iter().copied().fold(0.0, f64::max);
    format!("{smallest:.2} to {largest:.2}")
}

pub fn micros(time: Duration) -> String {
    format!("{:.1}", time.as_secs_f64() * 1e6)
}
