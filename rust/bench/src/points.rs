//! Jobs with points: the same job without them, with them and listed rising, and
//! listed outward. The three take turns, so that all meet the machine alike.

use crate::{four_jobs, start, TIME};
use bench::{micros, ratio, ratios, runs, Timed};
use common::{Order, MOST_ROWS};
use jobs::{placed, Job, Random};
use std::time::{Duration, Instant};

/// How many times as long the proved engine may take with points.
const AIM: f64 = 1.3;

pub(crate) fn print() {
    let jobs = jobs_to_time(&mut Random::new(3));
    let times: Vec<[Timed; 3]> = jobs.iter().map(|(_, job)| time(job)).collect();

    let runs = runs(times.as_flattened());
    println!("\nWithout points, and with points listed rising and outward, the best of {runs}:\n");
    println!(
        "| table | V | N | start | P | skin | without: track | plain | ratio \
         | rising: track | plain | ratio | outward: track | plain | ratio |"
    );
    println!("|---|---|---|---|---|---|---|---|---|---|---|---|---|---|---|");
    for ((name, job), three) in jobs.iter().zip(&times) {
        let [without, rising, outward] = three.each_ref().map(|x| beside(x.track, x.plain));
        println!(
            "| {name} | {} | {} | {} | {} | {} | {without} | {rising} | {outward} |",
            job.ids,
            job.rows.len(),
            start(job),
            job.proposals.len(),
            three[0].outcome.triangles,
        );
    }
    println!("\nRatios from {}.", ratios(times.as_flattened()));

    println!(
        "\nWhat points cost, outward beside without; the aim for track is a ratio of {AIM}:\n"
    );
    println!(
        "| table | start | P | track outward | without | ratio | plain outward | without | ratio |"
    );
    println!("|---|---|---|---|---|---|---|---|---|");
    for ((name, job), [without, _, outward]) in jobs.iter().zip(&times) {
        println!(
            "| {name} | {} | {} | {} | {} |",
            start(job),
            job.proposals.len(),
            beside(outward.track, without.track),
            beside(outward.plain, without.plain),
        );
    }
}

/// Four jobs for each family, listed outward.
pub(crate) fn jobs_to_time(random: &mut Random) -> Vec<(&'static str, Job)> {
    let mut jobs = Vec::new();
    for (name, placed) in placed::each_family(MOST_ROWS, random) {
        // Splits of a small tetrahedron come to few rows.
        if placed.table.rows.len() < MOST_ROWS * 9 / 10 {
            continue;
        }
        let four = four_jobs(placed.job(), &placed.table, random);
        jobs.extend(four.map(|job| (name, job)));
    }
    jobs
}

/// The job without points, with points and listed rising, and listed outward.
fn time(job: &Job) -> [Timed; 3] {
    let mut without = job.clone();
    without.points = None;
    let mut rising = job.clone();
    rising.order = Order::Rising;
    let mut three = [&without, &rising, job].map(Timed::new);
    assert!(three.iter().all(|x| x.outcome == three[0].outcome));
    let begun = Instant::now();
    while begun.elapsed() < 3 * TIME {
        three.iter_mut().for_each(Timed::run);
    }
    three
}

fn beside(time: Duration, other: Duration) -> String {
    let ratio = ratio(time, other);
    format!("{} | {} | {ratio:.2}", micros(time), micros(other))
}
