//! Times the proved engine beside `plain` on jobs near 2,048 rows and prints
//! Markdown tables, in microseconds: the best of many runs.

mod clean;
mod early;
mod points;
mod proposals;
mod stl;

use bench::{micros, ratios, runs, Timed};
use common::{MOST_PROPOSALS, MOST_ROWS};
use jobs::{growth, tables, Job, Random, Table};
use plain::Stages;
use std::time::{Duration, Instant};

/// Time given to each job, for both engines together.
const TIME: Duration = Duration::from_millis(300);

/// The families timed, by their names in `tables::each_family`.
const FAMILIES: [(&str, &str); 6] = [
    ("delaunay", "Delaunay-like"),
    ("flips", "random flips"),
    ("join of rings", "join of two rings"),
    ("cyclic", "dense"),
    ("suspension of a sphere", "hub (suspension of a sphere)"),
    ("suspension of a torus", "suspension of a torus"),
];

fn main() {
    println!("Buffers are lent once for each job and not cleared between its runs.\n");
    if track::EMULATED {
        println!("The times of track say nothing here: it runs under an emulator.\n");
    }
    let jobs = jobs_to_time(&mut Random::new(1));
    let times = jobs.iter().map(|(_, job)| time(job));
    let (times, stages): (Vec<Timed>, Vec<Stages>) = times.unzip();

    println!(
        "Each time of a whole job, and of its stages, is the best of {}.\n",
        runs(&times)
    );
    println!("| table | V | N | start | P | taken | skin | track | plain | ratio |");
    println!("|---|---|---|---|---|---|---|---|---|---|");
    for ((name, job), times) in jobs.iter().zip(&times) {
        println!(
            "| {name} | {} | {} | {} | {} | {} | {} | {} | {} | {:.2} |",
            job.ids,
            job.rows.len(),
            start(job),
            job.proposals.len(),
            times.outcome.taken,
            times.outcome.triangles,
            micros(times.track),
            micros(times.plain),
            times.ratio(),
        );
    }
    println!("\nRatios from {}.", ratios(&times));

    println!("\nThe stages of plain:\n");
    println!(
        "| table | start | P | header and rows | neighbours | edges | vertices | clean \
         | proposals | list |"
    );
    println!("|---|---|---|---|---|---|---|---|---|---|");
    for ((name, job), stages) in jobs.iter().zip(&stages) {
        println!(
            "| {name} | {} | {} | {} | {} | {} | {} | {} | {} | {} |",
            start(job),
            job.proposals.len(),
            micros(stages.header_and_rows),
            micros(stages.neighbours),
            micros(stages.edges),
            micros(stages.vertices),
            micros(stages.clean),
            micros(stages.proposals),
            micros(stages.list),
        );
    }
    clean::print();
    proposals::print();
    early::print();
    points::print();
    stl::print();
}

fn start(job: &Job) -> &'static str {
    if job.marks.contains(&1) {
        "grown"
    } else {
        "empty"
    }
}

/// The timed families with their titles.
fn families(most: usize, random: &mut Random) -> Vec<(&'static str, Table)> {
    let mut all = tables::each_family(most, random);
    FAMILIES
        .into_iter()
        .map(|(name, title)| {
            let at = all.iter().position(|(other, _)| *other == name);
            (title, all.swap_remove(at.expect("a family")).1)
        })
        .collect()
}

/// A job from grown marks.
fn grown(table: &Table, random: &mut Random) -> Job {
    Job {
        marks: growth::grown_marks(table, MOST_PROPOSALS, random),
        ..table.job()
    }
}

/// Four jobs for each family.
fn jobs_to_time(random: &mut Random) -> Vec<(&'static str, Job)> {
    let mut jobs = Vec::new();
    for (title, table) in families(MOST_ROWS, random) {
        let four = four_jobs(table.job(), &table, random);
        jobs.extend(four.map(|job| (title, job)));
    }
    jobs
}

/// From empty marks and from grown ones, without proposals and with as many as
/// a job may have.
fn four_jobs(empty: Job, table: &Table, random: &mut Random) -> [Job; 4] {
    let grown = Job {
        marks: grown(table, random).marks,
        ..empty.clone()
    };
    let mut proposed = |start: &Job, adds| {
        let mut job = start.clone();
        growth::propose(&mut job, MOST_PROPOSALS, adds, random);
        job
    };
    let [from_empty, from_grown] = [proposed(&empty, 80), proposed(&grown, 60)];
    [empty, from_empty, grown, from_grown]
}

/// The best time of each engine, and of each stage of `plain`.
fn time(job: &Job) -> (Timed, Stages) {
    let mut timed = Timed::new(job);
    let mut stages = timed.stages();
    let begun = Instant::now();
    while begun.elapsed() < TIME {
        timed.run();
        stages = least(&stages, &timed.stages());
    }
    (timed, stages)
}

fn least(x: &Stages, y: &Stages) -> Stages {
    Stages {
        header_and_rows: x.header_and_rows.min(y.header_and_rows),
        neighbours: x.neighbours.min(y.neighbours),
        edges: x.edges.min(y.edges),
        vertices: x.vertices.min(y.vertices),
        clean: x.clean.min(y.clean),
        points: x.points.min(y.points),
        proposals: x.proposals.min(y.proposals),
        list: x.list.min(y.list),
    }
}
