//! STL: the facet writer and the reader on as many facets as a file may have, and
//! what the file of its skin adds to a job.

use crate::{points, TIME};
use bench::{micros, ratio};
use common::stl::{file_len, FACET_NUMBERS, MOST_FACETS};
use common::{Buffers, Order};
use jobs::{facets, Job, Random};
use std::time::{Duration, Instant};

/// Microseconds that the proved engine may take to write, or to read, a file.
const AIM: f64 = 1000.0;

pub(crate) fn print() {
    let random = &mut Random::new(4);
    print_files(random);
    print_jobs(random);
}

fn print_files(random: &mut Random) {
    println!("\nSTL files of {MOST_FACETS} facets; the aim for track is under {AIM}:\n");
    println!("| call | track | plain | ratio |");
    println!("|---|---|---|---|");
    let units = facets::random(MOST_FACETS, random);
    let mut file = vec![0; file_len(MOST_FACETS)];
    let mut code = 0;
    let mut other = file.clone();
    let times = time(
        || code |= track::write_facets(&units, &mut file).code,
        || _ = plain::stl::write_facets(&units, &mut other),
    );
    assert_eq!((code, &file), (0, &other));
    println!("| write | {} |", beside(times));
    let mut back = vec![0; FACET_NUMBERS * MOST_FACETS];
    let mut other = back.clone();
    let times = time(
        || code |= track::read_file(&file, &mut back).code,
        || _ = plain::stl::read_file(&file, &mut other),
    );
    assert_eq!((code, &back, &other), (0, &units, &units));
    println!("| read | {} |", beside(times));
}

fn print_jobs(random: &mut Random) {
    println!("\nA job with points, and with the file of its skin:\n");
    println!(
        "| table | N | P | order | skin | track run | plain | ratio \
         | track with the file | plain | ratio |"
    );
    println!("|---|---|---|---|---|---|---|---|---|---|---|");
    for (name, job) in points::jobs_to_time(random) {
        for order in Order::EACH {
            let job = Job {
                order,
                ..job.clone()
            };
            let (skin, run, with_file) = time_job(&job);
            if skin > 0 {
                println!(
                    "| {name} | {} | {} | {order:?} | {skin} | {} | {} |",
                    job.rows.len(),
                    job.proposals.len(),
                    beside(run),
                    beside(with_file),
                );
            }
        }
    }
}

/// The number of skin triangles, and the times of the run and of the run with the
/// file.
fn time_job(job: &Job) -> (u32, [Duration; 2], [Duration; 2]) {
    let [mut by_track, mut by_plain] = [(); 2].map(|()| Buffers::zeros(job.rooms()));
    let job = job.bytes();
    let run = time(
        || _ = track::run(&job, by_track.lend()),
        || _ = plain::run(&job, by_plain.lend()),
    );
    let [mut file, mut other] = [(); 2].map(|()| vec![0; file_len(MOST_FACETS)]);
    let mut skin = 0;
    let with_file = time(
        || skin = track::write_skin(&job, by_track.lend(), &mut file).triangles,
        || _ = plain::stl::write_skin(&job, by_plain.lend(), &mut other),
    );
    assert_eq!(file, other);
    (skin, run, with_file)
}

/// The best time of each; they take turns.
fn time(mut track: impl FnMut(), mut plain: impl FnMut()) -> [Duration; 2] {
    let once = |call: &mut dyn FnMut()| {
        let before = Instant::now();
        call();
        before.elapsed()
    };
    let mut best = [Duration::MAX; 2];
    let begun = Instant::now();
    while begun.elapsed() < TIME {
        best[0] = best[0].min(once(&mut track));
        best[1] = best[1].min(once(&mut plain));
    }
    best
}

fn beside([track, plain]: [Duration; 2]) -> String {
    let ratio = ratio(track, plain);
    format!("{} | {} | {ratio:.2}", micros(track), micros(plain))
}
