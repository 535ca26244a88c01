//! Times the worst jobs beside the usual one and prints a Markdown table, in
//! microseconds: the best of many runs. The jobs take turns, so that each meets
//! the machine at its quietest.

use bench::{micros, Timed};
use jobs::worst::{self, Worst};

const RUNS: usize = 100;

fn main() {
    if track::EMULATED {
        println!("The times of track say nothing here: it runs under an emulator.\n");
    }
    let mut jobs = worst::all();
    jobs.insert(
        0,
        Worst {
            name: "the usual one",
            code: 0,
            job: worst::usual(),
        },
    );
    let mut times: Vec<Timed> = jobs.iter().map(|worst| Timed::new(&worst.job)).collect();
    for _ in 0..RUNS {
        times.iter_mut().for_each(Timed::run);
    }
    let usual = times[0].track;

    println!("| job | V | N | P | code | track | plain | times the usual |");
    println!("|---|---|---|---|---|---|---|---|");
    for (Worst { name, code, job }, times) in jobs.iter().zip(&times) {
        assert_eq!(times.outcome.code, *code, "{name}");
        println!(
            "| {name} | {} | {} | {} | {code} | {} | {} | {:.2} |",
            job.ids,
            job.rows.len(),
            job.proposals.len(),
            micros(times.track),
            micros(times.plain),
            times.track.as_secs_f64() / usual.as_secs_f64(),
        );
    }
}
