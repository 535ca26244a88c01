//! Prints the text of a generated job.

use common::Order;
use jobs::{growth, placed, tables, text, Job, Random};
use std::env;
use std::process::ExitCode;

const USAGE: &str = "generate_job FAMILY ROWS STEPS PROPOSALS SEED [inside] [rising]
FAMILY is one of `tables::each_family`, or one of `placed::each_family`, which
have points, and ROWS, at least 200, its most rows.
The starting marks are what STEPS proposals left, from empty ones, or with
`inside` from those with the sky inside. With points the skin is to be listed
outward, or with `rising` by rising ids.";

fn main() -> ExitCode {
    let arguments: Vec<String> = env::args().skip(1).collect();
    match generate(&arguments) {
        Some(text) => {
            print!("{text}");
            ExitCode::SUCCESS
        }
        None => {
            eprintln!("{USAGE}");
            ExitCode::FAILURE
        }
    }
}

fn generate(arguments: &[String]) -> Option<String> {
    let (first, order) = match arguments {
        [first @ .., last] if last == "rising" => (first, Order::Rising),
        first => (first, Order::Outward),
    };
    let (first, sky) = match first {
        [first @ .., last] if last == "inside" => (first, 1),
        first => (first, 0),
    };
    let [family, rows, steps, proposals, seed] = first else {
        return None;
    };
    let random = &mut Random::new(seed.parse().ok()?);
    let most = rows.parse().ok().filter(|&rows| rows >= 200)?;
    let mut tables = tables::each_family(most, random).into_iter();
    let mut placed = placed::each_family(most, &mut random.clone()).into_iter();
    let (table, points) = match tables.find(|(name, _)| name == family) {
        Some((_, table)) => (table, None),
        None => {
            let (_, placed) = placed.find(|(name, _)| name == family)?;
            (placed.table, Some(placed.points))
        }
    };
    let mut job = Job {
        points,
        order,
        ..table.job()
    };
    let start = growth::even_marks(&table, sky, 0);
    job.marks = growth::marks_after(&table, start, steps.parse().ok()?, 90, random);
    growth::propose(&mut job, proposals.parse().ok()?, 60, random);
    let heading = format!("# generate_job {}\n", arguments.join(" "));
    Some(heading + &text::from_job(&job))
}
