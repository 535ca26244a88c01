//! Jobs that stop early. The proved engine has no stage times of its own; a
//! refused job shows the time up to its code.

use crate::{families, time};
use bench::{micros, ratios, runs};
use common::{Buffers, EDGES, MOST_PROPOSALS, MOST_ROWS};
use jobs::{growth, tables, Job, Random, Table};
use std::collections::HashMap;
use std::hash::Hash;

/// Leaves room for the five rows that codes 8 and 9 glue on.
const ROWS: usize = MOST_ROWS - 5;

/// The code that comes next when codes 5 to 9 are done.
const TABLE_DONE: u32 = 10;

pub(crate) fn print() {
    let random = &mut Random::new(2);
    let mut all = Vec::new();
    for (title, table) in families(ROWS, random) {
        for (code, job) in stopping(&table, random) {
            let (timed, _) = time(&job);
            assert_eq!(timed.outcome.code, code, "{title}");
            all.push((title, code, timed));
        }
    }
    let runs = runs(all.iter().map(|(_, _, timed)| timed));
    println!("\nJobs refused as late as their code allows, track / plain, the best of {runs}:\n");
    println!("| table | 5 | 6 | 7 | 8 | 9 | 10: codes 5 to 9 together | 0, grown, P 0 |");
    println!("|---|---|---|---|---|---|---|---|");
    for of_table in all.chunk_by(|x, y| x.0 == y.0) {
        print!("| {} |", of_table[0].0);
        for (_, code, timed) in of_table {
            print!(" {} / {}", micros(timed.track), micros(timed.plain));
            if *code == TABLE_DONE {
                print!(" = {:.2}", timed.ratio());
            }
            print!(" |");
        }
        println!();
    }
    let done = all.iter().filter(|(_, code, _)| *code == TABLE_DONE);
    println!(
        "\nRatios of codes 5 to 9 from {}.",
        ratios(done.map(|(_, _, timed)| timed))
    );
}

/// The jobs with the codes that stop them.
fn stopping(table: &Table, random: &mut Random) -> Vec<(u32, Job)> {
    let last = table.rows.len() - 1;
    let mut not_rising = table.job();
    not_rising.rows[last][3] = not_rising.rows[last][2];
    let mut not_after = table.job();
    not_after.rows[last] = not_after.rows[last - 1];

    // Without the row whose lowest neighbour is the highest.
    let mut open = table.job();
    let mut buffers = Buffers::zeros(open.rooms());
    plain::run(&open.bytes(), buffers.lend());
    let lowest = |row: &usize| buffers.work[4 * row..4 * row + 4].iter().min();
    let latest_open = (0..=last).max_by_key(lowest);
    open.rows.remove(latest_open.expect("a table has rows"));
    open.marks.pop();

    let edges = first_rows(table, |row| {
        EDGES.map(|[a, b, ..]| [row[a], row[b]]).to_vec()
    });
    let edge = latest(&edges);
    let vertices = first_rows(table, |row| row.to_vec());
    let vertex = latest(&vertices);

    let mut odd_mark = table.job();
    odd_mark.marks[0] = 2;
    let mut grown = table.job();
    grown.marks = growth::grown_marks(table, MOST_PROPOSALS, random);
    vec![
        (5, not_rising),
        (6, not_after),
        (7, open),
        (8, glued(table, &edge).job()),
        (9, glued(table, &[vertex]).job()),
        (TABLE_DONE, odd_mark),
        (0, grown),
    ]
}

/// The lowest row of each of the things that `of` finds in a row.
fn first_rows<T: Eq + Hash>(table: &Table, of: impl Fn([u32; 4]) -> Vec<T>) -> HashMap<T, usize> {
    let mut first = HashMap::new();
    for (r, &row) in table.rows.iter().enumerate() {
        for thing in of(row) {
            first.entry(thing).or_insert(r);
        }
    }
    first
}

/// The thing whose lowest row is the highest.
fn latest<T: Copy + Ord>(first: &HashMap<T, usize>) -> T {
    let latest = first.iter().max_by_key(|&(thing, row)| (row, thing));
    *latest.expect("a table has rows").0
}

/// The table and job A's, which have only these ids in common.
fn glued(table: &Table, shared: &[u32]) -> Table {
    let pairs: Vec<[u32; 2]> = (0..)
        .zip(shared)
        .map(|(i, &id)| [id, table.ids + i])
        .collect();
    let both = tables::side_by_side(table, &tables::simplex());
    tables::identified(&both, &pairs).expect("no row in common")
}
