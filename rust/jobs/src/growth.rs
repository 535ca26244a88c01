//! Starting marks and proposals that lead somewhere.

use crate::{Job, Random, Table};
use common::{Buffers, MOST_PROPOSALS};

/// Marks that a run from empty marks leaves, after `steps` proposals of which
/// most are adds.
pub fn grown_marks(table: &Table, steps: usize, random: &mut Random) -> Vec<u8> {
    marks_after(table, even_marks(table, 0, 0), steps, 90, random)
}

/// The marks that a run from `marks` leaves, after `steps` proposals of which
/// `adds` in 100 are adds.
pub fn marks_after(
    table: &Table,
    mut marks: Vec<u8>,
    steps: usize,
    adds: usize,
    random: &mut Random,
) -> Vec<u8> {
    let mut left = steps;
    while left > 0 {
        let now = left.min(MOST_PROPOSALS);
        let mut job = table.job();
        job.marks.clone_from(&marks);
        propose(&mut job, now, adds, random);
        marks = Standing::after(&job).map_or(marks, |standing| standing.marks);
        left -= now;
    }
    marks
}

/// One mark for every outer row and one for every finite row: with unlike ones
/// the skin is the link of id 0, with like ones it is empty.
pub fn even_marks(table: &Table, outer: u8, finite: u8) -> Vec<u8> {
    let mark = |row: &[u32; 4]| if row[0] == 0 { outer } else { finite };
    table.rows.iter().map(mark).collect()
}

/// Finite rows each inside in `percent` of 100, and one mark for every outer
/// row.
pub fn random_marks(table: &Table, outer: u8, percent: usize, random: &mut Random) -> Vec<u8> {
    let mut mark = |row: &[u32; 4]| match row[0] {
        0 => outer,
        _ => u8::from(random.chance(percent)),
    };
    table.rows.iter().map(&mut mark).collect()
}

/// Every marking of a small table.
pub fn every_marking(table: &Table) -> impl Iterator<Item = Vec<u8>> {
    let rows = table.rows.len();
    let marking = move |bits: usize| (0..rows).map(|row| (bits >> row & 1) as u8).collect();
    (0..1 << rows).map(marking)
}

/// Every one of which the outer rows, the first of the table, are alike.
pub fn every_start(table: &Table) -> impl Iterator<Item = Vec<u8>> {
    let outer = table.rows.partition_point(|row| row[0] == 0);
    let alike = move |marks: &Vec<u8>| marks[..outer].iter().all(|&mark| mark == marks[0]);
    every_marking(table).filter(alike)
}

/// Appends `count` proposals of every kind to an accepted job. Of the useful
/// ones, `adds` in 100 are adds. On a refused job they are blind.
pub fn propose(job: &mut Job, count: usize, adds: usize, random: &mut Random) {
    // Proposals after which to look at the marks then standing.
    let most = 16 + job.rows.len() / 32;
    let wanted = job.proposals.len() + count;
    while job.proposals.len() < wanted {
        let round = most.min(wanted - job.proposals.len());
        match Standing::after(job) {
            Some(standing) => {
                let fronts = Fronts::of(job, &standing);
                for _ in 0..round {
                    let last = job.proposals.last().copied();
                    let next = fronts.proposal(job, &standing, adds, last, random);
                    job.proposals.push(next);
                }
            }
            None => {
                for _ in 0..round {
                    job.proposals.push(blind_proposal(job, random));
                }
            }
        }
    }
}

fn blind_proposal(job: &Job, random: &mut Random) -> [u32; 2] {
    let rows = job.rows.len() as u32;
    let row = match random.below(8) {
        0 => rows,
        1 => rows + random.below(20) as u32,
        2 => random.bits() as u32,
        3 => u32::MAX,
        _ => random.below(rows.max(1) as usize) as u32,
    };
    let kind = match random.below(12) {
        0 => 0,
        1 => 3,
        2 => 4,
        3 => random.bits() as u32,
        4 => random.pick(&[u32::MAX, 256, 257, 258, 1 << 16, 1 << 24]),
        _ => random.pick(&[Job::ADD, Job::REMOVE]),
    };
    [row, kind]
}

/// The marks after a job's proposals, and its neighbour list.
struct Standing {
    marks: Vec<u8>,
    neighbours: Vec<u32>,
}

impl Standing {
    fn after(job: &Job) -> Option<Standing> {
        let mut buffers = Buffers::zeros(job.rooms());
        let outcome = plain::run(&job.bytes(), buffers.lend());
        buffers.work.truncate(job.counts().tallies_at());
        (outcome.code == 0).then_some(Standing {
            marks: buffers.final_marks,
            neighbours: buffers.work,
        })
    }
}

/// Rows worth proposing.
#[derive(Default)]
struct Fronts {
    outer: Vec<u32>,
    finite: Vec<u32>,
    inside: Vec<u32>,
    /// Inside, with an outside neighbour.
    skin: Vec<u32>,
    /// Finite and outside, with an inside neighbour.
    beside: Vec<u32>,
}

impl Fronts {
    fn of(job: &Job, standing: &Standing) -> Fronts {
        let mut fronts = Fronts::default();
        for (r, row) in job.rows.iter().enumerate() {
            if row[0] == 0 {
                fronts.outer.push(r as u32);
                continue;
            }
            let mark = standing.marks[r];
            let across = &standing.neighbours[4 * r..4 * r + 4];
            let at_front = across.iter().any(|&s| standing.marks[s as usize] != mark);
            let r = r as u32;
            fronts.finite.push(r);
            match (mark, at_front) {
                (1, _) => fronts.inside.push(r),
                (_, true) => fronts.beside.push(r),
                _ => {}
            }
            if mark == 1 && at_front {
                fronts.skin.push(r);
            }
        }
        fronts
    }

    fn proposal(
        &self,
        job: &Job,
        standing: &Standing,
        adds: usize,
        last: Option<[u32; 2]>,
        random: &mut Random,
    ) -> [u32; 2] {
        let kind = if random.chance(adds) {
            Job::ADD
        } else {
            Job::REMOVE
        };
        let beside_last = |random: &mut Random| {
            let row = last?[0] as usize;
            let across = standing.neighbours.get(4 * row..4 * row + 4)?;
            random.pick_any(across)
        };
        let row = match (random.below(100), kind) {
            (0..10, _) => None,
            (10..13, _) => random.pick_any(&self.outer),
            (13..18, _) => last.map(|last| last[0]),
            (18..28, _) => beside_last(random),
            (28..80, Job::ADD) => random.pick_any(&self.beside),
            (28..80, _) => random.pick_any(&self.skin),
            (_, Job::ADD) => random.pick_any(&self.finite),
            (_, _) => random.pick_any(&self.inside),
        };
        row.map_or_else(|| blind_proposal(job, random), |row| [row, kind])
    }
}
