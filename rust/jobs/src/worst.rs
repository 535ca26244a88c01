//! The slowest jobs known: for each stage one that makes it long, damaged ones
//! that are refused late, and one that makes most stages long at once.
//! `docs/SPEED.md` has the bounds.
//!
//! Chains are of faces that the proved engine has one key for (`key_of`).

use crate::{growth, tables, Job, Random, Table};
use common::{Order, MOST_IDS, MOST_PROPOSALS, MOST_ROWS};
use std::collections::BTreeSet;

const KEYS: u32 = 8192;
const ONE_89TH: u32 = 2025;
const ONE_273RD: u32 = 4081;

/// The key of a triangle; an edge and a vertex repeat their last id.
fn key_of([a, b, c]: [u32; 3]) -> u32 {
    (a + 89 * b + 7919 * c) % KEYS
}

/// The triangles of five ids.
const TRIANGLES_OF_FIVE: [[usize; 3]; 10] = [
    [0, 1, 2],
    [0, 1, 3],
    [0, 1, 4],
    [0, 2, 3],
    [0, 2, 4],
    [0, 3, 4],
    [1, 2, 3],
    [1, 2, 4],
    [1, 3, 4],
    [2, 3, 4],
];

/// A job, and the code that it is meant to get.
#[derive(Clone, Debug)]
pub struct Worst {
    pub name: &'static str,
    pub code: u32,
    pub job: Job,
}

/// What the worst are measured by: a Delaunay-like table, grown marks, and as
/// many proposals as a job may have.
pub fn usual() -> Job {
    let random = &mut Random::new(1);
    let table = tables::delaunay(MOST_ROWS, random);
    let mut job = table.job();
    job.marks = growth::grown_marks(&table, MOST_PROPOSALS, random);
    growth::propose(&mut job, MOST_PROPOSALS, 60, random);
    job
}

pub fn all() -> Vec<Worst> {
    let worst = |name, code, job| Worst { name, code, job };
    vec![
        worst("triangle chains", 0, triangle_chains()),
        worst("triangle chains, the last row alone", 7, row_alone()),
        worst("triangle chains, an edge shared", 8, ids_shared(2)),
        worst("triangle chains, a vertex shared", 9, ids_shared(1)),
        worst("triangle chains, ids shared by all", 8, crowded_chains()),
        worst("edge chains", 0, edge_chains()),
        worst("rings at all ids", 0, rings()),
        worst("rings at all ids, two at the last", 12, two_rings()),
        worst("walks about an edge", 0, walks()),
        worst("adds and removes", 0, adds_and_removes()),
        worst("refusals by the last row", 0, refusals()),
        worst("all at once", 0, all_at_once()),
    ]
}

/// A closed table put together from parts, and its marks.
#[derive(Default)]
struct Parts {
    rows: Vec<([u32; 4], u8)>,
    used: Vec<u32>,
}

impl Parts {
    /// Puts a table in, with these ids for its own, and those rows inside that
    /// `inside` says, of its own ids.
    fn put(&mut self, ids: &[u32], table: &Table, inside: impl Fn([u32; 4]) -> bool) {
        for &row in &table.rows {
            let mut named = row.map(|id| ids[id as usize]);
            named.sort_unstable();
            self.rows.push((named, u8::from(inside(row))));
        }
        self.used.extend(ids);
    }

    /// The unused ids but for 0, rising.
    fn free(&self) -> Vec<u32> {
        let free = |id: &u32| !self.used.contains(id);
        (1..MOST_IDS as u32).filter(free).collect()
    }

    /// Puts job A's table in again and again, on the lowest ids that are free,
    /// and leaves this many rows and ids. Its ids are all on the skin.
    fn fill(&mut self, rows: usize, ids: usize) {
        let free = self.free();
        let most = (MOST_ROWS - rows - self.rows.len()) / 5;
        for ids in free[..free.len() - ids].chunks_exact(5).take(most) {
            self.put(ids, &tables::simplex(), |row| row[2] != 2);
        }
    }

    /// Puts a table in on the highest free ids. Its rows are the last ones.
    fn put_last(&mut self, table: &Table, inside: impl Fn([u32; 4]) -> bool) {
        let free = self.free();
        let ids = &free[free.len() - table.ids as usize..];
        self.put(ids, table, inside);
    }

    fn job(mut self) -> Job {
        self.rows.sort_unstable();
        let (rows, marks) = self.rows.into_iter().unzip();
        Job {
            ids: MOST_IDS as u32,
            rows,
            marks,
            proposals: Vec::new(),
            points: None,
            order: Order::default(),
        }
    }
}

/// Joins of a ring of three high ids, 60 apart, with a ring of eleven, each
/// alternately 4 or 92 above the last but one. Modulo 8192, 273 * 60 and
/// 89 * 92 are both -4. So of the triangles that have one of the three, which
/// are half of all, those on all edges of the ring but one fall into four keys
/// about `KEY`: a sixth, a third, a third and a sixth of them. Each join begins
/// at the first place where it gets the same four keys and no id twice.
///
/// Joins do not come nearer to one chain: a ring has at least three ids, and
/// edges of at least two keys, which makes four. With longer rings fewer joins
/// find ids; with shorter ones the edge with a key of its own weighs more.
/// `KEY` and eleven were tried out.
fn chains() -> Parts {
    const KEY: u32 = 1519;
    const RING: u32 = 11;
    const LOWEST_OF_THREE: u32 = 844;
    let begin = |high: u32, low: u32, mut free: [bool; LOWEST_OF_THREE as usize]| {
        let up = (KEY + 273 * high - low) * ONE_89TH % KEYS;
        let at = |i| [low, up][i as usize % 2] + [4, 92][i as usize % 2] * (i / 2);
        let ids: Vec<u32> = (0..RING).map(at).collect();
        let take = |&id: &u32| free.get_mut(id as usize).is_some_and(std::mem::take);
        (low < up && ids.iter().all(take)).then_some((ids, free))
    };
    let table = tables::join_of_rings(3, RING);
    let mut parts = Parts::default();
    let mut free = [true; LOWEST_OF_THREE as usize];
    for high in LOWEST_OF_THREE + 120..MOST_IDS as u32 {
        let mut lows = (1..LOWEST_OF_THREE).rev();
        let Some((ids, left)) = lows.find_map(|low| begin(high, low, free)) else {
            continue;
        };
        free = left;
        let ids = [vec![high, high - 60, high - 120], ids].concat();
        // A third of the rows is outside, each joined to the next, and all ids
        // are on their skin.
        parts.put(&ids, &table, |row| {
            let about_edge = row[..2] == [0, 1] && row[2..] != [3, RING + 2];
            !about_edge && row != [1, 2, 3, 4]
        });
    }
    parts
}

/// Code 7 and the neighbour list walk a whole chain for each place.
fn triangle_chains() -> Job {
    let mut parts = chains();
    parts.fill(0, 0);
    unmarked(parts)
}

/// As late as code 7 can come: by the very last row, which has no neighbour.
fn row_alone() -> Job {
    let mut parts = chains();
    parts.fill(1, 4);
    parts.put_last(&Table::sorted(4, vec![[0, 1, 2, 3]]), |_| false);
    unmarked(parts)
}

/// As late as code 8, for two ids shared, or 9, for one, can come: the last
/// rows are two of job A's tables that share their highest ids.
fn ids_shared(shared: u32) -> Job {
    let two = tables::side_by_side(&tables::simplex(), &tables::simplex());
    let pairs: Vec<[u32; 2]> = (0..shared).map(|i| [4 - i, 9 - i]).collect();
    let two = tables::identified(&two, &pairs).expect("no row in common");
    let two = tables::compacted(&two);
    let mut parts = chains();
    parts.fill(10, two.ids as usize);
    parts.put_last(&two, |_| false);
    unmarked(parts)
}

/// Job A's tables on fives of ids that have ids in common but no triangle, so
/// that code 7 is passed. Three of the ten triangles of each have one key.
/// Twelve keys were tried: each has 686 fives or more with three such triangles,
/// and all of them together have one with four.
fn crowded_chains() -> Job {
    const KEY: u32 = 3310;
    let mut triangles_at = vec![Vec::new(); MOST_IDS];
    for b in 0..MOST_IDS as u32 {
        for a in 0..b {
            let c = (a + 89 * b + KEYS - KEY) * ONE_273RD % KEYS;
            if b < c && c < MOST_IDS as u32 {
                for id in [a, b, c] {
                    triangles_at[id as usize].push([a, b, c]);
                }
            }
        }
    }
    let triangles = |five: &Vec<u32>| {
        let ids = |[a, b, c]: [usize; 3]| [five[a], five[b], five[c]];
        TRIANGLES_OF_FIVE.map(ids)
    };
    let mut fives = BTreeSet::new();
    for triangles_here in &triangles_at {
        for (i, first) in triangles_here.iter().enumerate() {
            for second in &triangles_here[..i] {
                let mut five = [*first, *second].concat();
                five.sort_unstable();
                five.dedup();
                let of_key = |five| triangles(five).into_iter().filter(|&t| key_of(t) == KEY);
                if five.len() == 5 && of_key(&five).count() >= 3 {
                    fives.insert(five);
                }
            }
        }
    }
    let mut used = BTreeSet::new();
    let mut parts = Parts::default();
    for five in fives {
        let full = parts.rows.len() + 5 > MOST_ROWS;
        if !full && triangles(&five).iter().all(|t| !used.contains(t)) {
            used.extend(triangles(&five));
            parts.put(&five, &tables::simplex(), |_| false);
        }
    }
    parts.job()
}

fn unmarked(parts: Parts) -> Job {
    let mut job = parts.job();
    job.marks.fill(0);
    job
}

/// Code 8 walks, for each place, the chain up to the first place of its edge.
/// A key has at most 68 edges, so they must be in many rows each. Here a ring
/// of 22 ids, each alternately 8 above or 89 below the last but one, is joined
/// with one of 93: as 184 * 89 is -8 modulo 8192, all its edges but one have
/// two keys, and each is in 93 rows. The other ring has as many edges of these
/// keys as there is room for, which make the chains longer.
fn edge_chains() -> Job {
    let zigzag = |i: u32| {
        let at = move |j: u32| [1 + 184 * i + 8 * j, 1019 + i - 89 * j];
        (0..11 - 2 * i).flat_map(at)
    };
    let mut ids: Vec<u32> = (0..4).flat_map(zigzag).collect();
    let free = (90..).filter(|id| !ids.contains(id)).take(115 - ids.len());
    ids.extend(free.collect::<Vec<u32>>());
    let mut parts = Parts::default();
    parts.put(&ids, &tables::join_of_rings(22, 93), |_| false);
    parts.job()
}

/// As many tables as there is room for, of seven ids and fourteen rows each.
/// `last_inside` is for the last one.
fn sevens(inside: impl Fn([u32; 4]) -> bool, last_inside: impl Fn([u32; 4]) -> bool) -> Job {
    let seven = tables::cyclic(7);
    let mut parts = Parts::default();
    let tables = MOST_ROWS / seven.rows.len();
    for ids in parts.free().chunks_exact(7).take(tables - 1) {
        parts.put(ids, &seven, &inside);
    }
    let last = &parts.free()[..7];
    parts.put(last, &seven, last_inside);
    parts.job()
}

/// Four rows of seven ids, each joined to the next: their skin has all ids.
fn four_of_seven(row: [u32; 4]) -> bool {
    row[3] - row[0] == 3
}

/// Code 12 follows the ring of each skin vertex, and all ids but two are. About
/// an edge it passes an inside row twice and an outside row once; of each
/// fourteen rows ten are inside, since fewer than four outside would not have
/// all seven ids on their skin.
fn rings() -> Job {
    let inside = |row| !four_of_seven(row);
    sevens(inside, inside)
}

/// As late as code 12 can come: at the highest id, which two rows share.
fn two_rings() -> Job {
    let inside = |row| !four_of_seven(row);
    sevens(inside, |row| row == [0, 1, 2, 6] || row == [3, 4, 5, 6])
}

/// An edge is in a third of the rows, which is the most but for two rows, and
/// of these all but one are inside. To remove the first is to walk about the
/// edge until the one that is outside. The rings at the ends of the edge go
/// through all other ids but one.
fn walks() -> Job {
    let table = tables::join_of_rings(3, MOST_ROWS as u32 / 3);
    let ids: Vec<u32> = (1..=table.ids).collect();
    let mut parts = Parts::default();
    parts.put(&ids, &table, |row| row[..2] == [0, 1] && row[2..] != [5, 6]);
    let mut job = parts.job();
    job.proposals = vec![[0, Job::REMOVE]; MOST_PROPOSALS];
    job
}

/// The first row of the last table, whose highest id is the lowest of the very
/// last row; they share no other id.
fn first_of_last(job: &Job) -> u32 {
    job.rows.len() as u32 - 14
}

/// To remove a row with no triangle on the skin reads the tallies at its four
/// corners. To add it again reads none: all its triangles are on the skin. Both
/// are taken, and change the four.
fn adds_and_removes() -> Job {
    let mut job = sevens(|_| false, |_| true);
    let row = first_of_last(&job);
    job.proposals = [[row, Job::REMOVE], [row, Job::ADD]].repeat(MOST_PROPOSALS / 2);
    job
}

/// Each proposal reads the tallies at four corners, and is refused at the last
/// one, where of the other side there is the last row alone.
fn refusals() -> Job {
    let mut job = sevens(|_| false, |row| row[0] != 3);
    job.proposals = vec![[first_of_last(&job), Job::REMOVE]; MOST_PROPOSALS];
    job
}

/// The chains of `triangle_chains`, rings at nearly all ids, and proposals that
/// are refused by the last row.
fn all_at_once() -> Job {
    let mut parts = chains();
    parts.fill(14, 7);
    parts.put_last(&tables::cyclic(7), |row| row[0] == 3);
    let mut job = parts.job();
    job.proposals = vec![[first_of_last(&job), Job::ADD]; MOST_PROPOSALS];
    job
}

#[cfg(test)]
mod tests {
    use super::*;
    use common::{EDGES, TRIANGLES};

    /// Each place of a triangle walks its whole chain.
    fn triangle_steps(job: &Job) -> usize {
        let mut lengths = [0; KEYS as usize];
        for row in &job.rows {
            for triangle in TRIANGLES {
                lengths[key_of(triangle.map(|t| row[t])) as usize] += 1;
            }
        }
        lengths.iter().map(|length| length * length).sum()
    }

    /// Each place of an edge walks its chain up to the first place of the edge.
    fn edge_steps(job: &Job) -> usize {
        let mut chains = vec![Vec::new(); KEYS as usize];
        let mut steps = 0;
        for row in &job.rows {
            for [a, b, ..] in EDGES {
                let edge = [row[a], row[b], row[b]];
                let chain = &mut chains[key_of(edge) as usize];
                let first = chain.iter().position(|&other| other == edge);
                steps += first.unwrap_or(chain.len());
                chain.push(edge);
            }
        }
        steps
    }

    #[test]
    fn chains_are_as_long_as_they_are_meant_to_be() {
        assert_eq!(triangle_steps(&usual()), 24_296);
        assert_eq!(triangle_steps(&triangle_chains()), 3_076_360);
        assert_eq!(triangle_steps(&all_at_once()), 3_076_368);
        assert_eq!(triangle_steps(&crowded_chains()), 6_130_216);
        assert_eq!(edge_steps(&usual()), 4_978);
        assert_eq!(edge_steps(&edge_chains()), 1_332_492);
    }

    /// What the bounds of edge chains in `docs/SPEED.md` rest on.
    #[test]
    fn few_edges_have_one_key() {
        let mut lengths = [0; KEYS as usize];
        for b in 0..MOST_IDS as u32 {
            for a in 0..b {
                lengths[key_of([a, b, b]) as usize] += 1;
            }
        }
        assert_eq!(lengths.iter().max(), Some(&68));

        // The gaps of four ids a, b, c, d of which ab, bc and cd have one key.
        let gaps = |last: u32| [184 * 184 * last % KEYS, 184 * last % KEYS, last];
        let fits = |gaps: &[u32; 3]| gaps.iter().sum::<u32>() < MOST_IDS as u32;
        let found: Vec<[u32; 3]> = (1..MOST_IDS as u32).map(gaps).filter(fits).collect();
        assert_eq!(found, [[128, 624, 226], [64, 312, 625]]);
    }
}
