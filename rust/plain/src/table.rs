//! Rows, neighbours, and the three rules of a closed table: codes 5 to 9.

use crate::Refusal;
use common::{Counts, EDGES, MOST_IDS, MOST_ROWS, TRIANGLES};

/// Bits of an id and of a row number, in keys to sort by.
const ID_BITS: u32 = MOST_IDS.ilog2();
const ROW_BITS: u32 = MOST_ROWS.ilog2();
/// Bits of a row number with a corner.
const PLACE_BITS: u32 = ROW_BITS + 2;

/// The ids of a tetrahedron, each below `MOST_IDS` once code 5 is out of the way.
pub(crate) type Row = [u16; 4];

/// A closed table.
pub(crate) struct Table<'a> {
    pub rows: &'a [Row],
    pub neighbours: &'a [Across],
    pub corners: &'a Corners,
}

/// The rows across a row's triangles, by left-out corner.
pub(crate) type Across = [u32; 4];

/// Reads the rows: codes 5 and 6.
pub(crate) fn read_rows(counts: &Counts, job: &[u8]) -> Result<Vec<Row>, Refusal> {
    let mut rows = Vec::with_capacity(counts.rows);
    let (words, _) = job[counts.rows_at()..counts.marks_at()].as_chunks::<4>();
    for row in words.as_chunks::<4>().0 {
        let ids = row.map(u32::from_le_bytes);
        let rising = ids[0] < ids[1] && ids[1] < ids[2] && ids[2] < ids[3];
        if !rising || ids[3] >= counts.ids as u32 {
            return Err(Refusal::new(5, rows.len()));
        }
        rows.push(ids.map(|id| id as u16));
    }
    match rows.windows(2).position(|pair| pair[0] >= pair[1]) {
        Some(before) => Err(Refusal::new(6, before + 1)),
        None => Ok(rows),
    }
}

/// Fills the neighbour list, or refuses with code 7.
pub(crate) fn find_neighbours(rows: &[Row], neighbours: &mut [Across]) -> Result<(), Refusal> {
    // A triangle's three ids above its row and its left-out corner.
    let [high, middle, low] = [2, 1, 0].map(|id| PLACE_BITS + id * ID_BITS);
    let mut keys = Vec::with_capacity(4 * rows.len());
    for (r, row) in rows.iter().enumerate() {
        for (corner, triangle) in TRIANGLES.iter().enumerate() {
            let [a, b, c] = triangle.map(|t| u64::from(row[t]));
            keys.push(a << high | b << middle | c << low | (4 * r + corner) as u64);
        }
    }
    for shift in [low, middle, high] {
        keys = sorted_by_id(keys, shift);
    }
    let row = |key: u64| (key >> 2) as usize % MOST_ROWS;
    let corner = |key: u64| (key & 3) as usize;
    let mut broken = Lowest::default();
    for group in keys.chunk_by(|x, y| x >> PLACE_BITS == y >> PLACE_BITS) {
        if let [x, y] = *group {
            neighbours[row(x)][corner(x)] = row(y) as u32;
            neighbours[row(y)][corner(y)] = row(x) as u32;
        } else {
            broken.add(row(group[0]));
        }
    }
    broken.refusal(7)
}

/// Sorts by the id from bit `shift` on; equals keep their order.
fn sorted_by_id(keys: Vec<u64>, shift: u32) -> Vec<u64> {
    let id = |key: u64| (key >> shift) as usize % MOST_IDS;
    let mut places = [0; MOST_IDS];
    for &key in &keys {
        places[id(key)] += 1;
    }
    let mut before = 0;
    for place in &mut places {
        before += std::mem::replace(place, before);
    }
    let mut sorted = vec![0; keys.len()];
    for &key in &keys {
        let place = &mut places[id(key)];
        sorted[*place] = key;
        *place += 1;
    }
    sorted
}

/// The lowest row at which a rule is broken.
#[derive(Default)]
struct Lowest(Option<usize>);

impl Lowest {
    fn add(&mut self, row: usize) {
        self.0 = Some(self.0.map_or(row, |lowest| lowest.min(row)));
    }

    fn refusal(self, code: u32) -> Result<(), Refusal> {
        self.0.map_or(Ok(()), |row| Err(Refusal::new(code, row)))
    }
}

/// The rows round an edge, from `start` on. `edge` is one of `EDGES`. Needs the
/// triangle rule; gives all rows at the edge only where the edge rule holds.
pub(crate) fn round_edge<'a>(
    rows: &'a [Row],
    neighbours: &'a [Across],
    start: usize,
    edge: &[usize; 4],
) -> impl Iterator<Item = usize> + 'a {
    let [a, b, out, kept] = edge.map(|corner| rows[start][corner]);
    let step = move |&(at, out, kept): &(usize, u16, u16)| {
        let next = neighbours[at][corner_of(&rows[at], out)] as usize;
        let [e, f, g, h] = rows[next];
        let fourth = e ^ f ^ g ^ h ^ a ^ b ^ kept;
        (next != start).then_some((next, kept, fourth))
    };
    std::iter::successors(Some((start, out, kept)), step).map(|(at, _, _)| at)
}

/// The corner of `row` with the id `id`, which it holds.
fn corner_of(row: &Row, id: u16) -> usize {
    usize::from(row[1] <= id) + usize::from(row[2] <= id) + usize::from(row[3] <= id)
}

/// The number in `EDGES` of the edge of `row` with the ids `a` and `b`, rising.
fn edge_of(row: &Row, a: u16, b: u16) -> usize {
    match (corner_of(row, a), corner_of(row, b)) {
        (0, high) => high - 1,
        (low, high) => low + high,
    }
}

/// The edge rule: code 8.
pub(crate) fn check_edges(rows: &[Row], neighbours: &[Across]) -> Result<(), Refusal> {
    // The edges of each row that a walk has come to, a bit for each.
    let mut seen = vec![0_u8; rows.len()];
    // An edge's two ids above the row from which a walk round it began.
    let mut walks = Vec::with_capacity(2 * rows.len());
    for (r, row) in rows.iter().enumerate() {
        for (e, edge) in EDGES.iter().enumerate() {
            if seen[r] >> e & 1 == 1 {
                continue;
            }
            let [a, b] = [row[edge[0]], row[edge[1]]];
            walks.push((u32::from(a) << ID_BITS | u32::from(b)) << ROW_BITS | r as u32);
            for at in round_edge(rows, neighbours, r, edge) {
                seen[at] |= 1 << edge_of(&rows[at], a, b);
            }
        }
    }
    walks.sort_unstable();
    // The first of several walks round an edge began at its lowest row.
    let mut broken = Lowest::default();
    for pair in walks.windows(2) {
        if pair[0] >> ROW_BITS == pair[1] >> ROW_BITS {
            broken.add(pair[0] as usize % MOST_ROWS);
        }
    }
    broken.refusal(8)
}

/// The rows at each id, rising.
pub(crate) struct Corners {
    /// Where each id's rows begin, and where the last one's end.
    starts: Vec<u32>,
    rows: Vec<u16>,
}

impl Corners {
    pub(crate) fn group(ids: usize, rows: &[Row]) -> Corners {
        let mut starts = vec![0; ids + 1];
        for &id in rows.iter().flatten() {
            starts[usize::from(id) + 1] += 1;
        }
        for id in 0..ids {
            starts[id + 1] += starts[id];
        }
        let mut free = starts.clone();
        let mut grouped = vec![0; 4 * rows.len()];
        for (r, row) in rows.iter().enumerate() {
            for &id in row {
                let at = &mut free[usize::from(id)];
                grouped[*at as usize] = r as u16;
                *at += 1;
            }
        }
        Corners {
            starts,
            rows: grouped,
        }
    }

    /// The rows that hold `id`, rising.
    pub(crate) fn at(&self, id: usize) -> &[u16] {
        &self.rows[self.starts[id] as usize..self.starts[id + 1] as usize]
    }

    pub(crate) fn ids(&self) -> usize {
        self.starts.len() - 1
    }
}

/// The vertex rule: code 9.
pub(crate) fn check_vertices(
    rows: &[Row],
    neighbours: &[Across],
    corners: &Corners,
) -> Result<(), Refusal> {
    let mut broken = Lowest::default();
    // The last id from which a flood came to each row.
    let mut stamps = vec![u16::MAX; rows.len()];
    let mut waiting = Vec::new();
    for id in 0..corners.ids() {
        let Some(&first) = corners.at(id).first() else {
            continue;
        };
        let stamp = id as u16;
        let first = usize::from(first);
        let mut reached = 1;
        stamps[first] = stamp;
        waiting.push(first);
        while let Some(row) = waiting.pop() {
            for (&left_out, &next) in rows[row].iter().zip(&neighbours[row]) {
                let next = next as usize;
                if left_out != stamp && stamps[next] != stamp {
                    stamps[next] = stamp;
                    reached += 1;
                    waiting.push(next);
                }
            }
        }
        if reached != corners.at(id).len() {
            broken.add(first);
        }
    }
    broken.refusal(9)
}
