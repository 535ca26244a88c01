//! Marks, the ring test and the list of the skin: codes 10 to 12.

use crate::points::Sides;
use crate::table::Table;
use crate::Refusal;
use common::TRIANGLES;

const INSIDE: u8 = 1;

/// Codes 10 and 11.
pub(crate) fn check_marks(table: &Table, marks: &[u8]) -> Result<(), Refusal> {
    if let Some(row) = marks.iter().position(|&mark| mark > 1) {
        return Err(Refusal::new(10, row));
    }
    // Rows and their ids rise, so the outer rows are a front of the table.
    let outer = table.rows.partition_point(|row| row[0] == 0);
    match marks[..outer].iter().position(|&mark| mark != marks[0]) {
        Some(row) => Err(Refusal::new(11, row)),
        None => Ok(()),
    }
}

/// Code 12.
pub(crate) fn check_clean(table: &Table, marks: &[u8]) -> Result<(), Refusal> {
    let mut ring = Ring::new(table.corners.ids());
    for id in 0..table.corners.ids() {
        ring.begin();
        let one = far_edges(table, marks, id).all(|edge| ring.add(edge)) && ring.is_one();
        if !one {
            return Err(Refusal::new(12, id));
        }
    }
    Ok(())
}

/// The edges opposite `id` in the skin triangles that hold it.
fn far_edges<'a>(
    table: &'a Table,
    marks: &'a [u8],
    id: usize,
) -> impl Iterator<Item = [u16; 2]> + 'a {
    let rows = table.corners.at(id).iter().map(|&row| usize::from(row));
    let inside = rows.filter(|&row| marks[row] == INSIDE);
    inside.flat_map(move |row| {
        (0..4).filter_map(move |corner| {
            let triangle = TRIANGLES[corner].map(|t| table.rows[row][t]);
            let at = triangle.iter().position(|&t| usize::from(t) == id)?;
            let on_skin = marks[table.neighbours[row][corner] as usize] != INSIDE;
            on_skin.then(|| match at {
                0 => [triangle[1], triangle[2]],
                1 => [triangle[0], triangle[2]],
                _ => [triangle[0], triangle[1]],
            })
        })
    })
}

/// The far edges of one vertex, kept by their ends.
struct Ring {
    /// Counts vertices, so that what an earlier one left needs no clearing.
    turn: u32,
    edges: usize,
    ends: usize,
    last: u16,
    by_id: Vec<End>,
}

#[derive(Clone, Copy, Default)]
struct End {
    turn: u32,
    edges: u32,
    across: [u16; 2],
}

impl Ring {
    fn new(ids: usize) -> Ring {
        Ring {
            turn: 0,
            edges: 0,
            ends: 0,
            last: 0,
            by_id: vec![End::default(); ids],
        }
    }

    fn begin(&mut self) {
        self.turn += 1;
        self.edges = 0;
        self.ends = 0;
    }

    /// Adds an edge; false if it is the third at one of its ends.
    fn add(&mut self, [a, b]: [u16; 2]) -> bool {
        self.edges += 1;
        self.last = a;
        self.add_end(a, b) && self.add_end(b, a)
    }

    fn add_end(&mut self, id: u16, across: u16) -> bool {
        let end = &mut self.by_id[usize::from(id)];
        if end.turn != self.turn {
            *end = End {
                turn: self.turn,
                edges: 0,
                across: [0; 2],
            };
            self.ends += 1;
        }
        if end.edges == 2 {
            return false;
        }
        end.across[end.edges as usize] = across;
        end.edges += 1;
        true
    }

    /// Whether the edges added form one ring, or there are none. With at most
    /// two edges at each end, there are two at each exactly if ends and edges
    /// are equally many.
    fn is_one(&self) -> bool {
        if self.edges == 0 {
            return true;
        }
        self.ends == self.edges && self.length_from(self.last) == self.edges
    }

    /// The length of the ring through `start`; needs two edges at each end.
    fn length_from(&self, start: u16) -> usize {
        let mut before = start;
        let mut at = self.by_id[usize::from(start)].across[0];
        let mut length = 1;
        while at != start {
            let [x, y] = self.by_id[usize::from(at)].across;
            (before, at) = (at, if x == before { y } else { x });
            length += 1;
        }
        length
    }
}

/// As `list`, each triangle outward.
pub(crate) fn list_outward(
    table: &Table,
    marks: &[u8],
    sides: &Sides,
    triangles: &mut [u32],
) -> u32 {
    let exchanged = |row, left_out| sides.looks_inward(table, row, left_out);
    list(table, marks, exchanged, triangles)
}

/// Writes the skin to the front of `triangles` and returns how many there are.
/// The ids of a triangle rise, but for those of which `exchanged` says, by
/// inside row and left-out corner, that their last two change places.
pub(crate) fn list(
    table: &Table,
    marks: &[u8],
    exchanged: impl Fn(usize, usize) -> bool,
    triangles: &mut [u32],
) -> u32 {
    let mut listed = 0;
    for (r, row) in table.rows.iter().enumerate() {
        if marks[r] != INSIDE {
            continue;
        }
        for (corner, triangle) in TRIANGLES.iter().enumerate() {
            if marks[table.neighbours[r][corner] as usize] != INSIDE {
                let mut ids = triangle.map(|t| u32::from(row[t]));
                if exchanged(r, corner) {
                    ids.swap(1, 2);
                }
                triangles[3 * listed..3 * listed + 3].copy_from_slice(&ids);
                listed += 1;
            }
        }
    }
    listed as u32
}
