//! Points, codes 13 to 15 and outward triangles. Products are exact: no number
//! of two bytes makes one that does not fit.

use crate::{holds, rows_holding, triangle, Row};
use common::{GRID, POINT_BYTES};

pub struct Points(Vec<[i128; 3]>);

impl Points {
    pub fn read(bytes: &[u8]) -> Points {
        let coordinate = |at: usize| {
            let unsigned = i128::from(bytes[at]) + 256 * i128::from(bytes[at + 1]);
            if unsigned < 1 << 15 {
                unsigned
            } else {
                unsigned - (1 << 16)
            }
        };
        let point = |id| [0, 2, 4].map(|at| coordinate(POINT_BYTES * id + at));
        Points((0..bytes.len() / POINT_BYTES).map(point).collect())
    }

    pub fn of(&self, id: u32) -> [i128; 3] {
        self.0[id as usize]
    }

    /// Codes 13 to 15 with their places, for a closed table.
    pub fn refused(&self, rows: &[Row]) -> Option<(u32, usize)> {
        let far = (0..self.0.len()).find(|&id| self.far(id));
        let flat = || (0..rows.len()).find(|&r| self.flat(&rows[r]));
        let folded = || (0..rows.len()).find(|&r| self.folded(rows, r));
        far.map(|id| (13, id))
            .or_else(|| flat().map(|row| (14, row)))
            .or_else(|| folded().map(|row| (15, row)))
    }

    fn far(&self, id: usize) -> bool {
        let [least, greatest] = [*GRID.start(), *GRID.end()].map(i128::from);
        let point = self.0[id];
        let out_of_range = |&x: &i128| x < least || x > greatest;
        point.iter().any(out_of_range) || (id == 0 && point != [0, 0, 0])
    }

    fn flat(&self, row: &Row) -> bool {
        finite(row) && self.product([row[0], row[1], row[2]], row[3]) == 0
    }

    /// Whether a finite neighbour lies on the same side as the row.
    fn folded(&self, rows: &[Row], r: usize) -> bool {
        let same_side = |left_out: usize, s: usize| {
            let ids = triangle(&rows[r], left_out);
            let side = |row: &Row| self.product(ids, fourth(row, &ids)) > 0;
            side(&rows[r]) == side(&rows[s])
        };
        finite(&rows[r])
            && (0..4).any(|left_out| {
                rows_holding(rows, &triangle(&rows[r], left_out))
                    .any(|s| s != r && finite(&rows[s]) && same_side(left_out, s))
            })
    }

    /// A skin triangle with its lowest id first and the other two in the order
    /// that is outward.
    pub fn outward(&self, rows: &[Row], marks: &[u8], ids: [u32; 3]) -> [u32; 3] {
        let with_mark = |mark: u8| {
            let row = (0..rows.len()).find(|&r| marks[r] == mark && holds(&rows[r], &ids));
            rows[row.expect("a row on each side of a skin triangle")]
        };
        let [inside, outside] = [with_mark(1), with_mark(0)];
        let is_outward = |listed: &[u32; 3]| {
            if finite(&inside) {
                self.product(*listed, fourth(&inside, &ids)) < 0
            } else {
                self.product(*listed, fourth(&outside, &ids)) > 0
            }
        };
        let [a, b, c] = ids;
        let mut orders = [[a, b, c], [a, c, b]].into_iter().filter(is_outward);
        let listed = orders.next().expect("an outward order");
        assert!(orders.next().is_none(), "one outward order");
        listed
    }

    /// (b - a) x (c - a) . (d - a)
    fn product(&self, [a, b, c]: [u32; 3], d: u32) -> i128 {
        let from_a = |id: u32| {
            let [point, a] = [id, a].map(|id| self.of(id));
            [point[0] - a[0], point[1] - a[1], point[2] - a[2]]
        };
        let ([bx, by, bz], [cx, cy, cz]) = (from_a(b), from_a(c));
        let cross = [by * cz - bz * cy, bz * cx - bx * cz, bx * cy - by * cx];
        let d = from_a(d);
        cross[0] * d[0] + cross[1] * d[1] + cross[2] * d[2]
    }
}

fn finite(row: &Row) -> bool {
    !row.contains(&0)
}

/// The corner of a row that a triangle of it leaves out.
fn fourth(row: &Row, ids: &[u32; 3]) -> u32 {
    let mut left = row.iter().filter(|id| !ids.contains(id));
    *left.next().expect("a fourth corner")
}
