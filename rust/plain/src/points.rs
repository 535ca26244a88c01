//! Points and the sides on which corners lie: codes 13 to 15.

use crate::table::{Row, Table};
use crate::Refusal;
use common::{COORDINATE_BYTES, GRID};

/// Wide enough for every product on the grid.
type Point = [i64; 3];

/// The sign of each row's volume, its corners taken as they rise. An outer row
/// has no volume, and 0.
pub(crate) struct Sides(Vec<i8>);

impl Sides {
    /// Of points that no code refuses.
    pub(crate) fn checked(table: &Table, bytes: &[u8]) -> Result<Sides, Refusal> {
        let points = read_points(bytes)?;
        let sides = Sides::of(table.rows, &points)?;
        sides.check_neighbours(table)?;
        Ok(sides)
    }

    /// Refuses with code 14.
    fn of(rows: &[Row], points: &[Point]) -> Result<Sides, Refusal> {
        let mut signs = vec![0; rows.len()];
        let outer = rows.partition_point(|row| row[0] == 0);
        for (r, row) in rows.iter().enumerate().skip(outer) {
            let corners = row.map(|id| &points[usize::from(id)]);
            signs[r] = volume(corners).signum() as i8;
            if signs[r] == 0 {
                return Err(Refusal::new(14, r));
            }
        }
        Ok(Sides(signs))
    }

    /// Code 15.
    fn check_neighbours(&self, table: &Table) -> Result<(), Refusal> {
        let folded = |row: usize, left_out: usize| {
            let next = table.neighbours[row][left_out] as usize;
            let side = self.side(row, left_out);
            side * self.side(next, corner_back(table, next, row)) > 0
        };
        let folded_at = |row: &usize| (0..4).any(|left_out| folded(*row, left_out));
        match (0..table.rows.len()).find(folded_at) {
            Some(row) => Err(Refusal::new(15, row)),
            None => Ok(()),
        }
    }

    /// Whether a skin triangle, given by its inside row and left-out corner,
    /// must have its last two ids exchanged to be outward.
    pub(crate) fn looks_inward(&self, table: &Table, inside: usize, left_out: usize) -> bool {
        match self.side(inside, left_out) {
            0 => {
                let outside = table.neighbours[inside][left_out] as usize;
                self.side(outside, corner_back(table, outside, inside)) < 0
            }
            side => side > 0,
        }
    }

    /// On which side of its triangle, taken as the ids rise, the left-out corner
    /// lies. To stand last, where the product has it, it must be exchanged with
    /// each corner above it.
    fn side(&self, row: usize, left_out: usize) -> i8 {
        if left_out % 2 == 1 {
            self.0[row]
        } else {
            -self.0[row]
        }
    }
}

/// The corner of `row` that it leaves out towards its neighbour `back`; different
/// rows have at most one triangle in common.
fn corner_back(table: &Table, row: usize, back: usize) -> usize {
    let is_back = table.neighbours[row].map(|next| usize::from(next as usize == back));
    is_back[1] + 2 * is_back[2] + 3 * is_back[3]
}

/// The points as they stand in a job.
pub(crate) fn in_units(bytes: &[u8]) -> impl ExactSizeIterator<Item = [i16; 3]> + '_ {
    let (coordinates, _) = bytes.as_chunks::<COORDINATE_BYTES>();
    let (points, _) = coordinates.as_chunks::<3>();
    points.iter().map(|point| point.map(i16::from_le_bytes))
}

/// Code 13.
fn read_points(bytes: &[u8]) -> Result<Vec<Point>, Refusal> {
    let points = in_units(bytes);
    let mut read = Vec::with_capacity(points.len());
    for point in points {
        let on_grid = point.iter().all(|coordinate| GRID.contains(coordinate));
        if !on_grid || (read.is_empty() && point != [0; 3]) {
            return Err(Refusal::new(13, read.len()));
        }
        read.push(point.map(i64::from));
    }
    Ok(read)
}

/// (b - a) x (c - a) . (d - a): six times the signed volume.
fn volume([a, b, c, d]: [&Point; 4]) -> i64 {
    let minus_a = |p: &Point| (p[0] - a[0], p[1] - a[1], p[2] - a[2]);
    let ((bx, by, bz), (cx, cy, cz), (dx, dy, dz)) = (minus_a(b), minus_a(c), minus_a(d));
    (by * cz - bz * cy) * dx + (bz * cx - bx * cz) * dy + (bx * cy - by * cx) * dz
}
