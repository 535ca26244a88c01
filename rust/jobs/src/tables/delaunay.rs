//! Delaunay tetrahedra of random points, by Bowyer and Watson's insertion with
//! exact predicates. Id 0 is the infinite vertex.

use super::simplex;
use crate::geometry::{determinant, minus, volume, Exact};
use crate::{Point, Random, Table};
use common::{GRID, TRIANGLES};
use std::ops::RangeInclusive;

/// Inserts random points until one more would make more than `most` rows, at
/// least 5.
pub fn delaunay(most: usize, random: &mut Random) -> Table {
    Builder::filled(most, 0..=4095, random).table()
}

/// The same with points on the grid; these, too, with 0 0 0 for id 0.
pub fn delaunay_on_grid(most: usize, random: &mut Random) -> (Table, Vec<Point>) {
    let builder = Builder::filled(most, GRID, random);
    let on_grid = |point: &Exact| point.map(|x| (x / SCALE) as i16);
    let points = builder.points.iter().map(on_grid).collect();
    (builder.table(), points)
}

/// Coordinates are multiples of 4, so that the middle of four points has whole
/// coordinates too.
const SCALE: i128 = 4;

struct Builder {
    /// By id; the first one stands for no point.
    points: Vec<Exact>,
    /// The ids of a row rise.
    rows: Vec<[u32; 4]>,
    /// Within the first four points, so always within the hull.
    middle: Exact,
}

impl Builder {
    fn filled(most: usize, coordinates: RangeInclusive<i16>, random: &mut Random) -> Builder {
        let random_point = |random: &mut Random| {
            let [least, greatest] =
                [coordinates.start(), coordinates.end()].map(|&x| i128::from(x));
            let count = (greatest - least + 1) as usize;
            [(); 3].map(|()| SCALE * (least + random.below(count) as i128))
        };
        let mut builder = Builder::start(random_point, random);
        loop {
            let point = random_point(random);
            let Some((gone, new)) = builder.cavity(&point) else {
                continue;
            };
            if builder.rows.len() - gone.len() + new.len() > most {
                return builder;
            }
            for row in gone.into_iter().rev() {
                builder.rows.swap_remove(row);
            }
            builder.rows.extend(new);
            builder.points.push(point);
        }
    }

    fn start(random_point: impl Fn(&mut Random) -> Exact, random: &mut Random) -> Builder {
        loop {
            let mut points = vec![[0; 3]];
            points.extend((0..4).map(|_| random_point(random)));
            if volume(&points[1], &points[2], &points[3], &points[4]) != 0 {
                let sum = |i: usize| points[1..].iter().map(|point| point[i]).sum::<i128>();
                let middle = [sum(0) / 4, sum(1) / 4, sum(2) / 4];
                let rows = simplex().rows;
                return Builder {
                    points,
                    rows,
                    middle,
                };
            }
        }
    }

    fn table(self) -> Table {
        Table::sorted(self.points.len() as u32, self.rows)
    }

    /// The numbers of the rows, rising, that a new point takes away, and the
    /// rows that it brings. Nothing if the point is not in general position.
    fn cavity(&self, point: &Exact) -> Option<(Vec<usize>, Vec<[u32; 4]>)> {
        let mut gone = Vec::new();
        let mut triangles = Vec::new();
        for (r, row) in self.rows.iter().enumerate() {
            if self.conflict(row, point)? {
                gone.push(r);
                triangles.extend(TRIANGLES.map(|triangle| triangle.map(|corner| row[corner])));
            }
        }
        triangles.sort_unstable();
        let new_id = self.points.len() as u32;
        let new = triangles
            .chunk_by(|x, y| x == y)
            .filter(|same| same.len() == 1)
            .map(|same| [same[0][0], same[0][1], same[0][2], new_id])
            .collect();
        Some((gone, new))
    }

    /// Whether the point is strictly within the row's circumsphere, or strictly
    /// outside the hull at an outer row. Nothing if it is on the border.
    fn conflict(&self, row: &[u32; 4], point: &Exact) -> Option<bool> {
        let [a, b, c, d] = row.map(|id| &self.points[id as usize]);
        let sign = if row[0] == 0 {
            volume(b, c, d, point).signum() * volume(b, c, d, &self.middle).signum()
        } else {
            volume(a, b, c, d).signum() * sphere(a, b, c, d, point).signum()
        };
        (sign != 0).then_some(sign < 0)
    }
}

/// The determinant of the rows x, y, z, xx + yy + zz of a, b, c and d taken from
/// e: where its sign is opposite to the volume's, e is within the circumsphere.
fn sphere(a: &Exact, b: &Exact, c: &Exact, d: &Exact, e: &Exact) -> i128 {
    let [a, b, c, d] = [a, b, c, d].map(|point| minus(point, e));
    let square = |p: &Exact| p[0] * p[0] + p[1] * p[1] + p[2] * p[2];
    square(&d) * determinant(&a, &b, &c) - square(&c) * determinant(&a, &b, &d)
        + square(&b) * determinant(&a, &c, &d)
        - square(&a) * determinant(&b, &c, &d)
}
