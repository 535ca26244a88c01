//! Closed tables with a point for each id, under a sky: no finite row is flat,
//! and no two finite neighbours are on the same side of their triangle.

use crate::geometry::{exact, volume};
use crate::{tables, Job, Point, Random, Table};
use common::{GRID, MOST_IDS, TRIANGLES};

#[derive(Clone, Debug)]
pub struct Placed {
    pub table: Table,
    /// By id; 0 0 0 for id 0.
    pub points: Vec<Point>,
}

impl Placed {
    /// The job with empty marks and no proposals.
    pub fn job(&self) -> Job {
        Job {
            points: Some(self.points.clone()),
            ..self.table.job()
        }
    }

    /// Finite rows, and an outer row over each triangle that is in one of them
    /// alone. The ids but for 0 change places.
    fn under_sky(points: Vec<Point>, finite: Vec<[u32; 4]>, random: &mut Random) -> Placed {
        let finite = Table::sorted(points.len() as u32, finite).rows;
        let of_row = |row: &[u32; 4]| TRIANGLES.map(|triangle| triangle.map(|corner| row[corner]));
        let mut triangles: Vec<[u32; 3]> = finite.iter().flat_map(of_row).collect();
        triangles.sort_unstable();
        let sky = triangles
            .chunk_by(|x, y| x == y)
            .filter(|same| same.len() == 1)
            .map(|same| [0, same[0][0], same[0][1], same[0][2]]);
        let rows = finite.iter().copied().chain(sky).collect();
        Placed {
            table: Table::sorted(points.len() as u32, rows),
            points,
        }
        .relabelled(random)
    }

    fn relabelled(self, random: &mut Random) -> Placed {
        let mut labels: Vec<u32> = (0..self.table.ids).collect();
        random.shuffle(&mut labels[1..]);
        let name = |id: u32| labels[id as usize];
        let mut points = self.points.clone();
        for (&label, &point) in labels.iter().zip(&self.points) {
            points[label as usize] = point;
        }
        let rows = self.table.rows.iter().map(|row| row.map(name)).collect();
        Placed {
            table: Table::sorted(self.table.ids, rows),
            points,
        }
    }
}

/// Delaunay tetrahedra of points on the grid, at most `most` rows, at least 5.
pub fn delaunay(most: usize, random: &mut Random) -> Placed {
    let (table, points) = tables::delaunay_on_grid(most, random);
    Placed { table, points }.relabelled(random)
}

/// One tetrahedron, and again and again a row of it split into four by a point
/// strictly within, while there are at most `most` rows, at least 5.
pub fn splits(most: usize, random: &mut Random) -> Placed {
    let mut points = tetrahedron(random);
    let mut rows = vec![[1, 2, 3, 4]];
    // Some rows have no point of the grid within.
    for _ in 0..4 * most {
        if rows.len() + 4 + 3 > most {
            break;
        }
        let row = random.below(rows.len());
        if let Some(point) = point_within(&points, rows[row], random) {
            let new = points.len() as u32;
            let split = rows.swap_remove(row);
            points.push(point);
            rows.extend(TRIANGLES.map(|[a, b, c]| [split[a], split[b], split[c], new]));
        }
    }
    Placed::under_sky(points, rows, random)
}

/// The points of a tetrahedron that is not flat, after that of id 0.
fn tetrahedron(random: &mut Random) -> Vec<Point> {
    loop {
        let reach = random.pick(&[3, 20, 200, 1023]);
        let corners = [(); 4].map(|()| random_point(reach, random));
        let [a, b, c, d] = corners.map(exact);
        if volume(&a, &b, &c, &d) != 0 {
            return [&[[0; 3]], &corners[..]].concat();
        }
    }
}

/// A point of the grid strictly within a row.
fn point_within(points: &[Point], row: [u32; 4], random: &mut Random) -> Option<Point> {
    let corners = row.map(|id| exact(points[id as usize]));
    for _ in 0..8 {
        let weights = [(); 4].map(|()| random.within(1, 8) as i128);
        let all: i128 = weights.iter().sum();
        let middle = [0, 1, 2].map(|axis| {
            let weighted = |corner: usize| weights[corner] * corners[corner][axis];
            (0..4).map(weighted).sum::<i128>().div_euclid(all)
        });
        // In the place of each corner it must leave the row on its side.
        let sign = |[a, b, c, d]: [[i128; 3]; 4]| volume(&a, &b, &c, &d).signum();
        let within = (0..4).all(|corner| {
            let mut part = corners;
            part[corner] = middle;
            sign(part) == sign(corners)
        });
        if within {
            return Some(middle.map(|x| x as i16));
        }
    }
    None
}

/// A block of cubes, each cut into six rows. The spaces between its layers are
/// of any width that the grid has room for. Points leave their places by less
/// than a sixth of the space: then each of the three steps along a row goes
/// further in its own direction than in both others together, in units of the
/// spaces, and no row turns over.
pub fn block(cubes: [u32; 3], random: &mut Random) -> Placed {
    let [_, q, r] = cubes.map(|cubes| cubes + 1);
    let id = |at: [u32; 3]| 1 + (at[0] * q + at[1]) * r + at[2];
    let axes = cubes.map(|cubes| Axis::any(cubes, random));
    let mut points = vec![[0; 3]];
    for x in 0..=cubes[0] {
        for y in 0..=cubes[1] {
            for z in 0..=cubes[2] {
                let layers = [x, y, z];
                points.push([0, 1, 2].map(|i| axes[i].coordinate(layers[i], random)));
            }
        }
    }
    let mut rows = Vec::new();
    for x in 0..cubes[0] {
        for y in 0..cubes[1] {
            for z in 0..cubes[2] {
                let six = tables::six_in_cube([x, y, z]);
                rows.extend(six.map(|row| row.map(id)));
            }
        }
    }
    Placed::under_sky(points, rows, random)
}

/// Where the layers of a block stand in one direction.
struct Axis {
    first: i16,
    space: i16,
    /// How far a point may be from its layer.
    leave: i16,
}

impl Axis {
    fn any(cubes: u32, random: &mut Random) -> Axis {
        let room = GRID.end() - GRID.start();
        let leave = |space: i16| (space - 1) / 6;
        let taken = |space: i16| space * cubes as i16 + 2 * leave(space);
        let widest = (1..=room / cubes as i16).rev().find(|&s| taken(s) <= room);
        let widest = widest.expect("a grid wider than a block") as usize;
        let space = match random.below(4) {
            0 => 1,
            1 => widest as i16,
            _ => random.within(1, widest) as i16,
        };
        let spare = random.below((room - taken(space)) as usize + 1) as i16;
        Axis {
            first: GRID.start() + leave(space) + spare,
            space,
            leave: leave(space),
        }
    }

    fn coordinate(&self, layer: u32, random: &mut Random) -> i16 {
        let off = random.below(2 * self.leave as usize + 1) as i16 - self.leave;
        self.first + self.space * layer as i16 + off
    }
}

/// The rows of a block, the sky included.
fn block_rows([p, q, r]: [u32; 3]) -> usize {
    (6 * p * q * r + 4 * (p * q + q * r + r * p)) as usize
}

/// The blocks of at most `most` rows, with the shortest side first.
fn blocks(most: usize) -> Vec<[u32; 3]> {
    let mut all = Vec::new();
    let fits = |cubes: &[u32; 3]| {
        let ids = 1 + cubes.map(|cubes| cubes + 1).iter().product::<u32>();
        block_rows(*cubes) <= most && ids as usize <= MOST_IDS
    };
    for p in (1..).take_while(|&p| fits(&[p, p, p])) {
        for q in (p..).take_while(|&q| fits(&[p, q, q])) {
            all.extend((q..).map(|r| [p, q, r]).take_while(fits));
        }
    }
    all
}

/// One of each family, with at most `most` rows, at least 200, and not many
/// fewer; rows split again and again have the fewest.
pub fn each_family(most: usize, random: &mut Random) -> Vec<(&'static str, Placed)> {
    let largest = blocks(most).into_iter().max_by_key(|&b| block_rows(b));
    let largest = largest.expect("room for a cube");
    vec![
        ("placed delaunay", delaunay(most, random)),
        ("block of cubes", block(largest, random)),
        ("splits", splits(most, random)),
    ]
}

/// One of at most `most` rows, at least 5. Its name tells the family.
pub fn any(most: usize, random: &mut Random) -> (&'static str, Placed) {
    let mut cubes = random.pick_any(&blocks(most)).unwrap_or([0; 3]);
    match random.below(3) {
        0 => ("placed delaunay", delaunay(most, random)),
        1 if cubes[0] > 0 => {
            random.shuffle(&mut cubes);
            ("block of cubes", block(cubes, random))
        }
        _ => {
            let rows = random.within(5, most);
            ("splits", splits(rows, random))
        }
    }
}

/// Each coordinate at most `reach` from 0.
pub fn random_point(reach: i16, random: &mut Random) -> Point {
    [(); 3].map(|()| random.below(2 * reach as usize + 1) as i16 - reach)
}
