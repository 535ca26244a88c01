//! Triangulated closed surfaces, and tables made from them.

use crate::{Random, Table};

/// Triangles of which each edge is in two and those at an id form one ring.
#[derive(Clone, Debug)]
pub struct Surface {
    pub ids: u32,
    pub triangles: Vec<[u32; 3]>,
}

/// The surface with two more ids, each joined to all of it. The link of each
/// of the two is the surface, so it is a sphere only if the surface is.
pub fn suspension(surface: &Surface) -> Table {
    let apexes = [surface.ids, surface.ids + 1];
    let cone = |apex: u32| {
        surface
            .triangles
            .iter()
            .map(move |&[a, b, c]| [a, b, c, apex])
    };
    let rows = apexes.into_iter().flat_map(cone).collect();
    Table::sorted(surface.ids + 2, rows)
}

/// A sphere of about `triangles`, at least 4, after random flips.
pub fn sphere(triangles: usize, random: &mut Random) -> Surface {
    let start = vec![[0, 1, 2], [0, 1, 3], [0, 2, 3], [1, 2, 3]];
    grown(start, 4, triangles, random)
}

/// A torus of about `triangles`, at least 14, after random flips.
pub fn torus_of_seven(triangles: usize, random: &mut Random) -> Surface {
    let at = |i: u32| i % 7;
    let pair = |i: u32| [[i, at(i + 1), at(i + 3)], [i, at(i + 2), at(i + 3)]];
    grown((0..7).flat_map(pair).collect(), 7, triangles, random)
}

/// A projective plane of about `triangles`, at least 10, after random flips.
pub fn projective_plane(triangles: usize, random: &mut Random) -> Surface {
    let start = vec![
        [0, 1, 4],
        [0, 1, 5],
        [0, 2, 3],
        [0, 2, 5],
        [0, 3, 4],
        [1, 2, 3],
        [1, 2, 4],
        [1, 3, 5],
        [2, 4, 5],
        [3, 4, 5],
    ];
    grown(start, 6, triangles, random)
}

/// A grid of `p` times `q` squares, both at least 3, that closes up both ways,
/// and two triangles to a square.
pub fn torus_grid(p: u32, q: u32) -> Surface {
    let id = |i: u32, j: u32| (i % p) * q + j % q;
    let mut triangles = Vec::new();
    for i in 0..p {
        for j in 0..q {
            let [here, ahead] = [id(i, j), id(i + 1, j + 1)];
            triangles.push([here, id(i + 1, j), ahead]);
            triangles.push([here, id(i, j + 1), ahead]);
        }
    }
    Surface {
        ids: p * q,
        triangles,
    }
}

/// Splits triangles and turns edges until there are `wanted` triangles or one
/// less.
fn grown(start: Vec<[u32; 3]>, ids: u32, wanted: usize, random: &mut Random) -> Surface {
    let mut surface = Surface {
        ids,
        triangles: start,
    };
    while surface.triangles.len() + 2 <= wanted {
        surface.split(random);
        surface.turn(random);
    }
    surface
}

impl Surface {
    /// Puts a new id into a triangle.
    fn split(&mut self, random: &mut Random) {
        let at = random.below(self.triangles.len());
        let [a, b, c] = self.triangles.swap_remove(at);
        let new = self.ids;
        self.triangles
            .extend([[a, b, new], [a, c, new], [b, c, new]]);
        self.ids += 1;
    }

    /// Replaces an edge by the other one of its two triangles, unless the
    /// surface has that one already.
    fn turn(&mut self, random: &mut Random) {
        let first = random.below(self.triangles.len());
        let mut ids = self.triangles[first];
        ids.rotate_left(random.below(3));
        let [a, b, c] = ids;
        let holds =
            |triangle: &[u32; 3], x: u32, y: u32| triangle.contains(&x) && triangle.contains(&y);
        let across = |triangle: &[u32; 3]| holds(triangle, a, b) && !triangle.contains(&c);
        let Some(second) = self.triangles.iter().position(across) else {
            return;
        };
        let [x, y, z] = self.triangles[second];
        let d = x ^ y ^ z ^ a ^ b;
        if !self.triangles.iter().any(|triangle| holds(triangle, c, d)) {
            self.triangles[first] = [a, c, d];
            self.triangles[second] = [b, c, d];
        }
    }
}
