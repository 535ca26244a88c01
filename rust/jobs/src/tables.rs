//! Generators of closed tables, and ways to break them.

mod delaunay;
mod flips;
mod surfaces;

pub use delaunay::{delaunay, delaunay_on_grid};
pub use flips::flips;
pub use surfaces::{projective_plane, sphere, suspension, torus_grid, torus_of_seven, Surface};

use crate::{Random, Table};
use common::MOST_IDS;

/// The five rows of job A: all fours of five ids.
pub fn simplex() -> Table {
    cyclic(5)
}

/// Each edge of a ring of `p` ids with each edge of a ring of `q` ids, both at
/// least 3: `p * q` rows.
pub fn join_of_rings(p: u32, q: u32) -> Table {
    let edges = |ids: u32, first: u32| (0..ids).map(move |i| [first + i, first + (i + 1) % ids]);
    let mut rows = Vec::new();
    for [a, b] in edges(p, 0) {
        rows.extend(edges(q, p).map(|[c, d]| [a, b, c, d]));
    }
    Table::sorted(p + q, rows)
}

/// The boundary of the cyclic 4-polytope on `n` vertices, at least 5, which has
/// every edge: by Gale's evenness condition `n * (n - 3) / 2` rows, each two
/// pairs of ids that follow one another round.
pub fn cyclic(n: u32) -> Table {
    let mut rows = Vec::new();
    for i in 0..n {
        for j in i + 2..n {
            let row = [i, i + 1, j, (j + 1) % n];
            if row[3] != i {
                rows.push(row);
            }
        }
    }
    Table::sorted(n, rows)
}

/// Cubes of a grid that closes up in each of three directions, each of the
/// sizes at least 3, and six rows to a cube. Each link is a sphere, but the
/// whole is a torus.
pub fn torus_of_cubes(sizes: [u32; 3]) -> Table {
    let [p, q, r] = sizes;
    let id = |at: [u32; 3]| ((at[0] % p) * q + at[1] % q) * r + at[2] % r;
    let mut rows = Vec::new();
    for cube in 0..p * q * r {
        let origin = [cube / r / q, cube / r % q, cube % r];
        rows.extend(six_in_cube(origin).map(|row| row.map(id)));
    }
    Table::sorted(p * q * r, rows)
}

/// The six tetrahedra of a cube, each along a way from its lowest corner to its
/// highest: one step in each of the three directions.
pub fn six_in_cube(lowest: [u32; 3]) -> [[[u32; 3]; 4]; 6] {
    const ORDERS: [[usize; 3]; 6] = [
        [0, 1, 2],
        [0, 2, 1],
        [1, 0, 2],
        [1, 2, 0],
        [2, 0, 1],
        [2, 1, 0],
    ];
    ORDERS.map(|order| {
        let mut way = [lowest; 4];
        for (step, direction) in order.into_iter().enumerate() {
            way[step + 1] = way[step];
            way[step + 1][direction] += 1;
        }
        way
    })
}

/// The same table with the ids in another order, so that any may be id 0.
pub fn relabelled(table: &Table, random: &mut Random) -> Table {
    let mut labels: Vec<u32> = (0..table.ids).collect();
    random.shuffle(&mut labels);
    renamed(table, table.ids, |id| labels[id as usize])
}

/// The same table with an id that the fewest rows hold as id 0, so that many
/// rows have no vertex in an outer row.
pub fn with_few_outer(table: &Table) -> Table {
    let mut held = vec![0; table.ids as usize];
    for &id in table.rows.iter().flatten() {
        held[id as usize] += 1;
    }
    let used = (0..table.ids).filter(|&id| held[id as usize] > 0);
    let fewest = used.min_by_key(|&id| held[id as usize]).unwrap_or(0);
    renamed(table, table.ids, |id| match id {
        0 => fewest,
        _ if id == fewest => 0,
        _ => id,
    })
}

/// The same table with no id unused.
pub fn compacted(table: &Table) -> Table {
    let mut used: Vec<u32> = table.rows.iter().flatten().copied().collect();
    used.sort_unstable();
    used.dedup();
    let ids = used.len() as u32;
    renamed(table, ids, |id| {
        used.partition_point(|&other| other < id) as u32
    })
}

fn renamed(table: &Table, ids: u32, name: impl Fn(u32) -> u32) -> Table {
    let rows = table.rows.iter().map(|row| row.map(&name)).collect();
    Table::sorted(ids, rows)
}

/// Both tables side by side, with no id in common.
pub fn side_by_side(first: &Table, second: &Table) -> Table {
    let moved = second.rows.iter().map(|row| row.map(|id| id + first.ids));
    let rows = first.rows.iter().copied().chain(moved).collect();
    Table::sorted(first.ids + second.ids, rows)
}

/// The table with each id of `pairs` that stands second replaced by the one
/// that stands first. Nothing if a row would hold an id twice or two rows would
/// be equal. The ids replaced stay unused.
pub fn identified(table: &Table, pairs: &[[u32; 2]]) -> Option<Table> {
    let merged = renamed(table, table.ids, |id| {
        let pair = pairs.iter().find(|pair| pair[1] == id);
        pair.map_or(id, |pair| pair[0])
    });
    let distinct = merged.rows.iter().all(|row| row.is_sorted_by(|a, b| a < b));
    (distinct && merged.rows.is_sorted_by(|a, b| a < b)).then_some(merged)
}

/// Two closed tables that share `shared` ids and no row.
pub fn glued(first: &Table, second: &Table, shared: usize, random: &mut Random) -> Option<Table> {
    let row = random.pick(&second.rows);
    let other = random.pick(&first.rows);
    let pairs: Vec<[u32; 2]> = (0..shared.min(4))
        .map(|corner| [other[corner], row[corner] + first.ids])
        .collect();
    identified(&side_by_side(first, second), &pairs).map(|table| compacted(&table))
}

/// Tables so small that every marking of their rows can be tried.
pub fn small(random: &mut Random) -> Vec<Table> {
    let tables = [
        simplex(),
        join_of_rings(3, 4),
        join_of_rings(4, 4),
        cyclic(6),
        cyclic(7),
        suspension(&sphere(6, random)),
        flips(11, random),
        flips(13, random),
    ];
    tables
        .iter()
        .map(|table| relabelled(table, random))
        .collect()
}

/// A table of each family with at most `most` rows, at least 200, and not many
/// fewer. Ids stand in any order, but for Delaunay's, whose id 0 is infinite.
pub fn each_family(most: usize, random: &mut Random) -> Vec<(&'static str, Table)> {
    let side = most.isqrt() as u32;
    let half = (most / 4).isqrt() as u32;
    let vertices = (5..).take_while(|n| n * (n - 3) / 2 <= most as u32);
    let cubes = (3..).take_while(|n| 6 * n * n * n <= most as u32);
    let cubes = cubes.last().unwrap_or(3);
    let height = most as u32 / (6 * cubes * cubes);
    let mut all = vec![
        ("flips", flips(most, random)),
        ("join of rings", join_of_rings(side, most as u32 / side)),
        ("cyclic", cyclic(vertices.last().unwrap_or(5))),
        (
            "suspension of a sphere",
            suspension(&sphere(most / 2, random)),
        ),
        (
            "suspension of a torus",
            suspension(&torus_grid(half, most as u32 / 4 / half)),
        ),
        (
            "suspension of a projective plane",
            suspension(&projective_plane(most / 2, random)),
        ),
        ("torus of cubes", torus_of_cubes([cubes, cubes, height])),
    ];
    for (_, table) in &mut all {
        *table = relabelled(table, random);
    }
    all.insert(0, ("delaunay", delaunay(most, random)));
    all
}

/// A closed table of one of the families, with at most about `most` rows, at
/// least 5, and ids in any order. Its name tells the family.
pub fn any(most: usize, random: &mut Random) -> (&'static str, Table) {
    loop {
        let (name, table) = match random.below(9) {
            0 => ("delaunay", delaunay(most, random)),
            1 | 2 => ("flips", flips(random.within(5, most), random)),
            3 if most >= 9 => {
                let p = random.within(3, most / 3);
                let q = random.within(3, (most / p).max(3));
                ("join of rings", join_of_rings(p as u32, q as u32))
            }
            4 => {
                let greatest = (5..).take_while(|n| n * (n - 3) / 2 <= most).last();
                let n = random.within(5, greatest.unwrap_or(5));
                ("cyclic", cyclic(n as u32))
            }
            5 if most >= 8 => {
                let surface = sphere(random.within(4, most / 2), random);
                ("suspension of a sphere", suspension(&surface))
            }
            6 if most >= 28 => {
                let surface = torus_of_seven(random.within(14, most / 2), random);
                ("suspension of a torus", suspension(&surface))
            }
            7 if most >= 20 => {
                let surface = projective_plane(random.within(10, most / 2), random);
                ("suspension of a projective plane", suspension(&surface))
            }
            8 if most >= 162 => {
                let p = random.within(3, most / 54);
                let q = random.within(3, (most / 18 / p).max(3));
                let r = random.within(3, (most / 6 / p / q).max(3));
                (
                    "torus of cubes",
                    torus_of_cubes([p as u32, q as u32, r as u32]),
                )
            }
            _ => continue,
        };
        if table.rows.len() <= most.max(5) && table.ids as usize <= MOST_IDS {
            let table = relabelled(&table, random);
            let few_outer = random.chance(40);
            return (
                name,
                if few_outer {
                    with_few_outer(&table)
                } else {
                    table
                },
            );
        }
    }
}
