//! Far edges that look like one ring to whoever only counts.

use crate::Job;
use std::collections::BTreeMap;

/// Whether one closed way through inside rows passes all far edges of a vertex.
/// Where they are not one ring, it passes an end twice, and still turns as often
/// as there are far edges.
pub fn passed_by_one_way(job: &Job, vertex: u32) -> bool {
    let sides = Sides::of(job, vertex);
    let Some(start) = sides.a_far_edge() else {
        return true;
    };
    let mut turns = 0;
    let mut way = start;
    loop {
        way = sides.turned(way);
        turns += 1;
        if way == start {
            return turns == sides.far_edges();
        }
    }
}

/// For each edge opposite the vertex, in the two rows that hold both: the row's
/// fourth id and whether it is inside.
struct Sides(BTreeMap<[u32; 2], Vec<(u32, bool)>>);

impl Sides {
    fn of(job: &Job, vertex: u32) -> Sides {
        let mut sides: BTreeMap<_, Vec<_>> = BTreeMap::new();
        for (row, &mark) in job.rows.iter().zip(&job.marks) {
            if !row.contains(&vertex) {
                continue;
            }
            for &fourth in row.iter().filter(|&&id| id != vertex) {
                let edge: Vec<u32> = row
                    .iter()
                    .copied()
                    .filter(|&id| id != vertex && id != fourth)
                    .collect();
                sides
                    .entry([edge[0], edge[1]])
                    .or_default()
                    .push((fourth, mark == 1));
            }
        }
        Sides(sides)
    }

    /// The two rows that hold the vertex, a and b.
    fn at(&self, a: u32, b: u32) -> &[(u32, bool)] {
        &self.0[&[a.min(b), a.max(b)]]
    }

    fn is_far(rows: &[(u32, bool)]) -> bool {
        rows[0].1 != rows[1].1
    }

    fn far_edges(&self) -> usize {
        self.0.values().filter(|rows| Sides::is_far(rows)).count()
    }

    fn a_far_edge(&self) -> Option<[u32; 2]> {
        self.0
            .iter()
            .find(|(_, rows)| Sides::is_far(rows))
            .map(|(&edge, _)| edge)
    }

    /// From a far edge to the next one at its second end, through inside rows.
    fn turned(&self, [from, end]: [u32; 2]) -> [u32; 2] {
        let inside = |rows: &[(u32, bool)]| rows.iter().find(|row| row.1).map(|row| row.0);
        let mut behind = from;
        let mut ahead = inside(self.at(from, end)).expect("a row of a far edge is inside");
        loop {
            let rows = self.at(end, ahead);
            if Sides::is_far(rows) {
                return [end, ahead];
            }
            let across = rows.iter().find(|row| row.0 != behind);
            behind = ahead;
            ahead = across.expect("two rows").0;
        }
    }
}
