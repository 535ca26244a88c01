//! Random flips from job A's table. Every flip keeps a closed table closed.

use super::{compacted, simplex};
use crate::{Random, Table};

/// A table of exactly `wanted` rows, at least 5. No flips make 6, 7 or 10
/// rows; 8, 8 and 11 are made instead.
pub fn flips(wanted: usize, random: &mut Random) -> Table {
    let wanted = match wanted {
        6 | 7 => 8,
        10 => 11,
        _ => wanted,
    };
    let simplex = simplex();
    let mut flipper = Flipper {
        ids: simplex.ids,
        rows: simplex.rows,
    };
    // How often an id is put in, in 100 flips: few makes each id's rows many.
    let splits = random.within(5, 60);
    while flipper.rows.len() != wanted {
        let room = wanted as isize - flipper.rows.len() as isize;
        if room >= 3 && (room < 6 || random.chance(splits)) {
            flipper.one_to_four(random);
        } else if room >= 1 && random.chance(60) {
            flipper.two_to_three(random);
        } else if random.chance(90) {
            flipper.three_to_two(random);
        } else {
            flipper.four_to_one(random);
        }
    }
    compacted(&Table::sorted(flipper.ids, flipper.rows))
}

struct Flipper {
    ids: u32,
    rows: Vec<[u32; 4]>,
}

impl Flipper {
    /// A random row's ids in random order.
    fn shuffled_row(&self, random: &mut Random) -> [u32; 4] {
        let mut ids = random.pick(&self.rows);
        random.shuffle(&mut ids);
        ids
    }

    fn holding(&self, ids: &[u32]) -> Vec<usize> {
        let holds = |row: &[u32; 4]| ids.iter().all(|id| row.contains(id));
        (0..self.rows.len())
            .filter(|&r| holds(&self.rows[r]))
            .collect()
    }

    /// The ids other than `ids` in the rows `rows`, each once.
    fn others(&self, rows: &[usize], ids: &[u32]) -> Vec<u32> {
        let mut others: Vec<u32> = rows.iter().flat_map(|&r| self.rows[r]).collect();
        others.sort_unstable();
        others.dedup();
        others.retain(|id| !ids.contains(id));
        others
    }

    fn replace(&mut self, mut old: Vec<usize>, new: impl IntoIterator<Item = [u32; 4]>) {
        old.sort_unstable();
        for row in old.into_iter().rev() {
            self.rows.swap_remove(row);
        }
        self.rows.extend(new);
    }

    /// Puts a new id into a row.
    fn one_to_four(&mut self, random: &mut Random) {
        let row = random.below(self.rows.len());
        let ids = self.rows[row];
        let new = self.ids;
        self.ids += 1;
        let with_new = [0, 1, 2, 3].map(|corner| {
            let mut ids = ids;
            ids[corner] = new;
            ids
        });
        self.replace(vec![row], with_new);
    }

    /// Two neighbours become three rows round a new edge.
    fn two_to_three(&mut self, random: &mut Random) {
        let [a, b, c, d] = self.shuffled_row(random);
        let old = self.holding(&[a, b, c]);
        let e = self.others(&old, &[a, b, c, d])[0];
        if self.holding(&[d, e]).is_empty() {
            self.replace(old, [[a, b, d, e], [a, c, d, e], [b, c, d, e]]);
        }
    }

    /// Three rows round an edge become two neighbours with a new triangle.
    fn three_to_two(&mut self, random: &mut Random) {
        let [a, b, _, _] = self.shuffled_row(random);
        let old = self.holding(&[a, b]);
        if let [c, d, e] = self.others(&old, &[a, b])[..] {
            if self.holding(&[c, d, e]).is_empty() {
                self.replace(old, [[a, c, d, e], [b, c, d, e]]);
            }
        }
    }

    /// Takes out an id that only four rows hold.
    fn four_to_one(&mut self, random: &mut Random) {
        let [a, _, _, _] = self.shuffled_row(random);
        let old = self.holding(&[a]);
        if let [b, c, d, e] = self.others(&old, &[a])[..] {
            if self.holding(&[b, c, d, e]).is_empty() {
                self.replace(old, [[b, c, d, e]]);
            }
        }
    }
}
