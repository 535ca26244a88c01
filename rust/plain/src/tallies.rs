//! Corner tallies: how many rows hold each id.

use crate::table::Row;

pub(crate) struct Tallies<'a> {
    /// Of the inside rows, on the marks then standing.
    inside: &'a mut [u32],
    /// Of all rows.
    all: &'a [u32],
}

impl<'a> Tallies<'a> {
    /// Counted in these words, of which there are two for each id.
    pub(crate) fn count(rows: &[Row], marks: &[u8], words: &'a mut [u32]) -> Tallies<'a> {
        words.fill(0);
        let (inside, all) = words.split_at_mut(words.len() / 2);
        for (row, &mark) in rows.iter().zip(marks) {
            for id in row.map(usize::from) {
                inside[id] += u32::from(mark);
                all[id] += 1;
            }
        }
        Tallies { inside, all }
    }

    /// How many rows hold `id` and have not this mark.
    pub(crate) fn others(&self, id: u16, mark: u8) -> u32 {
        let id = usize::from(id);
        match mark {
            0 => self.inside[id],
            _ => self.all[id] - self.inside[id],
        }
    }

    /// Keeps them true where the mark of a row has become this one.
    pub(crate) fn turn(&mut self, row: &Row, mark: u8) {
        for id in row.map(usize::from) {
            match mark {
                0 => self.inside[id] -= 1,
                _ => self.inside[id] += 1,
            }
        }
    }
}
