use crate::{Order, Rooms};
use std::ops::RangeInclusive;

pub const FEWEST_IDS: usize = 5;
pub const MOST_IDS: usize = 1024;
pub const FEWEST_ROWS: usize = 5;
pub const MOST_ROWS: usize = 2048;
pub const MOST_PROPOSALS: usize = 1024;

/// The limits of V.
pub const IDS: RangeInclusive<usize> = FEWEST_IDS..=MOST_IDS;
/// The limits of N.
pub const ROWS: RangeInclusive<usize> = FEWEST_ROWS..=MOST_ROWS;
/// The limits of P.
pub const PROPOSALS: RangeInclusive<usize> = 0..=MOST_PROPOSALS;
/// The limits of a coordinate, in units of 1/16 metre.
pub const GRID: RangeInclusive<i16> = -1023..=1023;

pub const WORD_BYTES: usize = 4;
pub const HEADER_WORDS: usize = 8;
pub const HEADER_BYTES: usize = HEADER_WORDS * WORD_BYTES;
/// Four ids.
pub const ROW_BYTES: usize = 4 * WORD_BYTES;
pub const MARK_BYTES: usize = 1;
/// A row number and a kind.
pub const PROPOSAL_BYTES: usize = 2 * WORD_BYTES;
pub const COORDINATE_BYTES: usize = 2;
/// Three coordinates.
pub const POINT_BYTES: usize = 3 * COORDINATE_BYTES;

/// The counts of a job, and what its word 7 says. They alone decide its layout,
/// and need not be within their limits for that.
#[derive(Clone, Copy, Debug, PartialEq, Eq)]
pub struct Counts {
    /// V
    pub ids: usize,
    /// N
    pub rows: usize,
    /// P
    pub proposals: usize,
    /// Where V points stand behind the proposals: the order of the skin list.
    pub points: Option<Order>,
}

impl Counts {
    /// What a header counts. Its other words need not fit: those that do are
    /// `header`'s.
    pub fn told_by(header: &[u32; HEADER_WORDS]) -> Counts {
        Counts {
            ids: header[0] as usize,
            rows: header[1] as usize,
            proposals: header[2] as usize,
            points: Order::told_by(header[7]),
        }
    }

    pub fn within_limits(&self) -> bool {
        IDS.contains(&self.ids) && ROWS.contains(&self.rows) && PROPOSALS.contains(&self.proposals)
    }

    pub const fn rows_at(&self) -> usize {
        HEADER_BYTES
    }

    pub const fn marks_at(&self) -> usize {
        self.rows_at() + ROW_BYTES * self.rows
    }

    pub const fn proposals_at(&self) -> usize {
        self.marks_at() + MARK_BYTES * self.rows
    }

    /// Where the points stand, or would.
    pub const fn points_at(&self) -> usize {
        self.proposals_at() + PROPOSAL_BYTES * self.proposals
    }

    pub const fn length(&self) -> usize {
        if self.points.is_some() {
            self.points_at() + POINT_BYTES * self.ids
        } else {
            self.points_at()
        }
    }

    /// The header words; of a number too large for a word, the low one.
    pub fn header(&self) -> [u32; HEADER_WORDS] {
        [
            self.ids as u32,
            self.rows as u32,
            self.proposals as u32,
            self.rows_at() as u32,
            self.marks_at() as u32,
            self.proposals_at() as u32,
            self.length() as u32,
            self.points.map_or(0, Order::word_7),
        ]
    }

    /// The room that a job of these counts needs.
    pub const fn rooms(&self) -> Rooms {
        Rooms::exact(self.ids, self.rows, self.proposals)
    }

    /// Where the tallies begin in the work area: behind the neighbour list.
    pub const fn tallies_at(&self) -> usize {
        4 * self.rows
    }
}

#[cfg(test)]
mod tests {
    use super::*;

    #[test]
    fn largest_job() {
        for (points, length, word_7) in [
            (None, 43_040, 0),
            (Some(Order::Outward), 49_184, 1),
            (Some(Order::Rising), 49_184, 3),
        ] {
            let counts = Counts {
                ids: 1024,
                rows: 2048,
                proposals: 1024,
                points,
            };
            assert!(counts.within_limits());
            let header = [1024, 2048, 1024, 32, 32_800, 34_848, length, word_7];
            assert_eq!(counts.header(), header);
            assert_eq!(Counts::told_by(&header), counts);
            assert_eq!(counts.points_at(), 43_040);
            assert_eq!(counts.length(), length as usize);
            let rooms = Rooms {
                answers: 1024,
                final_marks: 2048,
                triangles: 12_288,
                work: 10_240,
            };
            assert_eq!(counts.rooms(), rooms);
            assert_eq!(counts.tallies_at(), 8192);
        }
    }
}
