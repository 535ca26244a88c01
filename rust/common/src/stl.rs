//! Binary STL of units: its lengths, and what each call returns.

/// Three corners of three numbers each.
pub const FACET_NUMBERS: usize = 9;
/// As many as the skin of the largest job may have.
pub const MOST_FACETS: usize = 4096;

/// Where the facets begin: behind the header and their count.
pub const FACETS_AT: usize = 84;
/// A normal, three corners and a u16.
pub const FACET_BYTES: usize = 50;
/// Where the corners of a facet begin: behind its normal.
pub const CORNERS_AT: usize = 12;

/// The length of a file of so many facets.
pub const fn file_len(facets: usize) -> usize {
    FACETS_AT + FACET_BYTES * facets
}

/// What the facet writer returns.
#[derive(Clone, Copy, Debug, PartialEq, Eq)]
pub struct Wrote {
    pub code: u32,
    pub place: u32,
}

impl Wrote {
    pub fn done() -> Wrote {
        Wrote { code: 0, place: 0 }
    }

    pub fn refused(code: u32, place: u32) -> Wrote {
        Wrote { code, place }
    }
}

/// What the reader returns.
#[derive(Clone, Copy, Debug, PartialEq, Eq)]
pub struct Read {
    pub code: u32,
    pub place: u32,
    /// How many facets were read; a refusal has zero.
    pub facets: u32,
    /// The number off the grid as it stood. With any code but 5 it is zero, and
    /// zero is on the grid.
    pub bits: u32,
}

impl Read {
    pub fn done(facets: u32) -> Read {
        Read {
            code: 0,
            place: 0,
            facets,
            bits: 0,
        }
    }

    pub fn refused(code: u32, place: u32) -> Read {
        Read {
            code,
            place,
            facets: 0,
            bits: 0,
        }
    }

    /// Code 5.
    pub fn off_grid(facet: u32, bits: u32) -> Read {
        Read {
            bits,
            ..Read::refused(5, facet)
        }
    }
}

#[cfg(test)]
mod tests {
    use super::*;
    use crate::{Rooms, MOST_IDS, MOST_ROWS};

    #[test]
    fn lengths() {
        assert_eq!(file_len(0), 84);
        assert_eq!(file_len(MOST_FACETS), 204_884);
        assert_eq!(CORNERS_AT + 4 * FACET_NUMBERS + 2, FACET_BYTES);
        let largest = Rooms::exact(MOST_IDS, MOST_ROWS, 0);
        assert_eq!(3 * MOST_FACETS, largest.triangles);
    }
}
