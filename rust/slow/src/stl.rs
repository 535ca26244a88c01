//! Binary STL, a byte at a time. The numbers are put together from sign,
//! exponent and fraction, and looked up in a table of all there are.

use crate::{number, points_of, rows_of, run, skin};
use common::stl::{file_len, Read, Wrote, MOST_FACETS};
use common::{Lent, Outcome, GRID};
use std::collections::BTreeMap;
use std::sync::LazyLock;

/// The facet writer.
pub fn write_facets(units: &[i16], file: &mut [u8]) -> Wrote {
    if !units.len().is_multiple_of(9) || units.len() / 9 > MOST_FACETS {
        return Wrote::refused(1, 0);
    }
    if let Some(at) = units.iter().position(|unit| !BITS.contains_key(unit)) {
        return Wrote::refused(2, at as u32);
    }
    let written = file_of(units);
    if file.len() < written.len() {
        return Wrote::refused(3, 0);
    }
    file[..written.len()].copy_from_slice(&written);
    Wrote::done()
}

/// The reader.
pub fn read_file(file: &[u8], units: &mut [i16]) -> Read {
    if file.len() < 84 {
        return Read::refused(1, 0);
    }
    let count = number(file, 80) as usize;
    if count > MOST_FACETS || file.len() != file_len(count) {
        return Read::refused(1, 0);
    }
    if file[..80] != header() {
        return Read::refused(2, 0);
    }
    if units.len() < 9 * count {
        return Read::refused(3, 0);
    }
    for facet in 0..count {
        let begin = 84 + 50 * facet;
        let not_zero = |at: usize| file[begin + at] != 0;
        if (0..12).any(not_zero) || (48..50).any(not_zero) {
            return Read::refused(4, facet as u32);
        }
        for k in 0..9 {
            let bits = number(file, begin + 12 + 4 * k);
            if !UNITS.contains_key(&bits) {
                return Read::off_grid(facet as u32, bits);
            }
        }
    }
    for i in 0..9 * count {
        units[i] = UNITS[&number(file, 84 + 50 * (i / 9) + 12 + 4 * (i % 9))];
    }
    Read::done(count as u32)
}

/// The job's writer.
pub fn write_skin(job: &[u8], mut lent: Lent, file: &mut [u8]) -> Outcome {
    let outcome = run(job, lent.lend());
    if outcome.code != 0 {
        return outcome;
    }
    let Some(points) = points_of(job) else {
        return Outcome::refused(20, 0);
    };
    let rows = rows_of(job);
    let marks = &lent.final_marks[..rows.len()];
    let mut units = Vec::new();
    for ids in skin(&rows, marks) {
        for id in points.outward(&rows, marks, ids) {
            units.extend(points.of(id).map(|unit| unit as i16));
        }
    }
    let written = file_of(&units);
    if file.len() < written.len() {
        return Outcome::refused(21, 0);
    }
    file[..written.len()].copy_from_slice(&written);
    outcome
}

/// The bits written for each unit, and the unit that each bits are written for.
static BITS: LazyLock<BTreeMap<i16, u32>> =
    LazyLock::new(|| GRID.map(|unit| (unit, bits_of(unit))).collect());
static UNITS: LazyLock<BTreeMap<u32, i16>> =
    LazyLock::new(|| BITS.iter().map(|(&unit, &bits)| (bits, unit)).collect());

/// A unit divided by 16, as an f32: its sign, its exponent by 127 too high, and
/// behind its highest bit 23 bits of fraction.
fn bits_of(unit: i16) -> u32 {
    if unit == 0 {
        return 0;
    }
    let sign = u32::from(unit < 0);
    let size = u32::from(unit.unsigned_abs());
    let mut highest = 0;
    while size >> (highest + 1) != 0 {
        highest += 1;
    }
    let fraction = (size - (1 << highest)) << (23 - highest);
    (sign << 31) + ((127 + highest - 4) << 23) + fraction
}

fn header() -> [u8; 80] {
    let mut header = [0; 80];
    for (at, letter) in "track skin".chars().enumerate() {
        header[at] = letter as u8;
    }
    header
}

/// The file of a list of whole facets.
fn file_of(units: &[i16]) -> Vec<u8> {
    let low_first = |word: u32| [0, 8, 16, 24].map(|shift| (word >> shift & 255) as u8);
    let mut file = Vec::from(header());
    file.extend(low_first((units.len() / 9) as u32));
    for facet in units.chunks(9) {
        file.extend([0; 12]);
        file.extend(facet.iter().flat_map(|unit| low_first(BITS[unit])));
        file.extend([0; 2]);
    }
    assert_eq!(file.len(), file_len(units.len() / 9));
    file
}

#[cfg(test)]
mod tests {
    use super::*;

    #[test]
    fn numbers() {
        for (unit, bits) in [
            (0, 0),
            (1, 0x3d80_0000),
            (-1, 0xbd80_0000),
            (3, 0x3e40_0000),
            (16, 0x3f80_0000),
            (-512, 0xc200_0000),
            (1023, 0x427f_c000),
            (-1023, 0xc27f_c000),
        ] {
            assert_eq!(bits_of(unit), bits);
        }
        assert_eq!((BITS.len(), UNITS.len()), (2047, 2047));
    }
}
