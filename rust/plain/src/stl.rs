//! Binary STL by f32 arithmetic.

use crate::header::word;
use crate::points::in_units;
use crate::stages::Unwatched;
use crate::table::Table;
use crate::{skin, Ran};
use common::stl::{
    file_len, Read, Wrote, CORNERS_AT, FACETS_AT, FACET_BYTES, FACET_NUMBERS, MOST_FACETS,
};
use common::{Lent, Order, Outcome, GRID, WORD_BYTES};

const TITLE: &[u8] = b"track skin";
/// Where the number of facets stands.
const COUNT_AT: usize = 80;
const UNITS_PER_METRE: f32 = 16.0;

/// The units of a facet.
type Facet = [i16; FACET_NUMBERS];

/// Writes a list of units, nine for each facet, to the front of `file`.
pub fn write_facets(units: &[i16], file: &mut [u8]) -> Wrote {
    let (facets, rest) = units.as_chunks();
    if !rest.is_empty() || facets.len() > MOST_FACETS {
        return Wrote::refused(1, 0);
    }
    if let Some(at) = units.iter().position(|unit| !GRID.contains(unit)) {
        return Wrote::refused(2, at as u32);
    }
    let Some(file) = file.get_mut(..file_len(facets.len())) else {
        return Wrote::refused(3, 0);
    };
    put_file(facets.iter().copied(), file);
    Wrote::done()
}

/// Reads a file to the front of `units`.
pub fn read_file(file: &[u8], units: &mut [i16]) -> Read {
    let Some((front, facets)) = file.split_at_checked(FACETS_AT) else {
        return Read::refused(1, 0);
    };
    let count = word(&front[COUNT_AT..]) as usize;
    if count > MOST_FACETS || file.len() != file_len(count) {
        return Read::refused(1, 0);
    }
    let (title, zeros) = front[..COUNT_AT].split_at(TITLE.len());
    if title != TITLE || !is_zero(zeros) {
        return Read::refused(2, 0);
    }
    let Some(units) = units.get_mut(..FACET_NUMBERS * count) else {
        return Read::refused(3, 0);
    };
    let mut read = Vec::with_capacity(count);
    for facet in facets.as_chunks::<FACET_BYTES>().0 {
        let place = read.len() as u32;
        match units_of(facet) {
            Ok(facet) => read.push(facet),
            Err(Fault::NotZero) => return Read::refused(4, place),
            Err(Fault::OffGrid(bits)) => return Read::off_grid(place, bits),
        }
    }
    units.copy_from_slice(read.as_flattened());
    Read::done(count as u32)
}

/// Runs a job, and writes its skin to the front of `file`, outward whichever
/// order the job asks for.
pub fn write_skin(job: &[u8], lent: Lent, file: &mut [u8]) -> Outcome {
    let ran = match Ran::of(job, lent, &mut Unwatched) {
        Ok(ran) => ran,
        Err(refusal) => return refusal.into(),
    };
    let Some(order) = ran.counts.points else {
        return Outcome::refused(20, 0);
    };
    let listed = ran.outcome.triangles as usize;
    let Some(file) = file.get_mut(..file_len(listed)) else {
        return Outcome::refused(21, 0);
    };
    let points: Vec<[i16; 3]> = in_units(&job[ran.counts.points_at()..]).collect();
    match order {
        Order::Outward => put_triangles(&points, &ran.lent.triangles[..3 * listed], file),
        Order::Rising => put_triangles(&points, &outward(&ran), file),
    }
    ran.outcome
}

/// The ids of the skin listed outward.
fn outward(ran: &Ran) -> Vec<u32> {
    let mut triangles = vec![0; 3 * ran.outcome.triangles as usize];
    if let Some(sides) = &ran.found.sides {
        let (neighbours, _) = ran.lent.work.split_at(ran.counts.tallies_at());
        let table = Table {
            rows: &ran.found.rows,
            neighbours: neighbours.as_chunks().0,
            corners: &ran.found.corners,
        };
        skin::list_outward(&table, ran.lent.final_marks, sides, &mut triangles);
    }
    triangles
}

fn put_triangles(points: &[[i16; 3]], ids: &[u32], file: &mut [u8]) {
    let corners = |ids: &[u32; 3]| {
        let [[ax, ay, az], [bx, by, bz], [cx, cy, cz]] = ids.map(|id| points[id as usize]);
        [ax, ay, az, bx, by, bz, cx, cy, cz]
    };
    put_file(ids.as_chunks().0.iter().map(corners), file);
}

/// Fills a file that is as long as the facets need it.
fn put_file(facets: impl ExactSizeIterator<Item = Facet>, file: &mut [u8]) {
    let (front, to) = file.split_at_mut(FACETS_AT);
    front.fill(0);
    front[..TITLE.len()].copy_from_slice(TITLE);
    front[COUNT_AT..].copy_from_slice(&(facets.len() as u32).to_le_bytes());
    for (facet, to) in facets.zip(to.as_chunks_mut::<FACET_BYTES>().0) {
        *to = [0; FACET_BYTES];
        let (numbers, _) = to[CORNERS_AT..].as_chunks_mut::<WORD_BYTES>();
        for (number, unit) in numbers.iter_mut().zip(facet) {
            *number = metres(unit).to_le_bytes();
        }
    }
}

/// What is wrong with a facet.
enum Fault {
    /// A bit of its normal or its u16.
    NotZero,
    /// Its first number off the grid.
    OffGrid(u32),
}

fn units_of(facet: &[u8; FACET_BYTES]) -> Result<Facet, Fault> {
    let (normal, rest) = facet.split_at(CORNERS_AT);
    let (numbers, mark) = rest.split_at(WORD_BYTES * FACET_NUMBERS);
    if !is_zero(normal) || !is_zero(mark) {
        return Err(Fault::NotZero);
    }
    let mut units = [0; FACET_NUMBERS];
    for (unit, number) in units.iter_mut().zip(numbers.as_chunks().0) {
        let bits = u32::from_le_bytes(*number);
        *unit = unit_of(bits).ok_or(Fault::OffGrid(bits))?;
    }
    Ok(units)
}

fn metres(unit: i16) -> f32 {
    f32::from(unit) / UNITS_PER_METRE
}

/// The unit for which these bits are written. The cast takes what is between
/// two units towards 0, what is beyond i16 to its end, and what is no number to
/// 0: bits that are not those of a unit are not found again.
fn unit_of(bits: u32) -> Option<i16> {
    let unit = (f32::from_bits(bits) * UNITS_PER_METRE) as i16;
    (GRID.contains(&unit) && metres(unit).to_bits() == bits).then_some(unit)
}

fn is_zero(bytes: &[u8]) -> bool {
    bytes.iter().all(|&byte| byte == 0)
}

#[cfg(test)]
mod tests {
    use super::*;

    #[test]
    fn numbers() {
        for unit in GRID {
            assert_eq!(unit_of(metres(unit).to_bits()), Some(unit));
        }
        let off = [
            -0.0,
            1.0 / 32.0,
            64.0,
            -64.0,
            f32::MIN_POSITIVE,
            f32::from_bits(1),
            f32::MAX,
            f32::INFINITY,
            f32::NEG_INFINITY,
            f32::NAN,
        ];
        for number in off {
            assert_eq!(unit_of(number.to_bits()), None, "{number}");
        }
    }
}
