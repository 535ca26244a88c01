//! Lists of facets, nine units for each, and STL files, also damaged ones.

use crate::Random;
use common::stl::{
    file_len, Wrote, CORNERS_AT, FACETS_AT, FACET_BYTES, FACET_NUMBERS, MOST_FACETS,
};
use common::{GRID, WORD_BYTES};

/// So many facets, with any units of the grid; those at its ends and next to 0
/// are frequent.
pub fn random(facets: usize, random: &mut Random) -> Vec<i16> {
    let mut unit = || match random.below(4) {
        0 => random.pick(&[0, 1, -1, *GRID.start(), *GRID.end()]),
        _ => random_unit(random),
    };
    (0..FACET_NUMBERS * facets).map(|_| unit()).collect()
}

pub fn random_unit(random: &mut Random) -> i16 {
    GRID.start() + random.below(GRID.count()) as i16
}

/// A list and the bytes of its file.
pub struct Known {
    pub units: Vec<i16>,
    pub file: Vec<u8>,
}

/// No facets; one with both ends of the grid; and the four of the tetrahedron
/// about the middle, of which each number is 1 or -1 metre.
pub fn known() -> Vec<Known> {
    let ends = [0, 1, -1, 3, -3, 16, -512, 1023, -1023];
    let ends_bytes = [
        [0x00, 0x00, 0x00, 0x00],
        [0x00, 0x00, 0x80, 0x3d],
        [0x00, 0x00, 0x80, 0xbd],
        [0x00, 0x00, 0x40, 0x3e],
        [0x00, 0x00, 0x40, 0xbe],
        [0x00, 0x00, 0x80, 0x3f],
        [0x00, 0x00, 0x00, 0xc2],
        [0x00, 0xc0, 0x7f, 0x42],
        [0x00, 0xc0, 0x7f, 0xc2],
    ];
    let tetrahedron = [
        [1, -1, -1, -1, -1, 1, -1, 1, -1],
        [1, 1, 1, -1, 1, -1, -1, -1, 1],
        [1, 1, 1, -1, -1, 1, 1, -1, -1],
        [1, 1, 1, 1, -1, -1, -1, 1, -1],
    ];
    let metre = |way: i16| match way {
        1 => [0x00, 0x00, 0x80, 0x3f],
        _ => [0x00, 0x00, 0x80, 0xbf],
    };
    vec![
        Known {
            units: vec![],
            file: file(&[]),
        },
        Known {
            units: ends.to_vec(),
            file: file(&[ends_bytes]),
        },
        Known {
            units: tetrahedron
                .as_flattened()
                .iter()
                .map(|way| 16 * way)
                .collect(),
            file: file(&tetrahedron.map(|facet| facet.map(metre))),
        },
    ]
}

/// A file of under 256 facets by the bytes of its numbers.
fn file(facets: &[[[u8; 4]; FACET_NUMBERS]]) -> Vec<u8> {
    let mut file = b"track skin".to_vec();
    file.extend([0; 70]);
    file.extend([facets.len() as u8, 0, 0, 0]);
    for numbers in facets {
        file.extend([0; 12]);
        file.extend(numbers.as_flattened());
        file.extend([0; 2]);
    }
    file
}

/// The file of a list that no code refuses.
pub fn file_of(units: &[i16]) -> Vec<u8> {
    let mut file = vec![0; file_len(units.len() / FACET_NUMBERS)];
    let wrote = plain::stl::write_facets(units, &mut file);
    assert_eq!(wrote, Wrote::done());
    file
}

/// A list, and the room lent for its file.
#[derive(Clone, Debug)]
pub struct ListCase {
    pub units: Vec<i16>,
    pub room: usize,
}

/// A list of at most so many facets, often with a number off the grid or a part
/// of a facet.
pub fn list_case(most: usize, random: &mut Random) -> ListCase {
    let facets = random.below(most + 1);
    let mut units = self::random(facets, random);
    if random.chance(20) {
        units.truncate(units.len() - random.below(units.len().min(FACET_NUMBERS) + 1));
    }
    if random.chance(30) && !units.is_empty() {
        for _ in 0..random.pick(&[1, 1, 2, 3]) {
            let at = random.below(units.len());
            units[at] = random.pick(&OFF_GRID);
        }
    }
    ListCase {
        units,
        room: any_room(file_len(facets), random),
    }
}

/// Numbers that the facet writer refuses.
pub const OFF_GRID: [i16; 8] = [1024, -1024, 1025, 2047, -1280, 16368, i16::MAX, i16::MIN];

/// A file, and the room lent for its units.
#[derive(Clone, Debug)]
pub struct FileCase {
    pub file: Vec<u8>,
    pub room: usize,
}

/// A file of at most so many facets, most often damaged.
pub fn file_case(most: usize, random: &mut Random) -> FileCase {
    let facets = random.below(most + 1);
    let mut file = file_of(&self::random(facets, random));
    for _ in 0..random.pick(&[0, 1, 1, 1, 2, 3]) {
        damage(&mut file, facets, random);
    }
    FileCase {
        file,
        room: any_room(FACET_NUMBERS * facets, random),
    }
}

/// Changes a file that had so many facets.
fn damage(file: &mut Vec<u8>, facets: usize, random: &mut Random) {
    let facet = FACETS_AT + FACET_BYTES * random.below(facets.max(1));
    let mut put = |at: usize, bytes: &[u8]| {
        if let Some(there) = file.get_mut(at..at + bytes.len()) {
            there.copy_from_slice(bytes);
        }
    };
    let byte = random.pick(&[1, 32, 128, 255]);
    let anywhere = random.below(file_len(facets));
    match random.below(12) {
        0 => file.truncate(random.below(file.len() + 1)),
        1 => file.truncate(file.len().saturating_sub(random.within(1, 60))),
        2 => file.extend(random.bytes(60)[..random.within(1, 60)].iter()),
        3 => {
            let other = random.pick(&[0, facets + 1, MOST_FACETS, MOST_FACETS + 1, 1 << 31]);
            put(COUNT_AT, &(other as u32).to_le_bytes());
        }
        4 => put(random.below(COUNT_AT + 4), &[byte]),
        5 => put(facet + random.below(CORNERS_AT), &[byte]),
        6 => put(facet + FACET_BYTES - random.within(1, 2), &[byte]),
        7..11 => {
            let at = CORNERS_AT + WORD_BYTES * random.below(FACET_NUMBERS);
            put(facet + at, &any_bits(random).to_le_bytes());
        }
        _ => put(anywhere, &[byte]),
    }
}

const COUNT_AT: usize = FACETS_AT - WORD_BYTES;

/// Just enough, too little, or more.
pub fn any_room(exact: usize, random: &mut Random) -> usize {
    match random.below(8) {
        0 => exact.saturating_sub(1),
        1 => random.below(exact + 1),
        2..5 => exact,
        _ => exact + random.within(1, 60),
    }
}

/// Bits of numbers that are near to the grid, or far from it.
pub fn any_bits(random: &mut Random) -> u32 {
    match random.below(4) {
        0 => random.pick(&ODD_BITS),
        1 => bits_of(random_unit(random)),
        2 => bits_of(random_unit(random)) ^ 1 << random.below(32),
        _ => random.bits() as u32,
    }
}

fn bits_of(unit: i16) -> u32 {
    (f32::from(unit) / 16.0).to_bits()
}

/// The bits of each number of the grid, and those next to them.
pub fn bits_at_the_grid() -> impl Iterator<Item = u32> {
    GRID.flat_map(|unit| [-1, 0, 1].map(|step| bits_of(unit).wrapping_add_signed(step)))
}

/// Bits of numbers off the grid.
pub const ODD_BITS: [u32; 24] = [
    // -0, infinity, numbers that are none: quiet ones and signalling ones
    0x8000_0000,
    0x7f80_0000,
    0xff80_0000,
    0x7fc0_0000,
    0xffc0_0000,
    0x7fff_ffff,
    0xffff_ffff,
    0x7f80_0001,
    0xff80_0001,
    0x7fbf_ffff,
    // denormals, and the least and the greatest normals
    0x0000_0001,
    0x8000_0001,
    0x0000_0010,
    0x007f_ffff,
    0x807f_ffff,
    0x0080_0000,
    0x7f7f_ffff,
    // 1/32, 1023 1/2 and 1024 units, and 1024 metres, of either sign
    0x3d00_0000,
    0xbd00_0000,
    0x427f_e000,
    0xc27f_e000,
    0x4280_0000,
    0xc280_0000,
    0x4480_0000,
];
