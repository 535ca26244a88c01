//! The STL calls of the proved engine against both ordinary engines. AGREE_JOBS
//! sets the number of random jobs, and of lists and files by it, and AGREE_SEED
//! the number of the first.

use agree::mesh::Mesh;
use agree::stl::{read_file, write_facets, write_skin, Skin};
use agree::{setting, with_stack};
use common::stl::{file_len, Read, Wrote, CORNERS_AT, FACET_BYTES, FACET_NUMBERS, MOST_FACETS};
use common::{Outcome, Rooms, MOST_IDS, MOST_PROPOSALS, MOST_ROWS, WORD_BYTES};
use jobs::facets::{self, FileCase, Known, ListCase};
use jobs::{cases, growth, outward, placed, Job, Random};
use std::fs;
use std::ops::Range;
use std::thread;

const STORED: &str = concat!(env!("CARGO_MANIFEST_DIR"), "/../../jobs");

/// Exact, one short if there is one to spare, and longer.
fn rooms(exact: usize) -> [usize; 3] {
    [exact, exact.saturating_sub(1), exact + 7]
}

/// Writes a list into each room, and reads back what was written.
fn write_into_each_room(units: &[i16], random: &mut Random) -> Wrote {
    let facets = units.len() / FACET_NUMBERS;
    let exact = file_len(facets);
    let outcomes = rooms(exact).map(|room| {
        let lent = random.bytes(room);
        let (outcome, left) = write_facets(units, &lent);
        if outcome.code != 0 {
            assert_eq!(left, lent);
            return outcome;
        }
        let (file, behind) = left.split_at(exact);
        assert_eq!(behind, &lent[exact..]);
        let lent = random.numbers(units.len());
        let (outcome, back) = read_file(file, &lent);
        assert_eq!(outcome, Read::done(facets as u32));
        assert_eq!(back, units);
        Wrote::done()
    });
    assert_eq!(outcomes[0], outcomes[2]);
    if outcomes[0].code == 0 {
        assert_eq!(outcomes[1], Wrote::refused(3, 0));
    } else {
        assert_eq!(outcomes[1], outcomes[0]);
    }
    outcomes[0]
}

/// Reads a file into each room, and writes what was read. The file has, or had,
/// so many facets.
fn read_into_each_room(file: &[u8], facets: usize, random: &mut Random) -> Read {
    let exact = FACET_NUMBERS * facets;
    let [outcome, _, longer] = rooms(exact).map(|room| {
        let lent = random.numbers(room);
        let (outcome, left) = read_file(file, &lent);
        if outcome.code != 0 {
            assert_eq!((outcome.facets, &left), (0, &lent));
            return outcome;
        }
        let numbers = FACET_NUMBERS * outcome.facets as usize;
        assert_eq!(left[numbers..], lent[numbers..]);
        let (wrote, again) = write_facets(&left[..numbers], &random.bytes(file.len()));
        assert_eq!(wrote, Wrote::done());
        assert_eq!(again, file);
        outcome
    });
    assert_eq!(outcome, longer);
    outcome
}

#[test]
fn known_lists() {
    with_stack(|| {
        let random = &mut Random::new(1);
        for Known { units, file } in facets::known() {
            let (outcome, left) = write_facets(&units, &random.bytes(file.len()));
            assert_eq!((outcome, &left), (Wrote::done(), &file));
            let (outcome, left) = read_file(&file, &random.numbers(units.len()));
            assert_eq!(outcome.code, 0);
            assert_eq!(left, units);
        }
    });
}

#[test]
fn whole_and_partial_facets() {
    with_stack(|| {
        let random = &mut Random::new(2);
        let units = facets::random(5, random);
        for numbers in 0..=units.len() {
            let outcome = write_into_each_room(&units[..numbers], random);
            let code = u32::from(numbers % FACET_NUMBERS != 0);
            assert_eq!(outcome, Wrote::refused(code, 0));
        }
    });
}

#[test]
fn a_number_off_the_grid_at_each_index() {
    with_stack(|| {
        let random = &mut Random::new(3);
        let units = facets::random(3, random);
        for at in 0..units.len() {
            for off in facets::OFF_GRID {
                let mut list = units.clone();
                list[at] = off;
                let outcome = write_into_each_room(&list, random);
                assert_eq!(outcome, Wrote::refused(2, at as u32));
                // Another behind it changes nothing.
                let behind = random.within(at, units.len() - 1);
                list[behind] = off;
                assert_eq!(write_into_each_room(&list, random), outcome);
            }
        }
    });
}

/// 4,096 facets, and one more; then parts of one, and the last number off the
/// grid.
#[test]
fn most_facets() {
    with_stack(|| {
        let random = &mut Random::new(4);
        let mut units = facets::random(MOST_FACETS + 1, random);
        let most = FACET_NUMBERS * MOST_FACETS;
        assert_eq!(write_into_each_room(&units[..most], random), Wrote::done());
        assert_eq!(write_into_each_room(&units, random), Wrote::refused(1, 0));
        for more in 1..FACET_NUMBERS {
            let (outcome, _) = write_facets(&units[..most + more], &[]);
            assert_eq!(outcome, Wrote::refused(1, 0));
        }

        let mut file = facets::file_of(&units[..most]);
        let outcome = read_into_each_room(&file, MOST_FACETS, random);
        assert_eq!(outcome, Read::done(MOST_FACETS as u32));
        // The lowest bit of the last number, and then the last u16.
        let end = file.len();
        file[end - 6] = 1;
        let outcome = read_into_each_room(&file, MOST_FACETS, random);
        assert_eq!([outcome.code, outcome.place], [5, MOST_FACETS as u32 - 1]);
        file[end - 1] = 1;
        let outcome = read_into_each_room(&file, MOST_FACETS, random);
        assert_eq!(outcome, Read::refused(4, MOST_FACETS as u32 - 1));
        // One facet too many, laid out as it should be.
        file.resize(file_len(MOST_FACETS + 1), 0);
        file[80..84].copy_from_slice(&(MOST_FACETS as u32 + 1).to_le_bytes());
        let outcome = read_into_each_room(&file, MOST_FACETS + 1, random);
        assert_eq!(outcome, Read::refused(1, 0));

        units[most - 1] = 1024;
        let outcome = write_into_each_room(&units[..most], random);
        assert_eq!(outcome, Wrote::refused(2, most as u32 - 1));
    });
}

#[test]
fn random_lists() {
    with_stack(|| {
        let count = setting("AGREE_JOBS", 20_000) / 5;
        let random = &mut Random::new(setting("AGREE_SEED", 1));
        let mut codes = [0; 4];
        for number in 0..count {
            let most = if number % 50 == 0 { 300 } else { 6 };
            let ListCase { units, room } = facets::list_case(most, random);
            let (outcome, _) = write_facets(&units, &random.bytes(room));
            codes[outcome.code as usize] += 1;
            write_into_each_room(&units, random);
        }
        println!("random lists: {count}, codes {codes:?}");
        assert!(count < 4_000 || codes.iter().all(|&given| given >= 200));
    });
}

#[test]
fn random_files() {
    with_stack(|| {
        let count = setting("AGREE_JOBS", 20_000) / 2;
        let random = &mut Random::new(setting("AGREE_SEED", 1));
        let mut codes = [0; 6];
        for number in 0..count {
            let most = if number % 50 == 0 { 300 } else { 6 };
            let FileCase { file, room } = facets::file_case(most, random);
            let lent = random.numbers(room);
            let (outcome, left) = read_file(&file, &lent);
            assert!(outcome.code == 0 || left == lent);
            codes[outcome.code as usize] += 1;
        }
        println!("random files: {count}, codes {codes:?}");
        assert!(count < 10_000 || codes.iter().all(|&given| given >= 500));
    });
}

/// A file of two facets, with each bit of it turned, and with each byte made some
/// others: nothing but its 72 bytes of numbers may change and be read.
#[test]
fn every_byte_of_a_file() {
    with_stack(|| {
        let random = &mut Random::new(5);
        let file = facets::file_of(&facets::random(2, random));
        let lent = random.numbers(2 * FACET_NUMBERS + 3);
        let mut codes = [0; 6];
        for at in 0..file.len() {
            let turned = (0..8).map(|bit| file[at] ^ 1 << bit);
            let others = [0, 1, 0x3d, 0x42, 0x7f, 0x80, 0xbd, 0xff];
            for byte in turned.chain(others) {
                let mut changed = file.clone();
                changed[at] = byte;
                let (outcome, left) = read_file(&changed, &lent);
                codes[outcome.code as usize] += 1;
                if outcome.code == 0 {
                    let (_, back) = write_facets(&left[..18], &random.bytes(file.len()));
                    assert_eq!(back, changed);
                }
                let in_facet = at.checked_sub(file_len(0)).map(|at| at % FACET_BYTES);
                let expected: &[u32] = match (at, in_facet) {
                    _ if changed == file => &[0],
                    (0..80, _) => &[2],
                    (_, None) => &[1],
                    (_, Some(0..12 | 48..)) => &[4],
                    _ => &[0, 5],
                };
                assert!(expected.contains(&outcome.code), "byte {at} made {byte}");
            }
        }
        println!("every byte of a file: codes {codes:?}");
    });
}

#[test]
fn every_length_and_count() {
    with_stack(|| {
        let random = &mut Random::new(6);
        let file = facets::file_of(&facets::random(2, random));
        for length in 0..file.len() {
            let outcome = read_into_each_room(&file[..length], 2, random);
            assert_eq!(outcome, Read::refused(1, 0));
        }
        let mut longer = file.clone();
        for _ in 0..60 {
            longer.push(random.pick(&[0, 0, 1, 255]));
            let outcome = read_into_each_room(&longer, 2, random);
            assert_eq!(outcome, Read::refused(1, 0));
        }
        let near = (0..8).chain([255, 256, 4095, 4096, 4097, u32::MAX]);
        for count in near.chain((0..32).map(|bit| 2 ^ 1 << bit)) {
            let mut changed = file.clone();
            changed[80..84].copy_from_slice(&count.to_le_bytes());
            let outcome = read_into_each_room(&changed, 2, random);
            let code = u32::from(count != 2);
            assert_eq!(outcome.code, code, "{count}");
        }
    });
}

#[test]
fn every_room() {
    with_stack(|| {
        let random = &mut Random::new(7);
        let units = facets::random(2, random);
        for room in 0..=file_len(2) + 1 {
            let (outcome, _) = write_facets(&units, &random.bytes(room));
            assert_eq!(outcome.code == 3, room < file_len(2));
        }
        let file = facets::file_of(&units);
        for room in 0..=20 {
            let (outcome, _) = read_file(&file, &random.numbers(room));
            assert_eq!(outcome.code == 3, room < 18);
        }
    });
}

/// A file of one facet with one of its numbers changed, to be read.
struct OneNumber {
    file: Vec<u8>,
    sound: Vec<u8>,
}

impl OneNumber {
    fn new() -> OneNumber {
        let sound = facets::known()[1].file.clone();
        OneNumber {
            file: sound.clone(),
            sound,
        }
    }

    /// These bits as number k of the facet.
    fn put(&mut self, k: usize, bits: u32) -> &[u8] {
        let at = file_len(0) + CORNERS_AT + WORD_BYTES * k;
        self.file.clone_from(&self.sound);
        self.file[at..at + WORD_BYTES].copy_from_slice(&bits.to_le_bytes());
        &self.file
    }
}

#[test]
fn numbers_on_and_off_the_grid() {
    with_stack(|| {
        let random = &mut Random::new(8);
        let mut one = OneNumber::new();
        let [mut on, mut off] = [0, 0];
        let odd = facets::ODD_BITS.into_iter();
        let at_each = odd.flat_map(|bits| (0..9).map(move |k| (bits, k)));
        let mut bits: Vec<(u32, usize)> = at_each.collect();
        bits.extend(facets::bits_at_the_grid().map(|bits| (bits, random.below(9))));
        bits.extend((0..4_000).map(|_| (facets::any_bits(random), random.below(9))));
        for (bits, k) in bits {
            let (outcome, _) = read_file(one.put(k, bits), &random.numbers(10));
            if outcome.code == 0 {
                on += 1;
            } else {
                assert_eq!(outcome, Read::off_grid(0, bits));
                off += 1;
            }
        }
        println!("numbers: {on} on the grid, {off} off it");
        assert!(on >= 2047 && off >= 2 * 2047, "{on} {off}");
    });
}

/// All 2^32 numbers, read by the proved engine and by `plain`. It is for an
/// archive that is compiled for this processor: under an emulator it would take
/// weeks. On x86-64 that is the archive itself,
///
///     cargo test --release -p agree --test stl -- --ignored every_bit_pattern --nocapture
///
/// and elsewhere `bench/native` leaves one in `target/native`:
///
///     TRACK_C_DIR=$PWD/../target/native TRACK_NATIVE=1 \
///         cargo test --release -p agree --test stl -- --ignored every_bit_pattern --nocapture
#[test]
#[ignore = "takes many minutes"]
fn every_bit_pattern() {
    if track::EMULATED {
        panic!("it is not for an emulator");
    }
    let threads = thread::available_parallelism().map_or(1, |threads| threads.get()) as u64;
    let part = move |i: u64| (i << 32) / threads..((i + 1) << 32) / threads;
    let each = |i: u64| thread::spawn(move || on_grid_among(part(i)));
    let each: Vec<_> = (0..threads).map(each).collect();
    let (mut all, mut on) = (0, 0);
    for part in each {
        let (patterns, accepted) = part.join().expect("no disagreement");
        all += patterns;
        on += accepted;
    }
    println!("{all} bit patterns: {on} on the grid, and the same by track and by plain");
    assert_eq!((all, on), (1 << 32, 2047));
}

/// How many patterns there are, and how many of them are numbers of the grid.
fn on_grid_among(patterns: Range<u64>) -> (u64, u64) {
    let mut one = OneNumber::new();
    let (mut all, mut on) = (0, 0);
    for pattern in patterns {
        let (bits, k) = (pattern as u32, (pattern % 9) as usize);
        let file = one.put(k, bits);
        let [mut by_track, mut by_plain] = [[i16::MIN; 9]; 2];
        let track = track::read_file(file, &mut by_track);
        let plain = plain::stl::read_file(file, &mut by_plain);
        assert_eq!(
            (track, by_track),
            (plain, by_plain),
            "{bits:#010x} as number {k}"
        );
        let expected = match track.code {
            0 => Read::done(1),
            _ => Read::off_grid(0, bits),
        };
        assert_eq!(track, expected);
        all += 1;
        on += u64::from(track.code == 0);
    }
    (all, on)
}

/// What jobs came to.
#[derive(Debug, Default)]
struct Came {
    refused: usize,
    without_points: usize,
    short: usize,
    /// With the outer rows outside, and with them inside.
    written: [usize; 2],
    /// Files with facets whose edges were looked at.
    closed: usize,
}

impl Came {
    /// Compares the writers on a job, in each order if it has points, with room
    /// for the file as `room` says for the exact length.
    fn compare(
        &mut self,
        kind: &str,
        job: &[u8],
        rooms: Rooms,
        room: impl Fn(usize, &mut Random) -> usize,
        random: &mut Random,
    ) {
        let buffers = random.buffers(rooms);
        let ran = plain::run(job, buffers.clone().lend());
        let exact = file_len(ran.triangles as usize);
        let room = room(exact, random);
        let lent = Skin {
            buffers,
            file: random.bytes(room),
        };
        let each = match outward::in_each_order(job) {
            Some(each) => each.to_vec(),
            None => vec![job.to_vec()],
        };
        let each: Vec<(Outcome, Skin)> = each
            .iter()
            .map(|job| write_skin(kind, job, &lent))
            .collect();
        for (outcome, left) in &each {
            assert_eq!(outcome, &each[0].0, "{kind}");
            assert!(
                left.file == each[0].1.file,
                "{kind}: the order changes the file"
            );
            assert!(outcome.code == 0 || left.file == lent.file, "{kind}");
        }
        let (outcome, left) = &each[0];
        match outcome.code {
            0 => {
                assert_eq!(*outcome, ran, "{kind}");
                assert!(left.file[exact..] == lent.file[exact..], "{kind}");
                let job = Job::from_bytes(job).expect("a layout");
                self.look_at(kind, &job, left, exact);
            }
            20 => {
                assert_eq!((*outcome, ran.code), (Outcome::refused(20, 0), 0), "{kind}");
                self.without_points += 1;
            }
            21 => {
                assert_eq!((*outcome, ran.code), (Outcome::refused(21, 0), 0), "{kind}");
                assert!(lent.file.len() < exact, "{kind}");
                self.short += 1;
            }
            _ => {
                assert_eq!(*outcome, ran, "{kind}");
                self.refused += 1;
            }
        }
    }

    /// The file by itself, as another program takes it.
    fn look_at(&mut self, kind: &str, job: &Job, left: &Skin, exact: usize) {
        let mesh = Mesh::of(&left.file[..exact]);
        let marks = &left.buffers.final_marks;
        assert_eq!(mesh.six_volumes(), six_volumes(job, marks) as f64, "{kind}");
        // Two ids at one point may have edges that are one by their corners.
        let listed = 3 * (exact - file_len(0)) / FACET_BYTES;
        let mut ids = left.buffers.triangles[..listed].to_vec();
        ids.sort_unstable();
        ids.dedup();
        if mesh.corners() == ids.len() {
            assert_eq!(mesh.open(), None, "{kind}");
            self.closed += usize::from(listed > 0);
        }
        self.written[usize::from(job.sky() == Some(1))] += 1;
    }
}

/// Six times the volume of the inside, in cubed units; where the sky is inside,
/// that of the outside, below zero.
fn six_volumes(job: &Job, marks: &[u8]) -> i64 {
    let points = job.points.as_ref().expect("points");
    let volume = |row: &[u32; 4]| {
        let [a, b, c, d] = row.map(|id| points[id as usize].map(i64::from));
        let from_a = |p: [i64; 3]| [p[0] - a[0], p[1] - a[1], p[2] - a[2]];
        let ([b, c], d) = ([b, c].map(from_a), from_a(d));
        let part = |i: usize, j: usize| b[i] * c[j] - b[j] * c[i];
        (part(1, 2) * d[0] + part(2, 0) * d[1] + part(0, 1) * d[2]).abs()
    };
    let sky = job.sky() == Some(1);
    let rows = job.rows.iter().zip(marks);
    let ground = rows.filter(|(row, &mark)| row[0] != 0 && (mark == 1) != sky);
    let ground: i64 = ground.map(|(row, _)| volume(row)).sum();
    if sky {
        -ground
    } else {
        ground
    }
}

#[test]
fn random_jobs() {
    with_stack(|| {
        let count = setting("AGREE_JOBS", 20_000) / 2;
        let first = setting("AGREE_SEED", 1);
        let mut came = Came::default();
        for number in (first..).take(count as usize) {
            let most = 5 + number % if number % 8 == 0 { 150 } else { 40 };
            let case = cases::case(number, most as usize);
            let kind = format!("case {number} of {most}: {}", case.kind);
            let random = &mut Random::new(!number);
            came.compare(&kind, &case.job, case.rooms, facets::any_room, random);
        }
        println!("random jobs: {count}, {came:?}");
        if count >= 10_000 {
            let [outside, inside] = came.written;
            let each = [
                came.refused,
                came.without_points,
                came.short,
                outside,
                inside,
            ];
            assert!(each.iter().all(|&jobs| jobs >= 200), "{came:?}");
            assert!(came.closed >= 500, "{came:?}");
        }
    });
}

#[test]
fn large_jobs() {
    with_stack(|| {
        let random = &mut Random::new(9);
        let mut came = Came::default();
        for (family, placed) in placed::each_family(MOST_ROWS, random) {
            for sky in [0, 1] {
                let mut job = placed.job();
                let start = growth::even_marks(&placed.table, sky, 0);
                job.marks = growth::marks_after(&placed.table, start, MOST_PROPOSALS, 90, random);
                growth::propose(&mut job, MOST_PROPOSALS, 60, random);
                for room in [
                    |exact, _: &mut Random| exact,
                    |exact, _: &mut Random| exact - 1,
                ] {
                    came.compare(family, &job.bytes(), job.rooms(), room, random);
                }
            }
        }
        println!("large jobs: {came:?}");
        assert_eq!((came.written, came.short), ([3, 3], 6));
        assert!(came.closed >= 4, "{came:?}");
    });
}

/// The stored jobs with each room about the exact one, and with none.
#[test]
fn stored_jobs() {
    with_stack(|| {
        let random = &mut Random::new(10);
        let mut came = Came::default();
        for entry in fs::read_dir(STORED).expect("the stored jobs") {
            let path = entry.expect("an entry").path();
            if path.extension().is_some_and(|ending| ending == "job") {
                let job = fs::read(&path).expect("a stored job");
                let kind = path.display().to_string();
                let rooms = Rooms::exact(MOST_IDS, MOST_ROWS, MOST_PROPOSALS);
                for more in 0..4 {
                    let room = |exact, _: &mut Random| exact + more - 2;
                    came.compare(&kind, &job, rooms, room, random);
                }
                came.compare(&kind, &job, rooms, |_, _| 0, random);
            }
        }
        println!("stored jobs: {came:?}");
        assert!(came.written.iter().all(|&jobs| jobs > 0), "{came:?}");
    });
}
