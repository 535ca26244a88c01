//! STL by the slow engine against `plain`: what each call returns, and every
//! byte, number and word of what was lent. AGREE_JOBS sets the number of random
//! jobs and AGREE_SEED the number of the first.

use common::stl::{file_len, Read, Wrote, FACET_NUMBERS, MOST_FACETS};
use common::{Buffers, Order, Outcome};
use jobs::facets::{self, FileCase, Known, ListCase};
use jobs::{cases, outward, tables, Job, Random};

/// What was returned, and the file as left.
fn wrote(units: &[i16], lent: &[u8]) -> (Wrote, Vec<u8>) {
    let [mut by_plain, mut by_slow] = [lent.to_vec(), lent.to_vec()];
    let plain = plain::stl::write_facets(units, &mut by_plain);
    let slow = slow::stl::write_facets(units, &mut by_slow);
    assert_eq!(plain, slow);
    assert!(by_plain == by_slow);
    (slow, by_slow)
}

/// What was returned, and the units as left.
fn read(file: &[u8], lent: &[i16]) -> (Read, Vec<i16>) {
    let [mut by_plain, mut by_slow] = [lent.to_vec(), lent.to_vec()];
    let plain = plain::stl::read_file(file, &mut by_plain);
    let slow = slow::stl::read_file(file, &mut by_slow);
    assert_eq!(plain, slow);
    assert!(by_plain == by_slow);
    (slow, by_slow)
}

/// What was returned, and the job's buffers and the file as left.
fn skin(kind: &str, job: &[u8], buffers: &Buffers, lent: &[u8]) -> (Outcome, Buffers, Vec<u8>) {
    let [mut by_plain, mut by_slow] = [(); 2].map(|()| (buffers.clone(), lent.to_vec()));
    let plain = plain::stl::write_skin(job, by_plain.0.lend(), &mut by_plain.1);
    let slow = slow::stl::write_skin(job, by_slow.0.lend(), &mut by_slow.1);
    assert_eq!(plain, slow, "{kind}");
    assert!(by_plain == by_slow, "{kind}: buffers");
    (slow, by_slow.0, by_slow.1)
}

#[test]
fn known_lists() {
    for Known { units, file } in facets::known() {
        let (outcome, left) = wrote(&units, &vec![9; file.len()]);
        assert_eq!((outcome, &left), (Wrote::done(), &file));
        let facets = units.len() / FACET_NUMBERS;
        let (outcome, left) = read(&file, &vec![9; units.len()]);
        assert_eq!((outcome, left), (Read::done(facets as u32), units));
    }
}

#[test]
fn refused_lists() {
    let units = facets::random(3, &mut Random::new(1));
    let refused = |units: &[i16], room: usize| {
        let lent = vec![9; room];
        let (outcome, left) = wrote(units, &lent);
        assert_eq!(left, lent);
        [outcome.code, outcome.place]
    };
    for short in 1..9 {
        assert_eq!(refused(&units[short..], 0), [1, 0]);
    }
    for at in 0..27 {
        let mut far = units.clone();
        far[at..].fill(1024);
        assert_eq!(refused(&far, 0), [2, at as u32]);
        assert_eq!(refused(&far[1..], 1_000), [1, 0]);
    }
    assert_eq!(refused(&units, file_len(3) - 1), [3, 0]);
    assert_eq!(refused(&[], 83), [3, 0]);
    assert_eq!(refused(&[2_000; 9 * (MOST_FACETS + 1)], 0), [1, 0]);
    assert_eq!(refused(&[0; 9 * MOST_FACETS], file_len(4096) - 1), [3, 0]);
}

#[test]
fn random_lists() {
    let random = &mut Random::new(2);
    let mut codes = [0; 4];
    for number in 0..4_000 {
        let most = [3, 3, 3, 200][number % 4];
        let ListCase { units, room } = facets::list_case(most, random);
        let (outcome, left) = wrote(&units, &random.bytes(room));
        codes[outcome.code as usize] += 1;
        if outcome.code == 0 {
            let facets = units.len() / FACET_NUMBERS;
            let (outcome, back) = read(&left[..file_len(facets)], &random.numbers(units.len()));
            assert_eq!((outcome, back), (Read::done(facets as u32), units));
        }
    }
    assert!(codes.iter().all(|&given| given >= 200), "{codes:?}");
}

#[test]
fn random_files() {
    let random = &mut Random::new(3);
    let mut codes = [0; 6];
    for number in 0..8_000 {
        let most = [2, 3, 5, 100][number % 4];
        let FileCase { file, room } = facets::file_case(most, random);
        let (outcome, units) = read(&file, &random.numbers(room));
        codes[outcome.code as usize] += 1;
        assert_eq!(outcome.bits != 0, outcome.code == 5);
        if outcome.code == 0 {
            let numbers = FACET_NUMBERS * outcome.facets as usize;
            let (outcome, back) = wrote(&units[..numbers], &random.bytes(file.len()));
            assert_eq!((outcome, back), (Wrote::done(), file));
        }
    }
    assert!(codes.iter().all(|&given| given >= 200), "{codes:?}");
}

/// Damage of each code in one file, taken back from the first on.
#[test]
fn earlier_codes_decide() {
    let units = facets::random(3, &mut Random::new(4));
    let sound = facets::file_of(&units);
    let mut file = sound.clone();
    let code = |file: &[u8], room: usize| {
        let (outcome, left) = read(file, &vec![9; room]);
        assert!(outcome.code == 0 || left == vec![9; room]);
        [outcome.code, outcome.place, outcome.bits]
    };
    let facet = |f: usize| file_len(f);
    let set = |file: &mut Vec<u8>, at: usize, bits: u32| {
        file[at..at + 4].copy_from_slice(&bits.to_le_bytes());
    };
    // Facet 1 has two numbers off the grid and a u16, facet 2 a normal.
    set(&mut file, facet(1) + 12 + 4 * 5, 0x8000_0000);
    set(&mut file, facet(1) + 12 + 4 * 8, 0x7fc0_0001);
    file[facet(1) + 49] = 1;
    file[facet(2)] = 1;
    file[79] = 1;
    file.push(0);
    assert_eq!(code(&file, 0), [1, 0, 0]);
    assert_eq!(code(&file[..83], 0), [1, 0, 0]);
    file.pop();
    assert_eq!(code(&file, 0), [2, 0, 0]);
    file[79] = 0;
    assert_eq!(code(&file, 26), [3, 0, 0]);
    assert_eq!(code(&file, 27), [4, 1, 0]);
    file[facet(1) + 49] = 0;
    assert_eq!(code(&file, 27), [5, 1, 0x8000_0000]);
    set(&mut file, facet(1) + 12 + 4 * 5, 0);
    assert_eq!(code(&file, 27), [5, 1, 0x7fc0_0001]);
    set(&mut file, facet(1) + 12 + 4 * 8, 0);
    assert_eq!(code(&file, 27), [4, 2, 0]);
    file[facet(2)] = 0;
    assert_eq!(code(&file, 27), [0, 0, 0]);
}

#[test]
fn numbers_on_and_off_the_grid() {
    let random = &mut Random::new(5);
    let sound = facets::file_of(&facets::random(1, random));
    let [mut on, mut off] = [0, 0];
    let near = facets::bits_at_the_grid().chain(facets::ODD_BITS);
    let far: Vec<u32> = (0..20_000).map(|_| facets::any_bits(random)).collect();
    for bits in near.chain(far) {
        let mut file = sound.clone();
        let at = file_len(0) + 12 + 4 * random.below(9);
        file[at..at + 4].copy_from_slice(&bits.to_le_bytes());
        match read(&file, &[9; 9]).0 {
            Read { code: 0, .. } => on += 1,
            refused => {
                assert_eq!(refused, Read::off_grid(0, bits));
                off += 1;
            }
        }
    }
    assert!(on >= 2047 && off > 2 * 2047, "{on} {off}");
    for bits in facets::ODD_BITS {
        let mut file = sound.clone();
        file[96..100].copy_from_slice(&bits.to_le_bytes());
        assert_eq!(read(&file, &[9; 9]).0, Read::off_grid(0, bits));
    }
}

/// Job A with points: its four facets are outward in either order.
#[test]
fn job_a() {
    let points = [[0, 0, 0], [1, 1, 1], [1, -1, -1], [-1, 1, -1], [-1, -1, 1]];
    let job = Job {
        points: Some(points.map(|point| point.map(|way| 16 * way)).to_vec()),
        proposals: vec![[4, 1]],
        ..tables::simplex().job()
    };
    let buffers = Buffers::filled(job.rooms(), 9);
    let tetrahedron = facets::known().pop().expect("the last known list");
    let with = |order: Order| {
        Job {
            order,
            ..job.clone()
        }
        .bytes()
    };
    for order in Order::EACH {
        let mut left = buffers.clone();
        let ran = slow::run(&with(order), left.lend());
        let lent = [9; file_len(4) + 1];
        let file = [&tetrahedron.file[..], &[9]].concat();
        assert_eq!(
            skin("a", &with(order), &buffers, &lent),
            (ran, left.clone(), file)
        );
        // One short: the run stands, and nothing is written.
        let lent = &lent[..file_len(4) - 1];
        let short = (Outcome::refused(21, 0), left, lent.to_vec());
        assert_eq!(skin("a", &with(order), &buffers, lent), short);
    }
    let without = Job {
        points: None,
        ..job.clone()
    };
    let mut left = buffers.clone();
    slow::run(&without.bytes(), left.lend());
    let refused = (Outcome::refused(20, 0), left, vec![]);
    assert_eq!(skin("a", &without.bytes(), &buffers, &[]), refused);
}

fn setting(name: &str, usual: u64) -> u64 {
    match std::env::var(name) {
        Ok(value) => value.parse().expect(name),
        Err(_) => usual,
    }
}

/// How many jobs were refused by a code of their own, by 20 and by 21, and how
/// many were written.
#[derive(Debug, Default)]
struct Came {
    refused: usize,
    without: usize,
    short: usize,
    written: usize,
}

#[test]
fn random_jobs() {
    let mut came = Came::default();
    let count = setting("AGREE_JOBS", 6_000) / 2;
    let first = setting("AGREE_SEED", 1);
    for number in (first..).take(count as usize) {
        let case = cases::case(number, 5 + (number % 36) as usize);
        let random = &mut Random::new(!number);
        let buffers = random.buffers(case.rooms);
        let each = match outward::in_each_order(&case.job) {
            Some(each) => each.to_vec(),
            None => vec![case.job],
        };
        let kind = format!("case {number}: {}", case.kind);
        let ran = slow::run(&each[0], buffers.clone().lend());
        let room = facets::any_room(file_len(ran.triangles as usize), random);
        let lent = random.bytes(room);
        let mut files = each.iter().map(|job| {
            let mut left = buffers.clone();
            let ran = slow::run(job, left.lend());
            let (outcome, after, file) = skin(&kind, job, &buffers, &lent);
            assert!(left == after, "{kind}");
            assert!(outcome.code == 0 || file == lent, "{kind}");
            match outcome.code {
                20 => came.without += 1,
                21 => came.short += 1,
                code => {
                    assert_eq!(outcome, ran, "{kind}");
                    let counter = if code == 0 {
                        &mut came.written
                    } else {
                        &mut came.refused
                    };
                    *counter += 1;
                }
            }
            file
        });
        let outward = files.next();
        assert!(files.all(|rising| Some(rising) == outward), "{kind}");
    }
    println!("{came:?}");
    if count >= 3_000 {
        let each = [came.refused, came.without, came.short, came.written];
        assert!(each.iter().all(|&jobs| jobs >= 100), "{came:?}");
    }
}
