//! The proved engine against `plain`. AGREE_JOBS sets the number of random
//! jobs and AGREE_SEED the number of the first.

use agree::{setting, with_stack, Comparer};
use common::{Rooms, FEWEST_IDS, MOST_IDS, MOST_PROPOSALS, MOST_ROWS};
use jobs::{cases, growth, placed, tables, Job, Random, Table};
use std::fs;

const STORED: &str = concat!(env!("CARGO_MANIFEST_DIR"), "/../../jobs");

fn comparer() -> Comparer {
    Comparer::new(env!("CARGO_TARGET_TMPDIR"))
}

fn compare_case(comparer: &mut Comparer, number: u64, most: usize) {
    let case = cases::case(number, most);
    let buffers = Random::new(!number).buffers(case.rooms);
    let name = format!("case-{number}-of-{most}");
    comparer.compare(&name, &case.kind, &case.job, &buffers);
}

#[test]
fn random_jobs() {
    with_stack(|| {
        let count = setting("AGREE_JOBS", 20_000);
        let first = setting("AGREE_SEED", 1);
        let mut comparer = comparer();
        for number in (first..).take(count as usize) {
            let most = match number % 8 {
                0..5 => 5 + number % 40,
                5 | 6 => 45 + number % 56,
                _ => 101 + number % 100,
            };
            compare_case(&mut comparer, number, most as usize);
        }
        comparer.report("random jobs");
        if count >= 20_000 {
            let Comparer {
                codes,
                answers,
                unlike,
                pinched,
                turned,
                ..
            } = comparer;
            assert!(codes.iter().all(|&given| given >= 100), "{codes:?}");
            assert!(unlike.iter().all(|&given| given >= 50), "{unlike:?}");
            assert!(pinched.iter().all(|&given| given >= 50), "{pinched:?}");
            assert!(turned.iter().all(|&lists| lists >= 500), "{turned:?}");
            assert!(comparer.each_answer(500), "{answers:?}");
        }
    });
}

#[test]
fn large_jobs() {
    with_stack(|| {
        let rounds = setting("AGREE_JOBS", 20_000) / 500;
        let first = setting("AGREE_SEED", 1);
        let mut comparer = comparer();
        for number in (first..).take(rounds as usize) {
            let random = &mut Random::new(number);
            let without = tables::each_family(MOST_ROWS, random).into_iter();
            let without = without.map(|(family, table)| (family, table, None));
            let with = placed::each_family(MOST_ROWS, random).into_iter();
            let with = with.map(|(family, placed)| (family, placed.table, Some(placed.points)));
            for (family, table, points) in without.chain(with) {
                let case = cases::case_on(family, &table, points, random);
                // By numbers of their own, so that the jobs don't hang on the rooms.
                let buffers = Random::new(!number).buffers(case.rooms);
                let name = format!("large-{number}-{}", family.replace(' ', "-"));
                comparer.compare(&name, &case.kind, &case.job, &buffers);
            }
        }
        comparer.report("large jobs");
        if rounds >= 40 {
            let Comparer {
                codes,
                answers,
                turned,
                ..
            } = comparer;
            assert!(codes[0] >= 60, "{codes:?}");
            assert!(turned.iter().all(|&lists| lists >= 5), "{turned:?}");
            assert!(comparer.each_answer(50), "{answers:?}");
        }
    });
}

#[test]
fn stored_jobs() {
    with_stack(|| {
        let mut comparer = comparer();
        let random = &mut Random::new(2);
        for entry in fs::read_dir(STORED).expect("the stored jobs") {
            let path = entry.expect("an entry").path();
            if path.extension().is_some_and(|ending| ending == "job") {
                let job = fs::read(&path).expect("a stored job");
                let rooms = Rooms::exact(MOST_IDS + 1, MOST_ROWS + 1, MOST_PROPOSALS + 1);
                let buffers = random.buffers(rooms);
                comparer.compare("stored", &path.display().to_string(), &job, &buffers);
            }
        }
        comparer.report("stored jobs");
        // They show each code but 4, which is about room, each answer, to adds
        // and to removes, and with the sky inside, lists that are turned, and a
        // vertex whose far edges only look like one ring.
        for (code, &count) in comparer.codes.iter().enumerate() {
            assert_eq!(count > 0, code != 4, "code {code}");
        }
        let answers = &comparer.answers;
        assert!(comparer.each_answer_under(0, 1), "{answers:?}");
        assert_eq!(comparer.pinched, [1, 0]);
        let given_inside = |answer: usize| answers[1].iter().any(|kind| kind[answer] > 0);
        assert!((0..8).all(given_inside), "{answers:?}");
        assert!(
            comparer.turned.iter().all(|&lists| lists > 0),
            "{:?}",
            comparer.turned
        );
    });
}

/// Jobs A, A with the sky inside, A with points, and B, with each length, and
/// with each byte changed. The room is enough for each V that its low byte makes.
#[test]
fn every_length_and_byte() {
    with_stack(|| {
        let mut comparer = comparer();
        let random = &mut Random::new(3);
        for name in ["a", "sky", "points", "b"] {
            let job = fs::read(format!("{STORED}/{name}.job")).expect("a stored job");
            let buffers = random.buffers(Rooms::exact(255, 13, 9));
            for at in 0..job.len() {
                comparer.compare("cut", name, &job[..at], &buffers);
                for change in 1..=255 {
                    let mut changed = job.clone();
                    changed[at] ^= change;
                    comparer.compare("byte", name, &changed, &buffers);
                }
            }
            let mut longer = job.clone();
            for _ in 0..40 {
                longer.push(random.bits() as u8);
                comparer.compare("longer", name, &longer, &buffers);
            }
        }
        comparer.report("every length and byte");
        // V 517 and 773 of A and of A with the sky inside; 263, 519 and 775 of B.
        assert_eq!(comparer.codes[4], 2 + 2 + 3);
    });
}

/// Job A without points and with them, with each low byte of word 7, and with
/// each other bit of it: run without points if it is 0, with points if it is 1
/// or 3, and else code 3.
#[test]
fn every_word_7() {
    with_stack(|| {
        let random = &mut Random::new(12);
        let low = 0..256;
        let high = (8..32).flat_map(|bit| [0, 1, 3].map(|low| 1 << bit | low));
        let words: Vec<u32> = low.chain(high).collect();
        for (name, run) in [("a", &[0][..]), ("points", &[1, 3])] {
            let mut comparer = comparer();
            let mut job = fs::read(format!("{STORED}/{name}.job")).expect("a stored job");
            for &word in &words {
                job[28..32].copy_from_slice(&word.to_le_bytes());
                let before = comparer.codes;
                let buffers = random.buffers(Rooms::exact(6, 6, 8));
                comparer.compare("word-7", name, &job, &buffers);
                let code = if run.contains(&word) { 0 } else { 3 };
                assert_eq!(comparer.codes[code], before[code] + 1, "{name} {word}");
            }
            comparer.report("every word 7");
        }
    });
}

/// Jobs with a row that is just flat, or just folded, with each byte of their
/// points changed.
#[test]
fn every_byte_of_points() {
    with_stack(|| {
        let mut comparer = comparer();
        let random = &mut Random::new(10);
        for name in ["flat", "folded"] {
            let bytes = fs::read(format!("{STORED}/{name}.job")).expect("a stored job");
            let job = Job::from_bytes(&bytes).expect("a layout");
            let buffers = random.buffers(job.rooms());
            for at in job.counts().points_at()..bytes.len() {
                for change in 1..=255 {
                    let mut changed = bytes.clone();
                    changed[at] ^= change;
                    comparer.compare("points", name, &changed, &buffers);
                }
            }
        }
        comparer.report("every byte of points");
        for code in [0, 13, 14, 15] {
            assert!(comparer.codes[code] >= 100, "{:?}", comparer.codes);
        }
    });
}

/// Job A's tetrahedron on corners of the grid, under either sky: the largest
/// volumes, and flat ones.
#[test]
fn every_corner_of_the_grid() {
    with_stack(|| {
        let mut comparer = comparer();
        let random = &mut Random::new(11);
        let table = tables::simplex();
        let end = |bit: usize| if bit & 1 == 1 { 1023 } else { -1023 };
        let corner = |bits: usize| [end(bits), end(bits >> 1), end(bits >> 2)];
        for bits in 0..1 << 12 {
            let corners = [0, 3, 6, 9].map(|at| corner(bits >> at));
            for sky in [0, 1] {
                let job = Job {
                    marks: growth::even_marks(&table, sky, 1 - sky),
                    points: Some([&[[0; 3]], &corners[..]].concat()),
                    ..table.job()
                };
                let buffers = random.buffers(job.rooms());
                comparer.compare("corners", "corners of the grid", &job.bytes(), &buffers);
            }
        }
        comparer.report("every corner of the grid");
        // A cube has 58 tetrahedra at its corners, each in 24 orders.
        assert_eq!(comparer.codes[0], 2 * 58 * 24);
        assert_eq!(comparer.codes[0] + comparer.codes[14], 2 << 12);
        assert_eq!(comparer.turned, [comparer.codes[0] / 2; 2]);
    });
}

/// Well laid out jobs with each count at a limit, or one beyond it.
#[test]
fn every_limit() {
    with_stack(|| {
        let mut comparer = comparer();
        let random = &mut Random::new(6);
        let mut compare = |job: &Job| {
            let kind = format!("{:?}", job.counts());
            comparer.compare("limit", &kind, &job.bytes(), &random.buffers(job.rooms()));
        };
        let mut fewer = tables::simplex();
        fewer.rows.pop();
        compare(&fewer.job());
        let tables = [
            tables::simplex(),
            tables::join_of_rings(23, 89),
            tables::join_of_rings(32, 64),
            tables::join_of_rings(3, 683),
        ];
        for table in &tables {
            let mut job = table.job();
            let [fewest, most] = [FEWEST_IDS as u32, MOST_IDS as u32];
            for ids in [fewest - 1, fewest, most - 1, most, most + 1] {
                job.ids = ids;
                compare(&job);
            }
            job.ids = most;
            let most = MOST_PROPOSALS as u32;
            for proposals in [1, most - 1, most, most + 1] {
                job.proposals = (0..proposals).map(|i| [i, 1 + i / 7 % 2]).collect();
                compare(&job);
            }
        }
        comparer.report("every limit");
        assert_eq!(comparer.codes[0], 1 + 3 * (2 + 3));
    });
}

/// The same of jobs with points: the largest block, and one more id or proposal
/// than a job may have.
#[test]
fn every_limit_with_points() {
    with_stack(|| {
        let mut comparer = comparer();
        let random = &mut Random::new(9);
        let block = placed::block([4, 8, 8], random);
        let mut job = block.job();
        job.marks = growth::grown_marks(&block.table, MOST_PROPOSALS, random);
        growth::propose(&mut job, MOST_PROPOSALS, 60, random);
        assert_eq!(job.rows.len(), MOST_ROWS);
        for ids in [block.table.ids, MOST_IDS as u32, MOST_IDS as u32 + 1] {
            job.ids = ids;
            job.points = Some(block.points.clone());
            let points = job.points.iter_mut();
            points.for_each(|points| points.resize(ids as usize, [-1023, 0, 1023]));
            for proposals in [0, MOST_PROPOSALS, MOST_PROPOSALS + 1] {
                let mut job = job.clone();
                job.proposals.resize(proposals, [0, 0]);
                let kind = format!("{:?}", job.counts());
                comparer.compare("limit", &kind, &job.bytes(), &random.buffers(job.rooms()));
            }
        }
        comparer.report("every limit with points");
        assert_eq!(comparer.codes[0], 2 * 2);
        assert_eq!(comparer.turned, [4, 0]);
    });
}

/// Job A, and the same with an id that no row holds, with each room for each
/// buffer. The work area needs 20 words for the neighbours, and for the tallies
/// two for each id.
#[test]
fn every_room() {
    with_stack(|| {
        for (name, ids, work) in [("a", 5, 30), ("v6", 6, 32)] {
            let mut comparer = comparer();
            let random = &mut Random::new(4);
            let job = fs::read(format!("{STORED}/{name}.job")).expect("a stored job");
            let exact = Rooms::exact(ids, 5, 7);
            let mut compare = |rooms: Rooms| {
                let buffers = random.buffers(rooms);
                comparer.compare("room", &format!("{rooms:?}"), &job, &buffers);
            };
            for room in 0..40 {
                compare(Rooms {
                    answers: room,
                    ..exact
                });
                compare(Rooms {
                    final_marks: room,
                    ..exact
                });
                compare(Rooms {
                    triangles: room,
                    ..exact
                });
                compare(Rooms {
                    work: room,
                    ..exact
                });
            }
            compare(Rooms::exact(0, 0, 0));
            comparer.report("every room");
            let short = 7 + 5 + 30 + work;
            assert_eq!(comparer.codes[4], short + 1, "{name}");
            assert_eq!(comparer.codes[0], 4 * 40 - short, "{name}");
        }
    });
}

/// The small tables, and some with points, each with its job.
fn small_jobs(random: &mut Random) -> Vec<(Table, Job)> {
    let without = tables::small(random);
    let mut all: Vec<(Table, Job)> = without.into_iter().map(|t| (t.clone(), t.job())).collect();
    for most in [5, 8, 11, 14] {
        let placed = placed::splits(most, random);
        all.push((placed.table.clone(), placed.job()));
    }
    all
}

/// Every marking of small tables.
#[test]
fn every_marking() {
    with_stack(|| {
        let mut comparer = comparer();
        let random = &mut Random::new(8);
        for (table, mut job) in small_jobs(random) {
            if table.rows.len() > 12 {
                continue;
            }
            let buffers = random.buffers(job.rooms());
            for marks in growth::every_marking(&table) {
                job.marks = marks;
                comparer.compare("marking", "every marking", &job.bytes(), &buffers);
            }
        }
        comparer.report("every marking");
        let [outside, inside] = comparer.unlike;
        assert!(outside > 0 && outside == inside, "{outside} {inside}");
    });
}

/// Every start of small tables, under either sky, and from each clean one every
/// single proposal.
#[test]
fn every_start_and_proposal() {
    with_stack(|| {
        let mut comparer = comparer();
        let random = &mut Random::new(5);
        for (table, job) in small_jobs(random) {
            compare_starts(&mut comparer, &table, &job, random);
        }
        comparer.report("every start and proposal");
        assert_eq!(comparer.unlike, [0, 0]);
        let pinched = comparer.pinched;
        assert!(pinched.iter().all(|&given| given > 200), "{pinched:?}");
        let turned = comparer.turned;
        assert!(turned.iter().all(|&lists| lists > 500), "{turned:?}");
    });
}

fn compare_starts(comparer: &mut Comparer, table: &Table, empty: &Job, random: &mut Random) {
    for marks in growth::every_start(table) {
        let mut job = empty.clone();
        job.marks = marks;
        let buffers = random.buffers(Rooms::exact(job.ids as usize, job.rows.len(), 1));
        let clean_before = comparer.codes[0];
        comparer.compare("start", "every start", &job.bytes(), &buffers);
        if comparer.codes[0] == clean_before {
            continue;
        }
        for row in 0..table.rows.len() as u32 {
            for kind in [1, 2] {
                job.proposals = vec![[row, kind]];
                comparer.compare("proposal", "every proposal", &job.bytes(), &buffers);
            }
        }
    }
}
