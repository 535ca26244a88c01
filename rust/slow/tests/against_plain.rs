//! The slow engine against `plain` on small jobs: outcome and every byte and
//! word of every buffer; the tallies against a recount, too. AGREE_JOBS sets the
//! number of random jobs and AGREE_SEED the number of the first.

use common::{Buffers, Outcome, Rooms};
use jobs::{cases, growth, outward, placed, tables, tallies, Job, Random};

/// Runs both on the same buffers, requires the same results, and returns them.
fn agree(kind: &str, job: &[u8], buffers: Buffers) -> (Outcome, Buffers) {
    let mut by_plain = buffers.clone();
    let mut by_slow = buffers;
    let plain = plain::run(job, by_plain.lend());
    let slow = slow::run(job, by_slow.lend());
    assert_eq!(plain, slow, "{kind}");
    assert!(by_plain == by_slow, "{kind}: buffers");
    if slow.code == 0 {
        let job = Job::from_bytes(job).expect("a layout");
        let fault = tallies::fault(&job, &by_slow.final_marks, &by_slow.work);
        assert_eq!(fault, None, "{kind}");
    }
    (slow, by_slow)
}

fn setting(name: &str, usual: u64) -> u64 {
    match std::env::var(name) {
        Ok(value) => value.parse().expect(name),
        Err(_) => usual,
    }
}

#[test]
fn random_jobs() {
    let mut codes = [0; 16];
    let mut answers = [0; 8];
    let mut orders = Orders::default();
    let count = setting("AGREE_JOBS", 6000);
    let first = setting("AGREE_SEED", 1);
    for number in (first..).take(count as usize) {
        let most = 5 + (number % 36) as usize;
        let case = cases::case(number, most);
        let buffers = Random::new(!number).buffers(case.rooms);
        let kind = format!("case {number} of {most}: {}", case.kind);
        let (outcome, left) = agree(&kind, &case.job, buffers.clone());
        codes[outcome.code as usize] += 1;
        if outcome.code == 0 {
            let job = Job::from_bytes(&case.job).expect("a layout");
            for &answer in &left.answers[..job.proposals.len()] {
                answers[answer as usize] += 1;
            }
        }
        if let Some(each) = outward::in_each_order(&case.job) {
            let each = each.map(|job| agree(&kind, &job, buffers.clone()));
            assert!(each.contains(&(outcome, left)), "{kind}");
            orders.add(&kind, &case.job, each);
        }
    }
    println!("codes {codes:?}\nanswers {answers:?}\n{orders:?}");
    if count >= 6000 {
        assert!(codes.iter().all(|&given| given >= 20), "{codes:?}");
        assert!(answers.iter().all(|&given| given >= 500), "{answers:?}");
        let often = [orders.differ[0], orders.differ[1], orders.same];
        assert!(often.iter().all(|&jobs| jobs >= 200), "{orders:?}");
    }
}

/// How many accepted jobs with points are listed otherwise when outward is asked
/// for, with the sky outside and with it inside, and how many are not.
#[derive(Debug, Default)]
struct Orders {
    differ: [usize; 2],
    same: usize,
}

impl Orders {
    /// What a job that says it has points came to in each order.
    fn add(&mut self, kind: &str, job: &[u8], [outward, rising]: [(Outcome, Buffers); 2]) {
        assert_eq!(outward.0, rising.0, "{kind}");
        let (outcome, outward, rising) = (outward.0, outward.1, rising.1);
        if outcome.code != 0 {
            assert_eq!(outward, rising, "{kind}");
            return;
        }
        let job = &Job::from_bytes(job).expect("a layout");
        let [by_ids, by_sides] = [&rising, &outward].map(|left| {
            let listed = 3 * outcome.triangles as usize;
            let (triangles, behind) = left.triangles.split_at(listed);
            (triangles.as_chunks::<3>().0, behind)
        });
        assert_eq!(by_ids.1, by_sides.1, "{kind}");
        assert_eq!(rising.answers, outward.answers, "{kind}");
        assert_eq!(rising.final_marks, outward.final_marks, "{kind}");
        assert_eq!(rising.work, outward.work, "{kind}");
        let fault = outward::fault(job, &rising.final_marks, by_ids.0, by_sides.0);
        assert_eq!(fault, None, "{kind}");
        if by_ids.0 == by_sides.0 {
            self.same += 1;
        } else {
            self.differ[usize::from(job.sky() == Some(1))] += 1;
        }
    }
}

/// Every start of small tables, under either sky.
#[test]
fn every_start() {
    for table in tables::small(&mut Random::new(5)) {
        let mut job = table.job();
        for marks in growth::every_start(&table) {
            job.marks = marks;
            agree("every start", &job.bytes(), Buffers::zeros(job.rooms()));
        }
    }
}

/// The same with points, outward.
#[test]
fn every_start_with_points() {
    for most in [8, 11] {
        let placed = placed::splits(most, &mut Random::new(6));
        let mut job = placed.job();
        for marks in growth::every_start(&placed.table) {
            job.marks = marks;
            let lent = Buffers::zeros(job.rooms());
            agree("every start, outward", &job.bytes(), lent);
        }
    }
}

/// Every marking of the smallest tables: outer rows with unlike marks get code
/// 11, and the place of the lowest that differs from the lowest.
#[test]
fn every_marking() {
    let mut unlike = 0;
    for table in tables::small(&mut Random::new(8)) {
        if table.rows.len() > 12 {
            continue;
        }
        let mut job = table.job();
        let outer = |r: &usize| job.rows[*r].contains(&0);
        let outer: Vec<usize> = (0..job.rows.len()).filter(outer).collect();
        for marks in growth::every_marking(&table) {
            job.marks = marks;
            let lent = Buffers::zeros(job.rooms());
            let (outcome, _) = agree("every marking", &job.bytes(), lent);
            let differs = |r: &&usize| job.marks[**r] != job.marks[outer[0]];
            match outer.iter().find(differs) {
                Some(&place) => {
                    assert_eq!(outcome, Outcome::refused(11, place as u32));
                    unlike += 1;
                }
                None => assert_ne!(outcome.code, 11),
            }
        }
    }
    assert!(unlike > 1_000, "{unlike}");
}

/// Each byte of small stored jobs changed, and each length.
#[test]
fn every_byte_and_length() {
    for name in ["a", "sky", "b", "points", "outward", "flat", "folded"] {
        let folder = concat!(env!("CARGO_MANIFEST_DIR"), "/../../jobs");
        let bytes = std::fs::read(format!("{folder}/{name}.job")).expect("a stored job");
        let buffers = Random::new(6).buffers(Rooms::exact(255, 13, 9));
        for at in 0..bytes.len() {
            for change in [1, 2, 3, 4, 8, 128, 255] {
                let mut changed = bytes.clone();
                changed[at] ^= change;
                agree("a byte changed", &changed, buffers.clone());
            }
            agree("cut", &bytes[..at], buffers.clone());
        }
        let mut longer = bytes.clone();
        for _ in 0..20 {
            longer.push(0);
            agree("extended", &longer, buffers.clone());
        }
    }
}

/// On a closed table with a clean skin the five cases take a proposal exactly
/// if the skin is clean after it, and refuse it with 5 and f. Under either sky
/// each f must come with each answer it can have, and no skin triangle holds
/// id 0.
#[test]
fn five_cases_keep_the_skin_clean() {
    let random = &mut Random::new(7);
    let mut seen = [[[[0; 2]; 5]; 2]; 2];
    for number in 0..2000 {
        let (_, table) = tables::any(12 + number / 20, random);
        let mut job = table.job();
        let sky = random.pick(&[0, 1]);
        job.marks = growth::even_marks(&table, sky, random.pick(&[0, 1]));
        let adds = random.pick(&[20, 50, 80]);
        growth::propose(&mut job, 40, adds, random);
        let lent = Buffers::zeros(job.rooms());
        let (outcome, buffers) = agree("five cases", &job.bytes(), lent);
        assert_eq!(outcome.code, 0);
        let mut marks = job.marks.clone();
        for (&[row, kind], &answer) in job.proposals.iter().zip(&buffers.answers) {
            if (1..=4).contains(&answer) {
                continue;
            }
            let row = row as usize;
            let f = slow::triangles_on_skin(&job.rows, &marks, row);
            seen[usize::from(sky)][kind as usize - 1][f][usize::from(answer != 0)] += 1;
            marks[row] ^= 1;
            let skin = slow::skin(&job.rows, &marks);
            assert!(!skin.as_flattened().contains(&0));
            let clean = slow::is_clean(job.ids, &skin);
            assert_eq!(usize::from(answer), if clean { 0 } else { 5 + f });
            if !clean {
                marks[row] ^= 1;
            }
        }
    }
    println!(
        "the sky outside, then inside; add, then remove: taken and refused for each f: {seen:?}"
    );
    for by_f in seen.as_flattened() {
        for (f, &[taken, refused]) in by_f.iter().enumerate() {
            assert!(taken >= 10, "{seen:?}");
            assert_eq!(refused >= 10, f <= 2, "{seen:?}");
        }
    }
}
