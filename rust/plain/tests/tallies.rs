//! Tallies against a recount from the rows: after generated jobs, and after each
//! proposal of some.

use common::{MOST_PROPOSALS, MOST_ROWS};
use jobs::{cases, growth, tables, tallies, Job, Random};
use std::fs;

/// What a run leaves in a work area with anything in it: code 0 the tallies, the
/// codes from 5 on zero in their place and in that of the neighbour list, and
/// each of these nothing else; the codes up to 4 what there was.
#[test]
fn random_jobs() {
    let [mut untouched, mut zeroed, mut recounted, mut taken] = [0; 4];
    for number in 0..4000 {
        let case = cases::case(number, 5 + number as usize % 90);
        let lent = Random::new(!number).buffers(case.rooms);
        let mut left = lent.clone();
        let outcome = plain::run(&case.job, left.lend());
        let kind = format!("case {number}: {}", case.kind);
        if outcome.code <= 4 && outcome.code != 0 {
            assert!(left == lent, "{kind}");
            untouched += 1;
            continue;
        }
        let job = Job::from_bytes(&case.job).expect("a layout");
        let words = 4 * job.rows.len() + 2 * job.ids as usize;
        assert!(left.work[words..] == lent.work[words..], "{kind}");
        if outcome.code == 0 {
            let fault = tallies::fault(&job, &left.final_marks, &left.work);
            assert_eq!(fault, None, "{kind}");
            recounted += 1;
            taken += outcome.taken;
        } else {
            assert!(left.work[..words].iter().all(|&word| word == 0), "{kind}");
            zeroed += 1;
        }
    }
    let told = [untouched, zeroed, recounted, taken];
    assert!(untouched >= 200 && zeroed >= 1000, "{told:?}");
    assert!(recounted >= 1000 && taken >= 10_000, "{told:?}");
}

/// Tables of as many rows as there may be, from grown marks.
#[test]
fn large_jobs() {
    let random = &mut Random::new(1);
    for (family, table) in tables::each_family(MOST_ROWS, random) {
        let mut job = table.job();
        job.marks = growth::grown_marks(&table, MOST_PROPOSALS, random);
        growth::propose(&mut job, MOST_PROPOSALS, 60, random);
        let mut left = random.buffers(job.rooms());
        let outcome = plain::run(&job.bytes(), left.lend());
        assert!(outcome.code == 0 && outcome.taken > 0, "{family}");
        let fault = tallies::fault(&job, &left.final_marks, &left.work);
        assert_eq!(fault, None, "{family}");
    }
}

/// The stored jobs that show answers, and generated ones, cut after each of their
/// proposals.
#[test]
fn every_cut() {
    let folder = concat!(env!("CARGO_MANIFEST_DIR"), "/../../jobs");
    for (name, taken) in [
        ("a", 3),
        ("v6", 3),
        ("b", 5),
        ("adds", 8),
        ("removes", 7),
        ("inward", 7),
        ("road", 12),
    ] {
        let bytes = fs::read(format!("{folder}/{name}.job")).expect("a stored job");
        let job = Job::from_bytes(&bytes).expect("a layout");
        assert_eq!(tallies::of_each_cut(&job, plain::run), Ok(taken), "{name}");
    }
    let mut all_taken = 0;
    for (family, job) in tallies::jobs_to_cut() {
        all_taken += tallies::of_each_cut(&job, plain::run).expect(family);
    }
    assert!(all_taken >= 500, "{all_taken}");
}
