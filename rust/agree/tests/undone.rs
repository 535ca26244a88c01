//! Demand 3 on the compiled engine: what a run leaves, run backwards as a job
//! and cut short as a job; and the tallies that each of these runs leaves.
//! AGREE_JOBS and AGREE_SEED as in `agree`.

use agree::{setting, with_stack};
use common::{Buffers, Outcome};
use jobs::{cases, tallies, Job, Random};
use std::fs;

/// What a run gave and left.
struct Ran {
    outcome: Outcome,
    answers: Vec<u8>,
    marks: Vec<u8>,
    triangles: Vec<u32>,
    work: Vec<u32>,
}

fn ran(job: &Job) -> Ran {
    let mut buffers = Buffers::filled(job.rooms(), 9);
    let outcome = track::run(&job.bytes(), buffers.lend());
    if outcome.code == 0 {
        let fault = tallies::fault(job, &buffers.final_marks, &buffers.work);
        assert_eq!(fault, None);
    }
    Ran {
        outcome,
        answers: buffers.answers,
        marks: buffers.final_marks,
        triangles: buffers.triangles,
        work: buffers.work,
    }
}

/// The same rows and points with the final marks, and the taken proposals
/// backwards with add and remove exchanged.
fn undoing(job: &Job, ran: &Ran) -> Job {
    let taken = job.proposals.iter().zip(&ran.answers).rev();
    Job {
        marks: ran.marks.clone(),
        proposals: taken
            .filter(|(_, &answer)| answer == 0)
            .map(|(&[row, kind], _)| [row, Job::ADD + Job::REMOVE - kind])
            .collect(),
        ..job.clone()
    }
}

fn undone(job: &Job, run: &Ran) {
    let back = undoing(job, run);
    assert_eq!(back.proposals.len(), run.outcome.taken as usize);
    let again = ran(&back);
    assert_eq!(
        [again.outcome.code, again.outcome.taken],
        [0, run.outcome.taken]
    );
    assert!(again.answers.iter().all(|&answer| answer == 0));
    assert_eq!(again.marks, job.marks);
}

/// The first k proposals alone, and then the others from the marks that those
/// left, are the whole.
fn cut(job: &Job, run: &Ran, k: usize) {
    let (first, later) = job.proposals.split_at(k);
    let stopped = ran(&Job {
        proposals: first.to_vec(),
        ..job.clone()
    });
    assert_eq!(stopped.outcome.code, 0);
    assert_eq!(stopped.answers, run.answers[..k]);
    let resumed = ran(&Job {
        marks: stopped.marks,
        proposals: later.to_vec(),
        ..job.clone()
    });
    assert_eq!(resumed.outcome.code, 0);
    assert_eq!(resumed.answers, run.answers[k..]);
    assert_eq!(resumed.marks, run.marks);
    assert_eq!(resumed.triangles, run.triangles);
    assert_eq!(resumed.work, run.work);
}

fn every_case() {
    let count = setting("AGREE_JOBS", 20_000) / 4;
    let first = setting("AGREE_SEED", 1);
    let [mut accepted, mut with_points, mut taken] = [0, 0, 0];
    for number in (first..).take(count as usize) {
        let case = cases::case(number, 5 + (number % 90) as usize);
        // No room is lent for counts beyond their limits.
        let laid_out = Job::from_bytes(&case.job);
        let Some(job) = laid_out.filter(|job| job.counts().within_limits()) else {
            continue;
        };
        let run = ran(&job);
        if run.outcome.code != 0 {
            continue;
        }
        undone(&job, &run);
        cut(
            &job,
            &run,
            Random::new(number).below(job.proposals.len() + 1),
        );
        accepted += 1;
        with_points += u32::from(job.points.is_some());
        taken += run.outcome.taken;
    }
    println!(
        "{accepted} jobs run backwards and cut, {with_points} of them with points, \
         {taken} proposals taken back"
    );
    if count >= 5_000 {
        let enough = accepted >= 1_000 && with_points >= 300 && taken >= 10_000;
        assert!(enough, "{accepted} {with_points} {taken}");
    }
}

#[test]
fn backwards_and_cut() {
    with_stack(every_case);
}

/// The tallies after each proposal of stored jobs, and of generated ones.
#[test]
fn every_cut() {
    with_stack(|| {
        for (name, taken) in [("b", 5), ("adds", 8), ("removes", 7), ("inward", 7)] {
            let folder = concat!(env!("CARGO_MANIFEST_DIR"), "/../../jobs");
            let bytes = fs::read(format!("{folder}/{name}.job")).expect("a stored job");
            let job = Job::from_bytes(&bytes).expect("a layout");
            assert_eq!(tallies::of_each_cut(&job, track::run), Ok(taken), "{name}");
        }
        let mut all_taken = 0;
        for (family, job) in tallies::jobs_to_cut() {
            all_taken += tallies::of_each_cut(&job, track::run).expect(family);
        }
        assert!(all_taken >= 500, "{all_taken}");
    });
}
