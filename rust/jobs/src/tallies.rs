//! Corner tallies recounted: what a run leaves behind the neighbour list.

use crate::{growth, tables, Job, Random};
use common::{Buffers, Lent, Outcome};

/// What is wrong with the tallies in the work area that a run of this job left,
/// beside those of its rows and these marks.
pub fn fault(job: &Job, marks: &[u8], work: &[u32]) -> Option<String> {
    let tally = |id: u32, counted: &[u8]| {
        let rows = job.rows.iter().zip(marks);
        let holding = rows.filter(|(row, mark)| row.contains(&id) && counted.contains(mark));
        holding.count() as u32
    };
    let inside = (0..job.ids).map(|id| tally(id, &[1]));
    let all = (0..job.ids).map(|id| tally(id, &[0, 1]));
    let mut tallies = (4 * job.rows.len()..).zip(inside.chain(all));
    let (at, tally) = tallies.find(|&(at, tally)| work.get(at) != Some(&tally))?;
    let left = work.get(at);
    Some(format!("word {at} of work is {left:?}, the tally {tally}"))
}

/// How many proposals of an accepted job are taken; or what is wrong with the
/// tallies after the first k of them, for some k, by the marks that the taken
/// ones make.
pub fn of_each_cut(
    job: &Job,
    mut run: impl FnMut(&[u8], Lent) -> Outcome,
) -> Result<usize, String> {
    let mut marks = job.marks.clone();
    let mut taken = 0;
    for k in 0..=job.proposals.len() {
        let cut = Job {
            proposals: job.proposals[..k].to_vec(),
            ..job.clone()
        };
        let mut left = Buffers::filled(cut.rooms(), 9);
        let outcome = run(&cut.bytes(), left.lend());
        assert_eq!(outcome.code, 0);
        if let (Some(&[row, kind]), Some(0)) = (cut.proposals.last(), left.answers.last()) {
            marks[row as usize] = u8::from(kind == Job::ADD);
            taken += 1;
        }
        if let Some(fault) = fault(&cut, &marks, &left.work) {
            return Err(format!("after {k} proposals {fault}"));
        }
    }
    Ok(taken)
}

/// Jobs to be looked at after each proposal, with the families of their tables.
pub fn jobs_to_cut() -> impl Iterator<Item = (&'static str, Job)> {
    (0..40).map(|number| {
        let random = &mut Random::new(number);
        let (family, table) = tables::any(100, random);
        let mut job = table.job();
        job.marks = growth::even_marks(&table, random.pick(&[0, 1]), random.pick(&[0, 1]));
        growth::propose(&mut job, 60, random.pick(&[20, 50, 80]), random);
        (family, job)
    })
}

#[cfg(test)]
mod tests {
    use super::*;
    use crate::tables;

    /// Job A with row 4 inside: its neighbour list, and then its tallies.
    #[test]
    fn each_fault_is_told() {
        let mut job = tables::simplex().job();
        job.marks[4] = 1;
        let neighbours = [4, 3, 2, 1, 4, 3, 2, 0, 4, 3, 1, 0, 4, 2, 1, 0, 3, 2, 1, 0];
        let work = [&neighbours[..], &[0, 1, 1, 1, 1], &[4; 5]].concat();
        let told = |work: &[u32]| fault(&job, &job.marks, work);
        assert_eq!(told(&work), None);
        assert_eq!(told(&[&work[..], &[7]].concat()), None);
        let wrong = "word 29 of work is None, the tally 4";
        assert_eq!(told(&work[..29]).unwrap(), wrong);
        for at in 20..30 {
            let mut changed = work.clone();
            changed[at] += 1;
            let wrong = format!(
                "word {at} of work is Some({}), the tally {}",
                changed[at], work[at]
            );
            assert_eq!(told(&changed), Some(wrong));
        }
        // By these marks nothing is inside.
        let wrong = "word 21 of work is Some(1), the tally 0";
        assert_eq!(fault(&job, &[0; 5], &work).unwrap(), wrong);
    }

    /// A run that leaves the tallies of the start, and one that leaves those of
    /// the end.
    #[test]
    fn each_cut_is_looked_at() {
        let mut job = tables::simplex().job();
        let (add, remove) = ([4, Job::ADD], [4, Job::REMOVE]);
        job.proposals = vec![add, add, remove, add];
        assert_eq!(of_each_cut(&job, plain::run), Ok(3));
        for (stale, wrong) in [
            (
                [0; 5],
                "after 1 proposals word 21 of work is Some(0), the tally 1",
            ),
            (
                [0, 1, 1, 1, 1],
                "after 0 proposals word 21 of work is Some(1), the tally 0",
            ),
        ] {
            let run = |job: &[u8], mut lent: Lent| {
                let outcome = plain::run(job, lent.lend());
                lent.work[20..25].copy_from_slice(&stale);
                outcome
            };
            assert_eq!(of_each_cut(&job, run), Err(wrong.to_string()));
        }
    }
}
