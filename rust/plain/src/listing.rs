//! The lines of the listing program.

use crate::header::read_counts;
use crate::run;
use common::{Buffers, Rooms, MOST_IDS, MOST_PROPOSALS, MOST_ROWS};
use std::fmt::Write;

/// What the listing program prints for a job.
pub fn listing(job: &[u8]) -> String {
    let mut buffers = Buffers::zeros(Rooms::exact(MOST_IDS, MOST_ROWS, MOST_PROPOSALS));
    let outcome = run(job, buffers.lend());
    if outcome.code != 0 {
        return format!("refused {} {}\n", outcome.code, outcome.place);
    }
    let proposals = read_counts(job).map_or(0, |counts| counts.proposals);
    let mut lines = format!("done {proposals} {} {}\n", outcome.taken, outcome.triangles);
    for (number, answer) in buffers.answers[..proposals].iter().enumerate() {
        let _ = writeln!(lines, "p {number} {answer}");
    }
    let listed = 3 * outcome.triangles as usize;
    for ids in buffers.triangles[..listed].chunks_exact(3) {
        let _ = writeln!(lines, "t {} {} {}", ids[0], ids[1], ids[2]);
    }
    lines
}
