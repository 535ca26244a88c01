//! An engine for track jobs in ordinary safe Rust, to compare the proved engine
//! with. It shares no code with that one.

mod growth;
mod header;
mod listing;
mod points;
mod skin;
mod stages;
pub mod stl;
mod table;
mod tallies;

pub use listing::listing;
pub use stages::Stages;

use common::{Counts, Lent, Order, Outcome};
use points::Sides;
use stages::{Stage, Stopwatch, Unwatched, Watch};
use table::{Corners, Row, Table};
use tallies::Tallies;

/// A job code other than 0, and its place.
#[derive(Clone, Copy, Debug, PartialEq, Eq)]
struct Refusal {
    code: u32,
    place: u32,
}

impl Refusal {
    fn new(code: u32, place: usize) -> Refusal {
        Refusal {
            code,
            place: place as u32,
        }
    }
}

impl From<Refusal> for Outcome {
    fn from(refusal: Refusal) -> Outcome {
        Outcome::refused(refusal.code, refusal.place)
    }
}

/// Runs a job. The four buffers are left as document 01 says for the code.
pub fn run(job: &[u8], lent: Lent) -> Outcome {
    run_watched(job, lent, &mut Unwatched)
}

/// As `run`, and sets `stages` to the time that each stage took. A stage that
/// a refused job didn't finish counts as zero.
pub fn run_timed(job: &[u8], lent: Lent, stages: &mut Stages) -> Outcome {
    *stages = Stages::default();
    run_watched(job, lent, &mut Stopwatch::start(stages))
}

fn run_watched<W: Watch>(job: &[u8], lent: Lent, watch: &mut W) -> Outcome {
    match Ran::of(job, lent, watch) {
        Ok(ran) => ran.outcome,
        Err(refusal) => refusal.into(),
    }
}

/// An accepted run, with what it found in the job.
struct Ran<'a> {
    outcome: Outcome,
    counts: Counts,
    /// The front that the job needs of each.
    lent: Lent<'a>,
    found: Found,
}

struct Found {
    rows: Vec<Row>,
    corners: Corners,
    sides: Option<Sides>,
}

impl<'a> Ran<'a> {
    fn of<W: Watch>(job: &[u8], lent: Lent<'a>, watch: &mut W) -> Result<Ran<'a>, Refusal> {
        let counts = header::read_counts(job).map_err(|code| Refusal::new(code, 0))?;
        let mut lent = lent.front(counts.rooms()).ok_or(Refusal::new(4, 0))?;
        match run_laid_out(&counts, job, &mut lent, watch) {
            Ok((outcome, found)) => Ok(Ran {
                outcome,
                counts,
                lent,
                found,
            }),
            Err(refusal) => {
                lent.work.fill(0);
                Err(refusal)
            }
        }
    }
}

/// Codes 5 to 15, then the run. Writes nothing but `work` before the last
/// refusal is out of the way. Each buffer is as long as the counts need it.
fn run_laid_out<W: Watch>(
    counts: &Counts,
    job: &[u8],
    lent: &mut Lent,
    watch: &mut W,
) -> Result<(Outcome, Found), Refusal> {
    let (neighbours, tallies) = lent.work.split_at_mut(counts.tallies_at());
    let (neighbours, _) = neighbours.as_chunks_mut();
    let rows = table::read_rows(counts, job)?;
    watch.lap(Stage::HeaderAndRows);
    table::find_neighbours(&rows, neighbours)?;
    watch.lap(Stage::Neighbours);
    table::check_edges(&rows, neighbours)?;
    watch.lap(Stage::Edges);
    let corners = Corners::group(counts.ids, &rows);
    table::check_vertices(&rows, neighbours, &corners)?;
    watch.lap(Stage::Vertices);

    let table = Table {
        rows: &rows,
        neighbours,
        corners: &corners,
    };
    let start = &job[counts.marks_at()..counts.proposals_at()];
    skin::check_marks(&table, start)?;
    skin::check_clean(&table, start)?;
    watch.lap(Stage::Clean);
    let sides = match counts.points {
        Some(_) => Some(Sides::checked(&table, &job[counts.points_at()..])?),
        None => None,
    };
    watch.lap(Stage::Points);

    let marks = &mut *lent.final_marks;
    marks.copy_from_slice(start);
    let mut tallies = Tallies::count(&rows, marks, tallies);
    let proposals = &job[counts.proposals_at()..counts.points_at()];
    let taken = growth::run_proposals(&table, marks, &mut tallies, proposals, lent.answers);
    watch.lap(Stage::Proposals);
    let outward = counts.points == Some(Order::Outward);
    let listed = match sides.as_ref().filter(|_| outward) {
        Some(sides) => skin::list_outward(&table, marks, sides, lent.triangles),
        None => skin::list(&table, marks, |_, _| false, lent.triangles),
    };
    watch.lap(Stage::List);
    let found = Found {
        rows,
        corners,
        sides,
    };
    Ok((Outcome::done(taken, listed), found))
}
