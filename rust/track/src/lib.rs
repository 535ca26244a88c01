//! The proved engine for track jobs, called from Rust: [`run`] runs a job,
//! [`write_skin`] writes its skin as STL, too, and [`write_facets`] and
//! [`read_file`] write and read such files.
//!
//! To run a job a caller lends four buffers, which for a job of V ids, N rows and
//! P proposals must be at least this long ([`Rooms::exact`]):
//!
//! | buffer | length | what code 0 leaves at its front |
//! |---|---|---|
//! | `answers` | P bytes | the answers, in the order of the proposals |
//! | `final_marks` | N bytes | the marks after the last proposal |
//! | `triangles` | 6N words | the skin, three ids for each triangle |
//! | `work` | 4N + 2V words | the neighbour list: word 4r + c is the row across the triangle of row r that leaves out its corner c; and the tallies: word 4N + v is how many inside rows hold id v, after the last proposal, and word 4N + V + v how many rows do |
//!
//! The skin is listed by inside row, then by the left-out corner, and has as
//! many triangles as the outcome says. In a job with points each is listed
//! outward: the inside lies behind it. In one without points, and where word 7
//! is 3, the ids of each rise instead. Every other code refuses the job: it
//! changes nothing in the first three buffers; codes 1 to 4 don't touch `work`,
//! and codes 5 to 15 leave zero in its first 4N + 2V words. What stands behind
//! these bytes and words is never changed. `include/track.h` has the layout of a
//! job, and what each code and each answer means.
//!
//! ```
//! use track::{Buffers, Outcome, Rooms, MOST_IDS, MOST_PROPOSALS, MOST_ROWS};
//!
//! let folder = concat!(env!("CARGO_MANIFEST_DIR"), "/../../jobs/");
//! let job = std::fs::read(format!("{folder}a.job"))?;
//!
//! // Five ids, five rows and seven proposals.
//! let mut lent = Buffers::zeros(Rooms::exact(5, 5, 7));
//! let outcome = track::run(&job, lent.lend());
//! assert_eq!(outcome, Outcome { code: 0, place: 0, taken: 3, triangles: 4 });
//! assert_eq!(lent.answers, [0, 4, 3, 0, 2, 1, 0]);
//! assert_eq!(lent.final_marks, [0, 0, 0, 0, 1]);
//! assert_eq!(lent.triangles[..12], [2, 3, 4, 1, 3, 4, 1, 2, 4, 1, 2, 3]);
//! // Across the triangles of row 4 are rows 3 to 0. It alone is inside, so one
//! // inside row holds each of its ids; four rows hold each id.
//! assert_eq!(lent.work[16..20], [3, 2, 1, 0]);
//! assert_eq!(lent.work[20..25], [0, 1, 1, 1, 1]);
//! assert_eq!(lent.work[25..], [4, 4, 4, 4, 4]);
//!
//! // In job B one row is refused at f = 0 (answer 5), and one at f = 2 (7).
//! let job = std::fs::read(format!("{folder}b.job"))?;
//! let mut lent = Buffers::zeros(Rooms::exact(7, 12, 7));
//! let outcome = track::run(&job, lent.lend());
//! assert_eq!(outcome, Outcome { code: 0, place: 0, taken: 5, triangles: 8 });
//! assert_eq!(lent.answers, [0, 5, 0, 0, 0, 0, 7]);
//! assert_eq!(lent.work[48..55], [0, 3, 3, 1, 1, 2, 2]);
//! assert_eq!(lent.work[55..], [8, 8, 8, 6, 6, 6, 6]);
//!
//! // The first job's table and proposals with points, listed outward; and with
//! // word 7 made 3, whose low byte is byte 28, by rising ids.
//! let mut job = std::fs::read(format!("{folder}outward.job"))?;
//! let mut lent = Buffers::zeros(Rooms::exact(5, 5, 7));
//! let outcome = track::run(&job, lent.lend());
//! assert_eq!(outcome, Outcome { code: 0, place: 0, taken: 3, triangles: 4 });
//! assert_eq!(lent.triangles[..12], [2, 4, 3, 1, 3, 4, 1, 4, 2, 1, 2, 3]);
//! job[28] = 3;
//! assert_eq!(track::run(&job, lent.lend()), outcome);
//! assert_eq!(lent.triangles[..12], [2, 3, 4, 1, 3, 4, 1, 2, 4, 1, 2, 3]);
//!
//! // Enough for every job. Row 3 has a mark that is neither 0 nor 1.
//! let most = Rooms::exact(MOST_IDS, MOST_ROWS, MOST_PROPOSALS);
//! let mut lent = Buffers::filled(most, 9);
//! let job = std::fs::read(format!("{folder}d.job"))?;
//! let outcome = track::run(&job, lent.lend());
//! assert_eq!(outcome, Outcome { code: 10, place: 3, taken: 0, triangles: 0 });
//! assert_eq!(lent.answers, [9; MOST_PROPOSALS]);
//! assert_eq!(lent.work[..30], [0; 30]);
//! assert!(lent.work[30..].iter().all(|&word| word == 9));
//! # Ok::<(), std::io::Error>(())
//! ```

#[cfg_attr(linked, path = "linked.rs")]
#[cfg_attr(not(linked), path = "emulated.rs")]
mod engine;

use common::stl::{Read, Wrote};
pub use common::{stl, Buffers, Lent, Outcome, Rooms, MOST_IDS, MOST_PROPOSALS, MOST_ROWS};

/// Whether the engine runs under an emulator, so that its times say nothing.
pub const EMULATED: bool = cfg!(not(linked));

/// Runs a job. Any buffer may be empty. The engine takes no heap, and of stack
/// at most what `include/track.h` states (`TRACK_STACK`).
pub fn run(job: &[u8], lent: Lent) -> Outcome {
    outcome(engine::run(job, lent))
}

/// Writes a list of units, nine for each facet, as a binary STL file to the front
/// of `file`: [`stl::file_len`] bytes. A refusal leaves `file` as it was:
///
/// | code | given when | place |
/// |---|---|---|
/// | 1 | the list is not of whole facets, or of over 4,096 | 0 |
/// | 2 | a number is not from -1023 to 1023 | the index of the first |
/// | 3 | `file` is too short | 0 |
pub fn write_facets(units: &[i16], file: &mut [u8]) -> Wrote {
    let [code, place] = engine::stl_write(units, file);
    Wrote { code, place }
}

/// Reads a file that [`write_facets`] or [`write_skin`] has written, or one with
/// the same bytes, to the front of `units`: nine for each facet. A refusal leaves
/// `units` as they were:
///
/// | code | given when | place |
/// |---|---|---|
/// | 1 | under 84 bytes, over 4,096 facets, or a length that is not theirs | 0 |
/// | 2 | another header | 0 |
/// | 3 | `units` are too short | 0 |
/// | 4 | a normal or a u16 that is not zero | the facet |
/// | 5 | a number off the grid, which is handed back as its bits | the facet |
///
/// Of 4 and 5 the first facet at fault decides; in one facet 4 comes first, and
/// then the first number.
///
/// ```
/// use track::stl::{file_len, Read, Wrote};
///
/// // One facet. Units are sixteenths of a metre.
/// let units = [0, 0, 0, 16, 0, 0, 0, -1023, 8];
/// let mut file = [9; file_len(1) + 1];
/// assert_eq!(track::write_facets(&units, &mut file), Wrote { code: 0, place: 0 });
/// assert_eq!(file[..10], *b"track skin");
/// assert_eq!(file[80..84], [1, 0, 0, 0]);
/// assert_eq!(file[108..112], 1f32.to_le_bytes());
/// assert_eq!(file[124..128], (-63.9375f32).to_le_bytes());
/// assert_eq!(file[134], 9);
///
/// let file = &mut file[..134];
/// let mut back = [9; 10];
/// let read = Read { code: 0, place: 0, facets: 1, bits: 0 };
/// assert_eq!(track::read_file(file, &mut back), read);
/// assert_eq!(back[..9], units);
/// assert_eq!(back[9], 9);
///
/// // Half a unit is between two points of the grid.
/// file[108..112].copy_from_slice(&(1f32 / 32.0).to_le_bytes());
/// let read = track::read_file(file, &mut back);
/// assert_eq!((read.code, read.place, read.facets), (5, 0, 0));
/// assert_eq!(f32::from_bits(read.bits), 1.0 / 32.0);
/// assert_eq!(back[..9], units);
/// ```
pub fn read_file(file: &[u8], units: &mut [i16]) -> Read {
    let [code, place, facets, bits] = engine::stl_read(file, units);
    Read {
        code,
        place,
        facets,
        bits,
    }
}

/// Runs a job as [`run`] does, and writes its skin as a binary STL file to the
/// front of `file`: [`stl::file_len`] bytes for the triangles of the outcome, in
/// the order of the skin list. Its facets are outward, also where word 7 is 3 and
/// the ids in `triangles` rise. The four buffers are left as [`run`] leaves them,
/// with code 20 and 21, too, where the job was run and the file is left as it was:
///
/// | code | given when |
/// |---|---|
/// | 1 to 15 | the job is refused |
/// | 20 | it has no points |
/// | 21 | `file` is too short |
///
/// ```
/// use track::{stl, Buffers, Outcome, Rooms};
///
/// let folder = concat!(env!("CARGO_MANIFEST_DIR"), "/../../jobs/");
/// let job = std::fs::read(format!("{folder}outward.job"))?;
/// let mut lent = Buffers::zeros(Rooms::exact(5, 5, 7));
/// let mut file = vec![9; stl::file_len(4)];
/// let outcome = track::write_skin(&job, lent.lend(), &mut file);
/// assert_eq!(outcome, Outcome { code: 0, place: 0, taken: 3, triangles: 4 });
///
/// // The first triangle is 2 4 3.
/// assert_eq!(lent.triangles[..3], [2, 4, 3]);
/// let mut units = [0; 9 * 4];
/// assert_eq!(track::read_file(&file, &mut units).facets, 4);
/// let [two, four, three] = [[16, -16, -16], [-16, -16, 16], [-16, 16, -16]];
/// assert_eq!(units[..9], *[two, four, three].as_flattened());
///
/// // Without points.
/// let job = std::fs::read(format!("{folder}a.job"))?;
/// let outcome = track::write_skin(&job, lent.lend(), &mut file);
/// assert_eq!(outcome, Outcome { code: 20, place: 0, taken: 0, triangles: 0 });
/// assert_eq!(lent.triangles[..3], [2, 3, 4]);
/// # Ok::<(), std::io::Error>(())
/// ```
pub fn write_skin(job: &[u8], lent: Lent, file: &mut [u8]) -> Outcome {
    outcome(engine::stl_run(job, lent, file))
}

fn outcome([code, place, taken, triangles]: [u32; 4]) -> Outcome {
    Outcome {
        code,
        place,
        taken,
        triangles,
    }
}
