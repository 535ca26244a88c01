//! The STL calls of the proved engine against those of the ordinary engines, on
//! copies of what is lent: what each returns, and every byte, number and word that
//! it leaves. They return what all gave and left, and panic if two disagree.

use common::stl::{Read, Wrote};
use common::{Buffers, Lent, Outcome};
use std::fmt::{self, Debug, Formatter};

pub fn write_facets(units: &[i16], lent: &[u8]) -> (Wrote, Vec<u8>) {
    let by = |call: fn(&[i16], &mut [u8]) -> Wrote| {
        let mut left = lent.to_vec();
        (call(units, &mut left), left)
    };
    let track = by(track::write_facets);
    same("plain", Front(units), &track, &by(plain::stl::write_facets));
    same("slow", Front(units), &track, &by(slow::stl::write_facets));
    track
}

pub fn read_file(file: &[u8], lent: &[i16]) -> (Read, Vec<i16>) {
    let by = |call: fn(&[u8], &mut [i16]) -> Read| {
        let mut left = lent.to_vec();
        (call(file, &mut left), left)
    };
    let track = by(track::read_file);
    same("plain", Front(file), &track, &by(plain::stl::read_file));
    same("slow", Front(file), &track, &by(slow::stl::read_file));
    track
}

/// What is lent to the job's writer, and left by it.
#[derive(Clone, Debug, PartialEq)]
pub struct Skin {
    pub buffers: Buffers,
    pub file: Vec<u8>,
}

/// Against `plain`, and against `slow` where the job is small. The four buffers
/// must be as the proved run leaves them.
pub fn write_skin(kind: &str, job: &[u8], lent: &Skin) -> (Outcome, Skin) {
    /// Bytes of a job that does not keep `slow` long.
    const SMALL: usize = 2_000;
    let by = |call: fn(&[u8], Lent, &mut [u8]) -> Outcome| {
        let mut left = lent.clone();
        let outcome = call(job, left.buffers.lend(), &mut left.file);
        (outcome, left)
    };
    let track = by(track::write_skin);
    same("plain", kind, &track, &by(plain::stl::write_skin));
    if job.len() <= SMALL {
        same("slow", kind, &track, &by(slow::stl::write_skin));
    }
    let mut run = lent.buffers.clone();
    track::run(job, run.lend());
    assert!(track.1.buffers == run, "{kind}: not as the run leaves them");
    track
}

/// What a call was given, for messages: its length, and its front.
struct Front<'a, T>(&'a [T]);

impl<T: Debug> Debug for Front<'_, T> {
    fn fmt(&self, to: &mut Formatter) -> fmt::Result {
        let front = &self.0[..self.0.len().min(200)];
        write!(to, "{} elements, {front:?}", self.0.len())
    }
}

/// Panics if the two gave or left something else.
fn same<O: PartialEq + Debug, L: PartialEq + Debug>(
    engine: &str,
    kind: impl Debug,
    track: &(O, L),
    other: &(O, L),
) {
    assert_eq!(track.0, other.0, "track and {engine}: {kind:?}");
    let left = track.1 == other.1;
    assert!(left, "track and {engine} leave something else: {kind:?}");
}
