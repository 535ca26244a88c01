//! The engine's own functions, linked into this program.

use common::Lent;

// Each slice of a function is a pointer and a length here; `outcome` is as many
// words as what the wrapper returns.
extern "C" {
    fn track_run(
        job: *const u8,
        job_len: usize,
        answers: *mut u8,
        answers_len: usize,
        final_marks: *mut u8,
        final_marks_len: usize,
        triangles: *mut u32,
        triangles_len: usize,
        work: *mut u32,
        work_len: usize,
        outcome: *mut u32,
    );

    fn track_stl_write(
        units: *const i16,
        units_len: usize,
        file: *mut u8,
        file_len: usize,
        outcome: *mut u32,
    );

    fn track_stl_read(
        file: *const u8,
        file_len: usize,
        units: *mut i16,
        units_len: usize,
        outcome: *mut u32,
    );

    fn track_stl_run(
        job: *const u8,
        job_len: usize,
        answers: *mut u8,
        answers_len: usize,
        final_marks: *mut u8,
        final_marks_len: usize,
        triangles: *mut u32,
        triangles_len: usize,
        work: *mut u32,
        work_len: usize,
        file: *mut u8,
        file_len: usize,
        outcome: *mut u32,
    );
}

// SAFETY of each call: each pointer and length are those of a slice borrowed for
// the whole call, the mutable ones don't overlap, and `outcome` has as many words
// as the function writes. The engine keeps no pointer and is proved to stay within
// the lengths.

pub(crate) fn run(job: &[u8], lent: Lent) -> [u32; 4] {
    let Lent {
        answers,
        final_marks,
        triangles,
        work,
    } = lent;
    let mut outcome = [0; 4];
    // SAFETY: as above.
    unsafe {
        track_run(
            job.as_ptr(),
            job.len(),
            answers.as_mut_ptr(),
            answers.len(),
            final_marks.as_mut_ptr(),
            final_marks.len(),
            triangles.as_mut_ptr(),
            triangles.len(),
            work.as_mut_ptr(),
            work.len(),
            outcome.as_mut_ptr(),
        );
    }
    outcome
}

pub(crate) fn stl_write(units: &[i16], file: &mut [u8]) -> [u32; 2] {
    let mut outcome = [0; 2];
    // SAFETY: as above.
    unsafe {
        track_stl_write(
            units.as_ptr(),
            units.len(),
            file.as_mut_ptr(),
            file.len(),
            outcome.as_mut_ptr(),
        );
    }
    outcome
}

pub(crate) fn stl_read(file: &[u8], units: &mut [i16]) -> [u32; 4] {
    let mut outcome = [0; 4];
    // SAFETY: as above.
    unsafe {
        track_stl_read(
            file.as_ptr(),
            file.len(),
            units.as_mut_ptr(),
            units.len(),
            outcome.as_mut_ptr(),
        );
    }
    outcome
}

pub(crate) fn stl_run(job: &[u8], lent: Lent, file: &mut [u8]) -> [u32; 4] {
    let Lent {
        answers,
        final_marks,
        triangles,
        work,
    } = lent;
    let mut outcome = [0; 4];
    // SAFETY: as above.
    unsafe {
        track_stl_run(
            job.as_ptr(),
            job.len(),
            answers.as_mut_ptr(),
            answers.len(),
            final_marks.as_mut_ptr(),
            final_marks.len(),
            triangles.as_mut_ptr(),
            triangles.len(),
            work.as_mut_ptr(),
            work.len(),
            file.as_mut_ptr(),
            file.len(),
            outcome.as_mut_ptr(),
        );
    }
    outcome
}
