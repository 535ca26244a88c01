//! The eight header words: codes 1 to 3.

use common::{Counts, HEADER_BYTES, HEADER_WORDS, WORD_BYTES};

/// The counts of a job, or the code that refuses it.
pub(crate) fn read_counts(job: &[u8]) -> Result<Counts, u32> {
    if job.len() < HEADER_BYTES {
        return Err(1);
    }
    let header: [u32; HEADER_WORDS] = std::array::from_fn(|i| word(&job[WORD_BYTES * i..]));
    let counts = Counts::told_by(&header);
    if !counts.within_limits() {
        Err(2)
    } else if header != counts.header() || job.len() != counts.length() {
        Err(3)
    } else {
        Ok(counts)
    }
}

/// The word in the first four bytes, low byte first.
pub(crate) fn word(bytes: &[u8]) -> u32 {
    u32::from_le_bytes([bytes[0], bytes[1], bytes[2], bytes[3]])
}
