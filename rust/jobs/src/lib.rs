//! Track jobs: their bytes, their text form, and generated ones for tests and
//! benchmarks; and lists of facets.

pub mod cases;
pub mod facets;
mod geometry;
pub mod growth;
mod job;
pub mod outward;
pub mod placed;
mod random;
pub mod rings;
pub mod tables;
pub mod tallies;
pub mod text;
pub mod worst;

pub use job::{Job, Point, Table};
pub use random::Random;
