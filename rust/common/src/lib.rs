//! What the engines and the tests share: the numbers and small tables of
//! document 01, the buffers that a caller lends, and what a call returns.

mod corners;
mod counts;
mod lent;
mod order;
mod outcome;
pub mod stl;

pub use corners::{EDGES, TRIANGLES};
pub use counts::{
    Counts, COORDINATE_BYTES, FEWEST_IDS, FEWEST_ROWS, GRID, HEADER_BYTES, HEADER_WORDS, IDS,
    MARK_BYTES, MOST_IDS, MOST_PROPOSALS, MOST_ROWS, POINT_BYTES, PROPOSALS, PROPOSAL_BYTES, ROWS,
    ROW_BYTES, WORD_BYTES,
};
pub use lent::{Buffers, Lent, Rooms};
pub use order::Order;
pub use outcome::Outcome;
