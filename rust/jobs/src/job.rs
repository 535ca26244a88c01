use common::{Counts, Order, Rooms, COORDINATE_BYTES, HEADER_BYTES, HEADER_WORDS, WORD_BYTES};

/// Three coordinates, in units of 1/16 metre.
pub type Point = [i16; 3];

/// Rows of four ids below `ids`. Generated tables are closed: rows and the
/// ids within them rise, and each table rule holds.
#[derive(Clone, Debug, PartialEq, Eq)]
pub struct Table {
    pub ids: u32,
    pub rows: Vec<[u32; 4]>,
}

impl Table {
    /// Sorts the ids within each row and then the rows.
    pub fn sorted(ids: u32, mut rows: Vec<[u32; 4]>) -> Table {
        for row in &mut rows {
            row.sort_unstable();
        }
        rows.sort_unstable();
        Table { ids, rows }
    }

    /// The job on this table with empty marks and no proposals.
    pub fn job(&self) -> Job {
        Job {
            ids: self.ids,
            rows: self.rows.clone(),
            marks: vec![0; self.rows.len()],
            proposals: Vec::new(),
            points: None,
            order: Order::default(),
        }
    }
}

/// A job before it is laid out in bytes. Nothing here need keep the rules.
#[derive(Clone, Debug, PartialEq, Eq)]
pub struct Job {
    pub ids: u32,
    pub rows: Vec<[u32; 4]>,
    /// One for each row.
    pub marks: Vec<u8>,
    /// Row number, then kind.
    pub proposals: Vec<[u32; 2]>,
    /// One for each id, in a job with points.
    pub points: Option<Vec<Point>>,
    /// How its skin is to be listed, in a job with points.
    pub order: Order,
}

impl Job {
    pub const ADD: u32 = 1;
    pub const REMOVE: u32 = 2;

    pub fn counts(&self) -> Counts {
        Counts {
            ids: self.ids as usize,
            rows: self.rows.len(),
            proposals: self.proposals.len(),
            points: self.points.as_ref().map(|_| self.order),
        }
    }

    /// The mark of the lowest outer row.
    pub fn sky(&self) -> Option<u8> {
        let lowest = self.rows.iter().position(|row| row.contains(&0))?;
        Some(self.marks[lowest])
    }

    /// The room that a run needs.
    pub fn rooms(&self) -> Rooms {
        self.counts().rooms()
    }

    pub fn bytes(&self) -> Vec<u8> {
        let mut bytes = Vec::new();
        put_words(&mut bytes, &self.counts().header());
        put_words(&mut bytes, self.rows.as_flattened());
        bytes.extend(&self.marks);
        put_words(&mut bytes, self.proposals.as_flattened());
        for coordinate in self.points.iter().flatten().flatten() {
            bytes.extend(coordinate.to_le_bytes());
        }
        bytes
    }

    /// Reads back what `bytes` lays out. The counts need not be within their
    /// limits; the other header words and the length must fit them.
    pub fn from_bytes(bytes: &[u8]) -> Option<Job> {
        let header: [u32; HEADER_WORDS] = words(bytes.get(..HEADER_BYTES)?).try_into().ok()?;
        let counts = Counts::told_by(&header);
        if bytes.len() != counts.length() || header != counts.header() {
            return None;
        }
        let [rows, marks, proposals, points] = [
            counts.rows_at(),
            counts.marks_at(),
            counts.proposals_at(),
            counts.points_at(),
        ];
        Some(Job {
            ids: header[0],
            rows: groups(&words(&bytes[rows..marks])),
            marks: bytes[marks..proposals].to_vec(),
            proposals: groups(&words(&bytes[proposals..points])),
            points: counts
                .points
                .map(|_| groups(&coordinates(&bytes[points..]))),
            order: counts.points.unwrap_or_default(),
        })
    }
}

fn put_words(bytes: &mut Vec<u8>, words: &[u32]) {
    bytes.extend(words.iter().flat_map(|word| word.to_le_bytes()));
}

fn words(bytes: &[u8]) -> Vec<u32> {
    let (words, _) = bytes.as_chunks::<WORD_BYTES>();
    words.iter().map(|&word| u32::from_le_bytes(word)).collect()
}

fn coordinates(bytes: &[u8]) -> Vec<i16> {
    let (numbers, _) = bytes.as_chunks::<COORDINATE_BYTES>();
    numbers.iter().map(|&x| i16::from_le_bytes(x)).collect()
}

fn groups<const K: usize, T: Copy>(numbers: &[T]) -> Vec<[T; K]> {
    numbers.as_chunks::<K>().0.to_vec()
}
