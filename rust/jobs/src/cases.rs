//! Random jobs of every sort, with the room lent for them.

mod points;

use crate::growth::{even_marks, marks_after, propose, random_marks};
use crate::{placed, tables, Job, Point, Random, Table};
use common::{
    Order, Rooms, FEWEST_IDS, HEADER_BYTES, HEADER_WORDS, MOST_IDS, MOST_PROPOSALS, MOST_ROWS,
};

/// A job and the lengths of the buffers lent for it.
#[derive(Clone, Debug)]
pub struct Case {
    /// What it was made from, for messages.
    pub kind: String,
    pub job: Vec<u8>,
    pub rooms: Rooms,
}

/// The case of this number, on a table of at most about `most` rows.
pub fn case(number: u64, most: usize) -> Case {
    let random = &mut Random::new(number);
    if random.chance(30) {
        let (family, placed) = placed::any(most, random);
        return case_on(family, &placed.table, Some(placed.points), random);
    }
    let (family, table) = tables::any(most, random);
    let points = random
        .chance(6)
        .then(|| points::scattered(table.ids, random));
    case_on(family, &table, points, random)
}

/// A case on this table, which is closed, with these points.
pub fn case_on(
    family: &str,
    table: &Table,
    points: Option<Vec<Point>>,
    random: &mut Random,
) -> Case {
    let mut kind = format!("{family}, {} rows", table.rows.len());
    let (start, marks) = start_marks(table, random);
    kind += &format!(", {start}");
    let mut job = table.job();
    job.marks = marks;
    if random.chance(10) {
        job.ids = (job.ids + random.within(1, 20) as u32).min(MOST_IDS as u32);
    }
    let proposals = match random.below(4) {
        0 => random.below(8),
        1 => random.below(64),
        _ => random.below((3 * table.rows.len()).min(MOST_PROPOSALS) + 1),
    };
    let adds = random.pick(&[10, 30, 50, 70, 90]);
    propose(&mut job, proposals, adds, random);
    if let Some(points) = points {
        job.points = Some(points);
        job.order = random.pick(&Order::EACH);
        kind += &format!(", with points, {:?}", job.order);
        points::one_for_each_id(&mut job, random);
        if random.chance(40) {
            kind += &format!(", {}", points::damage(&mut job, random));
        }
    }

    if random.chance(if job.points.is_some() { 20 } else { 45 }) {
        for _ in 0..random.pick(&[1, 1, 1, 2]) {
            kind += &format!(", {}", damage(&mut job, random));
        }
    }
    points::one_for_each_id(&mut job, random);
    let mut rooms = job.rooms();
    let mut bytes = job.bytes();
    if random.chance(10) {
        kind += &format!(", {}", damage_bytes(&mut bytes, random));
    }
    kind += &format!(", {}", vary(&mut rooms, random));
    Case {
        kind,
        job: bytes,
        rooms,
    }
}

/// Starting marks of which the outer ones are alike, and what they are.
fn start_marks(table: &Table, random: &mut Random) -> (String, Vec<u8>) {
    let rows = table.rows.len();
    let sky = u8::from(random.chance(50));
    let after = |finite: u8, adds: usize, random: &mut Random| {
        let steps = random.within(1, 2 * rows);
        marks_after(table, even_marks(table, sky, finite), steps, adds, random)
    };
    let (start, marks) = match random.below(20) {
        0..6 => ("empty", even_marks(table, sky, 0)),
        6..10 => ("grown", after(0, 90, random)),
        // There an add often has much of the inside about it.
        10..14 => ("dug", after(1, 10, random)),
        14..16 => ("full", even_marks(table, sky, 1)),
        16 | 17 => {
            let grown = after(0, 90, random);
            ("grown with some turned", some_turned(table, grown, random))
        }
        18 => {
            let full = even_marks(table, sky, 1);
            ("full with some turned", some_turned(table, full, random))
        }
        _ => {
            let percent = random.below(101);
            ("random", random_marks(table, sky, percent, random))
        }
    };
    let side = ["outside", "inside"][usize::from(sky)];
    (format!("{start}, the sky {side}"), marks)
}

/// The marks with those of some finite rows turned.
fn some_turned(table: &Table, mut marks: Vec<u8>, random: &mut Random) -> Vec<u8> {
    for _ in 0..random.within(1, 3) {
        let row = random.below(table.rows.len());
        if table.rows[row][0] != 0 {
            marks[row] ^= 1;
        }
    }
    marks
}

/// Changes what the job says; the layout stays right.
fn damage(job: &mut Job, random: &mut Random) -> &'static str {
    let rows = job.rows.len();
    if rows < 2 {
        return "not damaged";
    }
    let row = random.below(rows);
    match random.below(16) {
        0 | 1 => {
            let corner = random.below(4);
            job.rows[row][corner] = match random.below(7) {
                0 => job.rows[row][(corner + 1) % 4],
                1 => job.ids,
                2 => job.ids + random.below(2000) as u32,
                3 => u32::MAX,
                4 => random.bits() as u32,
                5 => job.rows[row][corner] | 1 << random.within(10, 31),
                _ => random.below(job.ids as usize) as u32,
            };
            "an id changed"
        }
        2 => {
            let corners = [random.below(4), random.below(4)];
            job.rows[row].swap(corners[0], corners[1]);
            "two ids of a row exchanged"
        }
        3 => {
            let other = if random.chance(50) && row > 0 {
                row - 1
            } else {
                random.below(rows)
            };
            job.rows.swap(row, other);
            "two rows exchanged"
        }
        4 => {
            job.rows[row] = random.pick(&job.rows);
            "a row doubled"
        }
        5 => {
            job.rows.remove(row);
            job.marks.remove(row);
            "a row removed"
        }
        6 => {
            job.rows.insert(row, random_row(job.ids, random));
            job.marks.insert(row, 0);
            job.rows.sort_unstable();
            "a row put in"
        }
        7 => {
            job.rows[row] = random_row(job.ids, random);
            job.rows.sort_unstable();
            "a row replaced"
        }
        8 => {
            job.ids = job.ids.saturating_sub(random.within(1, 3) as u32);
            "fewer ids"
        }
        9 | 10 => {
            for _ in 0..random.pick(&[1, 1, 2, 5]) {
                let row = random.below(rows);
                job.marks[row] = random.pick(&[2, 3, 127, 128, 254, 255]);
            }
            "odd marks"
        }
        11 => {
            let outer = job.rows.iter().filter(|row| row[0] == 0).count();
            for _ in 0..random.pick(&[1, 1, 2, 5]) {
                let most = random.pick(&[outer, rows]);
                let row = random.below(most.max(1));
                job.marks[row] ^= 1;
            }
            "some rows turned, outer ones too"
        }
        12 | 13 => identify(job, random),
        _ => glue(job, random),
    }
}

fn random_row(ids: u32, random: &mut Random) -> [u32; 4] {
    loop {
        let mut row = [(); 4].map(|()| random.below(ids.max(5) as usize) as u32);
        row.sort_unstable();
        if row.is_sorted_by(|a, b| a < b) {
            return row;
        }
    }
}

/// Makes one id of two that no row holds both of: where their links have
/// nothing, ids, or edges in common, the vertex, edge or triangle rule breaks.
fn identify(job: &mut Job, random: &mut Random) -> &'static str {
    let table = Table {
        ids: job.ids,
        rows: job.rows.clone(),
    };
    for _ in 0..20 {
        let pair = [(); 2].map(|()| random.below(job.ids as usize) as u32);
        if pair[0] == pair[1] {
            continue;
        }
        if let Some(merged) = tables::identified(&table, &[pair]) {
            job.rows = merged.rows;
            return "two ids made one";
        }
    }
    "no two ids to make one"
}

/// Puts a second table beside the first, with one, two or three ids in common,
/// or none.
fn glue(job: &mut Job, random: &mut Random) -> &'static str {
    let first = Table {
        ids: job.ids,
        rows: job.rows.clone(),
    };
    let (_, second) = tables::any(job.rows.len().max(5), random);
    let shared = random.pick(&[0, 1, 1, 1, 2, 2, 2, 3]);
    match tables::glued(&first, &second, shared, random) {
        Some(both) if both.rows.len() <= MOST_ROWS && both.ids as usize <= MOST_IDS => {
            let both = if random.chance(50) {
                tables::relabelled(&both, random)
            } else {
                both
            };
            job.ids = both.ids;
            job.rows = both.rows;
            job.marks = vec![0; job.rows.len()];
            "a second table glued on"
        }
        _ => "no second table glued on",
    }
}

/// Counts at a limit and one beyond it.
const AT_LIMITS: [usize; 7] = [
    0,
    FEWEST_IDS - 1,
    FEWEST_IDS,
    MOST_IDS,
    MOST_IDS + 1,
    MOST_ROWS,
    MOST_ROWS + 1,
];

/// Changes the header, the length or any byte.
fn damage_bytes(bytes: &mut Vec<u8>, random: &mut Random) -> &'static str {
    match random.below(10) {
        0..3 => {
            let at = 4 * random.below(HEADER_WORDS);
            let word = u32::from_le_bytes([bytes[at], bytes[at + 1], bytes[at + 2], bytes[at + 3]]);
            let changed = match random.below(8) {
                0 => word.wrapping_add(1),
                1 => word.wrapping_sub(1),
                2 => random.pick(&AT_LIMITS) as u32,
                3 => u32::MAX,
                4 => word ^ 1 << random.below(32),
                5 => word.wrapping_add(1 << random.within(8, 31)),
                6 => random.bits() as u32,
                _ => random.below(4000) as u32,
            };
            bytes[at..at + 4].copy_from_slice(&changed.to_le_bytes());
            "a header word changed"
        }
        3 => {
            bytes.truncate(random.below(bytes.len()));
            "cut"
        }
        4 => {
            bytes.truncate(random.below(HEADER_BYTES + 2));
            "cut within the header"
        }
        5 => {
            let less = random.below(20).min(bytes.len());
            bytes.truncate(bytes.len() - less);
            "cut a little"
        }
        6 => {
            for _ in 0..random.within(1, 40) {
                bytes.push(random.bits() as u8);
            }
            "extended"
        }
        7 => {
            let word_7 = random.pick(&[0, 1, 2, 3, 4, 5, 16, 17, 19, 1 << 8, 1 << 16, 1 << 24]);
            bytes[28..32].copy_from_slice(&u32::to_le_bytes(word_7));
            "word 7 changed"
        }
        _ => {
            let at = random.below(bytes.len());
            bytes[at] = random.bits() as u8;
            "a byte changed"
        }
    }
}

/// Lends more than enough, just enough, or too little.
fn vary(rooms: &mut Rooms, random: &mut Random) -> &'static str {
    let Rooms {
        answers,
        final_marks,
        triangles,
        work,
    } = rooms;
    let mut all = [answers, final_marks, triangles, work];
    match random.below(40) {
        0..16 => "room exact",
        16 => {
            // The neighbour list alone, or with the inside tallies.
            let neighbours = 4 * rooms.final_marks;
            let tallies = rooms.work - neighbours;
            rooms.work = neighbours + random.pick(&[0, tallies / 2]);
            "room short of tallies"
        }
        17 | 18 => {
            let room = &mut *all[random.below(4)];
            *room = match random.below(4) {
                0 => 0,
                1 => random.below(*room + 1),
                _ => room.saturating_sub(1),
            };
            "room short"
        }
        _ => {
            for room in &mut all {
                **room += random.below(10);
            }
            "room to spare"
        }
    }
}

#[cfg(test)]
mod tests {
    use super::*;
    use common::Buffers;

    /// Jobs that are run where work is enough have it one word short, and as long
    /// as for the neighbour list alone, or with the tallies of the inside rows.
    #[test]
    fn work_is_short() {
        let mut lent = [0; 3];
        for number in 0..6000 {
            let Case { job, rooms, .. } = case(number, 5 + number as usize % 36);
            let enough = Rooms {
                work: 4 * MOST_ROWS + 2 * MOST_IDS,
                ..rooms
            };
            if plain::run(&job, Buffers::zeros(enough).lend()).code != 0 {
                continue;
            }
            let job = Job::from_bytes(&job).expect("a layout");
            let (v, n) = (job.ids as usize, job.rows.len());
            for (lent, short) in lent.iter_mut().zip([4 * n, 4 * n + v, 4 * n + 2 * v - 1]) {
                *lent += usize::from(rooms.work == short);
            }
        }
        assert!(lent.iter().all(|&jobs| jobs >= 10), "{lent:?}");
    }
}
