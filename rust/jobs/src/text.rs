//! The text form of a job, one item to a line:
//!
//! | line | meaning |
//! |---|---|
//! | `ids V` | number of vertex ids |
//! | `row a b c d` | the next row |
//! | `inside r ...` | these rows have mark 1 |
//! | `mark r value` | this row has this mark, any byte |
//! | `add r`, `remove r` | the next proposal |
//! | `propose r kind` | the next proposal, of any kind |
//! | `point id x y z` | the job has points, and this one is that of the id |
//! | `rising` | the ids of each listed triangle are to rise; without this line a job with points asks for outward |
//! | `word i value` | header word i is this, whatever the layout makes it |
//! | `length n` | cut to n bytes, or extended with zero bytes |
//!
//! `#` begins a comment. Where two lines set the same thing, the last decides. In
//! a job with points those without a line are 0 0 0; in one without, ids rise with
//! or without the line for it.

use crate::{Job, Point};
use common::{Order, HEADER_WORDS, WORD_BYTES};
use std::fmt::Write;

/// The bytes of the job that a text describes, or what is wrong with the text.
pub fn to_bytes(text: &str) -> Result<Vec<u8>, String> {
    let mut job = Job {
        ids: 0,
        rows: Vec::new(),
        marks: Vec::new(),
        proposals: Vec::new(),
        points: None,
        order: Order::default(),
    };
    let mut marks = Vec::new();
    let mut points = Vec::new();
    let mut words = Vec::new();
    let mut length = None;
    for (at, line) in text.lines().enumerate() {
        let line_number = at + 1;
        let line = line.split('#').next().unwrap_or("");
        let mut items = line.split_whitespace();
        let Some(name) = items.next() else {
            continue;
        };
        let not_an_item = || format!("line {line_number}: not an item: {}", line.trim());
        if name == "point" {
            let (id, point) = id_and_point(items).ok_or_else(not_an_item)?;
            points.push((line_number, id, point));
            continue;
        }
        let numbers: Result<Vec<u32>, _> = items.map(str::parse).collect();
        let numbers = numbers.map_err(|_| not_an_item())?;
        match (name, numbers.as_slice()) {
            ("ids", &[ids]) => job.ids = ids,
            ("row", &[a, b, c, d]) => job.rows.push([a, b, c, d]),
            ("inside", rows) => marks.extend(rows.iter().map(|&row| (line_number, row, 1))),
            ("mark", &[row, value]) => {
                let value = u8::try_from(value)
                    .map_err(|_| format!("line {line_number}: a mark is one byte"))?;
                marks.push((line_number, row, value));
            }
            ("add", &[row]) => job.proposals.push([row, Job::ADD]),
            ("remove", &[row]) => job.proposals.push([row, Job::REMOVE]),
            ("propose", &[row, kind]) => job.proposals.push([row, kind]),
            ("rising", &[]) => job.order = Order::Rising,
            ("word", &[word, value]) if (word as usize) < HEADER_WORDS => {
                words.push((WORD_BYTES * word as usize, value));
            }
            ("length", &[bytes]) => length = Some(bytes as usize),
            _ => return Err(not_an_item()),
        }
    }
    job.marks = vec![0; job.rows.len()];
    for (line_number, row, value) in marks {
        let mark = job.marks.get_mut(row as usize);
        *mark.ok_or_else(|| format!("line {line_number}: there is no row {row}"))? = value;
    }
    if !points.is_empty() {
        job.points = Some(vec![[0; 3]; job.ids as usize]);
    }
    for (line_number, id, value) in points {
        let point = job.points.iter_mut().flatten().nth(id);
        *point.ok_or_else(|| format!("line {line_number}: there is no id {id}"))? = value;
    }
    let mut bytes = job.bytes();
    for (at, value) in words {
        bytes[at..at + WORD_BYTES].copy_from_slice(&value.to_le_bytes());
    }
    if let Some(length) = length {
        bytes.resize(length, 0);
    }
    Ok(bytes)
}

fn id_and_point<'a>(mut items: impl Iterator<Item = &'a str>) -> Option<(usize, Point)> {
    let id = items.next()?.parse().ok()?;
    let coordinates: Result<Vec<i16>, _> = items.map(str::parse).collect();
    Some((id, coordinates.ok()?.try_into().ok()?))
}

/// A text that makes these bytes; nothing unless the header words and the
/// length fit the counts.
pub fn from_bytes(bytes: &[u8]) -> Option<String> {
    Job::from_bytes(bytes).map(|job| from_job(&job))
}

/// A text that makes the bytes of this job.
pub fn from_job(job: &Job) -> String {
    let mut text = format!("ids {}\n", job.ids);
    for [a, b, c, d] in &job.rows {
        let _ = writeln!(text, "row {a} {b} {c} {d}");
    }
    let inside: Vec<usize> = (0..job.rows.len()).filter(|&r| job.marks[r] == 1).collect();
    for rows in inside.chunks(16) {
        text.push_str("inside");
        for row in rows {
            let _ = write!(text, " {row}");
        }
        text.push('\n');
    }
    for (row, &mark) in job.marks.iter().enumerate() {
        if mark > 1 {
            let _ = writeln!(text, "mark {row} {mark}");
        }
    }
    for &[row, kind] in &job.proposals {
        let _ = match kind {
            Job::ADD => writeln!(text, "add {row}"),
            Job::REMOVE => writeln!(text, "remove {row}"),
            _ => writeln!(text, "propose {row} {kind}"),
        };
    }
    for (id, [x, y, z]) in job.points.iter().flatten().enumerate() {
        let _ = writeln!(text, "point {id} {x} {y} {z}");
    }
    if job.counts().points == Some(Order::Rising) {
        text.push_str("rising\n");
    }
    text
}

#[cfg(test)]
mod tests {
    use super::*;

    #[test]
    fn every_item() {
        let text = "
            ids 6 # a comment
            # and another
            row 0 1 2 3
            row 0 1 2 4
            row 4294967295 7 7 0
            inside 0 2
            mark 1 255
            add 1
            remove 2
            propose 4294967295 0
            point 4 1 -2 +3
            point 1 -32768 0 32767
            point 4 0 1023 -1023
        ";
        let bytes = to_bytes(text).unwrap();
        let job = Job {
            ids: 6,
            rows: vec![[0, 1, 2, 3], [0, 1, 2, 4], [u32::MAX, 7, 7, 0]],
            marks: vec![1, 255, 1],
            proposals: vec![[1, 1], [2, 2], [u32::MAX, 0]],
            points: Some(vec![
                [0; 3],
                [-32768, 0, 32767],
                [0; 3],
                [0; 3],
                [0, 1023, -1023],
                [0; 3],
            ]),
            order: Order::Outward,
        };
        assert_eq!(bytes, job.bytes());
        assert_eq!(Job::from_bytes(&bytes).unwrap(), job);
        assert_eq!(to_bytes(&from_job(&job)).unwrap(), bytes);
        let without_points = Job {
            points: None,
            ..job.clone()
        };
        assert_eq!(bytes.len(), without_points.bytes().len() + 6 * 6);
        assert!(!from_job(&without_points).contains("point"));

        let rising = Job {
            order: Order::Rising,
            ..job
        };
        let bytes = to_bytes(&format!("rising\n{text}")).unwrap();
        assert_eq!(bytes, rising.bytes());
        assert_eq!(Job::from_bytes(&bytes).unwrap(), rising);
        assert_eq!(to_bytes(&from_job(&rising)).unwrap(), bytes);
    }

    #[test]
    fn without_points_word_7_is_0() {
        let text = "ids 5\nrow 0 1 2 3\nadd 0\n";
        let bytes = to_bytes(text).unwrap();
        assert_eq!(bytes[28..32], [0; 4]);
        assert_eq!(to_bytes(&format!("{text}rising\n")).unwrap(), bytes);
        assert_eq!(from_bytes(&bytes).unwrap(), text);
    }

    #[test]
    fn damage_comes_after_layout() {
        let text = "ids 5\nrow 0 1 2 3\nadd 0\n";
        let bytes = to_bytes(text).unwrap();
        assert_eq!(bytes.len(), 32 + 17 + 8);
        let damaged = to_bytes(&format!("word 7 258\nlength 60\n{text}")).unwrap();
        assert_eq!(damaged.len(), 60);
        assert_eq!(damaged[28..32], [2, 1, 0, 0]);
        assert_eq!(damaged[32..57], bytes[32..]);
        assert_eq!(damaged[57..], [0; 3]);
        assert_eq!(from_bytes(&damaged), None);
        assert_eq!(from_bytes(&bytes[..31]), None);
    }

    #[test]
    fn what_is_no_item_is_named_by_its_line() {
        for text in [
            "ids 5\nrow 1 2 3",
            "ids 5\nids -1",
            "ids 5\nids 4294967296",
            "ids 5\nword 8 0",
            "ids 5\nmark 0 256",
            "ids 5\ninside 0",
            "ids 5\nrows 3",
            "ids 5\npoint 1 2 3",
            "ids 5\npoint 1 2 3 4 5",
            "ids 5\npoint -1 2 3 4",
            "ids 5\npoint 1 2 3 32768",
            "ids 5\npoint 5 2 3 4",
            "ids 5\nrising 1",
        ] {
            let message = to_bytes(text).unwrap_err();
            assert!(message.starts_with("line 2: "), "{message}");
        }
    }
}
