//! The stored jobs: their bytes are what their text makes, and their expected
//! listings are what `plain` gives.

use common::{MOST_PROPOSALS, MOST_ROWS};
use jobs::{outward, text};
use std::fs;
use std::path::{Path, PathBuf};

const FOLDER: &str = concat!(env!("CARGO_MANIFEST_DIR"), "/../../jobs");

const NAMES: [&str; 31] = [
    "a", "adds", "b", "beside", "c", "cut", "d", "downward", "e", "f", "far", "flat", "folded",
    "g", "gap", "h", "i", "inward", "j", "largest", "n2049", "n4", "outward", "pinched", "points",
    "removes", "road", "short31", "sky", "upward", "v6",
];

fn path(name: &str, ending: &str) -> PathBuf {
    Path::new(FOLDER).join(format!("{name}.{ending}"))
}

fn read(name: &str, ending: &str) -> Vec<u8> {
    let path = path(name, ending);
    fs::read(&path).unwrap_or_else(|error| panic!("{}: {error}", path.display()))
}

fn read_text(name: &str, ending: &str) -> String {
    String::from_utf8(read(name, ending)).expect("text")
}

#[test]
fn folder_holds_these_jobs() {
    for ending in ["txt", "job", "out"] {
        let mut names: Vec<String> = fs::read_dir(FOLDER)
            .expect("the folder of stored jobs")
            .map(|entry| entry.expect("an entry").path())
            .filter(|path| path.extension().is_some_and(|other| other == ending))
            .filter_map(|path| Some(path.file_stem()?.to_str()?.to_string()))
            .collect();
        names.sort();
        assert_eq!(names, NAMES, "{ending}");
    }
}

#[test]
fn bytes_are_what_the_text_makes() {
    for name in NAMES {
        let bytes = text::to_bytes(&read_text(name, "txt")).expect(name);
        assert!(bytes == read(name, "job"), "{name}");
    }
}

#[test]
fn text_of_the_bytes_makes_them_again() {
    for name in NAMES {
        let bytes = read(name, "job");
        match text::from_bytes(&bytes) {
            Some(text) => assert!(text::to_bytes(&text).expect(name) == bytes, "{name}"),
            None => assert!(["cut", "short31"].contains(&name), "{name}"),
        }
    }
}

#[test]
fn listings_are_what_plain_gives() {
    for name in NAMES {
        let listing = plain::listing(&read(name, "job"));
        assert!(listing == read_text(name, "out"), "{name}");
    }
}

#[test]
fn listings_begin_as_the_documents_say() {
    for (name, first) in [
        ("a", "done 7 3 4"),
        ("b", "done 7 5 8"),
        ("beside", "done 0 0 4"),
        ("c", "refused 12 1"),
        ("cut", "refused 3 0"),
        ("d", "refused 10 3"),
        ("downward", "done 0 0 4"),
        ("e", "refused 11 1"),
        ("f", "done 0 0 0"),
        ("far", "refused 13 3"),
        ("flat", "refused 14 9"),
        ("folded", "refused 15 5"),
        ("g", "refused 5 4"),
        ("h", "refused 6 4"),
        ("i", "refused 8 0"),
        ("inward", "done 14 7 6"),
        ("j", "refused 9 0"),
        ("n2049", "refused 2 0"),
        ("n4", "refused 2 0"),
        ("outward", "done 7 3 4"),
        ("points", "done 7 3 4"),
        ("road", "done 18 12 18"),
        ("short31", "refused 1 0"),
        ("sky", "done 0 0 4"),
        ("upward", "done 18 12 18"),
        ("v6", "done 7 3 4"),
    ] {
        assert_eq!(read_text(name, "out").lines().next(), Some(first), "{name}");
    }
    assert_eq!(read("a", "out"), read("v6", "out"));
    assert_eq!(read("a", "out"), read("points", "out"));
}

/// Of the stored jobs with points three ask for outward, each the twin of one
/// that asks for rising ids.
#[test]
fn each_order_is_stored() {
    for name in NAMES {
        let Some(each) = outward::in_each_order(&read(name, "job")) else {
            continue;
        };
        let asks = ["downward", "outward", "upward"].contains(&name);
        assert_eq!(each[usize::from(!asks)], read(name, "job"), "{name}");
    }
    for (name, twin) in [
        ("downward", "beside"),
        ("outward", "points"),
        ("upward", "road"),
    ] {
        let each = outward::in_each_order(&read(name, "job")).expect(name);
        assert!(each == [read(name, "job"), read(twin, "job")], "{name}");
        assert_ne!(read(name, "out"), read(twin, "out"));
    }
}

#[test]
fn largest_is_as_large_as_a_job_may_be() {
    let job = jobs::Job::from_bytes(&read("largest", "job")).expect("a layout");
    assert_eq!(
        (job.rows.len(), job.proposals.len()),
        (MOST_ROWS, MOST_PROPOSALS)
    );
    let listing = read_text("largest", "out");
    for answer in 0..=7 {
        let ending = format!(" {answer}");
        let given = |line: &str| line.starts_with("p ") && line.ends_with(&ending);
        assert!(listing.lines().any(given), "answer {answer}");
    }
}
