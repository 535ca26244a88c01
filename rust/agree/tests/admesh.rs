//! The file of a grown job by ADMesh, a program that checks STL files, where it is
//! installed.

use agree::with_stack;
use common::stl::file_len;
use common::{Buffers, MOST_PROPOSALS, MOST_ROWS};
use jobs::{growth, placed, Random};
use std::fs;
use std::io::ErrorKind;
use std::path::Path;
use std::process::Command;

/// Ground on blocks of cubes, all of whose points are different.
#[test]
fn admesh_finds_nothing_to_mend() {
    with_stack(|| {
        for seed in 1..=4 {
            let path = Path::new(env!("CARGO_TARGET_TMPDIR")).join(format!("grown-{seed}.stl"));
            let (file, triangles) = grown(&mut Random::new(seed));
            fs::write(&path, file).expect("room for a file");
            let Some(told) = admesh(&path) else {
                println!("admesh is not installed");
                return;
            };
            let finds = |label: &str| number_after(&told, label);
            assert_eq!(finds("Number of facets"), f64::from(triangles), "{told}");
            for label in [
                "Facets with 1 disconnected edge",
                "Facets with 2 disconnected edges",
                "Facets with 3 disconnected edges",
                "Total disconnected facets",
                "Degenerate facets",
                "Edges fixed",
                "Facets removed",
                "Facets added",
                "Facets reversed",
                "Backwards edges",
            ] {
                assert_eq!(finds(label), 0.0, "{label}: {told}");
            }
            assert!(finds("Volume") > 0.0, "{told}");
        }
    });
}

/// The file of a job's skin, and its number of triangles.
fn grown(random: &mut Random) -> (Vec<u8>, u32) {
    let block = placed::block([4, 8, 8], random);
    let mut job = block.job();
    job.marks = growth::grown_marks(&block.table, 2 * MOST_PROPOSALS, random);
    growth::propose(&mut job, MOST_PROPOSALS, 80, random);
    let mut buffers = Buffers::zeros(job.rooms());
    let mut file = vec![0; file_len(2 * MOST_ROWS)];
    let outcome = track::write_skin(&job.bytes(), buffers.lend(), &mut file);
    assert_eq!(outcome.code, 0);
    assert!(outcome.triangles > 0);
    file.truncate(file_len(outcome.triangles as usize));
    (file, outcome.triangles)
}

/// What it prints of a file, if it is there.
fn admesh(path: &Path) -> Option<String> {
    let ran = Command::new("admesh").arg(path).env("LC_ALL", "C").output();
    match ran {
        Err(error) if error.kind() == ErrorKind::NotFound => None,
        ran => {
            let ran = ran.expect("admesh runs");
            assert!(ran.status.success(), "{ran:?}");
            Some(String::from_utf8_lossy(&ran.stdout).into_owned())
        }
    }
}

/// The number behind the colon that follows a label: where there are two, it is
/// that of the file as it was.
fn number_after(told: &str, label: &str) -> f64 {
    let behind = told.split_once(label).map(|(_, behind)| behind);
    let number = behind.and_then(|behind| behind.split_once(':'));
    let number = number.and_then(|(_, number)| number.split_whitespace().next());
    let number = number.and_then(|number| number.parse().ok());
    number.unwrap_or_else(|| panic!("no {label}: {told}"))
}

/// As ADMesh 0.98 prints it.
#[test]
fn numbers_are_found() {
    let told = "\
========= Facet Status ========== Original ============ Final ====
Number of facets                 :    12                  14
Facets with 1 disconnected edge  :     1                   0
=== Processing Statistics ===     ===== Other Statistics =====
Number of parts       :     1        Volume   :  23.597447
Degenerate facets     :     0
";
    assert_eq!(number_after(told, "Number of facets"), 12.0);
    assert_eq!(number_after(told, "Facets with 1 disconnected edge"), 1.0);
    assert_eq!(number_after(told, "Volume"), 23.597447);
    assert_eq!(number_after(told, "Degenerate facets"), 0.0);
}
