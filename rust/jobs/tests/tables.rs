//! Every generated table is closed, and placed ones have points that keep the
//! rules for them.

use common::{Buffers, MOST_ROWS};
use jobs::{growth, placed, tables, Job, Random, Table};

fn assert_closed(name: &str, table: &Table) {
    assert_accepted(name, &table.job());
}

fn assert_accepted(name: &str, job: &Job) {
    let outcome = plain::run(&job.bytes(), Buffers::zeros(job.rooms()).lend());
    assert_eq!(
        (outcome.code, outcome.place),
        (0, 0),
        "{name}: {} ids, {} rows",
        job.ids,
        job.rows.len()
    );
}

#[test]
fn placed_ones_of_any_family() {
    let random = &mut Random::new(6);
    for number in 0..1000 {
        let most = 5 + number / 4;
        let (name, placed) = placed::any(most, random);
        assert!(placed.table.rows.len() <= most, "{name}");
        assert_accepted(name, &placed.job());
    }
}

/// A hull of triangles about every block, and the largest has as many rows as a
/// job may have.
#[test]
fn placed_ones_near_a_number_of_rows() {
    let random = &mut Random::new(7);
    for most in [200, 501, 1000, MOST_ROWS] {
        for (name, placed) in placed::each_family(most, random) {
            let rows = placed.table.rows.len();
            let fewest = if name == "splits" { 5 } else { most * 3 / 4 };
            assert!((fewest..=most).contains(&rows), "{name}: {rows}");
            assert!(name != "block of cubes" || most < MOST_ROWS || rows == MOST_ROWS);
            let mut job = placed.job();
            assert_accepted(name, &job);
            job.marks = growth::even_marks(&placed.table, 1, 0);
            assert_accepted(name, &job);
        }
    }
}

#[test]
fn small_ones_of_any_family() {
    let random = &mut Random::new(1);
    for number in 0..2000 {
        let (name, table) = tables::any(5 + number / 8, random);
        assert_closed(name, &table);
    }
}

#[test]
fn large_ones_of_any_family() {
    let random = &mut Random::new(2);
    for _ in 0..40 {
        let (name, table) = tables::any(MOST_ROWS, random);
        assert_closed(name, &table);
    }
}

#[test]
fn each_family_near_a_number_of_rows() {
    let random = &mut Random::new(3);
    for most in [200, 501, 1000, MOST_ROWS - 5, MOST_ROWS] {
        for (name, table) in tables::each_family(most, random) {
            let rows = table.rows.len();
            assert!((most * 3 / 4..=most).contains(&rows), "{name}: {rows}");
            assert_closed(name, &table);
            assert_closed(name, &tables::with_few_outer(&table));
        }
    }
}

#[test]
fn largest_of_some_families() {
    let random = &mut Random::new(4);
    for (name, rows, table) in [
        ("flips", MOST_ROWS, tables::flips(MOST_ROWS, random)),
        ("join of rings", MOST_ROWS, tables::join_of_rings(32, 64)),
        ("join of rings", 2046, tables::join_of_rings(3, 682)),
        ("cyclic", 2015, tables::cyclic(65)),
        (
            "suspension of a sphere",
            MOST_ROWS,
            tables::suspension(&tables::sphere(MOST_ROWS / 2, random)),
        ),
        (
            "suspension of a torus",
            MOST_ROWS,
            tables::suspension(&tables::torus_grid(16, 32)),
        ),
        ("torus of cubes", 2016, tables::torus_of_cubes([6, 7, 8])),
    ] {
        assert_eq!(table.rows.len(), rows, "{name}");
        assert_closed(name, &table);
    }
}

#[test]
fn smallest_of_each_family() {
    let random = &mut Random::new(5);
    let seven = tables::torus_of_seven(14, random);
    let six = tables::projective_plane(10, random);
    for (name, rows, table) in [
        ("simplex", 5, tables::simplex()),
        ("delaunay", 5, tables::delaunay(5, random)),
        ("flips", 5, tables::flips(5, random)),
        ("flips", 9, tables::flips(9, random)),
        ("join of rings", 9, tables::join_of_rings(3, 3)),
        ("cyclic", 9, tables::cyclic(6)),
        (
            "suspension of a sphere",
            8,
            tables::suspension(&tables::sphere(4, random)),
        ),
        (
            "suspension of a torus",
            36,
            tables::suspension(&tables::torus_grid(3, 3)),
        ),
        ("suspension of a torus", 28, tables::suspension(&seven)),
        ("suspension of a plane", 20, tables::suspension(&six)),
        ("torus of cubes", 162, tables::torus_of_cubes([3, 3, 3])),
    ] {
        assert_eq!(table.rows.len(), rows, "{name}");
        assert_closed(name, &table);
    }
}
