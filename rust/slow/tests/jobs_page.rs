//! Jobs B, `inward`, `points` and `road` in docs/JOBS.md: each proposal with f
//! and its answer, and that two more are taken on B; each triangle in both
//! orders, with the product that tells its side. And what A leaves in its work
//! area.

use common::{Buffers, Order};
use jobs::Job;
use std::fs;

const TOP: &str = concat!(env!("CARGO_MANIFEST_DIR"), "/../..");

/// A proposal, f and the answer.
type Told = ([u32; 2], usize, u8);

/// The lines of the table in a section of the page.
fn told(section: &str) -> Vec<Told> {
    let page = fs::read_to_string(format!("{TOP}/docs/JOBS.md")).expect("the page");
    let heading = format!("## {section}");
    let lines = page.lines().skip_while(|line| *line != heading).skip(1);
    let lines = lines.take_while(|line| !line.starts_with("## "));
    let line = |line: &str| {
        let mut cells = line.split('|').map(str::trim).skip(1);
        let (kind, row) = cells.next()?.split_once(' ')?;
        let kind = match kind {
            "add" => Job::ADD,
            "remove" => Job::REMOVE,
            _ => return None,
        };
        let f = cells.next()?.parse().ok()?;
        let answer = cells.next()?.parse().ok()?;
        Some(([row.parse().ok()?, kind], f, answer))
    };
    lines.filter_map(line).collect()
}

fn answers(job: &Job) -> Vec<u8> {
    let mut buffers = Buffers::zeros(job.rooms());
    assert_eq!(slow::run(&job.bytes(), buffers.lend()).code, 0);
    buffers.answers
}

fn stored(name: &str) -> Job {
    let bytes = fs::read(format!("{TOP}/jobs/{name}.job")).expect("a stored job");
    Job::from_bytes(&bytes).expect("a layout")
}

/// What the first `count` proposals of a job come to.
fn found(job: &Job, count: usize) -> Vec<Told> {
    let mut marks = job.marks.clone();
    let mut found = Vec::new();
    for (&[row, kind], answer) in job.proposals.iter().zip(answers(job)).take(count) {
        let f = slow::triangles_on_skin(&job.rows, &marks, row as usize);
        found.push(([row, kind], f, answer));
        if answer == 0 {
            marks[row as usize] ^= 1;
        }
    }
    found
}

#[test]
fn job_b_is_as_the_page_says() {
    let mut job = stored("b");
    let told = told("Proposals and the five cases");
    assert_eq!(told, found(&job, job.proposals.len()));

    job.proposals.extend([[8, Job::ADD], [11, Job::REMOVE]]);
    assert_eq!(answers(&job)[told.len()..], [0, 0]);
}

#[test]
fn inward_is_as_the_page_says() {
    let job = stored("inward");
    let told = told("Air grown inward from the sky");
    assert_eq!(told.len(), 10);
    assert_eq!(told, found(&job, told.len()));
    assert_eq!(answers(&job)[told.len()..], [1, 2, 3, 4]);
}

/// The cells of the tables in a part of the page, up to the next heading.
fn cells(part: &str) -> Vec<Vec<String>> {
    let page = fs::read_to_string(format!("{TOP}/docs/JOBS.md")).expect("the page");
    let lines = page.lines().skip_while(|line| *line != part).skip(1);
    let lines = lines.take_while(|line| !line.starts_with('#'));
    let cut = |line: &str| {
        line.split('|')
            .map(|cell| cell.trim().to_string())
            .collect()
    };
    lines
        .filter(|line| line.starts_with('|'))
        .map(cut)
        .collect()
}

/// The table of the words of work has no other numbers in its last column.
#[test]
fn work_is_as_the_page_says() {
    let numbers = |row: &Vec<String>| -> Option<Vec<u32>> {
        let words = row[3].split([' ', ',']).filter(|word| !word.is_empty());
        words.map(|word| word.parse().ok()).collect()
    };
    let told = cells("### What is left in the buffers");
    let told: Vec<Vec<u32>> = told.iter().filter_map(numbers).collect();
    let mut buffers = Buffers::zeros(stored("a").rooms());
    slow::run(&stored("a").bytes(), buffers.lend());
    assert_eq!(told.concat(), buffers.work);
}

fn triangle(text: &str) -> Option<[u32; 3]> {
    let ids: Vec<u32> = text.split(' ').map_while(|id| id.parse().ok()).collect();
    ids.try_into().ok()
}

fn skin(job: &Job, order: Order) -> Vec<[u32; 3]> {
    let mut buffers = Buffers::zeros(job.rooms());
    let job = Job {
        order,
        ..job.clone()
    };
    let outcome = slow::run(&job.bytes(), buffers.lend());
    assert_eq!(outcome.code, 0);
    let listed = buffers.triangles.chunks_exact(3);
    listed
        .take(outcome.triangles as usize)
        .map(|ids| [ids[0], ids[1], ids[2]])
        .collect()
}

/// (b - a) x (c - a) . (d - a) of four ids.
fn product(job: &Job, [a, b, c]: [u32; 3], d: u32) -> i64 {
    let points = job.points.as_ref().expect("points");
    let way = |id: u32| {
        let (to, from) = (points[id as usize], points[a as usize]);
        [0, 1, 2].map(|i| i64::from(to[i]) - i64::from(from[i]))
    };
    let (u, v, w) = (way(b), way(c), way(d));
    let part = |i: usize, j: usize| u[i] * v[j] - u[j] * v[i];
    part(1, 2) * w[0] + part(2, 0) * w[1] + part(0, 1) * w[2]
}

#[test]
fn points_are_as_the_page_says() {
    let job = stored("points");
    let (mut rising, mut outward) = (Vec::new(), Vec::new());
    for row in cells("### Step by step") {
        let Some(ids) = triangle(&row[1]) else {
            continue;
        };
        let fourth = row[2].parse().expect("an id");
        let told: i64 = row[3].replace(',', "").parse().expect("a product");
        assert_eq!(product(&job, ids, fourth), told, "{ids:?}");
        assert_eq!(row[4], if told > 0 { "in front" } else { "behind" });
        rising.push(ids);
        outward.push(triangle(&row[5]).expect("a triangle"));
    }
    assert_eq!(rising, skin(&job, Order::Rising));
    assert_eq!(outward, skin(&job, Order::Outward));
}

#[test]
fn the_road_is_as_the_page_says() {
    let job = stored("road");
    let [outward, rising] = Order::EACH.map(|order| skin(&job, order));
    let mut told = 0;
    for row in cells("### Outward") {
        let Some(ids) = triangle(&row[1]) else {
            continue;
        };
        let at = rising
            .iter()
            .position(|listed| *listed == ids)
            .expect("a skin triangle");
        let [a, b, c] = triangle(&row[3]).expect("a triangle");
        assert_eq!(outward[at], [a, b, c]);
        assert_eq!(triangle(&row[4]), Some([a, c, b]));
        told += 1;
    }
    assert_eq!(told, 2);
}
