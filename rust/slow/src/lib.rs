//! An engine for track jobs that follows document 01, and document 02 as far
//! as it is built, word for word. Nothing in it is there to be quick, and beyond
//! the numbers and types of `common` it shares no code with the other engines.

mod points;
pub mod stl;

use common::{
    Lent, Outcome, Rooms, EDGES, HEADER_BYTES, IDS, MARK_BYTES, POINT_BYTES, PROPOSALS,
    PROPOSAL_BYTES, ROWS, ROW_BYTES, TRIANGLES,
};
use points::Points;

pub type Row = [u32; 4];

/// Runs a job.
pub fn run(job: &[u8], lent: Lent) -> Outcome {
    if let Some(code) = refused_by_header(job) {
        return Outcome::refused(code, 0);
    }
    let [v, n, p, word_7] = [0, 4, 8, 28].map(|at| number(job, at) as usize);
    let Some(lent) = lent.front(Rooms::exact(v, n, p)) else {
        return Outcome::refused(4, 0);
    };
    let Lent {
        answers,
        final_marks,
        triangles,
        work,
    } = lent;
    let [marks_at, proposals_at, _] = places(n, p);
    let rows = rows_of(job);
    let marks = &job[marks_at..proposals_at];
    let proposals = (0..p).map(|i| {
        let at = proposals_at + PROPOSAL_BYTES * i;
        [number(job, at), number(job, at + 4)]
    });
    let points = points_of(job);

    let refused = refused_by_table(v, &rows, marks).or_else(|| points.as_ref()?.refused(&rows));
    if let Some((code, place)) = refused {
        work.fill(0);
        return Outcome::refused(code, place as u32);
    }
    final_marks.copy_from_slice(marks);
    let mut taken = 0;
    for (i, [row, kind]) in proposals.enumerate() {
        answers[i] = answer(&rows, final_marks, row, kind);
        if answers[i] == 0 {
            final_marks[row as usize] = u8::from(kind == 1);
            taken += 1;
        }
    }
    for (r, row) in rows.iter().enumerate() {
        for left_out in 0..4 {
            let shared = triangle(row, left_out);
            let across = (0..n).find(|&s| s != r && holds(&rows[s], &shared));
            work[4 * r + left_out] = across.expect("a neighbour") as u32;
        }
    }
    for id in 0..v {
        let held = [id as u32];
        work[4 * n + id] = inside_rows_holding(&rows, final_marks, &held) as u32;
        work[4 * n + v + id] = rows_holding(&rows, &held).count() as u32;
    }
    let skin = skin(&rows, final_marks);
    for (i, &ids) in skin.iter().enumerate() {
        let listed = match &points {
            Some(points) if word_7 == 1 => points.outward(&rows, final_marks, ids),
            _ => ids,
        };
        triangles[3 * i..3 * i + 3].copy_from_slice(&listed);
    }
    Outcome::done(taken, skin.len() as u32)
}

/// The rows of a job that is laid out.
fn rows_of(job: &[u8]) -> Vec<Row> {
    let row = |r| [0, 4, 8, 12].map(|corner| number(job, HEADER_BYTES + ROW_BYTES * r + corner));
    (0..number(job, 4) as usize).map(row).collect()
}

/// The points of a job that is laid out, if it has points.
fn points_of(job: &[u8]) -> Option<Points> {
    let [n, p, word_7] = [4, 8, 28].map(|at| number(job, at) as usize);
    let [_, _, points_at] = places(n, p);
    (word_7 == 1 || word_7 == 3).then(|| Points::read(&job[points_at..]))
}

/// The word that begins at a byte.
fn number(job: &[u8], at: usize) -> u32 {
    (0..4).map(|i| u32::from(job[at + i]) << (8 * i)).sum()
}

/// Where marks and proposals begin, and where the proposals end.
fn places(n: usize, p: usize) -> [usize; 3] {
    let marks = HEADER_BYTES + ROW_BYTES * n;
    let proposals = marks + MARK_BYTES * n;
    [marks, proposals, proposals + PROPOSAL_BYTES * p]
}

/// Codes 1 to 3.
fn refused_by_header(job: &[u8]) -> Option<u32> {
    if job.len() < HEADER_BYTES {
        return Some(1);
    }
    let word = |i: usize| number(job, 4 * i) as usize;
    let [v, n, p] = [word(0), word(1), word(2)];
    if !IDS.contains(&v) || !ROWS.contains(&n) || !PROPOSALS.contains(&p) {
        return Some(2);
    }
    let [marks, proposals, end] = places(n, p);
    let length = match word(7) {
        0 => end,
        1 | 3 => end + POINT_BYTES * v,
        _ => return Some(3),
    };
    let laid_out = word(3) == HEADER_BYTES
        && word(4) == marks
        && word(5) == proposals
        && word(6) == length
        && job.len() == length;
    (!laid_out).then_some(3)
}

/// Codes 5 to 12 with their places; those of points come after them.
fn refused_by_table(v: usize, rows: &[Row], marks: &[u8]) -> Option<(u32, usize)> {
    let first = |code: u32, fault: &dyn Fn(usize) -> bool| {
        let place = (0..rows.len()).find(|&r| fault(r))?;
        Some((code, place))
    };
    let rising = |r: usize| (0..3).all(|i| rows[r][i] < rows[r][i + 1]);
    let below = |r: usize| rows[r].iter().all(|&id| (id as usize) < v);
    first(5, &|r| !rising(r) || !below(r))
        .or_else(|| first(6, &|r| r > 0 && rows[r] <= rows[r - 1]))
        .or_else(|| first(7, &|r| !triangle_rule_at(rows, r)))
        .or_else(|| {
            let beside = all_neighbours(rows);
            let joined = |ids: &[u32]| {
                let held: Vec<usize> = rows_holding(rows, ids).collect();
                all_joined(held.len(), |i, j| beside[held[i]][held[j]])
            };
            let edges = |r: usize| EDGES.map(|[a, b, ..]| [rows[r][a], rows[r][b]]);
            let joined_at: Vec<bool> = (0..v as u32).map(|id| joined(&[id])).collect();
            first(8, &|r| edges(r).iter().any(|edge| !joined(edge)))
                .or_else(|| first(9, &|r| rows[r].iter().any(|&id| !joined_at[id as usize])))
        })
        .or_else(|| first(10, &|r| marks[r] != 0 && marks[r] != 1))
        .or_else(|| {
            let outer = |r: &usize| rows[*r].contains(&0);
            let lowest = (0..rows.len()).find(outer)?;
            first(11, &|r| outer(&r) && marks[r] != marks[lowest])
        })
        .or_else(|| {
            let skin = skin(rows, marks);
            let place = (0..v).find(|&id| !one_ring_or_off_skin(&skin, id as u32))?;
            Some((12, place))
        })
}

fn holds(row: &Row, ids: &[u32]) -> bool {
    ids.iter().all(|id| row.contains(id))
}

fn rows_holding<'a>(rows: &'a [Row], ids: &'a [u32]) -> impl Iterator<Item = usize> + 'a {
    (0..rows.len()).filter(move |&r| holds(&rows[r], ids))
}

fn triangle(row: &Row, left_out: usize) -> [u32; 3] {
    TRIANGLES[left_out].map(|corner| row[corner])
}

fn triangle_rule_at(rows: &[Row], r: usize) -> bool {
    (0..4).all(|left_out| rows_holding(rows, &triangle(&rows[r], left_out)).count() == 2)
}

/// For each two rows, whether they are neighbours: both hold a triangle.
fn all_neighbours(rows: &[Row]) -> Vec<Vec<bool>> {
    let n = rows.len();
    let beside = |r: usize, s: usize| {
        r != s && (0..4).any(|left_out| holds(&rows[s], &triangle(&rows[r], left_out)))
    };
    (0..n)
        .map(|r| (0..n).map(|s| beside(r, s)).collect())
        .collect()
}

/// Whether any two of `count` things are joined by a chain of steps: the
/// closure of the steps, taken until it stays as it is.
fn all_joined(count: usize, step: impl Fn(usize, usize) -> bool) -> bool {
    let mut joined: Vec<Vec<bool>> = (0..count)
        .map(|i| (0..count).map(|j| i == j || step(i, j)).collect())
        .collect();
    loop {
        let before = joined.clone();
        for i in 0..count {
            for j in 0..count {
                joined[i][j] = (0..count).any(|k| before[i][k] && before[k][j]);
            }
        }
        if joined == before {
            return joined.iter().flatten().all(|&joined| joined);
        }
    }
}

/// The triangles in exactly one inside row, by inside row and left-out corner.
pub fn skin(rows: &[Row], marks: &[u8]) -> Vec<[u32; 3]> {
    let mut skin = Vec::new();
    for (r, row) in rows.iter().enumerate() {
        for left_out in 0..4 {
            let ids = triangle(row, left_out);
            if marks[r] == 1 && inside_rows_holding(rows, marks, &ids) == 1 {
                skin.push(ids);
            }
        }
    }
    skin
}

fn inside_rows_holding(rows: &[Row], marks: &[u8], ids: &[u32]) -> usize {
    rows_holding(rows, ids).filter(|&r| marks[r] == 1).count()
}

/// How many of a row's triangles are on the skin: f of the five cases.
pub fn triangles_on_skin(rows: &[Row], marks: &[u8], row: usize) -> usize {
    left_out_of_skin(rows, marks, row).len()
}

/// The left-out corners of the row's triangles that are on the skin.
fn left_out_of_skin(rows: &[Row], marks: &[u8], row: usize) -> Vec<usize> {
    let on_skin =
        |&left_out: &usize| inside_rows_holding(rows, marks, &triangle(&rows[row], left_out)) == 1;
    (0..4).filter(on_skin).collect()
}

/// Whether the far edges of each vertex of a skin form one ring.
pub fn is_clean(ids: u32, skin: &[[u32; 3]]) -> bool {
    (0..ids).all(|id| one_ring_or_off_skin(skin, id))
}

fn one_ring_or_off_skin(skin: &[[u32; 3]], vertex: u32) -> bool {
    let far: Vec<Vec<u32>> = skin
        .iter()
        .filter(|ids| ids.contains(&vertex))
        .map(|ids| ids.iter().copied().filter(|&id| id != vertex).collect())
        .collect();
    let edges_at = |end: &u32| far.iter().filter(|edge| edge.contains(end)).count();
    let two_at_each = far.iter().flatten().all(|end| edges_at(end) == 2);
    let share_end = |i: usize, j: usize| far[i].iter().any(|end| far[j].contains(end));
    two_at_each && all_joined(far.len(), share_end)
}

/// The answer to a proposal on the marks standing.
fn answer(rows: &[Row], marks: &[u8], row: u32, kind: u32) -> u8 {
    let r = row as usize;
    if r >= rows.len() {
        1
    } else if kind != 1 && kind != 2 {
        2
    } else if rows[r].contains(&0) {
        3
    } else if (kind == 1 && marks[r] == 1) || (kind == 2 && marks[r] == 0) {
        4
    } else if five_cases_pass(rows, marks, r, kind) {
        0
    } else {
        match triangles_on_skin(rows, marks, r) {
            0 => 5,
            1 => 6,
            2 => 7,
            f => panic!("f = {f} passes"),
        }
    }
}

fn five_cases_pass(rows: &[Row], marks: &[u8], row: usize, kind: u32) -> bool {
    let other_side = if kind == 1 { 1 } else { 0 };
    let free = |ids: &[u32]| !rows_holding(rows, ids).any(|r| marks[r] == other_side);
    let ids = rows[row];
    let left_out = left_out_of_skin(rows, marks, row);
    match left_out.len() {
        0 => ids.iter().all(|&id| free(&[id])),
        1 => free(&[ids[left_out[0]]]),
        2 => {
            let on_skin: Vec<[u32; 3]> = left_out.iter().map(|&k| triangle(&ids, k)).collect();
            let in_neither = |edge: &[u32; 2]| {
                !on_skin
                    .iter()
                    .any(|ids| edge.iter().all(|id| ids.contains(id)))
            };
            let edges = EDGES.map(|[a, b, ..]| [ids[a], ids[b]]);
            let mut tested = edges.iter().filter(|edge| in_neither(edge));
            let edge = tested.next().expect("an edge in neither triangle");
            assert!(tested.next().is_none(), "one such edge");
            free(edge)
        }
        _ => true,
    }
}
