//! Points that break the rules for them.

use crate::placed::random_point;
use crate::{Job, Point, Random};
use common::{GRID, MOST_IDS, TRIANGLES};

/// Points anywhere, or so near to one another that most rows are flat.
pub(super) fn scattered(ids: u32, random: &mut Random) -> Vec<Point> {
    let reach = random.pick(&[1, 3, 1023, 1023]);
    let mut points = vec![[0; 3]];
    points.extend((1..ids).map(|_| random_point(reach, random)));
    points
}

/// Takes away points, or puts in some, where the ids have become fewer or more.
pub(super) fn one_for_each_id(job: &mut Job, random: &mut Random) {
    if let Some(points) = &mut job.points {
        points.resize_with(job.ids as usize, || random_point(1023, random));
    }
}

/// Changes points of a job that has one for each id, of at least five; the
/// layout stays right.
pub(super) fn damage(job: &mut Job, random: &mut Random) -> &'static str {
    if random.chance(10) && (job.ids as usize) < MOST_IDS {
        job.ids += 1;
        one_for_each_id(job, random);
        move_far(job, job.ids as usize - 1, random);
        return "the point of an unused id far away";
    }
    let finite: Vec<[u32; 4]> = job.rows.iter().copied().filter(|row| row[0] != 0).collect();
    let row = random.pick_any(&finite);
    let id = random.below(job.ids as usize);
    let Some(points) = &mut job.points else {
        return "no points";
    };
    match (random.below(10), row) {
        (0 | 1, _) => {
            for _ in 0..random.pick(&[1, 1, 2, 3]) {
                let id = random.below(job.ids as usize);
                move_far(job, id, random);
            }
            "points far away"
        }
        (2, _) => {
            points[0][random.below(3)] = random.pick(&[1, -1, 256, 1023, 1024, -32768]);
            "id 0 not zero"
        }
        (3..6, Some(row)) => {
            let (ids, fourth) = triangle_and_fourth(row, random);
            let [a, b, c] = ids.map(|id| points[id as usize]);
            points[fourth as usize] = in_plane(a, b, c, random);
            "a point in the plane of a triangle"
        }
        (6..8, Some(row)) => {
            let (ids, fourth) = triangle_and_fourth(row, random);
            let [a, b, c] = ids.map(|id| points[id as usize]);
            let through = |axis: usize| {
                let sum = i32::from(a[axis]) + i32::from(b[axis]) + i32::from(c[axis]);
                2 * sum / 3 - i32::from(points[fourth as usize][axis])
            };
            points[fourth as usize] = [0, 1, 2].map(|axis| on_grid(through(axis)));
            "a point through a triangle"
        }
        (8, _) => {
            let other = random.below(job.ids as usize);
            points.swap(id, other);
            "two points exchanged"
        }
        _ => {
            let reach = random.pick(&[1, 100, 1023]);
            points[id] = random_point(reach, random);
            "a point anywhere"
        }
    }
}

fn move_far(job: &mut Job, id: usize, random: &mut Random) {
    let far = random.pick(&[1024, -1024, 1025, 2047, -1280, i16::MAX, i16::MIN]);
    if let Some(points) = &mut job.points {
        points[id][random.below(3)] = far;
    }
}

fn triangle_and_fourth(row: [u32; 4], random: &mut Random) -> ([u32; 3], u32) {
    let left_out = random.below(4);
    let ids = TRIANGLES[left_out].map(|corner| row[corner]);
    (ids, row[left_out])
}

/// One of the three points, or another on a line or in a plane with them, if
/// the grid reaches as far.
fn in_plane(a: Point, b: Point, c: Point, random: &mut Random) -> Point {
    let [i, j] = random.pick(&[[0, 0], [1, 0], [2, 0], [-1, 0], [1, 1], [-1, 1], [1, -1]]);
    let at = [0, 1, 2].map(|axis| a[axis] + i * (b[axis] - a[axis]) + j * (c[axis] - a[axis]));
    if at.iter().all(|x| GRID.contains(x)) {
        at
    } else {
        a
    }
}

fn on_grid(x: i32) -> i16 {
    x.clamp(i32::from(*GRID.start()), i32::from(*GRID.end())) as i16
}
