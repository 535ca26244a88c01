//! The jobs of document 01 with their whole results, and jobs with points. Every
//! buffer is lent one longer than needed and filled with 9s.

use common::{Buffers, Order, Outcome, Rooms};
use jobs::{Job, Point};

fn job_a() -> Job {
    Job {
        ids: 5,
        rows: vec![
            [0, 1, 2, 3],
            [0, 1, 2, 4],
            [0, 1, 3, 4],
            [0, 2, 3, 4],
            [1, 2, 3, 4],
        ],
        marks: vec![0; 5],
        proposals: vec![[4, 1], [4, 1], [0, 1], [4, 2], [4, 3], [5, 1], [4, 1]],
        points: None,
        order: Order::default(),
    }
}

const NEIGHBOURS_A: [u32; 20] = [4, 3, 2, 1, 4, 3, 2, 0, 4, 3, 1, 0, 4, 2, 1, 0, 3, 2, 1, 0];

/// What a run leaves in the work area: the neighbour list, for each id the tally
/// of the inside rows, and for each id that of all rows.
type Work<'a> = [&'a [u32]; 3];

/// Job A with nothing inside, with row 4, with rows 0 to 3, and with all.
const NONE: Work = [&NEIGHBOURS_A, &[0; 5], &[4; 5]];
const ROW_4: Work = [&NEIGHBOURS_A, &[0, 1, 1, 1, 1], &[4; 5]];
const ALL_BUT_4: Work = [&NEIGHBOURS_A, &[4, 3, 3, 3, 3], &[4; 5]];
const ALL: Work = [&NEIGHBOURS_A, &[4; 5], &[4; 5]];

fn job_b() -> Job {
    let mut rows = Vec::new();
    for [a, b] in [[0, 1], [0, 2], [1, 2]] {
        for [c, d] in [[3, 4], [3, 6], [4, 5], [5, 6]] {
            rows.push([a, b, c, d]);
        }
    }
    Job {
        ids: 7,
        rows,
        marks: vec![0; 12],
        proposals: vec![[8, 1], [11, 1], [10, 1], [11, 1], [9, 1], [8, 2], [11, 2]],
        points: None,
        order: Order::default(),
    }
}

/// Two copies of A's table; the second has `second` in place of 0 1 2 3 4.
fn twice_a(ids: u32, second: [u32; 5]) -> Job {
    let a = job_a();
    let copy = a.rows.iter().map(|row| row.map(|id| second[id as usize]));
    let mut rows: Vec<[u32; 4]> = a.rows.iter().copied().chain(copy).collect();
    rows.sort();
    Job {
        ids,
        rows,
        marks: vec![0; 10],
        proposals: vec![],
        points: None,
        order: Order::default(),
    }
}

/// The job with points: 0 0 0 for id 0, and these for the others.
fn placed(job: Job, points: &[Point]) -> Job {
    Job {
        points: Some([&[[0; 3]], points].concat()),
        ..job
    }
}

/// The job with another point for one id.
fn moved(mut job: Job, id: usize, point: Point) -> Job {
    job.points.as_mut().expect("a job with points")[id] = point;
    job
}

/// About the middle. Of 1 2 3 and of 1 3 4 the fourth point lies behind.
const TETRAHEDRON: [Point; 4] = [[16, 16, 16], [16, -16, -16], [-16, 16, -16], [-16, -16, 16]];

/// The edge 1 2, and 3 to 6 round it.
const OCTAHEDRON: [Point; 6] = [
    [0, 0, 16],
    [0, 0, -16],
    [16, 0, 0],
    [0, 16, 0],
    [-16, 0, 0],
    [0, -16, 0],
];

/// The tetrahedron with id 5 in its middle and id 6 in its row 2 3 4 5.
fn split_twice() -> Job {
    let job = Job {
        ids: 7,
        rows: vec![
            [0, 1, 2, 3],
            [0, 1, 2, 4],
            [0, 1, 3, 4],
            [0, 2, 3, 4],
            [1, 2, 3, 5],
            [1, 2, 4, 5],
            [1, 3, 4, 5],
            [2, 3, 4, 6],
            [2, 3, 5, 6],
            [2, 4, 5, 6],
            [3, 4, 5, 6],
        ],
        marks: vec![0; 11],
        proposals: vec![],
        points: None,
        order: Order::default(),
    };
    placed(
        job,
        &[&TETRAHEDRON[..], &[[0, 0, 0], [-3, -3, -3]]].concat(),
    )
}

/// The job with these rows inside.
fn inside(mut job: Job, rows: &[usize]) -> Job {
    for &row in rows {
        job.marks[row] = 1;
    }
    job
}

fn nines(job: &Job) -> Buffers {
    let Rooms {
        answers,
        final_marks,
        triangles,
        work,
    } = job.rooms();
    let one_longer = Rooms {
        answers: answers + 1,
        final_marks: final_marks + 1,
        triangles: triangles + 1,
        work: work + 1,
    };
    Buffers::filled(one_longer, 9)
}

/// Runs a job that is refused by its header or for want of room.
fn refused_early(bytes: &[u8], buffers: &Buffers, code: u32) {
    let mut left = buffers.clone();
    let outcome = plain::run(bytes, left.lend());
    assert_eq!(outcome, Outcome::refused(code, 0));
    assert_eq!(left, *buffers);
}

/// The job with points that asks for this order.
fn asking(order: Order, job: &Job) -> Job {
    Job {
        order,
        ..job.clone()
    }
}

/// Runs a job that is refused by its table, its marks or its points, whichever
/// order it asks for.
fn refused_late(job: &Job, code: u32, place: u32) {
    for order in Order::EACH {
        let mut left = nines(job);
        let mut expected = left.clone();
        expected.work[..job.rooms().work].fill(0);
        let outcome = plain::run(&asking(order, job).bytes(), left.lend());
        assert_eq!(outcome, Outcome::refused(code, place));
        assert_eq!(left, expected);
    }
}

/// Runs a job that is not refused.
fn done(job: &Job, answers: &[u8], marks: &[u8], skin: &[[u32; 3]], work: Work) {
    let mut left = nines(job);
    let mut expected = left.clone();
    expected.answers[..answers.len()].copy_from_slice(answers);
    expected.final_marks[..marks.len()].copy_from_slice(marks);
    expected.triangles[..3 * skin.len()].copy_from_slice(skin.as_flattened());
    let work = work.concat();
    assert_eq!(work.len(), job.rooms().work);
    expected.work[..work.len()].copy_from_slice(&work);
    let taken = answers.iter().filter(|&&answer| answer == 0).count();
    let outcome = plain::run(&job.bytes(), left.lend());
    assert_eq!(outcome, Outcome::done(taken as u32, skin.len() as u32));
    assert_eq!(left, expected);
}

fn done_as_a(job: &Job, work: Work) {
    done(
        job,
        &[0, 4, 3, 0, 2, 1, 0],
        &[0, 0, 0, 0, 1],
        &[[2, 3, 4], [1, 3, 4], [1, 2, 4], [1, 2, 3]],
        work,
    );
}

#[test]
fn case_a() {
    done_as_a(&job_a(), ROW_4);
}

#[test]
fn case_b() {
    let mut neighbours = Vec::new();
    for (e, [out_low, out_high]) in [[2, 1], [2, 0], [1, 0]].into_iter().enumerate() {
        for (f, [low, high]) in [[2, 1], [3, 0], [3, 0], [1, 2]].into_iter().enumerate() {
            let (e, f) = (e as u32, f as u32);
            neighbours.extend([4 * out_low + f, 4 * out_high + f, 4 * e + low, 4 * e + high]);
        }
    }
    done(
        &job_b(),
        &[0, 5, 0, 0, 0, 0, 7],
        &[0, 0, 0, 0, 0, 0, 0, 0, 0, 1, 1, 1],
        &[
            [2, 3, 6],
            [1, 3, 6],
            [1, 2, 3],
            [2, 4, 5],
            [1, 4, 5],
            [1, 2, 4],
            [2, 5, 6],
            [1, 5, 6],
        ],
        [&neighbours, &[0, 3, 3, 1, 1, 2, 2], &[8, 8, 8, 6, 6, 6, 6]],
    );
}

/// The tallies of the inside rows after each proposal of job B, of which the
/// second and the last are refused.
#[test]
fn tallies_of_b() {
    let mut job = job_b();
    let proposals = std::mem::take(&mut job.proposals);
    for (k, inside) in [
        [0, 0, 0, 0, 0, 0, 0],
        [0, 1, 1, 1, 1, 0, 0],
        [0, 1, 1, 1, 1, 0, 0],
        [0, 2, 2, 1, 2, 1, 0],
        [0, 3, 3, 1, 2, 2, 1],
        [0, 4, 4, 2, 2, 2, 2],
        [0, 3, 3, 1, 1, 2, 2],
        [0, 3, 3, 1, 1, 2, 2],
    ]
    .into_iter()
    .enumerate()
    {
        job.proposals = proposals[..k].to_vec();
        let mut left = nines(&job);
        assert_eq!(plain::run(&job.bytes(), left.lend()).code, 0);
        assert_eq!(left.work[48..55], inside, "{k}");
        assert_eq!(left.work[55..], [8, 8, 8, 6, 6, 6, 6, 9], "{k}");
    }
}

#[test]
fn case_c() {
    refused_late(&inside(job_b(), &[8, 11]), 12, 1);
}

#[test]
fn case_d() {
    let mut job = job_a();
    job.marks[3] = 2;
    refused_late(&job, 10, 3);
}

#[test]
fn case_e() {
    refused_late(&inside(job_a(), &[0]), 11, 1);
}

#[test]
fn case_f() {
    let mut job = job_a();
    job.proposals.clear();
    done(&job, &[], &[0; 5], &[], NONE);
}

#[test]
fn case_g() {
    let mut job = job_a();
    job.rows[4] = [1, 2, 3, 3];
    refused_late(&job, 5, 4);
}

#[test]
fn case_h() {
    let mut job = job_a();
    job.rows[4] = job.rows[3];
    refused_late(&job, 6, 4);
}

#[test]
fn case_i() {
    refused_late(&twice_a(8, [0, 1, 5, 6, 7]), 8, 0);
}

#[test]
fn case_j() {
    refused_late(&twice_a(9, [0, 5, 6, 7, 8]), 9, 0);
}

#[test]
fn rows_outside_their_limits() {
    let mut job = job_a();
    job.rows.pop();
    job.marks.pop();
    refused_early(&job.bytes(), &nines(&job), 2);
    job.rows = vec![[0, 1, 2, 3]; 2049];
    job.marks = vec![0; 2049];
    refused_early(&job.bytes(), &nines(&job), 2);
}

#[test]
fn thirty_one_bytes() {
    refused_early(&job_a().bytes()[..31], &nines(&job_a()), 1);
    refused_early(&[], &nines(&job_a()), 1);
}

#[test]
fn cut_by_a_byte() {
    let bytes = job_a().bytes();
    refused_early(&bytes[..bytes.len() - 1], &nines(&job_a()), 3);
}

#[test]
fn six_ids() {
    let mut job = job_a();
    job.ids = 6;
    let work: Work = [&NEIGHBOURS_A, &[0, 1, 1, 1, 1, 0], &[4, 4, 4, 4, 4, 0]];
    done_as_a(&job, work);
    // Two words more than job A.
    let mut short = nines(&job);
    short.work.truncate(31);
    refused_early(&job.bytes(), &short, 4);
}

#[test]
fn room_short_by_one() {
    let bytes = job_a().bytes();
    let exact = Buffers {
        answers: vec![9; 7],
        final_marks: vec![9; 5],
        triangles: vec![9; 30],
        work: vec![9; 30],
    };
    assert_eq!(plain::run(&bytes, exact.clone().lend()).code, 0);
    let mut short = exact.clone();
    short.answers.pop();
    refused_early(&bytes, &short, 4);
    short = exact.clone();
    short.final_marks.pop();
    refused_early(&bytes, &short, 4);
    short = exact.clone();
    short.triangles.pop();
    refused_early(&bytes, &short, 4);
    short = exact.clone();
    short.work.pop();
    refused_early(&bytes, &short, 4);
    // For the tallies of the inside rows alone, and for none.
    for words in [25, 20] {
        short.work.truncate(words);
        refused_early(&bytes, &short, 4);
    }
}

#[test]
fn earlier_codes_decide() {
    // A row out of order stands before one whose ids don't rise.
    let mut job = job_a();
    job.rows[1] = job.rows[0];
    job.rows[4] = [1, 2, 3, 3];
    refused_late(&job, 5, 4);
    // A bad mark stands after outer rows with unlike marks.
    let mut job = inside(job_a(), &[0]);
    job.marks[4] = 255;
    refused_late(&job, 10, 4);
}

/// Job A with every outer row inside, and with every row.
#[test]
fn sky_inside() {
    let link = [[1, 2, 3], [1, 2, 4], [1, 3, 4], [2, 3, 4]];
    let mut sky = inside(job_a(), &[0, 1, 2, 3]);
    sky.proposals.clear();
    done(&sky, &[], &[1, 1, 1, 1, 0], &link, ALL_BUT_4);
    sky.proposals = vec![[4, 1]];
    done(&sky, &[0], &[1; 5], &[], ALL);
    let mut all = inside(job_a(), &[0, 1, 2, 3, 4]);
    all.proposals.clear();
    done(&all, &[], &[1; 5], &[], ALL);
    all.proposals = vec![[4, 2]];
    done(&all, &[0], &[1, 1, 1, 1, 0], &link, ALL_BUT_4);
}

#[test]
fn unlike_outer_rows() {
    refused_late(&inside(job_a(), &[0, 1]), 11, 2);
    refused_late(&inside(job_a(), &[1, 2, 3, 4]), 11, 1);
    refused_late(&inside(job_a(), &[3]), 11, 3);
    refused_late(&inside(job_a(), &[0, 1, 2]), 11, 3);
}

/// Job A with each id one higher: no row holds id 0, and none is outer.
#[test]
fn no_outer_row() {
    let mut job = inside(job_a(), &[0]);
    job.ids = 6;
    job.proposals.clear();
    for row in &mut job.rows {
        *row = row.map(|id| id + 1);
    }
    let skin = [[2, 3, 4], [1, 3, 4], [1, 2, 4], [1, 2, 3]];
    let work: Work = [&NEIGHBOURS_A, &[0, 1, 1, 1, 1, 0], &[0, 4, 4, 4, 4, 4]];
    done(&job, &[], &[1, 0, 0, 0, 0], &skin, work);
}

/// Job A with points, in both orders.
#[test]
fn a_with_points() {
    let job = placed(job_a(), &TETRAHEDRON);
    assert_eq!(job.bytes().len(), 173 + 6 * 5);
    let rising = [[2, 3, 4], [1, 3, 4], [1, 2, 4], [1, 2, 3]];
    let outward = [[2, 4, 3], [1, 3, 4], [1, 4, 2], [1, 2, 3]];
    for (order, skin) in [(Order::Rising, rising), (Order::Outward, outward)] {
        done(
            &asking(order, &job),
            &[0, 4, 3, 0, 2, 1, 0],
            &[0, 0, 0, 0, 1],
            &skin,
            ROW_4,
        );
    }
}

/// With two points exchanged each triangle turns.
#[test]
fn mirrored_a_with_points() {
    let [a, b, c, d] = TETRAHEDRON;
    let mut job = inside(placed(job_a(), &[b, a, c, d]), &[4]);
    job.proposals.clear();
    let outward = [[2, 3, 4], [1, 4, 3], [1, 2, 4], [1, 3, 2]];
    done(&job, &[], &[0, 0, 0, 0, 1], &outward, ROW_4);
}

/// The inside rows are outer, and the corner of row 4 lies in front.
#[test]
fn sky_inside_with_points() {
    let mut job = inside(placed(job_a(), &TETRAHEDRON), &[0, 1, 2, 3]);
    job.proposals.clear();
    let rising = [[1, 2, 3], [1, 2, 4], [1, 3, 4], [2, 3, 4]];
    let outward = [[1, 3, 2], [1, 2, 4], [1, 4, 3], [2, 3, 4]];
    for (order, skin) in [(Order::Rising, rising), (Order::Outward, outward)] {
        let job = asking(order, &job);
        done(&job, &[], &[1, 1, 1, 1, 0], &skin, ALL_BUT_4);
    }
}

#[test]
fn points_on_the_border_of_the_grid() {
    let corners = [
        [1023; 3],
        [1023, -1023, -1023],
        [-1023, 1023, -1023],
        [-1023, -1023, 1023],
    ];
    let mut job = inside(placed(job_a(), &corners), &[4]);
    job.proposals.clear();
    let outward = [[2, 4, 3], [1, 3, 4], [1, 4, 2], [1, 2, 3]];
    done(&job, &[], &[0, 0, 0, 0, 1], &outward, ROW_4);
}

#[test]
fn points_out_of_range() {
    let job = placed(job_a(), &TETRAHEDRON);
    for far in [1024, -1024, i16::MAX, i16::MIN] {
        for at in 0..3 {
            let mut point = TETRAHEDRON[2];
            point[at] = far;
            refused_late(&moved(job.clone(), 3, point), 13, 3);
            let two = moved(moved(job.clone(), 4, [far; 3]), 2, point);
            refused_late(&two, 13, 2);
        }
    }
    for at in 0..3 {
        let mut point = [0; 3];
        point[at] = 1;
        refused_late(&moved(job.clone(), 0, point), 13, 0);
    }
    // No row holds id 5.
    let unused = Job { ids: 6, ..job };
    let six = |last: Point| placed(unused.clone(), &[&TETRAHEDRON[..], &[last]].concat());
    refused_late(&six([0, 1024, 0]), 13, 5);
    let mut left = nines(&unused);
    let six = six([0, 1023, 0]);
    assert_eq!(plain::run(&six.bytes(), left.lend()).code, 0);
}

#[test]
fn flat_row() {
    let job = split_twice();
    let mut left = nines(&job);
    assert_eq!(plain::run(&job.bytes(), left.lend()).code, 0);
    // Into the plane of 3 4 5, which is y + z = 0.
    refused_late(&moved(job.clone(), 6, [-8, 2, -2]), 14, 10);
    // Onto the edge 4 5: rows 9 and 10 are flat.
    refused_late(&moved(job.clone(), 6, [-4, -4, 4]), 14, 9);
    refused_late(&placed(job_a(), &[[0; 3]; 4]), 14, 4);
}

#[test]
fn folded_neighbours() {
    // Through 3 4 5, into row 6.
    refused_late(&moved(split_twice(), 6, [-8, 4, -2]), 15, 6);
    // Id 5 out of the tetrahedron, through 1 2 4; row 5 turns over.
    refused_late(&moved(split_twice(), 5, [9, -9, 9]), 15, 4);
}

/// Damage of codes 12 to 15 in one job, taken back from the first on.
#[test]
fn earlier_codes_decide_with_points() {
    let mut job = inside(placed(job_b(), &OCTAHEDRON), &[8, 11]);
    refused_late(&job, 12, 1);
    // Row 9 is flat, and 4 lies below 1 3 6 and 1 5 6.
    job = moved(job, 6, [24, 0, 0]);
    job = moved(job, 4, [0, -16, 0]);
    job = moved(job, 5, [-16, 1024, 0]);
    refused_late(&job, 12, 1);
    job.marks.fill(0);
    refused_late(&job, 13, 5);
    job = moved(job, 5, OCTAHEDRON[4]);
    refused_late(&job, 14, 9);
    job = moved(job, 6, OCTAHEDRON[5]);
    refused_late(&job, 15, 8);
    job = moved(job, 4, OCTAHEDRON[3]);
    let mut left = nines(&job);
    assert_eq!(plain::run(&job.bytes(), left.lend()).code, 0);
}

/// Word 7 is 0, 1 or 3, and it and the length must fit one another.
#[test]
fn layout_with_points() {
    let with = placed(job_a(), &TETRAHEDRON);
    let buffers = nines(&with);
    for order in Order::EACH {
        let mut bytes = asking(order, &with).bytes();
        refused_early(&bytes[..bytes.len() - 1], &buffers, 3);
        bytes.push(0);
        refused_early(&bytes, &buffers, 3);
    }
    let bytes = with.bytes();
    for word in [0, 2, 4, 5, 16, 17, 19, 1 << 8 | 1, 1 << 16 | 3, 1 << 24] {
        let mut other = bytes.clone();
        other[28..32].copy_from_slice(&u32::to_le_bytes(word));
        refused_early(&other, &buffers, 3);
    }
    let mut without = job_a().bytes();
    for word in [1, 2, 3, 4] {
        without[28] = word;
        refused_early(&without, &buffers, 3);
    }
}

#[test]
fn timed_run_gives_the_same() {
    let job = job_b();
    let (mut timed, mut untimed) = (nines(&job), nines(&job));
    let mut stages = plain::Stages::default();
    let outcome = plain::run_timed(&job.bytes(), timed.lend(), &mut stages);
    assert_eq!(outcome, plain::run(&job.bytes(), untimed.lend()));
    assert_eq!(timed, untimed);
    assert!(!stages.neighbours.is_zero());
}

#[test]
fn listing_of_a() {
    let lines = "done 7 3 4\np 0 0\np 1 4\np 2 3\np 3 0\np 4 2\np 5 1\np 6 0\n\
                 t 2 3 4\nt 1 3 4\nt 1 2 4\nt 1 2 3\n";
    assert_eq!(plain::listing(&job_a().bytes()), lines);
    assert_eq!(plain::listing(&[0; 31]), "refused 1 0\n");
}
