//! A job in either order, and what must hold of a skin that is listed outward.

use crate::geometry::{exact, volume};
use crate::{Job, Point};
use common::{Order, TRIANGLES};
use std::collections::HashMap;

/// The bytes of a job that asks for each order, outward and then rising, if its
/// word 7 asks for one of them.
pub fn in_each_order(job: &[u8]) -> Option<[Vec<u8>; 2]> {
    let at = 28..32;
    let word_7 = job.get(at.clone())?.try_into().ok()?;
    Order::told_by(u32::from_le_bytes(word_7))?;
    Some(Order::EACH.map(|order| {
        let mut asking = job.to_vec();
        asking[at.clone()].copy_from_slice(&order.word_7().to_le_bytes());
        asking
    }))
}

/// A directed edge of a listed triangle.
type Step = [u32; 2];

/// What is wrong with the triangles listed outward, beside the rising list, of
/// a job with points and these final marks.
pub fn fault(
    job: &Job,
    final_marks: &[u8],
    rising: &[[u32; 3]],
    outward: &[[u32; 3]],
) -> Option<String> {
    let points = job.points.as_ref()?;
    not_the_rising_ones(rising, outward)
        .or_else(|| not_once_each_way(outward))
        .or_else(|| {
            let sides = Sides::of(job, final_marks);
            let inward = outward.iter().find(|&ids| !sides.is_outward(points, ids))?;
            Some(format!("{inward:?} is not outward"))
        })
}

fn not_the_rising_ones(rising: &[[u32; 3]], outward: &[[u32; 3]]) -> Option<String> {
    if rising.len() != outward.len() {
        return Some("the lists are not equally long".to_string());
    }
    let same = |&[a, b, c]: &[u32; 3], ids: &[u32; 3]| *ids == [a, b, c] || *ids == [a, c, b];
    let at = (0..rising.len()).find(|&i| !same(&rising[i], &outward[i]))?;
    Some(format!("{:?} is listed as {:?}", rising[at], outward[at]))
}

/// Each edge must be passed exactly once each way.
fn not_once_each_way(outward: &[[u32; 3]]) -> Option<String> {
    let mut passed: HashMap<Step, usize> = HashMap::new();
    for &[a, b, c] in outward {
        for step in [[a, b], [b, c], [c, a]] {
            *passed.entry(step).or_default() += 1;
        }
    }
    let wrong = |&([a, b], &times): &(Step, &usize)| times != 1 || !passed.contains_key(&[b, a]);
    let steps = passed.iter().map(|(&step, times)| (step, times));
    let ([a, b], times) = steps.filter(wrong).min()?;
    let back = passed.get(&[b, a]).unwrap_or(&0);
    Some(format!(
        "{a} to {b} is passed {times} times, and {back} back"
    ))
}

/// For each triangle the fourth corner of the outside row that holds it, and of
/// the inside row. Of a skin triangle there is one each; it is 0 for an outer
/// row.
struct Sides(HashMap<[u32; 3], [Option<u32>; 2]>);

impl Sides {
    fn of(job: &Job, final_marks: &[u8]) -> Sides {
        let mut fourths = HashMap::new();
        for (row, &mark) in job.rows.iter().zip(final_marks) {
            for (left_out, triangle) in TRIANGLES.iter().enumerate() {
                let ids = triangle.map(|corner| row[corner]);
                let beside: &mut [Option<u32>; 2] = fourths.entry(ids).or_default();
                beside[usize::from(mark)] = Some(row[left_out]);
            }
        }
        Sides(fourths)
    }

    fn is_outward(&self, points: &[Point], listed: &[u32; 3]) -> bool {
        let mut ids = *listed;
        ids.sort_unstable();
        let product = |fourth: u32| {
            let [a, b, c] = listed.map(|id| exact(points[id as usize]));
            volume(&a, &b, &c, &exact(points[fourth as usize]))
        };
        match self.0.get(&ids) {
            Some([Some(outside), Some(0)]) => product(*outside) > 0,
            Some([Some(_), Some(inside)]) => product(*inside) < 0,
            _ => false,
        }
    }
}

#[cfg(test)]
mod tests {
    use super::*;
    use crate::tables;

    /// Job A with row 4 inside, or all but row 4.
    fn about_the_middle(marks: [u8; 5]) -> Job {
        let corners = [[1, 1, 1], [1, -1, -1], [-1, 1, -1], [-1, -1, 1]];
        Job {
            marks: marks.to_vec(),
            points: Some([&[[0; 3]], &corners[..]].concat()),
            ..tables::simplex().job()
        }
    }

    #[test]
    fn each_order_is_asked_for() {
        let job = about_the_middle([0, 0, 0, 0, 1]);
        let each = Order::EACH.map(|order| {
            let job = job.clone();
            Job { order, ..job }.bytes()
        });
        for bytes in &each {
            assert_eq!(in_each_order(bytes), Some(each.clone()));
        }
        let without = Job {
            points: None,
            ..job
        };
        assert_eq!(in_each_order(&without.bytes()), None);
        assert_eq!(in_each_order(&each[0][..31]), None);
    }

    #[test]
    fn each_fault_is_told() {
        let job = about_the_middle([0, 0, 0, 0, 1]);
        let rising = [[2, 3, 4], [1, 3, 4], [1, 2, 4], [1, 2, 3]];
        let outward = [[2, 4, 3], [1, 3, 4], [1, 4, 2], [1, 2, 3]];
        let fault = |outward: &[[u32; 3]]| fault(&job, &job.marks, &rising, outward);
        assert_eq!(fault(&outward), None);
        assert_eq!(
            fault(&outward[1..]).unwrap(),
            "the lists are not equally long"
        );
        let mut changed = outward;
        changed.swap(0, 1);
        assert_eq!(fault(&changed).unwrap(), "[2, 3, 4] is listed as [1, 3, 4]");
        changed = outward;
        changed[0].rotate_left(1);
        assert_eq!(fault(&changed).unwrap(), "[2, 3, 4] is listed as [4, 3, 2]");
        changed = outward;
        changed[3].swap(1, 2);
        assert_eq!(
            fault(&changed).unwrap(),
            "1 to 3 is passed 2 times, and 0 back"
        );
        let inward = outward.map(|[a, b, c]| [a, c, b]);
        assert_eq!(fault(&inward).unwrap(), "[2, 3, 4] is not outward");
    }

    #[test]
    fn under_the_sky_the_ground_lies_in_front() {
        let job = about_the_middle([1, 1, 1, 1, 0]);
        let rising = [[1, 2, 3], [1, 2, 4], [1, 3, 4], [2, 3, 4]];
        let outward = [[1, 3, 2], [1, 2, 4], [1, 4, 3], [2, 3, 4]];
        assert_eq!(fault(&job, &job.marks, &rising, &outward), None);
        let inward = outward.map(|[a, b, c]| [a, c, b]);
        let told = fault(&job, &job.marks, &rising, &inward);
        assert_eq!(told.unwrap(), "[1, 2, 3] is not outward");
    }
}
