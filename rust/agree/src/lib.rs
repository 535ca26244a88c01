//! Runs the proved engine and `plain` on the same job and compares the outcome
//! and every byte and word of every lent buffer. The tallies that they leave are
//! recounted. A job that says it has points is run as it asks for each order, and
//! its outward list is looked at by itself.
//! `stl` does the same for the STL calls, and `mesh` looks at a file by itself.

pub mod mesh;
pub mod stl;

use common::{Buffers, Outcome};
use jobs::{outward, rings, tallies, Job};
use std::fmt::Debug;
use std::path::PathBuf;
use std::{env, fs, thread};

/// Compares jobs and counts what they came to.
pub struct Comparer {
    /// Where a job that the two disagree on is kept.
    folder: PathBuf,
    pub jobs: usize,
    /// How often each code was given.
    pub codes: [usize; 16],
    /// How often each answer was given to an add, a remove and any other kind,
    /// with the outer rows outside and with them inside.
    pub answers: [[[usize; 8]; 3]; 2],
    /// How often code 11 was given with the lowest outer row outside, and with
    /// it inside.
    pub unlike: [usize; 2],
    /// How often code 12 was given where one closed way passes all far edges of
    /// the vertex, with the outer rows outside and with them inside.
    pub pinched: [usize; 2],
    /// How often the outward list was another than the rising one, with the
    /// outer rows outside and with them inside.
    pub turned: [usize; 2],
}

/// What both engines gave and left.
struct Ran {
    outcome: Outcome,
    left: Buffers,
}

impl Ran {
    /// The triangles listed, and the words behind them.
    fn triangles(&self) -> (&[[u32; 3]], &[u32]) {
        let listed = 3 * self.outcome.triangles as usize;
        let (listed, behind) = self.left.triangles.split_at(listed);
        (listed.as_chunks().0, behind)
    }

    /// What is wrong with it by itself.
    fn fault(&self, job: &[u8]) -> Option<String> {
        if self.outcome.code != 0 {
            return None;
        }
        let Some(job) = Job::from_bytes(job) else {
            return Some("it is run and not laid out".to_string());
        };
        if self.triangles().0.as_flattened().contains(&0) {
            return Some("id 0 is listed".to_string());
        }
        tallies::fault(&job, &self.left.final_marks, &self.left.work)
    }
}

impl Comparer {
    pub fn new(folder: impl Into<PathBuf>) -> Comparer {
        Comparer {
            folder: folder.into(),
            jobs: 0,
            codes: [0; 16],
            answers: [[[0; 8]; 3]; 2],
            unlike: [0; 2],
            pinched: [0; 2],
            turned: [0; 2],
        }
    }

    /// Runs both on copies of `buffers` and panics if they disagree. `name` tells
    /// the job in the message and names the file with its bytes.
    pub fn compare(&mut self, name: &str, kind: &str, job: &[u8], buffers: &Buffers) {
        let ran = match outward::in_each_order(job) {
            None => self.run_both(name, kind, job, buffers),
            Some(each) => {
                let [outward, rising] = each.map(|job| self.run_both(name, kind, &job, buffers));
                if let Some(fault) = self.compare_orders(job, &rising, &outward) {
                    self.disagree(name, kind, job, &fault);
                }
                rising
            }
        };
        self.jobs += 1;
        self.codes[ran.outcome.code as usize] += 1;
        if let Some(job) = Job::from_bytes(job) {
            self.count(&job, &ran);
        }
    }

    fn run_both(&self, name: &str, kind: &str, job: &[u8], buffers: &Buffers) -> Ran {
        let mut by_track = buffers.clone();
        let mut by_plain = buffers.clone();
        let track = track::run(job, by_track.lend());
        let plain = plain::run(job, by_plain.lend());
        let differences = [
            (track != plain).then(|| format!("{track:?} by track and {plain:?} by plain")),
            first_difference("answers", &by_track.answers, &by_plain.answers),
            first_difference("final marks", &by_track.final_marks, &by_plain.final_marks),
            first_difference("triangles", &by_track.triangles, &by_plain.triangles),
            first_difference("work", &by_track.work, &by_plain.work),
        ];
        let differences: Vec<String> = differences.into_iter().flatten().collect();
        if !differences.is_empty() {
            self.disagree(name, kind, job, &differences.join("; "));
        }
        let ran = Ran {
            outcome: track,
            left: by_track,
        };
        if let Some(fault) = ran.fault(job) {
            self.disagree(name, kind, job, &fault);
        }
        ran
    }

    fn disagree(&self, name: &str, kind: &str, job: &[u8], what: &str) -> ! {
        let path = self.folder.join(format!("{name}.job"));
        let kept = match fs::write(&path, job) {
            Ok(()) => format!("job kept in {}", path.display()),
            Err(error) => format!("job not kept: {error}"),
        };
        panic!("{name} ({kind}): {what}; {kept}");
    }

    /// What is wrong where both orders of a job are beside one another: all but
    /// the triangles is the same, and they are as an outward list must be.
    fn compare_orders(&mut self, job: &[u8], rising: &Ran, outward: &Ran) -> Option<String> {
        let ((by_ids, behind), (by_sides, also_behind)) = (rising.triangles(), outward.triangles());
        let same = rising.outcome == outward.outcome
            && rising.left.answers == outward.left.answers
            && rising.left.final_marks == outward.left.final_marks
            && rising.left.work == outward.left.work
            && behind == also_behind;
        if !same {
            return Some("the order changes more than the triangles".to_string());
        }
        if rising.outcome.code != 0 {
            return None;
        }
        let Some(job) = Job::from_bytes(job) else {
            return Some("it is run and not laid out".to_string());
        };
        self.turned[sky_of(&job)] += usize::from(by_ids != by_sides);
        if !by_ids.iter().all(|ids| ids.is_sorted_by(|a, b| a < b)) {
            return Some("ids don't rise where rising is asked for".to_string());
        }
        outward::fault(&job, &rising.left.final_marks, by_ids, by_sides)
    }

    fn count(&mut self, job: &Job, ran: &Ran) {
        let sky = sky_of(job);
        match ran.outcome.code {
            0 => {
                for ([_, kind], &answer) in job.proposals.iter().zip(&ran.left.answers) {
                    let kind = match *kind {
                        Job::ADD => 0,
                        Job::REMOVE => 1,
                        _ => 2,
                    };
                    self.answers[sky][kind][usize::from(answer)] += 1;
                }
            }
            11 => self.unlike[sky] += 1,
            12 => {
                let one_way = rings::passed_by_one_way(job, ran.outcome.place);
                self.pinched[sky] += usize::from(one_way);
            }
            _ => {}
        }
    }

    /// Under either sky each kind has had every answer that it can have, at
    /// least so often.
    pub fn each_answer(&self, often: usize) -> bool {
        [0, 1].iter().all(|&sky| self.each_answer_under(sky, often))
    }

    /// The same with the outer rows outside (0), or inside (1).
    pub fn each_answer_under(&self, sky: usize, often: usize) -> bool {
        let [adds, removes, others] = &self.answers[sky];
        let each = |given: &[usize; 8], possible: &[usize]| {
            possible.iter().all(|&answer| given[answer] >= often)
        };
        let possible = [0, 1, 3, 4, 5, 6, 7];
        each(adds, &possible) && each(removes, &possible) && each(others, &[1, 2])
    }

    pub fn report(&self, title: &str) {
        println!(
            "{title}: {} jobs, codes {:?}, unlike marks {:?}, pinched {:?}, answers {:?}, turned {:?}",
            self.jobs, self.codes, self.unlike, self.pinched, self.answers, self.turned
        );
    }
}

/// 1 if the lowest outer row is inside, else 0.
fn sky_of(job: &Job) -> usize {
    usize::from(job.sky() == Some(1))
}

fn first_difference<T: PartialEq + Debug>(what: &str, track: &[T], plain: &[T]) -> Option<String> {
    let at = track.iter().zip(plain).position(|(x, y)| x != y)?;
    Some(format!(
        "{what} {at} is {:?} by track and {:?} by plain",
        track[at], plain[at]
    ))
}

/// Gives the engine stack to spare, whatever a test thread has.
pub fn with_stack(test: impl FnOnce() + Send + 'static) {
    let thread = thread::Builder::new().stack_size(8 << 20).spawn(test);
    if let Err(panic) = thread.expect("a thread").join() {
        std::panic::resume_unwind(panic);
    }
}

/// A number from the environment.
pub fn setting(name: &str, usual: u64) -> u64 {
    match env::var(name) {
        Ok(value) => value.parse().expect(name),
        Err(_) => usual,
    }
}
