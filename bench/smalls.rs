//! The small planner: held against our planner and against the plain Rust ones, then timed against the plain Rust small planner and
//! against our planner; and the stack that ours takes.
use crate::families::Family;
use crate::job::{self, Reading, Verdict};
use crate::planner::Planner;
use crate::tally::Tally;
use crate::{plans, proved, slices, small};

/// Places of the scratch.
const SCRATCH: usize = 512;

/// The plain Rust small planner as C calls ours: 0, or the refusal's number; the end is not told.
#[inline(never)]
fn rust_plan(file: &[u8], plan: &mut [u8]) -> u32 {
    small::plan(file, plan).err().unwrap_or(0)
}

/// What is due in slices: the starts and processors of the plain Rust planner that keeps arrivals, and zeros in the scratch.
fn due(file: &[u8], starts: &mut [u32], processors: &mut [u8], scratch: &mut [u32]) -> u32 {
    let mut reading = Reading::blank();
    job::read(file, &mut reading);
    let (tasks, edges) = match reading.verdict {
        Verdict::Counts { tasks, edges } => (tasks, edges),
        Verdict::Refused(number) => return u32::from(number),
    };
    if starts.len() < tasks || processors.len() < tasks || scratch.len() < SCRATCH {
        return 9;
    }
    Planner::<false>::new(&reading, tasks, edges, &mut [[0; 16]; 256]).run(|pair| {
        starts[pair.task] = pair.start;
        processors[pair.task] = pair.processor;
    });
    scratch[..SCRATCH].fill(0);
    0
}

/// The same number and bytes from the small planners, ours and the plain Rust one, as from our planner.
fn hold_planners(file: &[u8], tasks: usize, tally: &mut Tally) {
    for room in plans::rooms(tasks) {
        let mut known = vec![0xEE; room];
        let (mut ours, mut rust) = (known.clone(), known.clone());
        let answer = proved::plan(file, &mut known);
        for (whose, found, plan) in [
            ("our", proved::plan_small(file, &mut ours), &ours),
            ("the Rust", rust_plan(file, &mut rust), &rust),
        ] {
            assert_eq!(
                found, answer,
                "{whose} small planner: {room} bytes, job {file:?}"
            );
            assert!(
                *plan == known,
                "{whose} small planner's plan differs: {room} bytes, job {file:?}"
            );
        }
        tally.count(answer);
    }
}

/// Holds them against each other on these files; beside each stands its number of tasks, or a greater one.
pub fn hold(jobs: &[(Vec<u8>, usize)]) {
    let (mut planned, mut filled) = (Tally::new(), Tally::new());
    for (file, tasks) in jobs {
        hold_planners(file, *tasks, &mut planned);
        slices::hold([proved::small, due], SCRATCH, file, *tasks, &mut filled);
    }
    planned.print("our planner and both small planners");
    filled.print("our small planner in slices and the Rust planner");
}

fn time_planners(family: &Family) {
    let what = format!("plan small {}", family.name);
    plans::compare(&what, family, proved::plan_small, rust_plan);
}

fn time_beside(family: &Family) {
    let what = format!("small/plan {}", family.name);
    plans::compare(&what, family, proved::plan_small, proved::plan);
}

pub fn time(families: &[Family]) {
    families.iter().for_each(time_planners);
}

/// Times our small planner against our planner, each as C calls it.
pub fn time_beside_plan(families: &[Family]) {
    families.iter().for_each(time_beside);
}

/// The most stack that our call on slices takes on the jobs of the families.
pub fn measure_stack(families: &[Family]) {
    let address = proved::small_address();
    slices::measure_stack("timing_small", address, proved::small, SCRATCH, families);
}
