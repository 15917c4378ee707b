//! The planner by weight: held against the plain Rust one, then timed against it and against our planner; and the stack that ours
//! takes in slices.
use crate::families::{Family, TASKS};
use crate::job::{self, Reading, Verdict};
use crate::planner::Planner;
use crate::tally::Tally;
use crate::{plans, proved, slices};

/// Places of the scratch.
const SCRATCH: usize = 16 * TASKS;

/// The plain Rust planner on slices: 0, or the refusal's number.
fn rust_plan(file: &[u8], starts: &mut [u32], processors: &mut [u8], scratch: &mut [u32]) -> u32 {
    let mut reading = Reading::blank();
    job::read(file, &mut reading);
    let (tasks, edges) = match reading.verdict {
        Verdict::Counts { tasks, edges } => (tasks, edges),
        Verdict::Refused(number) => return u32::from(number),
    };
    if starts.len() < tasks || processors.len() < tasks {
        return 9;
    }
    let Some(arrivals) = scratch.as_chunks_mut().0.first_chunk_mut() else {
        return 9;
    };
    *arrivals = [[0; 16]; 256];
    Planner::<true>::new(&reading, tasks, edges, arrivals).run(|pair| {
        starts[pair.task] = pair.start;
        processors[pair.task] = pair.processor;
    });
    0
}

/// Holds them against each other on these files; beside each stands its number of tasks, or a greater one.
pub fn hold(jobs: &[(Vec<u8>, usize)]) {
    let (mut planned, mut filled) = (Tally::new(), Tally::new());
    for (file, tasks) in jobs {
        let planners = [proved::plan_by_weight, plans::rust_plan::<true>];
        plans::hold_planners(planners, file, *tasks, &mut planned);
        let in_slices: [slices::Plan; 2] = [proved::by_weight, rust_plan];
        slices::hold(in_slices, SCRATCH, file, *tasks, &mut filled);
    }
    planned.print("both planners by weight");
    filled.print("both planners by weight in slices");
}

fn time_planners(family: &Family) {
    let what = format!("plan by weight {}", family.name);
    plans::compare(
        &what,
        family,
        proved::plan_by_weight,
        plans::rust_plan::<true>,
    );
}

fn time_beside(family: &Family) {
    let what = format!("weight/plan {}", family.name);
    plans::compare(&what, family, proved::plan_by_weight, proved::plan);
}

pub fn time(families: &[Family]) {
    families.iter().for_each(time_planners);
}

/// Times our planner by weight against our planner, each as C calls it. Their plans can differ, and so what there is to do.
pub fn time_beside_plan(families: &[Family]) {
    families.iter().for_each(time_beside);
}

/// The most stack that our call on slices takes on the jobs of the families.
pub fn measure_stack(families: &[Family]) {
    let address = proved::by_weight_address();
    let name = "timing_plan_by_weight";
    slices::measure_stack(name, address, proved::by_weight, SCRATCH, families);
}
