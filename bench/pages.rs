//! The page: held against the plain Rust one, then timed; and the stack that ours takes.
use std::hint::black_box;

use crate::dice::Dice;
use crate::families::{Family, TASKS};
use crate::page::ROW;
use crate::tally::Tally;
use crate::{page, plans, proved, stack, timing};

/// Bytes of the greatest page.
const PAGE: usize = 16 * ROW;

type Draw = fn(&[u8], &[u32], &[u8], &mut [u8]) -> u32;

/// A plan in two slices.
struct Plan {
    starts: Vec<u32>,
    processors: Vec<u8>,
}

impl Plan {
    /// The plan in bytes, 5 a task.
    fn new(bytes: &[u8]) -> Self {
        let rows = bytes.chunks_exact(5);
        let rows = rows.map(|row| (u32::from_le_bytes([row[1], row[2], row[3], row[4]]), row[0]));
        let (starts, processors) = rows.unzip();
        Plan { starts, processors }
    }

    fn to(&self, draw: Draw, file: &[u8], out: &mut [u8]) -> u32 {
        draw(file, &self.starts, &self.processors, out)
    }
}

/// The same number and bytes from both, in pages that are long enough for n processors and too short.
fn hold_pages(file: &[u8], n: usize, plan: &Plan, tally: &mut Tally) {
    for room in [0, ROW * n - 1, ROW * n, ROW * n + 3] {
        let mut ours = vec![0xEE; room];
        let mut rust = ours.clone();
        let answer = plan.to(proved::draw, file, &mut ours);
        assert_eq!(
            answer,
            plan.to(page::draw, file, &mut rust),
            "{room} bytes, starts {:?}, processors {:?}, job {file:?}",
            plan.starts,
            plan.processors
        );
        assert!(
            ours == rust,
            "the pages differ: {room} bytes, starts {:?}, processors {:?}, job {file:?}",
            plan.starts,
            plan.processors
        );
        tally.count(answer);
    }
}

/// Holds the two against each other on these files, beside each of which stands its number of tasks, or a greater one: on our plan,
/// on that altered, and with one slice too short.
pub fn hold(jobs: &[(Vec<u8>, usize)]) {
    let dice = &mut Dice::new(4);
    let mut tally = Tally::new();
    for (file, tasks) in jobs {
        // The second byte, if the file is a job.
        let n = usize::from(*file.get(1).unwrap_or(&1)).clamp(1, 16);
        let mut bytes = vec![0xEE; 5 * tasks];
        proved::plan(file, &mut bytes);
        let mut plans = [(); 4].map(|_| Plan::new(&bytes));
        plans::alter(dice, &mut bytes);
        plans[1] = Plan::new(&bytes);
        plans[2].starts.pop();
        plans[3].processors.pop();
        for plan in &plans {
            hold_pages(file, n, plan, &mut tally);
        }
    }
    tally.print("both pages");
}

/// The files of a family, each with our plan.
fn planned(family: &Family) -> Vec<(&[u8], Plan)> {
    let planned = family.files.iter().map(|file| {
        let mut bytes = [0; 5 * TASKS];
        assert_eq!(proved::plan(file, &mut bytes), 0);
        (&file[..], Plan::new(&bytes))
    });
    planned.collect()
}

fn time_pages(family: &Family) {
    let pairs = planned(family);
    let (mut ours, mut rust) = ([0; PAGE], [0; PAGE]);
    timing::compare(
        &format!("draw {}", family.name),
        &pairs,
        |(file, plan)| {
            black_box(plan.to(proved::draw, file, black_box(&mut ours)));
        },
        |(file, plan)| {
            black_box(plan.to(page::draw, file, black_box(&mut rust)));
        },
    );
}

pub fn time(families: &[Family]) {
    families.iter().for_each(time_pages);
}

/// The most stack that our call takes on the jobs of the families.
pub fn measure_stack(families: &[Family]) {
    let most = families.iter().flat_map(planned).map(|(file, plan)| {
        let (mut out, mut known) = ([0; PAGE], [0; PAGE]);
        let arguments = [
            file.as_ptr() as usize,
            file.len(),
            plan.starts.as_ptr() as usize,
            plan.starts.len(),
            plan.processors.as_ptr() as usize,
            plan.processors.len(),
            out.as_mut_ptr() as usize,
            out.len(),
        ];
        let depth = stack::depth(proved::draw_address(), &arguments);
        plan.to(proved::draw, file, &mut known);
        assert!(out == known, "the call went wrong: job {file:?}");
        depth
    });
    println!(
        "timing_draw takes {} bytes of stack",
        most.max().unwrap_or(0)
    );
}
