//! The cover calls, by number and by weight: held against the plain Rust ones, then timed against them, and each of ours against
//! its planner; and the stack that ours take.
use std::hint::black_box;

use crate::families::{Family, TASKS};
use crate::tally::Tally;
use crate::{cover, proved, stack, timing};

/// Places of the scratch.
const ARRIVALS: usize = 16 * TASKS;

/// The numbers that a cover call puts out: the cover, the least cover and the dearest chain.
const FIGURES: usize = 3;

/// Places of the slices for any job: starts, processors, scratch and output.
const ROOMS: [usize; 4] = [TASKS, TASKS, ARRIVALS, FIGURES];

pub type Cover = fn(&[u8], &mut [u32], &mut [u8], &mut [u32], &mut [u32]) -> u32;

/// A cover call: what its lines begin with, ours as it is exported and called, the plain Rust one, and our planner whose plan it measures.
struct Calls {
    name: &'static str,
    beside: &'static str,
    exported: &'static str,
    address: fn() -> usize,
    ours: Cover,
    rust: Cover,
    planner: fn(&[u8], &mut [u8]) -> u32,
}

const CALLS: [Calls; 2] = [
    Calls {
        name: "cover",
        beside: "cover/plan",
        exported: "timing_cover",
        address: proved::cover_address,
        ours: proved::cover,
        rust: cover::cover::<false>,
        planner: proved::plan,
    },
    Calls {
        name: "cover by weight",
        beside: "by weight: cover/plan",
        exported: "timing_cover_by_weight",
        address: proved::cover_by_weight_address,
        ours: proved::cover_by_weight,
        rust: cover::cover::<true>,
        planner: proved::plan_by_weight,
    },
];

/// What is lent to a cover call beside the file.
#[derive(PartialEq)]
struct Lent {
    starts: Vec<u32>,
    processors: Vec<u8>,
    scratch: Vec<u32>,
    out: Vec<u32>,
}

impl Lent {
    fn new([starts, processors, scratch, out]: [usize; 4]) -> Self {
        Lent {
            starts: vec![0xEEEE_EEEE; starts],
            processors: vec![0xEE; processors],
            scratch: vec![0xEEEE_EEEE; scratch],
            out: vec![0xEEEE_EEEE; out],
        }
    }

    fn to(&mut self, cover: Cover, file: &[u8]) -> u32 {
        cover(
            file,
            &mut self.starts,
            &mut self.processors,
            &mut self.scratch,
            &mut self.out,
        )
    }
}

/// What a cover call tells of a good job: the cover, the least cover and the dearest chain; and the processors of its plan.
pub fn told(cover: Cover, file: &[u8]) -> ([u32; FIGURES], Vec<u8>) {
    let mut lent = Lent::new(ROOMS);
    assert_eq!(lent.to(cover, file), 0, "the job is good");
    let figures = lent.out.try_into().expect("it has these places");
    (figures, lent.processors)
}

/// The same number and slices from both, for slices that are long enough and, each in turn, too short.
fn hold_covers(calls: &Calls, file: &[u8], tasks: usize, tally: &mut Tally) {
    for rooms in [
        [tasks, tasks, ARRIVALS, FIGURES],
        [tasks + 3, tasks + 2, ARRIVALS + 5, FIGURES],
        [tasks - 1, tasks, ARRIVALS, FIGURES],
        [tasks, tasks - 1, ARRIVALS, FIGURES],
        [tasks, tasks, ARRIVALS - 1, FIGURES],
        [tasks, tasks, ARRIVALS, FIGURES - 1],
        [tasks, tasks, ARRIVALS, FIGURES + 1],
        [0, 0, 0, 0],
    ] {
        let (mut ours, mut rust) = (Lent::new(rooms), Lent::new(rooms));
        let answer = ours.to(calls.ours, file);
        assert_eq!(
            answer,
            rust.to(calls.rust, file),
            "{rooms:?} places, job {file:?}"
        );
        assert!(
            ours == rust,
            "the slices differ: {rooms:?} places, job {file:?}"
        );
        tally.count(answer);
    }
}

/// Holds the two against each other on these files; beside each stands its number of tasks, or a greater one.
pub fn hold(jobs: &[(Vec<u8>, usize)]) {
    for calls in &CALLS {
        let mut tally = Tally::new();
        for (file, tasks) in jobs {
            hold_covers(calls, file, *tasks, &mut tally);
        }
        tally.print(&format!("{}: both calls", calls.name));
    }
}

fn time_covers(calls: &Calls, family: &Family) {
    let (mut ours, mut rust) = (Lent::new(ROOMS), Lent::new(ROOMS));
    timing::compare(
        &format!("{} {}", calls.name, family.name),
        &family.files,
        |file| {
            black_box(black_box(&mut ours).to(calls.ours, file));
        },
        |file| {
            black_box(black_box(&mut rust).to(calls.rust, file));
        },
    );
}

fn time_beside(calls: &Calls, family: &Family) {
    let (mut lent, mut plan) = (Lent::new(ROOMS), [0; 5 * TASKS]);
    timing::compare(
        &format!("{} {}", calls.beside, family.name),
        &family.files,
        |file| {
            black_box(black_box(&mut lent).to(calls.ours, file));
        },
        |file| {
            black_box((calls.planner)(file, black_box(&mut plan)));
        },
    );
}

pub fn time(families: &[Family]) {
    for calls in &CALLS {
        families
            .iter()
            .for_each(|family| time_covers(calls, family));
    }
}

/// Times each of our cover calls, which plan and measure, against the call of its planner.
pub fn time_beside_plan(families: &[Family]) {
    for calls in &CALLS {
        families
            .iter()
            .for_each(|family| time_beside(calls, family));
    }
}

/// The most stack that each of our calls takes on the jobs of the families.
pub fn measure_stack(families: &[Family]) {
    for calls in &CALLS {
        let files = families.iter().flat_map(|family| &family.files);
        let most = files.map(|file| {
            let (mut lent, mut known) = (Lent::new(ROOMS), Lent::new(ROOMS));
            let arguments = [
                file.as_ptr() as usize,
                file.len(),
                lent.starts.as_mut_ptr() as usize,
                lent.starts.len(),
                lent.processors.as_mut_ptr() as usize,
                lent.processors.len(),
                lent.scratch.as_mut_ptr() as usize,
                lent.scratch.len(),
                lent.out.as_mut_ptr() as usize,
                lent.out.len(),
            ];
            let depth = stack::depth((calls.address)(), &arguments);
            known.to(calls.ours, file);
            assert!(lent == known, "the call went wrong: job {file:?}");
            depth
        });
        println!(
            "{} takes {} bytes of stack",
            calls.exported,
            most.max().unwrap_or(0)
        );
    }
}
