//! A planner on three lent slices: held against what is due, and the stack that it takes.
use crate::families::{Family, TASKS};
use crate::stack;
use crate::tally::Tally;

/// Plans a file into starts and processors, with a scratch: 0, or the refusal's number.
pub type Plan = fn(&[u8], &mut [u32], &mut [u8], &mut [u32]) -> u32;

/// What is lent beside the file.
#[derive(PartialEq)]
struct Lent {
    starts: Vec<u32>,
    processors: Vec<u8>,
    scratch: Vec<u32>,
}

impl Lent {
    fn new([starts, processors, scratch]: [usize; 3]) -> Self {
        Lent {
            starts: vec![0xEEEE_EEEE; starts],
            processors: vec![0xEE; processors],
            scratch: vec![0xEEEE_EEEE; scratch],
        }
    }

    fn to(&mut self, plan: Plan, file: &[u8]) -> u32 {
        plan(
            file,
            &mut self.starts,
            &mut self.processors,
            &mut self.scratch,
        )
    }
}

/// The same number and slices from both, for slices that are long enough and, each in turn, too short; the scratch has so many places.
pub fn hold([plan, due]: [Plan; 2], places: usize, file: &[u8], tasks: usize, tally: &mut Tally) {
    for rooms in [
        [tasks, tasks, places],
        [tasks, tasks, places + 1],
        [tasks + 3, tasks + 2, places + 6],
        [tasks - 1, tasks, places],
        [tasks, tasks - 1, places],
        [tasks, tasks, places - 1],
        [0, 0, 0],
    ] {
        let (mut lent, mut known) = (Lent::new(rooms), Lent::new(rooms));
        let answer = lent.to(plan, file);
        assert_eq!(
            answer,
            known.to(due, file),
            "{rooms:?} places, job {file:?}"
        );
        assert!(
            lent == known,
            "the slices differ: {rooms:?} places, job {file:?}"
        );
        tally.count(answer);
    }
}

/// The most stack that a proved planner at an address takes on the jobs of the families.
pub fn measure_stack(name: &str, address: usize, plan: Plan, places: usize, families: &[Family]) {
    let rooms = [TASKS, TASKS, places];
    let files = families.iter().flat_map(|family| &family.files);
    let most = files.map(|file| {
        let (mut lent, mut known) = (Lent::new(rooms), Lent::new(rooms));
        let arguments = [
            file.as_ptr() as usize,
            file.len(),
            lent.starts.as_mut_ptr() as usize,
            lent.starts.len(),
            lent.processors.as_mut_ptr() as usize,
            lent.processors.len(),
            lent.scratch.as_mut_ptr() as usize,
            lent.scratch.len(),
        ];
        let depth = stack::depth(address, &arguments);
        known.to(plan, file);
        assert!(lent == known, "the call went wrong: job {file:?}");
        depth
    });
    println!("{name} takes {} bytes of stack", most.max().unwrap_or(0));
}
