//! The planner and the checker: held against the plain Rust ones, then timed; and the stack that ours take.
use std::hint::black_box;

use crate::dice::Dice;
use crate::families::{self, Family, Job, TASKS};
use crate::tally::Tally;
use crate::{checker, planner, proved, stack, timing};

const RANDOM_JOBS: usize = 400;

pub type Plan = fn(&[u8], &mut [u8]) -> u32;

/// The plain Rust planner as C calls ours: 0, or the refusal's number; the end is not told.
#[inline(never)]
pub fn rust_plan<const BY_WEIGHT: bool>(file: &[u8], plan: &mut [u8]) -> u32 {
    planner::plan::<BY_WEIGHT>(file, plan).err().unwrap_or(0)
}

fn some_job(dice: &mut Dice) -> Job {
    let most = dice.one_of(&[4, 20, 256]);
    let tasks = dice.upto(most);
    let longest = dice.one_of(&[2, 20, 1_000_000]);
    let dearest = dice.one_of(&[2, 30, 1000]);
    let most = (tasks * (tasks - 1) / 2).min(1024);
    let edges = dice.below(most + 1).min(4 * tasks);
    let shape = families::some_edges(dice, tasks, edges).into_iter();
    let edges: Vec<_> = shape
        .map(|(from, to)| (from, to, dice.upto(dearest)))
        .collect();
    let platform = [dice.upto(16), dice.below(4), dice.one_of(&[0, 1, 7, 100])];
    let most = dice.one_of(&[2, 20, 250]);
    let greatest = dice.one_of(&[0, 1, 30, 1000]);
    Job {
        platform,
        wires: families::some_wires(dice, platform, most),
        durations: (0..tasks).map(|_| dice.upto(longest)).collect(),
        results: families::some_results(tasks, &edges, || dice.below(greatest + 1)),
        edges,
    }
}

/// One byte changed, or some taken off the end, or one put there.
fn damage(dice: &mut Dice, file: &mut Vec<u8>) {
    let place = dice.below(file.len());
    match dice.below(4) {
        0 => file.truncate(place),
        1 => file.push(0),
        _ => file[place] = dice.one_of(&[0, 1, 2, 3, 4, 5, 6, 17, 251, 255]),
    }
}

/// A plan with a processor or a start changed, or too short.
pub fn alter(dice: &mut Dice, plan: &mut Vec<u8>) {
    let at = 5 * dice.below(plan.len() / 5);
    let start = u32::from_le_bytes([plan[at + 1], plan[at + 2], plan[at + 3], plan[at + 4]]);
    let start = match dice.below(6) {
        0 => return plan.truncate(at),
        1 => return plan[at] = dice.below(17) as u8,
        2 => 600_000_000 + dice.below(2) as u32,
        3 => start + dice.upto(9) as u32,
        _ => start.saturating_sub(dice.upto(9) as u32),
    };
    plan[at + 1..at + 5].copy_from_slice(&start.to_le_bytes());
}

/// Bytes of plans that are too short and long enough; the last has as many as it takes.
pub fn rooms(tasks: usize) -> [usize; 4] {
    [0, 5 * tasks - 1, 5 * tasks + 3, 5 * tasks]
}

/// The same number and bytes from both planners, in plans that are long enough and too short; gives the plan.
pub fn hold_planners(
    [one, other]: [Plan; 2],
    file: &[u8],
    tasks: usize,
    tally: &mut Tally,
) -> Vec<u8> {
    let mut plan = Vec::new();
    for room in rooms(tasks) {
        let mut ours = vec![0xEE; room];
        plan = ours.clone();
        let answer = one(file, &mut ours);
        assert_eq!(answer, other(file, &mut plan), "{room} bytes, job {file:?}");
        assert!(ours == plan, "the plans differ: {room} bytes, job {file:?}");
        tally.count(answer);
    }
    plan
}

fn hold_checkers(file: &[u8], plan: &[u8], tally: &mut Tally) {
    let answer = proved::check(file, plan);
    assert_eq!(
        answer,
        checker::check(file, plan),
        "plan {plan:?}, job {file:?}"
    );
    tally.count(answer);
}

/// Random jobs, good and damaged, and their numbers of tasks.
fn some_jobs(dice: &mut Dice) -> Vec<(Vec<u8>, usize)> {
    let mut jobs = Vec::new();
    for i in 0..RANDOM_JOBS {
        let job = some_job(dice);
        let tasks = job.durations.len();
        let mut file = job.file();
        if i % 4 == 0 {
            damage(dice, &mut file);
        }
        jobs.push((file, tasks));
    }
    jobs
}

/// What planners, checkers, covers and pages are held on: random jobs, these files, and each job of the families.
/// Beside each stands its number of tasks, or a greater one.
pub fn jobs(files: &[&[u8]], families: &[Family]) -> Vec<(Vec<u8>, usize)> {
    let mut jobs = some_jobs(&mut Dice::new(2));
    jobs.extend(files.iter().map(|file| (file.to_vec(), TASKS)));
    let timed = families.iter().flat_map(|family| &family.files);
    jobs.extend(timed.map(|file| (file.clone(), TASKS)));
    jobs
}

/// Holds planners and checkers against each other.
pub fn hold(jobs: &[(Vec<u8>, usize)]) {
    let dice = &mut Dice::new(3);
    let (mut planned, mut checked) = (Tally::new(), Tally::new());
    for (file, tasks) in jobs {
        let planners = [proved::plan, rust_plan::<false>];
        let mut plan = hold_planners(planners, file, *tasks, &mut planned);
        hold_checkers(file, &plan, &mut checked);
        alter(dice, &mut plan);
        hold_checkers(file, &plan, &mut checked);
    }
    planned.print(&format!("{} files: both planners", jobs.len()));
    checked.print("their plans, as planned and altered: both checkers");
}

/// Times two planners, each as C calls it, on the jobs of a family.
pub fn compare(
    what: &str,
    family: &Family,
    one: impl Fn(&[u8], &mut [u8]) -> u32,
    other: impl Fn(&[u8], &mut [u8]) -> u32,
) {
    let (mut a, mut b) = ([0; 5 * TASKS], [0; 5 * TASKS]);
    timing::compare(
        what,
        &family.files,
        |file| {
            black_box(one(file, black_box(&mut a)));
        },
        |file| {
            black_box(other(file, black_box(&mut b)));
        },
    );
}

fn time_planners(family: &Family) {
    let what = format!("plan {}", family.name);
    compare(&what, family, proved::plan, rust_plan::<false>);
}

fn time_checkers(family: &Family) {
    let planned = |file: &Vec<u8>| {
        let mut plan = vec![0; 5 * TASKS];
        assert_eq!(proved::plan(file, &mut plan), 0);
        (file.clone(), plan)
    };
    let pairs: Vec<_> = family.files.iter().map(planned).collect();
    timing::compare(
        &format!("check {}", family.name),
        &pairs,
        |(file, plan)| {
            black_box(proved::check(file, plan));
        },
        |(file, plan)| {
            black_box(checker::check(file, plan));
        },
    );
}

pub fn time(families: &[Family]) {
    families.iter().for_each(time_planners);
    families.iter().for_each(time_checkers);
}

/// The most stack that each of our calls takes on the jobs of the families.
pub fn measure_stack(families: &[Family]) {
    for (name, function) in proved::addresses() {
        let files = families.iter().flat_map(|family| &family.files);
        let most = files.map(|file| {
            let (mut plan, mut page) = (vec![0; 5 * TASKS], vec![0; 70 * 16]);
            proved::plan(file, &mut plan);
            let arguments = [
                file.as_ptr() as usize,
                file.len(),
                plan.as_mut_ptr() as usize,
                plan.len(),
                page.as_mut_ptr() as usize,
                page.len(),
            ];
            stack::depth(function, &arguments)
        });
        println!("{name} takes {} bytes of stack", most.max().unwrap_or(0));
    }
}
