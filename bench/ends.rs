//! How the ends of plans by weight stand to those by number: over the families, and over random wide jobs. Our calls from C tell no end:
//! it is the plain Rust planner's, whose plan has the bytes of ours.
use crate::dice::Dice;
use crate::families::{Family, Job, TASKS};
use crate::{planner, proved};

const WIDE_JOBS: usize = 300;

/// A wide job: branches side by side, whose tasks stand mixed, as they were drawn for one branch or another; the lower a branch, the
/// fewer tasks it gets. Half of the jobs end with a task that waits for all branches.
pub fn wide_job(dice: &mut Dice) -> Vec<u8> {
    let tasks = 20 + dice.below(TASKS - 19);
    let processors = 2 + dice.below(15);
    let branches = processors + dice.below(3 * processors);
    let longest = dice.one_of(&[2, 20, 1000]);
    let most = dice.one_of(&[1, 5, 50]);
    let joined = dice.below(2) == 1;
    let mut last = vec![None; branches];
    let mut edges = Vec::new();
    for task in 0..tasks {
        if joined && task == tasks - 1 {
            edges.extend(last.iter().flatten().map(|&from| (from, task, 1)));
            break;
        }
        let branch = dice.below(branches).max(dice.below(branches));
        if let Some(from) = last[branch].replace(task) {
            edges.push((from, task, dice.upto(most)));
        }
    }
    Job {
        platform: [processors, dice.below(3), dice.one_of(&[0, 1, 5])],
        wires: Vec::new(),
        durations: (0..tasks).map(|_| dice.upto(longest)).collect(),
        edges,
        results: Vec::new(),
    }
    .file()
}

/// The end of the plan that one of our planners makes.
fn end<const BY_WEIGHT: bool>(file: &[u8], ours: fn(&[u8], &mut [u8]) -> u32) -> f64 {
    let (mut plan, mut rust) = ([0; 5 * TASKS], [0; 5 * TASKS]);
    let end = planner::plan::<BY_WEIGHT>(file, &mut rust).expect("the job is good");
    assert_eq!(ours(file, &mut plan), 0, "the job is good");
    assert!(plan == rust, "the plans differ");
    f64::from(end)
}

/// The end by weight divided by the end by number.
fn ratio(file: &[u8]) -> f64 {
    end::<true>(file, proved::plan_by_weight) / end::<false>(file, proved::plan)
}

fn row(name: &str, files: &[Vec<u8>]) {
    let ratios: Vec<_> = files.iter().map(|file| ratio(file)).collect();
    let count = |wanted: fn(f64) -> bool| ratios.iter().filter(|&&ratio| wanted(ratio)).count();
    println!(
        "{name:16} {:5} {:7.4} {:7.4} {:7.4} {:8} {:6} {:8}",
        ratios.len(),
        ratios.iter().sum::<f64>() / ratios.len() as f64,
        ratios.iter().copied().fold(f64::INFINITY, f64::min),
        ratios.iter().copied().fold(0.0, f64::max),
        count(|ratio| ratio < 1.0),
        count(|ratio| ratio == 1.0),
        count(|ratio| ratio > 1.0),
    );
}

pub fn print(families: &[Family]) {
    println!("the end by weight to the end by number");
    println!(
        "{:16} {:>5} {:>7} {:>7} {:>7} {:>8} {:>6} {:>8}",
        "", "jobs", "mean", "best", "worst", "smaller", "equal", "greater"
    );
    for family in families {
        row(family.name, &family.files);
    }
    let all: Vec<_> = families
        .iter()
        .flat_map(|family| family.files.clone())
        .collect();
    row("all families", &all);
    let dice = &mut Dice::new(6);
    let wide: Vec<_> = (0..WIDE_JOBS).map(|_| wide_job(dice)).collect();
    row("random wide jobs", &wide);
}
