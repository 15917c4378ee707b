//! How far the least cover is below the cover, and how much sooner an end the sales sheet then allows: over the families, and over
//! random jobs, by number and by weight. Covers, least covers and plans are those of our cover calls.
use crate::covers::{self, Cover};
use crate::dice::Dice;
use crate::families::{self, Family, Job, TASKS};
use crate::job::{self, Reading, Verdict};
use crate::{ends, planner, proved};

/// Of each kind.
const RANDOM_JOBS: usize = 100;

/// A random job in any of the four topologies, with so many edges a task; every second job has results.
fn some_job(dice: &mut Dice, edges: usize) -> Vec<u8> {
    let tasks = 20 + dice.below(TASKS - 19);
    let platform = [2 + dice.below(15), dice.below(4), dice.one_of(&[1, 5])];
    let longest = dice.one_of(&[2, 20, 1000]);
    let most = dice.one_of(&[1, 5, 50]);
    let shape = families::some_edges(dice, tasks, edges * tasks).into_iter();
    let edges: Vec<_> = shape
        .map(|(from, to)| (from, to, dice.upto(most)))
        .collect();
    let greatest = most * dice.below(2);
    Job {
        platform,
        wires: families::some_wires(dice, platform, 20),
        durations: (0..tasks).map(|_| dice.upto(longest)).collect(),
        results: families::some_results(tasks, &edges, || dice.below(greatest + 1)),
        edges,
    }
    .file()
}

/// No plan of the job ends sooner, even if messages take no time: its longest chain of tasks, or all its work on all processors.
fn soonest(job: &Reading, tasks: usize, edges: usize) -> u32 {
    let durations = &job.durations[..tasks];
    // Edges rise by from: the chain that ends with a task is whole before an edge leaves it.
    let mut chains = job.durations;
    for (&from, &to) in job.from[..edges].iter().zip(&job.to[..edges]) {
        let (from, to) = (usize::from(from), usize::from(to));
        chains[to] = chains[to].max(chains[from] + durations[to]);
    }
    let chain = chains.into_iter().max().unwrap_or(0);
    let work: u32 = durations.iter().sum();
    chain.max(work.div_ceil(u32::from(job.platform.processors)))
}

/// The greatest time that the messages of a result take to processor 0 in a plan; 0 without results.
fn dearest_result(job: &Reading, processors: &[u8]) -> u32 {
    let costs = planner::square(job.platform, &job.wires);
    let results = job.results.iter().zip(processors);
    let times = results.map(|(&count, &p)| u32::from(count) * costs[usize::from(p % 16)][0]);
    times.max().unwrap_or(0)
}

/// The least cover to the cover, where that is above 0; and the end that the sales sheet allows with the one to that with the other.
fn ratios(call: Cover, file: &[u8]) -> (Option<f64>, f64) {
    let mut job = Reading::blank();
    job::read(file, &mut job);
    let Verdict::Counts { tasks, edges } = job.verdict else {
        panic!("the job is good");
    };
    let ([cover, least, _], processors) = covers::told(call, file);
    let n = f64::from(job.platform.processors);
    let rival = f64::from(soonest(&job, tasks, edges));
    let result = dearest_result(&job, &processors[..tasks]);
    let end = |cover| ((2.0 * n - 1.0) * rival + n * f64::from(cover + result)) / n;
    let tighter = (cover > 0).then(|| f64::from(least) / f64::from(cover));
    (tighter, end(least) / end(cover))
}

/// The mean and the least; blanks where there are none.
fn mean_and_best(ratios: &[f64]) -> String {
    if ratios.is_empty() {
        return " ".repeat(15);
    }
    let mean = ratios.iter().sum::<f64>() / ratios.len() as f64;
    let best = ratios.iter().copied().fold(f64::INFINITY, f64::min);
    format!("{mean:7.4} {best:7.4}")
}

fn row<'a>(call: Cover, name: &str, files: impl IntoIterator<Item = &'a Vec<u8>>) {
    let ratios = files.into_iter().map(|file| ratios(call, file));
    let (covers, ends): (Vec<_>, Vec<_>) = ratios.unzip();
    let covers: Vec<_> = covers.into_iter().flatten().collect();
    let below = covers.iter().filter(|&&ratio| ratio < 1.0).count();
    println!(
        "{name:16} {:5} {:6}   {} {below:6} {:6}   {}",
        ends.len(),
        covers.len(),
        mean_and_best(&covers),
        covers.len() - below,
        mean_and_best(&ends),
    );
}

fn table(call: Cover, name: &str, families: &[Family], random: &[(&str, Vec<Vec<u8>>)]) {
    println!(
        "{name:16} {:>5} {:>6}   {:>7} {:>7} {:>6} {:>6}   {:>7} {:>7}",
        "jobs", "C > 0", "L/C", "best", "below", "equal", "B/A", "best"
    );
    for family in families {
        row(call, family.name, &family.files);
    }
    let all = families.iter().flat_map(|family| &family.files);
    row(call, "all families", all);
    for (name, files) in random {
        row(call, name, files);
    }
    let all = random.iter().flat_map(|(_, files)| files);
    row(call, "all random jobs", all);
}

const COMPARED: &str = "\
the least cover L to the cover C of our plan, where C > 0: the mean of L/C, the best, how many are below and equal
and what our end is at most by the sales sheet, A = ((2n - 1) F + n (C + R)) / n: B is A with L in place of C; mean and best over all jobs
F is what no plan on n processors ends before: the longest chain of durations or, if greater, all durations divided by n, rounded up
R is the dearest result time of our plan, 0 without results
random jobs have 20 to 256 tasks on 2 to 16 processors: sparse ones an edge a task, dense ones four, wide ones branches side by side";

pub fn print(families: &[Family]) {
    println!("{COMPARED}");
    let dice = &mut Dice::new(7);
    let mut some = |job: fn(&mut Dice) -> Vec<u8>| (0..RANDOM_JOBS).map(|_| job(dice)).collect();
    let random = [
        ("random sparse", some(|dice| some_job(dice, 1))),
        ("random dense", some(|dice| some_job(dice, 4))),
        ("random wide", some(ends::wide_job)),
    ];
    table(proved::cover, "by number", families, &random);
    table(proved::cover_by_weight, "by weight", families, &random);
}
