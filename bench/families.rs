//! The jobs that planners, checker, cover calls and page are timed on, in families: 256 tasks, or 46 in `linked`, on 16 processors.
use std::collections::BTreeSet;

use crate::dice::Dice;

pub const TASKS: usize = 256;

/// Jobs of a family: so many that branch prediction cannot learn one by heart.
const JOBS: usize = 16;

/// Edges as pairs of from and to.
type Shape = Vec<(usize, usize)>;

/// A job as numbers: processors, topology and unit cost; under topology 3 the costs of its wires, by from, then by to; durations;
/// edges as from, to and count; results as task and count.
pub struct Job {
    pub platform: [usize; 3],
    pub wires: Vec<usize>,
    pub durations: Vec<usize>,
    pub edges: Vec<(usize, usize, usize)>,
    pub results: Vec<(usize, usize)>,
}

impl Job {
    pub fn file(mut self) -> Vec<u8> {
        self.edges.sort_unstable();
        let mut file = vec![1];
        file.extend(self.platform.map(|x| x as u8));
        for ((from, to), cost) in pairs(self.platform[0]).zip(self.wires) {
            file.extend([5, from, to, cost].map(|x| x as u8));
        }
        for duration in self.durations {
            file.push(2);
            file.extend((duration as u32).to_le_bytes());
        }
        for (from, to, count) in self.edges {
            file.extend([3, from as u8, to as u8]);
            file.extend((count as u16).to_le_bytes());
        }
        for (task, count) in self.results {
            file.extend([6, task as u8]);
            file.extend((count as u16).to_le_bytes());
        }
        file.push(4);
        file
    }
}

/// The pairs of different processors below `n`, by from, then by to.
fn pairs(n: usize) -> impl Iterator<Item = (usize, usize)> {
    let all = (0..n).flat_map(move |from| (0..n).map(move |to| (from, to)));
    all.filter(|(from, to)| from != to)
}

/// A cost from 0 to `most` for each wire of a platform under topology 3, and none under another.
pub fn some_wires(dice: &mut Dice, platform: [usize; 3], most: usize) -> Vec<usize> {
    let [n, topology, _] = platform;
    let n = if topology == 3 { n } else { 0 };
    pairs(n).map(|_| dice.below(most + 1)).collect()
}

/// A result for each task that no edge is from, of as many messages as `count` says; none where that is 0.
pub fn some_results(
    tasks: usize,
    edges: &[(usize, usize, usize)],
    mut count: impl FnMut() -> usize,
) -> Vec<(usize, usize)> {
    let senders: BTreeSet<_> = edges.iter().map(|edge| edge.0).collect();
    let silent = (0..tasks).filter(|task| !senders.contains(task));
    let results = silent.map(|task| (task, count()));
    results.filter(|result| result.1 > 0).collect()
}

pub struct Family {
    pub name: &'static str,
    pub files: Vec<Vec<u8>>,
}

/// Jobs of a shape whose dearest message takes as long as the longest task: on a hypercube, or by wires as dear as its ways. They
/// have a result of each task that may have one, or none.
fn family_on(
    topology: usize,
    results: bool,
    name: &'static str,
    shape: fn(&mut Dice) -> Shape,
) -> Family {
    let dice = &mut Dice::new(1);
    let platform = [16, topology, 5];
    let files = (0..JOBS).map(|_| {
        let edges = shape(dice).into_iter();
        let edges: Vec<_> = edges.map(|(from, to)| (from, to, dice.upto(50))).collect();
        let wires = some_wires(dice, platform, 20);
        let durations = (0..TASKS).map(|_| dice.upto(1000)).collect();
        let results = if results {
            some_results(TASKS, &edges, || dice.upto(50))
        } else {
            Vec::new()
        };
        Job {
            platform,
            wires,
            durations,
            edges,
            results,
        }
        .file()
    });
    let files = files.collect();
    Family { name, files }
}

fn family(name: &'static str, shape: fn(&mut Dice) -> Shape) -> Family {
    family_on(1, false, name, shape)
}

fn chain(_: &mut Dice) -> Shape {
    (1..TASKS).map(|t| (t - 1, t)).collect()
}

fn fork_join(_: &mut Dice) -> Shape {
    let between = 1..TASKS - 1;
    between.flat_map(|t| [(0, t), (t, TASKS - 1)]).collect()
}

fn out_tree(_: &mut Dice) -> Shape {
    (1..TASKS).map(|t| ((t - 1) / 2, t)).collect()
}

fn in_tree(dice: &mut Dice) -> Shape {
    let turned = |(from, to)| (TASKS - 1 - to, TASKS - 1 - from);
    out_tree(dice).into_iter().map(turned).collect()
}

/// Layers of 16 tasks, each task after 4 of the layer before.
fn layered(dice: &mut Dice) -> Shape {
    let mut shape = Shape::new();
    for to in 16..TASKS {
        let (layer, first) = (to / 16 - 1, dice.below(16));
        shape.extend((0..4).map(|i| (16 * layer + (first + 5 * i) % 16, to)));
    }
    shape
}

/// So many different edges among the first `tasks` tasks.
pub fn some_edges(dice: &mut Dice, tasks: usize, edges: usize) -> Shape {
    let mut shape = BTreeSet::new();
    while shape.len() < edges {
        let (a, b) = (dice.below(tasks), dice.below(tasks));
        if a != b {
            shape.insert((a.min(b), a.max(b)));
        }
    }
    shape.into_iter().collect()
}

/// The slowest job for the planner that is known.
///
/// Tasks 0 and 1 begin at once on two processors and both send to all others, so that whichever processor a task is tried on, a
/// message is still on its way: no pair can start at the clock, and none ends the search early. A task takes one tick and
/// finishes before the messages of the next one arrive. So all ready tasks are looked at on all 16 processors to place one, then
/// on the 15 that are left to find that none can start before that one finishes. There are no more rounds than a placing and a
/// move of the clock a task, and no round with more free processors. Counts fall, so that the last task goes first: the mark
/// below which all tasks are placed does not move, and each task looked at takes the lead.
fn worst() -> Vec<u8> {
    let edges = (2..TASKS).flat_map(|to| [0, 1].map(|from| (from, to, 2 * (TASKS - to))));
    Job {
        platform: [16, 0, 100],
        wires: Vec::new(),
        durations: vec![1; TASKS],
        edges: edges.collect(),
        results: Vec::new(),
    }
    .file()
}

/// The slowest job for the small planner that is known.
///
/// Like `worst`, but four tasks begin at once and send to each ready task: 960 of the 1,024 edges that a job can have; with a fifth
/// sender there would be fewer tasks. The planner, which keeps arrivals, does the same for four edges into a task as for two. The
/// small planner goes over them in each round, and twice, as each task looked at takes the lead: to see whether the messages of one
/// edge tell that it cannot, and to work out its arrivals at 16 processors. For the first it looks at one processor after the other
/// until it finds one that the messages reach before the leader's start. Wires cost less the higher the processor is that they go
/// to, so that this is the last one, or that of the sender, where messages take no time; and 12 tasks that go first leave the last
/// four processors to the senders.
fn worst_small() -> Vec<u8> {
    let edges =
        (16..TASKS).flat_map(|to| [12, 13, 14, 15].map(|from| (from, to, 2 * (TASKS - to))));
    Job {
        platform: [16, 3, 0],
        wires: pairs(16).map(|(_, to)| 240 - 15 * to).collect(),
        durations: vec![1; TASKS],
        edges: edges.collect(),
        results: Vec::new(),
    }
    .file()
}

/// The job for which the small planner takes longest beside the planner that is known.
///
/// As in `worst` each task looked at takes the lead, but 15 tasks that last keep all processors but one busy. So the planner
/// looks at one arrival of each ready task, and the small planner goes over the eight edges into it, for 16 processors each. With
/// more edges into a task there are fewer tasks, and what both planners do beside the search counts for more.
fn one_free() -> Vec<u8> {
    let (senders, last, ready) = (105..113, 113..128, 128..TASKS);
    let mut durations = vec![1; TASKS];
    durations[last].fill(1_000_000);
    let edges = ready.flat_map(|to| {
        let senders = senders.clone();
        senders.map(move |from| (from, to, 2 * (TASKS - to)))
    });
    Job {
        platform: [16, 0, 100],
        wires: Vec::new(),
        durations,
        edges: edges.collect(),
        results: Vec::new(),
    }
    .file()
}

/// The job for which the cover call takes longest beside the planner's call, among those without edges, that is known.
///
/// Equal tasks: each starts at the clock on the first free processor, so the planner looks at one pair to place it, and what the
/// cover does for every task counts most. It is not a job whose starts fall as task numbers rise, though the sort moves most there:
/// to place a task the planner looks at every lower one that is not placed, and those are the moves.
fn even() -> Vec<u8> {
    Job {
        platform: [16, 0, 0],
        wires: Vec::new(),
        durations: vec![1000; TASKS],
        edges: Vec::new(),
        results: Vec::new(),
    }
    .file()
}

/// The job for which planner and cover call by weight take longest beside those by number that is known.
///
/// As in `even` the planner looks at one pair to place a task. Durations rise, so that each task weighs more than all below it, and
/// the sort moves it past all of them. By number the tasks start as they stand.
fn rising() -> Vec<u8> {
    Job {
        platform: [16, 0, 0],
        wires: Vec::new(),
        durations: (1000..1000 + TASKS).collect(),
        edges: Vec::new(),
        results: Vec::new(),
    }
    .file()
}

/// Of the families the one with edges in which the cover call takes longest beside the planner's call; with shorter tasks it can take
/// longer.
///
/// As many edges as a job can have, among as few tasks as can have them, with counts and durations as the others have them. The tasks
/// run one after the other on one processor, as a message to another takes time: so the planner looks at one pair to place a task, and
/// for each edge the least cover could look at the 15 processors that are idle, one by one, where the planner raised 16 arrivals,
/// several at once.
fn linked(dice: &mut Dice) -> Vec<u8> {
    let tasks = 46;
    let shape = (1..tasks).flat_map(|by| (by..tasks).map(move |to| (to - by, to)));
    let edges = shape.take(1024);
    let edges = edges.map(|(from, to)| (from, to, dice.upto(50))).collect();
    Job {
        platform: [16, 1, 5],
        wires: Vec::new(),
        durations: (0..tasks).map(|_| dice.upto(1000)).collect(),
        edges,
        results: Vec::new(),
    }
    .file()
}

fn family_linked() -> Family {
    let dice = &mut Dice::new(1);
    let files = (0..JOBS).map(|_| linked(dice)).collect();
    Family {
        name: "linked",
        files,
    }
}

fn dense(dice: &mut Dice) -> Shape {
    some_edges(dice, TASKS, 1024)
}

/// As many edges as a job can have, from as few tasks as they can come from: five. So the other 251 can have a result.
fn from_five(_: &mut Dice) -> Shape {
    let all = (0..TASKS).flat_map(|from| (from + 1..TASKS).map(move |to| (from, to)));
    all.take(1024).collect()
}

pub fn families() -> [Family; 16] {
    [
        family("chain", chain),
        family("fork-join", fork_join),
        family("in-tree", in_tree),
        family("out-tree", out_tree),
        family("layered", layered),
        family("dense", dense),
        family_on(3, false, "wires", dense),
        family_on(3, true, "results", from_five),
        family("random", |dice| some_edges(dice, TASKS, 400)),
        family("wide", |_| Shape::new()),
        Family {
            name: "even",
            files: vec![even()],
        },
        Family {
            name: "rising",
            files: vec![rising()],
        },
        family_linked(),
        Family {
            name: "worst",
            files: vec![worst()],
        },
        Family {
            name: "worst-small",
            files: vec![worst_small()],
        },
        Family {
            name: "one-free",
            files: vec![one_free()],
        },
    ]
}
