//! A plain Rust cover, least cover and dearest chain over the plain Rust planner: the same steps as crate `schedule` (the tasks by
//! start, one pass for the busy stretches, one over the edges for each figure, the walk back), with the standard library's sort.
//! `% 16` changes no processor; it spares the check of an index.
use crate::job::{self, Reading, Verdict};
use crate::planner::Planner;

/// In place of a task: none.
const NO_TASK: u16 = 256;

/// The latest short tick before the start of a task: when it ends, 0 if there is none, and the processors that are idle in it, a bit
/// each.
#[derive(Clone, Copy)]
struct Short {
    after: u32,
    idle: u16,
}

impl Short {
    const NONE: Short = Short { after: 0, idle: 0 };

    /// The lowest of the idle processors.
    fn lowest(self) -> usize {
        self.idle.trailing_zeros() as usize % 16
    }
}

/// A planned job.
struct Planned<'a> {
    job: &'a Reading,
    edges: usize,
    costs: [[u32; 16]; 16],
    starts: &'a [u32],
    processors: &'a [u8],
}

impl Planned<'_> {
    fn finish(&self, task: usize) -> u32 {
        self.starts[task] + self.job.durations[task]
    }

    /// What a message costs from the processor of a task to each.
    fn costs_from(&self, task: usize) -> &[u32; 16] {
        &self.costs[usize::from(self.processors[task] % 16)]
    }

    /// The edges as from, to and count.
    fn edges(&self) -> impl Iterator<Item = (usize, usize, u32)> + '_ {
        let (from, to) = (&self.job.from[..self.edges], &self.job.to[..self.edges]);
        let pairs = from.iter().zip(to).zip(&self.job.counts);
        pairs.map(|((&from, &to), &count)| (usize::from(from), usize::from(to), u32::from(count)))
    }

    /// The latest short tick before each task.
    fn shorts(&self) -> [Short; 256] {
        let n = usize::from(self.job.platform.processors);
        // The tasks by start, each in one word with its start.
        let mut order = [0; 256];
        let order = &mut order[..self.starts.len()];
        for (task, (word, &start)) in order.iter_mut().zip(self.starts).enumerate() {
            *word = u64::from(start) << 8 | task as u64;
        }
        order.sort_unstable();

        let mut shorts = [Short::NONE; 256];
        // A processor runs tasks without a gap since the one and until the other.
        let (mut since, mut until) = ([0; 16], [0; 16]);
        for word in order {
            let (task, start) = (usize::from(*word as u8), (*word >> 8) as u32);
            // Since when each processor is busy up to the start.
            let stretches = since[..n].iter().zip(&until[..n]);
            let busy = stretches.map(|(&since, &until)| if until < start { start } else { since });
            let after = busy.clone().fold(0, u32::max);
            let busy = busy.enumerate();
            let idle = busy.fold(0, |set, (p, busy)| set | u16::from(busy == after) << p);
            shorts[task] = Short { after, idle };
            let p = usize::from(self.processors[task] % 16);
            if until[p] < start {
                since[p] = start;
            }
            until[p] = self.finish(task);
        }
        shorts
    }

    fn cover(&self, shorts: &[Short; 256]) -> u32 {
        let mut reach = [0; 256];
        let mut back = [(NO_TASK, 0); 256];
        for (from, to, count) in self.edges() {
            if shorts[to].after == 0 {
                continue;
            }
            let message = count * self.costs_from(from)[shorts[to].lowest()];
            let arrival = self.finish(from) + message;
            if reach[to] < arrival {
                reach[to] = arrival;
                back[to] = (from as u16, message);
            }
        }

        // The first of the tasks that finish last.
        let tasks = (0..self.starts.len()).rev();
        let mut task = tasks.max_by_key(|&task| self.finish(task)).unwrap_or(0);
        let mut sum = 0;
        while let (before @ 0..NO_TASK, message) = back[task] {
            sum += message;
            task = usize::from(before);
        }
        sum
    }

    /// The greatest cost between two processors.
    fn greatest_cost(&self) -> u32 {
        let cost = self.costs.as_flattened().iter().max();
        *cost.unwrap_or(&0)
    }

    /// The least cost from each processor to another; `most` where there is none.
    fn nearest(&self, most: u32) -> [u32; 16] {
        let n = usize::from(self.job.platform.processors);
        let mut nearest = [most; 16];
        for (p, (least, row)) in nearest.iter_mut().zip(&self.costs).enumerate() {
            for (q, &cost) in row[..n].iter().enumerate() {
                if p != q {
                    *least = cost.min(*least);
                }
            }
        }
        nearest
    }

    /// The least sum of the walks that begin with a task that finishes last. Edges rise by from, so the sum at a task is whole before
    /// an edge leaves it.
    fn least(&self, shorts: &[Short; 256], most: u32) -> u32 {
        let nearest = self.nearest(most);
        let mut sums = shorts.map(|short| if short.after == 0 { 0 } else { u32::MAX });
        for (from, to, count) in self.edges() {
            let mut short = shorts[to];
            let finish = self.finish(from);
            // No lower sum, or messages that are there before anywhere.
            if sums[to] <= sums[from] || finish + count * most < short.after {
                continue;
            }
            let own = usize::from(self.processors[from] % 16);
            if short.after <= finish && short.idle >> own & 1 == 1 {
                sums[to] = sums[from];
                continue;
            }
            let costs = self.costs_from(from);
            let (sum, mut least) = (sums[from], sums[to]);
            // What each takes at least.
            let bound = sum + (short.after.max(finish + count * nearest[own]) - finish);
            while short.idle != 0 && bound < least {
                let message = count * costs[short.lowest()];
                if finish + message >= short.after {
                    least = least.min(sum + message);
                }
                short.idle &= short.idle - 1;
            }
            sums[to] = least;
        }

        let tasks = 0..self.starts.len();
        let end = tasks.clone().map(|task| self.finish(task)).max();
        let last = tasks.filter(|&task| Some(self.finish(task)) == end);
        last.map(|task| sums[task]).min().unwrap_or(0)
    }

    /// The dearest chain, where a message costs so much.
    fn dearest(&self, cost: u32) -> u32 {
        let mut sums = [0; 256];
        for (from, to, count) in self.edges() {
            sums[to] = sums[to].max(sums[from] + count * cost);
        }
        sums.into_iter().max().unwrap_or(0)
    }
}

/// Plans the job of a file into the slices: 0 with the cover, the least cover and the dearest chain in the first places of `out`, or the
/// refusal's number.
pub fn cover<const BY_WEIGHT: bool>(
    file: &[u8],
    starts: &mut [u32],
    processors: &mut [u8],
    scratch: &mut [u32],
    out: &mut [u32],
) -> u32 {
    let mut reading = Reading::blank();
    job::read(file, &mut reading);
    let (tasks, edges) = match reading.verdict {
        Verdict::Counts { tasks, edges } => (tasks, edges),
        Verdict::Refused(number) => return u32::from(number),
    };
    let [cover, least, dearest, ..] = out else {
        return 9;
    };
    let (Some(starts), Some(processors)) = (starts.get_mut(..tasks), processors.get_mut(..tasks))
    else {
        return 9;
    };
    let Some(arrivals) = scratch.as_chunks_mut().0.first_chunk_mut() else {
        return 9;
    };
    *arrivals = [[0; 16]; 256];
    let mut planner = Planner::<BY_WEIGHT>::new(&reading, tasks, edges, arrivals);
    planner.run(|pair| {
        starts[pair.task] = pair.start;
        processors[pair.task] = pair.processor;
    });
    let planned = Planned {
        job: &reading,
        edges,
        costs: planner.costs,
        starts,
        processors,
    };
    let shorts = planned.shorts();
    *cover = planned.cover(&shorts);
    let most = planned.greatest_cost();
    *least = planned.least(&shorts, most);
    *dearest = planned.dearest(most);
    0
}
