//! A plain Rust planner that keeps no arrivals: the same steps as `small.rt` of crate `schedule` (a list of the edges into each task,
//! a task passed over where the messages of one edge are at no free processor before the leader's start, else its arrivals worked out).
//! `% 16`, `% 256` and `% 1024` change no processor, no task and no edge; they spare the check of an index.
use crate::job::{self, Reading, Verdict};
use crate::planner::{self, Moment, Pair, PLACED};

/// The messages of an edge: when their sender finishes, how many they are, and the costs from its processor.
struct Bundle<'a> {
    finish: u32,
    messages: u32,
    costs: &'a [u32; 16],
}

impl Bundle<'_> {
    fn arrival(&self, processor: usize) -> u32 {
        self.finish + self.messages * self.costs[processor % 16]
    }
}

struct Planner<'a> {
    job: &'a Reading,
    tasks: usize,
    edges: usize,
    n: usize,
    costs: [[u32; 16]; 16],
    /// The edges of task t go from `runs[t]` to before `runs[t + 1]`.
    runs: [u16; 257],
    /// The first edge into each task, and after each edge the next one into the same task; the number of edges where there is none.
    first: [u16; 256],
    next: [u16; 1024],
    waiting: [u16; 256],
    busy: [u32; 16],
    latest: [u32; 256],
    /// Of the tasks that are placed.
    starts: [u32; 256],
    processors: [u8; 256],
    finishes: [u32; 256],
    /// All tasks below it are placed.
    low: usize,
}

impl<'a> Planner<'a> {
    fn new(job: &'a Reading, tasks: usize, edges: usize) -> Self {
        let mut planner = Planner {
            job,
            tasks,
            edges,
            n: usize::from(job.platform.processors),
            costs: planner::square(job.platform, &job.wires),
            runs: [0; 257],
            first: [edges as u16; 256],
            next: [0; 1024],
            waiting: [0; 256],
            busy: [0; 16],
            latest: [0; 256],
            starts: [0; 256],
            processors: [0; 256],
            finishes: [0; 256],
            low: 0,
        };
        for (&from, &to) in job.from[..edges].iter().zip(&job.to[..edges]) {
            planner.runs[usize::from(from) + 1] += 1;
            planner.waiting[usize::from(to)] += 1;
        }
        let mut first = 0;
        for run in &mut planner.runs {
            first += *run;
            *run = first;
        }
        for (edge, &to) in job.to[..edges].iter().enumerate().rev() {
            let first = &mut planner.first[usize::from(to)];
            planner.next[edge % 1024] = *first;
            *first = edge as u16;
        }
        planner
    }

    /// The messages of the edges into a task.
    fn bundles(&self, task: usize) -> impl Iterator<Item = Bundle<'_>> {
        let mut edge = usize::from(self.first[task % 256]);
        std::iter::from_fn(move || {
            if edge >= self.edges {
                return None;
            }
            let sender = usize::from(self.job.from[edge % 1024]);
            let bundle = Bundle {
                finish: self.finishes[sender],
                messages: u32::from(self.job.counts[edge % 1024]),
                costs: &self.costs[usize::from(self.processors[sender] % 16)],
            };
            edge = usize::from(self.next[edge % 1024]);
            Some(bundle)
        })
    }

    /// Whether the messages of one edge into a task tell that it starts on no free processor before `start`.
    fn is_beaten(&self, start: u32, task: usize, free: &[u8]) -> bool {
        self.bundles(task).any(|bundle| {
            free.iter()
                .all(|&processor| bundle.arrival(usize::from(processor)) >= start)
        })
    }

    fn work_out(&self, task: usize) -> [u32; 16] {
        let mut row = [0; 16];
        for bundle in self.bundles(task) {
            for (processor, arrival) in row[..self.n].iter_mut().enumerate() {
                *arrival = (*arrival).max(bundle.arrival(processor));
            }
        }
        row
    }

    /// The first pair of smallest start among the ready tasks and the free processors.
    fn choose(&self, clock: u32, free: &[u8]) -> Pair {
        let mut best = Pair::NONE;
        if free.is_empty() {
            return best;
        }
        for task in self.low..self.tasks {
            if self.waiting[task % 256] != 0 || self.latest[task % 256] > clock {
                continue;
            }
            if self.is_beaten(best.start, task, free) {
                continue;
            }
            let row = self.work_out(task);
            for &processor in free {
                let arrival = row[usize::from(processor % 16)];
                if arrival <= clock {
                    return Pair::new(clock, task, processor);
                }
                if arrival < best.start {
                    best = Pair::new(arrival, task, processor);
                }
            }
        }
        best
    }

    /// Places a task, and gives when it is done and its result, if it has one, is at processor 0.
    fn place(&mut self, pair: &Pair) -> u32 {
        let &Pair {
            start,
            task,
            processor,
        } = pair;
        let finish = start + self.job.durations[task];
        self.starts[task] = start;
        self.processors[task] = processor;
        self.finishes[task] = finish;
        self.busy[usize::from(processor)] = finish;
        self.waiting[task] = PLACED;
        let run = usize::from(self.runs[task])..usize::from(self.runs[task + 1]);
        for &to in &self.job.to[run] {
            let to = usize::from(to);
            self.latest[to] = self.latest[to].max(finish);
            self.waiting[to] -= 1;
        }
        while self.low < self.tasks && self.waiting[self.low] == PLACED {
            self.low += 1;
        }
        finish + u32::from(self.job.results[task]) * self.costs[usize::from(processor)][0]
    }

    /// Plans, and returns the end.
    fn run(&mut self) -> u32 {
        let (mut clock, mut end) = (0, 0);
        while self.low < self.tasks {
            let Moment { next, free, count } = planner::survey(&self.busy[..self.n], clock);
            let pair = self.choose(clock, &free[..count]);
            if pair.start <= next {
                end = end.max(self.place(&pair));
            } else {
                clock = next;
            }
        }
        end
    }
}

/// Plans the job of a file into 5 bytes a task: the plan's end, or the refusal's number.
pub fn plan(file: &[u8], plan: &mut [u8]) -> Result<u32, u32> {
    let mut reading = Reading::blank();
    job::read(file, &mut reading);
    let (tasks, edges) = match reading.verdict {
        Verdict::Counts { tasks, edges } => (tasks, edges),
        Verdict::Refused(number) => return Err(u32::from(number)),
    };
    let plan = plan.get_mut(..5 * tasks).ok_or(9u32)?;
    let mut planner = Planner::new(&reading, tasks, edges);
    let end = planner.run();
    let placed = planner.processors.iter().zip(&planner.starts);
    for (bytes, (processor, start)) in plan.chunks_exact_mut(5).zip(placed) {
        bytes[0] = *processor;
        bytes[1..].copy_from_slice(&start.to_le_bytes());
    }
    Ok(end)
}
