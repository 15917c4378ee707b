//! A plain Rust checker: the same rules in the same order as crate `schedule`, and the same test of each two tasks.
use crate::job::{self, Reading, Verdict};
use crate::planner::square;

/// A plan as numbers; what stands past its tasks is not looked at.
struct Plan {
    processors: [u8; 256],
    starts: [u32; 256],
    finishes: [u32; 256],
}

impl Plan {
    /// The plan of these tasks, each as its processor and its start, or the number of the first that is out of range.
    fn new(job: &Reading, tasks: impl Iterator<Item = (u8, u32)>) -> Result<Plan, u32> {
        let mut plan = Plan {
            processors: [0; 256],
            starts: [0; 256],
            finishes: [0; 256],
        };
        for (t, (processor, start)) in tasks.enumerate() {
            if processor >= job.platform.processors {
                return Err(10);
            }
            if start > 600_000_000 {
                return Err(11);
            }
            plan.processors[t] = processor;
            plan.starts[t] = start;
            plan.finishes[t] = start + job.durations[t];
        }
        Ok(plan)
    }

    /// The inner loop has no early end, so that the compiler can take several tasks at a time.
    fn overlap(&self, tasks: usize) -> bool {
        let processors = &self.processors[..tasks];
        let starts = &self.starts[..tasks];
        let finishes = &self.finishes[..tasks];
        (0..tasks).any(|t| {
            let (processor, start, finish) = (processors[t], starts[t], finishes[t]);
            (t + 1..tasks).fold(false, |met, u| {
                met | ((processors[u] == processor) & (starts[u] < finish) & (start < finishes[u]))
            })
        })
    }

    fn early(&self, job: &Reading, edges: usize) -> bool {
        let costs = square(job.platform, &job.wires);
        let edges = job.from[..edges].iter().zip(&job.to).zip(&job.counts);
        edges.into_iter().any(|((&from, &to), &count)| {
            let (s, t) = (usize::from(from), usize::from(to));
            let (p, q) = (self.processors[s] % 16, self.processors[t] % 16);
            let message = u32::from(count) * costs[usize::from(p)][usize::from(q)];
            self.starts[t] < self.finishes[s] + message
        })
    }
}

/// Judges a plan for a job that was read, its tasks in order, each as its processor and its start: 0 for a yes, or the refusal's
/// number.
pub fn judge(job: &Reading, edges: usize, plan: impl ExactSizeIterator<Item = (u8, u32)>) -> u32 {
    let tasks = plan.len();
    match Plan::new(job, plan) {
        Err(number) => number,
        Ok(plan) if plan.overlap(tasks) => 12,
        Ok(plan) if plan.early(job, edges) => 13,
        Ok(_) => 0,
    }
}

/// Judges 5 bytes a task for the job of a file: 0 for a yes, or the refusal's number.
pub fn check(file: &[u8], plan: &[u8]) -> u32 {
    let mut reading = Reading::blank();
    job::read(file, &mut reading);
    let (tasks, edges) = match reading.verdict {
        Verdict::Counts { tasks, edges } => (tasks, edges),
        Verdict::Refused(number) => return u32::from(number),
    };
    let Some(bytes) = plan.get(..5 * tasks) else {
        return 9;
    };
    let rows = bytes.chunks_exact(5);
    let plan = rows.map(|row| (row[0], u32::from_le_bytes([row[1], row[2], row[3], row[4]])));
    judge(&reading, edges, plan)
}
