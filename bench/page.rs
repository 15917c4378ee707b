//! A plain Rust page for the cabinet door over the plain Rust checker: the job is read once, and each task marks the cells from that
//! of its first tick to that of its last in the row of its processor.
use crate::checker;
use crate::job::{self, Reading, Verdict};

/// Bytes of a row.
pub const ROW: usize = 70;
const CELLS: u32 = 64;
/// Where the cells of a row begin.
const FIRST: usize = 4;

/// The row of a processor that runs nothing.
fn empty(processor: usize) -> [u8; ROW] {
    let mut row = [b'.'; ROW];
    let tens = processor / 10;
    row[0] = if tens == 0 { b' ' } else { b'0' + tens as u8 };
    row[1] = b'0' + (processor % 10) as u8;
    row[2..FIRST].copy_from_slice(b" |");
    row[ROW - 2..].copy_from_slice(b"|\n");
    row
}

/// Draws a plan for the job of a file at the front of `out`: 0, or the refusal's number.
pub fn draw(file: &[u8], starts: &[u32], processors: &[u8], out: &mut [u8]) -> u32 {
    let mut reading = Reading::blank();
    job::read(file, &mut reading);
    let (tasks, edges) = match reading.verdict {
        Verdict::Counts { tasks, edges } => (tasks, edges),
        Verdict::Refused(number) => return u32::from(number),
    };
    let n = usize::from(reading.platform.processors);
    let (Some(starts), Some(processors)) = (starts.get(..tasks), processors.get(..tasks)) else {
        return 9;
    };
    let Some(rows) = out.as_chunks_mut::<ROW>().0.get_mut(..n) else {
        return 9;
    };
    let plan = processors.iter().copied().zip(starts.iter().copied());
    let number = checker::judge(&reading, edges, plan);
    if number != 0 {
        return number;
    }

    let durations = &reading.durations[..tasks];
    let runs = starts.iter().zip(durations);
    let finishes = runs.map(|(start, duration)| start + duration);
    let last = finishes.max().unwrap_or(1);
    let width = last.div_ceil(CELLS);
    for (p, row) in rows.iter_mut().enumerate() {
        *row = empty(p);
    }
    for ((&processor, &start), &duration) in processors.iter().zip(starts).zip(durations) {
        let first = (start / width) as usize;
        let last = ((start + duration - 1) / width) as usize;
        rows[usize::from(processor)][FIRST + first..=FIRST + last].fill(b'#');
    }
    0
}
