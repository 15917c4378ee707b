//! A plain Rust reader and writer of job files: the same struct of arrays, the same rules and the same refusals in the same
//! order as crate `job`. The benchmark holds the two against each other.

#[derive(Clone, Copy)]
pub struct Platform {
    pub processors: u8,
    pub topology: u8,
    pub unit: u8,
}

pub enum Verdict {
    Counts { tasks: usize, edges: usize },
    Refused(u8),
}

pub struct Reading {
    pub verdict: Verdict,
    pub platform: Platform,
    pub durations: [u32; 256],
    pub from: [u8; 1024],
    pub to: [u8; 1024],
    pub counts: [u16; 1024],
    /// The cost from p to q at place 16p + q; 0 where no wire is.
    pub wires: [u8; 256],
    /// The messages of each task's result; 0 where it has none.
    pub results: [u16; 256],
}

impl Reading {
    pub fn blank() -> Self {
        Reading {
            verdict: Verdict::Refused(0),
            platform: Platform {
                processors: 0,
                topology: 0,
                unit: 0,
            },
            durations: [0; 256],
            from: [0; 1024],
            to: [0; 1024],
            counts: [0; 1024],
            wires: [0; 256],
            results: [0; 256],
        }
    }
}

/// Reads a job file into a blank reading, where the caller has it: nothing is copied.
pub fn read(file: &[u8], reading: &mut Reading) {
    match fill(reading, file) {
        Ok((tasks, edges)) => reading.verdict = Verdict::Counts { tasks, edges },
        Err(number) => {
            *reading = Reading::blank();
            reading.verdict = Verdict::Refused(number);
        }
    }
}

/// The number for what stands where a record of another kind is due.
fn misplaced(rest: &[u8]) -> u8 {
    match rest.first() {
        None => 1,
        Some(1..=6) => 3,
        Some(_) => 2,
    }
}

fn judge_platform(p: Platform) -> Result<(), u8> {
    if !(1..=16).contains(&p.processors) || p.topology > 3 || p.unit > 100 {
        return Err(4);
    }
    Ok(())
}

fn judge_cost(cost: u8) -> Result<(), u8> {
    if cost > 250 {
        return Err(4);
    }
    Ok(())
}

/// The pairs of processors that have a wire each, in the order of the file: all under topology 3, else none.
fn pairs(p: Platform) -> impl Iterator<Item = (u8, u8)> {
    let n = if p.topology == 3 { p.processors } else { 0 };
    let all = (0..n).flat_map(move |from| (0..n).map(move |to| (from, to)));
    all.filter(|(from, to)| from != to)
}

/// The place of a wire in its array; no processor is above 15.
fn place((from, to): (u8, u8)) -> usize {
    usize::from(from % 16 * 16 + to % 16)
}

fn judge_duration(duration: u32) -> Result<(), u8> {
    if !(1..=1_000_000).contains(&duration) {
        return Err(4);
    }
    Ok(())
}

fn judge_count(count: u16) -> Result<(), u8> {
    if !(1..=1_000).contains(&count) {
        return Err(4);
    }
    Ok(())
}

fn judge_edge(from: u8, to: u8, count: u16, before: Option<u16>, tasks: usize) -> Result<(), u8> {
    judge_count(count)?;
    if from >= to || usize::from(to) >= tasks {
        return Err(6);
    }
    if before.is_some_and(|last| u16::from_be_bytes([from, to]) <= last) {
        return Err(7);
    }
    Ok(())
}

/// Whether each task has a successor, by where the edges come from.
fn senders(from: &[u8]) -> [bool; 256] {
    let mut senders = [false; 256];
    for &task in from {
        senders[usize::from(task)] = true;
    }
    senders
}

/// Reads the wires, and gives what follows them and whether all pairs have one.
fn fill_wires<'a>(reading: &mut Reading, file: &'a [u8]) -> Result<(&'a [u8], bool), u8> {
    if reading.platform.topology != 3 {
        return Ok((file, true));
    }
    let mut pairs = pairs(reading.platform);
    let mut due = pairs.next();
    let mut rest = file;
    while let Some((5, body)) = rest.split_first() {
        let (&[from, to, cost], next) = body.split_first_chunk().ok_or(1)?;
        judge_cost(cost)?;
        if due != Some((from, to)) {
            return Err(14);
        }
        reading.wires[place((from, to))] = cost;
        due = pairs.next();
        rest = next;
    }
    Ok((rest, due.is_none()))
}

/// Reads the results, and gives what follows them.
fn fill_results<'a>(
    reading: &mut Reading,
    file: &'a [u8],
    tasks: usize,
    edges: usize,
) -> Result<&'a [u8], u8> {
    if file.first() != Some(&6) {
        return Ok(file);
    }
    let senders = senders(&reading.from[..edges]);
    let mut due = 0..tasks;
    let mut rest = file;
    while let Some((6, body)) = rest.split_first() {
        let (&[task, low, high], next) = body.split_first_chunk().ok_or(1)?;
        let (task, count) = (usize::from(task), u16::from_le_bytes([low, high]));
        judge_count(count)?;
        if !due.contains(&task) || senders[task] {
            return Err(15);
        }
        reading.results[task] = count;
        due.start = task + 1;
        rest = next;
    }
    Ok(rest)
}

fn fill(reading: &mut Reading, file: &[u8]) -> Result<(usize, usize), u8> {
    let Some((1, body)) = file.split_first() else {
        return Err(misplaced(file));
    };
    let (&[processors, topology, unit], rest) = body.split_first_chunk().ok_or(1)?;
    reading.platform = Platform {
        processors,
        topology,
        unit,
    };
    judge_platform(reading.platform)?;

    let (mut rest, wired) = fill_wires(reading, rest)?;
    let mut tasks = 0;
    while let Some((2, body)) = rest.split_first() {
        let place = reading.durations.get_mut(tasks).ok_or(5)?;
        let (&bytes, next) = body.split_first_chunk().ok_or(1)?;
        let duration = u32::from_le_bytes(bytes);
        judge_duration(duration)?;
        if !wired {
            return Err(14);
        }
        *place = duration;
        tasks += 1;
        rest = next;
    }
    if tasks == 0 {
        return Err(misplaced(rest));
    }

    let mut edges = 0;
    let mut before = None;
    while let Some((3, body)) = rest.split_first() {
        if edges == 1024 {
            return Err(5);
        }
        let (&[from, to, low, high], next) = body.split_first_chunk().ok_or(1)?;
        let count = u16::from_le_bytes([low, high]);
        judge_edge(from, to, count, before, tasks)?;
        reading.from[edges] = from;
        reading.to[edges] = to;
        reading.counts[edges] = count;
        before = Some(u16::from_be_bytes([from, to]));
        edges += 1;
        rest = next;
    }

    let rest = fill_results(reading, rest, tasks, edges)?;
    let Some((4, after)) = rest.split_first() else {
        return Err(misplaced(rest));
    };
    if !after.is_empty() {
        return Err(8);
    }
    Ok((tasks, edges))
}

/// Writes the first `tasks` tasks and `edges` edges of a job held as numbers, and gives the length written; the verdict is not
/// looked at.
pub fn write(job: &Reading, tasks: usize, edges: usize, out: &mut [u8]) -> Result<usize, u8> {
    let platform = job.platform;
    let durations = job.durations.get(..tasks).ok_or(5)?;
    let from = job.from.get(..edges).ok_or(5)?;
    let to = &job.to[..edges];
    let counts = &job.counts[..edges];
    judge_platform(platform)?;
    let mut wired = 0;
    for pair in pairs(platform) {
        judge_cost(job.wires[place(pair)])?;
        wired += 4;
    }
    if tasks == 0 {
        return Err(3);
    }
    durations
        .iter()
        .try_for_each(|&duration| judge_duration(duration))?;
    let mut before = None;
    for ((&from, &to), &count) in from.iter().zip(to).zip(counts) {
        judge_edge(from, to, count, before, tasks)?;
        before = Some(u16::from_be_bytes([from, to]));
    }
    let results = &job.results[..tasks];
    let many = results.iter().filter(|&&count| count != 0).count();
    if many > 0 {
        for (&count, sends) in results.iter().zip(senders(from)) {
            if count != 0 {
                judge_count(count)?;
                if sends {
                    return Err(15);
                }
            }
        }
    }

    let length = 5 + wired + 5 * (tasks + edges) + 4 * many;
    let out = out.get_mut(..length).ok_or(9)?;
    out[..4].copy_from_slice(&[1, platform.processors, platform.topology, platform.unit]);
    let (records, rest) = out[4..length - 1].split_at_mut(wired);
    for (record, pair) in records.chunks_exact_mut(4).zip(pairs(platform)) {
        record.copy_from_slice(&[5, pair.0, pair.1, job.wires[place(pair)]]);
    }
    let (steps, rest) = rest.split_at_mut(5 * tasks);
    let (links, deliveries) = rest.split_at_mut(5 * edges);
    for (record, duration) in steps.chunks_exact_mut(5).zip(durations) {
        record[0] = 2;
        record[1..].copy_from_slice(&duration.to_le_bytes());
    }
    for (((record, &from), &to), count) in links.chunks_exact_mut(5).zip(from).zip(to).zip(counts) {
        let [low, high] = count.to_le_bytes();
        record.copy_from_slice(&[3, from, to, low, high]);
    }
    let given = results.iter().enumerate().filter(|(_, &count)| count != 0);
    for (record, (task, count)) in deliveries.chunks_exact_mut(4).zip(given) {
        let [low, high] = count.to_le_bytes();
        record.copy_from_slice(&[6, task as u8, low, high]);
    }
    out[length - 1] = 4;
    Ok(length)
}
