//! The job reader and writer: held against the plain Rust ones, then timed.
use std::hint::black_box;

use crate::job::{self, Reading, Verdict};
use crate::{proved, timing};

/// The places that `proved::read` takes: those of the six arrays, and one for the verdict.
const PLACES: usize = 256 + 3 * 1024 + 256 + 256 + 1;

// The two calls of crate `timing` over the Rust reader and writer.

#[inline(never)]
fn rust_read(file: &[u8], place: usize) -> u32 {
    let mut r = Reading::blank();
    job::read(file, &mut r);
    match place {
        0..256 => r.durations[place],
        256..1280 => u32::from(r.from[place - 256]),
        1280..2304 => u32::from(r.to[place - 1280]),
        2304..3328 => u32::from(r.counts[place - 2304]),
        3328..3584 => u32::from(r.wires[place - 3328]),
        3584..3840 => u32::from(r.results[place - 3584]),
        _ => match r.verdict {
            Verdict::Counts { .. } => 0,
            Verdict::Refused(number) => u32::from(number),
        },
    }
}

#[inline(never)]
fn rust_copy(file: &[u8], out: &mut [u8]) -> u32 {
    let mut r = Reading::blank();
    job::read(file, &mut r);
    let (tasks, edges) = match r.verdict {
        Verdict::Counts { tasks, edges } => (tasks, edges),
        Verdict::Refused(number) => return u32::from(number),
    };
    match job::write(&r, tasks, edges, out) {
        Ok(_) => 0,
        Err(number) => u32::from(number),
    }
}

/// The same answer, arrays and output from both, for outputs that are long enough and too short.
fn same(file: &[u8]) -> bool {
    let room = file.len().max(8);
    (0..PLACES).all(|place| proved::read(file, place) == rust_read(file, place))
        && [room + 3, room, room - 1, 4, 0].iter().all(|&room| {
            let (mut a, mut b) = (vec![0xEE; room], vec![0xEE; room]);
            proved::copy(file, &mut a) == rust_copy(file, &mut b) && a == b
        })
}

/// Holds the two against each other.
pub fn hold(files: &[&[u8]]) {
    for (i, file) in files.iter().enumerate() {
        assert!(same(file), "file {i}: the two differ");
    }
    println!("{} files: both readers and both writers agree", files.len());
}

/// A job file on 16 processors whose last task is `last`, with the first `edges` edges; with wires under topology 3; with results
/// of all tasks that no edge is from, or of none.
fn job_file(topology: u8, last: u8, edges: usize, results: bool) -> Vec<u8> {
    let mut file = vec![1, 16, topology, 100];
    let pairs = (0..16).flat_map(|from| (0..16).map(move |to| (from, to)));
    for (from, to) in pairs.filter(|(from, to)| topology == 3 && from != to) {
        file.extend([5, from, to, from * 16 + to / 2]);
    }
    for t in 0..=last {
        file.push(2);
        file.extend((1_000_000 - 977 * u32::from(t)).to_le_bytes());
    }
    let pairs = (0..=last).flat_map(|from| (from + 1..=last).map(move |to| (from, to)));
    let mut silent = 0..=last;
    for (i, (from, to)) in pairs.take(edges).enumerate() {
        file.extend([3, from, to]);
        file.extend((1 + i as u16 * 7 % 1000).to_le_bytes());
        silent = from + 1..=last;
    }
    for task in silent.filter(|_| results) {
        file.extend([6, task]);
        file.extend((1 + u16::from(task) * 37 % 1000).to_le_bytes());
    }
    file.push(4);
    file
}

fn time_file(name: &str, file: &[u8]) {
    let mut out = vec![0; file.len()];
    let mut again = vec![0; file.len()];
    let read = timing::timed(
        |i| {
            black_box(proved::read(black_box(file), black_box(i % PLACES)));
        },
        |i| {
            black_box(rust_read(black_box(file), black_box(i % PLACES)));
        },
    );
    timing::report(&format!("read {name}"), read);
    let copy = timing::timed(
        |_| {
            black_box(proved::copy(black_box(file), black_box(&mut out)));
        },
        |_| {
            black_box(rust_copy(black_box(file), black_box(&mut again)));
        },
    );
    timing::report(&format!("copy {name}"), copy);
}

pub fn time() {
    for (name, file) in [
        ("256 tasks, 1,024 edges", job_file(2, 255, 1024, false)),
        ("the same, 240 wires", job_file(3, 255, 1024, false)),
        ("the same, 251 results", job_file(3, 255, 1024, true)),
        ("10 tasks, 12 edges", job_file(2, 9, 12, false)),
    ] {
        assert!(same(&file));
        time_file(name, &file);
    }
}
