//! Times two functions in turns, by the processor time of the thread: what other programs take in between does not count. Of ours
//! each start in a line of the cache has its turns, and a time is the mean over the starts.
use std::hint::black_box;

use crate::proved;

/// For each start.
const ROUNDS: usize = 11;

/// Nanoseconds that a round takes, about.
const ROUND: f64 = 4e6;

/// What C has as `struct timespec` on 64-bit Linux.
#[repr(C)]
struct Timespec {
    seconds: i64,
    nanoseconds: i64,
}

extern "C" {
    fn clock_gettime(clock: i32, time: *mut Timespec) -> i32;
}

/// Nanoseconds that this thread has run.
fn now() -> f64 {
    const CLOCK_THREAD_CPUTIME_ID: i32 = 3;
    let mut time = Timespec {
        seconds: 0,
        nanoseconds: 0,
    };
    assert_eq!(
        unsafe { clock_gettime(CLOCK_THREAD_CPUTIME_ID, &mut time) },
        0
    );
    1e9 * time.seconds as f64 + time.nanoseconds as f64
}

/// Nanoseconds of one call, over the rounds.
pub struct Times {
    least: f64,
    median: f64,
}

/// As many calls as take about the time of a round.
fn calls_in_a_round(call: &mut dyn FnMut(usize)) -> usize {
    let start = now();
    let mut calls = 0;
    while now() - start < ROUND {
        call(calls);
        calls += 1;
    }
    calls
}

fn round(calls: usize, call: &mut dyn FnMut(usize)) -> f64 {
    let start = now();
    for i in 0..calls {
        call(i);
    }
    (now() - start) / calls as f64
}

/// What the rounds took, by start.
type Rounds = [Vec<f64>; proved::STARTS];

/// The mean over the starts.
fn times(rounds: Rounds) -> Times {
    let mut mean = Times {
        least: 0.0,
        median: 0.0,
    };
    for mut there in rounds {
        there.sort_by(f64::total_cmp);
        mean.least += there[0] / proved::STARTS as f64;
        mean.median += there[there.len() / 2] / proved::STARTS as f64;
    }
    mean
}

/// The times of two functions, which take turns; a call is told how many went before it in its round.
pub fn timed(mut one: impl FnMut(usize), mut other: impl FnMut(usize)) -> [Times; 2] {
    let calls = calls_in_a_round(&mut one);
    let (mut a, mut b): (Rounds, Rounds) = Default::default();
    for i in 0..ROUNDS * proved::STARTS {
        let start = i % proved::STARTS;
        proved::begin(start);
        a[start].push(round(calls, &mut one));
        b[start].push(round(calls, &mut other));
    }
    proved::begin(0);
    [times(a), times(b)]
}

pub fn head(one: &str, other: &str) {
    println!(
        "{:32} {:>24}   {:>24}",
        "ns a call",
        format!("median: {one}, {other}, ratio"),
        format!("least: {one}, {other}, ratio")
    );
}

pub fn report(what: &str, [one, other]: [Times; 2]) {
    println!(
        "{what:32} {:8.0} {:8.0} {:6.2}   {:8.0} {:8.0} {:6.2}",
        one.median,
        other.median,
        one.median / other.median,
        one.least,
        other.least,
        one.least / other.least
    );
}

/// Times two calls on these jobs, in turns, and prints what they took.
pub fn compare<T>(what: &str, jobs: &[T], mut one: impl FnMut(&T), mut other: impl FnMut(&T)) {
    let times = timed(
        |i| one(black_box(&jobs[i % jobs.len()])),
        |i| other(black_box(&jobs[i % jobs.len()])),
    );
    report(what, times);
}
