//! The square of costs: held against the plain Rust one on all platforms, then timed by topology.
use std::hint::black_box;

use crate::dice::Dice;
use crate::job::Platform;
use crate::{planner, proved, timing};

const TOPOLOGIES: [&str; 4] = ["complete", "hypercube", "ring", "wires"];

// The call of crate `timing` over the Rust square.
#[inline(never)]
fn rust_square(platform: Platform, wires: &[u8; 256], p: usize, q: usize) -> u32 {
    let costs = planner::square(platform, wires);
    costs.get(p).and_then(|row| row.get(q)).map_or(0, |&x| x)
}

/// A wire for each two different processors.
fn wires(processors: usize, dice: &mut Dice) -> [u8; 256] {
    let mut wires = [0; 256];
    for (i, wire) in wires.iter_mut().enumerate() {
        let (p, q) = (i / 16, i % 16);
        if p != q && p < processors && q < processors {
            *wire = dice.below(251) as u8;
        }
    }
    wires
}

/// Holds the two against each other: each number of processors, each topology and each unit cost, all entries and some past them.
pub fn hold() {
    let mut dice = Dice::new(5);
    let mut squares = 0;
    for processors in 1..=16 {
        let wires = wires(usize::from(processors), &mut dice);
        for (topology, unit) in (0..4).flat_map(|topology| (0..=100).map(move |c| (topology, c))) {
            let platform = Platform {
                processors,
                topology,
                unit,
            };
            for (p, q) in (0..18).flat_map(|p| (0..18).map(move |q| (p, q))) {
                assert_eq!(
                    proved::square(platform, &wires, p, q),
                    rust_square(platform, &wires, p, q),
                    "{processors} processors, topology {topology}, unit cost {unit}: from {p} to {q}"
                );
            }
            squares += 1;
        }
    }
    println!("{squares} squares: both agree");
}

pub fn time() {
    let wires = wires(16, &mut Dice::new(6));
    for (topology, name) in (0..).zip(TOPOLOGIES) {
        let platform = Platform {
            processors: 16,
            topology,
            unit: 100,
        };
        let square = timing::timed(
            |i| {
                let (p, q) = black_box((i / 16 % 16, i % 16));
                black_box(proved::square(black_box(platform), black_box(&wires), p, q));
            },
            |i| {
                let (p, q) = black_box((i / 16 % 16, i % 16));
                black_box(rust_square(black_box(platform), black_box(&wires), p, q));
            },
        );
        timing::report(&format!("square {name}"), square);
    }
}
