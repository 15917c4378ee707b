//! The cases of `vectors`: the files among them; and what C is not told, by the lines that they must give: how the plain Rust writer
//! judges and writes jobs that no file holds, and the end of the plain Rust planner's plan, by number and by weight.
use crate::families::TASKS;
use crate::job::{self, Platform, Reading};
use crate::planner;

/// What each case is for, and its body.
fn all(mut cases: &[u8]) -> impl Iterator<Item = (u8, &[u8])> {
    std::iter::from_fn(move || {
        let (&[what, low, high], rest) = cases.split_first_chunk()?;
        let (body, next) = rest.split_at(usize::from(u16::from_le_bytes([low, high])));
        cases = next;
        Some((what, body))
    })
}

/// The files among the cases.
pub fn files(cases: &[u8]) -> Vec<&[u8]> {
    let files = all(cases).filter(|&(what, _)| what == b'r');
    files.map(|(_, body)| body).collect()
}

/// The number at a place, in so many bytes.
fn number(body: &[u8], at: usize, bytes: usize) -> usize {
    let bytes = body[at..at + bytes].iter().rev();
    bytes.fold(0, |sum, &byte| sum << 8 | usize::from(byte))
}

/// The line of a case of the writer, whose body `writing.rt` of crate `vectors` describes.
fn written(body: &[u8], wires: &[u8], results: &[u8]) -> String {
    let mut held = Reading::blank();
    held.platform = Platform {
        processors: body[16],
        topology: body[17],
        unit: body[18],
    };
    held.durations = [number(body, 24, 4) as u32; 256];
    held.from = [body[28]; 1024];
    held.to = [body[29]; 1024];
    held.counts = [number(body, 30, 2) as u16; 1024];
    held.wires[..wires.len()].copy_from_slice(wires);
    for (count, bytes) in held.results.iter_mut().zip(results.chunks_exact(2)) {
        *count = number(bytes, 0, 2) as u16;
    }
    let (durations, edges) = body[32..].split_at(4 * number(body, 22, 2));
    for (duration, bytes) in held.durations.iter_mut().zip(durations.chunks_exact(4)) {
        *duration = number(bytes, 0, 4) as u32;
    }
    for (i, bytes) in edges.chunks_exact(4).take(1024).enumerate() {
        held.from[i] = bytes[0];
        held.to[i] = bytes[1];
        held.counts[i] = number(bytes, 2, 2) as u16;
    }
    let mut out = vec![body[19]; number(body, 20, 2)];
    let said = match job::write(&held, number(body, 0, 8), number(body, 8, 8), &mut out) {
        Ok(length) => format!("written {length}"),
        Err(number) => format!("refused {number}"),
    };
    let out: String = out.iter().map(|byte| format!("{byte:02x}")).collect();
    format!("{said} [{out}]")
}

/// The line of the listing that tells the end, or the refusal.
fn end(file: &[u8]) -> String {
    match planner::plan::<false>(file, &mut [0; 5 * TASKS]) {
        Ok(end) => format!("end {end}"),
        Err(number) => format!("refused {number}"),
    }
}

/// Holds the end by weight, or the refusal, to the planner's line of a case of ties by weight: it stands before the starts there. 9 is
/// for the case's slices.
fn hold_weight(file: &[u8], line: &str) {
    let said = match planner::plan::<true>(file, &mut [0; 5 * TASKS]) {
        Ok(end) => format!(" {end}"),
        Err(number) => format!(" refused {number}"),
    };
    let told = line.split(" starts").next().unwrap_or("");
    assert!(
        told.ends_with(" refused 9") || told.ends_with(&said),
        "{said}, not {line}"
    );
}

/// Holds the plain Rust writer and the ends of the plain Rust planner to the lines that the cases must give.
pub fn hold(cases: &[u8], lines: &str) {
    let mut lines = lines.lines();
    let mut held = 0;
    for (i, (what, body)) in all(cases).enumerate() {
        let due: Vec<_> = match what {
            b'p' => lines.by_ref().take(3).collect(),
            b'h' => lines.by_ref().take(2).collect(),
            b't' => {
                let text = lines.by_ref();
                text.take_while(|line| !line.starts_with("listing of"))
                    .collect()
            }
            b'd' => {
                let rows = lines.by_ref();
                rows.take_while(|line| !line.starts_with("page")).collect()
            }
            _ => lines.by_ref().take(1).collect(),
        };
        if what == b'h' {
            hold_weight(&body[15..], due[0]);
            held += 1;
            continue;
        }
        let said = match what {
            b'w' => written(body, &[], &[]),
            b'v' => written(&body[256..], &body[..256], &[]),
            b'u' => written(&body[768..], &body[512..768], &body[..512]),
            b't' => end(&body[1..]),
            _ => continue,
        };
        assert!(
            due.contains(&said.as_str()),
            "case {i}: {said}, not {due:?}"
        );
        held += 1;
    }
    assert_eq!(lines.next(), None, "more lines than cases");
    println!("{held} cases of writer, listing and weights: the Rust writer's lines and the Rust planner's ends are right");
}
