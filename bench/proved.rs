//! The proved functions of crates `timing` and `kelvrist`, as C calls them: a slice is a pointer and a length. Each is there four
//! times, at the four starts in a line of the cache (`bench/place`); `begin` says which is called.
use crate::job::Platform;
use std::sync::atomic::{AtomicUsize, Ordering::Relaxed};

pub const STARTS: usize = 4;

static START: AtomicUsize = AtomicUsize::new(0);

/// From now on the functions that begin there are called.
pub fn begin(start: usize) {
    START.store(start % STARTS, Relaxed);
}

/// An exported function at its four starts.
macro_rules! placed {
    ($all:ident($($type:ty),*): $a:ident, $b:ident, $c:ident, $d:ident) => {
        extern "C" {
            fn $a($(_: $type),*) -> u32;
            fn $b($(_: $type),*) -> u32;
            fn $c($(_: $type),*) -> u32;
            fn $d($(_: $type),*) -> u32;
        }
        static $all: [unsafe extern "C" fn($($type),*) -> u32; STARTS] = [$a, $b, $c, $d];
    };
}

placed!(READ(*const u8, usize, usize): timing_read_at_0, timing_read_at_16, timing_read_at_32, timing_read_at_48);
placed!(COPY(*const u8, usize, *mut u8, usize): timing_copy_at_0, timing_copy_at_16, timing_copy_at_32, timing_copy_at_48);
placed!(SQUARE(u8, u8, u8, *const u8, usize, usize):
    timing_square_at_0, timing_square_at_16, timing_square_at_32, timing_square_at_48);
placed!(PLAN(*const u8, usize, *mut u8, usize): kelvrist_plan_at_0, kelvrist_plan_at_16, kelvrist_plan_at_32, kelvrist_plan_at_48);
placed!(PLAN_SMALL(*const u8, usize, *mut u8, usize):
    kelvrist_plan_small_at_0, kelvrist_plan_small_at_16, kelvrist_plan_small_at_32, kelvrist_plan_small_at_48);
placed!(PLAN_BY_WEIGHT(*const u8, usize, *mut u8, usize):
    kelvrist_plan_by_weight_at_0, kelvrist_plan_by_weight_at_16, kelvrist_plan_by_weight_at_32, kelvrist_plan_by_weight_at_48);
placed!(CHECK(*const u8, usize, *const u8, usize): kelvrist_check_at_0, kelvrist_check_at_16, kelvrist_check_at_32, kelvrist_check_at_48);
placed!(PAGE(*const u8, usize, *const u8, usize, *mut u8, usize):
    kelvrist_page_at_0, kelvrist_page_at_16, kelvrist_page_at_32, kelvrist_page_at_48);
placed!(COVER(*const u8, usize, *mut u32, usize, *mut u8, usize, *mut u32, usize, *mut u32, usize):
    timing_cover_at_0, timing_cover_at_16, timing_cover_at_32, timing_cover_at_48);
placed!(COVER_BY_WEIGHT(*const u8, usize, *mut u32, usize, *mut u8, usize, *mut u32, usize, *mut u32, usize):
    timing_cover_by_weight_at_0, timing_cover_by_weight_at_16, timing_cover_by_weight_at_32, timing_cover_by_weight_at_48);
placed!(SMALL(*const u8, usize, *mut u32, usize, *mut u8, usize, *mut u32, usize):
    timing_small_at_0, timing_small_at_16, timing_small_at_32, timing_small_at_48);
placed!(BY_WEIGHT(*const u8, usize, *mut u32, usize, *mut u8, usize, *mut u32, usize):
    timing_plan_by_weight_at_0, timing_plan_by_weight_at_16, timing_plan_by_weight_at_32, timing_plan_by_weight_at_48);
placed!(DRAW(*const u8, usize, *const u32, usize, *const u8, usize, *mut u8, usize):
    timing_draw_at_0, timing_draw_at_16, timing_draw_at_32, timing_draw_at_48);

/// A call on a file and three lent slices, and one that has an output too.
type OnSlices =
    unsafe extern "C" fn(*const u8, usize, *mut u32, usize, *mut u8, usize, *mut u32, usize) -> u32;
type WithOutput = unsafe extern "C" fn(
    *const u8,
    usize,
    *mut u32,
    usize,
    *mut u8,
    usize,
    *mut u32,
    usize,
    *mut u32,
    usize,
) -> u32;

/// The one of four that is to be called.
fn there<F: Copy>(all: &[F; STARTS]) -> F {
    all[START.load(Relaxed)]
}

/// Reads a job, and gives the number at one place of what was read.
pub fn read(file: &[u8], place: usize) -> u32 {
    unsafe { there(&READ)(file.as_ptr(), file.len(), place) }
}

/// Reads a job and writes it to `out`.
pub fn copy(file: &[u8], out: &mut [u8]) -> u32 {
    unsafe { there(&COPY)(file.as_ptr(), file.len(), out.as_mut_ptr(), out.len()) }
}

/// Makes the square of costs, and gives the entry at row p and column q.
pub fn square(platform: Platform, wires: &[u8; 256], p: usize, q: usize) -> u32 {
    let Platform {
        processors,
        topology,
        unit,
    } = platform;
    unsafe { there(&SQUARE)(processors, topology, unit, wires.as_ptr(), p, q) }
}

pub fn plan(job: &[u8], plan: &mut [u8]) -> u32 {
    unsafe { there(&PLAN)(job.as_ptr(), job.len(), plan.as_mut_ptr(), plan.len()) }
}

pub fn plan_small(job: &[u8], plan: &mut [u8]) -> u32 {
    unsafe { there(&PLAN_SMALL)(job.as_ptr(), job.len(), plan.as_mut_ptr(), plan.len()) }
}

pub fn plan_by_weight(job: &[u8], plan: &mut [u8]) -> u32 {
    unsafe { there(&PLAN_BY_WEIGHT)(job.as_ptr(), job.len(), plan.as_mut_ptr(), plan.len()) }
}

pub fn check(job: &[u8], plan: &[u8]) -> u32 {
    unsafe { there(&CHECK)(job.as_ptr(), job.len(), plan.as_ptr(), plan.len()) }
}

/// Calls one of four on slices.
fn on_slices(
    all: &[OnSlices; STARTS],
    file: &[u8],
    starts: &mut [u32],
    processors: &mut [u8],
    scratch: &mut [u32],
) -> u32 {
    unsafe {
        there(all)(
            file.as_ptr(),
            file.len(),
            starts.as_mut_ptr(),
            starts.len(),
            processors.as_mut_ptr(),
            processors.len(),
            scratch.as_mut_ptr(),
            scratch.len(),
        )
    }
}

/// Calls one of four on slices, with an output.
fn with_output(
    all: &[WithOutput; STARTS],
    file: &[u8],
    starts: &mut [u32],
    processors: &mut [u8],
    scratch: &mut [u32],
    out: &mut [u32],
) -> u32 {
    unsafe {
        there(all)(
            file.as_ptr(),
            file.len(),
            starts.as_mut_ptr(),
            starts.len(),
            processors.as_mut_ptr(),
            processors.len(),
            scratch.as_mut_ptr(),
            scratch.len(),
            out.as_mut_ptr(),
            out.len(),
        )
    }
}

/// Plans a job into the slices, and puts the cover, the least cover and the dearest chain into `out`.
pub fn cover(
    file: &[u8],
    starts: &mut [u32],
    processors: &mut [u8],
    scratch: &mut [u32],
    out: &mut [u32],
) -> u32 {
    with_output(&COVER, file, starts, processors, scratch, out)
}

/// The same by weight.
pub fn cover_by_weight(
    file: &[u8],
    starts: &mut [u32],
    processors: &mut [u8],
    scratch: &mut [u32],
    out: &mut [u32],
) -> u32 {
    with_output(&COVER_BY_WEIGHT, file, starts, processors, scratch, out)
}

/// Plans a job into the slices by weight.
pub fn by_weight(
    file: &[u8],
    starts: &mut [u32],
    processors: &mut [u8],
    scratch: &mut [u32],
) -> u32 {
    on_slices(&BY_WEIGHT, file, starts, processors, scratch)
}

/// Plans a job into the slices with 512 places of scratch.
pub fn small(file: &[u8], starts: &mut [u32], processors: &mut [u8], scratch: &mut [u32]) -> u32 {
    on_slices(&SMALL, file, starts, processors, scratch)
}

/// Draws a plan in `out`.
pub fn draw(file: &[u8], starts: &[u32], processors: &[u8], out: &mut [u8]) -> u32 {
    unsafe {
        there(&DRAW)(
            file.as_ptr(),
            file.len(),
            starts.as_ptr(),
            starts.len(),
            processors.as_ptr(),
            processors.len(),
            out.as_mut_ptr(),
            out.len(),
        )
    }
}

/// The addresses of the five calls on a job and a plan, by name; the last has a page after them.
pub fn addresses() -> [(&'static str, usize); 5] {
    [
        ("kelvrist_plan", there(&PLAN) as *const () as usize),
        (
            "kelvrist_plan_by_weight",
            there(&PLAN_BY_WEIGHT) as *const () as usize,
        ),
        (
            "kelvrist_plan_small",
            there(&PLAN_SMALL) as *const () as usize,
        ),
        ("kelvrist_check", there(&CHECK) as *const () as usize),
        ("kelvrist_page", there(&PAGE) as *const () as usize),
    ]
}

pub fn cover_by_weight_address() -> usize {
    there(&COVER_BY_WEIGHT) as *const () as usize
}

pub fn by_weight_address() -> usize {
    there(&BY_WEIGHT) as *const () as usize
}

pub fn cover_address() -> usize {
    there(&COVER) as *const () as usize
}

pub fn small_address() -> usize {
    there(&SMALL) as *const () as usize
}

pub fn draw_address() -> usize {
    there(&DRAW) as *const () as usize
}
