//! Times the job reader and writer, the square of costs, the planner, the small planner, the planner by weight, the checker, both cover
//! calls and the page against plain Rust ones, in one run, and prints the ratios; then the cover call, the small planner and the planner
//! by weight against our planner. First it holds each against the other on the files of the cases of crate `vectors`, whose folder is
//! the first argument, and more; the squares on all platforms. Then it prints how much stack planners, checker, cover calls and page
//! take, and last how the ends by weight stand to those by number, and least covers to covers: one of the two alone where the second
//! argument is `ends` or `leasts`.
mod cases;
mod checker;
mod cover;
mod covers;
mod dice;
mod ends;
mod families;
mod job;
mod leasts;
mod page;
mod pages;
mod planner;
mod plans;
mod proved;
mod reader;
mod slices;
mod small;
mod smalls;
mod squares;
mod stack;
mod tally;
mod timing;
mod weights;

fn main() {
    let folder = std::env::args().nth(1).expect("the folder of the cases");
    let cases = std::fs::read(format!("{folder}/stdin")).expect("the cases can be read");
    let lines =
        std::fs::read_to_string(format!("{folder}/stdout")).expect("their lines can be read");
    let files = cases::files(&cases);
    let families = families::families();
    match std::env::args().nth(2).as_deref() {
        Some("ends") => return ends::print(&families),
        Some("leasts") => return leasts::print(&families),
        _ => (),
    }
    cases::hold(&cases, &lines);
    reader::hold(&files);
    squares::hold();
    let jobs = plans::jobs(&files, &families);
    plans::hold(&jobs);
    smalls::hold(&jobs);
    weights::hold(&jobs);
    covers::hold(&jobs);
    pages::hold(&jobs);

    timing::head("ours", "Rust");
    reader::time();
    squares::time();
    plans::time(&families);
    smalls::time(&families);
    weights::time(&families);
    covers::time(&families);
    pages::time(&families);
    timing::head("cover", "plan");
    covers::time_beside_plan(&families);
    timing::head("small", "plan");
    smalls::time_beside_plan(&families);
    timing::head("weight", "plan");
    weights::time_beside_plan(&families);
    plans::measure_stack(&families);
    smalls::measure_stack(&families);
    weights::measure_stack(&families);
    covers::measure_stack(&families);
    pages::measure_stack(&families);
    ends::print(&families);
    leasts::print(&families);
}
