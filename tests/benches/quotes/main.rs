//! Measures the library against plain Rust, on the same tables in one run: checking against the second
//! reader, the figure and list calls against reader and evaluator, simplifying, grafting, filling,
//! opening, previewing and committing against the second simplifier, grafter, filler, opener, previewer
//! and committer. Both sides start from bytes and are built for release, Rust without overflow checks. The
//! comparison that rule 8 makes is measured by itself, against loops of its kind. Then come the stack that
//! the calls want and, where they are there, the desk program and `lp_solve` as processes. Where another
//! build of the library is named, the calls are measured against that one instead.

mod calls;
mod compare;
mod fill;
mod graft;
mod places;
mod processes;
mod program;
mod quote;
mod retime;
mod shared;
mod simplify;
mod stack;
mod words;

fn main() {
    if stack::is_probe() {
        return stack::probe();
    }
    if let Some(before) = compare::other_build() {
        return compare::measure(&before);
    }
    calls::measure();
    println!();
    simplify::measure();
    println!();
    words::measure();
    println!();
    graft::measure();
    println!();
    fill::measure();
    println!();
    retime::measure();
    println!();
    stack::measure();
    println!();
    processes::measure();
}
