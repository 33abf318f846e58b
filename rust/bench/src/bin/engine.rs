//! The engine by itself, over the archive of the proved crate `bench`: checked events, and events in a run with one check.

use bench::command;
use bench::job::{Answers, Job, Task};
use bench::stack::{pointer, Probe};
use reference::packed;
use std::process::ExitCode;

/// Orders from the fresh table of `d` ports: `d`, the orders and how many numbers they are, the places for answers and how many there are.
type Call = unsafe extern "C" fn(u64, *const u64, usize, *mut u64, usize) -> u64;

extern "C" {
    /// Each order by an event of its own with its own check.
    fn bench_events(d: u64, orders: *const u64, pairs: usize, answers: *mut u64, n: usize) -> u64;
    /// The same orders in one run with one check.
    fn bench_run(d: u64, orders: *const u64, pairs: usize, answers: *mut u64, n: usize) -> u64;
}

fn carried(call: Call, task: &Task, answers: &mut Answers) {
    let (orders, numbers) = (&task.orders, &mut answers.numbers);
    // SAFETY: pointers and lengths are those of slices that are lent for the call.
    unsafe {
        call(
            task.d,
            orders.as_ptr(),
            orders.len(),
            numbers.as_mut_ptr(),
            numbers.len(),
        );
    }
}

fn events(task: &Task, answers: &mut Answers) {
    carried(bench_events, task, answers);
}

fn run(task: &Task, answers: &mut Answers) {
    carried(bench_run, task, answers);
}

fn reference_events(task: &Task, answers: &mut Answers) {
    let (_, mut table) = reference::fresh(task.d);
    for (order, answer) in task.orders.chunks_exact(2).zip(&mut answers.numbers) {
        *answer = packed(reference::event(&mut table, order[0], order[1]));
    }
}

fn reference_run(task: &Task, answers: &mut Answers) {
    let (_, mut table) = reference::fresh(task.d);
    if !reference::good(&table) {
        return;
    }
    for (order, answer) in task.orders.chunks_exact(2).zip(&mut answers.numbers) {
        *answer = packed(reference::event_unchecked(&mut table, order[0], order[1]));
    }
}

fn all_events(task: &Task, answers: &mut Answers) -> usize {
    events(task, answers);
    pointer()
}

fn all_run(task: &Task, answers: &mut Answers) -> usize {
    run(task, answers);
    pointer()
}

fn main() -> ExitCode {
    let jobs = [
        Job::at_each_size("event", false, events, reference_events),
        Job::at_each_size("run", false, run, reference_run),
    ];
    let functions = [
        ("bench_events", all_events as Probe),
        ("bench_run", all_run),
    ];
    command::main(&jobs.concat(), &functions)
}
