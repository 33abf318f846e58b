//! The engine behind its boundary, over the archive of the proved crate `cabi`: images written and read, events and runs on them.

use bench::command;
use bench::job::{Answers, Job, Task};
use bench::stack::{pointer, Probe};
use reference::number::DONE;
use reference::{in_place, ROOM};
use std::mem::swap;
use std::process::ExitCode;

#[path = "../../../yarvelow/src/sys.rs"]
mod sys;

use sys::{check, event, event_into, fresh, run};

// The jobs, each once over the functions that either side has.

fn write_with(fresh: fn(u64, &mut [u8]) -> u64, task: &Task, answers: &mut Answers) {
    for number in &mut answers.numbers {
        *number = fresh(task.d, &mut answers.image);
    }
}

fn read_with(check: fn(&[u8]) -> u64, task: &Task, answers: &mut Answers) {
    let images = task.images.chunks_exact(task.fresh.len());
    for (image, number) in images.zip(&mut answers.numbers) {
        *number = check(image);
    }
}

fn events_with(event: fn(&mut [u8], u64, u64) -> u64, task: &Task, answers: &mut Answers) {
    answers.image.copy_from_slice(&task.fresh);
    for (order, number) in task.orders.chunks_exact(2).zip(&mut answers.numbers) {
        *number = event(&mut answers.image, order[0], order[1]);
    }
}

/// Two images in turn: where an event is done, the next image is the one that holds.
fn events_into_with(
    event_into: fn(&[u8], &mut [u8], u64, u64) -> u64,
    task: &Task,
    answers: &mut Answers,
) {
    answers.image.copy_from_slice(&task.fresh);
    for (order, number) in task.orders.chunks_exact(2).zip(&mut answers.numbers) {
        *number = event_into(&answers.image, &mut answers.next, order[0], order[1]);
        if *number & 255 == DONE {
            swap(&mut answers.image, &mut answers.next);
        }
    }
}

fn run_with(run: fn(&mut [u8], &[u64], &mut [u64]) -> u64, task: &Task, answers: &mut Answers) {
    answers.image.copy_from_slice(&task.fresh);
    run(&mut answers.image, &task.orders, &mut answers.numbers);
}

// The exported functions with whatever leads them another way: images cut off and changed, and sizes that there are not.

fn all_fresh(_: &Task, answers: &mut Answers) -> usize {
    for d in 0..=ROOM as u64 + 1 {
        fresh(d, &mut answers.image);
        fresh(d, &mut answers.image[..1]);
    }
    pointer()
}

/// The images along the way, each whole, cut off, and with one byte changed, one after the other in the same room.
fn each_image(task: &Task, room: &mut [u8], mut visit: impl FnMut(&mut [u8])) {
    let long = room.len();
    for (i, image) in task.images.chunks_exact(long).enumerate() {
        room.copy_from_slice(image);
        visit(room);
        room.copy_from_slice(image);
        visit(&mut room[..i % long]);
        room[i % long] ^= 1 << (i % 8);
        visit(room);
    }
}

fn all_check(task: &Task, answers: &mut Answers) -> usize {
    each_image(task, &mut answers.image, |image| {
        check(image);
    });
    pointer()
}

fn all_event(task: &Task, answers: &mut Answers) -> usize {
    events_with(event, task, answers);
    each_image(task, &mut answers.image, |image| {
        event(image, 0, 2);
    });
    pointer()
}

fn all_event_into(task: &Task, answers: &mut Answers) -> usize {
    events_into_with(event_into, task, answers);
    each_image(task, &mut answers.image, |image| {
        event_into(image, &mut answers.next, 0, 2);
        event_into(image, &mut answers.next[1..], 0, 2);
    });
    pointer()
}

fn all_run(task: &Task, answers: &mut Answers) -> usize {
    run_with(run, task, answers);
    each_image(task, &mut answers.image, |image| {
        run(image, &task.orders[..2], &mut answers.numbers);
    });
    pointer()
}

fn main() -> ExitCode {
    let jobs = [
        Job::at_each_size(
            "image-write",
            false,
            |task, answers| write_with(fresh, task, answers),
            |task, answers| write_with(in_place::fresh, task, answers),
        ),
        Job::at_each_size(
            "image-read",
            true,
            |task, answers| read_with(check, task, answers),
            |task, answers| read_with(in_place::check, task, answers),
        ),
        Job::at_each_size(
            "image-event",
            false,
            |task, answers| events_with(event, task, answers),
            |task, answers| events_with(in_place::event, task, answers),
        ),
        Job::at_each_size(
            "image-event-into",
            false,
            |task, answers| events_into_with(event_into, task, answers),
            |task, answers| events_into_with(in_place::event_into, task, answers),
        ),
        Job::at_each_size(
            "image-run",
            false,
            |task, answers| run_with(run, task, answers),
            |task, answers| run_with(in_place::run, task, answers),
        ),
    ];
    let functions = [
        ("yarvelow_fresh", all_fresh as Probe),
        ("yarvelow_check", all_check),
        ("yarvelow_event", all_event),
        ("yarvelow_event_into", all_event_into),
        ("yarvelow_run", all_run),
    ];
    command::main(&jobs.concat(), &functions)
}
