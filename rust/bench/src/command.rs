//! The command line of a measurement.

use crate::job::{checksum, ratio, Job, Task};
use crate::stack::{mark, Probe};
use std::env;
use std::process::ExitCode;

const USAGE: &str = "\
PROGRAM jobs                               the names of the jobs
PROGRAM count JOB ours|reference ORDERS ROUNDS    one side of a job: the checksum of its answers
PROGRAM time JOB ORDERS ROUNDS PAIRS       both sides in turn: the median ratio of times
PROGRAM stack ORDERS                       the stack of each exported function";

/// Carries out the command line over the jobs and the exported functions of one archive.
pub fn main(jobs: &[Job], functions: &[(&str, Probe)]) -> ExitCode {
    let arguments: Vec<String> = env::args().skip(1).collect();
    let words: Vec<&str> = arguments.iter().map(String::as_str).collect();
    match answer(jobs, functions, &words) {
        Some(text) => {
            println!("{text}");
            ExitCode::SUCCESS
        }
        None => {
            eprintln!("{USAGE}");
            ExitCode::from(2)
        }
    }
}

fn answer(jobs: &[Job], functions: &[(&str, Probe)], words: &[&str]) -> Option<String> {
    let find = |name: &str| jobs.iter().find(|job| job.name() == name);
    let number = |word: &str| word.parse::<usize>().ok();
    match *words {
        ["jobs"] => {
            let names: Vec<String> = jobs.iter().map(Job::name).collect();
            Some(names.join("\n"))
        }
        ["count", name, side, orders, rounds] => {
            let job = find(name)?;
            let work = match side {
                "ours" => job.ours,
                "reference" => job.reference,
                _ => return None,
            };
            let task = Task::new(job.d, number(orders)?, job.reads);
            Some(format!("{:016x}", checksum(work, number(rounds)?, &task)))
        }
        ["time", name, orders, rounds, pairs] => {
            let job = find(name)?;
            let task = Task::new(job.d, number(orders)?, job.reads);
            let ratio = ratio(job, number(rounds)?, number(pairs)?, &task);
            Some(format!("{ratio:.2}"))
        }
        ["stack", orders] => {
            let task = Task::new(reference::ROOM as u64, number(orders)?, true);
            let line = |&(name, probe): &(&str, Probe)| format!("{name} {}", mark(probe, &task));
            let lines: Vec<String> = functions.iter().map(line).collect();
            Some(lines.join("\n"))
        }
        _ => None,
    }
}
