//! A lone passage at D = 2: port 0 enters, comes inside, leaves, and is idle again.

use yarvelow::{Event, Lock, Refusal};

/// Steps a port until it is at the end that is named, `Inside` on the way in and `Idle` on the way out, and prints its steps and their costs. (A port that was
/// called off may come to either end; one that waits answers `Ok` without end, so a controller steps the others in between: see `rack.rs`.)
fn walk(lock: &mut Lock, port: u64, end: Refusal, what: &str) -> Result<(), Refusal> {
    let (mut steps, mut cached, mut distributed) = (0, 0, 0);
    loop {
        match lock.event(port, Event::Step) {
            Ok(costs) => {
                steps += 1;
                cached += costs.cached;
                distributed += costs.distributed;
            }
            Err(refusal) if refusal == end => break,
            Err(refusal) => return Err(refusal),
        }
    }
    println!("{what}: {steps} steps, {cached} cached, {distributed} distributed");
    Ok(())
}

fn main() -> Result<(), Refusal> {
    let mut lock = Lock::fresh(2)?;
    lock.event(0, Event::Enter)?;
    walk(&mut lock, 0, Refusal::Inside, "in")?;
    lock.event(0, Event::Leave)?;
    walk(&mut lock, 0, Refusal::Idle, "out")
}
