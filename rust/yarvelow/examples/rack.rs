//! The loop of a controller at D = 3: all ports enter, and each that is in a passage makes a step in its turn. A port that waits answers `Ok` again and again,
//! so the others are stepped in between. One that is inside does its work, here one line and for the first a crash, and leaves; it is stepped on until it is idle, since
//! nobody else gets in before it has let go.
//!
//! Left out here: a controller makes the fresh table once and keeps the image where it outlives a restart (`restart.rs`
//! does); its recorders take their time between `Inside` and `Leave`, and it does not end at a refusal. README, 'Before you
//! build on it', says what else it does.

use yarvelow::{left_behind, made_place, point_place, status_place, Event, Lock, Refusal};

const PORTS: usize = 3;

fn main() -> Result<(), Refusal> {
    let mut lock = Lock::fresh(PORTS as u64)?;
    for port in 0..PORTS as u64 {
        lock.event(port, Event::Enter)?;
    }
    let mut crashed = false;
    loop {
        if left_behind(lock.image()) {
            eprintln!("the word is left behind");
            std::process::exit(1);
        }
        let busy: Vec<_> = (0..PORTS)
            .filter(|&k| lock.image()[point_place(k)] != 0)
            .map(|k| k as u64)
            .collect();
        if busy.is_empty() {
            break;
        }
        for port in busy {
            match lock.event(port, Event::Step) {
                Ok(_) => {}
                Err(Refusal::Inside) => {
                    println!("port {port} is inside");
                    if crashed {
                        lock.event(port, Event::Leave)?;
                    } else {
                        crashed = true;
                        lock.event(port, Event::Crash)?;
                        println!(
                            "port {port} crashed, STATUS {}",
                            lock.image()[status_place(port as usize)]
                        );
                    }
                }
                Err(refusal) => return Err(refusal),
            }
        }
    }
    let made = &lock.image()[made_place(0)..][..2];
    let made = u16::from_le_bytes([made[0], made[1]]);
    println!("all are home; port 0 has made {made} of 65535 spins");
    Ok(())
}
