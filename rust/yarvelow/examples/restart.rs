//! A controller that can be killed at any moment and started again: the lock stands in a file that outlives the
//! program. It plays the recorders too: each enters, comes inside, puts its entry into a journal and leaves, until the
//! journal has as many entries as are asked for. `examples/c/restart.c` does the same with the same files.
//!
//!     restart rack.lock takes 100000        # kill it and start it again, as often as you like
//!
//! Two images and a byte: the byte says which image holds. An event goes from that one into the other; done, the byte
//! changes, and only then the answer is acted on. So a kill leaves, whole, the image before the event or that after it.
//!
//! After a kill the points say all that there is to know. Where it is not known whether an event was carried out, it
//! can be told again: an `Enter` that was is `Busy`, a `Leave` that was is `NotInside`, and a second `Crash` or
//! `CallOff` changes nothing. Only what the last event cost is lost.
//!
//! Power loss takes more, since the system may have written any part of the file by then, in any order. The byte and
//! each image stand in disk blocks of their own. Before the byte changes, `sync_data` the image; before the answer is
//! acted on, the byte; the journal before the `Leave`; the new file before it gets its name, and its directory after.

use std::error::Error;
use std::fs::{self, File, OpenOptions};
use std::io::{self, ErrorKind};
use std::os::unix::fs::FileExt;
use yarvelow::*;

const COUNT: usize = 4;
const LENGTH: usize = image_length(COUNT);
const INSIDE: u8 = 11;
const ENTRY: usize = 18;

type Done<T = ()> = Result<T, Box<dyn Error>>;

fn open(name: &str, create: bool) -> io::Result<File> {
    let mut how = OpenOptions::new();
    how.read(true).write(true).create(create).open(name)
}

/// Where the images stand in the lock's file, after the byte; where a third would is its length.
const fn place(image: usize) -> u64 {
    (1 + image * LENGTH) as u64
}

/// The lock's file and what stands in it.
struct Kept {
    file: File,
    holds: usize,
    images: [[u8; LENGTH]; 2],
}

impl Kept {
    /// The first start. The file gets its name when it is whole, so that one of that name is never half made.
    fn make(name: &str) -> Done {
        let mut whole = vec![0; place(2) as usize];
        fresh(COUNT as u64, &mut whole[place(0) as usize..])?;
        let other = format!("{name}.new");
        fs::write(&other, whole)?;
        Ok(fs::rename(other, name)?)
    }

    /// Takes up the lock where it was left. It is a first start if there is no file and nothing was done under the lock
    /// yet. Anything else but a whole file is damage, and then nobody knows who was inside: stop all recorders, and
    /// begin with a fresh table. (The image that does not hold is no help: it is older, or a part of the next.)
    fn take_up(name: &str, nothing_done: bool) -> Done<Kept> {
        let file = match open(name, false) {
            Err(error) if error.kind() == ErrorKind::NotFound && nothing_done => {
                Kept::make(name)?;
                open(name, false)?
            }
            file => file?,
        };
        let mut kept = Kept {
            file,
            holds: 0,
            images: [[0; LENGTH]; 2],
        };
        if kept.file.metadata()?.len() == place(2) {
            let mut byte = [0];
            kept.file.read_exact_at(&mut byte, 0)?;
            for (i, image) in kept.images.iter_mut().enumerate() {
                kept.file.read_exact_at(image, place(i))?;
            }
            kept.holds = byte[0].into();
        }
        match kept.images.get(kept.holds).map(|image| check(image)) {
            Some(Ok(())) => Ok(kept),
            _ => Err("the lock is damaged".into()),
        }
    }

    fn image(&self) -> &[u8] {
        &self.images[self.holds]
    }

    fn point(&self, port: usize) -> u8 {
        self.image()[point_place(port)]
    }

    /// Two bytes of the image, the low one first.
    fn spin_at(&self, place: usize) -> u16 {
        u16::from_le_bytes([self.image()[place], self.image()[place + 1]])
    }

    fn carry_out(&mut self, port: usize, event: Event) -> Done {
        let next = 1 - self.holds;
        let mut image = [0; LENGTH];
        event_into(self.image(), &mut image, port as u64, event)?;
        self.file.write_all_at(&image, place(next))?;
        self.file.write_all_at(&[next as u8], 0)?;
        self.images[next] = image;
        self.holds = next;
        Ok(())
    }
}

struct Rack {
    kept: Kept,
    journal: File,
    /// What the recorder of each port has in mind while it is inside, and forgets with a kill: the number of its entry.
    mine: [usize; COUNT],
}

/// Whole entries of the journal; a recorder that was cut off may have left a part of one after them.
fn entries(journal: &File) -> io::Result<usize> {
    Ok(journal.metadata()?.len() as usize / ENTRY)
}

impl Rack {
    /// An entry of the journal: its number, the port, and the port's spin, which is another one for each passage.
    fn entry(&self, number: usize, port: usize) -> String {
        let spin = self.kept.spin_at(go_place(port));
        format!("{number:8} {port:2} {spin:5}\n")
    }

    /// A recorder has come inside. If it is back after a crash, the last entry may be its own: nobody else was inside.
    fn begin(&mut self, port: usize) -> Done {
        let last = entries(&self.journal)?;
        let mut there = [0; ENTRY];
        if last > 0 {
            let place = (last - 1) * ENTRY;
            self.journal.read_exact_at(&mut there, place as u64)?;
        }
        let written = there == *self.entry(last, port).as_bytes();
        self.mine[port] = if written { last } else { last + 1 };
        Ok(())
    }

    /// A recorder is inside: it writes its entry, and when its turn comes again, it leaves.
    fn work(&mut self, port: usize) -> Done {
        let number = self.mine[port];
        if entries(&self.journal)? >= number {
            return self.kept.carry_out(port, Event::Leave);
        }
        let (entry, place) = (self.entry(number, port), (number - 1) * ENTRY);
        Ok(self.journal.write_all_at(entry.as_bytes(), place as u64)?)
    }

    /// The next thing that is to be done at a port; whether there is any.
    fn turn(&mut self, port: usize, wanted: usize) -> Done<bool> {
        match self.kept.point(port) {
            0 if entries(&self.journal)? >= wanted => return Ok(false),
            0 => self.kept.carry_out(port, Event::Enter)?,
            INSIDE => self.work(port)?,
            _ => {
                self.kept.carry_out(port, Event::Step)?;
                if self.kept.point(port) == INSIDE {
                    self.begin(port)?;
                }
            }
        }
        Ok(true)
    }
}

fn main() -> Done {
    let words: Vec<String> = std::env::args().collect();
    let [_, lock, journal, wanted] = &words[..] else {
        return Err("LOCK JOURNAL ENTRIES".into());
    };
    let wanted = wanted.parse()?;
    let journal = open(journal, true)?;
    // One controller at a time; the system lets go of it when the program ends.
    journal.try_lock()?;
    let mut rack = Rack {
        kept: Kept::take_up(lock, entries(&journal)? == 0)?,
        journal,
        mine: [0; COUNT],
    };
    // CRASH for every port whose recorder is gone: here all are, with this program. One that lives on needs none.
    for port in 0..COUNT {
        if rack.kept.point(port) != 0 {
            rack.kept.carry_out(port, Event::Crash)?;
        }
    }
    let mut busy = true;
    while busy {
        if left_behind(rack.kept.image()) {
            return Err("the word is left behind".into());
        }
        busy = false;
        for port in 0..COUNT {
            busy |= rack.turn(port, wanted)?;
        }
    }
    for port in 0..COUNT {
        let made = rack.kept.spin_at(made_place(port));
        println!("port {port} made {made} spins");
    }
    Ok(())
}
