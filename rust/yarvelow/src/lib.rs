//! The lock engine of document 01 from Rust: the table of one lock with D ports, up to 64, kept as an image in memory.
//!
//! The engine is proved; it comes as the archive `libyarvelow.a`, and the environment variable `YARVELOW_LIB` names the archive's directory when this crate is
//! built. A [`Lock`] holds an image of a good table, in bytes of its own or in lent ones that outlive a restart. The
//! functions [`fresh`], [`check`], [`event`], [`event_into`] and [`run`] work on plain buffers.
//!
//! ```
//! use yarvelow::{Event, Lock, Refusal};
//!
//! # fn main() -> Result<(), Refusal> {
//! let mut lock = Lock::fresh(2)?;
//! lock.event(0, Event::Enter)?;
//! // A port steps until it is inside; its 14 steps cost 9 remote references in the cached model. With others in the lock it may wait,
//! // and then a step is `Ok` again and again: step them in between, as `examples/rack.rs` does.
//! let mut cached = 0;
//! while let Ok(costs) = lock.event(0, Event::Step) {
//!     cached += costs.cached;
//! }
//! assert_eq!(cached, 9);
//! assert_eq!(lock.event(0, Event::Step), Err(Refusal::Inside));
//! # Ok(())
//! # }
//! ```

#![deny(missing_docs)]
#![deny(unsafe_op_in_unsafe_fn)]

mod answer;
mod field;
mod lock;
pub mod sys;

use std::slice;

pub use answer::{Answer, Costs, Refusal};
pub use field::{fields, Field, Kind};
pub use lock::{Image, Lock};

/// The most ports that a table has.
pub const PORTS: usize = 64;

/// The length of the longest image.
pub const LONGEST: usize = image_length(PORTS);

/// The length of the image of a table of `d` ports. Up to 16 ports it is of version 1, with copy sets of two bytes; above,
/// of version 2, with copy sets of eight.
///
/// ```
/// use yarvelow::{image_length, LONGEST};
///
/// assert_eq!((image_length(1), image_length(16)), (52, 382));
/// assert_eq!((image_length(17), LONGEST), (722, 2602));
/// ```
pub const fn image_length(d: usize) -> usize {
    if d <= 16 {
        30 + 22 * d
    } else {
        42 + 40 * d
    }
}

/// The byte of an image that says whether the lock word is taken (1) or free (0).
pub const TAKEN_PLACE: usize = 22;

/// The byte of an image that is the lock word's owner.
pub const OWNER_PLACE: usize = 23;

/// The first of the two bytes of an image, the low one first, that are the owner's spin for which the lock word is taken.
pub const SPIN_PLACE: usize = 24;

/// The byte of an image that is the point of port `k`: 0 while it is idle, 11 while it is inside.
///
/// ```
/// use yarvelow::*;
///
/// # fn main() -> Result<(), Refusal> {
/// let mut lock = Lock::fresh(2)?;
/// assert_eq!(lock.image()[TAKEN_PLACE], 0);
/// lock.event(1, Event::Enter)?;
/// while lock.event(1, Event::Step).is_ok() {}
/// let image = lock.image();
/// assert_eq!((image[TAKEN_PLACE], image[OWNER_PLACE]), (1, 1));
/// assert_eq!((image[point_place(0)], image[point_place(1)]), (0, 11));
/// assert_eq!((image[status_place(0)], image[status_place(1)]), (0, 1));
/// // Port 1 has made its first spin, and the word is taken for it.
/// for place in [SPIN_PLACE, made_place(1), go_place(1)] {
///     assert_eq!(image[place..][..2], [1, 0]);
/// }
/// # Ok(())
/// # }
/// ```
pub const fn point_place(k: usize) -> usize {
    26 + 16 * k
}

/// The byte of an image that is the STATUS of port `k`: 1 while it holds the lock, crashes included.
pub const fn status_place(k: usize) -> usize {
    point_place(k) + 1
}

/// The first of the two bytes of an image, the low one first, that say how many spins port `k` has made.
pub const fn made_place(k: usize) -> usize {
    point_place(k) + 4
}

/// The first of the two bytes of an image, the low one first, that are GO of port `k`: the spin that it has on its way, 0 for none.
pub const fn go_place(k: usize) -> usize {
    point_place(k) + 6
}

/// Whether the lock word of a good image was left naming a port that will not come (docs/STUCK.md): it is taken, and its owner is at point 0 or its spin is not
/// the owner's GO. Nobody is inside then, and nobody gets in. Panics where the bytes are no image.
///
/// ```
/// use yarvelow::{left_behind, Event, Lock};
///
/// # fn main() -> Result<(), yarvelow::Refusal> {
/// let mut lock = Lock::fresh(2)?;
/// lock.event(1, Event::Enter)?;
/// while lock.event(1, Event::Step).is_ok() {}
/// assert!(!left_behind(lock.image()));
/// # Ok(())
/// # }
/// ```
pub fn left_behind(image: &[u8]) -> bool {
    let owner = usize::from(image[OWNER_PLACE]);
    let (spin, go) = (&image[SPIN_PLACE..][..2], &image[go_place(owner)..][..2]);
    image[TAKEN_PLACE] == 1 && (image[point_place(owner)] == 0 || spin != go)
}

/// An event at a port.
#[derive(Clone, Copy, Debug, PartialEq, Eq, Hash)]
#[repr(u64)]
pub enum Event {
    /// E: an idle port begins: step it until it is inside.
    Enter = 1,
    /// S: at most one memory operation; the only event that costs anything.
    Step = 2,
    /// X: the port forgets where it was; if it was inside, its next step brings it back there, and else step it until it is inside or idle: others may
    /// wait for it.
    Crash = 3,
    /// A: the port is to give up waiting, crashes notwithstanding: step it until it is idle, or inside if its turn came first.
    CallOff = 4,
    /// L: a port that is inside begins to leave. It is out with its next step (a crash before that step leads back inside); step it on until it is idle, since
    /// nobody else gets in before it has let go.
    Leave = 5,
}

/// A port and what it is to do, one of a list for [`run`].
#[derive(Clone, Copy, Debug, PartialEq, Eq, Hash)]
#[repr(C)]
pub struct Order {
    /// The port.
    pub port: u64,
    /// The event.
    pub event: Event,
}

/// Writes the image of a fresh table of `d` ports at the start of `room`, which is [`image_length`] of `d` or longer, and
/// gives its length. Refused (`BadSize`, then `ShortRoom`), every byte stays.
///
/// ```
/// use yarvelow::{fresh, Refusal, LONGEST};
///
/// let mut room = [0; LONGEST];
/// assert_eq!(fresh(2, &mut room), Ok(74));
/// assert_eq!(fresh(65, &mut room), Err(Refusal::BadSize));
/// assert_eq!(fresh(2, &mut room[..73]), Err(Refusal::ShortRoom));
/// ```
pub fn fresh(d: u64, room: &mut [u8]) -> Result<usize, Refusal> {
    let answer = sys::fresh(d, room);
    done(answer).map(|()| (answer >> 8) as usize)
}

/// Looks whether bytes are an image of a good table, and so can be used; not whether they were changed since they were
/// written. They are exactly [`image_length`] of its D, else `BadImage`; `BadTable` says what is bad.
///
/// ```
/// use yarvelow::{check, fresh, Refusal, LONGEST};
///
/// let mut room = [0; LONGEST];
/// let length = fresh(3, &mut room).unwrap();
/// assert_eq!(check(&room[..length]), Ok(()));
/// assert_eq!(check(&room), Err(Refusal::BadImage));
/// ```
pub fn check(image: &[u8]) -> Result<(), Refusal> {
    done(sys::check(image))
}

/// Carries out an event on an image where it stands, after looking at the image, which is exactly [`image_length`] of its D,
/// else `BadImage`. Refused, for the image first and then for the event, every byte stays.
///
/// Done, it writes only the 16 bytes of the port's record, from its [`point_place`] on, and where the event is a step: from 6
/// and 15 ACTIVE, 8 bytes at 14; from 17, 23, 33 and 43 the word, 4 bytes at [`TAKEN_PLACE`]; the copy set of the word that
/// the step touches, and from 4 also that of the port's latest spin; and from 25, 35 and 45 the latest value of the seen
/// owner, the byte at its [`point_place`] + 3.
///
/// ```
/// use yarvelow::{event, fresh, Costs, Event, Refusal, LONGEST};
///
/// let mut room = [0; LONGEST];
/// let length = fresh(2, &mut room).unwrap();
/// let image = &mut room[..length];
/// assert_eq!(event(image, 1, Event::Step), Err(Refusal::Idle));
/// assert_eq!(event(image, 1, Event::Enter), Ok(Costs::default()));
/// assert_eq!(event(image, 1, Event::Step), Ok(Costs { cached: 1, distributed: 0 }));
/// ```
pub fn event(image: &mut [u8], port: u64, event: Event) -> Result<Costs, Refusal> {
    Answer::packed(sys::event(image, port, event as u64)).result()
}

/// Carries out an event as [`event`] does, but only reads `image` and puts the image after the event at the start of `next`.
/// `image` is exactly [`image_length`] of its D, else `BadImage`; `next` is that or longer, else `ShortRoom`. Refused, for
/// the image, then for the event, then as `ShortRoom`, every byte of `next` stays; done, those after the image.
///
/// With two images and a byte that says which one holds, a controller that is cut off never harms the one that holds:
///
/// ```
/// use yarvelow::{event_into, fresh, image_length, Costs, Event, Refusal};
///
/// let mut images = [[0; image_length(2)]; 2];
/// let mut holds = 0;
/// fresh(2, &mut images[holds]).unwrap();
/// for (event, answer) in [
///     (Event::Step, Err(Refusal::Idle)),
///     (Event::Enter, Ok(Costs::default())),
///     (Event::Step, Ok(Costs { cached: 1, distributed: 0 })),
/// ] {
///     let [first, second] = &mut images;
///     let (image, next) = if holds == 0 { (first, second) } else { (second, first) };
///     let got = event_into(image, next, 1, event);
///     if got.is_ok() {
///         holds = 1 - holds;
///     }
///     assert_eq!(got, answer);
/// }
/// assert_eq!(event_into(&images[0], &mut [], 1, Event::Crash), Err(Refusal::ShortRoom));
/// ```
pub fn event_into(
    image: &[u8],
    next: &mut [u8],
    port: u64,
    event: Event,
) -> Result<Costs, Refusal> {
    Answer::packed(sys::event_into(image, next, port, event as u64)).result()
}

/// Carries out events one after the other on an image, with one look at it: much faster than as many calls of [`event`],
/// and the same in the end. `answers[i]` becomes the answer to `orders[i]`; the shorter of the two lists decides how many
/// are carried out. `image` is exactly [`image_length`] of its D, else `BadImage`. Refused (`BadImage`, `BadTable`), every
/// byte and every answer stays.
///
/// ```
/// use yarvelow::{fresh, run, Answer, Costs, Event, Order, Refusal, LONGEST};
///
/// let mut room = [0; LONGEST];
/// let length = fresh(2, &mut room).unwrap();
/// let orders = [Event::Enter, Event::Step, Event::Leave].map(|event| Order { port: 0, event });
/// let mut answers = [Answer::default(); 3];
/// assert_eq!(run(&mut room[..length], &orders, &mut answers), Ok(()));
/// assert_eq!(answers[1].result(), Ok(Costs { cached: 1, distributed: 0 }));
/// assert_eq!(answers[2].result(), Err(Refusal::NotInside));
/// ```
pub fn run(image: &mut [u8], orders: &[Order], answers: &mut [Answer]) -> Result<(), Refusal> {
    // SAFETY: an order is two numbers of 64 bits and an answer is one, as their `repr` has it, and both lists are lent for the call.
    let (numbers, places) = unsafe {
        (
            slice::from_raw_parts(orders.as_ptr().cast(), 2 * orders.len()),
            slice::from_raw_parts_mut(answers.as_mut_ptr().cast(), answers.len()),
        )
    };
    done(sys::run(image, numbers, places))
}

/// What the number in an answer says.
fn done(answer: u64) -> Result<(), Refusal> {
    Answer::packed(answer).result().map(|_| ())
}
