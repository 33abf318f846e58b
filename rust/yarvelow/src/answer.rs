//! Answers: refusals by document 01's numbers, and costs.

use crate::field::{told, Kind};
use std::error::Error;
use std::fmt;

/// Why something was refused.
#[derive(Clone, Copy, Debug, PartialEq, Eq, Hash)]
pub enum Refusal {
    /// An image by its form, of a table that breaks a rule of document 01, and what is bad: where several fields are, the one
    /// with the lowest place. A rule over several fields is charged to the last of them in the image.
    BadTable {
        /// Which of 1.0 to 1.4 it is.
        kind: Kind,
        /// The port that the field belongs to; D where all share it.
        port: u8,
        /// The byte of the image where the field begins.
        place: u16,
    },
    /// Port at or above D.
    NoSuchPort,
    /// Event not 1 to 5.
    NoSuchEvent,
    /// Enter, and the port isn't idle.
    Busy,
    /// Enter, and the port has made all its 65,535 spins, at most one from an enter to the next idle; or a step at point 4 then, which no fresh table comes to.
    Worn,
    /// Leave, and the port isn't inside.
    NotInside,
    /// Step, crash or call off of an idle port.
    Idle,
    /// Step of a port that is inside.
    Inside,
    /// A fresh table with D out of range.
    BadSize,
    /// The room is too short for the image.
    ShortRoom,
    /// No image: its length is not just that of its D, or its first 14 bytes are wrong.
    BadImage,
}

impl Refusal {
    /// All of them, in the order of their numbers from 1 on; `BadTable` with 1.0.
    pub const ALL: [Refusal; 11] = [
        Refusal::BadTable {
            kind: Kind::Whole,
            port: 0,
            place: 0,
        },
        Refusal::NoSuchPort,
        Refusal::NoSuchEvent,
        Refusal::Busy,
        Refusal::Worn,
        Refusal::NotInside,
        Refusal::Idle,
        Refusal::Inside,
        Refusal::BadSize,
        Refusal::ShortRoom,
        Refusal::BadImage,
    ];

    /// Document 01's number.
    ///
    /// ```
    /// assert_eq!(yarvelow::Refusal::Idle.number(), 7);
    /// ```
    pub const fn number(self) -> u8 {
        self.named().0
    }

    /// Document 01's name.
    ///
    /// ```
    /// assert_eq!(yarvelow::Refusal::NotInside.name(), "NOT INSIDE");
    /// ```
    pub const fn name(self) -> &'static str {
        self.named().1
    }

    const fn named(self) -> (u8, &'static str) {
        match self {
            Refusal::BadTable { .. } => (1, "BAD TABLE"),
            Refusal::NoSuchPort => (2, "NO SUCH PORT"),
            Refusal::NoSuchEvent => (3, "NO SUCH EVENT"),
            Refusal::Busy => (4, "BUSY"),
            Refusal::Worn => (5, "WORN"),
            Refusal::NotInside => (6, "NOT INSIDE"),
            Refusal::Idle => (7, "IDLE"),
            Refusal::Inside => (8, "INSIDE"),
            Refusal::BadSize => (9, "BAD SIZE"),
            Refusal::ShortRoom => (10, "SHORT ROOM"),
            Refusal::BadImage => (11, "BAD IMAGE"),
        }
    }

    /// The refusal in an answer of the archive, none in one that is done.
    ///
    /// ```
    /// use yarvelow::{Kind, Refusal};
    /// assert_eq!(Refusal::of(7), Some(Refusal::Idle));
    /// assert_eq!(Refusal::of(0), None);
    /// let bad = Refusal::BadTable { kind: Kind::Port, port: 7, place: 144 };
    /// assert_eq!(Refusal::of(1 + (2 << 8) + (7 << 16) + (144 << 24)), Some(bad));
    /// ```
    pub fn of(answer: u64) -> Option<Refusal> {
        let [number, kind, port, low, high, ..] = answer.to_le_bytes();
        let refusal = Refusal::ALL.get(usize::from(number).wrapping_sub(1))?;
        Some(match refusal {
            Refusal::BadTable { .. } => Refusal::BadTable {
                kind: *Kind::ALL.get(usize::from(kind)).unwrap_or(&Kind::Whole),
                port,
                place: u16::from_le_bytes([low, high]),
            },
            _ => *refusal,
        })
    }
}

/// The number and the name; of `BadTable` also what is bad, with the name of the field as far as kind, port and place tell it.
///
/// ```
/// use yarvelow::{check, fresh, go_place, image_length, Refusal};
///
/// assert_eq!(Refusal::Busy.to_string(), "4 BUSY");
/// let mut image = [0; image_length(8)];
/// fresh(8, &mut image).unwrap();
/// image[go_place(7)] = 1;
/// let bad = check(&image).unwrap_err();
/// assert_eq!(bad.to_string(), "1.2 BAD TABLE: port 7: GO at byte 144 is bad; it must be at most made");
/// ```
impl fmt::Display for Refusal {
    fn fmt(&self, f: &mut fmt::Formatter<'_>) -> fmt::Result {
        let (number, name) = self.named();
        match *self {
            Refusal::BadTable { kind, port, place } => {
                let kind_number = kind.number();
                write!(
                    f,
                    "{number}.{kind_number} {name}: {}",
                    told(kind, port, place)
                )
            }
            _ => write!(f, "{number} {name}"),
        }
    }
}

impl Error for Refusal {}

/// What an event cost, in remote references.
#[derive(Clone, Copy, Debug, Default, PartialEq, Eq, Hash)]
pub struct Costs {
    /// In the cached model.
    pub cached: u8,
    /// In the distributed model.
    pub distributed: u8,
}

/// The answer to one event, as the archive packs it.
#[derive(Clone, Copy, Debug, Default, PartialEq, Eq, Hash)]
#[repr(transparent)]
pub struct Answer(u64);

impl Answer {
    pub(crate) fn packed(answer: u64) -> Answer {
        Answer(answer)
    }

    /// The costs, or why the event was refused.
    ///
    /// ```
    /// use yarvelow::{Costs, Event, Lock, Order, Refusal};
    /// # fn main() -> Result<(), Refusal> {
    /// let mut lock = Lock::fresh(1)?;
    /// let step = Order { port: 0, event: Event::Step };
    /// let mut answers = [Default::default()];
    /// lock.run(&[step], &mut answers)?;
    /// assert_eq!(answers[0].result(), Err(Refusal::Idle));
    /// # Ok(())
    /// # }
    /// ```
    pub fn result(self) -> Result<Costs, Refusal> {
        let [_, cached, distributed, ..] = self.0.to_le_bytes();
        match Refusal::of(self.0) {
            Some(refusal) => Err(refusal),
            None => Ok(Costs {
                cached,
                distributed,
            }),
        }
    }
}
