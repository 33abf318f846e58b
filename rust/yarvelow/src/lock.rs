//! A lock over an image, in bytes of its own or in lent ones.

use crate::{
    check, event, event_into, fresh, image_length, run, Answer, Costs, Event, Order, Refusal,
};

/// The bytes that a lock works on.
#[derive(Debug)]
pub enum Image<'a> {
    /// Its own.
    Owned(Box<[u8]>),
    /// Lent, such as memory that outlives a restart.
    Lent(&'a mut [u8]),
}

impl Image<'_> {
    fn bytes(&self) -> &[u8] {
        match self {
            Image::Owned(bytes) => bytes,
            Image::Lent(bytes) => bytes,
        }
    }

    fn bytes_mut(&mut self) -> &mut [u8] {
        match self {
            Image::Owned(bytes) => bytes,
            Image::Lent(bytes) => bytes,
        }
    }
}

/// A lock with D ports. Its image is whole and holds a good table.
#[derive(Debug)]
pub struct Lock<'a> {
    image: Image<'a>,
}

impl Lock<'static> {
    /// A fresh lock of `d` ports, 1 to 64, in bytes of its own.
    ///
    /// ```
    /// use yarvelow::{Lock, Refusal};
    ///
    /// assert_eq!(Lock::fresh(2).unwrap().image().len(), 74);
    /// assert_eq!(Lock::fresh(0).unwrap_err(), Refusal::BadSize);
    /// ```
    pub fn fresh(d: u64) -> Result<Lock<'static>, Refusal> {
        let room = vec![0; image_length(d.min(crate::PORTS as u64) as usize)];
        let mut image = Image::Owned(room.into_boxed_slice());
        fresh(d, image.bytes_mut())?;
        Ok(Lock { image })
    }
}

impl<'a> Lock<'a> {
    /// A fresh lock of `d` ports at the start of lent bytes. Refused (`BadSize`, then `ShortRoom`), they stay as they are.
    ///
    /// ```
    /// use yarvelow::{Event, Lock, LONGEST};
    ///
    /// let mut lasting = [0; LONGEST];
    /// let mut lock = Lock::fresh_in(2, &mut lasting).unwrap();
    /// lock.event(0, Event::Enter).unwrap();
    /// ```
    pub fn fresh_in(d: u64, room: &'a mut [u8]) -> Result<Lock<'a>, Refusal> {
        let length = fresh(d, room)?;
        let image = Image::Lent(&mut room[..length]);
        Ok(Lock { image })
    }

    /// The lock of an image: bytes that were kept, or that a controller finds after a restart. They are looked at:
    /// `BadImage` or `BadTable` if they are no image of a good table, and exactly as long as it.
    ///
    /// ```
    /// use yarvelow::{Event, Image, Lock, Refusal};
    ///
    /// let mut lock = Lock::fresh(2).unwrap();
    /// lock.event(0, Event::Enter).unwrap();
    /// let mut kept = lock.image().to_vec();
    /// let mut again = Lock::open(Image::Lent(&mut kept)).unwrap();
    /// assert_eq!(again.event(0, Event::Enter), Err(Refusal::Busy));
    /// ```
    pub fn open(image: Image<'a>) -> Result<Lock<'a>, Refusal> {
        check(image.bytes())?;
        Ok(Lock { image })
    }

    /// Carries out an event at a port. Refused, it costs nothing and changes nothing.
    ///
    /// ```
    /// use yarvelow::{Costs, Event, Lock, Refusal};
    ///
    /// let mut lock = Lock::fresh(2).unwrap();
    /// assert_eq!(lock.event(0, Event::Enter), Ok(Costs::default()));
    /// assert_eq!(lock.event(0, Event::Enter), Err(Refusal::Busy));
    /// assert_eq!(lock.event(2, Event::Enter), Err(Refusal::NoSuchPort));
    /// ```
    pub fn event(&mut self, port: u64, order: Event) -> Result<Costs, Refusal> {
        event(self.image.bytes_mut(), port, order)
    }

    /// Carries out an event at a port and puts the image after it at the start of `next`; the lock's own image stays.
    /// Refused, for the event and then as `ShortRoom`, every byte of `next` stays.
    ///
    /// ```
    /// use yarvelow::{Event, Image, Lock};
    ///
    /// let lock = Lock::fresh(2).unwrap();
    /// let mut next = vec![0; lock.image().len()];
    /// lock.event_into(&mut next, 0, Event::Enter).unwrap();
    /// assert_ne!(lock.image(), next);
    /// let mut after = Lock::open(Image::Lent(&mut next)).unwrap();
    /// after.event(0, Event::Step).unwrap();
    /// ```
    pub fn event_into(&self, next: &mut [u8], port: u64, order: Event) -> Result<Costs, Refusal> {
        event_into(self.image.bytes(), next, port, order)
    }

    /// Carries out events one after the other, with one look at the table. `answers[i]` becomes the answer to `orders[i]`.
    ///
    /// ```
    /// use yarvelow::{Answer, Event, Lock, Order};
    ///
    /// let mut lock = Lock::fresh(2).unwrap();
    /// let mut orders = vec![Order { port: 0, event: Event::Step }; 15];
    /// orders[0].event = Event::Enter;
    /// let mut answers = vec![Answer::default(); orders.len()];
    /// lock.run(&orders, &mut answers).unwrap();
    /// let cached: u8 = answers.iter().map(|a| a.result().unwrap().cached).sum();
    /// assert_eq!(cached, 9);
    /// ```
    pub fn run(&mut self, orders: &[Order], answers: &mut [Answer]) -> Result<(), Refusal> {
        run(self.image.bytes_mut(), orders, answers)
    }

    /// The image, to be kept or looked into.
    ///
    /// ```
    /// let lock = yarvelow::Lock::fresh(2).unwrap();
    /// assert_eq!(lock.image()[..2], [1, 2]);
    /// ```
    pub fn image(&self) -> &[u8] {
        self.image.bytes()
    }
}
