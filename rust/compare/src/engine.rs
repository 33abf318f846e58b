//! What is compared: the boundary's functions, behind a trait.

use reference::{boundary, in_place};
use yarvelow::sys;

/// An engine behind the boundary. The numbers are those that `include/yarvelow.h` tells of.
pub trait Engine {
    /// Writes the image of a fresh table.
    fn fresh(&self, d: u64, room: &mut [u8]) -> u64;
    /// The reader's number.
    fn check(&self, image: &[u8]) -> u64;
    /// Carries out an event on an image.
    fn event(&self, image: &mut [u8], port: u64, event: u64) -> u64;
    /// Carries out an event on an image and puts the image after it in another room.
    fn event_into(&self, image: &[u8], next: &mut [u8], port: u64, event: u64) -> u64;
    /// Carries out pairs of port and event on an image.
    fn run(&self, image: &mut [u8], orders: &[u64], answers: &mut [u64]) -> u64;
}

/// An engine whose functions stand in a module.
macro_rules! engine {
    ($(#[$what:meta])* $name:ident, $module:ident) => {
        $(#[$what])*
        #[derive(Clone, Copy, Debug)]
        pub struct $name;

        impl Engine for $name {
            fn fresh(&self, d: u64, room: &mut [u8]) -> u64 {
                $module::fresh(d, room)
            }

            fn check(&self, image: &[u8]) -> u64 {
                $module::check(image)
            }

            fn event(&self, image: &mut [u8], port: u64, event: u64) -> u64 {
                $module::event(image, port, event)
            }

            fn event_into(&self, image: &[u8], next: &mut [u8], port: u64, event: u64) -> u64 {
                $module::event_into(image, next, port, event)
            }

            fn run(&self, image: &mut [u8], orders: &[u64], answers: &mut [u64]) -> u64 {
                $module::run(image, orders, answers)
            }
        }
    };
}

engine!(
    /// The archive that is linked.
    Archive,
    sys
);
engine!(
    /// The reference itself, by way of a table.
    Reference,
    boundary
);
engine!(
    /// The reference on the bytes where they stand.
    InPlace,
    in_place
);
