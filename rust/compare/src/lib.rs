//! Compares an engine behind the boundary's functions with the reference: random good tables, random schedules with crashes
//! and call-offs, runs, events from one image into another, images of both versions whole and damaged, tables that break each
//! rule, at every D.
//!
//! The numbers come from a seed, so a difference that is told can be tried again.

#![deny(missing_docs)]

mod engine;
pub mod generate;
pub mod harness;
pub mod met;
mod random;

pub use engine::{Archive, Engine, InPlace, Reference};
pub use random::Random;
