//! Measurements of the proved archives beside the reference: the same orders, the same answers, and what each side takes.

#![deny(missing_docs)]

pub mod command;
pub mod job;
pub mod orders;
pub mod stack;
