//! The boundary's functions on the bytes of an image where they stand, without a table. They answer what those of
//! [`crate::boundary`] do.

use crate::events::{act, admitted, packed};
use crate::held::Held;
use crate::image::{ports, put_head};
use crate::layout::length;
use crate::number::*;
use crate::rules::bad_words;
use crate::table::ROOM;

/// Writes the image of a fresh table, which is its head and then zeros: number + 256 * the image's length.
pub fn fresh(d: u64, room: &mut [u8]) -> u64 {
    if !(1..=ROOM as u64).contains(&d) {
        return BAD_SIZE;
    }
    let long = length(d as usize);
    let Some(image) = room.get_mut(..long) else {
        return SHORT_ROOM;
    };
    image.fill(0);
    put_head(d as usize, image);
    DONE + 256 * long as u64
}

/// The reader's answer.
pub fn check(image: &[u8]) -> u64 {
    match checked(image) {
        Ok(_) => DONE,
        Err(refusal) => refusal,
    }
}

/// D of the image of a good table, or the reader's refusal.
fn checked(image: &[u8]) -> Result<usize, u64> {
    let d = ports(image).ok_or(BAD_IMAGE)?;
    match bad_words(&Held::new(d, image)) {
        None => Ok(d),
        Some(fault) => Err(fault.answer()),
    }
}

/// Carries out an event on an image: number + 256 * cached + 65536 * distributed.
pub fn event(image: &mut [u8], port: u64, event: u64) -> u64 {
    match checked(image) {
        Ok(d) => act_in(image, d, port, event),
        Err(refusal) => refusal,
    }
}

/// The same with the image after the event at the start of `next`; `image` stays.
pub fn event_into(image: &[u8], next: &mut [u8], port: u64, event: u64) -> u64 {
    let d = match checked(image) {
        Ok(d) => d,
        Err(refusal) => return refusal,
    };
    if let Err(number) = admitted(&Held::new(d, image), port, event) {
        return number;
    }
    let Some(next) = next.get_mut(..image.len()) else {
        return SHORT_ROOM;
    };
    next.copy_from_slice(image);
    act_in(next, d, port, event)
}

/// Carries out pairs of port and event on an image with one look at it: the reader's answer.
pub fn run(image: &mut [u8], orders: &[u64], answers: &mut [u64]) -> u64 {
    let d = match checked(image) {
        Ok(d) => d,
        Err(refusal) => return refusal,
    };
    for (order, answer) in orders.chunks_exact(2).zip(answers) {
        *answer = act_in(image, d, order[0], order[1]);
    }
    DONE
}

/// An event on the image of a good table of `d` ports.
fn act_in(image: &mut [u8], d: usize, port: u64, event: u64) -> u64 {
    packed(act(&mut Held::new(d, image), port, event))
}
