//! The boundary's functions over images in lent buffers, in safe Rust, each by way of a table: what the archive must answer.

use crate::events::{event_unchecked, fresh as fresh_table, packed};
use crate::image::{encode, read, write};
use crate::layout::length;
use crate::number::{DONE, SHORT_ROOM};

/// Writes the image of a fresh table at the start of `room`: number + 256 * the image's length.
/// Refused (9, then 10), the room stays as it is and the length is 0.
pub fn fresh(d: u64, room: &mut [u8]) -> u64 {
    let (number, table) = fresh_table(d);
    if number != DONE {
        return number;
    }
    let (number, long) = write(&table, room);
    number + 256 * long as u64
}

/// The reader's answer.
pub fn check(image: &[u8]) -> u64 {
    read(image).0
}

/// Carries out an event on an image where it stands: number + 256 * cached + 65536 * distributed.
/// Refused, by the reader or by the event, every byte stays.
pub fn event(image: &mut [u8], port: u64, event: u64) -> u64 {
    let (refusal, mut table) = read(image);
    if refusal != DONE {
        return refusal;
    }
    let answer = event_unchecked(&mut table, port, event);
    if answer.0 == DONE {
        encode(&table, image);
    }
    packed(answer)
}

/// The same with the image after the event at the start of `next`; `image` stays, and so do the bytes after that image.
/// Refused, by the reader, by the event, or as `SHORT_ROOM`, every byte of `next` stays.
pub fn event_into(image: &[u8], next: &mut [u8], port: u64, event: u64) -> u64 {
    let (refusal, mut table) = read(image);
    if refusal != DONE {
        return refusal;
    }
    let answer = event_unchecked(&mut table, port, event);
    if answer.0 != DONE {
        return answer.0;
    }
    let Some(after) = next.get_mut(..length(table.d as usize)) else {
        return SHORT_ROOM;
    };
    encode(&table, after);
    packed(answer)
}

/// Carries out a list of events, pairs of port and event, on an image with one look at it; gives the reader's answer.
/// `answers` gets what [`event`] would answer to each. As many pairs are carried out as are whole in `orders` and have a
/// place in `answers`; refused by the reader, every byte and every answer stays.
pub fn run(image: &mut [u8], orders: &[u64], answers: &mut [u64]) -> u64 {
    let (refusal, mut table) = read(image);
    if refusal != DONE {
        return refusal;
    }
    for (order, answer) in orders.chunks_exact(2).zip(answers) {
        *answer = packed(event_unchecked(&mut table, order[0], order[1]));
    }
    encode(&table, image);
    DONE
}
