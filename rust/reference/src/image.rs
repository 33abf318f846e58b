//! Images: the writer and the reader.

use crate::held::Held;
use crate::layout::{contents, length, version, CONTENTS_PLACE, D_PLACE, VERSION_PLACE};
use crate::number::*;
use crate::rules::bad;
use crate::table::{Table, ROOM};
use crate::words::WordsMut;

/// Writes the image of a table at the start of `room`: the answer and the image's length.
/// Refused (`BAD_TABLE`, then `SHORT_ROOM`), the room stays as it is and the length is 0.
pub fn write(t: &Table, room: &mut [u8]) -> (u64, usize) {
    if let Some(fault) = bad(t) {
        return (fault.answer(), 0);
    }
    let long = length(t.d as usize);
    let Some(image) = room.get_mut(..long) else {
        return (SHORT_ROOM, 0);
    };
    encode(t, image);
    (DONE, long)
}

/// The image that a write of a table would give, good or not, but for its D, which is 1 to 64.
pub fn image(t: &Table) -> Vec<u8> {
    let mut bytes = vec![0; length(t.d as usize)];
    encode(t, &mut bytes);
    bytes
}

/// Puts the image of a table whose D has room, good or not, in bytes that are as long.
pub(crate) fn encode(t: &Table, image: &mut [u8]) {
    let d = t.d as usize;
    put_head(d, image);
    Held::new(d, image).set_all(t);
}

/// Puts version, D and contents.
pub(crate) fn put_head(d: usize, image: &mut [u8]) {
    image[VERSION_PLACE] = version(d);
    image[D_PLACE] = d as u8;
    for (at, number) in entries(d) {
        image[at..at + 2].copy_from_slice(&number.to_le_bytes());
    }
}

/// The numbers of the contents, start and length of each body, and where each stands.
fn entries(d: usize) -> impl Iterator<Item = (usize, u16)> {
    let numbers = contents(d)
        .into_iter()
        .flat_map(|(start, long)| [start, long]);
    numbers
        .enumerate()
        .map(|(i, number)| (CONTENTS_PLACE + 2 * i, number as u16))
}

/// Reads an image: the answer and the table.
/// Refused (`BAD_IMAGE`, then `BAD_TABLE`), the table is the fresh one of one port.
pub fn read(bytes: &[u8]) -> (u64, Table) {
    let Some(t) = table(bytes) else {
        return (BAD_IMAGE, Table::first(1));
    };
    if let Some(fault) = bad(&t) {
        return (fault.answer(), Table::first(1));
    }
    (DONE, t)
}

/// The table that an image holds, good or not; none if length, version, D or contents are wrong.
pub fn table(bytes: &[u8]) -> Option<Table> {
    let d = ports(bytes)?;
    let mut t = Table::first(d as u8);
    t.set_all(&Held::new(d, bytes));
    Some(t)
}

/// D of an image; none if length, version, D or contents are wrong.
pub(crate) fn ports(bytes: &[u8]) -> Option<usize> {
    let d = usize::from(*bytes.get(D_PLACE)?);
    let right = (1..=ROOM).contains(&d)
        && bytes[VERSION_PLACE] == version(d)
        && bytes.len() == length(d)
        && entries(d).all(|(at, number)| bytes[at..at + 2] == number.to_le_bytes());
    right.then_some(d)
}
