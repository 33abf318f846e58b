//! Fresh tables, and events with their refusals.

use crate::costs::charge;
use crate::number::*;
use crate::order::*;
use crate::rules::bad;
use crate::steps::step;
use crate::table::{Port, Table, ROOM};
use crate::words::{Words, WordsMut};

/// The fresh table of `d` ports and `DONE`; any other `d` gives `BAD_SIZE` and the fresh table of one port.
pub fn fresh(d: u64) -> (u64, Table) {
    match d {
        1.. if d <= ROOM as u64 => (DONE, Table::first(d as u8)),
        _ => (BAD_SIZE, Table::first(1)),
    }
}

/// Carries out an event: the answer, the cached and the distributed cost.
/// A refused event costs nothing and leaves the table as it is.
pub fn event(t: &mut Table, port: u64, event: u64) -> (u64, u64, u64) {
    if let Some(fault) = bad(t) {
        return (fault.answer(), 0, 0);
    }
    event_unchecked(t, port, event)
}

/// The same on a table that is known to be good, without looking again.
pub fn event_unchecked(t: &mut Table, port: u64, event: u64) -> (u64, u64, u64) {
    act(t, port, event)
}

/// Answer, cached and distributed cost in one number, as the boundary gives it.
pub fn packed((answer, cached, distributed): (u64, u64, u64)) -> u64 {
    answer + 256 * cached + 65536 * distributed
}

/// An event on the words of a good table.
pub(crate) fn act(words: &mut impl WordsMut, port: u64, event: u64) -> (u64, u64, u64) {
    match admitted(words, port, event) {
        Ok(p) => carry_out(words, port as usize, p, event),
        Err(number) => (number, 0, 0),
    }
}

/// The port that an event on the words of a good table is carried out at, or the lowest number that refuses it.
pub(crate) fn admitted(words: &impl Words, port: u64, event: u64) -> Result<Port, u64> {
    if port >= words.d() as u64 {
        return Err(NO_SUCH_PORT);
    }
    let p = words.port(port as usize);
    let worn = p.made == u16::MAX;
    match (event, p.point) {
        (ENTER, 0) if worn => Err(WORN),
        (ENTER, 0) => Ok(p),
        (ENTER, _) => Err(BUSY),
        (STEP | CRASH | CALL_OFF, 0) => Err(IDLE),
        (STEP, 4) if worn => Err(WORN),
        (STEP, 11) => Err(INSIDE),
        (STEP | CRASH | CALL_OFF, _) => Ok(p),
        (LEAVE, 11) => Ok(p),
        (LEAVE, _) => Err(NOT_INSIDE),
        _ => Err(NO_SUCH_EVENT),
    }
}

/// An event of port `k`, which is `p`, that nothing refuses.
pub(crate) fn carry_out(
    words: &mut impl WordsMut,
    k: usize,
    mut p: Port,
    event: u64,
) -> (u64, u64, u64) {
    let (mut cached, mut distributed) = (0, 0);
    match event {
        ENTER => p.point = 1,
        STEP => {
            (cached, distributed) = charge(words, k, &p);
            step(words, k, &mut p);
        }
        CRASH => {
            p.point = 1;
            p.own_spin = 0;
            p.seen_owner = 0;
            p.seen_spin = 0;
            p.candidate = 0;
            p.candidate_spin = 0;
        }
        CALL_OFF => p.flag = 1,
        _ => p.point = 13,
    }
    words.set_port(k, p);
    (DONE, cached, distributed)
}
