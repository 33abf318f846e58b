//! Schedules and listings: a line read, a line printed, a run over input in pieces.

use crate::events::{event_unchecked, fresh};
use crate::number::{DONE, NO_SUCH_PORT};
use crate::order::*;
use crate::table::Table;

/// The longest well-formed line, without its newline: a letter, a space, three digits.
const LONGEST_LINE: usize = 5;

/// A run of a schedule, fed with its bytes in pieces of any size.
#[derive(Clone, Debug)]
pub struct Run {
    /// The table, once `D n` is read.
    table: Option<Table>,
    /// The number of the line being read; `D` is line 0.
    line: u64,
    /// The bytes of that line so far. One more than a line can have is enough to know it malformed.
    held: [u8; LONGEST_LINE + 1],
    length: usize,
    over: bool,
}

impl Default for Run {
    fn default() -> Run {
        Run::new()
    }
}

impl Run {
    /// A run that has read nothing yet.
    pub fn new() -> Run {
        Run {
            table: None,
            line: 0,
            held: [0; LONGEST_LINE + 1],
            length: 0,
            over: false,
        }
    }

    /// Whether a malformed line has ended the run.
    pub fn over(&self) -> bool {
        self.over
    }

    /// Takes the next piece of the input and appends to the listing.
    pub fn feed(&mut self, piece: &[u8], out: &mut Vec<u8>) {
        for &byte in piece {
            if self.over {
                return;
            }
            if byte == b'\n' {
                self.take_line(out);
            } else if self.length < self.held.len() {
                self.held[self.length] = byte;
                self.length += 1;
            } else {
                self.bad(out);
            }
        }
    }

    /// The input has ended: a line without its newline, and an input without any line, are malformed.
    pub fn finish(&mut self, out: &mut Vec<u8>) {
        if !self.over && (self.length > 0 || self.table.is_none()) {
            self.bad(out);
        }
    }

    fn take_line(&mut self, out: &mut Vec<u8>) {
        let line = &self.held[..self.length];
        match &mut self.table {
            None => match size(line) {
                Some(table) => self.table = Some(table),
                None => return self.bad(out),
            },
            Some(table) => match order(line) {
                Some((letter, event, port)) => print(table, self.line, letter, event, port, out),
                None => return self.bad(out),
            },
        }
        self.line += 1;
        self.length = 0;
    }

    fn bad(&mut self, out: &mut Vec<u8>) {
        out.extend_from_slice(b"BAD ");
        decimal(self.line, out);
        out.push(b'\n');
        self.over = true;
    }
}

/// The listing of a whole schedule.
pub fn listing(input: &[u8]) -> Vec<u8> {
    let mut run = Run::new();
    let mut out = Vec::new();
    run.feed(input, &mut out);
    run.finish(&mut out);
    out
}

/// `D n` with an n that a table can have: its fresh table.
fn size(line: &[u8]) -> Option<Table> {
    let (letter, n) = fields(line)?;
    let (number, table) = fresh(n);
    (letter == b'D' && number == DONE).then_some(table)
}

/// An event's line: its letter, its number and the port.
fn order(line: &[u8]) -> Option<(u8, u64, u64)> {
    let (letter, port) = fields(line)?;
    let event = match letter {
        b'E' => ENTER,
        b'S' => STEP,
        b'X' => CRASH,
        b'A' => CALL_OFF,
        b'L' => LEAVE,
        _ => return None,
    };
    Some((letter, event, port))
}

/// A byte, one space, and a number of one to three digits without leading zeros.
fn fields(line: &[u8]) -> Option<(u8, u64)> {
    let (&letter, rest) = line.split_first()?;
    let digits = rest.strip_prefix(b" ")?;
    let plain = digits.iter().all(u8::is_ascii_digit);
    let leading = digits.len() > 1 && digits[0] == b'0';
    if !plain || leading || !(1..=3).contains(&digits.len()) {
        return None;
    }
    let value = digits
        .iter()
        .fold(0, |n, digit| n * 10 + u64::from(digit - b'0'));
    Some((letter, value))
}

/// Carries out an event and prints its line. The table is good, since events made it from a fresh one.
fn print(t: &mut Table, line: u64, letter: u8, event: u64, port: u64, out: &mut Vec<u8>) {
    let (number, cached, distributed) = event_unchecked(t, port, event);
    decimal(line, out);
    out.extend_from_slice(&[b' ', letter, b' ']);
    decimal(port, out);
    out.push(b' ');
    decimal(number, out);
    out.push(b' ');
    if number == NO_SUCH_PORT {
        out.push(b'-');
    } else {
        decimal(u64::from(t.ports[port as usize].point), out);
    }
    out.push(b' ');
    decimal(t.active, out);
    out.push(b' ');
    decimal(u64::from(t.word.taken), out);
    out.push(b'.');
    decimal(u64::from(t.word.owner), out);
    out.push(b'.');
    decimal(u64::from(t.word.spin), out);
    out.push(b' ');
    decimal(cached, out);
    out.push(b' ');
    decimal(distributed, out);
    out.push(b'\n');
}

/// A number in decimal.
fn decimal(mut n: u64, out: &mut Vec<u8>) {
    let mut digits = [0; 20];
    let mut at = digits.len();
    loop {
        at -= 1;
        digits[at] = b'0' + (n % 10) as u8;
        n /= 10;
        if n == 0 {
            break;
        }
    }
    out.extend_from_slice(&digits[at..]);
}
