//! Reads a schedule on standard input and prints its listing.

use reference::listing::Run;
use std::io::{self, Read, Write};

const PIECE: usize = 1 << 16;

fn main() -> io::Result<()> {
    let mut input = io::stdin().lock();
    let mut output = io::stdout().lock();
    let mut piece = vec![0; PIECE];
    let mut text = Vec::new();
    let mut run = Run::new();
    while !run.over() {
        let count = input.read(&mut piece)?;
        if count == 0 {
            run.finish(&mut text);
        } else {
            run.feed(&piece[..count], &mut text);
        }
        output.write_all(&text)?;
        text.clear();
        if count == 0 {
            break;
        }
    }
    output.flush()
}
