//! Prints the orders of the measurements as a schedule: `orders D COUNT`.

use bench::orders::orders;
use std::env;
use std::io::{self, BufWriter, Write};
use std::process::ExitCode;

fn main() -> io::Result<ExitCode> {
    let numbers: Vec<u64> = env::args().skip(1).flat_map(|word| word.parse()).collect();
    let [d @ (1..), count] = numbers[..] else {
        eprintln!("orders D COUNT");
        return Ok(ExitCode::from(2));
    };
    let mut out = BufWriter::new(io::stdout().lock());
    writeln!(out, "D {d}")?;
    for order in orders(d, count as usize).chunks_exact(2) {
        let letter = b"ESXAL"[order[1] as usize - 1] as char;
        writeln!(out, "{letter} {}", order[0])?;
    }
    out.flush()?;
    Ok(ExitCode::SUCCESS)
}
