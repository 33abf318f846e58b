//! Says whether an image is good or what is bad in it, and prints it field by field. Ends with 0 for a good one, 1 for one that
//! is refused, 2 where there is none to look at.

mod head;
mod listing;

use std::io::Write;
use std::process::ExitCode;
use std::{env, fs, io};
use yarvelow::{check, fields, Refusal};

fn main() -> ExitCode {
    let arguments: Vec<String> = env::args().skip(1).collect();
    let [path] = &arguments[..] else {
        eprintln!("inspect: it takes one file, the image: ./inspect IMAGE");
        return ExitCode::from(2);
    };
    let image = match fs::read(path) {
        Ok(image) => image,
        Err(error) => {
            eprintln!("inspect: {path}: {error}");
            return ExitCode::from(2);
        }
    };
    let answer = check(&image);
    match io::stdout().write_all(told(&image, answer).as_bytes()) {
        Ok(()) => ExitCode::from(u8::from(answer.is_err())),
        Err(_) => ExitCode::from(2),
    }
}

/// What is to be said of bytes that are answered so.
fn told(image: &[u8], answer: Result<(), Refusal>) -> String {
    match answer {
        Ok(()) => {
            let (version, d, long) = (image[0], image[1], image.len());
            let fields = listing::listing(image);
            format!("good: version {version}, D = {d}, {long} bytes\n\n{fields}")
        }
        Err(Refusal::BadTable { kind, place, .. }) => {
            let here = fields(image[1].into()).find(|field| field.place == place.into());
            let what = here.map(|field| field.told(&listing::shown(&field, image)));
            let (kind, what) = (kind.number(), what.unwrap_or_default());
            let fields = listing::listing(image);
            format!("1.{kind} BAD TABLE: {what}\n\n{fields}")
        }
        Err(refusal) => {
            let lines = head::wrong(image).into_iter();
            let lines: String = lines.map(|line| format!("  {line}\n")).collect();
            format!("{refusal}\n{lines}")
        }
    }
}
