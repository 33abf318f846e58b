//! The sign of a word that is left behind (docs/STUCK.md): it stands at the end of the schedules that leave one, from the event on that does, and in no other.

use std::{fs, path::Path};
use yarvelow::{event, fresh, left_behind, Event, LONGEST};

/// The event after which the sign stands until the end of a schedule, if it does at its end.
fn left_at(schedule: &str) -> Option<usize> {
    let mut room = [0; LONGEST];
    let mut words = schedule.lines().map(|line| line.split_once(' ').unwrap());
    let length = fresh(words.next()?.1.parse().unwrap(), &mut room).unwrap();
    let image = &mut room[..length];
    let mut since = None;
    for (number, (letter, port)) in words.enumerate() {
        let order = match letter {
            "E" => Event::Enter,
            "S" => Event::Step,
            "X" => Event::Crash,
            "A" => Event::CallOff,
            "L" => Event::Leave,
            _ => panic!("{letter}"),
        };
        let _ = event(image, port.parse().unwrap(), order);
        since = left_behind(image).then_some(since.unwrap_or(number + 1));
    }
    since
}

#[test]
fn sign() {
    let folder = Path::new(env!("CARGO_MANIFEST_DIR")).join("../../tests/schedules");
    let mut tried = 0;
    let files = fs::read_dir(folder)
        .unwrap()
        .map(|file| file.unwrap().path());
    for path in files.filter(|path| path.extension().is_some_and(|word| word == "in")) {
        // A listing without BAD is that of a whole schedule.
        if !fs::read_to_string(path.with_extension("out"))
            .unwrap()
            .contains("BAD")
        {
            tried += 1;
            let name = path.file_stem().unwrap().to_str().unwrap();
            let expected = match name {
                "stuck-a" => Some(58),
                "stuck-b" => Some(92),
                "stuck-bench" => Some(91),
                _ => None,
            };
            assert_eq!(
                left_at(&fs::read_to_string(&path).unwrap()),
                expected,
                "{name}"
            );
        }
    }
    assert!(tried > 30, "{tried}");
}
