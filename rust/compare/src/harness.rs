//! The comparisons. Each gives how many answers were compared, or tells the first difference.

use crate::engine::{Engine, Reference};
use crate::generate::{any_order, bad_table, damaged, good_table, room_for, schedule, size, Mood};
use crate::met::Met;
use crate::random::Random;
use reference::number::BAD_TABLE;
use reference::{image, length, LONGEST, ROOM};

/// A difference between an engine and the reference, told so that it can be tried again.
pub type Difference = String;

/// Bytes after an image and room for answers are filled with this, to see what is touched.
const FILL: u8 = 0xA7;
const FILL_ANSWER: u64 = 0xA7A7_A7A7_A7A7_A7A7;

fn hex(bytes: &[u8]) -> String {
    bytes.iter().map(|b| format!("{b:02x}")).collect()
}

/// The parts of an answer.
fn parts(answer: u64) -> String {
    let part = |from: u32| answer >> from & 255;
    let (number, place) = (part(0), answer >> 24);
    match number {
        BAD_TABLE => format!("1.{}, port {}, byte {place}", part(8), part(16)),
        _ => format!("{number}, {}, {}, {place}", part(8), part(16)),
    }
}

/// Nothing, or how two answers differ: in their number or costs, or in kind, port or place of what is bad.
fn same(what: impl Fn() -> String, got: u64, want: u64) -> Result<(), Difference> {
    if got == want {
        Ok(())
    } else {
        let (got, want) = (parts(got), parts(want));
        Err(format!("{}: answer {got}, want {want}", what()))
    }
}

/// Nothing, or how two buffers differ.
fn same_bytes(what: impl Fn() -> String, got: &[u8], want: &[u8]) -> Result<(), Difference> {
    if got == want {
        Ok(())
    } else {
        let (got, want) = (hex(got), hex(want));
        Err(format!("{}: bytes {got}, want {want}", what()))
    }
}

/// Fresh tables of every size and beyond, in rooms that are too short, fit, or are longer.
pub fn fresh_tables(engine: &impl Engine) -> Result<u64, Difference> {
    let mut count = 0;
    let beyond = [255, 256, 257, 1 << 32, (1 << 32) + 1, u64::MAX];
    for d in (0..=ROOM as u64 + 8).chain(beyond) {
        let fits = length(d.min(ROOM as u64) as usize);
        for room in [0, 1, 51, fits - 1, fits, fits + 1, LONGEST, LONGEST + 9] {
            let mut got = vec![FILL; room];
            let mut want = got.clone();
            let answers = (engine.fresh(d, &mut got), Reference.fresh(d, &mut want));
            let what = || format!("fresh table of {d} in {room} bytes");
            same(what, answers.0, answers.1)?;
            same_bytes(what, &got, &want)?;
            count += 1;
        }
    }
    Ok(count)
}

/// Events on good tables that mostly no schedule reaches, at every D: eight events of each table, where it stands and into another
/// room.
pub fn events(engine: &impl Engine, seed: u64, tables: u64) -> Result<u64, Difference> {
    let mut random = Random::new(seed);
    let mut count = 0;
    for _ in 0..tables {
        let d = size(&mut random);
        let before = image(&good_table(&mut random, d));
        for _ in 0..8 {
            let (port, order) = any_order(&mut random, d);
            one_event(engine, &before, port, order)?;
            let room = room_for(&mut random, &before);
            one_event_into(engine, &before, room, port, order)?;
            count += 2;
        }
    }
    Ok(count)
}

/// One event on an image of any kind.
fn one_event(engine: &impl Engine, before: &[u8], port: u64, order: u64) -> Result<(), Difference> {
    let mut got = before.to_vec();
    let mut want = before.to_vec();
    let answers = (
        engine.event(&mut got, port, order),
        Reference.event(&mut want, port, order),
    );
    let what = || format!("event {order} of port {port} on {}", hex(before));
    same(what, answers.0, answers.1)?;
    same_bytes(what, &got, &want)
}

/// One event from an image of any kind into a room of so many bytes. The image stays, and so does what is not written of the room.
fn one_event_into(
    engine: &impl Engine,
    before: &[u8],
    room: usize,
    port: u64,
    order: u64,
) -> Result<(), Difference> {
    let image = before.to_vec();
    let (mut got, mut want) = (vec![FILL; room], vec![FILL; room]);
    let answers = (
        engine.event_into(&image, &mut got, port, order),
        Reference.event_into(&image, &mut want, port, order),
    );
    let what = || {
        format!(
            "event {order} of port {port} into {room} bytes, from {}",
            hex(before)
        )
    };
    same(what, answers.0, answers.1)?;
    same_bytes(what, &got, &want)?;
    same_bytes(|| format!("{}, the image itself", what()), &image, before)
}

/// Every D in turn, with near turns far apart.
fn every_size(turn: u64) -> u64 {
    1 + 29 * turn % ROOM as u64
}

/// Schedules with crashes and call-offs from fresh tables, event by event. The image is looked at after each.
pub fn schedules(
    engine: &impl Engine,
    seed: u64,
    schedules: u64,
    long: usize,
) -> Result<u64, Difference> {
    let mut random = Random::new(seed);
    let mut count = 0;
    for turn in 0..schedules {
        let d = every_size(turn);
        let mood = Mood::any(&mut random);
        let mut got = vec![FILL; length(d as usize)];
        let mut want = got.clone();
        engine.fresh(d, &mut got);
        Reference.fresh(d, &mut want);
        for (i, (port, order)) in schedule(&mut random, d, mood, long).into_iter().enumerate() {
            let what = || {
                format!(
                    "schedule {turn} of seed {seed}, D = {d}, event {i}: {order} of port {port}"
                )
            };
            let answers = (
                engine.event(&mut got, port, order),
                Reference.event(&mut want, port, order),
            );
            same(what, answers.0, answers.1)?;
            same_bytes(what, &got, &want)?;
            count += 1;
        }
    }
    Ok(count)
}

/// Runs over lists of events, from fresh tables and from tables that no schedule reaches. Lists with half a pair at their end, and answers
/// with too little or too much room, are among them.
pub fn runs(engine: &impl Engine, seed: u64, lists: u64, long: usize) -> Result<u64, Difference> {
    let mut random = Random::new(seed);
    let mut count = 0;
    for turn in 0..lists {
        let d = every_size(turn);
        let mood = Mood::any(&mut random);
        let pairs = 1 + random.below(long as u64) as usize;
        let mut orders: Vec<u64> = schedule(&mut random, d, mood, pairs)
            .into_iter()
            .flat_map(|(port, order)| [port, order])
            .collect();
        let before = if random.once_in(2) {
            image(&reference::fresh(d).1)
        } else {
            image(&good_table(&mut random, d))
        };
        let room = match random.below(6) {
            0 => random.below(pairs as u64 + 1) as usize,
            1 => pairs + 3,
            _ => pairs,
        };
        if random.once_in(8) {
            orders.pop();
        }
        one_run(engine, &before, &orders, room)?;
        count += pairs as u64;
    }
    Ok(count)
}

/// One run on an image of any kind, with room for so many answers.
fn one_run(
    engine: &impl Engine,
    before: &[u8],
    orders: &[u64],
    room: usize,
) -> Result<(), Difference> {
    let (mut got, mut want) = (before.to_vec(), before.to_vec());
    let (mut told, mut expected) = (vec![FILL_ANSWER; room], vec![FILL_ANSWER; room]);
    let numbers = (
        engine.run(&mut got, orders, &mut told),
        Reference.run(&mut want, orders, &mut expected),
    );
    let what = || {
        format!(
            "run of {} numbers, room for {room} answers, on {}",
            orders.len(),
            hex(before)
        )
    };
    same(what, numbers.0, numbers.1)?;
    if let Some(i) = (0..room).find(|i| told[*i] != expected[*i]) {
        let pair = orders.get(2 * i..2 * i + 2);
        return same(
            || format!("{}, answer {i} to {pair:?}", what()),
            told[i],
            expected[i],
        );
    }
    same_bytes(what, &got, &want)
}

/// Images of both versions, whole and damaged: what the check answers; and that an event and a run on a damaged one leave every
/// byte.
pub fn images(engine: &impl Engine, seed: u64, tables: u64) -> Result<u64, Difference> {
    let mut random = Random::new(seed);
    let mut count = 0;
    for _ in 0..tables {
        let d = size(&mut random);
        let whole = image(&good_table(&mut random, d));
        let other = damaged(&mut random, &whole);
        for bytes in [&whole, &other] {
            let what = || format!("check of {}", hex(bytes));
            same(what, engine.check(bytes), Reference.check(bytes))?;
            count += 1;
        }
        let (port, order) = any_order(&mut random, d);
        one_event(engine, &other, port, order)?;
        let room = room_for(&mut random, &other);
        one_event_into(engine, &other, room, port, order)?;
        one_run(engine, &other, &[port, order], 2)?;
        count += 3;
    }
    Ok(count)
}

/// Tables that break one rule or several: what the check says is bad, and that an event, one into another room and a run say the
/// same and leave every byte. A rule that never decides alone, in either version, is told too.
pub fn bad_tables(engine: &impl Engine, seed: u64, tables: u64) -> Result<u64, Difference> {
    let mut random = Random::new(seed);
    let mut met = Met::new();
    let mut count = 0;
    while count < tables {
        let d = size(&mut random);
        let t = bad_table(&mut random, d);
        let (port, order) = any_order(&mut random, d);
        if let Some(fault) = met.look(&t) {
            refused(engine, &image(&t), fault.answer(), port, order)?;
            count += 1;
        }
    }
    match met.missing()[..] {
        [] => Ok(4 * count),
        ref missing => Err(format!("{count} bad tables, and none for {missing:?}")),
    }
}

/// Everything that looks at an image gives one answer that refuses it, and leaves every byte.
fn refused(
    engine: &impl Engine,
    image: &[u8],
    want: u64,
    port: u64,
    order: u64,
) -> Result<(), Difference> {
    let (mut held, mut next) = (image.to_vec(), vec![FILL; image.len()]);
    let mut told = [FILL_ANSWER; 2];
    let what = |call| move || format!("{call}, event {order} of port {port}, on {}", hex(image));
    same(what("check"), engine.check(image), want)?;
    same(what("event"), engine.event(&mut held, port, order), want)?;
    let into = engine.event_into(image, &mut next, port, order);
    same(what("event into"), into, want)?;
    let run = engine.run(&mut held, &[port, order], &mut told);
    same(what("run"), run, want)?;
    same_bytes(what("the image"), &held, image)?;
    same_bytes(what("the room"), &next, &vec![FILL; image.len()])?;
    let [one, two] = told;
    same(what("an answer"), one, FILL_ANSWER)?;
    same(what("an answer"), two, FILL_ANSWER)
}

/// Every value of every byte of one image of `d` ports.
pub fn every_byte(engine: &impl Engine, seed: u64, d: u64) -> Result<u64, Difference> {
    let mut random = Random::new(seed);
    let mut bytes = image(&good_table(&mut random, d));
    let mut count = 0;
    for place in 0..bytes.len() {
        let whole = bytes[place];
        for value in 0..=u8::MAX {
            bytes[place] = value;
            let what = || format!("check with {value} at byte {place} of {}", hex(&bytes));
            same(what, engine.check(&bytes), Reference.check(&bytes))?;
            count += 1;
        }
        bytes[place] = whole;
    }
    Ok(count)
}

/// All comparisons, with about `events` events in all; gives how many answers were compared.
pub fn all(engine: &impl Engine, seed: u64, total: u64) -> Result<u64, Difference> {
    let mut count = fresh_tables(engine)?;
    count += every_byte(engine, seed, 3)?;
    count += events(engine, seed, total / 32)?;
    count += schedules(engine, seed, total / 4 / 500, 500)?;
    count += runs(engine, seed, total / 4 / 200, 400)?;
    count += images(engine, seed, total / 16)?;
    count += bad_tables(engine, seed, total / 16)?;
    count += every_byte(engine, seed, 17)?;
    Ok(count)
}
