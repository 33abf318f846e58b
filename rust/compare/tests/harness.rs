//! The harness itself: the reference passes, and an engine with one thing wrong is noticed, whatever the thing.

use compare::{generate, harness, Engine, InPlace, Random, Reference};
use reference::number::*;
use reference::order::*;
use reference::{event_unchecked, good, packed, points, read, write, Table, ROOM};

/// Enough events for every mistake below to be met.
const EVENTS: u64 = 60_000;
const SEED: u64 = 3;

/// Number, cached and distributed cost.
type Answer = (u64, u64, u64);
/// What became of an event: the table before it, the table after it, port, event and answer.
type Mistake = fn(&Table, &mut Table, u64, u64, &mut Answer);

/// The reference with a mistake in its events.
struct Mistaken(Mistake);

impl Mistaken {
    fn event(&self, t: &mut Table, port: u64, event: u64) -> Answer {
        let before = *t;
        let mut answer = event_unchecked(t, port, event);
        self.0(&before, t, port, event, &mut answer);
        answer
    }
}

impl Engine for Mistaken {
    fn fresh(&self, d: u64, room: &mut [u8]) -> u64 {
        Reference.fresh(d, room)
    }

    fn check(&self, image: &[u8]) -> u64 {
        Reference.check(image)
    }

    fn event(&self, image: &mut [u8], port: u64, event: u64) -> u64 {
        let (number, mut table) = read(image);
        if number != DONE {
            return number;
        }
        let answer = Mistaken::event(self, &mut table, port, event);
        write(&table, image);
        packed(answer)
    }

    fn event_into(&self, image: &[u8], next: &mut [u8], port: u64, event: u64) -> u64 {
        let mut after = image.to_vec();
        let answer = Engine::event(self, &mut after, port, event);
        match next.get_mut(..after.len()) {
            _ if answer & 255 != DONE => answer,
            Some(room) => {
                room.copy_from_slice(&after);
                answer
            }
            None => SHORT_ROOM,
        }
    }

    fn run(&self, image: &mut [u8], orders: &[u64], answers: &mut [u64]) -> u64 {
        let (number, mut table) = read(image);
        for (pair, answer) in orders.chunks_exact(2).zip(answers) {
            if number == DONE {
                *answer = packed(Mistaken::event(self, &mut table, pair[0], pair[1]));
            }
        }
        if number == DONE {
            write(&table, image);
        }
        number
    }
}

/// The point at which a done step was made.
fn stepped(before: &Table, port: u64, event: u64, answer: &Answer) -> Option<u8> {
    (answer.0 == DONE && event == STEP).then(|| before.ports[port as usize].point)
}

/// Mistakes that a tired engineer might make, each with a name.
const MISTAKES: [(&str, Mistake); 15] = [
    ("ACTIVE has 32 bits", |_, t, _, _, _| {
        t.active &= 0xFFFF_FFFF;
    }),
    ("a copy set has 16 bits", |_, t, _, _, _| {
        t.word_copies &= 0xFFFF;
    }),
    ("a crash lowers the flag", |_, t, port, event, answer| {
        if event == CRASH && answer.0 == DONE {
            t.ports[port as usize].flag = 0;
        }
    }),
    (
        "next takes the lowest bit",
        |before, t, port, event, answer| {
            let point = stepped(before, port, event, answer);
            if point.and_then(points::promotion) == Some(1) && before.active != 0 {
                t.ports[port as usize].candidate = before.active.trailing_zeros() as u8;
            }
        },
    ),
    (
        "31 takes itself before ACTIVE",
        |before, t, port, event, answer| {
            if stepped(before, port, event, answer) == Some(31) {
                t.ports[port as usize].candidate = port as u8;
            }
        },
    ),
    (
        "a failed swap spares the copies",
        |before, t, port, event, answer| {
            let point = stepped(before, port, event, answer);
            let swap = point == Some(17) || point.and_then(points::promotion) == Some(3);
            if swap && t.word == before.word {
                t.word_copies |= before.word_copies;
            }
        },
    ),
    ("a failed swap is free", |before, t, port, event, answer| {
        if stepped(before, port, event, answer) == Some(17) && t.word == before.word {
            answer.1 = 0;
        }
    }),
    (
        "17 releases whatever spin it has",
        |before, t, port, event, answer| {
            let word = before.word;
            if stepped(before, port, event, answer) == Some(17) && u64::from(word.owner) == port {
                t.word.taken = 0;
            }
        },
    ),
    ("x5 sets an older spin", |before, t, port, event, answer| {
        let point = stepped(before, port, event, answer);
        if point.and_then(points::promotion) == Some(5) {
            t.ports[before.ports[port as usize].seen_owner as usize].value = 1;
        }
    }),
    (
        "an older spin has a copy set",
        |before, t, port, event, answer| {
            if stepped(before, port, event, answer) == Some(8) && t.ports[port as usize].made != 0 {
                t.copies[port as usize].spin |= 1 << port;
            }
        },
    ),
    (
        "a new spin keeps its copies",
        |before, t, port, event, answer| {
            if stepped(before, port, event, answer) == Some(4) {
                t.copies[port as usize].spin = before.copies[port as usize].spin;
            }
        },
    ),
    (
        "the last spin is not made",
        |before, _, port, event, answer| {
            let worn = |made| made >= u16::MAX - 1;
            if stepped(before, port, event, answer) == Some(4)
                && worn(before.ports[port as usize].made)
            {
                *answer = (WORN, 0, 0);
            }
        },
    ),
    (
        "BUSY before WORN is WORN",
        |before, _, port, event, answer| {
            if event == ENTER && answer.0 == BUSY && before.ports[port as usize].made == u16::MAX {
                answer.0 = WORN;
            }
        },
    ),
    ("event before port", |_, _, _, event, answer| {
        if answer.0 == NO_SUCH_PORT && !(1..=5).contains(&event) {
            answer.0 = NO_SUCH_EVENT;
        }
    }),
    (
        "ports are taken modulo 256",
        |before, _, port, event, answer| {
            if answer.0 == NO_SUCH_PORT && port % 256 < u64::from(before.d) {
                *answer = event_unchecked(&mut before.clone(), port % 256, event);
            }
        },
    ),
];

#[test]
fn the_reference_passes() {
    let count = harness::all(&Reference, SEED, EVENTS).unwrap();
    assert!(count > EVENTS);
    harness::all(&Mistaken(|_, _, _, _, _| {}), SEED, EVENTS).unwrap();
}

#[test]
fn the_reference_in_place_is_the_reference() {
    harness::all(&InPlace, SEED, 4 * EVENTS).unwrap();
}

#[test]
fn every_mistake_in_events_is_noticed() {
    for (name, mistake) in MISTAKES {
        let told = harness::all(&Mistaken(mistake), SEED, EVENTS);
        assert!(told.is_err(), "not noticed: {name}");
    }
}

/// The reference with a mistake in one of the other functions.
enum Other {
    /// A fresh table puts a byte after its image.
    PutsAfter,
    /// A refused fresh table clears the room.
    ClearsRoom,
    /// The check takes an image that is too long.
    TakesLonger,
    /// The check does not look at the copies of a spin that was never made.
    SparesCopies,
    /// A refused event changes the image.
    ChangesRefused,
    /// A run stops at the first refusal.
    StopsEarly,
    /// A run over an image that is refused still tells answers.
    TellsRefused,
    /// A run forgets to write the image back.
    ForgetsImage,
    /// The check does not look at the version.
    AnyVersion,
    /// The check takes images of either version at every D.
    EitherForm,
    /// An event into another room puts a byte after the image.
    IntoPutsAfter,
    /// An event into another room is refused for the room before it is for itself.
    IntoRoomFirst,
    /// An event into another room that is refused clears the room.
    IntoClearsRoom,
    /// An event into another room puts as much of the image as the room holds.
    IntoPutsAPart,
    /// An event into another room wants a byte more than the image has.
    IntoWantsMore,
    /// An event into another room puts the image as it was.
    IntoPutsTheOld,
    /// The check says BAD TABLE without what is bad.
    CheckSaysNoMore,
    /// An event does.
    EventSaysNoMore,
    /// An event into another room does.
    IntoSaysNoMore,
    /// A run does.
    RunSaysNoMore,
}

/// An answer of BAD TABLE without what is bad.
fn no_more(answer: u64) -> u64 {
    match answer & 255 {
        BAD_TABLE => BAD_TABLE,
        _ => answer,
    }
}

/// Whether bytes are as long as version 1 or 2 has it, whatever their D.
fn whole_by_its_form(image: &[u8]) -> bool {
    let length = |d: usize| match image[0] {
        1 => Some(30 + 22 * d),
        2 => Some(42 + 40 * d),
        _ => None,
    };
    image.len() > 14 && length(usize::from(image[1])) == Some(image.len())
}

impl Engine for Other {
    fn fresh(&self, d: u64, room: &mut [u8]) -> u64 {
        let answer = Reference.fresh(d, room);
        let length = (answer >> 8) as usize;
        match self {
            Other::PutsAfter if length > 0 && room.len() > length => room[length] = 0,
            Other::ClearsRoom if answer & 255 != DONE => room.fill(0),
            _ => {}
        }
        answer
    }

    fn check(&self, image: &[u8]) -> u64 {
        let number = Reference.check(image);
        match self {
            Other::TakesLonger if number == BAD_IMAGE && image.len() > 52 => {
                let d = usize::from(image[1]).clamp(1, ROOM);
                let short = &image[..image.len().min(reference::length(d))];
                Reference.check(short)
            }
            Other::SparesCopies if number & 255 == BAD_TABLE => {
                let mut mended = image.to_vec();
                let d = usize::from(image[1]);
                let width = if d <= 16 { 2 } else { 8 };
                for k in 0..d {
                    let made = 26 + 16 * k + 4;
                    let spin = 26 + 16 * d + (2 + 3 * k + 2) * width;
                    if image[made..made + 2] == [0, 0] {
                        mended[spin..spin + width].fill(0);
                    }
                }
                Reference.check(&mended)
            }
            Other::AnyVersion if number == BAD_IMAGE && image.len() > 52 => {
                let mut mended = image.to_vec();
                mended[0] = if image[1] <= 16 { 1 } else { 2 };
                Reference.check(&mended)
            }
            Other::EitherForm if number == BAD_IMAGE && whole_by_its_form(image) => {
                Reference.check(&generate::other_version(image))
            }
            Other::CheckSaysNoMore => no_more(number),
            _ => number,
        }
    }

    fn event(&self, image: &mut [u8], port: u64, event: u64) -> u64 {
        let answer = Reference.event(image, port, event);
        if matches!(self, Other::ChangesRefused) && answer & 255 == BAD_TABLE {
            image[14] ^= 1;
        }
        match self {
            Other::EventSaysNoMore => no_more(answer),
            _ => answer,
        }
    }

    fn event_into(&self, image: &[u8], next: &mut [u8], port: u64, event: u64) -> u64 {
        let long = image.len();
        let answer = Reference.event_into(image, next, port, event);
        let done = answer & 255 == DONE;
        match self {
            Other::IntoPutsAfter if done && next.len() > long => next[long] ^= 1,
            Other::IntoRoomFirst if next.len() < long && Reference.check(image) == DONE => {
                return SHORT_ROOM;
            }
            Other::IntoClearsRoom if !done => next.fill(0),
            Other::IntoPutsAPart if answer == SHORT_ROOM => {
                next.copy_from_slice(&image[..next.len()]);
            }
            Other::IntoWantsMore if done && next.len() == long => {
                return SHORT_ROOM;
            }
            Other::IntoPutsTheOld if done => next[..long].copy_from_slice(image),
            Other::IntoSaysNoMore => return no_more(answer),
            _ => {}
        }
        answer
    }

    fn run(&self, image: &mut [u8], orders: &[u64], answers: &mut [u64]) -> u64 {
        let before = image.to_vec();
        let number = Reference.run(image, orders, answers);
        match self {
            Other::StopsEarly => {
                let refused = answers.iter().position(|a| a & 255 != DONE);
                if let Some(i) = refused.filter(|i| i + 1 < orders.len() / 2) {
                    answers[i + 1..].fill(0);
                }
            }
            Other::TellsRefused if number != DONE => answers.fill(number),
            Other::ForgetsImage => image.copy_from_slice(&before),
            Other::RunSaysNoMore => return no_more(number),
            _ => {}
        }
        number
    }
}

#[test]
fn every_mistake_elsewhere_is_noticed() {
    let others = [
        ("puts after", Other::PutsAfter),
        ("clears room", Other::ClearsRoom),
        ("takes longer", Other::TakesLonger),
        ("spares copies", Other::SparesCopies),
        ("changes refused", Other::ChangesRefused),
        ("stops early", Other::StopsEarly),
        ("tells refused", Other::TellsRefused),
        ("forgets image", Other::ForgetsImage),
        ("any version", Other::AnyVersion),
        ("either form", Other::EitherForm),
        ("into puts after", Other::IntoPutsAfter),
        ("into room first", Other::IntoRoomFirst),
        ("into clears room", Other::IntoClearsRoom),
        ("into puts a part", Other::IntoPutsAPart),
        ("into wants more", Other::IntoWantsMore),
        ("into puts the old", Other::IntoPutsTheOld),
        ("check says no more", Other::CheckSaysNoMore),
        ("event says no more", Other::EventSaysNoMore),
        ("into says no more", Other::IntoSaysNoMore),
        ("run says no more", Other::RunSaysNoMore),
    ];
    for (name, other) in others {
        let told = harness::all(&other, SEED, EVENTS);
        assert!(told.is_err(), "not noticed: {name}");
    }
}

#[test]
fn tables_are_good_and_of_every_kind() {
    let mut random = Random::new(SEED);
    let mut points_met = [0; 256];
    let (mut granted, mut released, mut worn) = (0, 0, 0);
    for _ in 0..20_000 {
        let d = generate::size(&mut random);
        let mut t = generate::good_table(&mut random, d);
        assert!(good(&t));
        let port = random.below(d);
        let point = t.ports[port as usize].point;
        points_met[point as usize] += 1;
        let before = t;
        let answer = event_unchecked(&mut t, port, STEP);
        granted += u32::from(before.word.taken < t.word.taken);
        released += u32::from(before.word.taken > t.word.taken);
        worn += u32::from(answer.0 == WORN);
    }
    for point in (0..=u8::MAX).filter(|point| points::named(*point)) {
        assert!(points_met[point as usize] > 50, "point {point}");
    }
    assert!(granted > 200 && released > 20 && worn > 20);
}

#[test]
fn the_same_seed_gives_the_same_schedule() {
    let make = |seed| {
        let mut random = Random::new(seed);
        let mood = generate::Mood::any(&mut random);
        generate::schedule(&mut random, 4, mood, 300)
    };
    assert_eq!(make(7), make(7));
    assert_ne!(make(7), make(8));
}
