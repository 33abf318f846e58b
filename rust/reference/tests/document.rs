//! The sample lines of document 01, with the room and the images of request R-1.

use reference::number::*;
use reference::order::*;
use reference::{
    boundary, event, fresh, in_place, listing::listing, next, read, write, Table, LONGEST,
};

/// Steps port `port` to `point`: how many steps, and their costs.
fn walk(t: &mut Table, port: u64, point: u8) -> (u64, u64, u64) {
    let mut sum = (0, 0, 0);
    while t.ports[port as usize].point != point {
        let (number, cached, distributed) = event(t, port, STEP);
        assert_eq!(number, DONE);
        sum = (sum.0 + 1, sum.1 + cached, sum.2 + distributed);
    }
    sum
}

#[test]
fn next_round_the_ring() {
    assert_eq!(next(0, 0b1), 0);
    assert_eq!(next(0, 0b11), 1);
    assert_eq!(next(3, 0b110), 1);
    assert_eq!(next(1, 0b1001), 3);
    assert_eq!(next(15, 1 << 15), 15);
    assert_eq!(next(63, 1 << 63), 63);
    assert_eq!(next(63, 0b10), 1);
}

#[test]
fn next_is_the_first_after_the_owner() {
    for owner in 0..8u8 {
        for set in 1..256u64 {
            let first = (1..=8).map(|i| (owner + i) % 8).find(|k| set >> k & 1 == 1);
            assert_eq!(Some(next(owner, set)), first);
        }
    }
}

#[test]
fn refusals_of_the_sample_lines() {
    let (number, mut t) = fresh(2);
    assert_eq!(number, DONE);
    assert_eq!(event(&mut t, 0, STEP), (IDLE, 0, 0));
    assert_eq!(event(&mut t, 0, ENTER), (DONE, 0, 0));
    assert_eq!(t.ports[0].point, 1);
    assert_eq!(event(&mut t, 0, ENTER), (BUSY, 0, 0));
    assert_eq!(event(&mut t, 2, ENTER), (NO_SUCH_PORT, 0, 0));
    assert_eq!(event(&mut t, u64::MAX, ENTER), (NO_SUCH_PORT, 0, 0));
    assert_eq!(event(&mut t, 0, 6), (NO_SUCH_EVENT, 0, 0));
    assert_eq!(event(&mut t, 0, 0), (NO_SUCH_EVENT, 0, 0));
    for d in [0, 65, 256, 257, u64::MAX] {
        assert_eq!(fresh(d), (BAD_SIZE, fresh(1).1));
    }
}

#[test]
fn the_lowest_refusal_is_given() {
    let (_, mut t) = fresh(2);
    assert_eq!(event(&mut t, 2, 6), (NO_SUCH_PORT, 0, 0));
    t.word.taken = 2;
    let bad = t;
    // 1.1, D, and the byte of taken.
    let answer = BAD_TABLE | 1 << 8 | 2 << 16 | 22 << 24;
    assert_eq!(event(&mut t, 2, 6), (answer, 0, 0));
    assert_eq!(t, bad);
    assert_eq!(write(&t, &mut []), (answer, 0));
}

#[test]
fn alone_at_two_ports() {
    let (_, mut t) = fresh(2);
    event(&mut t, 0, ENTER);
    assert_eq!(walk(&mut t, 0, 11), (14, 9, 6));
    assert_eq!(event(&mut t, 0, STEP), (INSIDE, 0, 0));
    assert_eq!(event(&mut t, 0, LEAVE), (DONE, 0, 0));
    assert_eq!(walk(&mut t, 0, 0), (13, 6, 8));
}

#[test]
fn the_sample_listing() {
    let want = "1 E 0 0 1 0 0.0.0 0 0\n2 S 0 0 2 0 0.0.0 1 0\n3 A 0 0 2 0 0.0.0 0 0\n4 X 0 0 1 0 0.0.0 0 0\n\
                5 L 0 6 1 0 0.0.0 0 0\n6 S 0 0 2 0 0.0.0 0 0\n7 S 0 0 12 0 0.0.0 0 0\n";
    let got = listing(b"D 2\nE 0\nS 0\nA 0\nX 0\nL 0\nS 0\nS 0\n");
    assert_eq!(got, want.as_bytes());
    assert_eq!(listing(b""), b"BAD 0\n");
    assert_eq!(listing(b"D 1\nE 0"), b"BAD 1\n");
    assert_eq!(listing(b"D 64\n"), b"");
    assert_eq!(listing(b"D 65\n"), b"BAD 0\n");
}

#[test]
fn a_run_does_not_depend_on_the_pieces() {
    let input = b"D 3\nE 0\nE 2\nS 2\nE 999\nS  0\nE 1\n";
    for size in 1..input.len() {
        let mut run = reference::listing::Run::new();
        let mut out = Vec::new();
        for piece in input.chunks(size) {
            run.feed(piece, &mut out);
        }
        run.finish(&mut out);
        assert_eq!(out, listing(input));
        assert!(run.over());
    }
}

/// Version and length of the image of `d` ports, as the documents have them.
fn form(d: u64) -> (u8, u64) {
    match d {
        1..=16 => (1, 30 + 22 * d),
        _ => (2, 42 + 40 * d),
    }
}

#[test]
fn images_have_the_named_lengths() {
    let mut room = [0xAA; LONGEST + 1];
    for d in 1..=64 {
        let (_, t) = fresh(d);
        room.fill(0xAA);
        let (number, length) = write(&t, &mut room);
        assert_eq!(number, DONE);
        assert_eq!((room[0], length as u64), form(d));
        assert!(room[length..].iter().all(|b| *b == 0xAA));
        assert_eq!(read(&room[..length]), (DONE, t));
        assert_eq!(read(&room[..length + 1]), (BAD_IMAGE, fresh(1).1));
        assert_eq!(read(&room[..length - 1]), (BAD_IMAGE, fresh(1).1));
        let mut short = vec![0x55; length - 1];
        assert_eq!(write(&t, &mut short), (SHORT_ROOM, 0));
        assert!(short.iter().all(|b| *b == 0x55));
    }
    assert_eq!(LONGEST, 2602);
    assert_eq!(read(&[]), (BAD_IMAGE, fresh(1).1));
}

/// The image of a fresh table of `d` ports with copy sets of `width` bytes: head, and zeros.
fn fresh_image(version: u8, d: u8, width: u16) -> Vec<u8> {
    let (ports, sets) = (16 * u16::from(d), (2 + 3 * u16::from(d)) * width);
    let mut bytes = vec![version, d];
    for number in [14, 12, 26, ports, 26 + ports, sets] {
        bytes.extend(number.to_le_bytes());
    }
    bytes.resize(usize::from(26 + ports + sets), 0);
    bytes
}

#[test]
fn a_version_goes_with_its_numbers_of_ports() {
    for d in 0..=u8::MAX {
        for version in 0..=3 {
            for width in [2, 8] {
                let named = matches!((version, d, width), (1, 1..=16, 2) | (2, 17..=64, 8));
                let number = if named { DONE } else { BAD_IMAGE };
                let bytes = fresh_image(version, d, width);
                let what = format!("version {version}, D = {d}, sets of {width} bytes");
                assert_eq!(read(&bytes).0, number, "{what}");
                assert_eq!(in_place::check(&bytes), number, "{what}");
            }
        }
    }
}

#[test]
fn the_image_after_an_event_goes_into_another_room() {
    type Into = fn(&[u8], &mut [u8], u64, u64) -> u64;
    for event_into in [boundary::event_into as Into, in_place::event_into] {
        for d in [2, 17] {
            let image = fresh_image(form(d).0, d as u8, if d == 2 { 2 } else { 8 });
            let mut after = image.clone();
            assert_eq!(boundary::event(&mut after, 1, ENTER), DONE);
            for more in [0, 1, 9] {
                let mut next = vec![0xAA; image.len() + more];
                assert_eq!(event_into(&image, &mut next, 1, ENTER), DONE);
                assert_eq!(next[..image.len()], after);
                assert_eq!(next[image.len()..], vec![0xAA; more]);
            }
            // The image's refusals come first, then the event's, and then that of the room.
            let short = image.len() - 1;
            for (bytes, event, number) in [
                (&image[1..], STEP, BAD_IMAGE),
                (&image[..], STEP, IDLE),
                (&image[..], ENTER, SHORT_ROOM),
            ] {
                let mut next = vec![0xAA; short];
                assert_eq!(event_into(bytes, &mut next, 1, event), number);
                assert_eq!(next, vec![0xAA; short]);
            }
        }
    }
}
