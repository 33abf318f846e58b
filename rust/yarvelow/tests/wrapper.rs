//! The wrapper's own promises: numbers, refusals that leave every byte, owned and lent images.

use yarvelow::{
    check, event, event_into, fresh, image_length, run, Answer, Costs, Event, Image, Lock, Order,
    Refusal, LONGEST, PORTS,
};

#[test]
fn numbers_and_names() {
    for (i, refusal) in Refusal::ALL.into_iter().enumerate() {
        assert_eq!(refusal.number() as usize, i + 1);
        assert_eq!(Refusal::of(refusal.number().into()), Some(refusal));
    }
    assert_eq!(Refusal::of(0), None);
    assert_eq!(Refusal::of(12), None);
    assert_eq!(Refusal::NoSuchPort.to_string(), "2 NO SUCH PORT");
}

#[test]
fn refusals_leave_every_byte() {
    let mut room = [0x5A; LONGEST];
    assert_eq!(fresh(0, &mut room), Err(Refusal::BadSize));
    assert_eq!(fresh(65, &mut room), Err(Refusal::BadSize));
    assert_eq!(fresh(4, &mut room[..117]), Err(Refusal::ShortRoom));
    assert_eq!(fresh(1, &mut []), Err(Refusal::ShortRoom));
    assert_eq!(event(&mut room, 0, Event::Enter), Err(Refusal::BadImage));
    assert_eq!(event(&mut [], 0, Event::Enter), Err(Refusal::BadImage));
    assert_eq!(check(&[]), Err(Refusal::BadImage));
    let order = Order {
        port: 0,
        event: Event::Enter,
    };
    let mut answers = [Answer::default()];
    assert_eq!(
        run(&mut room, &[order], &mut answers),
        Err(Refusal::BadImage)
    );
    assert_eq!(answers, [Answer::default()]);
    assert!(room.iter().all(|byte| *byte == 0x5A));
}

#[test]
fn lengths_are_those_of_the_archive() {
    let mut room = [0; LONGEST];
    for d in 1..=PORTS {
        assert_eq!(fresh(d as u64, &mut room), Ok(image_length(d)));
        assert_eq!(room[..2], [if d <= 16 { 1 } else { 2 }, d as u8]);
        assert_eq!(check(&room[..image_length(d)]), Ok(()));
        assert_eq!(
            Lock::fresh(d as u64).unwrap().image().len(),
            image_length(d)
        );
    }
}

#[test]
fn the_image_after_an_event_stands_in_the_other_room() {
    for d in [2, 17, 64] {
        let lock = Lock::fresh(d).unwrap();
        let before = lock.image().to_vec();
        let length = before.len();
        let mut next = vec![0x5A; length + 3];
        let refused = lock.event_into(&mut next, d, Event::Enter);
        assert_eq!(refused, Err(Refusal::NoSuchPort));
        let short = lock.event_into(&mut next[..length - 1], d - 1, Event::Enter);
        assert_eq!(short, Err(Refusal::ShortRoom));
        let cut = event_into(&before[1..], &mut next, d - 1, Event::Enter);
        assert_eq!(cut, Err(Refusal::BadImage));
        assert!(next.iter().all(|byte| *byte == 0x5A));
        lock.event_into(&mut next, d - 1, Event::Enter).unwrap();
        assert_eq!(lock.image(), before);
        assert_eq!(next[length..], [0x5A; 3]);
        let mut after = before;
        event(&mut after, d - 1, Event::Enter).unwrap();
        assert_eq!(next[..length], after);
    }
}

#[test]
fn a_lent_image_outlives_its_lock() {
    let mut lasting = [0; LONGEST];
    Lock::fresh_in(2, &mut lasting)
        .unwrap()
        .event(0, Event::Enter)
        .unwrap();
    let length = yarvelow::image_length(2);
    let mut lock = Lock::open(Image::Lent(&mut lasting[..length])).unwrap();
    assert_eq!(lock.event(0, Event::Enter), Err(Refusal::Busy));
    let copy = lock.image().to_vec().into_boxed_slice();
    let mut own = Lock::open(Image::Owned(copy)).unwrap();
    assert_eq!(own.event(0, Event::Crash), Ok(Costs::default()));
    let whole = Lock::open(Image::Lent(&mut lasting));
    assert_eq!(whole.unwrap_err(), Refusal::BadImage);
}

#[test]
fn a_run_is_its_events() {
    let orders: Vec<Order> = (0..60)
        .map(|i| Order {
            port: i / 30,
            event: match i % 30 {
                0 => Event::Enter,
                15 => Event::Leave,
                _ => Event::Step,
            },
        })
        .collect();
    let mut one = Lock::fresh(2).unwrap();
    let mut other = Lock::fresh(2).unwrap();
    let mut answers = vec![Answer::default(); orders.len()];
    one.run(&orders, &mut answers).unwrap();
    for (order, answer) in orders.iter().zip(&answers) {
        assert_eq!(other.event(order.port, order.event), answer.result());
    }
    assert_eq!(one.image(), other.image());
}
