//! Signed objects of request W-207, worked out by hand, on the library and the reference.

use crate::call::Call;
use crate::cases::{direct, placed, Case, REQUEST};
use crate::table::{ipdu, object, set_filter};

/// The 32 bits that a number means.
const fn bits(number: i32) -> u32 {
    number as u32
}

const LEAST: i32 = i32::MIN;
const MOST: i32 = i32::MAX;

/// Objects with no I-PDU: one that sends, and one inside that receives what it sends.
const SENDS: [u8; 6] = [1, 255, 255, 0, 32, 2];
const INSIDE: [u8; 6] = [2, 255, 0, 0, 32, 2];

pub fn run() {
    examples();
    round_trip();
    compared();
    by_its_own_order();
    not_compared();
    whole();
    orders();
}

/// The document's examples, in 12 bits and in 1, in both orders; as unsigned for comparison.
fn examples() {
    for (start, order, frames) in [
        (13, 0, [[0x00, 0x00, 0x00, 0x01], [0x00, 0xE0, 0xFF, 0x01], [0x00, 0xE0, 0xFF, 0x00]]),
        (18, 1, [[0x00, 0x20, 0x00, 0x00], [0x00, 0x3F, 0xFC, 0x00], [0x00, 0x1F, 0xFC, 0x00]]),
    ] {
        let number = [(0x800, -2048), (0xFFF, -1), (0x7FF, 2047)];
        for (frame, (plain, signed)) in frames.into_iter().zip(number) {
            for (order, value) in [(order, plain), (order + 2, bits(signed))] {
                let mut case = Case::started(ipdu(2, 4, 0, [0; 5]), placed(2, start, 12, order));
                assert_eq!(case.indicate(&frame), (0, 0));
                assert_eq!(case.receive(), (0, value));
            }
        }
    }
    let one_bit = [(2, 0x20, -1), (3, 0x20, -1), (2, 0xDF, 0), (3, 0xDF, 0), (0, 0x20, 1)];
    for (order, frame, value) in one_bit {
        let mut case = Case::started(ipdu(2, 1, 0, [0; 5]), placed(2, 5, 1, order));
        assert_eq!(case.indicate(&[frame]), (0, 0));
        assert_eq!(case.receive(), (0, bits(value)));
    }
    for (order, frame) in [(2, [0xFE, 0xFF, 0xFF, 0xFF]), (3, [0xFF, 0xFF, 0xFF, 0xFE])] {
        let start = if order == 2 { 0 } else { 24 };
        let mut case = Case::started(ipdu(2, 4, 0, [0; 5]), placed(2, start, 32, order));
        assert_eq!(case.indicate(&frame), (0, 0));
        assert_eq!(case.receive(), (0, bits(-2)));
    }
}

/// Sent as by the unsigned order, and read back: exactly, or the low bits with the top one copied.
fn round_trip() {
    for (value, back) in [
        (-2048, -2048),
        (-2047, -2047),
        (-1, -1),
        (0, 0),
        (2047, 2047),
        (2048, -2048),
        (-2049, 2047),
        (4095, -1),
        (6844, -1348),
        (LEAST, 0),
        (MOST, -1),
    ] {
        for (start, order) in [(13, 2), (18, 3)] {
            let mut sender = Case::started(direct(0, 10), placed(1, start, 12, order));
            let mut plain = Case::started(direct(0, 10), placed(1, start, 12, order - 2));
            assert_eq!(sender.send(bits(value)), REQUEST);
            assert_eq!(plain.send(bits(value)), REQUEST);
            assert_eq!(sender.area, plain.area);
            let mut receiver = Case::started(ipdu(2, 4, 0, [0; 5]), placed(2, start, 12, order));
            assert_eq!(receiver.indicate(&sender.area[..4]), (0, 0));
            assert_eq!(receiver.receive(), (0, bits(back)));
        }
    }
}

/// The numbers, from 1 on, of the values that pass: sent, and delivered inside.
fn passing(filter: u8, words: [i32; 3], values: &[i32]) -> Vec<usize> {
    let mut sent = placed(1, 0, 32, 2);
    set_filter(&mut sent, filter, words.map(bits));
    let mut case = Case::started(direct(0, 10), sent);
    let by_sends = case.passed(&values.iter().map(|value| bits(*value)).collect::<Vec<_>>());
    let mut inside = object(&INSIDE);
    set_filter(&mut inside, filter, words.map(bits));
    let mut case = Case::started_with(&[], &[object(&SENDS), inside]);
    let mut by_arrivals = Vec::new();
    for (i, value) in values.iter().enumerate() {
        assert_eq!(case.send(bits(*value)), (0, 0));
        if case.ask(Call::Marks { object: 1 }) == (0, 1) {
            assert_eq!(case.ask(Call::Receive { object: 1 }), (0, bits(*value)));
            assert_eq!(case.ask(Call::ClearMarks { object: 1 }), (0, 0));
            by_arrivals.push(i + 1);
        }
    }
    assert_eq!(by_sends, by_arrivals, "filter {filter}, {words:?}");
    by_sends
}

/// Filters 8 to 13, with constants and old values on both sides of zero.
fn compared() {
    let values = [-21, -20, -1, 0, 5, 6, MOST, LEAST];
    assert_eq!(passing(8, [0, -20, 5], &values), [2, 3, 4, 5]);
    assert_eq!(passing(9, [0, -20, 5], &values), [1, 6, 7, 8]);
    assert_eq!(passing(8, [0, 5, -20], &values), []);
    assert_eq!(passing(9, [0, 5, -20], &values), [1, 2, 3, 4, 5, 6, 7, 8]);
    assert_eq!(passing(8, [0, LEAST, -1], &values), [1, 2, 3, 8]);
    assert_eq!(passing(9, [0, LEAST, MOST], &values), []);
    let values = [-1, 1, -5, 1, 2, LEAST, MOST, LEAST];
    assert_eq!(passing(10, [0, 0, 0], &values), [2, 5, 7]);
    assert_eq!(passing(10, [-3, 0, 0], &values), [1, 2, 5, 7]);
    assert_eq!(passing(11, [0, 0, 0], &values), [1, 3, 6, 8]);
    assert_eq!(passing(12, [0, 0, 0], &values), [1, 3, 6]);
    assert_eq!(passing(12, [LEAST, 0, 0], &values), []);
    assert_eq!(passing(13, [0, 0, 0], &values), [2, 4, 5, 7]);
}

/// A filter compares by its own object's order: object 0 is signed and drops what falls; of its
/// receivers 1 is not signed and 2 is.
fn by_its_own_order() {
    let [mut sends, mut plain, mut signed] =
        [object(&SENDS), object(&INSIDE[..5]), object(&INSIDE)];
    for record in [&mut sends, &mut plain, &mut signed] {
        set_filter(record, 10, [0, 0, 0]);
    }
    let mut case = Case::started_with(&[], &[sends, plain, signed]);
    for (value, kept) in [(-7, [-7, 0]), (3, [-7, 3]), (-6, [-6, 3]), (2, [-6, 3]), (9, [-6, 9])] {
        assert_eq!(case.send(bits(value)), (0, 0));
        let now = [1, 2].map(|object| case.ask(Call::Receive { object }));
        assert_eq!(now, kept.map(|value| (0, bits(value))));
    }
}

/// Filters 2 to 7 and 14 of a signed object are as before.
fn not_compared() {
    let values = [1, -1, -256, 255, 0, LEAST];
    assert_eq!(passing(2, [0, LEAST, LEAST], &values), [2, 3, 6]);
    assert_eq!(passing(3, [0, LEAST, LEAST], &values), [1, 4, 5]);
    assert_eq!(passing(2, [0, 0xFF, 0xFF], &values), [2, 4]);
    assert_eq!(passing(4, [-1, 0, 0], &values), [2]);
    assert_eq!(passing(5, [-1, 0, 0], &[-1, 1, 1, -1, -1]), [2, 4]);
    assert_eq!(passing(6, [-256, -1, 0], &values), [3]);
    assert_eq!(passing(6, [-256, 0xFF, 0], &values), [3, 5, 6]);
    assert_eq!(passing(7, [-256, LEAST, 0], &values), [1, 2, 4, 6]);
    assert_eq!(passing(14, [0, 3, 1], &values), [2, 5]);
}

/// In 4 bits, from -8 to 7, values that do not fit: initial and initialised ones are received and
/// compared whole; so is one that was sent.
fn whole() {
    for value in [8, -9, 100, LEAST, MOST] {
        let mut receives = placed(2, 0, 4, 2);
        set_filter(&mut receives, 13, [bits(value), 0, 0]);
        let mut case = Case::started(ipdu(2, 1, 0, [0; 5]), receives);
        assert_eq!(case.receive(), (0, bits(value)));
        for again in [-1000, 8, 1000, value] {
            assert_eq!(case.ask(Call::Initialise { object: 0, value: bits(again) }), (0, 0));
            assert_eq!(case.receive(), (0, bits(again)));
        }
        assert_eq!(case.indicate(&[0x08]), (0, 0));
        assert_eq!(case.receive(), (0, bits(value.max(-8))));
    }
    let mut sends = placed(1, 0, 4, 2);
    set_filter(&mut sends, 10, [0, 0, 0]);
    let receiver = object(&INSIDE);
    let mut case = Case::started_with(&[direct(0, 10)], &[sends, receiver]);
    assert_eq!(case.send(9), REQUEST);
    case.has_frame([0x09, 0, 0, 0]);
    assert_eq!(case.ask(Call::Receive { object: 1 }), (0, 9));
    assert_eq!(case.confirm(), (0, 0));
    assert_eq!(case.send(7), (0, 0));
    assert_eq!(case.ask(Call::Receive { object: 1 }), (0, 7));
    assert_eq!(case.ask(Call::Initialise { object: 0, value: bits(-100) }), (0, 0));
    assert_eq!(case.send(bits(-99)), REQUEST);
    case.has_frame([0x0D, 0, 0, 0]);
    assert_eq!(case.ask(Call::Receive { object: 1 }), (0, bits(-99)));
}

/// With an I-PDU every order up to 3 is right, without one 0 and 2.
fn orders() {
    for order in [0, 1, 2, 3, 4, 5, 127, 128, 254, 255] {
        let placed = placed(1, 0, 8, order);
        let number = if order <= 3 { 0 } else { 5 };
        assert_eq!(Case::new(&[direct(0, 10)], &[placed]).ask(Call::Start), (number, 0));
        let number = if order == 0 || order == 2 { 0 } else { 5 };
        for alone in [[1, 255, 255, 0, 32, order], [2, 255, 255, 0, 32, order]] {
            assert_eq!(Case::new(&[], &[object(&alone)]).ask(Call::Start), (number, 0));
        }
        let inside = object(&[2, 255, 0, 0, 32, order]);
        assert_eq!(Case::new(&[], &[object(&SENDS), inside]).ask(Call::Start), (number, 0));
    }
}
