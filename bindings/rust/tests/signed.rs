//! Signed readings through the bindings (request W-207): byte orders 2 and 3 in frames, inside, in
//! filters, in the check of a table and on a sheet. Frames, values and lines are worked out by hand
//! from documents 01 and 02.

#[path = "../../../tests/table.rs"]
#[allow(dead_code, unexpected_cfgs)]
#[rustfmt::skip]
mod table;

use birnenschloss::{signed, Area, Error, IpduNumber, Layer, Memory, ObjectNumber, Outcome, Pair};
use birnenschloss::{PairStatus, Requests, Sheet, Table, WrongRecord, AREA_SIZE, MEMORY_SIZE};
use table::{ipdu, join, object, set_filter};

const OUT: IpduNumber = IpduNumber(0);
const IN: IpduNumber = IpduNumber(1);

const SENT: ObjectNumber = ObjectNumber(0);
const OTHER: ObjectNumber = ObjectNumber(1);
const RECEIVED: ObjectNumber = ObjectNumber(2);
const INSIDE: ObjectNumber = ObjectNumber(3);
const QUEUE: ObjectNumber = ObjectNumber(4);
const PLAIN: ObjectNumber = ObjectNumber(5);
const LOOSE: ObjectNumber = ObjectNumber(6);
const DEEP: ObjectNumber = ObjectNumber(7);

const LITTLE: u8 = 0;
const BIG: u8 = 1;
const SIGNED_LITTLE: u8 = 2;
const SIGNED_BIG: u8 = 3;

/// Of 8 bytes; one is sent direct, one received.
fn ipdus() -> [[u8; 16]; 2] {
    [ipdu(1, 8, 0, [0, 0, 0, 10, 0]), ipdu(2, 8, 0, [0; 5])]
}

fn objects() -> [[u8; 32]; 8] {
    [
        object(&[1, 0, 255, 0, 8, SIGNED_LITTLE]),         // sent
        object(&[1, 0, 255, 56, 8, LITTLE]),               // other
        object(&[2, 1, 255, 0, 8, SIGNED_LITTLE]),         // received
        object(&[2, 255, 0, 0, 32, SIGNED_LITTLE]),        // inside: what sent sends
        object(&[2, 1, 255, 28, 12, SIGNED_BIG, 0, 4]),    // queue
        object(&[2, 1, 255, 28, 12, BIG, 0, 4]),           // plain: the same bits
        object(&[1, 255, 255, 0, 32, LITTLE]),             // loose: has no I-PDU
        object(&[2, 255, 6, 0, 32, SIGNED_LITTLE, 0, 16]), // deep: what loose sends
    ]
}

/// Order, start bit and size.
type Place = (u8, u8, u8);

fn place(objects: &mut [[u8; 32]; 8], numbers: &[ObjectNumber], (order, start, size): Place) {
    for number in numbers {
        objects[number.0 as usize][3..6].copy_from_slice(&[start, size, order]);
    }
}

/// A started layer over these objects, and its request area; both held something else before.
fn play(objects: &[[u8; 32]], test: impl FnOnce(&mut Played)) {
    let bytes = join(&ipdus(), objects);
    let mut memory = [0xA5; MEMORY_SIZE];
    let mut layer = Layer::new(Table::check(&bytes).unwrap(), Memory::from(&mut memory));
    layer.start().unwrap();
    test(&mut Played { layer, area: [0xC3; AREA_SIZE] });
}

struct Played<'a> {
    layer: Layer<'a, 'a>,
    area: Area,
}

impl Played<'_> {
    /// Whether a send asks for its frame, which is confirmed.
    fn send(&mut self, object: ObjectNumber, value: i32) -> bool {
        let requests = self.layer.send(&mut self.area, object, value as u32);
        self.confirmed(requests)
    }

    fn confirmed(&mut self, requests: Result<Requests, Error>) -> bool {
        let requested = requests.unwrap().contains(OUT);
        if requested {
            self.layer.confirm(OUT, Outcome::Good).unwrap();
        }
        requested
    }

    fn initialise(&mut self, object: ObjectNumber, value: i32) {
        self.layer.initialise(object, value as u32).unwrap();
    }

    fn indicate(&mut self, frame: [u8; 8]) {
        self.layer.indication(IN, Outcome::Good, &frame).unwrap();
    }

    fn receive(&mut self, object: ObjectNumber) -> i32 {
        signed(self.layer.receive(object).unwrap().value)
    }

    /// The frame that was handed over last.
    fn frame(&self) -> [u8; 8] {
        assert!(self.area[8..].iter().all(|byte| *byte == 0xC3));
        *self.area.first_chunk().unwrap()
    }

    /// Whether a value has arrived since this was last asked.
    fn arrived(&mut self, object: ObjectNumber) -> bool {
        let arrived = self.layer.marks(object).unwrap().arrived();
        self.layer.clear_marks(object).unwrap();
        arrived
    }
}

#[test]
fn corner_values() {
    for (value, reading) in [
        (0, 0),
        (1, 1),
        (0x7FFF_FFFF, 2_147_483_647),
        (0x8000_0000, -2_147_483_648),
        (0x8000_0001, -2_147_483_647),
        (0xFFFF_F800, -2048),
        (0xFFFF_FFFF, -1),
    ] {
        assert_eq!(signed(value), reading);
        assert_eq!(reading as u32, value);
    }
    const FREEZER: i32 = signed(0xFFFF_FF46);
    assert_eq!(FREEZER, -186);
}

/// A place; a frame, its first byte the highest; and the number that stands there. Of -1 all the
/// place's bits are set.
const READINGS: [(Place, u64, i32); 29] = [
    ((SIGNED_LITTLE, 13, 12), 0x00E0_FF01_0000_0000, -1), // hex FFF
    ((SIGNED_LITTLE, 13, 12), 0x0000_0001_0000_0000, -2048), // 800
    ((SIGNED_LITTLE, 13, 12), 0x00E0_FF00_0000_0000, 2047), // 7FF
    ((SIGNED_LITTLE, 13, 12), 0x0080_5701_0000_0000, -1348), // ABC
    ((SIGNED_BIG, 18, 12), 0x003F_FC00_0000_0000, -1),
    ((SIGNED_BIG, 18, 12), 0x0020_0000_0000_0000, -2048),
    ((SIGNED_BIG, 18, 12), 0x001F_FC00_0000_0000, 2047),
    ((SIGNED_BIG, 18, 12), 0x002A_F000_0000_0000, -1348),
    ((SIGNED_LITTLE, 5, 1), 0x2000_0000_0000_0000, -1),
    ((SIGNED_LITTLE, 5, 1), 0, 0),
    ((SIGNED_BIG, 63, 1), 0x0000_0000_0000_0080, -1),
    ((SIGNED_BIG, 63, 1), 0, 0),
    ((SIGNED_LITTLE, 7, 2), 0x8001_0000_0000_0000, -1),
    ((SIGNED_LITTLE, 7, 2), 0x0001_0000_0000_0000, -2),
    ((SIGNED_LITTLE, 7, 2), 0x8000_0000_0000_0000, 1),
    ((SIGNED_BIG, 15, 2), 0x0180_0000_0000_0000, -1),
    ((SIGNED_BIG, 15, 2), 0x0100_0000_0000_0000, -2),
    ((SIGNED_BIG, 15, 2), 0x0080_0000_0000_0000, 1),
    ((SIGNED_BIG, 25, 31), 0xFFFF_FFFE_0000_0000, -1),
    ((SIGNED_BIG, 25, 31), 0x7FFF_FFFE_0000_0000, 1_073_741_823),
    ((SIGNED_BIG, 25, 31), 0xFFFF_FE8C_0000_0000, -186),
    ((SIGNED_LITTLE, 3, 32), 0xF8FF_FFFF_0700_0000, -1),
    ((SIGNED_LITTLE, 3, 32), 0x0000_0000_0400_0000, -2_147_483_648),
    ((SIGNED_LITTLE, 3, 32), 0xF8FF_FFFF_0300_0000, 2_147_483_647),
    ((SIGNED_LITTLE, 3, 32), 0x30FA_FFFF_0700_0000, -186),
    ((SIGNED_BIG, 36, 32), 0x0FFF_FFFF_F000_0000, -1),
    ((SIGNED_BIG, 36, 32), 0x0800_0000_0000_0000, -2_147_483_648),
    ((SIGNED_BIG, 36, 32), 0x07FF_FFFF_F000_0000, 2_147_483_647),
    ((SIGNED_BIG, 36, 32), 0x0FFF_FFF4_6000_0000, -186),
];

/// Sent, and received from its frame, also with every other bit set; an unsigned object at the same
/// place has the low bits.
#[test]
fn there_and_back() {
    for (at, frame, value) in READINGS {
        let (order, start, size) = at;
        let (_, own, _) = READINGS.into_iter().find(|r| r.0 == at && r.2 == -1).unwrap();
        let mut objects = objects();
        place(&mut objects, &[SENT, RECEIVED], at);
        place(&mut objects, &[PLAIN], (order - SIGNED_LITTLE, start, size));
        play(&objects, |played| {
            assert!(played.send(SENT, value));
            assert_eq!(played.frame(), frame.to_be_bytes(), "{value} at {at:?}");
            for frame in [frame, frame | !own] {
                played.indicate(frame.to_be_bytes());
                assert_eq!(played.receive(RECEIVED), value, "at {at:?}");
                let low = value as u32 & u32::MAX >> (32 - size);
                assert_eq!(played.layer.receive(PLAIN).unwrap().value, low, "at {at:?}");
            }
        });
    }
}

/// In 12 bits: what has no room is cut in the frame alone, not inside, and read back otherwise.
#[test]
fn cut_in_the_frame() {
    let mut objects = objects();
    place(&mut objects, &[SENT, RECEIVED], (SIGNED_LITTLE, 13, 12));
    play(&objects, |played| {
        for (sent, back) in [
            (2048, -2048),
            (-2049, 2047),
            (4095, -1),
            (6844, -1348),
            (i32::MAX, -1),
            (i32::MIN, 0),
            (-2048, -2048),
        ] {
            assert!(played.send(SENT, sent));
            assert_eq!(played.receive(INSIDE), sent);
            played.indicate(played.frame());
            assert_eq!(played.receive(RECEIVED), back);
        }
        let (pairs, mut statuses) =
            ([Pair { object: SENT, value: -186_i32 as u32 }], [PairStatus::Id]);
        let requests = played.layer.send_group(&mut played.area, &pairs, &mut statuses);
        assert!(played.confirmed(requests) && statuses == [PairStatus::Sent]);
        assert_eq!(played.frame(), [0x00, 0xC0, 0xE8, 0x01, 0, 0, 0, 0]);
        assert_eq!(played.receive(INSIDE), -186);
    });
}

/// Initial values and initialised ones: whole in a receive object, cut in the frame.
#[test]
fn initialised() {
    let mut objects = objects();
    place(&mut objects, &[SENT, RECEIVED], (SIGNED_BIG, 28, 12));
    for (i, initial) in [(0, -186), (2, -3000), (3, i32::MIN)] {
        set_filter(&mut objects[i], 0, [initial as u32, 0, 0]);
    }
    play(&objects, |played| {
        assert_eq!([RECEIVED, INSIDE].map(|o| played.receive(o)), [-3000, i32::MIN]);
        assert!(played.send(OTHER, 7));
        assert_eq!(played.frame(), [0, 0, 0xF4, 0x60, 0, 0, 0, 7]);
        played.initialise(SENT, 6844);
        assert!(played.send(OTHER, 8));
        assert_eq!(played.frame(), [0, 0, 0xAB, 0xC0, 0, 0, 0, 8]);
        for value in [6844, -2049] {
            played.initialise(RECEIVED, value);
            assert_eq!(played.receive(RECEIVED), value);
        }
        played.indicate([0, 0, 0xFF, 0xF0, 0, 0, 0, 0]);
        assert_eq!(played.receive(RECEIVED), -1);
    });
}

const LEAST: i32 = i32::MIN;
const GREATEST: i32 = i32::MAX;

/// Filter, initial value and constants; values that come one after the other; those that pass on a
/// signed object, and those that pass on an unsigned one.
type Row = (u8, [i32; 3], &'static [i32], &'static [i32], &'static [i32]);
const ROWS: [Row; 19] = [
    (8, [0, -186, 5], &[-187, -186, -1, 0, 5, 6, LEAST, GREATEST], &[-186, -1, 0, 5], &[]),
    (8, [0, 5, -186], &[-187, -186, -185, 0, 4, 5, LEAST], &[], &[-187, -186, 5, LEAST]),
    (8, [0, -20, -10], &[-21, -20, -10, -9, 0, 15], &[-20, -10], &[-20, -10]),
    (
        9,
        [0, -186, 5],
        &[-187, -186, 0, 5, 6, LEAST],
        &[-187, 6, LEAST],
        &[-187, -186, 0, 5, 6, LEAST],
    ),
    (9, [0, 5, -186], &[-187, -186, -185, 0, 4, 5], &[-187, -186, -185, 0, 4, 5], &[-185, 0, 4]),
    (10, [5, 0, 0], &[5, -5, 6, -1, LEAST, GREATEST, -1], &[6, GREATEST], &[-5, -1]),
    (10, [-1, 0, 0], &[-1, -2, 0, -9, 7, -1], &[0, 7], &[]),
    (11, [0, 0, 0], &[1, -1, 0, GREATEST, LEAST, -2], &[-1, LEAST], &[0]),
    (11, [-7, 0, 0], &[-6, -7, 5, -8, LEAST], &[-7, -8, LEAST], &[-7, 5]),
    (12, [1, 0, 0], &[1, 0, -1, 0, LEAST, GREATEST], &[0, -1, LEAST], &[0]),
    (12, [-1, 0, 0], &[0, -2, -2, LEAST], &[-2, LEAST], &[0]),
    (13, [-2, 0, 0], &[-3, -2, 0, -1, GREATEST, LEAST], &[-2, 0, GREATEST], &[-2, -1]),
    (2, [0, LEAST, LEAST], &[-1, 0, GREATEST, LEAST], &[-1, LEAST], &[-1, LEAST]),
    (3, [0, LEAST, LEAST], &[-1, 0, GREATEST, LEAST], &[0, GREATEST], &[0, GREATEST]),
    (4, [-1, 0, 0], &[-1, 1, -1, -2], &[-1, -1], &[-1, -1]),
    (5, [-1, 0, 0], &[-1, 1, 1, -1], &[1, -1], &[1, -1]),
    (6, [-1, 15, 0], &[-1, 15, -17, 14, -2, 31], &[-1, 15, -17, 31], &[-1, 15, -17, 31]),
    (7, [0, LEAST, 0], &[5, -5, -6, 7, GREATEST], &[-5, 7], &[-5, 7]),
    (14, [0, 3, 1], &[-1, 5, -5, 0, -9], &[5, -9], &[5, -9]),
];

/// On the sending side, where the whole value is judged whatever its size; on a receiver inside,
/// whose own order counts; and on the object of an indication.
#[test]
fn filters() {
    for (filter, words, values, by_sign, as_words) in ROWS {
        for order in LITTLE..=SIGNED_BIG {
            let passes = if order >= SIGNED_LITTLE { by_sign } else { as_words };
            let filtered = |number: ObjectNumber, at: Place, sender: Place| {
                let mut objects = objects();
                place(&mut objects, &[SENT], sender);
                place(&mut objects, &[number], at);
                set_filter(&mut objects[number.0 as usize], filter, words.map(|w| w as u32));
                objects
            };
            let whole = (order, 24 * (order % 2), 32);
            for at in [(order, 0, 8), whole] {
                play(&filtered(SENT, at, at), |played| {
                    let passed = values.iter().filter(|value| played.send(SENT, **value));
                    assert!(passed.eq(passes), "filter {filter}, sent at {at:?}");
                });
            }
            play(&filtered(RECEIVED, whole, (LITTLE, 0, 8)), |played| {
                let passed = values.iter().filter(|value| {
                    let [little, big] = [value.to_le_bytes(), value.to_be_bytes()];
                    let bytes = if order % 2 == 0 { little } else { big };
                    played.indicate(*[bytes, [0xEE; 4]].concat().first_chunk().unwrap());
                    played.arrived(RECEIVED)
                });
                assert!(passed.eq(passes), "filter {filter}, received at {whole:?}");
            });
            if order % 2 == 0 {
                play(&filtered(INSIDE, whole, (SIGNED_LITTLE - order, 0, 8)), |played| {
                    let passed = values.iter().filter(|value| {
                        assert!(played.send(SENT, **value));
                        played.arrived(INSIDE)
                    });
                    assert!(passed.eq(passes), "filter {filter}, order {order}, inside");
                });
            }
        }
    }
}

/// In 12 bits a filter of a receive object sees the top bit copied upwards, and a whole old value.
#[test]
fn filters_of_short_readings() {
    let mut objects = objects();
    place(&mut objects, &[RECEIVED], (SIGNED_BIG, 28, 12));
    set_filter(&mut objects[2], 10, [5000, 0, 0]);
    play(&objects, |played| {
        played.indicate([0, 0, 0x7F, 0xF0, 0, 0, 0, 0]); // 2047
        assert!(!played.arrived(RECEIVED));
        played.initialise(RECEIVED, -3000);
        for (frame, passes) in [([0x80, 0x0F], true), ([0x80, 0x0F], false), ([0xFF, 0xFF], true)] {
            played.indicate([0, 0, frame[0], frame[1], 0, 0, 0, 0]); // -2048, -2048, -1
            assert_eq!(played.arrived(RECEIVED), passes);
        }
        assert_eq!(played.receive(RECEIVED), -1);
    });
}

/// Orders 0 to 3 are right, with no I-PDU 0 and 2 alone; the signed ones need room as the others.
#[test]
fn orders() {
    let check = |objects: &[[u8; 32]]| Table::check(&join(&ipdus(), objects)).map(|_| ());
    for i in 0..8 {
        for order in 0..=255 {
            let mut objects = objects();
            objects[i][5] = order;
            let right = if objects[i][1] == 255 { [0, 2].contains(&order) } else { order < 4 };
            let wrong = WrongRecord::Object(i as u8);
            assert_eq!(check(&objects), if right { Ok(()) } else { Err(wrong) }, "{order}");
            assert_eq!(wrong.place(), 256 + i as u32);
        }
    }
    for order in LITTLE..=SIGNED_BIG {
        let has_room = |start, size| {
            let mut objects = objects();
            place(&mut objects, &[RECEIVED], (order, start, size));
            check(&objects) == Ok(())
        };
        let big = order % 2 == 1;
        assert_eq!([has_room(18, 22), has_room(18, 23)], [true, !big]);
        assert_eq!([has_room(33, 31), has_room(33, 32)], [true, big]);
    }
}

#[test]
fn sheet() {
    play(&objects(), |played| {
        let mut sheet = played.layer.begin_sheet(&[QUEUE, DEEP, PLAIN]).unwrap();
        let mut drained = |played: &mut Played, arrivals: &[u16], sends: &[i32], lines: &str| {
            for twelve in arrivals {
                let [high, low] = (twelve << 4 | 0xE).to_be_bytes();
                played.indicate([0xEE, 0xEE, high, low, 0xEE, 0xEE, 0xEE, 0xEE]);
            }
            sends.iter().for_each(|value| assert!(!played.send(LOOSE, *value)));
            let mut text = [b'#'; Sheet::TEXT_SIZE];
            assert_eq!(played.layer.drain_sheet(&mut sheet, &mut text), Ok(lines));
        };
        drained(played, &[], &[], "4 0 - - - - 0 0\n7 0 - - - - 0 0\n5 0 - - - - 0 0\n");
        drained(
            played,
            &[0xFFB, 0xFFD, 0xFFC],
            &[-7, -9],
            "4 3 -5 -4 -5 -3 0 0\n7 2 -7 -9 -9 -7 0 0\n5 3 4091 4092 4091 4093 0 0\n",
        );
        drained(
            played,
            &[0x000, 0x7FF, 0x800],
            &[LEAST, GREATEST, 0],
            "4 6 -5 -2048 -2048 2047 0 0\n7 5 -7 0 -2147483648 2147483647 0 0\n\
             5 6 4091 2048 0 4093 0 0\n",
        );
        drained(
            played,
            &[0xFFF],
            &[4, 5],
            "4 7 -5 -1 -2048 2047 0 0\n7 7 -7 5 -2147483648 2147483647 0 0\n\
             5 7 4091 4095 0 4095 0 0\n",
        );
    });
}
