//! Filter 14 through the bindings: which values pass, in rows past 256, and the range of the stored
//! count. The answers are worked out by hand from request W-203.

#[path = "../../../tests/table.rs"]
#[allow(dead_code, unexpected_cfgs)]
#[rustfmt::skip]
mod table;

use birnenschloss::{Controller, Error, IpduNumber, Layer, Memory, ObjectNumber, Outcome, Pair};
use birnenschloss::{PairStatus, Table, AREA_SIZE, MEMORY_SIZE};
use table::{ipdu, join, object, set_filter};

const READING: ObjectNumber = ObjectNumber(0);
const COUNTED: ObjectNumber = ObjectNumber(1);
const INSIDE: ObjectNumber = ObjectNumber(2);

/// An I-PDU that is sent direct. In it a pending object with filter 0, and a triggered one of which
/// one value in three passes, the first of them; inside, a receiver of the latter with one in five,
/// the second.
fn one_in_three() -> Vec<u8> {
    let mut objects = [
        object(&[1, 0, 255, 0, 8, 0, 1]),
        object(&[1, 0, 255, 8, 16]),
        object(&[2, 255, 1, 0, 32]),
    ];
    set_filter(&mut objects[1], 14, [0, 3, 0]);
    set_filter(&mut objects[2], 14, [0, 5, 1]);
    join(&[ipdu(1, 4, 0, [0, 0, 0, 10, 0])], &objects)
}

/// Where the count of an object stands in working memory (docs/MEMORY.md).
fn count_at(object: ObjectNumber) -> usize {
    784 + 16 * object.0 as usize + 8
}

/// 300 sends, each request confirmed; also with an initialise of both objects before each.
#[test]
fn one_of_three_passes() {
    let bytes = one_in_three();
    let table = Table::check(&bytes).unwrap();
    for initialises in [false, true] {
        let mut controller = Controller::new(table).start();
        let (mut passed, mut arrived) = (Vec::new(), Vec::new());
        for n in 1..=300 {
            if initialises {
                controller.initialise(COUNTED, 7 * n).unwrap();
                controller.initialise(INSIDE, 7 * n).unwrap();
            }
            assert!(controller.send(READING, n).unwrap().is_empty());
            if controller.send(COUNTED, n).unwrap().contains(IpduNumber(0)) {
                controller.confirm(IpduNumber(0), Outcome::Good).unwrap();
                passed.push(n);
            }
            if controller.receive(INSIDE).unwrap().value == n {
                arrived.push(n);
            }
            let counts = [READING, COUNTED, INSIDE].map(|o| controller.memory()[count_at(o)]);
            assert_eq!(counts, [0, (n % 3) as u8, (n % 5) as u8], "send {n}");
        }
        assert_eq!(passed, (1..=300).step_by(3).collect::<Vec<u32>>());
        assert!(passed.contains(&256) && !passed.contains(&257));
        assert_eq!(arrived, (2..=300).step_by(5).collect::<Vec<u32>>());
    }
}

/// Over a memory that is right but for the count of one object: counts below the period are
/// accepted, and 0 alone with another filter; all others are refused, and the memory is left.
#[test]
fn range_of_the_count() {
    let bytes = one_in_three();
    let table = Table::check(&bytes).unwrap();
    let mut right = [0xA5; MEMORY_SIZE];
    Layer::new(table, Memory::from(&mut right)).start().unwrap();
    for (object, below) in [(READING, 1), (COUNTED, 3), (INSIDE, 5)] {
        for count in 0..=255 {
            let mut memory = right;
            memory[count_at(object)] = count;
            let changed = memory;
            let answers = answers(table, &mut memory);
            if count < below {
                assert_eq!(answers, [Ok(()); 5], "count {count} of {object:?}");
            } else {
                assert_eq!(answers, [Err(Error::Memory); 5], "count {count} of {object:?}");
                assert_eq!(memory, changed, "count {count} of {object:?}");
            }
        }
    }
}

/// What five calls answer, one after the other.
fn answers(table: Table, memory: &mut [u8; MEMORY_SIZE]) -> [Result<(), Error>; 5] {
    let (mut area, mut statuses) = ([0xA5; AREA_SIZE], [PairStatus::Id]);
    let mut layer = Layer::new(table, Memory::from(memory));
    let pairs = [Pair { object: COUNTED, value: 1 }];
    [
        layer.marks(COUNTED).map(drop),
        layer.receive(INSIDE).map(drop),
        layer.initialise(COUNTED, 1),
        layer.send(&mut area, COUNTED, 1).map(drop),
        layer.send_group(&mut area, &pairs, &mut statuses).map(drop),
    ]
}
