//! Each function through the bindings beside the independent layer of tests/layer, which is
//! written from the rules alone. After every call the answer, the request area and, by the list in
//! docs/MEMORY.md, the working memory must be as the independent layer has them. Nothing else
//! checks the declarations in src/linked.rs, so each function is called with many numbers, values
//! and lengths: an argument that is exchanged or lost changes an answer.

#[path = "../../../tests/layer/call.rs"]
#[allow(dead_code)]
mod call;
#[path = "../../../tests/layer/make.rs"]
#[allow(dead_code)]
mod make;
#[path = "../../../tests/layer/records.rs"]
mod records;
#[path = "../../../tests/layer/reference.rs"]
mod reference;
#[path = "../../../tests/layer/stored.rs"]
#[allow(dead_code, unexpected_cfgs)]
mod stored;
#[path = "../../../tests/table.rs"]
#[allow(dead_code, unexpected_cfgs)]
#[rustfmt::skip]
mod table;

use birnenschloss::{Area, Error, IpduNumber, Layer, Memory, ObjectNumber, Outcome};
use birnenschloss::{Status, Table, WrongRecord, AREA_SIZE, MEMORY_SIZE};
use call::Call;
use table::{ipdu, join, object, set_filter, Run};

/// Both layers over one table.
struct Pair<'a> {
    layer: Layer<'a, 'a>,
    reference: reference::Layer,
    area: Area,
}

impl<'a> Pair<'a> {
    fn new(table: &'a [u8], memory: &'a mut [u8; MEMORY_SIZE]) -> Pair<'a> {
        let layer = Layer::new(Table::check(table).unwrap(), Memory::from(memory));
        Pair { layer, reference: reference::Layer::new(table), area: [0xA5; AREA_SIZE] }
    }

    /// The answer of both layers, which agree in it, in the area and in what is stored.
    fn ask(&mut self, call: Call) -> (u32, u32) {
        let (before, mut area) = (*self.layer.memory(), self.area);
        let ours = self.reference.call(&call, MEMORY_SIZE, true, &mut area);
        let theirs = made(&mut self.layer, &mut self.area, &call);
        assert_eq!(theirs, (ours.number, ours.value), "{call:?}");
        assert_eq!(self.area, area, "{call:?}");
        if call.refused_by(ours.number) {
            assert_eq!(*self.layer.memory(), before, "{call:?}");
        }
        assert_eq!(stored::difference(&self.reference, self.layer.memory()), None, "{call:?}");
        theirs
    }

    fn done(&mut self, call: Call) {
        assert_eq!(self.ask(call.clone()).0, 0, "{call:?}");
    }

    /// Started, with traffic behind it: requests open and postponed, periods running, values
    /// in queues, marks set.
    fn busy(table: &'a [u8], memory: &'a mut [u8; MEMORY_SIZE]) -> Pair<'a> {
        let mut pair = Pair::new(table, memory);
        pair.done(Call::Start);
        pair.done(Call::StartPeriodic);
        pair.done(Call::Send { object: 0, value: 0x155 });
        pair.done(Call::Send { object: 3, value: 0x9_8765 });
        pair.done(Call::Confirm { ipdu: 2, good: false });
        pair.done(Call::Send { object: 3, value: 0x1_2345 });
        for byte in [0x21, 0x43, 0x65] {
            pair.done(Call::Indication { ipdu: 1, good: true, bytes: vec![byte, 2, byte, 4, 5] });
        }
        pair.done(Call::Tick);
        pair
    }
}

/// The call by the bindings, with its answer as the number and value of document 01.
fn made(layer: &mut Layer, area: &mut Area, call: &Call) -> (u32, u32) {
    let number = ObjectNumber;
    let outcome = |good| if good { Outcome::Good } else { Outcome::NotGood };
    let nothing = |result: Result<(), Error>| result.map(|()| (0, 0));
    let result = match *call {
        Call::Start => nothing(layer.start()),
        Call::Stop => nothing(layer.stop()),
        Call::Send { object, value } => {
            layer.send(area, number(object), value).map(|requests| (0, requests.word()))
        }
        Call::Initialise { object, value } => nothing(layer.initialise(number(object), value)),
        Call::Receive { object } => {
            layer.receive(number(object)).map(|r| (if r.overflowed { 3 } else { 0 }, r.value))
        }
        Call::Status { object } => {
            layer.status(number(object)).map(|s| (if s == Status::Overflowed { 3 } else { 0 }, 0))
        }
        Call::Marks { object } => layer.marks(number(object)).map(|marks| (0, marks.sum())),
        Call::ClearMarks { object } => nothing(layer.clear_marks(number(object))),
        Call::StartPeriodic => nothing(layer.start_periodic()),
        Call::StopPeriodic => nothing(layer.stop_periodic()),
        Call::Indication { ipdu, good, ref bytes } => {
            nothing(layer.indication(IpduNumber(ipdu), outcome(good), bytes))
        }
        Call::Confirm { ipdu, good } => nothing(layer.confirm(IpduNumber(ipdu), outcome(good))),
        Call::Tick => layer.tick(area).map(|requests| (0, requests.word())),
    };
    result.unwrap_or_else(|error| (error.number(), 0))
}

/// I-PDUs 0 (direct), 2 (mixed) and 4 (periodic) are sent, 1 and 3 received; all five lengths
/// and times differ. Objects 0, 3 and 6 are sent; 1 and 5 have queues; 4 has sender 3.
fn five_ipdus() -> Vec<u8> {
    let ipdus = [
        ipdu(1, 3, 0, [0, 0, 2, 6, 0]),
        ipdu(2, 5, 0, [0, 0, 0, 7, 9]),
        ipdu(1, 4, 2, [5, 3, 1, 8, 0]),
        ipdu(2, 1, 0, [0, 0, 0, 4, 0]),
        ipdu(1, 2, 1, [6, 4, 0, 11, 0]),
    ];
    let mut objects = [
        object(&[1, 0, 255, 5, 11, 0, 0]),
        object(&[2, 1, 255, 0, 7, 0, 0, 2]),
        object(&[2, 1, 255, 20, 13, 1]),
        object(&[1, 2, 255, 27, 22, 1, 0]),
        object(&[2, 255, 3, 0, 32]),
        object(&[2, 3, 255, 1, 6, 0, 0, 3]),
        object(&[1, 4, 255, 2, 14, 0, 1]),
    ];
    set_filter(&mut objects[0], 5, [0x7F, 0, 0]);
    set_filter(&mut objects[2], 0, [0x1234, 0, 0]);
    join(&ipdus, &objects)
}

/// For each of the numbers a busy pair of layers of its own.
fn for_each(numbers: std::ops::Range<u32>, test: impl Fn(&mut Pair, u32)) {
    let table = five_ipdus();
    for number in numbers {
        let mut memory = [0xA5; MEMORY_SIZE];
        test(&mut Pair::busy(&table, &mut memory), number);
    }
}

const OBJECTS: std::ops::Range<u32> = 0..9;
const IPDUS: std::ops::Range<u32> = 0..7;

#[test]
fn check() {
    let table = five_ipdus();
    for at in 0..table.len() {
        for byte in [0, 3, 255] {
            let mut changed = table.clone();
            changed[at] = byte;
            let place = Table::check(&changed).err().map(WrongRecord::place);
            assert_eq!(place, table::place(&changed), "byte {at} set to {byte}");
        }
    }
    let checked = Table::check(&table).unwrap();
    assert_eq!((checked.ipdus(), checked.objects()), (5, 7));
    let lengths = IPDUS.map(|k| checked.ipdu_length(IpduNumber(k)));
    assert!(lengths.eq([Some(3), Some(5), Some(4), Some(1), Some(2), None, None]));
    let longer = [&table[..], &[0]].concat();
    for length in (0..=longer.len()).filter(|length| *length != table.len()) {
        assert_eq!(Table::check(&longer[..length]), Err(WrongRecord::Header), "{length} bytes");
    }
}

#[test]
fn start_and_stop() {
    for_each(0..1, |pair, _| {
        assert_eq!(pair.ask(Call::Stop), (0, 0));
        assert_eq!(pair.ask(Call::Stop), (7, 0));
        assert_eq!(pair.ask(Call::Tick), (7, 0));
        assert_eq!(pair.ask(Call::Start), (0, 0));
        assert_eq!(pair.ask(Call::Receive { object: 2 }), (0, 0x1234));
        let again = *pair.layer.memory();
        let (table, mut memory) = (five_ipdus(), [0x5A; MEMORY_SIZE]);
        let mut fresh = Pair::new(&table, &mut memory);
        assert_eq!(fresh.ask(Call::Start), (0, 0));
        assert_eq!(*fresh.layer.memory(), again);
    });
}

#[test]
fn send() {
    for_each(OBJECTS, |pair, object| {
        pair.done(Call::Confirm { ipdu: 0, good: false });
        let answer = pair.ask(Call::Send { object, value: 0xFFEE_DDCC });
        // I-PDU 0 may go, 2 has an open request, 4 is periodic.
        let wanted = match object {
            0 => (0, 1),
            3 | 6 => (0, 0),
            _ => (1, 0),
        };
        assert_eq!(answer, wanted);
    });
}

#[test]
fn initialise() {
    for_each(OBJECTS, |pair, object| {
        let number = pair.ask(Call::Initialise { object, value: 0x0102_0304 + object }).0;
        assert_eq!(number == 0, object < 7);
        if object == 2 {
            assert_eq!(pair.ask(Call::Receive { object }), (0, 0x0102_0306));
        }
    });
}

#[test]
fn receive_and_status() {
    for_each(OBJECTS, |pair, object| {
        let (status, received) = match object {
            1 => ([3, 0, 4], [(3, 0x21), (0, 0x43), (4, 0)]),
            2 => ([1; 3], [(0, 0x1026); 3]),
            4 => ([1; 3], [(0, 0x1_2345); 3]),
            5 => ([4; 3], [(4, 0); 3]),
            _ => ([1; 3], [(1, 0); 3]),
        };
        for (number, answer) in status.into_iter().zip(received) {
            assert_eq!(pair.ask(Call::Status { object }), (number, 0));
            assert_eq!(pair.ask(Call::Receive { object }), answer);
        }
    });
}

#[test]
fn marks_and_clear_marks() {
    for_each(OBJECTS, |pair, object| {
        pair.done(Call::Indication { ipdu: 3, good: false, bytes: vec![] });
        let marks = pair.ask(Call::Marks { object });
        let wanted = [(0, 0), (0, 1), (0, 1), (0, 8), (0, 1), (0, 4), (0, 0), (1, 0), (1, 0)];
        assert_eq!(marks, wanted[object as usize]);
        let cleared = pair.ask(Call::ClearMarks { object });
        assert_eq!(cleared, (marks.0, 0));
        assert_eq!(pair.ask(Call::Marks { object }), (marks.0, 0));
    });
}

#[test]
fn periodic() {
    for_each(0..1, |pair, _| {
        let mut words = Vec::new();
        for call in [Call::StopPeriodic, Call::StartPeriodic, Call::StopPeriodic] {
            pair.done(call);
            words.extend((0..9).map(|_| pair.ask(Call::Tick).1));
        }
        assert!(words[..9].iter().all(|word| word & 16 == 0));
        assert_eq!(words[9 + 3] & 16, 16);
        assert!(words[18..].iter().all(|word| word & 16 == 0));
    });
}

#[test]
fn indication() {
    for_each(IPDUS, |pair, ipdu| {
        let lengths = [0, 1, 2, 3, 4, 5, 6, 8, 9];
        let numbers = lengths.map(|length| {
            let bytes: Vec<u8> = (0..length).map(|i| 0xF1 - 17 * i).collect();
            pair.ask(Call::Receive { object: 1 });
            pair.ask(Call::Indication { ipdu, good: false, bytes: bytes.clone() });
            pair.ask(Call::Indication { ipdu, good: true, bytes }).0
        });
        let wanted = |length| match (ipdu, length) {
            (1, 5) | (3, 1) => 0,
            (1 | 3, _) => 2,
            _ => 1,
        };
        assert_eq!(numbers, lengths.map(wanted));
        pair.ask(Call::Receive { object: 2 });
        pair.ask(Call::Receive { object: 5 });
    });
}

#[test]
fn confirm() {
    for good in [true, false] {
        for_each(IPDUS, |pair, ipdu| {
            let number = pair.ask(Call::Confirm { ipdu, good }).0;
            assert_eq!(number, [0, 1, 0, 1, 8, 1, 1][ipdu as usize]);
            for object in OBJECTS {
                pair.ask(Call::Marks { object });
            }
        });
    }
}

#[test]
fn tick() {
    for_each(0..1, |pair, _| {
        let words: Vec<u32> = (0..40).map(|_| pair.ask(Call::Tick).1).collect();
        let union = words.iter().fold(0, |all, word| all | word);
        assert_eq!(union, 0b10100);
        assert_eq!(pair.ask(Call::Marks { object: 5 }), (0, 4));
        assert_eq!(pair.ask(Call::Marks { object: 6 }), (0, 8));
    });
}

/// Case 12's table: an I-PDU that is sent, and an object with no queue.
fn case_12() -> Vec<u8> {
    let mut reading = object(&[1, 0, 255, 13, 12]);
    set_filter(&mut reading, 5, [0, 0, 0]);
    join(&[ipdu(1, 4, 0, [0, 0, 3, 10, 0])], &[reading])
}

/// An I-PDU that is received, and one object, with a queue.
fn one_queue() -> Vec<u8> {
    join(&[ipdu(2, 1, 0, [0; 5])], &[object(&[2, 0, 255, 0, 8, 0, 0, 2])])
}

/// Memory of zeros, as static storage is, is never that of a running layer. Every call but a start
/// is refused over it: as stopped where zeros are in the ranges of all stored numbers, and with 6
/// over the table where objects stand behind a queue.
#[test]
fn zeros() {
    let calls = [
        Call::Stop,
        Call::Send { object: 0, value: 1 },
        Call::Initialise { object: 0, value: 1 },
        Call::Receive { object: 0 },
        Call::Status { object: 0 },
        Call::Marks { object: 0 },
        Call::ClearMarks { object: 0 },
        Call::StartPeriodic,
        Call::StopPeriodic,
        Call::Indication { ipdu: 0, good: true, bytes: vec![1] },
        Call::Confirm { ipdu: 0, good: true },
        Call::Tick,
    ];
    for (table, number) in [(case_12(), 7), (one_queue(), 7), (five_ipdus(), 6)] {
        let mut memory = [0; MEMORY_SIZE];
        let mut pair = Pair::new(&table, &mut memory);
        for call in &calls {
            let answer = made(&mut pair.layer, &mut pair.area, call);
            assert_eq!(answer, (number, 0), "{call:?}");
            assert_eq!(*pair.layer.memory(), [0; MEMORY_SIZE], "{call:?}");
            assert_eq!(pair.area, [0xA5; AREA_SIZE], "{call:?}");
        }
        pair.done(Call::Start);
        for call in &calls[1..] {
            pair.ask(call.clone());
        }
        pair.done(Call::Stop);
    }
}

/// Long lists over random tables, with the makers of tests/layer.
#[test]
fn lists() {
    let mut run = Run { random: 0x9E37_79B9_7F4A_7C15, counts: [0; 4] };
    let (mut calls, mut numbers, mut kinds) = (0, [false; 9], [false; 13]);
    while calls < 10_000 {
        let table = make::right(&mut run);
        let mut memory = [0xA5; MEMORY_SIZE];
        let mut pair = Pair::new(&table, &mut memory);
        pair.done(Call::Start);
        for _ in 0..200 {
            let call = make::call(&mut run, &pair.reference, 0);
            kinds[call.kind()] = true;
            numbers[pair.ask(call).0 as usize] = true;
            calls += 1;
        }
    }
    assert_eq!(kinds, [true; 13]);
    // 5 and 6 are kept out by the types: the table is checked, the memory long and started.
    assert_eq!(numbers, [true, true, true, true, true, false, false, true, true]);
}
