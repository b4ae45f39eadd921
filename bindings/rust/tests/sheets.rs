//! The journey sheet, by a layer and by a controller, which must agree: in journeys worked out by
//! hand, and in random ones beside the independent sheet of tests/layer.

#[path = "../../../tests/layer/call.rs"]
#[allow(dead_code)]
mod call;
#[path = "../../../tests/layer/make.rs"]
#[allow(dead_code)]
mod make;
#[path = "../../../tests/layer/records.rs"]
mod records;
#[path = "../../../tests/layer/reference.rs"]
mod reference;
#[path = "../../../tests/layer/sheet.rs"]
#[allow(dead_code)]
mod sheet;
#[path = "../../../tests/layer/stored.rs"]
#[allow(dead_code, unexpected_cfgs)]
mod stored;
#[path = "../../../tests/table.rs"]
#[allow(dead_code, unexpected_cfgs)]
#[rustfmt::skip]
mod table;

use birnenschloss::{Controller, Error, IpduNumber, Layer, Memory, ObjectNumber, Outcome, Sheet};
use birnenschloss::{Started, Table, AREA_SIZE, MEMORY_SIZE};
use call::Call;
use sheet::{OnSheet, What};
use table::{ipdu, join, object, Run};

const CASES: IpduNumber = IpduNumber(0);

const SENT: u32 = 0;
const INSIDE: u32 = 1;
const CLIMATE: u32 = 2;
const LAST: u32 = 3;
const TIMED: u32 = 4;
const MANY: u32 = 5;
const NO_OBJECT: u32 = MANY + 17;

const NOISE: u8 = b'#';

/// The table of tests/c/sheets.h.
fn table_bytes() -> Vec<u8> {
    let ipdus = [ipdu(2, 8, 0, [0; 5]), ipdu(2, 1, 0, [0, 0, 0, 3, 0])];
    let mut objects = vec![
        object(&[1, 255, 255, 0, 32]),         // sent: has no I-PDU
        object(&[2, 255, 0, 0, 32, 0, 0, 16]), // inside: what sent sends
        object(&[2, 0, 255, 0, 32, 0, 0, 3]),  // climate
        object(&[2, 0, 255, 0, 8]),            // last: unqueued
        object(&[2, 1, 255, 0, 8, 0, 0, 2]),   // timed: with a deadline of 3
    ];
    objects.resize(NO_OBJECT as usize, object(&[2, 255, 255, 0, 32, 0, 0, 1]));
    join(&ipdus, &objects)
}

fn numbers(objects: &[u32]) -> Vec<ObjectNumber> {
    objects.iter().copied().map(ObjectNumber).collect()
}

/// A layer and a controller over one table, which are given the same calls and agree.
struct Twins<'a> {
    layer: Layer<'a, 'a>,
    area: [u8; AREA_SIZE],
    controller: Controller<'a, Started>,
    sheet: Sheet,
}

impl<'a> Twins<'a> {
    fn start(table: &'a [u8], memory: &'a mut [u8; MEMORY_SIZE]) -> Twins<'a> {
        let table = Table::check(table).unwrap();
        let mut layer = Layer::new(table, Memory::from(memory));
        layer.start().unwrap();
        let sheet = layer.begin_sheet(&[]).unwrap();
        let controller = Controller::new(table).start();
        Twins { layer, area: [0xA5; AREA_SIZE], controller, sheet }
    }

    #[track_caller]
    fn agree(&self) {
        assert_eq!(self.layer.memory(), self.controller.memory());
    }

    /// A begin by both; a refused one leaves the sheet that there is.
    #[track_caller]
    fn begin(&mut self, objects: &[u32]) -> Result<(), Error> {
        let (objects, before) = (numbers(objects), *self.layer.memory());
        let begun = self.layer.begin_sheet(&objects);
        assert_eq!(self.controller.begin_sheet(&objects), begun);
        assert_eq!(*self.layer.memory(), before);
        self.agree();
        self.sheet = begun?;
        Ok(())
    }

    /// A drain by both: the lines, and behind them the text as it was.
    #[track_caller]
    fn try_drain(&mut self) -> Result<String, Error> {
        let (before, mut other) = (*self.layer.memory(), self.sheet.clone());
        let (mut text, mut other_text) = ([NOISE; Sheet::TEXT_SIZE], [NOISE; Sheet::TEXT_SIZE]);
        let lines = self.controller.drain_sheet(&mut other, &mut other_text).map(String::from);
        let was = self.sheet.clone();
        let drained = self.layer.drain_sheet(&mut self.sheet, &mut text).map(String::from);
        assert_eq!((&drained, &self.sheet, text), (&lines, &other, other_text));
        self.agree();
        let length = drained.as_ref().map_or(0, String::len);
        assert!(text[length..].iter().all(|byte| *byte == NOISE));
        if drained.is_err() {
            assert_eq!((self.layer.memory(), &self.sheet), (&before, &was));
        }
        drained
    }

    #[track_caller]
    fn drain(&mut self, lines: &str) {
        assert_eq!(self.try_drain().as_deref(), Ok(lines));
    }

    /// A call by both, which is done.
    fn make(&mut self, call: &Call) {
        let (layer, controller) = (&mut self.layer, &mut self.controller);
        match *call {
            Call::Start => {
                layer.start().unwrap();
                controller.restart();
            }
            Call::Send { object, value } => {
                let requests = layer.send(&mut self.area, ObjectNumber(object), value).unwrap();
                assert_eq!(controller.send(ObjectNumber(object), value), Ok(requests));
            }
            Call::Receive { object } => {
                let received = layer.receive(ObjectNumber(object)).unwrap();
                assert_eq!(controller.receive(ObjectNumber(object)), Ok(received));
            }
            Call::ClearMarks { object } => {
                layer.clear_marks(ObjectNumber(object)).unwrap();
                controller.clear_marks(ObjectNumber(object)).unwrap();
            }
            Call::Indication { ipdu, good, ref bytes } => {
                let outcome = if good { Outcome::Good } else { Outcome::NotGood };
                layer.indication(IpduNumber(ipdu), outcome, bytes).unwrap();
                controller.indication(IpduNumber(ipdu), outcome, bytes).unwrap();
            }
            Call::Tick => {
                let requests = layer.tick(&mut self.area).unwrap();
                assert_eq!(controller.tick(), requests);
            }
            _ => unreachable!("the tests make no such call"),
        }
        self.agree();
    }

    fn arrive(&mut self, values: &[u32]) {
        for value in values {
            let bytes = [value.to_le_bytes(), [0xEE; 4]].concat();
            self.make(&Call::Indication { ipdu: CASES.0, good: true, bytes });
        }
    }

    fn fail(&mut self) {
        self.make(&Call::Indication { ipdu: CASES.0, good: false, bytes: Vec::new() });
    }

    fn send(&mut self, values: &[u32]) {
        values.iter().for_each(|&value| self.make(&Call::Send { object: SENT, value }));
    }

    fn marks(&self, object: u32) -> u32 {
        self.layer.marks(ObjectNumber(object)).unwrap().sum()
    }
}

fn play(test: impl FnOnce(&mut Twins)) {
    let (table, mut memory) = (table_bytes(), [0xA5; MEMORY_SIZE]);
    test(&mut Twins::start(&table, &mut memory));
}

/// The first value as the greatest and as the least; 0 and 4294967295; a start; no object.
#[test]
fn values() {
    play(|twins| {
        twins.drain("");
        twins.begin(&[CLIMATE, INSIDE]).unwrap();
        twins.drain("2 0 - - - - 0 0\n1 0 - - - - 0 0\n");
        twins.arrive(&[5, 0]);
        twins.drain("2 2 5 0 0 5 0 0\n1 0 - - - - 0 0\n");
        twins.arrive(&[u32::MAX]);
        twins.send(&[7, 9, 8]);
        twins.drain("2 3 5 4294967295 0 4294967295 0 0\n1 3 7 8 7 9 0 0\n");
        twins.send(&[1]);
        twins.make(&Call::Start);
        twins.send(&[3, 1 << 31]);
        twins.drain("2 3 5 4294967295 0 4294967295 0 0\n1 5 7 2147483648 3 2147483648 0 0\n");
        twins.begin(&[INSIDE]).unwrap();
        twins.drain("1 0 - - - - 0 0\n");
    });
}

/// What another receive takes, the sheet does not see.
#[test]
fn overflows() {
    play(|twins| {
        twins.begin(&[CLIMATE]).unwrap();
        twins.arrive(&[10, 20, 30, 40, 50]);
        twins.drain("2 3 10 30 10 30 1 0\n");
        twins.arrive(&[60]);
        twins.drain("2 4 10 60 10 60 1 0\n");
        twins.arrive(&[5, 6, 7, 8]);
        twins.make(&Call::Receive { object: CLIMATE });
        twins.drain("2 6 10 7 6 60 1 0\n");
    });
}

/// By a deadline and by indications that are not good; arrived alone stays.
#[test]
fn errors() {
    play(|twins| {
        twins.begin(&[TIMED, CLIMATE]).unwrap();
        for errors in [0, 0, 1] {
            twins.make(&Call::Tick);
            twins.drain(&format!("4 0 - - - - 0 {errors}\n2 0 - - - - 0 0\n"));
        }
        twins.fail();
        twins.fail();
        twins.drain("4 0 - - - - 0 1\n2 0 - - - - 0 1\n");
        assert_eq!([TIMED, CLIMATE, LAST].map(|object| twins.marks(object)), [0, 0, 4]);
        twins.arrive(&[17]);
        twins.drain("4 0 - - - - 0 1\n2 1 17 17 17 17 0 1\n");
        assert_eq!(twins.marks(CLIMATE), 1);
        twins.fail();
        twins.drain("4 0 - - - - 0 1\n2 1 17 17 17 17 0 2\n");
        assert_eq!(twins.marks(CLIMATE), 0);
        twins.fail();
        twins.make(&Call::ClearMarks { object: CLIMATE });
        twins.drain("4 0 - - - - 0 1\n2 1 17 17 17 17 0 2\n");
    });
}

const WRONG: [u32; 8] = [SENT, LAST, NO_OBJECT, 128, 255, 256 + CLIMATE, 65536 + CLIMATE, u32::MAX];

/// Number 1 at any place, before 10; 10 for one twice and for seventeen.
#[test]
fn wrong_lists() {
    play(|twins| {
        let many: Vec<u32> = (MANY..NO_OBJECT).collect();
        assert_eq!(many.len(), Sheet::MOST_FOLLOWED + 1);
        for place in 0..many.len() {
            for wrong in WRONG {
                let mut list = many.clone();
                list[place] = wrong;
                assert_eq!(twins.begin(&list), Err(Error::Id));
                assert_eq!(twins.begin(&list[..=place]), Err(Error::Id));
            }
        }
        assert_eq!(twins.begin(&many), Err(Error::Followed));
        assert_eq!(twins.begin(&[CLIMATE, INSIDE, CLIMATE]), Err(Error::Followed));
        assert_eq!(twins.begin(&many.repeat(16)), Err(Error::Followed));
        twins.begin(&many[..16]).unwrap();
        assert_eq!(twins.try_drain().unwrap().lines().count(), 16);
    });
}

/// Bytes that something else has written: no sheet, or one that 1 and 10 refuse. Counts that stop.
#[test]
fn sheets_of_bytes() {
    play(|twins| {
        twins.begin(&[CLIMATE, INSIDE]).unwrap();
        let right = *twins.sheet.bytes();
        let with = |at: usize, byte: u8| {
            let mut bytes = right;
            bytes[at] = byte;
            Sheet::from_bytes(bytes)
        };
        for (at, byte) in [(0, 0), (0, 2), (1, 1), (3, 128), (4, 17), (4, 255), (5, 1), (7, 1)] {
            assert_eq!(with(at, byte), None);
        }
        assert!(with(4, 16).is_some() && with(4, 0).is_some());
        twins.sheet = with(519, 9).unwrap();
        twins.drain("2 0 - - - - 0 0\n1 0 - - - - 0 0\n");
        assert_eq!(twins.sheet.bytes()[519], 9); // of no object's row
        twins.arrive(&[2]);
        twins.send(&[1]);
        for (byte, error) in [(SENT, Error::Id), (NO_OBJECT, Error::Id), (2, Error::Followed)] {
            twins.sheet = with(40, byte as u8).unwrap();
            assert_eq!(twins.try_drain(), Err(error));
        }
        let mut bytes = right;
        for at in [40 + 4, 40 + 24, 40 + 28] {
            bytes[at..at + 4].copy_from_slice(&u32::MAX.to_le_bytes());
        }
        twins.sheet = Sheet::from_bytes(bytes).unwrap();
        twins.drain("2 1 2 2 2 2 0 0\n1 4294967295 0 1 0 1 4294967295 4294967295\n");
    });
}

/// 6 and 7 come before 1 and 10; a table with 5 and lengths with 6 do not get past the types. The
/// sheet of another table goes on for whatever has its numbers.
#[test]
fn order_of_refusals() {
    let (table, mut memory) = (table_bytes(), [0xA5; MEMORY_SIZE]);
    let table = Table::check(&table).unwrap();
    let other = join(&[], &[object(&[2, 255, 255, 0, 32, 0, 0, 1]), object(&[2, 255, 255, 0, 32])]);
    let begun = Controller::new(Table::check(&other).unwrap()).start();
    let foreign = begun.begin_sheet(&numbers(&[0])).unwrap();
    let mut layer = Layer::new(table, Memory::from(&mut memory));
    let refused = |layer: &mut Layer, drain: Error| {
        let (before, mut sheet) = (*layer.memory(), foreign.clone());
        let mut text = [NOISE; Sheet::TEXT_SIZE];
        assert_eq!(layer.drain_sheet(&mut sheet, &mut text), Err(drain));
        if drain != Error::Id {
            for list in [&[][..], &[CLIMATE], &[SENT], &[CLIMATE, CLIMATE]] {
                assert_eq!(layer.begin_sheet(&numbers(list)), Err(drain));
            }
        }
        assert_eq!((layer.memory(), sheet), (&before, foreign.clone()));
        assert_eq!(text, [NOISE; Sheet::TEXT_SIZE]);
    };
    refused(&mut layer, Error::Memory);
    layer.start().unwrap();
    refused(&mut layer, Error::Id); // object 0 sends here
    layer.stop().unwrap();
    refused(&mut layer, Error::Stopped);
}

/// Some objects: mostly queued ones, now and then any or none of the table's, often one twice.
fn some_objects(run: &mut Run, reference: &reference::Layer) -> Vec<u32> {
    let count = reference.objects.len();
    let queued: Vec<u32> =
        (0..count).filter(|i| reference.objects[*i].depth > 0).map(|i| i as u32).collect();
    let from = run.below(queued.len() + 1);
    let most = run.pick(&[1, 2, 3, 16, 16, 17]).min(queued.len());
    let mut list: Vec<u32> = queued.iter().cycle().skip(from).take(most).copied().collect();
    match run.below(8) {
        0 => list.push(run.pick(&[0, count as u32, 256, u32::MAX])),
        1 => list.extend(queued.first()),
        _ => {}
    }
    list
}

/// Sheets over random tables, several drains of each: the independent sheet beside them.
#[test]
fn beside_the_independent_sheet() {
    let mut run = Run { random: 0xD1B5_4A32_D192_ED03, counts: [0; 4] };
    let (mut drains, mut values, mut errors, mut refused) = (0, 0, 0, [0; 11]);
    while drains < 3000 {
        let (table, mut memory) = (make::right(&mut run), [0xA5; MEMORY_SIZE]);
        let mut twins = Twins::start(&table, &mut memory);
        let mut reference = reference::Layer::new(&table);
        reference.call(&Call::Start, MEMORY_SIZE, true, &mut [0; AREA_SIZE]);
        for _ in 0..6 {
            let objects = some_objects(&mut run, &reference);
            let mut bytes = *twins.sheet.bytes();
            let on = |what| OnSheet { sheet: 0, lent: Sheet::SIZE, what };
            let begin = on(What::Begin(objects.clone()));
            let number = reference.on_sheet(&begin, MEMORY_SIZE, true, &mut bytes, &mut []).number;
            let theirs = twins.begin(&objects).map_or_else(Error::number, |()| 0);
            assert_eq!((theirs, *twins.sheet.bytes()), (number, bytes), "{objects:?}");
            refused[number as usize] += 1;
            for _ in 0..4 {
                (0..60).for_each(|_| between(&mut run, &mut twins, &mut reference));
                let (mut text, drain) = ([NOISE; Sheet::TEXT_SIZE], What::Drain(0, 0, 1536));
                let drain = on(drain);
                let answer = reference.on_sheet(&drain, MEMORY_SIZE, true, &mut bytes, &mut text);
                let lines = twins.try_drain().unwrap();
                assert_eq!((answer.number, answer.value as usize), (0, lines.len()));
                assert_eq!(lines.as_bytes(), &text[..lines.len()]);
                assert_eq!(*twins.sheet.bytes(), bytes);
                assert_eq!(stored::difference(&reference, twins.layer.memory()), None);
                drains += 1;
            }
            for row in sheet::rows(&bytes).unwrap() {
                values += row.drained;
                errors += row.errors;
            }
        }
    }
    assert!(values > 1000 && errors > 100, "{values} values, {errors} errors");
    assert!([0, 1, 10].iter().all(|number| refused[*number] > 10), "{refused:?}");
}

/// A call by both and the independent layer, if it is one that makes arrivals or takes them away and
/// is not refused.
fn between(run: &mut Run, twins: &mut Twins, reference: &mut reference::Layer) {
    let call = make::call(run, reference, 2);
    let played = match call {
        Call::Start => run.below(10) == 0,
        Call::Receive { .. } => run.below(4) == 0,
        Call::Send { .. } | Call::ClearMarks { .. } | Call::Indication { .. } | Call::Tick => true,
        _ => false,
    };
    let number = |layer: &mut reference::Layer| {
        layer.call(&call, MEMORY_SIZE, true, &mut [0; AREA_SIZE]).number
    };
    if played && !call.refused_by(number(&mut reference.clone())) {
        number(reference);
        twins.make(&call);
    }
}
