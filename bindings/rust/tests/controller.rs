//! A controller beside a layer over the same table: each call gives the same, and leaves the same
//! memory and frames. The calls are those of tests/layer, made by its independent layer's state.

#[path = "../../../tests/layer/call.rs"]
#[allow(dead_code)]
mod call;
#[path = "../../../tests/layer/make.rs"]
#[allow(dead_code)]
mod make;
#[path = "../../../tests/layer/records.rs"]
mod records;
#[path = "../../../tests/layer/reference.rs"]
mod reference;
#[path = "../../../tests/table.rs"]
#[allow(dead_code, unexpected_cfgs)]
#[rustfmt::skip]
mod table;

use birnenschloss::{Area, Controller, Error, IpduNumber, Layer, Memory, ObjectNumber, Outcome};
use birnenschloss::{Requests, Started, Table, AREA_SIZE, MEMORY_SIZE};
use call::Call;
use table::Run;

struct Pair<'a> {
    controller: Controller<'a, Started>,
    layer: Layer<'a, 'a>,
    area: Area,
}

impl<'a> Pair<'a> {
    fn new(table: Table<'a>, memory: &'a mut [u8; MEMORY_SIZE]) -> Pair<'a> {
        let controller = Controller::new(table);
        assert_eq!(*controller.memory(), [0xA5; MEMORY_SIZE]);
        assert_eq!(controller.table(), table);
        let mut layer = Layer::new(table, Memory::from(memory));
        layer.start().unwrap();
        Pair { controller: controller.start(), layer, area: [0xA5; AREA_SIZE] }
    }

    /// Both make the call; the pair as it is then, and the number of the refusal or 0.
    fn ask(mut self, call: &Call) -> (Pair<'a>, u32) {
        if let Call::Stop = call {
            return (self.stop_and_start(), 0);
        }
        let Pair { controller: c, layer: l, area } = &mut self;
        let outcome = |good| if good { Outcome::Good } else { Outcome::NotGood };
        let number = ObjectNumber;
        let mut requests = None;
        let refusal = match *call {
            Call::Stop => unreachable!(),
            Call::Start => same(Ok(c.restart()), l.start()),
            Call::Send { object, value } => {
                let sent = l.send(area, number(object), value);
                requests = sent.ok();
                same(c.send(number(object), value), sent)
            }
            Call::Initialise { object, value } => {
                same(c.initialise(number(object), value), l.initialise(number(object), value))
            }
            Call::Receive { object } => same(c.receive(number(object)), l.receive(number(object))),
            Call::Status { object } => same(c.status(number(object)), l.status(number(object))),
            Call::Marks { object } => same(c.marks(number(object)), l.marks(number(object))),
            Call::ClearMarks { object } => {
                same(c.clear_marks(number(object)), l.clear_marks(number(object)))
            }
            Call::StartPeriodic => same(Ok(c.start_periodic()), l.start_periodic()),
            Call::StopPeriodic => same(Ok(c.stop_periodic()), l.stop_periodic()),
            Call::Indication { ipdu, good, ref bytes } => {
                let (ipdu, outcome) = (IpduNumber(ipdu), outcome(good));
                same(c.indication(ipdu, outcome, bytes), l.indication(ipdu, outcome, bytes))
            }
            Call::Confirm { ipdu, good } => {
                let (ipdu, outcome) = (IpduNumber(ipdu), outcome(good));
                same(c.confirm(ipdu, outcome), l.confirm(ipdu, outcome))
            }
            Call::Tick => {
                let requested = l.tick(area);
                requests = requested.ok();
                same(Ok(c.tick()), requested)
            }
        };
        assert_eq!(c.memory(), l.memory(), "{call:?}");
        if let Some(requests) = requests {
            self.frames_agree(requests);
        }
        (self, refusal)
    }

    fn frames_agree(&self, requests: Requests) {
        let table = self.layer.table();
        assert!(self.controller.frames(requests).eq(requests.frames(&self.area, table)));
        assert_eq!(self.controller.frames(requests).count(), requests.iter().count());
        for ipdu in (0..33).map(IpduNumber) {
            let frame = requests.frame(&self.area, table, ipdu);
            assert_eq!(self.controller.frame(requests, ipdu), frame);
        }
    }

    fn stop_and_start(self) -> Pair<'a> {
        let Pair { controller, mut layer, area } = self;
        let stopped = controller.stop();
        layer.stop().unwrap();
        assert_eq!(stopped.memory(), layer.memory());
        assert_eq!(stopped.table(), layer.table());
        layer.start().unwrap();
        let controller = stopped.start();
        assert_eq!(controller.memory(), layer.memory());
        Pair { controller, layer, area }
    }
}

/// The number of the refusal, or 0, of two results that agree.
fn same<T: PartialEq + std::fmt::Debug>(ours: Result<T, Error>, theirs: Result<T, Error>) -> u32 {
    assert_eq!(ours, theirs);
    ours.map_or_else(Error::number, |_| 0)
}

#[test]
fn a_controller_is_a_layer() {
    let mut run = Run { random: 0xD1B5_4A32_D192_ED03, counts: [0; 4] };
    let (mut calls, mut numbers, mut kinds, mut frames) = (0, [false; 9], [false; 13], 0);
    while calls < 10_000 {
        let bytes = make::right(&mut run);
        let mut memory = [0x5A; MEMORY_SIZE];
        let mut pair = Pair::new(Table::check(&bytes).unwrap(), &mut memory);
        let mut reference = reference::Layer::new(&bytes);
        reference.call(&Call::Start, MEMORY_SIZE, true, &mut [0; AREA_SIZE]);
        for _ in 0..200 {
            let call = make::call(&mut run, &reference, 0);
            let answer = reference.call(&call, MEMORY_SIZE, true, &mut [0; AREA_SIZE]);
            frames += if call.takes_area() { answer.value.count_ones() } else { 0 };
            kinds[call.kind()] = true;
            numbers[answer.number as usize] = true;
            let refusal;
            (pair, refusal) = pair.ask(&call);
            // 3 is a result, no refusal.
            assert_eq!(refusal, if answer.number == 3 { 0 } else { answer.number }, "{call:?}");
            calls += 1;
            if let Call::Stop = call {
                reference.call(&Call::Start, MEMORY_SIZE, true, &mut [0; AREA_SIZE]);
            }
        }
    }
    assert_eq!(kinds, [true; 13]);
    // 5, 6 and 7 are kept out by the types.
    assert_eq!(numbers, [true, true, true, true, true, false, false, false, true]);
    assert!(frames > 100, "{frames} frames");
}
