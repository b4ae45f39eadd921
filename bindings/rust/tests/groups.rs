//! The group send, by a layer and by a controller, which must agree: in the situations of
//! tests/c/groups.c, worked out by hand, and in random ones beside single sends of the independent
//! layer of tests/layer.

#[path = "../../../tests/layer/call.rs"]
#[allow(dead_code)]
mod call;
#[path = "../../../tests/layer/make.rs"]
#[allow(dead_code)]
mod make;
#[path = "../../../tests/layer/records.rs"]
mod records;
#[path = "../../../tests/layer/reference.rs"]
mod reference;
#[path = "../../../tests/layer/stored.rs"]
#[allow(dead_code, unexpected_cfgs)]
mod stored;
#[path = "../../../tests/table.rs"]
#[allow(dead_code, unexpected_cfgs)]
#[rustfmt::skip]
mod table;

use birnenschloss::{Area, Controller, Error, IpduNumber, Layer, Memory, ObjectNumber, Outcome};
use birnenschloss::{
    Pair, PairStatus, Requests, Started, Table, AREA_SIZE, MEMORY_SIZE, MOST_PAIRS,
};
use call::Call;
use table::{ipdu, join, object, set_filter, Run};

const DIRECT: u32 = 0;
const LARGE: u32 = 2;
const CYCLIC: u32 = 3;

const READING: u32 = 0;
const LATER: u32 = 1;
const LAST: u32 = 2;
const WIDE: u32 = 3;
const COUNTED: u32 = 4;
const QUEUE: u32 = 5;
const INSIDE: u32 = 6;
const SLOW: u32 = 7;
const NO_OBJECT: u32 = 8;

/// The table of tests/c/groups.h.
fn table_bytes() -> Vec<u8> {
    let ipdus = [
        ipdu(1, 4, 0, [0, 0, 3, 10, 0]), // direct, with minimum delay 3
        ipdu(2, 2, 0, [0; 5]),
        ipdu(1, 8, 0, [0, 0, 0, 10, 0]), // large: direct
        ipdu(1, 2, 1, [4, 2, 0, 10, 0]), // cyclic: periodic, with offset 2
    ];
    let mut objects = [
        object(&[1, 0, 255, 13, 12]),     // reading: triggered, with filter 5
        object(&[1, 0, 255, 0, 8, 0, 1]), // later: pending
        object(&[2, 1, 255, 0, 8]),       // last: received
        object(&[1, 2, 255, 24, 32, 1]),  // wide: triggered
        object(&[1, 2, 255, 32, 8]),      // counted: triggered, with filter 14
        object(&[2, 255, 4, 0, 32, 0, 0, 16]), // queue: of what counted sends
        object(&[2, 255, 0, 0, 32]),      // inside: what reading sends
        object(&[1, 3, 255, 0, 16]),      // slow: triggered
    ];
    set_filter(&mut objects[0], 5, [0, 0, 0]);
    set_filter(&mut objects[2], 0, [90, 0, 0]);
    set_filter(&mut objects[4], 14, [0, 3, 1]);
    join(&ipdus, &objects)
}

/// A layer and a controller over one table, which are given the same calls and agree.
struct Twins<'a> {
    layer: Layer<'a, 'a>,
    area: Area,
    controller: Controller<'a, Started>,
}

type Sends<'a> = &'a [(u32, u32)];

fn pairs(sends: Sends) -> Vec<Pair> {
    sends.iter().map(|&(object, value)| Pair { object: ObjectNumber(object), value }).collect()
}

impl<'a> Twins<'a> {
    fn start(table: &'a [u8], memory: &'a mut [u8; MEMORY_SIZE]) -> Twins<'a> {
        let table = Table::check(table).unwrap();
        let mut layer = Layer::new(table, Memory::from(memory));
        layer.start().unwrap();
        Twins { layer, area: [0xC3; AREA_SIZE], controller: Controller::new(table).start() }
    }

    /// The requests of a group by both, after its statuses as numbers. Of the area only the slots
    /// that are requested may change.
    fn ask(&mut self, sends: Sends) -> (Vec<u32>, Requests) {
        // Each status is first another one in one of the two.
        let mut ours = vec![PairStatus::Id; sends.len()];
        let mut theirs = vec![PairStatus::Sent; sends.len()];
        let before = self.area;
        let pairs = pairs(sends);
        let requests = self.layer.send_group(&mut self.area, &pairs, &mut ours).unwrap();
        assert_eq!(self.controller.send_group(&pairs, &mut theirs), Ok(requests));
        assert_eq!(ours, theirs);
        self.agree(requests);
        for (k, (slot, old)) in self.area.chunks(8).zip(before.chunks(8)).enumerate() {
            assert!(requests.contains(IpduNumber(k as u32)) || slot == old, "slot {k}");
        }
        (ours.into_iter().map(PairStatus::number).collect(), requests)
    }

    fn agree(&self, requests: Requests) {
        let frames = requests.frames(&self.area, self.layer.table());
        assert!(self.controller.frames(requests).eq(frames));
        assert_eq!(self.controller.memory(), self.layer.memory());
    }

    /// A group with these statuses and these I-PDUs requested.
    #[track_caller]
    fn group(&mut self, sends: Sends, statuses: &[u32], requested: &[u32]) {
        let (numbers, requests) = self.ask(sends);
        assert_eq!(numbers, statuses);
        assert!(requests.iter().map(|k| k.0).eq(requested.iter().copied()), "{requests:?}");
    }

    /// A group that both refuse with number 2, and that leaves all as it was.
    #[track_caller]
    fn refuse(&mut self, pairs: &[Pair], statuses: usize) {
        let (memory, area) = (*self.layer.memory(), self.area);
        for filling in [PairStatus::Sent, PairStatus::Id] {
            let mut lent = vec![filling; statuses];
            let ours = self.layer.send_group(&mut self.area, pairs, &mut lent);
            assert_eq!(ours, Err(Error::Length), "{} pairs, {statuses} statuses", pairs.len());
            assert_eq!(self.controller.send_group(pairs, &mut lent), ours);
            assert!(lent.iter().all(|status| *status == filling));
        }
        assert_eq!((self.layer.memory(), self.area), (&memory, area));
        assert_eq!(self.controller.memory(), &memory);
    }

    #[track_caller]
    fn frame(&self, ipdu: u32, bytes: &[u8]) {
        let at = 8 * ipdu as usize;
        assert_eq!(&self.area[at..at + bytes.len()], bytes);
        assert!(self.area[at + bytes.len()..at + 8].iter().all(|byte| *byte == 0));
    }

    #[track_caller]
    fn tick(&mut self, requested: &[u32]) {
        let requests = self.layer.tick(&mut self.area).unwrap();
        assert_eq!(self.controller.tick(), requests);
        self.agree(requests);
        assert!(requests.iter().map(|k| k.0).eq(requested.iter().copied()), "{requests:?}");
    }

    fn confirm(&mut self, ipdu: u32, outcome: Outcome) {
        self.layer.confirm(IpduNumber(ipdu), outcome).unwrap();
        self.controller.confirm(IpduNumber(ipdu), outcome).unwrap();
    }

    /// The values that receives of an object give, from both, until its queue is empty.
    #[track_caller]
    fn receive(&mut self, object: u32, values: impl IntoIterator<Item = u32>) {
        for value in values {
            let received = self.layer.receive(ObjectNumber(object));
            assert_eq!(received.map(|r| r.value), Ok(value));
            assert_eq!(self.controller.receive(ObjectNumber(object)), received);
        }
        if object == QUEUE {
            assert_eq!(self.layer.receive(ObjectNumber(object)), Err(Error::NoMessage));
        }
    }
}

fn play(test: impl FnOnce(&mut Twins)) {
    let (table, mut memory) = (table_bytes(), [0xA5; MEMORY_SIZE]);
    test(&mut Twins::start(&table, &mut memory));
}

/// 0, 1 and 16 pairs. Of 16 in a row every third passes; the receiver inside gets them all.
#[test]
fn sizes() {
    play(|twins| {
        let memory = *twins.layer.memory();
        twins.group(&[], &[], &[]);
        assert_eq!(*twins.layer.memory(), memory);
        twins.group(&[(READING, 2748)], &[0], &[DIRECT]);
        twins.frame(DIRECT, &[0x00, 0x80, 0x57, 0x01]);
        let sixteen: Vec<_> = (100..116).map(|value| (COUNTED, value)).collect();
        twins.group(&sixteen, &[0; MOST_PAIRS], &[LARGE]);
        twins.frame(LARGE, &[0, 0, 0, 0, 101]);
        twins.receive(QUEUE, 100..116);
        twins.confirm(LARGE, Outcome::Good);
        twins.tick(&[LARGE]);
        twins.frame(LARGE, &[0, 0, 0, 0, 113]);
        twins.confirm(LARGE, Outcome::Good);
        twins.group(&[(COUNTED, 9)], &[0], &[LARGE]);
        twins.frame(LARGE, &[0, 0, 0, 0, 9]);
    });
}

/// The second value of an object is judged by the first.
#[test]
fn twice() {
    play(|twins| {
        twins.group(&[(READING, 7), (READING, 7)], &[0, 0], &[DIRECT]);
        twins.frame(DIRECT, &[0x00, 0xE0, 0x00, 0x00]);
        twins.confirm(DIRECT, Outcome::NotGood);
        twins.tick(&[]);
    });
    play(|twins| {
        twins.group(&[(READING, 7), (READING, 0)], &[0, 0], &[DIRECT]);
        twins.frame(DIRECT, &[0x00, 0xE0, 0x00, 0x00]);
        twins.receive(INSIDE, [0]);
        twins.confirm(DIRECT, Outcome::NotGood);
        twins.tick(&[DIRECT]);
        twins.frame(DIRECT, &[0; 4]);
    });
}

/// A pending value behind a request is in the next frame, one before it in this.
#[test]
fn pending() {
    play(|twins| {
        let behind = [(READING, 2748), (LATER, 0x5A), (READING, 2749)];
        twins.group(&behind, &[0; 3], &[DIRECT]);
        twins.frame(DIRECT, &[0x00, 0x80, 0x57, 0x01]);
        twins.tick(&[]);
        twins.confirm(DIRECT, Outcome::NotGood);
        twins.tick(&[DIRECT]);
        twins.frame(DIRECT, &[0x5A, 0xA0, 0x57, 0x01]);
    });
    play(|twins| {
        twins.group(&[(LATER, 0x15A)], &[0], &[]);
        twins.tick(&[]);
        twins.group(&[(LATER, 0x15B), (READING, 2748)], &[0, 0], &[DIRECT]);
        twins.frame(DIRECT, &[0x5B, 0x80, 0x57, 0x01]);
    });
}

#[test]
fn one_in_three() {
    play(|twins| {
        for _ in 0..2 {
            twins.group(&[(COUNTED, 1), (COUNTED, 2), (COUNTED, 3)], &[0; 3], &[LARGE]);
            twins.frame(LARGE, &[0, 0, 0, 0, 2]);
            twins.receive(QUEUE, 1..=3);
            twins.confirm(LARGE, Outcome::Good);
            twins.tick(&[]);
        }
    });
}

#[test]
fn wrong_objects() {
    play(|twins| {
        let wrong =
            [LAST, QUEUE, INSIDE, NO_OBJECT, 128, 255, 256, 65536 + WIDE, 1 << 31, u32::MAX];
        let memory = *twins.layer.memory();
        twins.group(&wrong.map(|object| (object, 1)), &[1; 10], &[]);
        assert_eq!(*twins.layer.memory(), memory);
        let between = [(READING, 2748), (LAST, 1), (256, 2), (WIDE, 0x11223344), (SLOW, 0xBEEF)];
        twins.group(&between, &[0, 1, 1, 0, 0], &[DIRECT, LARGE]);
        twins.frame(DIRECT, &[0x00, 0x80, 0x57, 0x01]);
        twins.frame(LARGE, &[0x11, 0x22, 0x33, 0x44]);
        twins.receive(LAST, [90]);
        twins.receive(INSIDE, [2748]);
        twins.receive(QUEUE, []);
        twins.layer.start_periodic().unwrap();
        twins.controller.start_periodic();
        twins.tick(&[]);
        twins.tick(&[CYCLIC]);
        twins.frame(CYCLIC, &[0xEF, 0xBE]);
    });
}

#[test]
fn postponed() {
    play(|twins| {
        let first = [(READING, 1), (READING, 2), (WIDE, 3), (WIDE, 4)];
        twins.group(&first, &[0; 4], &[DIRECT, LARGE]);
        twins.frame(DIRECT, &[0x00, 0x20, 0x00, 0x00]);
        twins.frame(LARGE, &[0, 0, 0, 3]);
        twins.confirm(DIRECT, Outcome::Good);
        twins.confirm(LARGE, Outcome::Good);
        twins.group(&[(READING, 2748), (WIDE, 5)], &[0, 0], &[LARGE]);
        twins.frame(LARGE, &[0, 0, 0, 5]);
        twins.tick(&[]);
        twins.tick(&[]);
        twins.tick(&[DIRECT]); // the minimum delay is 3
        twins.frame(DIRECT, &[0x00, 0x80, 0x57, 0x01]);
    });
}

const COUNTS: [usize; 11] = [0, 1, 2, 15, 16, 17, 18, 33, 256, 257, 65536 + 16];

/// Number 2: more than 16 pairs, or not a status for each.
#[test]
fn lengths() {
    play(|twins| {
        let many = pairs(&[(READING, 5)].repeat(65536 + 16));
        for count in COUNTS {
            for statuses in COUNTS {
                if count > MOST_PAIRS || statuses != count {
                    twins.refuse(&many[..count], statuses);
                }
            }
        }
    });
}

/// 6 and 7 come before 2; a table with 5 and lengths with 6 do not get past the types.
#[test]
fn order_of_refusals() {
    let (table, mut memory) = (table_bytes(), [0xA5; MEMORY_SIZE]);
    let mut layer = Layer::new(Table::check(&table).unwrap(), Memory::from(&mut memory));
    let many = pairs(&[(READING, 5), (NO_OBJECT, 6)].repeat(9));
    let refused = |layer: &mut Layer, error: Error| {
        let (before, mut area) = (*layer.memory(), [0xC3; AREA_SIZE]);
        for (count, statuses) in [(3, 3), (0, 0), (3, 2), (3, 4), (17, 17), (16, 18), (18, 16)] {
            let mut lent: Vec<_> = [PairStatus::Sent, PairStatus::Id].repeat(9);
            let answer = layer.send_group(&mut area, &many[..count], &mut lent[..statuses]);
            assert_eq!(answer, Err(error));
            assert_eq!(lent, [PairStatus::Sent, PairStatus::Id].repeat(9));
        }
        assert_eq!((layer.memory(), area), (&before, [0xC3; AREA_SIZE]));
    };
    refused(&mut layer, Error::Memory);
    layer.start().unwrap();
    layer.stop().unwrap();
    refused(&mut layer, Error::Stopped);
}

fn send_of(run: &mut Run, reference: &reference::Layer) -> (u32, u32) {
    loop {
        if let Call::Send { object, value } = make::call(run, reference, 1) {
            return (object, value);
        }
    }
}

/// Groups over random tables: the independent layer makes the sends one by one.
#[test]
fn beside_single_sends() {
    let mut run = Run { random: 0xA076_1D64_78BD_642F, counts: [0; 4] };
    let (mut groups, mut joined, mut wrong) = (0, 0, 0);
    while groups < 6000 {
        let (table, mut memory) = (make::right(&mut run), [0xA5; MEMORY_SIZE]);
        let mut twins = Twins::start(&table, &mut memory);
        let mut reference = reference::Layer::new(&table);
        reference.call(&Call::Start, MEMORY_SIZE, true, &mut [0; AREA_SIZE]);
        for _ in 0..10 {
            let sends: Vec<_> = (0..run.below(17)).map(|_| send_of(&mut run, &reference)).collect();
            let (mut area, mut word, mut numbers) = (twins.area, 0, Vec::new());
            for &(object, value) in &sends {
                let call = Call::Send { object, value };
                let answer = reference.call(&call, MEMORY_SIZE, true, &mut area);
                joined += u32::from(word != 0 && answer.value & !word != 0);
                wrong += answer.number;
                word |= answer.value;
                numbers.push(answer.number);
            }
            let (statuses, requests) = twins.ask(&sends);
            assert_eq!((statuses, requests.word()), (numbers, word), "{sends:?}");
            assert_eq!(twins.area, area, "{sends:?}");
            assert_eq!(stored::difference(&reference, twins.layer.memory()), None, "{sends:?}");
            between(&mut run, &mut twins, &mut reference);
            groups += 1;
        }
    }
    assert!(joined > 100 && wrong > 100, "{joined} joined words, {wrong} wrong objects");
}

/// Some confirms and ticks, so that requests close and wait.
fn between(run: &mut Run, twins: &mut Twins, reference: &mut reference::Layer) {
    for _ in 0..16 {
        let call = make::call(run, reference, 1);
        let mut area = twins.area;
        match call {
            Call::Confirm { ipdu, good } => {
                if reference.call(&call, MEMORY_SIZE, true, &mut area).number == 0 {
                    twins.confirm(ipdu, if good { Outcome::Good } else { Outcome::NotGood });
                }
            }
            Call::Tick => {
                let word = reference.call(&call, MEMORY_SIZE, true, &mut area).value;
                twins.tick(&(0..32).filter(|k| word >> k & 1 == 1).collect::<Vec<_>>());
            }
            _ => {}
        }
    }
}
