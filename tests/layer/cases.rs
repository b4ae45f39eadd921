//! The cases 1 to 11 of document 01 and the example of request W-203, on the library and the
//! reference.

use crate::act::{Act, Lists};
use crate::call::Call;
use crate::library::Library;
use crate::reference::Layer;
use crate::stored;
use crate::table::{ipdu, join, object, set_filter};

/// Both layers over one table.
pub struct Case {
    table: Vec<u8>,
    reference: Layer,
    library: Library,
    memory: [u8; 8192],
    pub area: [u8; 256],
    pub sheets: Vec<Vec<u8>>,
}

impl Case {
    pub fn new(ipdus: &[[u8; 16]], objects: &[[u8; 32]]) -> Case {
        let table = join(ipdus, objects);
        let (reference, library) = (Layer::new(&table), Library::new(&table));
        let (memory, area, sheets) = ([0xA5; 8192], [0xA5; 256], vec![vec![0; 528]; 2]);
        Case { table, reference, library, memory, area, sheets }
    }

    pub fn started_with(ipdus: &[[u8; 16]], objects: &[[u8; 32]]) -> Case {
        let mut case = Case::new(ipdus, objects);
        assert_eq!(case.ask(Call::Start), (0, 0));
        case
    }

    /// Over one I-PDU and one object of it.
    pub fn started(ipdu: [u8; 16], object: [u8; 32]) -> Case {
        Case::started_with(&[ipdu], &[object])
    }

    pub fn ask(&mut self, call: Call) -> (u32, u32) {
        self.play(&Act::Call(call)).0
    }

    /// The answer of both layers, and the status list, sheets and text with the bytes behind them.
    /// They agree in these, in the area and in what is stored.
    pub fn play(&mut self, act: &Act) -> ((u32, u32), Lists) {
        let (before, mut area) = (self.memory, self.area);
        let (mut s, mut t) = (act.lists(&self.sheets), act.lists(&self.sheets));
        let ours = act.by_reference(&mut self.reference, 8192, true, &mut area, &mut s);
        let lent = (&mut self.memory, &mut self.area);
        let theirs = act.by_library(&mut self.library, &self.table, lent.0, lent.1, &mut t);
        assert_eq!((theirs, self.area, &t), (ours, area, &s), "{act:?}");
        if act.refused_by(ours.number) {
            assert_eq!(s, act.lists(&self.sheets), "{act:?}");
        }
        self.sheets = t.sheets;
        if act.refused_by(ours.number) {
            assert_eq!(self.memory, before, "{act:?}");
        } else {
            assert_eq!(stored::difference(&self.reference, &self.memory), None, "{act:?}");
        }
        ((ours.number, ours.value), s)
    }

    pub fn send(&mut self, value: u32) -> (u32, u32) {
        self.ask(Call::Send { object: 0, value })
    }

    pub fn receive(&mut self) -> (u32, u32) {
        self.ask(Call::Receive { object: 0 })
    }

    fn marks(&mut self) -> (u32, u32) {
        self.ask(Call::Marks { object: 0 })
    }

    pub fn indicate(&mut self, bytes: &[u8]) -> (u32, u32) {
        self.ask(Call::Indication { ipdu: 0, good: true, bytes: bytes.to_vec() })
    }

    pub fn confirm(&mut self) -> (u32, u32) {
        self.ask(Call::Confirm { ipdu: 0, good: true })
    }

    fn ticks<const N: usize>(&mut self) -> [(u32, u32); N] {
        [(); N].map(|_| self.ask(Call::Tick))
    }

    /// The area: the frame with zeros to 8 in slot 0, and the other slots as they were.
    pub fn has_frame(&self, frame: [u8; 4]) {
        assert_eq!(self.area[..8], [frame, [0; 4]].concat());
        assert_eq!(self.area[8..], [0xA5; 248]);
    }

    /// The numbers, from 1 on, of the sends that passed: of those that made a request, where
    /// each request is confirmed before the next send.
    pub fn passed(&mut self, values: &[u32]) -> Vec<usize> {
        let mut list = Vec::new();
        for (i, value) in values.iter().enumerate() {
            if self.send(*value) == (0, 1) {
                list.push(i + 1);
                assert_eq!(self.confirm(), (0, 0));
            }
        }
        list
    }
}

const NO_REQUEST: (u32, u32) = (0, 0);
pub const REQUEST: (u32, u32) = (0, 1);

/// I-PDU 0, sent direct, of 4 bytes.
pub fn direct(minimum_delay: u16, deadline: u16) -> [u8; 16] {
    ipdu(1, 4, 0, [0, 0, minimum_delay, deadline, 0])
}

/// An object of I-PDU 0, triggered where it is sent.
pub fn placed(kind: u8, start: u8, size: u8, order: u8) -> [u8; 32] {
    object(&[kind, 0, 255, start, size, order])
}

/// A send object of I-PDU 0: 12 bits from bit 13 on, little.
fn twelve_bits() -> [u8; 32] {
    placed(1, 13, 12, 0)
}

pub fn run() {
    bits();
    room();
    filters();
    one_in_three();
    one_in_three_arrivals();
    queue();
    delay();
    deadline();
    period();
}

/// Cases 1 to 3: the frame that a send asks for, and what is received of it.
fn bits() {
    for (start, order, value, frame) in [
        (13, 0, 2748, [0x00, 0x80, 0x57, 0x01]),
        (18, 1, 2748, [0x00, 0x2A, 0xF0, 0x00]),
        (13, 0, 6844, [0x00, 0x80, 0x57, 0x01]),
    ] {
        let mut sender = Case::started(direct(0, 10), placed(1, start, 12, order));
        assert_eq!(sender.send(value), REQUEST);
        sender.has_frame(frame);
        let mut receiver = Case::started(ipdu(2, 4, 0, [0; 5]), placed(2, start, 12, order));
        assert_eq!(receiver.indicate(&frame), (0, 0));
        assert_eq!(receiver.receive(), (0, 2748));
    }
}

/// Cases 4 and 5: a start over a message that fits, and over one that is a bit too long.
fn room() {
    for (length, start, order, fits) in [(4, 18, 1, 22), (5, 13, 0, 27)] {
        for (size, answer) in [(fits, (0, 0)), (fits + 1, (5, 0))] {
            let ipdu = ipdu(1, length, 0, [0, 0, 0, 10, 0]);
            let mut case = Case::new(&[ipdu], &[placed(1, start, size, order)]);
            assert_eq!(case.ask(Call::Start), answer);
        }
    }
}

/// Cases 6 and 7.
fn filters() {
    let mut differs = twelve_bits();
    set_filter(&mut differs, 5, [0, 0, 0]);
    let mut case = Case::started(direct(0, 10), differs);
    assert_eq!(case.passed(&[0, 5, 5]), [2]);
    case.has_frame([0x00, 0xA0, 0x00, 0x00]);
    assert_eq!(case.passed(&[0]), [1]);
    case.has_frame([0x00, 0x00, 0x00, 0x00]);

    let mut one_in_three = twelve_bits();
    set_filter(&mut one_in_three, 14, [0, 3, 1]);
    let mut case = Case::started(direct(0, 10), one_in_three);
    assert_eq!(case.passed(&[1, 2, 3, 4, 5, 6]), [2, 5]);
    case.has_frame([0x00, 0xA0, 0x00, 0x00]);
}

/// Request W-203, of 300 sends, also with an initialise before each.
fn one_in_three() {
    for initialises in [false, true] {
        let mut counted = twelve_bits();
        set_filter(&mut counted, 14, [0, 3, 0]);
        let mut case = Case::started(direct(0, 10), counted);
        let mut passed = Vec::new();
        for n in 1..=300 {
            if initialises {
                assert_eq!(case.ask(Call::Initialise { object: 0, value: n }), (0, 0));
            }
            if case.passed(&[n]) == [1] {
                passed.push(n);
                case.has_frame([0x00, (n << 5) as u8, (n >> 3) as u8, 0x00]);
            }
        }
        assert_eq!(passed, (1..=300).step_by(3).collect::<Vec<u32>>());
        assert!(passed.contains(&256) && !passed.contains(&257));
    }
}

/// So too of values that arrive: object 0 is received in the I-PDU; what object 1 sends comes to
/// object 2 and to the queue of depth 1 of object 3, which loses every second one that passed.
fn one_in_three_arrivals() {
    let inside = [2, 255, 1, 0, 32, 0, 0];
    let mut objects = [
        placed(2, 0, 8, 0),
        object(&[1, 255, 255, 0, 32]),
        object(&inside),
        object(&[&inside[..], &[1]].concat()),
    ];
    for receiver in [0, 2, 3] {
        set_filter(&mut objects[receiver], 14, [0, 3, 0]);
    }
    let mut case = Case::started_with(&[ipdu(2, 1, 0, [0; 5])], &objects);
    for n in 1..=300 {
        assert_eq!(case.indicate(&[n as u8]), (0, 0));
        assert_eq!(case.ask(Call::Send { object: 1, value: n }), (0, 0));
        for object in [0, 2] {
            let arrived = (n % 3 == 1) as u32;
            assert_eq!(case.ask(Call::Marks { object }), (0, arrived), "arrival {n}");
            assert_eq!(case.ask(Call::ClearMarks { object }), (0, 0));
        }
        let status = match n % 6 {
            1..=3 => 0,
            4 => 3,
            _ => 4,
        };
        assert_eq!(case.ask(Call::Status { object: 3 }), (status, 0), "arrival {n}");
        if status == 3 {
            assert_eq!(case.ask(Call::Receive { object: 3 }), (3, n - 3));
        }
    }
}

/// Case 8.
fn queue() {
    let object = object(&[2, 0, 255, 0, 8, 0, 0, 2]);
    let mut case = Case::started(ipdu(2, 1, 0, [0; 5]), object);
    for value in [7, 8, 9] {
        assert_eq!(case.indicate(&[value]), (0, 0));
    }
    assert_eq!(case.ask(Call::Status { object: 0 }), (3, 0));
    assert_eq!(case.receive(), (3, 7));
    assert_eq!(case.ask(Call::Status { object: 0 }), (0, 0));
    assert_eq!(case.receive(), (0, 8));
    assert_eq!(case.receive(), (4, 0));
    assert_eq!(case.marks(), (0, 1));
}

/// Case 9.
fn delay() {
    let mut case = Case::started(direct(3, 10), twelve_bits());
    assert_eq!(case.send(1), REQUEST);
    case.has_frame([0x00, 0x20, 0x00, 0x00]);
    assert_eq!(case.confirm(), (0, 0));
    assert_eq!(case.send(2), NO_REQUEST);
    assert_eq!(case.ticks(), [NO_REQUEST, NO_REQUEST]);
    case.has_frame([0x00, 0x20, 0x00, 0x00]);
    assert_eq!(case.ticks(), [REQUEST, NO_REQUEST]);
    case.has_frame([0x00, 0x40, 0x00, 0x00]);
    assert_eq!(case.marks(), (0, 2));
}

/// Case 10.
fn deadline() {
    let mut case = Case::started(direct(0, 2), twelve_bits());
    assert_eq!(case.send(1), REQUEST);
    assert_eq!(case.send(2), NO_REQUEST);
    assert_eq!(case.ticks(), [NO_REQUEST]);
    case.has_frame([0x00, 0x20, 0x00, 0x00]);
    assert_eq!(case.marks(), (0, 0));
    assert_eq!(case.ticks(), [REQUEST]);
    case.has_frame([0x00, 0x40, 0x00, 0x00]);
    assert_eq!(case.marks(), (0, 8));
}

/// Case 11, with no confirm: in mode 1 a request may go while one is open.
fn period() {
    let mut case = Case::started(ipdu(1, 4, 1, [4, 2, 0, 20, 0]), twelve_bits());
    assert_eq!(case.ticks(), [NO_REQUEST; 3]);
    assert_eq!(case.ask(Call::StartPeriodic), (0, 0));
    for tick in 1..=13 {
        assert_eq!(case.send(tick), NO_REQUEST);
        let due = [2, 6, 10].contains(&tick);
        assert_eq!(case.ticks(), [if due { REQUEST } else { NO_REQUEST }], "tick {tick}");
        if due {
            case.has_frame([0x00, (tick << 5) as u8, (tick >> 3) as u8, 0x00]);
        }
    }
    assert_eq!(case.marks(), (0, 0));
}
