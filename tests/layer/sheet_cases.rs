//! Journeys with sheets worked out by hand, on the library and the reference.

use crate::act::Act;
use crate::call::Call;
use crate::cases::Case;
use crate::sheet::{OnSheet, What, SHEET, TEXT};
use crate::table::{ipdu, object};

/// What stands in a text before.
const NOISE: u8 = 0xA5;
const MOST_VALUE: u32 = u32::MAX;

impl Case {
    fn begin_lent(&mut self, lent: usize, objects: &[u32]) -> u32 {
        let what = What::Begin(objects.to_vec());
        let ((number, value), _) = self.play(&Act::Sheet(OnSheet { sheet: 0, lent, what }));
        assert_eq!(value, 0);
        number
    }

    fn begin(&mut self, objects: &[u32]) -> u32 {
        self.begin_lent(SHEET, objects)
    }

    fn drain_lent(&mut self, lent: usize, text: usize) -> (u32, Vec<u8>) {
        let what = What::Drain(NOISE, text + 8, text);
        let ((number, value), lists) = self.play(&Act::Sheet(OnSheet { sheet: 0, lent, what }));
        let (lines, behind) = lists.text.split_at(value as usize);
        assert!(behind.iter().all(|byte| *byte == NOISE));
        (number, lines.to_vec())
    }

    /// A drain that is done: its lines.
    fn drain(&mut self) -> String {
        let (number, lines) = self.drain_lent(SHEET, TEXT);
        assert_eq!(number, 0);
        String::from_utf8(lines).expect("digits, blanks and -")
    }

    fn drain_refused(&mut self, lent: usize, text: usize, number: u32) {
        assert_eq!(self.drain_lent(lent, text), (number, Vec::new()));
    }

    fn arrive(&mut self, values: &[u8]) {
        for value in values {
            let bytes = vec![*value];
            let call = Call::Indication { ipdu: 0, good: true, bytes };
            assert_eq!(self.ask(call), (0, 0));
        }
    }

    fn fails(&mut self) {
        let call = Call::Indication { ipdu: 0, good: false, bytes: Vec::new() };
        assert_eq!(self.ask(call), (0, 0));
    }

    fn send_inside(&mut self, values: &[u32]) {
        for value in values {
            assert_eq!(self.ask(Call::Send { object: 2, value: *value }), (0, 0));
        }
    }

    fn marks_of(&mut self, object: u32) -> u32 {
        self.ask(Call::Marks { object }).1
    }

    /// Writes a number of the sheet.
    fn write(&mut self, at: usize, number: u32) {
        self.sheets[0][at..at + 4].copy_from_slice(&number.to_le_bytes());
    }
}

/// I-PDU 0 is received, of a byte, with a deadline of 3: in it object 0 with a queue of two, and
/// object 1 with none. Object 2 sends to object 3, a queue of sixteen, and to object 4, of one.
fn cases() -> Case {
    let objects = [
        object(&[2, 0, 255, 0, 8, 0, 0, 2]),
        object(&[2, 0, 255, 0, 8]),
        object(&[1, 255, 255, 0, 32]),
        object(&[2, 255, 2, 0, 32, 0, 0, 16]),
        object(&[2, 255, 2, 0, 32, 0, 0, 1]),
    ];
    Case::started_with(&[ipdu(2, 1, 0, [0, 0, 0, 3, 0])], &objects)
}

pub fn run() {
    journey();
    errors();
    ends();
    refusals();
    signed();
    longest();
}

/// The order given, values at both ends, an overflow, several drains, a start, a second begin.
fn journey() {
    let mut case = cases();
    assert_eq!(case.begin(&[3, 0]), 0);
    assert_eq!(case.drain(), "3 0 - - - - 0 0\n0 0 - - - - 0 0\n");
    case.arrive(&[7, 8, 9]);
    case.send_inside(&[MOST_VALUE, 0, 5]);
    assert_eq!(case.drain(), "3 3 4294967295 5 0 4294967295 0 0\n0 2 7 8 7 8 1 0\n");
    assert_eq!(case.drain(), "3 3 4294967295 5 0 4294967295 0 0\n0 2 7 8 7 8 1 0\n");
    assert_eq!([0, 1, 3, 4].map(|object| case.marks_of(object)), [1, 1, 1, 1]);
    case.arrive(&[10, 6]);
    assert_eq!(case.drain(), "3 3 4294967295 5 0 4294967295 0 0\n0 4 7 6 6 10 1 0\n");
    case.arrive(&[100]);
    assert_eq!(case.ask(Call::Start), (0, 0));
    case.arrive(&[1]);
    assert_eq!(case.ask(Call::Receive { object: 0 }), (0, 1));
    case.arrive(&[200]);
    assert_eq!(case.drain(), "3 3 4294967295 5 0 4294967295 0 0\n0 5 7 200 6 200 1 0\n");
    assert_eq!(case.ask(Call::Receive { object: 4 }), (4, 0));
    assert_eq!(case.begin(&[4]), 0);
    assert_eq!(case.drain(), "4 0 - - - - 0 0\n");
    assert_eq!(case.begin(&[]), 0);
    case.send_inside(&[1]);
    assert_eq!(case.drain(), "");
    assert_eq!(case.ask(Call::Receive { object: 4 }), (0, 1));
}

/// Several errors before a drain count once, and clear all marks; another object's stay.
fn errors() {
    let mut case = cases();
    assert_eq!(case.begin(&[0]), 0);
    case.fails();
    case.arrive(&[50]);
    case.fails();
    assert_eq!(case.drain(), "0 1 50 50 50 50 0 1\n");
    assert_eq!([0, 1].map(|object| case.marks_of(object)), [0, 5]);
    assert_eq!(case.drain(), "0 1 50 50 50 50 0 1\n");
    for _ in 0..3 {
        case.ask(Call::Tick);
    }
    assert_eq!(case.drain(), "0 1 50 50 50 50 0 2\n");
    assert_eq!(case.marks_of(0), 0);
    case.fails();
    assert_eq!(case.ask(Call::ClearMarks { object: 0 }), (0, 0));
    case.arrive(&[40]);
    assert_eq!(case.drain(), "0 2 50 40 40 50 0 2\n");
    assert_eq!(case.marks_of(0), 1);
}

/// Counts stop, and the values go on.
fn ends() {
    let mut case = cases();
    assert_eq!(case.begin(&[4, 0]), 0);
    for at in [4, 24, 28] {
        case.write(8 + 32 + at, MOST_VALUE - 1);
    }
    case.write(8 + 32 + 16, 9);
    for (values, line) in [
        ([10, 11, 12], "0 4294967295 0 11 9 11 4294967295 4294967295\n"),
        ([20, 1, 12], "0 4294967295 0 1 1 20 4294967295 4294967295\n"),
    ] {
        case.arrive(&values);
        case.fails();
        assert_eq!(case.drain(), format!("4 0 - - - - 0 0\n{line}"));
        assert_eq!(case.marks_of(0), 0);
    }
}

/// 5 is the random test's; 6, 7, 1 and 10 in their order.
fn refusals() {
    let mut case = cases();
    let many: Vec<u32> = [0, 3].repeat(9);
    case.drain_refused(SHEET, TEXT, 6);
    assert_eq!(case.begin_lent(SHEET - 1, &[0]), 6);
    for wrong in [1, 2, 5, 255, 256, 65536 + 3, MOST_VALUE] {
        assert_eq!(case.begin(&[wrong]), 1);
        assert_eq!(case.begin(&[0, wrong, wrong]), 1);
        assert_eq!(case.begin(&[&many[..], &[wrong]].concat()), 1);
    }
    for twice in [&[0, 0][..], &[0, 3, 0], &[4, 0, 3, 3], &many, &many[..17]] {
        assert_eq!(case.begin(twice), 10);
    }
    assert_eq!(case.begin(&[3, 4, 0]), 0);
    case.send_inside(&[1]);
    case.drain_refused(SHEET - 1, TEXT, 6);
    case.drain_refused(SHEET, TEXT - 1, 6);
    for (at, right, wrong, number) in [(0, 1, 0, 6), (4, 3, 17, 6), (40, 4, 1, 1), (40, 4, 3, 10)] {
        case.write(at, wrong);
        case.drain_refused(SHEET, TEXT, number);
        case.drain_refused(SHEET, TEXT - 1, 6);
        case.write(at, right);
    }
    assert_eq!(case.drain(), "3 1 1 1 1 1 0 0\n4 1 1 1 1 1 0 0\n0 0 - - - - 0 0\n");
    assert_eq!(case.ask(Call::Stop), (0, 0));
    case.drain_refused(SHEET, TEXT, 7);
    case.drain_refused(SHEET, TEXT - 1, 6);
    assert_eq!(case.begin(&[0, 0]), 7);
    assert_eq!(case.begin(&[1]), 7);
    assert_eq!(case.begin_lent(SHEET - 1, &[0]), 6);
}

/// The same values in the queue of a signed object, 1, and of one that is not, 2; in object 3 those
/// of a byte that arrives.
fn signed() {
    let queue = [2, 255, 0, 0, 32, 2, 0, 8];
    let objects = [
        object(&[1, 255, 255, 0, 32]),
        object(&queue),
        object(&[&queue[..5], &[0, 0, 8]].concat()),
        object(&[2, 0, 255, 0, 8, 3, 0, 8]),
    ];
    let mut case = Case::started_with(&[ipdu(2, 1, 0, [0; 5])], &objects);
    assert_eq!(case.begin(&[2, 3, 1]), 0);
    let send = |case: &mut Case, values: &[i32]| {
        for value in values {
            assert_eq!(case.ask(Call::Send { object: 0, value: *value as u32 }), (0, 0));
        }
    };
    send(&mut case, &[-5, -7]);
    case.arrive(&[0x80, 0xFF]);
    let plain = "2 2 4294967291 4294967289 4294967289 4294967291 0 0\n";
    let both = "3 2 -128 -1 -128 -1 0 0\n1 2 -5 -7 -7 -5 0 0\n";
    assert_eq!(case.drain(), format!("{plain}{both}"));
    send(&mut case, &[3, i32::MAX, i32::MIN, 0]);
    case.arrive(&[0x7F, 0x00]);
    let plain = "2 6 4294967291 0 0 4294967291 0 0\n";
    let both = "3 4 -128 0 -128 127 0 0\n1 6 -5 0 -2147483648 2147483647 0 0\n";
    assert_eq!(case.drain(), format!("{plain}{both}"));
    assert_eq!(case.drain(), format!("{plain}{both}"));
}

/// Sixteen lines of numbers with three and ten digits, 16 · 81 bytes; with a minus in front of four
/// of them 16 · 85.
fn longest() {
    for (order, value, printed) in [(0, MOST_VALUE, "4294967295"), (2, 1 << 31, "-2147483648")] {
        let queue = object(&[2, 255, 255, 0, 32, order, 0, 4]);
        let mut case = Case::started_with(&[], &[queue; 128]);
        let objects: Vec<u32> = (112..128).rev().collect();
        assert_eq!(case.begin(&objects), 0);
        for row in (8..SHEET).step_by(32) {
            [4, 24, 28].into_iter().for_each(|at| case.write(row + at, MOST_VALUE));
            [8, 12, 16, 20].into_iter().for_each(|at| case.write(row + at, value));
        }
        let lines = case.drain();
        let count = "4294967295";
        assert_eq!(lines.len(), 16 * (81 + 2 * order as usize));
        for (line, object) in lines.lines().zip(objects) {
            let values = [printed; 4].join(" ");
            assert_eq!(line, format!("{object} {count} {values} {count} {count}"));
        }
    }
}
