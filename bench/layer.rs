// The calls that are measured (bench/beside.sh, bench/size.sh), over two tables. `case12` is
// document 01's case 12. `large` has 32 I-PDUs and 128 objects, in both byte orders, with mixed filters:
//   I-PDUs 0..15 are sent, in all three modes, eight of them with a period, with objects 4k..4k+3 each, the third of them
//   pending;
//   I-PDU 16 has the unqueued objects 64..71, I-PDU 17 the objects 72..79 with queues of depth 4, all eight filters let
//   `FRAME` pass, and I-PDUs 18..31 have objects 80..121, three each, every third with a queue of depth 8;
//   objects 122..127 have the sending objects 12, 16, 17, 21, 33 and 63.
use std::ops::Range;

#[repr(C)]
#[derive(Clone, Copy)]
pub struct Answer {
    pub number: u32,
    pub value: u32,
}

extern "C" {
    pub fn birnenschloss_start(t: *const u8, tl: usize, m: *mut u8, ml: usize) -> Answer;
    pub fn birnenschloss_stop(t: *const u8, tl: usize, m: *mut u8, ml: usize) -> Answer;
    pub fn birnenschloss_send(
        t: *const u8, tl: usize, m: *mut u8, ml: usize, area: *mut u8, al: usize, object: u32, value: u32,
    ) -> Answer;
    pub fn birnenschloss_initialise(t: *const u8, tl: usize, m: *mut u8, ml: usize, object: u32, value: u32) -> Answer;
    pub fn birnenschloss_receive(t: *const u8, tl: usize, m: *mut u8, ml: usize, object: u32) -> Answer;
    pub fn birnenschloss_status(t: *const u8, tl: usize, m: *const u8, ml: usize, object: u32) -> Answer;
    pub fn birnenschloss_marks(t: *const u8, tl: usize, m: *const u8, ml: usize, object: u32) -> Answer;
    pub fn birnenschloss_clear_marks(t: *const u8, tl: usize, m: *mut u8, ml: usize, object: u32) -> Answer;
    pub fn birnenschloss_start_periodic(t: *const u8, tl: usize, m: *mut u8, ml: usize) -> Answer;
    pub fn birnenschloss_stop_periodic(t: *const u8, tl: usize, m: *mut u8, ml: usize) -> Answer;
    pub fn birnenschloss_indication(
        t: *const u8, tl: usize, m: *mut u8, ml: usize, ipdu: u32, good: u32, bytes: *const u8, bl: usize,
    ) -> Answer;
    pub fn birnenschloss_confirm(t: *const u8, tl: usize, m: *mut u8, ml: usize, ipdu: u32, good: u32) -> Answer;
    pub fn birnenschloss_tick(t: *const u8, tl: usize, m: *mut u8, ml: usize, area: *mut u8, al: usize) -> Answer;
    pub fn birnenschloss_send_group(
        t: *const u8, tl: usize, m: *mut u8, ml: usize, area: *mut u8, al: usize, pairs: *const u8, pl: usize,
        statuses: *mut u8, sl: usize,
    ) -> Answer;
    pub fn birnenschloss_send_records(
        t: *const u8, tl: usize, m: *mut u8, ml: usize, area: *mut u8, al: usize, pairs: *const [u32; 2], pl: usize,
        statuses: *mut u8, sl: usize,
    ) -> Answer;
    pub fn birnenschloss_sheet_begin(
        t: *const u8, tl: usize, m: *const u8, ml: usize, sheet: *mut u8, sl: usize, objects: *const u32, ol: usize,
    ) -> Answer;
    pub fn birnenschloss_sheet_drain(
        t: *const u8, tl: usize, m: *mut u8, ml: usize, sheet: *mut u8, sl: usize, text: *mut u8, xl: usize,
    ) -> Answer;
}

/// The pairs of a group: in `case12` object 0 again and again, in `large` objects 0, 1, 2 and so on; each value differs.
const ONE_OBJECT: u32 = 0;
const EACH_OBJECT: u32 = 1;

pub fn pairs(step: u32) -> [[u32; 2]; 16] {
    std::array::from_fn(|j| [step * j as u32, 5 + j as u32])
}

pub fn pair_bytes(step: u32) -> Vec<u8> {
    pairs(step).iter().flat_map(|[object, value]| [&[*object as u8][..], &value.to_le_bytes()].concat()).collect()
}

pub const FRAME: [u8; 8] = [0x5A, 0xC3, 0x7E, 0x91, 0x3C, 0xE7, 0xA5, 0x69];

/// Frames of one byte each: any twelve bits are greater from frame to frame, so that every filter lets them pass.
pub static RISING: [[u8; 8]; 3] = [[0x11; 8], [0x33; 8], [0x77; 8]];

/// What sheets follow in `large`: the eight queues of I-PDU 17, one each of I-PDUs 18 to 25, and one of 32 bits.
pub static FOLLOWED: [u32; 17] = [72, 73, 74, 75, 76, 77, 78, 79, 81, 84, 87, 90, 93, 96, 99, 102, 125];
pub const SHEET: usize = 520;
pub const TEXT: usize = 1536;

#[derive(Clone, Copy)]
pub enum Call {
    Start,
    StartShort,
    Stop,
    Send(u32, u32),
    Initialise(u32, u32),
    Receive(u32),
    Status(u32),
    Marks(u32),
    ClearMarks(u32),
    StartPeriodic,
    StopPeriodic,
    Indication(u32, u32),
    /// A good indication, with one of the rising frames.
    Rising(u32, usize),
    Confirm(u32, u32),
    Tick,
    Group(usize, u32),
    Records(usize, u32),
    /// Of a sheet: from which of the followed objects on, and how many.
    Begin(usize, usize),
    Drain,
}
use Call::*;

/// What is lent beside the table.
#[derive(Clone, PartialEq)]
pub struct Lent {
    pub memory: [u8; 8192],
    pub area: [u8; 256],
    pub statuses: [u8; 16],
    pub sheet: [u8; SHEET],
    pub text: [u8; TEXT],
}

pub fn before_all() -> Lent {
    Lent { memory: [0xA5; 8192], area: [0; 256], statuses: [0xFF; 16], sheet: [0; SHEET], text: [0xA5; TEXT] }
}

pub fn make(call: Call, t: &[u8], lent: &mut Lent) -> Answer {
    let Lent { memory: m, area, statuses, sheet, text } = lent;
    let (tp, tl, mp, ml) = (t.as_ptr(), t.len(), m.as_mut_ptr(), m.len());
    let (sheet, text) = (sheet.as_mut_ptr(), text.as_mut_ptr());
    unsafe {
        match call {
            Start => birnenschloss_start(tp, tl, mp, ml),
            StartShort => birnenschloss_start(tp, tl, mp, ml - 1),
            Stop => birnenschloss_stop(tp, tl, mp, ml),
            Send(i, v) => birnenschloss_send(tp, tl, mp, ml, area.as_mut_ptr(), area.len(), i, v),
            Initialise(i, v) => birnenschloss_initialise(tp, tl, mp, ml, i, v),
            Receive(i) => birnenschloss_receive(tp, tl, mp, ml, i),
            Status(i) => birnenschloss_status(tp, tl, mp, ml, i),
            Marks(i) => birnenschloss_marks(tp, tl, mp, ml, i),
            ClearMarks(i) => birnenschloss_clear_marks(tp, tl, mp, ml, i),
            StartPeriodic => birnenschloss_start_periodic(tp, tl, mp, ml),
            StopPeriodic => birnenschloss_stop_periodic(tp, tl, mp, ml),
            Indication(k, good) => birnenschloss_indication(tp, tl, mp, ml, k, good, FRAME.as_ptr(), FRAME.len()),
            Rising(k, n) => birnenschloss_indication(tp, tl, mp, ml, k, 1, RISING[n].as_ptr(), RISING[n].len()),
            Confirm(k, good) => birnenschloss_confirm(tp, tl, mp, ml, k, good),
            Tick => birnenschloss_tick(tp, tl, mp, ml, area.as_mut_ptr(), area.len()),
            Group(n, step) => {
                let pairs = pair_bytes(step);
                let (pp, sp) = (pairs.as_ptr(), statuses.as_mut_ptr());
                birnenschloss_send_group(tp, tl, mp, ml, area.as_mut_ptr(), area.len(), pp, 5 * n, sp, n)
            }
            Records(n, step) => {
                let pairs = pairs(step);
                let (pp, sp) = (pairs.as_ptr(), statuses.as_mut_ptr());
                birnenschloss_send_records(tp, tl, mp, ml, area.as_mut_ptr(), area.len(), pp, n, sp, n)
            }
            Begin(from, n) => birnenschloss_sheet_begin(tp, tl, mp, ml, sheet, SHEET, FOLLOWED[from..].as_ptr(), n),
            Drain => birnenschloss_sheet_drain(tp, tl, mp, ml, sheet, SHEET, text, TEXT),
        }
    }
}

fn header(ipdus: u16, objects: u16) -> Vec<u8> {
    let total = 16 + 16 * ipdus + 32 * objects;
    let mut t: Vec<u8> = [ipdus, objects, 16, 16 + 16 * ipdus, total].iter().flat_map(|n| n.to_le_bytes()).collect();
    t.resize(16, 0);
    t
}

fn object(bytes: [u8; 8], filter: u8, first: u32, second: u32) -> [u8; 32] {
    let mut o = [0u8; 32];
    o[..8].copy_from_slice(&bytes);
    o[8] = filter;
    o[16..20].copy_from_slice(&first.to_le_bytes());
    o[20..24].copy_from_slice(&second.to_le_bytes());
    o
}

pub fn large() -> Vec<u8> {
    let mut t = header(32, 128);
    for k in 0..16 {
        t.extend(match k % 4 {
            1 => [1, 8, 2, 0, 20, 0, 5, 0, 3, 0, 10, 0, 0, 0, 0, 0],
            2 => [1, 8, 1, 0, 20, 0, 5, 0, 0, 0, 10, 0, 0, 0, 0, 0],
            _ => [1, 8, 0, 0, 0, 0, 0, 0, 3, 0, 10, 0, 0, 0, 0, 0],
        });
    }
    for _ in 16..32 {
        t.extend([2, 8, 0, 0, 0, 0, 0, 0, 0, 0, 50, 0, 90, 0, 0, 0]);
    }
    for i in 0..64u8 {
        let (j, order) = (i % 4, i % 2);
        let start = if order == 0 { 16 * j + 2 } else { 8 * (2 * j + 1) + 2 };
        let (f, a, b) = [
            (5, 0, 0), (3, 0xFFF, 0), (0, 0, 0), (8, 1, 4000),
            (2, 0xF000_0000, 0), (14, 1, 0), (13, 0, 0), (7, 0xFFF, 0),
        ][i as usize % 8];
        t.extend(object([1, i / 4, 255, start, 12, order, (j == 2) as u8, 0], f, a, b));
    }
    for i in 64..122u8 {
        let (ipdu, depth) = match i {
            64..=71 => (16, 0),
            72..=79 => (17, 4),
            _ => (18 + (i - 80) / 3, if i % 3 == 0 { 8 } else { 0 }),
        };
        let (j, order) = (i % 8, i % 2);
        let start = if order == 0 { 6 * j } else { 8 * (j % 7 + 1) + 2 };
        let (f, a, b) = [
            (0, 0, 0), (3, 0xFFF, 0), (5, 0, 0), (8, 0, 4095),
            (7, 0xFFF, 0), (10, 0, 0), (14, 1, 0), (9, 1, 0),
        ][j as usize];
        t.extend(object([2, ipdu, 255, start, 12, order, 0, depth], f, a, b));
    }
    for (sender, depth, f) in [(12, 0, 0), (16, 4, 5), (17, 0, 5), (21, 16, 0), (33, 0, 10), (63, 2, 0)] {
        t.extend(object([2, 255, sender, 0, 32, 0, 0, depth], f, 0, 0));
    }
    t
}

pub fn case12() -> Vec<u8> {
    let mut t = header(1, 1);
    t.extend([1, 4, 0, 0, 0, 0, 0, 0, 3, 0, 10, 0, 0, 0, 0, 0]);
    t.extend(object([1, 0, 255, 13, 12, 0, 0, 0], 5, 0, 0));
    t
}

// The calls before the measured one, the measured one, its answer, the marks that some objects have after it, whether it
// changed the slot of an I-PDU, and how many objects the sheet follows then, with how many values drained and errors seen of
// each. Together they tell the paths of a call apart.
pub struct Row {
    pub name: &'static str,
    pub before: Vec<Call>,
    pub call: Call,
    pub answer: (u32, u32),
    pub marks: (Range<u32>, u32),
    pub slot: (usize, bool),
    pub sheet: (usize, u32, u32),
}

#[rustfmt::skip]
pub fn rows(large: bool) -> Vec<Row> {
    let mut rows = Vec::new();
    let mut row = |name, before: &[Call], call, answer, marks, slot| {
        rows.push(Row { name, before: before.to_vec(), call, answer, marks, slot, sheet: (0, 0, 0) })
    };
    let sent = [Start, Send(0, 5)];
    let confirmed = [Start, Send(0, 5), Confirm(0, 1)];
    let arrived = [Start, Indication(16, 1), Indication(17, 1)];
    let periodic = [Start, StartPeriodic];
    let waits = [Start, Send(0, 5), Confirm(0, 1), Send(0, 6)];
    let ticks = |before: &[Call], count| [before, &vec![Tick; count]].concat();
    let of_0 = if large { 0..4 } else { 0..1 };
    row("refused", &[Start], Marks(u32::MAX), (1, 0), (0..1, 0), (0, false));
    row("refused_start", &[Start], StartShort, (6, 0), (0..1, 0), (0, false));
    row("start", &[], Start, (0, 0), (0..1, 0), (0, true));
    row("stop", &[Start], Stop, (0, 0), (0..0, 0), (0, false));
    row("send_request", &[Start], Send(0, 5), (0, 1), (0..1, 0), (0, true));
    row("send_postponed", &sent, Send(0, 6), (0, 0), (0..1, 0), (0, true));
    row("send_dropped", &[Start], Send(0, 0), (0, 0), (0..1, 0), (0, false));
    row("initialise_send", &[Start], Initialise(0, 9), (0, 0), (0..1, 0), (0, true));
    row("marks", &confirmed, Marks(0), (0, 2), (0..1, 2), (0, false));
    row("clear_marks", &confirmed, ClearMarks(0), (0, 0), (0..1, 0), (0, false));
    row("start_periodic", &[Start], StartPeriodic, (0, 0), (0..1, 0), (0, false));
    row("stop_periodic", &[Start, StartPeriodic], StopPeriodic, (0, 0), (0..1, 0), (0, false));
    row("confirm_good", &sent, Confirm(0, 1), (0, 0), (of_0.clone(), 2), (0, false));
    row("confirm_not_good", &sent, Confirm(0, 0), (0, 0), (of_0.clone(), 8), (0, false));
    row("tick_quiet", &periodic, Tick, (0, 0), (0..1, 0), (0, false));
    row("tick_postponed", &ticks(&waits, 2), Tick, (0, 1), (of_0.clone(), 2), (0, false));
    row("tick_deadline", &ticks(&sent, 9), Tick, (0, 0), (of_0, 8), (0, false));
    let step = if large { EACH_OBJECT } else { ONE_OBJECT };
    let word = |n| if large && n == 16 { 0b1011 } else { 1 };
    for (n, group, records) in [(1, "group_1", "records_1"), (4, "group_4", "records_4"), (16, "group_16", "records_16")] {
        row(group, &[Start], Group(n, step), (0, word(n)), (0..1, 0), (0, true));
        row(records, &[Start], Records(n, step), (0, word(n)), (0..1, 0), (0, true));
    }
    if large {
        row("send_request_big", &[Start], Send(1, 5), (0, 1), (1..2, 0), (0, true));
        row("send_pending", &[Start], Send(2, 5), (0, 0), (2..3, 0), (0, true));
        row("send_one_inside", &[Start], Send(12, 5), (0, 8), (122..123, 1), (3, true));
        row("send_one_queue", &[Start], Send(16, 5), (0, 16), (123..124, 1), (4, true));
        row("initialise_receive", &arrived, Initialise(64, 9), (0, 0), (64..65, 1), (16, false));
        row("receive_unqueued", &arrived, Receive(64), (0, 0x35A), (64..65, 1), (16, false));
        row("receive_queued", &arrived, Receive(72), (0, 0x35A), (72..73, 1), (17, false));
        row("status", &arrived, Status(72), (0, 0), (72..73, 1), (17, false));
        row("indication_8", &[Start], Indication(16, 1), (0, 0), (64..72, 1), (16, true));
        row("indication_8_queues", &[Start], Indication(17, 1), (0, 0), (72..80, 1), (17, true));
        row("indication_3", &[Start], Indication(31, 1), (0, 0), (119..122, 1), (31, true));
        row("tick_8_periods", &ticks(&periodic, 4), Tick, (0, 0x6666), (0..1, 0), (0, false));
        row("tick_16_timers", &ticks(&[Start], 89), Tick, (0, 0), (64..122, 4), (16, false));
        let sends: Vec<Call> = (0..16).filter(|k| k % 4 != 2).map(|k| Send(4 * k, 5)).collect();
        let due = ticks(&[&ticks(&[Start], 80)[..], &sends].concat(), 9);
        row("tick_28_due", &due, Tick, (0, 0), (64..122, 4), (16, false));
        row("indication_not_good", &[Start], Indication(16, 0), (0, 0), (64..72, 4), (16, false));
        rows.extend(sheet_rows());
    }
    rows
}

/// Over `large`: a begin, drains of empty queues, of three values in each, of one value of ten digits, and of receive errors.
/// The value is the length of the text, which tells values from `-`.
#[rustfmt::skip]
fn sheet_rows() -> [Row; 6] {
    let row = |name, before: &[Call], call, value, marks, sheet| {
        Row { name, before: before.to_vec(), call, answer: (0, value), marks, slot: (17, false), sheet }
    };
    let begun = [Start, Begin(0, 16)];
    let frames = (0..RISING.len()).flat_map(|n| (17..26).map(move |k| Rising(k, n)));
    let arrived: Vec<Call> = begun.into_iter().chain(frames).collect();
    let errors: Vec<Call> = begun.into_iter().chain((17..26).map(|k| Indication(k, 0))).collect();
    [
        row("begin_16", &[Start], Begin(0, 16), 0, (72..80, 0), (16, 0, 0)),
        row("drain_1_empty", &[Start, Begin(0, 1)], Drain, 17, (72..80, 0), (1, 0, 0)),
        row("drain_1_of_1_long", &[Start, Begin(16, 1), Send(21, u32::MAX)], Drain, 54, (125..126, 1), (1, 1, 0)),
        row("drain_16_empty", &begun, Drain, 273, (72..80, 0), (16, 0, 0)),
        row("drain_16_of_3", &arrived, Drain, 449, (72..80, 1), (16, 3, 0)),
        row("drain_16_errors", &errors, Drain, 273, (72..80, 0), (16, 0, 1)),
    ]
}
