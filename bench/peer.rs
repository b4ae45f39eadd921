// The proved layer and the peer of bench/peer/peer.h behind one function each way: a table of C functions, and `make`, which
// makes a call through one of them.
use crate::act::Act;
use crate::call::Call;
use crate::group::Form;
use crate::layer::{self, Answer};
use crate::sheet::{OnSheet, What};

// What is only read, what may be written, and how many bytes of it there are.
type In = *const u8;
type Out = *mut u8;
type N = usize;
type Pairs = *const [u32; 2];
type Numbers = *const u32;

/// Any number but 0 tells of a good indication or confirm.
const GOOD: u32 = 256;

#[rustfmt::skip]
extern "C" {
    fn birnenschloss_check(t: In, tn: N) -> Answer;
    fn birnenschloss_ipdu_length(t: In, tn: N, ipdu: u32) -> u32;
    fn peer_check(t: In, tn: N) -> Answer;
    fn peer_ipdu_length(t: In, tn: N, ipdu: u32) -> u32;
    fn peer_start(t: In, tn: N, m: Out, mn: N) -> Answer;
    fn peer_stop(t: In, tn: N, m: Out, mn: N) -> Answer;
    fn peer_send(t: In, tn: N, m: Out, mn: N, area: Out, an: N, object: u32, value: u32) -> Answer;
    fn peer_initialise(t: In, tn: N, m: Out, mn: N, object: u32, value: u32) -> Answer;
    fn peer_receive(t: In, tn: N, m: Out, mn: N, object: u32) -> Answer;
    fn peer_status(t: In, tn: N, m: In, mn: N, object: u32) -> Answer;
    fn peer_marks(t: In, tn: N, m: In, mn: N, object: u32) -> Answer;
    fn peer_clear_marks(t: In, tn: N, m: Out, mn: N, object: u32) -> Answer;
    fn peer_start_periodic(t: In, tn: N, m: Out, mn: N) -> Answer;
    fn peer_stop_periodic(t: In, tn: N, m: Out, mn: N) -> Answer;
    fn peer_indication(t: In, tn: N, m: Out, mn: N, ipdu: u32, good: u32, bytes: In, bn: N) -> Answer;
    fn peer_confirm(t: In, tn: N, m: Out, mn: N, ipdu: u32, good: u32) -> Answer;
    fn peer_tick(t: In, tn: N, m: Out, mn: N, area: Out, an: N) -> Answer;
    fn peer_send_group(t: In, tn: N, m: Out, mn: N, area: Out, an: N, pairs: In, pn: N, statuses: Out, sn: N) -> Answer;
    fn peer_send_records(t: In, tn: N, m: Out, mn: N, area: Out, an: N, pairs: Pairs, pn: N, statuses: Out, sn: N)
        -> Answer;
    fn peer_sheet_begin(t: In, tn: N, m: In, mn: N, sheet: Out, sn: N, objects: Numbers, on: N) -> Answer;
    fn peer_sheet_drain(t: In, tn: N, m: Out, mn: N, sheet: Out, sn: N, text: Out, xn: N) -> Answer;
}

/// The calls of one layer.
#[rustfmt::skip]
#[derive(Clone, Copy)]
pub struct Calls {
    check: unsafe extern "C" fn(In, N) -> Answer,
    ipdu_length: unsafe extern "C" fn(In, N, u32) -> u32,
    start: unsafe extern "C" fn(In, N, Out, N) -> Answer,
    stop: unsafe extern "C" fn(In, N, Out, N) -> Answer,
    send: unsafe extern "C" fn(In, N, Out, N, Out, N, u32, u32) -> Answer,
    initialise: unsafe extern "C" fn(In, N, Out, N, u32, u32) -> Answer,
    receive: unsafe extern "C" fn(In, N, Out, N, u32) -> Answer,
    status: unsafe extern "C" fn(In, N, In, N, u32) -> Answer,
    marks: unsafe extern "C" fn(In, N, In, N, u32) -> Answer,
    clear_marks: unsafe extern "C" fn(In, N, Out, N, u32) -> Answer,
    start_periodic: unsafe extern "C" fn(In, N, Out, N) -> Answer,
    stop_periodic: unsafe extern "C" fn(In, N, Out, N) -> Answer,
    indication: unsafe extern "C" fn(In, N, Out, N, u32, u32, In, N) -> Answer,
    confirm: unsafe extern "C" fn(In, N, Out, N, u32, u32) -> Answer,
    tick: unsafe extern "C" fn(In, N, Out, N, Out, N) -> Answer,
    send_group: unsafe extern "C" fn(In, N, Out, N, Out, N, In, N, Out, N) -> Answer,
    send_records: unsafe extern "C" fn(In, N, Out, N, Out, N, Pairs, N, Out, N) -> Answer,
    sheet_begin: unsafe extern "C" fn(In, N, In, N, Out, N, Numbers, N) -> Answer,
    sheet_drain: unsafe extern "C" fn(In, N, Out, N, Out, N, Out, N) -> Answer,
}

pub const PROVED: Calls = Calls {
    check: birnenschloss_check,
    ipdu_length: birnenschloss_ipdu_length,
    start: layer::birnenschloss_start,
    stop: layer::birnenschloss_stop,
    send: layer::birnenschloss_send,
    initialise: layer::birnenschloss_initialise,
    receive: layer::birnenschloss_receive,
    status: layer::birnenschloss_status,
    marks: layer::birnenschloss_marks,
    clear_marks: layer::birnenschloss_clear_marks,
    start_periodic: layer::birnenschloss_start_periodic,
    stop_periodic: layer::birnenschloss_stop_periodic,
    indication: layer::birnenschloss_indication,
    confirm: layer::birnenschloss_confirm,
    tick: layer::birnenschloss_tick,
    send_group: layer::birnenschloss_send_group,
    send_records: layer::birnenschloss_send_records,
    sheet_begin: layer::birnenschloss_sheet_begin,
    sheet_drain: layer::birnenschloss_sheet_drain,
};

pub const PEER: Calls = Calls {
    check: peer_check,
    ipdu_length: peer_ipdu_length,
    start: peer_start,
    stop: peer_stop,
    send: peer_send,
    initialise: peer_initialise,
    receive: peer_receive,
    status: peer_status,
    marks: peer_marks,
    clear_marks: peer_clear_marks,
    start_periodic: peer_start_periodic,
    stop_periodic: peer_stop_periodic,
    indication: peer_indication,
    confirm: peer_confirm,
    tick: peer_tick,
    send_group: peer_send_group,
    send_records: peer_send_records,
    sheet_begin: peer_sheet_begin,
    sheet_drain: peer_sheet_drain,
};

unsafe extern "C" fn nothing(_: In, _: N, _: Out, _: N) -> Answer {
    Answer { number: 0, value: 0 }
}

unsafe extern "C" fn no_check(_: In, _: N) -> Answer {
    Answer { number: 0, value: 0 }
}

/// A layer whose stop and check do nothing: what they take is what making a call takes.
pub const EMPTY: Calls = Calls { stop: nothing, check: no_check, ..PROVED };

pub fn check(by: &Calls, table: &[u8]) -> (u32, u32) {
    let answer = unsafe { (by.check)(table.as_ptr(), table.len()) };
    (answer.number, answer.value)
}

pub fn ipdu_length(by: &Calls, table: &[u8], ipdu: u32) -> u32 {
    unsafe { (by.ipdu_length)(table.as_ptr(), table.len(), ipdu) }
}

/// What is lent beside the table: a group has statuses, a begin and a drain a sheet, a drain a text.
pub struct Lent<'a> {
    pub memory: &'a mut [u8],
    pub area: &'a mut [u8],
    pub statuses: &'a mut [u8],
    pub sheet: &'a mut [u8],
    pub text: &'a mut [u8],
}

/// Makes a call, a group, a begin or a drain; gives number and value of the answer.
pub fn make(by: &Calls, act: &Act, table: &[u8], lent: Lent) -> (u32, u32) {
    let Lent { memory: m, area, statuses, sheet, text } = lent;
    let (t, tn, mn, an, sn) = (table.as_ptr(), table.len(), m.len(), area.len(), statuses.len());
    let (m, area, statuses) = (m.as_mut_ptr(), area.as_mut_ptr(), statuses.as_mut_ptr());
    let number = |good: bool| if good { GOOD } else { 0 };
    // Each slice is lent for the whole call; its start and its length belong together.
    let answer = unsafe {
        match *act {
            Act::Call(Call::Start) => (by.start)(t, tn, m, mn),
            Act::Call(Call::Stop) => (by.stop)(t, tn, m, mn),
            Act::Call(Call::Send { object, value }) => (by.send)(t, tn, m, mn, area, an, object, value),
            Act::Call(Call::Initialise { object, value }) => (by.initialise)(t, tn, m, mn, object, value),
            Act::Call(Call::Receive { object }) => (by.receive)(t, tn, m, mn, object),
            Act::Call(Call::Status { object }) => (by.status)(t, tn, m, mn, object),
            Act::Call(Call::Marks { object }) => (by.marks)(t, tn, m, mn, object),
            Act::Call(Call::ClearMarks { object }) => (by.clear_marks)(t, tn, m, mn, object),
            Act::Call(Call::StartPeriodic) => (by.start_periodic)(t, tn, m, mn),
            Act::Call(Call::StopPeriodic) => (by.stop_periodic)(t, tn, m, mn),
            Act::Call(Call::Indication { ipdu, good, ref bytes }) => {
                (by.indication)(t, tn, m, mn, ipdu, number(good), bytes.as_ptr(), bytes.len())
            }
            Act::Call(Call::Confirm { ipdu, good }) => (by.confirm)(t, tn, m, mn, ipdu, number(good)),
            Act::Call(Call::Tick) => (by.tick)(t, tn, m, mn, area, an),
            Act::Group(ref group) => match &group.form {
                Form::Bytes(pairs) => {
                    (by.send_group)(t, tn, m, mn, area, an, pairs.as_ptr(), pairs.len(), statuses, sn)
                }
                Form::Records(pairs) => {
                    (by.send_records)(t, tn, m, mn, area, an, pairs.as_ptr().cast(), pairs.len(), statuses, sn)
                }
            },
            Act::Sheet(OnSheet { what: What::Begin(ref objects), .. }) => {
                let (s, sn) = (sheet.as_mut_ptr(), sheet.len());
                (by.sheet_begin)(t, tn, m, mn, s, sn, objects.as_ptr(), objects.len())
            }
            Act::Sheet(OnSheet { what: What::Drain(..), .. }) => {
                let (s, sn) = (sheet.as_mut_ptr(), sheet.len());
                (by.sheet_drain)(t, tn, m, mn, s, sn, text.as_mut_ptr(), text.len())
            }
        }
    };
    (answer.number, answer.value)
}
