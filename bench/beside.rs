// Each call of bench/layer.rs by the proved layer and by the peer of bench/peer/peer.h, a fast layer in C with the same
// checks. `agree SEED COUNT` compares them on random calls (bench/agree.rs). `times TABLE` prints for each row the
// nanoseconds of three calls: one that does nothing, the proved one, the peer's. `counts TABLE` prints the row and
// makes each of the three once, for callgrind. Where the two differ in answer, memory, request area, statuses, sheet or
// text the program ends with status 1.
#[path = "../tests/layer/act.rs"]
#[allow(dead_code)]
mod act;
mod agree;
#[path = "../tests/layer/call.rs"]
#[allow(dead_code)]
mod call;
#[path = "../tests/layer/group.rs"]
#[allow(dead_code)]
mod group;
#[path = "layer.rs"]
#[allow(dead_code)]
mod layer;
#[path = "../tests/layer/library.rs"]
#[allow(dead_code, clashing_extern_declarations)]
mod library;
#[path = "../tests/layer/make.rs"]
#[allow(dead_code)]
mod make;
#[path = "../tests/layer/make_group.rs"]
#[allow(dead_code)]
mod make_group;
#[path = "../tests/layer/make_sheet.rs"]
#[allow(dead_code)]
mod make_sheet;
#[path = "../tests/layer/memories.rs"]
#[allow(dead_code)]
mod memories;
mod peer;
#[path = "../tests/layer/ranges.rs"]
#[allow(dead_code)]
mod ranges;
#[path = "../tests/layer/records.rs"]
#[allow(dead_code)]
mod records;
#[path = "../tests/layer/reference.rs"]
#[allow(dead_code)]
mod reference;
#[path = "../tests/layer/sheet.rs"]
#[allow(dead_code)]
mod sheet;
#[path = "../tests/layer/stored.rs"]
#[allow(dead_code)]
mod stored;
#[path = "../tests/table.rs"]
#[allow(dead_code)]
mod table;
mod wanted;

use act::Act;
use call::Call;
use group::{Form, Pair};
use layer::{before_all, Lent as State};
use peer::{Calls, Lent, EMPTY, PEER, PROVED};
use sheet::{OnSheet, What};
use std::hint::black_box;
use std::time::Instant;

const MEMORY: usize = 8192;
/// The first slot, and the marks of the first object, in working memory.
const SLOTS: usize = 528;
const MARKS: usize = 784 + 9;
/// The states that are prepared before the clock runs, and how often the clock runs.
const BATCH: usize = 16;
const RUNS: usize = 500;

/// What a row measures: a call with the lengths that it is lent, or the check of the table.
enum Measured {
    Call { act: Act, memory: usize, statuses: usize },
    Check,
}

type Answer = (u32, u32);

fn run(by: &Calls, measured: &Measured, t: &[u8], state: &mut State) -> Answer {
    match measured {
        Measured::Check => peer::check(by, t),
        Measured::Call { act, memory, statuses } => {
            let State { memory: m, area, statuses: s, sheet, text } = state;
            peer::make(by, act, t, Lent { memory: &mut m[..*memory], area, statuses: &mut s[..*statuses], sheet, text })
        }
    }
}

// callgrind collects in this function alone, and in what it calls.
#[no_mangle]
#[inline(never)]
pub fn collected(call: &dyn Fn(&mut State) -> Answer, state: &mut State) -> Answer {
    black_box(call(black_box(state)))
}

fn fail(name: &str, what: &str) -> ! {
    println!("beside: {name}: {what}");
    std::process::exit(1)
}

fn on_sheet(what: What) -> Act {
    Act::Sheet(OnSheet { sheet: 0, lent: layer::SHEET, what })
}

/// A call of bench/layer.rs; the pairs of a group are made here, before it is measured.
fn measured(call: layer::Call) -> Measured {
    use layer::Call::*;
    let (mut memory, mut statuses) = (MEMORY, 0);
    let mut sends = |n: usize, form| {
        statuses = n;
        Act::Group(group::Group { form, statuses: Vec::new(), lent: n })
    };
    let act = match call {
        Group(n, step) => sends(n, Form::Bytes(layer::pair_bytes(step)[..5 * n].to_vec())),
        Records(n, step) => {
            let pairs = layer::pairs(step).into_iter().take(n).map(|[object, value]| Pair { object, value });
            sends(n, Form::Records(pairs.collect()))
        }
        StartShort => {
            memory -= 1;
            Act::Call(Call::Start)
        }
        Start => Act::Call(Call::Start),
        Stop => Act::Call(Call::Stop),
        Send(object, value) => Act::Call(Call::Send { object, value }),
        Initialise(object, value) => Act::Call(Call::Initialise { object, value }),
        Receive(object) => Act::Call(Call::Receive { object }),
        Status(object) => Act::Call(Call::Status { object }),
        Marks(object) => Act::Call(Call::Marks { object }),
        ClearMarks(object) => Act::Call(Call::ClearMarks { object }),
        StartPeriodic => Act::Call(Call::StartPeriodic),
        StopPeriodic => Act::Call(Call::StopPeriodic),
        Indication(ipdu, good) => {
            Act::Call(Call::Indication { ipdu, good: good != 0, bytes: layer::FRAME.to_vec() })
        }
        Rising(ipdu, n) => Act::Call(Call::Indication { ipdu, good: true, bytes: layer::RISING[n].to_vec() }),
        Confirm(ipdu, good) => Act::Call(Call::Confirm { ipdu, good: good != 0 }),
        Tick => Act::Call(Call::Tick),
        Begin(from, n) => on_sheet(What::Begin(layer::FOLLOWED[from..from + n].to_vec())),
        Drain => on_sheet(What::Drain(0, layer::TEXT, layer::TEXT)),
    };
    Measured::Call { act, memory, statuses }
}

/// The state after the calls before a measured one, the same by both layers.
fn prepared(name: &str, t: &[u8], before: &[layer::Call]) -> State {
    let mut states = [before_all(), before_all()];
    for &call in before {
        let call = measured(call);
        let answers = [run(&PROVED, &call, t, &mut states[0]), run(&PEER, &call, t, &mut states[1])];
        if answers[0] != answers[1] || states[0] != states[1] || answers[0].0 != 0 {
            fail(name, &format!("a call before it: proved {:?}, peer {:?}", answers[0], answers[1]));
        }
    }
    let [mut state, _] = states;
    state.area.fill(0);
    state
}

type Three<'a> = [(&'a dyn Fn(&mut State) -> Answer, Answer); 3];

/// The least nanoseconds of each of the calls, by turns, in batches with a fresh copy of the state for every call.
fn best(name: &str, state: &State, calls: &Three) -> [f64; 3] {
    let (mut batch, mut least) = (vec![state.clone(); BATCH], [f64::MAX; 3]);
    for _ in 0..RUNS {
        for ((call, answer), least) in calls.iter().zip(&mut least) {
            for copy in &mut batch {
                copy.clone_from(state);
            }
            let (begin, mut same) = (Instant::now(), true);
            for state in &mut batch {
                same &= collected(call, state) == *answer;
            }
            *least = least.min(begin.elapsed().as_nanos() as f64 / BATCH as f64);
            if !same {
                fail(name, "another answer");
            }
        }
    }
    least
}

/// One row: both layers have to answer `answer` and to leave the same bytes; then its times or its counts.
fn row(name: &str, t: &[u8], measured: &Measured, state: &State, answer: Answer, times: bool) {
    let (mut ours, mut peers) = (state.clone(), state.clone());
    let answers = [run(&PROVED, measured, t, &mut ours), run(&PEER, measured, t, &mut peers)];
    if answers != [answer; 2] || ours != peers {
        fail(name, &format!("{answer:?}: proved {:?}, peer {:?}", answers[0], answers[1]));
    }
    let empty = match measured {
        Measured::Check => Measured::Check,
        _ => Measured::Call { act: Act::Call(Call::Stop), memory: MEMORY, statuses: 0 },
    };
    let calls: Three = [
        (&|state| run(&EMPTY, &empty, t, state), (0, 0)),
        (&|state| run(&PROVED, measured, t, state), answer),
        (&|state| run(&PEER, measured, t, state), answer),
    ];
    if times {
        println!("{name} {}", best(name, state, &calls).map(|time| format!("{time:.1}")).join(" "));
        return;
    }
    println!("{name}");
    for (call, answer) in calls {
        if collected(call, &mut state.clone()) != answer {
            fail(name, "another answer");
        }
    }
}

/// The call took the path that its row is named for: the marks, the slot of an I-PDU and the sheet tell.
fn took_its_path(r: &layer::Row, t: &[u8], measured: &Measured, state: &State) {
    let mut after = state.clone();
    run(&PROVED, measured, t, &mut after);
    let slot = SLOTS + 8 * r.slot.0..SLOTS + 8 * r.slot.0 + 8;
    let marked = r.marks.0.clone().all(|i| after.memory[MARKS + 16 * i as usize] as u32 == r.marks.1);
    if !marked || (after.memory[slot.clone()] != state.memory[slot]) != r.slot.1 {
        fail(r.name, "other marks, or another slot");
    }
    let (followed, drained, errors) = r.sheet;
    let counted = |row: &[u8]| row[4..8] == drained.to_le_bytes() && row[28..] == errors.to_le_bytes();
    if after.sheet[4] as usize != followed || !after.sheet[8..8 + 32 * followed].chunks(32).all(counted) {
        fail(r.name, "a sheet for more objects or fewer, or other counts");
    }
}

fn main() {
    let arguments: Vec<String> = std::env::args().collect();
    let number = |n: usize| arguments[n].parse().expect("a number");
    if arguments[1] == "agree" {
        return agree::agree(number(2), number(3));
    }
    let (times, large) = (arguments[1] == "times", arguments[2] == "large");
    let t = if large { layer::large() } else { layer::case12() };
    row("check", &t, &Measured::Check, &prepared("check", &t, &[]), (0, 0), times);
    for r in layer::rows(large) {
        let (call, state) = (measured(r.call), prepared(r.name, &t, &r.before));
        took_its_path(&r, &t, &call, &state);
        row(r.name, &t, &call, &state, r.answer, times);
    }
}
