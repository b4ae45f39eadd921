//! How a call is written as a line, and random calls over a table.

use crate::call::Call;
use crate::make;
use crate::reference::Layer;
use crate::script;
use crate::table::Run;

/// The line of a call, without its line feed.
pub fn write(call: &Call) -> Vec<u8> {
    let line = match call {
        Call::Start => "start".to_string(),
        Call::Stop => "stop".to_string(),
        Call::Send { object, value } => format!("send {object} {value}"),
        Call::Initialise { object, value } => format!("initialise {object} {value}"),
        Call::Receive { object } => format!("receive {object}"),
        Call::Status { object } => format!("status {object}"),
        Call::Marks { object } => format!("marks {object}"),
        Call::ClearMarks { object } => format!("clear_marks {object}"),
        Call::StartPeriodic => "start_periodic".to_string(),
        Call::StopPeriodic => "stop_periodic".to_string(),
        Call::Indication { ipdu, good, bytes } if bytes.is_empty() => {
            format!("indication {ipdu} {}", *good as u32)
        }
        Call::Indication { ipdu, good, bytes } => {
            let hex: String = bytes.iter().map(|b| format!("{b:02X}")).collect();
            format!("indication {ipdu} {} {hex}", *good as u32)
        }
        Call::Confirm { ipdu, good } => format!("confirm {ipdu} {}", *good as u32),
        Call::Tick => "tick".to_string(),
    };
    line.into_bytes()
}

/// The line of a call, with the value of a send or an initialise below zero where its 32 bits may
/// mean that.
pub fn write_below_zero(call: &Call) -> Vec<u8> {
    let line = match call {
        Call::Send { object, value } => format!("send {object} {}", *value as i32),
        Call::Initialise { object, value } => format!("initialise {object} {}", *value as i32),
        _ => return write(call),
    };
    line.into_bytes()
}

/// The line of a call in either form.
pub fn write_any(run: &mut Run, call: &Call) -> Vec<u8> {
    if run.below(2) == 0 {
        write(call)
    } else {
        write_below_zero(call)
    }
}

/// Random calls; the layer goes along, so that they meet interesting places.
pub fn calls(run: &mut Run, layer: &mut Layer, count: usize) -> Vec<Call> {
    let style = run.below(4);
    let mut list = Vec::new();
    for _ in 0..count {
        let call = make::call(run, layer, style);
        script::answered(layer, &call);
        list.push(call);
    }
    list
}

/// The lines of the calls, in either form, each with its line feed.
pub fn text(run: &mut Run, calls: &[Call]) -> Vec<u8> {
    joined(&calls.iter().map(|call| write_any(run, call)).collect::<Vec<_>>())
}

pub fn joined(lines: &[Vec<u8>]) -> Vec<u8> {
    let mut text = Vec::new();
    for line in lines {
        text.extend(line);
        text.push(b'\n');
    }
    text
}

/// An indication with so many bytes.
pub fn long_indication(run: &mut Run, count: usize) -> Call {
    let mut bytes = vec![0; count];
    make::scramble(run, &mut bytes);
    Call::Indication { ipdu: run.below(3) as u32, good: run.below(2) == 0, bytes }
}
