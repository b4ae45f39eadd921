//! A script run over the reference: its lines read, the calls made in order from a stopped layer,
//! a line printed for each. Written from requests W-201 and W-207 of document 02 and from document
//! 01 alone.

use crate::call::Call;
use crate::reference::Layer;

/// What is printed for a table and a script.
pub fn output(table: &[u8], script: &[u8]) -> Vec<u8> {
    let mut layer = stopped(table);
    let mut printed = Vec::new();
    for (i, line) in script.split_inclusive(|b| *b == b'\n').enumerate() {
        let Some(call) = line.strip_suffix(b"\n").and_then(read) else {
            printed.extend(format!("9 {}\n", i + 1).bytes());
            break;
        };
        printed.extend(answered(&mut layer, &call).bytes());
    }
    printed
}

/// The layer that a script begins with: stopped, and its stored numbers in their ranges.
pub fn stopped(table: &[u8]) -> Layer {
    let mut layer = Layer::new(table);
    layer.stopped = true;
    layer
}

/// The call that a line asks for, given without its line feed; None where it can't be read.
pub fn read(line: &[u8]) -> Option<Call> {
    let fields: Vec<&[u8]> = line.split(|b| *b == b' ').collect();
    let call = match fields[..] {
        [b"start"] => Call::Start,
        [b"stop"] => Call::Stop,
        [b"send", o, v] => Call::Send { object: number(o)?, value: value(v)? },
        [b"initialise", o, v] => Call::Initialise { object: number(o)?, value: value(v)? },
        [b"receive", o] => Call::Receive { object: number(o)? },
        [b"status", o] => Call::Status { object: number(o)? },
        [b"marks", o] => Call::Marks { object: number(o)? },
        [b"clear_marks", o] => Call::ClearMarks { object: number(o)? },
        [b"start_periodic"] => Call::StartPeriodic,
        [b"stop_periodic"] => Call::StopPeriodic,
        [b"indication", k, g] => indication(k, g, Vec::new())?,
        [b"indication", k, g, hex] => indication(k, g, bytes(hex)?)?,
        [b"confirm", k, g] => Call::Confirm { ipdu: number(k)?, good: good(g)? },
        [b"tick"] => Call::Tick,
        _ => return None,
    };
    Some(call)
}

fn indication(ipdu: &[u8], is_good: &[u8], bytes: Vec<u8>) -> Option<Call> {
    Some(Call::Indication { ipdu: number(ipdu)?, good: good(is_good)?, bytes })
}

/// A decimal with no leading zero, of 32 bits.
fn number(field: &[u8]) -> Option<u32> {
    if field.is_empty() || (field.len() > 1 && field[0] == b'0') {
        return None;
    }
    let mut number: u32 = 0;
    for digit in field {
        let digit = (*digit as char).to_digit(10)?;
        number = number.checked_mul(10)?.checked_add(digit)?;
    }
    Some(number)
}

/// The value of a send or an initialise, of any object: a number, or one with a minus, from -1 down
/// to -2,147,483,648, which means its 32 bits.
fn value(field: &[u8]) -> Option<u32> {
    let Some(digits) = field.strip_prefix(b"-") else {
        return number(field);
    };
    let below = number(digits)?;
    (1..=1 << 31).contains(&below).then_some(below.wrapping_neg())
}

fn good(field: &[u8]) -> Option<bool> {
    match field {
        b"1" => Some(true),
        b"0" => Some(false),
        _ => None,
    }
}

/// At least one byte, two digits each.
fn bytes(field: &[u8]) -> Option<Vec<u8>> {
    if field.is_empty() || field.len() % 2 == 1 {
        return None;
    }
    field.chunks(2).map(|pair| Some(16 * hex_digit(pair[0])? + hex_digit(pair[1])?)).collect()
}

fn hex_digit(digit: u8) -> Option<u8> {
    b"0123456789ABCDEF".iter().position(|d| *d == digit).map(|n| n as u8)
}

/// Makes a call and gives its line. The request area holds something else before each call.
pub fn answered(layer: &mut Layer, call: &Call) -> String {
    let mut area = [0xA5; 256];
    let answer = layer.call(call, 8192, true, &mut area);
    let mut line = answer.number.to_string();
    match (call, answer.number) {
        (Call::Receive { object }, 0 | 3) => {
            line += &format!(" val {}", layer.objects[*object as usize].meant(answer.value));
        }
        (Call::Marks { .. }, 0) => line += &format!(" val {}", answer.value),
        _ => {}
    }
    if let (0, Call::Send { .. } | Call::Tick) = (answer.number, call) {
        for (k, p) in layer.ipdus.iter().enumerate() {
            if answer.value >> k & 1 == 1 {
                line += &format!(" req {k} ");
                area[8 * k..][..p.length].iter().for_each(|b| line += &format!("{b:02X}"));
            }
        }
    }
    line + "\n"
}
