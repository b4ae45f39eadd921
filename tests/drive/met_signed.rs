//! What the scripts of the run have met of signed values (request W-207).

use crate::call::Call;
use crate::met::{Event, Met};
use crate::records::Object;
use crate::reference::Layer;
use Event::*;

impl Met {
    /// The lines of these calls and what was printed for them, over a right table.
    pub fn note_signed(&mut self, layer: &Layer, calls: &[Call], lines: &[&[u8]], printed: &[u8]) {
        let printed = printed.split(|b| *b == b'\n');
        for ((call, line), prints) in calls.iter().zip(lines).zip(printed) {
            let prints = std::str::from_utf8(prints).expect("a printed line is ASCII");
            let events = match call {
                Call::Send { object, value } | Call::Initialise { object, value } => {
                    given(layer.objects.get(*object as usize), *value, call, line, prints)
                }
                Call::Receive { object } => received(layer.objects.get(*object as usize), prints),
                _ => Vec::new(),
            };
            events.into_iter().filter(|(_, is)| *is).for_each(|(event, _)| self.note(event));
        }
    }
}

type Events = Vec<(Event, bool)>;

/// A line with a value, and what was printed for it.
fn given(o: Option<&Object>, value: u32, call: &Call, line: &[u8], prints: &str) -> Events {
    let minus = line.contains(&b'-');
    let (sends, done) = (matches!(call, Call::Send { .. }), prints.starts_with('0'));
    vec![
        (GreatestDecimal, line.ends_with(b" 4294967295")),
        (MinusSent, minus && done && sends),
        (MinusInitialised, minus && done && !sends),
        (MinusRequested, minus && prints.contains(" req ")),
        (MinusToSigned, minus && done && o.is_some_and(|o| o.signed)),
        (MinusToUnsigned, minus && done && o.is_some_and(|o| !o.signed)),
        (MinusToNoObject, minus && prints == "1" && o.is_none()),
        (MinusOne, minus && value == u32::MAX),
        (MinusLeast, minus && value == 1 << 31),
        (BelowZeroWithoutMinus, !minus && value >> 31 == 1 && done),
    ]
}

/// A receive and what was printed for it.
fn received(o: Option<&Object>, prints: &str) -> Events {
    let (Some(o), Some((number, printed))) = (o, prints.split_once(" val ")) else {
        return Vec::new();
    };
    let value: i64 = printed.parse().expect("a decimal");
    let (below, overflow) = (value < 0, number == "3");
    vec![
        (PrintedBelowZero, below && !overflow),
        (PrintedBelowZeroWithThree, below && overflow),
        (PrintedLeastOfAll, value == -(1 << 31)),
        (PrintedSignedAboveZero, o.signed && value > 0),
        (PrintedUnsignedAboveHalf, !o.signed && value >= 1 << 31),
        (PrintedBelowZeroOfFewBits, below && o.bits.len() < 32 && o.fits(value as u32)),
        (PrintedWhole, o.signed && !o.fits(value as u32)),
    ]
}
