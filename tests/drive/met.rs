//! What the run has met: kinds of damage, answers, and what a line may print. It must meet all.

use crate::call::Call;
use crate::damage::{Kind, KINDS};
use crate::program::Piped;

#[derive(Clone, Copy, Debug)]
pub enum Event {
    /// What a line prints, or not.
    ReceivedWithZero,
    ReceivedWithThree,
    MarksRead,
    StatusThreeWithoutValue,
    RequestBySend,
    RequestByTick,
    SeveralRequests,
    BeforeFirstStart,
    StartedAgain,
    /// Right lines: of 9, 100 and 100,000 bytes, and with the greatest decimal.
    NineBytes,
    HundredBytes,
    HundredThousandBytes,
    NoBytes,
    GreatestDecimal,
    /// Where damage was: the first line, the last one, with lines after it, before the first
    /// start, over a wrong table.
    DamageFirst,
    DamageLast,
    DamageWithLinesAfter,
    DamageBeforeStart,
    DamageOverWrongTable,
    /// Several faults, and bytes changed anywhere: the text can be read to its end, or not.
    MixedUnreadable,
    MixedReadable,
    /// Files that are no table or no script.
    WrongTable,
    RandomTable,
    TooLongTable,
    EmptyTable,
    RandomScript,
    EmptyScript,
    Million,
    /// Values with a minus: sent, initialised, sent with a request; to a signed object, to another,
    /// to none; -1 and the least. The same bits without a minus.
    MinusSent,
    MinusInitialised,
    MinusRequested,
    MinusToSigned,
    MinusToUnsigned,
    MinusToNoObject,
    MinusOne,
    MinusLeast,
    BelowZeroWithoutMinus,
    /// Received values as printed: below zero with 0 and with 3, the least of all, of a signed
    /// object above zero, of another from 2,147,483,648 on; below zero in fewer than 32 bits; one
    /// that does not fit a signed object's bits.
    PrintedBelowZero,
    PrintedBelowZeroWithThree,
    PrintedLeastOfAll,
    PrintedSignedAboveZero,
    PrintedUnsignedAboveHalf,
    PrintedBelowZeroOfFewBits,
    PrintedWhole,
}
use Event::*;

#[rustfmt::skip]
const EVENTS: [Event; 44] = [
    ReceivedWithZero, ReceivedWithThree, MarksRead, StatusThreeWithoutValue, RequestBySend,
    RequestByTick, SeveralRequests, BeforeFirstStart, StartedAgain, NineBytes, HundredBytes,
    HundredThousandBytes, NoBytes, GreatestDecimal, DamageFirst, DamageLast, DamageWithLinesAfter,
    DamageBeforeStart, DamageOverWrongTable, MixedUnreadable, MixedReadable, WrongTable,
    RandomTable, TooLongTable, EmptyTable, RandomScript, EmptyScript, Million, MinusSent,
    MinusInitialised, MinusRequested, MinusToSigned, MinusToUnsigned, MinusToNoObject, MinusOne,
    MinusLeast, BelowZeroWithoutMinus, PrintedBelowZero, PrintedBelowZeroWithThree,
    PrintedLeastOfAll, PrintedSignedAboveZero, PrintedUnsignedAboveHalf, PrintedBelowZeroOfFewBits,
    PrintedWhole,
];

/// The sizes of the pieces through a pipe.
pub const PIECES: [usize; 4] = [1, 7, 4096, 65537];

pub struct Met {
    events: [u64; EVENTS.len()],
    kinds: [u64; KINDS.len()],
    /// How often each number was printed; 6 never is.
    numbers: [u64; 10],
    /// How often each call was accepted, in the order of document 01.
    accepted: [u64; 13],
    /// How many requests were printed of each length in bytes.
    lengths: [u64; 9],
    /// Through a pipe: tables and scripts, by the size of the pieces.
    piped: [[u64; PIECES.len()]; 2],
}

impl Met {
    pub fn new() -> Met {
        Met {
            events: [0; EVENTS.len()],
            kinds: [0; KINDS.len()],
            numbers: [0; 10],
            accepted: [0; 13],
            lengths: [0; 9],
            piped: [[0; PIECES.len()]; 2],
        }
    }

    pub fn note(&mut self, event: Event) {
        self.events[event as usize] += 1;
    }

    pub fn note_kind(&mut self, kind: Kind) {
        self.kinds[kind as usize] += 1;
    }

    pub fn note_piped(&mut self, piped: Piped) {
        let (row, size) = match piped {
            Piped::Table(size) => (0, size),
            Piped::Script(size) => (1, size),
        };
        let column = PIECES.iter().position(|s| *s == size).expect("one of the sizes");
        self.piped[row][column] += 1;
    }

    /// The numbers that were printed.
    pub fn note_printed(&mut self, printed: &[u8]) {
        for line in printed.split_inclusive(|b| *b == b'\n') {
            self.numbers[(line[0] - b'0') as usize] += 1;
        }
    }

    /// The lines that were printed for these calls over a right table.
    pub fn note_calls(&mut self, calls: &[Call], printed: &[u8]) {
        let lines = printed.split(|b| *b == b'\n');
        let mut starts = 0;
        for (call, line) in calls.iter().zip(lines) {
            let line = std::str::from_utf8(line).expect("a printed line is ASCII");
            let number = line.as_bytes()[0] - b'0';
            if !call.refused_by(number as u32) {
                self.accepted[call.kind()] += 1;
            }
            self.note_requests(call, line);
            self.note_bytes(call);
            match call {
                Call::Start if starts > 0 => self.note(StartedAgain),
                Call::Receive { .. } if line.starts_with("0 val ") => self.note(ReceivedWithZero),
                Call::Receive { .. } if line.starts_with("3 val ") => self.note(ReceivedWithThree),
                Call::Marks { .. } if line.starts_with("0 val ") => self.note(MarksRead),
                Call::Status { .. } if line == "3" => self.note(StatusThreeWithoutValue),
                _ if starts == 0 && line == "7" => self.note(BeforeFirstStart),
                _ => {}
            }
            starts += matches!(call, Call::Start) as u32;
        }
    }

    fn note_requests(&mut self, call: &Call, line: &str) {
        let requests: Vec<&str> = line.split(" req ").skip(1).collect();
        if requests.is_empty() {
            return;
        }
        self.note(if let Call::Tick = call { RequestByTick } else { RequestBySend });
        if requests.len() > 1 {
            self.note(SeveralRequests);
        }
        for request in requests {
            let (_, frame) = request.split_once(' ').expect("a number and a frame");
            self.lengths[frame.len() / 2] += 1;
        }
    }

    fn note_bytes(&mut self, call: &Call) {
        match call {
            Call::Indication { bytes, .. } => match bytes.len() {
                0 => self.note(NoBytes),
                9 => self.note(NineBytes),
                100 => self.note(HundredBytes),
                100_000 => self.note(HundredThousandBytes),
                _ => {}
            },
            _ => {}
        }
    }

    /// The names of what was never met.
    pub fn missing(&self) -> Vec<String> {
        let mut list = Vec::new();
        let mut look = |name: String, times: u64| {
            if times == 0 {
                list.push(name);
            }
        };
        EVENTS.iter().for_each(|e| look(format!("{e:?}"), self.events[*e as usize]));
        KINDS.iter().for_each(|k| look(format!("{k:?}"), self.kinds[*k as usize]));
        for n in [0, 1, 2, 3, 4, 5, 7, 8, 9] {
            look(format!("number {n}"), self.numbers[n]);
        }
        (0..13).for_each(|n| look(format!("call {n}"), self.accepted[n]));
        (1..9).for_each(|n| look(format!("request of {n} bytes"), self.lengths[n]));
        for (row, name) in ["table", "script"].iter().enumerate() {
            for (column, size) in PIECES.iter().enumerate() {
                look(format!("{name} in pieces of {size}"), self.piped[row][column]);
            }
        }
        list
    }

    pub fn print(&self) {
        println!("numbers 0 to 9: {:?}; each call done: {:?}", self.numbers, self.accepted);
        let kinds = KINDS.iter().map(|k| format!("{k:?} {}", self.kinds[*k as usize]));
        println!("{}", kinds.collect::<Vec<_>>().join(", "));
        let events = EVENTS.iter().map(|e| format!("{e:?} {}", self.events[*e as usize]));
        println!("{}", events.collect::<Vec<_>>().join(", "));
    }
}
