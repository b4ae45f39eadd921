//! Right lines made unreadable, each by one fault.

use crate::lines::{long_indication, write};
use crate::table::Run;

#[derive(Clone, Copy, Debug, PartialEq)]
pub enum Kind {
    BlankLine,
    BlanksAlone,
    CarriageReturn,
    TwoBlanks,
    LeadingBlank,
    TrailingBlank,
    NoBlank,
    Tab,
    LowerHex,
    OddHex,
    NoHexDigit,
    BlankInHex,
    Plus,
    /// A minus in front of a number of an object or I-PDU, and of good.
    MinusNumber,
    MinusGood,
    /// Values: -0, with zeros behind the minus, two minuses, a minus alone, too far below zero, a
    /// minus behind a digit, with a blank or a plus behind it.
    MinusZero,
    MinusLeadingZero,
    TwoMinuses,
    MinusAlone,
    MinusTooFar,
    MinusBehind,
    MinusApart,
    MinusPlus,
    LeadingZero,
    Above32Bits,
    FarAbove32Bits,
    NoDecimal,
    GoodIsTwo,
    GoodIsMore,
    UnknownName,
    NameCut,
    NameLengthened,
    NameUpper,
    NameWithBlank,
    FieldMissing,
    FieldTooMany,
    ByteZero,
    HighByte,
    LongName,
    LongNumber,
    LongBlanks,
    LongHexFaultAtEnd,
    /// The line is right, but the last one, and without its line feed.
    NoLineFeed,
}
use Kind::*;

#[rustfmt::skip]
pub const KINDS: [Kind; 43] = [
    BlankLine, BlanksAlone, CarriageReturn, TwoBlanks, LeadingBlank, TrailingBlank, NoBlank, Tab,
    LowerHex, OddHex, NoHexDigit, BlankInHex, Plus, MinusNumber, MinusGood, MinusZero,
    MinusLeadingZero, TwoMinuses, MinusAlone, MinusTooFar, MinusBehind, MinusApart, MinusPlus,
    LeadingZero, Above32Bits, FarAbove32Bits, NoDecimal, GoodIsTwo, GoodIsMore, UnknownName,
    NameCut, NameLengthened, NameUpper, NameWithBlank, FieldMissing, FieldTooMany, ByteZero, HighByte, LongName, LongNumber,
    LongBlanks, LongHexFaultAtEnd, NoLineFeed,
];

/// Faults of the value of a send or an initialise.
#[rustfmt::skip]
const OF_VALUES: [Kind; 8] = [
    MinusZero, MinusLeadingZero, TwoMinuses, MinusAlone, MinusTooFar, MinusBehind, MinusApart,
    MinusPlus,
];

#[rustfmt::skip]
const NO_NAMES: [&str; 14] = [
    "sleep", "group", "send_label 0 00", "send_bell 0", "receive_label 0", "check", "end", "#",
    "// tick", "tick; tick", "9 1", "0", "stopp_periodic", "initialize 0 0",
];

/// Above 32 bits: the least, some that are small or the same in their low 32 or 64 bits, others.
#[rustfmt::skip]
const TOO_LARGE: [&str; 10] = [
    "4294967296", "4294967297", "4294967299", "4294967305", "5000000000", "8589934592",
    "9999999999", "42949672950", "18446744073709551615", "18446744073709551616",
];

/// Below -2,147,483,648: the greatest, some whose low 32 or 64 bits are small or at an end, others.
#[rustfmt::skip]
const TOO_FAR: [&str; 10] = [
    "-2147483649", "-2147483650", "-2999999999", "-4294967295", "-4294967296", "-4294967297",
    "-6442450944", "-9999999999", "-18446744073709551615", "-21474836480",
];

/// How many bytes a long indication has; some end near a power of two of the line's bytes.
pub const LONG: [usize; 8] = [9, 100, 2041, 2048, 4096, 32761, 32768, 100_000];

fn with(line: &[u8], at: usize, byte: u8) -> Vec<u8> {
    [&line[..at], &[byte], &line[at..]].concat()
}

/// A byte put in or in the place of another.
fn strange(run: &mut Run, line: &[u8], byte: u8) -> Vec<u8> {
    let at = run.below(line.len() + 1);
    let from = if run.below(2) == 0 { at } else { line.len().min(at + 1) };
    [&line[..at], &[byte], &line[from..]].concat()
}

fn blank(run: &mut Run, line: &[u8]) -> Option<usize> {
    let blanks: Vec<usize> = (0..line.len()).filter(|i| line[*i] == b' ').collect();
    if blanks.is_empty() {
        return None;
    }
    Some(run.pick(&blanks))
}

/// The line with this fault; None where this line can't have it.
pub fn damaged(run: &mut Run, kind: Kind, line: &[u8]) -> Option<Vec<u8>> {
    let end = line.len();
    Some(match kind {
        BlankLine => Vec::new(),
        BlanksAlone => vec![b' '; 1 + run.below(4)],
        CarriageReturn => with(line, run.pick(&[0, end, end, end]), b'\r'),
        TwoBlanks => with(line, blank(run, line)?, b' '),
        LeadingBlank => with(line, 0, b' '),
        TrailingBlank => with(line, end, b' '),
        NoBlank => {
            let at = blank(run, line)?;
            [&line[..at], &line[at + 1..]].concat()
        }
        Tab => match (run.below(3), blank(run, line)) {
            (0, _) | (1, None) => with(line, run.pick(&[0, end]), b'\t'),
            (_, Some(at)) => [&line[..at], b"\t", &line[at + 1..]].concat(),
            (_, None) => return None,
        },
        NameWithBlank => {
            let at = line.iter().position(|b| *b == b'_')?;
            [&line[..at], run.pick(&[" ", "-", ""]).as_bytes(), &line[at + 1..]].concat()
        }
        ByteZero => strange(run, line, 0),
        HighByte => {
            let byte = 128 + run.below(128) as u8;
            strange(run, line, byte)
        }
        UnknownName => run.pick(&NO_NAMES).as_bytes().to_vec(),
        LongBlanks => with_middle(line, blank(run, line).unwrap_or(end), &vec![b' '; 100_000]),
        LongHexFaultAtEnd => {
            let (count, fault) = (run.pick(&LONG), run.below(FAULTS_AT_END));
            long_hex(run, count, fault)
        }
        NoLineFeed => line.to_vec(),
        _ => return in_a_field(run, kind, line),
    })
}

fn with_middle(line: &[u8], at: usize, middle: &[u8]) -> Vec<u8> {
    [&line[..at], middle, &line[at..]].concat()
}

pub const FAULTS_AT_END: usize = 6;

/// An indication with so many bytes and a fault at the very end.
pub fn long_hex(run: &mut Run, count: usize, fault: usize) -> Vec<u8> {
    let mut line = write(&long_indication(run, count));
    let last = line.len() - 1;
    match fault {
        0 => line[last] = b'a' + run.below(6) as u8,
        1 => line[last] = run.pick(b"/:@G`g\0\xC1"),
        2 => line.truncate(last),
        3 => line.push(run.pick(b"0F")),
        4 => line.push(b' '),
        _ => line.push(b'\r'),
    }
    line
}

/// Faults of one field: the first is the name, then come at most two decimals, then the bytes.
fn in_a_field(run: &mut Run, kind: Kind, line: &[u8]) -> Option<Vec<u8>> {
    let mut fields: Vec<Vec<u8>> = line.split(|b| *b == b' ').map(|f| f.to_vec()).collect();
    let decimals = fields.len().min(3) - 1;
    // A line that has another fault already may have an empty field.
    if fields.iter().any(|f| f.is_empty()) {
        return None;
    }
    match kind {
        NameCut | NameLengthened | NameUpper | LongName => name(run, kind, &mut fields[0]),
        Plus | LeadingZero | Above32Bits | FarAbove32Bits | NoDecimal | LongNumber => {
            if decimals == 0 {
                return None;
            }
            let at = 1 + run.below(decimals);
            decimal(run, kind, &mut fields[at]);
        }
        MinusNumber => fields.get_mut(1)?.insert(0, b'-'),
        MinusGood => {
            if !is_one_of(&fields, &["indication", "confirm"]) {
                return None;
            }
            fields.get_mut(2)?.insert(0, b'-');
        }
        _ if OF_VALUES.contains(&kind) => {
            if !is_one_of(&fields, &["send", "initialise"]) {
                return None;
            }
            minus(run, kind, fields.get_mut(2)?);
        }
        LowerHex | OddHex | NoHexDigit | BlankInHex => hex(run, kind, fields.get_mut(3)?)?,
        GoodIsTwo | GoodIsMore => {
            if !is_one_of(&fields, &["indication", "confirm"]) || decimals < 2 {
                return None;
            }
            let more = ["3", "7", "10", "11", "00", "01", "255", "256", "4294967295", "A"];
            fields[2] = if kind == GoodIsTwo { "2" } else { run.pick(&more) }.into();
        }
        FieldMissing => {
            if decimals == 0 {
                return None;
            }
            fields.remove(run.below(1 + decimals));
        }
        FieldTooMany => {
            // An indication with no bytes may get some; one digit can't be read anywhere.
            let may = fields[0] == b"indication" && fields.len() == 3;
            let more: &[&str] = if may { &["0", "7"] } else { &["0", "7", "00", "FF"] };
            fields.push(run.pick(more).into());
        }
        _ => unreachable!("{kind:?} is no fault of a field"),
    }
    Some(fields.join(&b' '))
}

fn is_one_of(fields: &[Vec<u8>], names: &[&str]) -> bool {
    names.iter().any(|name| name.as_bytes() == fields[0])
}

/// A value with a minus that can't be read; with another fault already it may have no digit.
fn minus(run: &mut Run, kind: Kind, value: &mut Vec<u8>) {
    let digits: Vec<u8> = value.iter().copied().filter(u8::is_ascii_digit).collect();
    let digits = std::str::from_utf8(&digits).expect("digits");
    let (front, back) = digits.split_at((1 + run.below(10)).min(digits.len()));
    *value = match kind {
        MinusZero => String::from("-0"),
        MinusLeadingZero => format!("-{}{digits}", run.pick(&["0", "00", "0000000000"])),
        TwoMinuses => format!("-{}{digits}", run.pick(&["-", "--", "-0-"])),
        MinusAlone => String::from(run.pick(&["-", "-", "--"])),
        MinusTooFar => String::from(run.pick(&TOO_FAR)),
        MinusBehind => format!("{front}-{back}"),
        MinusApart => format!("- {digits}"),
        _ => format!("{}{digits}", run.pick(&["-+", "+-"])),
    }
    .into_bytes();
}

fn name(run: &mut Run, kind: Kind, name: &mut Vec<u8>) {
    let (first, at) = (run.below(3) == 0, run.below(name.len()));
    match kind {
        NameCut if first => drop(name.remove(0)),
        NameCut => drop(name.pop()),
        NameLengthened => {
            let letter = run.pick(b"aest_0S");
            name.insert(if first { at } else { name.len() }, letter);
        }
        NameUpper if first => name.make_ascii_uppercase(),
        NameUpper if name[at] == b'_' => name[0].make_ascii_uppercase(),
        NameUpper => name[at].make_ascii_uppercase(),
        _ if first => *name = vec![b'a' + run.below(26) as u8; run.pick(&LONG)],
        _ => name.extend(vec![b'k'; run.pick(&LONG)]),
    }
}

fn decimal(run: &mut Run, kind: Kind, field: &mut Vec<u8>) {
    match kind {
        Plus => field.insert(0, b'+'),
        LeadingZero => drop(field.splice(0..0, vec![b'0'; run.pick(&[1, 1, 2, 9, 10])])),
        Above32Bits => *field = run.pick(&TOO_LARGE).into(),
        FarAbove32Bits => *field = vec![b'1' + run.below(9) as u8; 21 + run.below(500)],
        NoDecimal => {
            let at = run.below(field.len() + 1);
            field.insert(at, run.pick(b"/:aAxe._,'"));
        }
        _ => {
            let digit = run.pick(b"0019");
            field.extend(vec![digit; run.pick(&LONG) + 10]);
            if digit == b'0' {
                field[0] = run.pick(b"01");
            }
            if run.below(3) == 0 {
                field.insert(0, b'-');
            }
        }
    }
}

fn hex(run: &mut Run, kind: Kind, field: &mut Vec<u8>) -> Option<()> {
    let at = run.below(field.len());
    match kind {
        LowerHex => {
            let letters: Vec<usize> =
                (0..field.len()).filter(|i| field[*i].is_ascii_uppercase()).collect();
            let all = run.below(3) == 0;
            let one = letters.get(at % letters.len().max(1))?;
            if all {
                field.make_ascii_lowercase();
            }
            field[*one].make_ascii_lowercase();
        }
        OddHex if run.below(2) == 0 => field.insert(at, run.pick(b"0F")),
        OddHex => drop(field.remove(at)),
        NoHexDigit if run.below(4) == 0 => drop(field.splice(0..0, *b"0x")),
        NoHexDigit => field[at] = run.pick(b"/:@G`g-+.xZ"),
        _ if field.len() < 4 => return None,
        _ => field.insert(2 * (1 + run.below(field.len() / 2 - 1)), b' '),
    }
    Some(())
}
