//! What the begins and drains of the run have met.

use crate::met::{Event, Met};
use crate::reference::Layer;
use crate::sheet::{has_one_twice, rows, OnSheet, Row, What, LONGEST, MOST, SHEET, TEXT};
use crate::table::Answer;
use Event::*;

/// The refusals of a begin and of a drain: how often each number was answered, and how often
/// another one, behind it in the order, was due as well.
pub type Refused = [[[u64; 11]; 11]; 2];

/// The numbers in their order, and with each those that must have been due besides. Of the objects
/// of a wrong table nothing is known.
const ORDER: [(usize, &[usize]); 5] =
    [(5, &[6]), (6, &[7, 1, 10]), (7, &[1, 10]), (1, &[10]), (10, &[])];

impl Met {
    /// What was due and what was answered, with the layer before it and the sheet, as lent, before
    /// and after it.
    pub fn note_sheet(
        &mut self,
        on: &OnSheet,
        answer: Answer,
        due: &[u32],
        layer: &Layer,
        (was, is): (&[u8], &[u8]),
    ) {
        let kind = matches!(on.what, What::Drain(..)) as usize;
        for number in due {
            self.refused[kind][answer.number as usize][*number as usize] += 1;
        }
        let events = match &on.what {
            What::Begin(objects) => begun(objects, answer, was, layer),
            What::Drain(_, _, lent) if answer.number == 0 => {
                let mut events = drained(*lent, answer, was, is);
                events.push((DrainLongestLine, has_longest(is, layer)));
                events
            }
            What::Drain(_, _, lent) => not_drained(*lent, answer, due, was),
        };
        events.into_iter().filter(|(_, is)| *is).for_each(|(event, _)| self.note(event, 1));
    }

    /// The names of refusals that were never met.
    pub fn missing_on_sheets(&self) -> Vec<String> {
        let mut list = Vec::new();
        for (kind, name) in ["begin", "drain"].into_iter().enumerate() {
            for (number, besides) in ORDER {
                for other in [&[number], besides].concat() {
                    if self.refused[kind][number][other] == 0 {
                        list.push(format!("{name} with {number}, and {other} due"));
                    }
                }
            }
        }
        list
    }

    pub fn print_on_sheets(&self) {
        for (kind, name) in ["begins", "drains"].into_iter().enumerate() {
            let times = ORDER.map(|(number, _)| (number, self.refused[kind][number][number]));
            println!("{name} refused with each number: {times:?}");
        }
    }
}

type Events = Vec<(Event, bool)>;

fn begun(objects: &[u32], answer: Answer, sheet: &[u8], layer: &Layer) -> Events {
    let count = layer.objects.len();
    let queued = |i: u32| layer.objects.get(i as usize).is_some_and(|o| o.depth > 0);
    let some = |is: &dyn Fn(usize) -> bool| objects.iter().any(|i| is(*i as usize));
    let past = objects.iter().position(|i| !queued(*i)).is_some_and(|at| at >= MOST);
    let (one, twice) = (answer.number == 1, has_one_twice(objects));
    let sends = |i: usize| layer.objects.get(i).is_some_and(|o| o.sends);
    let unqueued = |i: usize| i < count && !sends(i) && !queued(i as u32);
    vec![
        (BeginEmpty, answer.number == 0 && objects.is_empty()),
        (BeginSixteen, answer.number == 0 && objects.len() == MOST),
        (BeginShortSheet, answer.number == 6 && sheet.len() < SHEET),
        (BeginSheetOf519, answer.number == 6 && sheet.len() == SHEET - 1),
        (BeginSheetOf520, answer.number == 0 && sheet.len() == SHEET),
        (BeginSending, one && some(&sends)),
        (BeginUnqueued, one && some(&unqueued)),
        (BeginTooLarge, one && some(&|i| i >= count && i < 256)),
        (BeginAbove255, one && some(&|i| i > 255 && queued(i as u32 % 256))),
        (BeginWrongPastSixteen, one && past),
        (BeginSeventeen, answer.number == 10 && objects.len() == MOST + 1 && !twice),
        (BeginTwice, answer.number == 10 && objects.len() <= MOST && twice),
    ]
}

fn drained(text: usize, answer: Answer, was: &[u8], is: &[u8]) -> Events {
    let (was, is) = (rows(was).unwrap_or_default(), rows(is).unwrap_or_default());
    let stops = |at: usize| was.iter().any(|row| row.numbers()[at] == u32::MAX);
    let reaches = |at: usize| {
        let mut both = was.iter().zip(&is);
        both.any(|(was, is)| was.numbers()[at] < u32::MAX && is.numbers()[at] == u32::MAX)
    };
    let moved = |row: usize| was[row].last != is[row].last;
    vec![
        (DrainTextOf1536, text == TEXT),
        // Sixteen lines of seven numbers with ten digits.
        (DrainLongLines, answer.value > 16 * 78),
        (DrainCountStops, (0..was.len()).any(|row| was[row].drained == u32::MAX && moved(row))),
        (DrainCountReachesItsEnd, reaches(1)),
        (DrainOverflowsStop, stops(6)),
        (DrainOverflowsReachTheirEnd, reaches(6)),
        (DrainErrorsStop, stops(7)),
        (DrainErrorsReachTheirEnd, reaches(7)),
    ]
}

/// Whether one of a sheet's lines is as long as may be, but for the number of its object.
fn has_longest(sheet: &[u8], layer: &Layer) -> bool {
    let length = |row: &Row| row.line(layer.is_signed(row.object)).len();
    rows(sheet).iter().flatten().any(|row| length(row) >= LONGEST - 2)
}

fn not_drained(text: usize, answer: Answer, due: &[u32], sheet: &[u8]) -> Events {
    let six = answer.number == 6;
    let head = if sheet.len() < SHEET { None } else { sheet.first_chunk::<8>() };
    let begun = |head: &[u8; 8]| head[..4] == [1, 0, 0, 0];
    let zeros = |head: &[u8; 8]| head[..4] == [0; 4];
    let seventeen = |head: &[u8; 8]| begun(head) && head[4..] == [17, 0, 0, 0];
    let by_high_byte = |head: &[u8; 8]| begun(head) && head[4] <= 16 && head[5..] != [0; 3];
    let begun_by_high_byte = |head: &[u8; 8]| head[0] == 1 && head[1..4] != [0; 3];
    vec![
        (DrainShortSheet, six && sheet.len() < SHEET),
        (DrainShortText, six && text < TEXT && rows(sheet).is_some()),
        (DrainTextOf1535, six && text == TEXT - 1 && due == [6]),
        (DrainNeverBegun, six && head.is_some_and(zeros)),
        (DrainBegunOtherwise, six && head.is_some_and(begun_by_high_byte)),
        (DrainSeventeen, six && head.is_some_and(seventeen)),
        (DrainCountByHighByte, six && head.is_some_and(by_high_byte)),
    ]
}
