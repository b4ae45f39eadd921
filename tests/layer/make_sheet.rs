//! The random begins and drains of the test, with calls and groups between them, and sheets that no
//! list of calls has left.

use crate::act::Act;
use crate::call::Call;
use crate::make::{put_four, scramble};
use crate::make_group::{self, filtering};
use crate::reference::Layer;
use crate::sheet::{rows, OnSheet, What, MOST, SHEET, TEXT};
use crate::table::Run;

/// Sheets as they may be before a begin: longer than needed by a few bytes or none, holding zeros,
/// anything, or what another list of calls has left in them.
pub fn sheets(run: &mut Run, last: &[Vec<u8>]) -> Vec<Vec<u8>> {
    let count = 1 + run.below(3);
    let mut sheets: Vec<Vec<u8>> = Vec::new();
    for _ in 0..count {
        let mut sheet = vec![0; SHEET + run.pick(&[0, 0, 1, 32, 40])];
        match run.below(3) {
            0 => {}
            1 => scramble(run, &mut sheet),
            _ if last.is_empty() => {}
            _ => {
                let left = &last[run.below(last.len())];
                sheet[..SHEET].copy_from_slice(&left[..SHEET]);
            }
        }
        sheets.push(sheet);
    }
    sheets
}

/// A call or a group, or one time in eight a begin or a drain; seldom where the table has no queue.
pub fn act(run: &mut Run, layer: &Layer, style: usize) -> Act {
    let seldom = if layer.objects.iter().any(|o| o.depth > 0) { 8 } else { 80 };
    if run.below(seldom) == 0 {
        return Act::Sheet(on_sheet(run, layer));
    }
    make_group::act(run, layer, style)
}

/// A begin or, more often, a drain.
fn on_sheet(run: &mut Run, layer: &Layer) -> OnSheet {
    let begins = run.below(if layer.stopped { 2 } else { 5 }) == 0;
    let what = if begins { What::Begin(objects(run, layer)) } else { drain(run) };
    OnSheet { sheet: run.below(6), lent: sheet_lent(run), what }
}

/// A begin of this sheet that is mostly right.
pub fn begin(run: &mut Run, layer: &Layer, sheet: usize) -> OnSheet {
    OnSheet { sheet, lent: sheet_lent(run), what: What::Begin(objects(run, layer)) }
}

/// A begin of this sheet that is right, with few objects.
pub fn short_begin(run: &mut Run, layer: &Layer, sheet: usize) -> OnSheet {
    let mut queued = shuffled_queued(run, layer);
    queued.truncate(1 + run.below(4));
    OnSheet { sheet, lent: usize::MAX, what: What::Begin(queued) }
}

/// A call on the way of sheet 0: mostly an arrival at one of its objects, else an indication that is
/// not good, in so many of forty a drain, or anything.
pub fn on_the_way(run: &mut Run, layer: &Layer, objects: &[u32], drains: usize) -> Act {
    let object = run.pick(objects) as usize;
    match (run.below(40), layer.objects[object].ipdu) {
        (0, Some(ipdu)) => {
            Act::Call(Call::Indication { ipdu: ipdu as u32, good: false, bytes: Vec::new() })
        }
        (0..=3, _) => act(run, layer, 0),
        (n, _) if n < 4 + drains => Act::Sheet(OnSheet { sheet: 0, lent: SHEET, what: drain(run) }),
        _ => filtering(run, layer, object),
    }
}

fn sheet_lent(run: &mut Run) -> usize {
    let any = run.below(SHEET);
    match run.below(16) {
        0 => run.pick(&[0, 1, 8, SHEET - 1, SHEET - 1, any]),
        1 => SHEET,
        _ => usize::MAX,
    }
}

fn drain(run: &mut Run) -> What {
    let byte = run.pick(&[0, b'0', b'\n', b' ', 0xA5]);
    let (any, behind) = (run.below(TEXT), run.below(20));
    let lent = match run.below(16) {
        0 => run.pick(&[0, 1, 1295, TEXT - 1, TEXT - 1, any]),
        1..=8 => TEXT,
        _ => TEXT + run.below(3000),
    };
    What::Drain(byte, lent + behind, lent)
}

// ---- Objects ----

/// The objects of a begin: queued ones, mostly none twice and no more than sixteen.
fn objects(run: &mut Run, layer: &Layer) -> Vec<u32> {
    let mut queued = shuffled_queued(run, layer);
    let all = queued.len();
    let some = run.below(all + 1);
    let count = run.pick(&[0, 1, 2, 3, some, all, all, MOST, MOST]).min(all);
    let mut list = queued.split_off(all - count.min(MOST));
    match run.below(12) {
        0 => more_than_sixteen(run, &mut list, queued),
        4 | 5 if all > MOST => more_than_sixteen(run, &mut list, queued),
        1 => twice(run, &mut list),
        2 => put(run, layer, &mut list, 0),
        3 => {
            more_than_sixteen(run, &mut list, queued);
            put(run, layer, &mut list, MOST);
        }
        _ => {}
    }
    list
}

fn shuffled_queued(run: &mut Run, layer: &Layer) -> Vec<u32> {
    let count = layer.objects.len();
    let mut list: Vec<u32> =
        (0..count).filter(|i| layer.objects[*i].depth > 0).map(|i| i as u32).collect();
    for at in 1..list.len() {
        list.swap(at, run.below(at + 1));
    }
    list
}

/// With the other queued objects behind, and where these are too few the same ones again.
fn more_than_sixteen(run: &mut Run, list: &mut Vec<u32>, others: Vec<u32>) {
    list.extend(others);
    let many = run.pick(&[17, 17, 17, 18, 33, 256, 257, 272]);
    let from = list.clone();
    if !from.is_empty() {
        *list = from.into_iter().cycle().take(many).collect();
    }
}

fn twice(run: &mut Run, list: &mut Vec<u32>) {
    if !list.is_empty() {
        let again = run.pick(list);
        if list.len() == MOST {
            list.pop();
        }
        list.insert(run.below(list.len() + 1), again);
    }
}

/// One more object, or another one, that is mostly wrong, at this place or behind it.
fn put(run: &mut Run, layer: &Layer, list: &mut Vec<u32>, from: usize) {
    let wrong = wrong(run, layer);
    let from = from.min(list.len());
    let at = from + run.below(list.len() - from + 1);
    if at < list.len() && run.below(2) == 0 {
        list[at] = wrong;
    } else {
        list.insert(at, wrong);
    }
}

/// An unqueued or sending object, or a number that is none's; low bytes are often an object's.
fn wrong(run: &mut Run, layer: &Layer) -> u32 {
    let count = layer.objects.len();
    let some = run.below(count.max(1));
    let mut all = (0..count).map(|i| (some + i) % count);
    let unqueued = all.find(|i| layer.objects[*i].depth == 0).unwrap_or(count) as u32;
    let queued = (0..count).map(|i| (some + i) % count).find(|i| layer.objects[*i].depth > 0);
    let low = queued.unwrap_or(some) as u32;
    let large = [count as u32, 128, 255, 256 + low, 65536 + low, 1 << 31 | low, u32::MAX];
    let large = run.pick(&large);
    run.pick(&[unqueued, unqueued, large])
}

// ---- Damage ----

/// Changes some numbers of a sheet; gives whether a list of calls should go on with it.
pub fn damage(run: &mut Run, layer: &Layer, sheet: &mut [u8]) -> bool {
    let count = rows(sheet).map_or(0, |rows| rows.len());
    let row = 8 + 32 * run.below(count.clamp(1, MOST));
    let (stop, least) = (u32::MAX - run.below(3) as u32, (1 << 31) + run.below(3) as u32);
    // Ten digits, the second one with a minus too where an object is signed.
    let long = run.pick(&[stop, least, least]);
    let any = run.below(8);
    match if count == MOST { run.pick(&[any, 5]) } else { any } {
        0 => {
            sheet[run.below(4)] = run.pick(&[0, 1, 2, 255]);
            false
        }
        1 => {
            let more = count as u8 + 1;
            let (at, byte) = run.pick(&[(4, 17), (4, 17), (4, more), (4, 255), (5, 1), (7, 128)]);
            sheet[at] = byte;
            false
        }
        2 => {
            let (object, other) = (wrong(run, layer), (row / 32 + 1) % count.clamp(1, MOST));
            put_four(sheet, row, object);
            if run.below(4) == 0 {
                put_four(sheet, 8 + 32 * other, object);
            }
            run.below(8) == 0
        }
        3 => {
            let other = (row / 32 + 1) % count.clamp(1, MOST);
            sheet.copy_within(8 + 32 * other..12 + 32 * other, row);
            run.below(8) == 0
        }
        4 => {
            [4, 24, 28].into_iter().for_each(|at| put_four(sheet, row + at, stop));
            true
        }
        5 => {
            for row in (8..8 + 32 * count).step_by(32) {
                [4, 24, 28].into_iter().for_each(|at| put_four(sheet, row + at, stop));
                [8, 12, 16, 20].into_iter().for_each(|at| put_four(sheet, row + at, long));
            }
            true
        }
        6 => {
            scramble(run, &mut sheet[8 + 32 * count..]);
            true
        }
        _ => {
            let at = 4 * run.below(SHEET / 4);
            let any = run.below(1 << 32) as u32;
            put_four(sheet, at, run.pick(&[0, 1, 1 << 31, any]));
            run.below(4) == 0
        }
    }
}
