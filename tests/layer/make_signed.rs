//! What signed objects need of the random tables and calls (request W-207): initial values, filter
//! constants and values around zero and around the ends of their bits; and orders that are wrong.

use super::{filtering, get_four, put_four};
use crate::call::Call;
use crate::records::{meant, Object};
use crate::reference::Layer;
use crate::table::{ipdu, join, object, right_bits, Run};

/// Half of the numbers that so many bits can mean: the least is below zero by so much.
fn half(size: usize) -> i64 {
    1 << (size - 1)
}

/// Around zero, around the least or the greatest of so many bits or of 32, or any of these bits.
pub fn value(run: &mut Run, size: usize) -> u32 {
    let any = run.below(2 * half(size) as usize) as i64 - half(size);
    let most = run.pick(&[half(size), half(size), half(32)]);
    let step = run.below(5) as i64 - 2;
    run.pick(&[any, step, -most + step, most + step]) as u32
}

/// Makes an object signed, most times, with a filter that compares, or a queue that takes any
/// value; a receiver with no I-PDU gets a sending object. Of queues fewer are made signed.
pub fn below_zero(run: &mut Run, record: &mut [u8], senders: &[usize]) {
    if run.below(if record[7] > 0 { 3 } else { 5 }) > 0 {
        record[5] |= 2;
    }
    let takes_any = record[7] > 0 && run.below(2) == 0;
    record[8] = if takes_any { 0 } else { 8 + run.below(6) as u8 };
    record[16..24].fill(0);
    if record[0] == 2 && record[1] == 255 && !senders.is_empty() {
        record[2] = run.pick(senders) as u8;
    }
}

/// A filter of a signed object that values can meet, with an initial value of either sign.
pub fn filter(run: &mut Run, record: &mut [u8]) {
    let size = record[4] as usize;
    let [initial, a, b] = [0; 3].map(|_| value(run, size));
    if run.below(4) > 0 {
        put_four(record, 12, initial);
    }
    if run.below(5) == 0 {
        return;
    }
    match record[8] {
        2 | 3 => {
            let mask = run.pick(&[0x8000_0000, 0x8000_0001, u32::MAX, get_four(record, 16)]);
            put_four(record, 16, mask);
            put_four(record, 20, a & mask);
        }
        6 | 7 => put_four(record, 16, run.pick(&[0x8000_0000, 0xFFFF_FF00, u32::MAX])),
        8 | 9 => {
            let most = half(size) as usize;
            let (below, above) = (-1 - run.below(most) as i64, run.below(most) as i64);
            let (below, above) = (below as u32, above as u32);
            let (less, more) = if meant(a, true) < meant(b, true) { (a, b) } else { (b, a) };
            let across = [(below, above), (above, below)];
            let (min, max) = run.pick(&[across[0], across[1], across[0], across[1], (less, more)]);
            put_four(record, 16, min);
            put_four(record, 20, max);
        }
        _ => {}
    }
}

/// With each filter from 8 to 13 four signed objects: one sent and one received in an I-PDU of 8
/// bytes, one sent with no I-PDU, and a receiver of it inside; a receiver has a queue now and then.
/// Then two queues of sixteen inside, one signed and one not.
pub fn comparing_table(run: &mut Run) -> Vec<u8> {
    let mut objects = Vec::new();
    for n in 0..6 {
        let sender = 4 * n + 2;
        for (kind, ipdu, sender) in [(1, 0, 255), (2, 1, 255), (1, 255, 255), (2, 255, sender)] {
            let [start, size, order] = if ipdu == 255 { [0, 32, 0] } else { right_bits(run, 8) };
            let mut record = object(&[kind, ipdu, sender, start, size, order | 2]);
            record[7] = if kind == 2 { run.pick(&[0, 0, 1, 4]) } else { 0 };
            record[8] = 8 + n;
            filter(run, &mut record);
            objects.push(record);
        }
    }
    objects.extend([0, 2].map(|order| object(&[2, 255, 2, 0, 32, order, 0, 16])));
    join(&[1, 2].map(|direction| ipdu(direction, 8, 0, [0, 0, 0, 4, 0])), &objects)
}

/// A signed object with one of the filters that compare, best a receiver inside; None without one.
pub fn comparing(run: &mut Run, layer: &Layer) -> Option<usize> {
    let filter = 8 + run.below(6) as u8;
    let is = |o: &Object| o.signed && o.filter == filter;
    let all: Vec<usize> = (0..layer.objects.len()).filter(|i| is(&layer.objects[*i])).collect();
    let inside = all.iter().copied().filter(|i| layer.objects[*i].sender.is_some());
    let inside: Vec<usize> = inside.collect();
    let best = if inside.is_empty() || run.below(4) == 0 { all } else { inside };
    (!best.is_empty()).then(|| run.pick(&best))
}

/// A call that has this object compare a value, or initialises it with one of either sign.
pub fn compare(run: &mut Run, layer: &Layer, object: usize) -> Call {
    let size = layer.objects[object].bits.len();
    match run.below(3) {
        0 => Call::Initialise { object: object as u32, value: value(run, size) },
        _ => filtering(run, layer, object),
    }
}

/// Gives an object an order that is wrong for it; a table without objects stays.
pub fn wrong_order(run: &mut Run, t: &mut [u8]) {
    let (ipdus, objects) = (t[0] as usize, t[2] as usize);
    if objects > 0 {
        let record = &mut t[16 + 16 * ipdus + 32 * run.below(objects)..][..32];
        let wrong: &[u8] = if record[1] == 255 { &[1, 3, 1, 3, 4, 255] } else { &[4, 5, 255, 128] };
        record[5] = run.pick(wrong);
    }
}
