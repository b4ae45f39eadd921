//! Memories that no list of calls need have left: with changed bytes, with the count of one object
//! changed, with any numbers that are in their ranges by docs/MEMORY.md, and with zeros alone.

use crate::make::{often_filtered, scramble};
use crate::records::{Ipdu, Object};
use crate::reference::Layer;
use crate::stored::first_byte;
use crate::table::Run;

/// A changed copy of a memory.
pub fn changed(run: &mut Run, layer: &Layer, memory: &[u8]) -> Vec<u8> {
    let mut memory = memory.to_vec();
    match run.below(10) {
        0 => memory.fill(0),
        1..=4 => corrupt(run, layer, &mut memory),
        5 => change_count(run, layer, &mut memory),
        6 | 7 => any_in_range(run, layer, &mut memory),
        _ => {
            any_in_range(run, layer, &mut memory);
            corrupt(run, layer, &mut memory);
        }
    }
    memory
}

/// Whether a memory holds zeros alone, as static storage does before the first start.
pub fn is_zeros(memory: &[u8]) -> bool {
    memory.iter().all(|b| *b == 0)
}

/// Changes one to three bytes, most of them in the rows of the table's I-PDUs and objects.
fn corrupt(run: &mut Run, layer: &Layer, memory: &mut [u8]) {
    for _ in 0..run.pick(&[1, 1, 2, 3]) {
        let at = match run.below(10) {
            0 => run.below(16),
            1..=4 => 16 + 16 * run.below(layer.ipdus.len().max(1)) + run.below(16),
            5 => 784 + 16 * run.below(layer.objects.len().max(1)) + run.below(8),
            6..=8 => 784 + 16 * run.below(layer.objects.len().max(1)) + 8 + run.below(8),
            _ => run.below(memory.len()),
        };
        let (less, more) = (memory[at].wrapping_sub(1), memory[at].wrapping_add(1));
        let noise = run.below(256) as u8;
        memory[at] = run.pick(&[0, 1, 2, 15, 16, less, more, more, noise]);
    }
}

/// Changes the count of one object, most times to one beside the end of its range.
fn change_count(run: &mut Run, layer: &Layer, memory: &mut [u8]) {
    if layer.objects.is_empty() {
        return;
    }
    let any = run.below(layer.objects.len());
    let i = often_filtered(run, layer).filter(|_| run.below(2) == 0).unwrap_or(any);
    let (most, any) = (greatest_count(&layer.objects[i]) as u8, run.below(256) as u8);
    memory[784 + 16 * i + 8] = run.pick(&[most, most, most + 1, most + 1, 255, any]);
}

/// Where two memories differ in the count of one object alone: the object, and the later count.
pub fn count_alone<'a>(layer: &'a Layer, before: &[u8], after: &[u8]) -> Option<(&'a Object, u32)> {
    let mut differing = (0..before.len()).filter(|&at| before[at] != after[at]);
    let (at, None) = (differing.next()?, differing.next()) else {
        return None;
    };
    let mut places = layer.objects.iter().enumerate().map(|(i, o)| (784 + 16 * i + 8, o));
    places.find(|(place, _)| *place == at).map(|(_, o)| (o, after[at] as u32))
}

fn greatest_count(o: &Object) -> u16 {
    if o.filter == 14 {
        o.first as u16 - 1
    } else {
        0
    }
}

/// Gives every stored number some value in its range, the least and the greatest ones often, and
/// all other bytes any value.
fn any_in_range(run: &mut Run, layer: &Layer, memory: &mut [u8]) {
    scramble(run, memory);
    memory[0] = first_byte(run.below(8) == 0);
    for (k, p) in layer.ipdus.iter().enumerate() {
        ipdu_row(run, p, &mut memory[16 + 16 * k..][..16]);
    }
    let mut lower_depths: u16 = 0;
    for (i, o) in layer.objects.iter().enumerate() {
        let row = &mut memory[784 + 16 * i..][..16];
        object_row(run, o, row);
        row[14..].copy_from_slice(&lower_depths.to_le_bytes());
        lower_depths += o.depth as u16;
    }
}

fn ipdu_row(run: &mut Run, p: &Ipdu, row: &mut [u8]) {
    let countdown = p.period.max(p.offset);
    let (flags, ticks) = if p.sends {
        ([1, 1, (p.mode != 0) as u16], [p.minimum_delay, p.deadline, countdown, 0])
    } else {
        ([0; 3], [0, 0, 0, p.first_deadline.max(p.deadline)])
    };
    for (at, most) in flags.into_iter().enumerate() {
        row[at] = up_to(run, most) as u8;
    }
    for (n, most) in ticks.into_iter().enumerate() {
        row[4 + 2 * n..][..2].copy_from_slice(&up_to(run, most).to_le_bytes());
    }
}

/// The bytes 8 to 12; the ones before them may be any.
fn object_row(run: &mut Run, o: &Object, row: &mut [u8]) {
    let depth = o.depth as u16;
    let most = [greatest_count(o), 15, 1, depth.saturating_sub(1), depth];
    for (n, most) in most.into_iter().enumerate() {
        row[8 + n] = up_to(run, most) as u8;
    }
}

fn up_to(run: &mut Run, most: u16) -> u16 {
    let any = run.below(most as usize + 1) as u16;
    run.pick(&[0, 1.min(most), most, any])
}
