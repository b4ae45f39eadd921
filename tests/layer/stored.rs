//! The state of the reference beside the stored numbers of a working memory, by the list in
//! docs/MEMORY.md. Left free are numbers that nothing can ask for: the deadline of a request
//! that is not open, a countdown that does not run, an I-PDU's bytes behind its length, the
//! value of an object that is no unqueued receive object, and where in its ring a queue begins.

use crate::reference::Layer;
use std::collections::VecDeque;

/// Byte 0 of a layer that runs, 0 or 1; of a stopped one it is the other of the two.
pub const RUNS: u8 = 1;

/// Byte 0, of a stopped layer or not.
pub fn first_byte(stopped: bool) -> u8 {
    if stopped {
        1 - RUNS
    } else {
        RUNS
    }
}

/// Whether a memory in its ranges is that of a stopped layer.
pub fn stopped(memory: &[u8]) -> bool {
    memory[0] != RUNS
}

fn two(bytes: &[u8], at: usize) -> u16 {
    u16::from_le_bytes([bytes[at], bytes[at + 1]])
}

fn four(bytes: &[u8], at: usize) -> u32 {
    two(bytes, at) as u32 + 65536 * two(bytes, at + 2) as u32
}

/// Gives the reference the state that a memory in its ranges stores; of an I-PDU's bytes all 8.
pub fn read(layer: &mut Layer, memory: &[u8]) {
    layer.stopped = stopped(memory);
    for (k, p) in layer.ipdus.iter_mut().enumerate() {
        let row = &memory[16 + 16 * k..][..16];
        [p.open, p.wanted, p.running] = [0, 1, 2].map(|at| row[at] == 1);
        [p.delay, p.deadline_left, p.countdown, p.timer] = [4, 6, 8, 10].map(|at| two(row, at));
        p.bytes.copy_from_slice(&memory[528 + 8 * k..][..8]);
    }
    for (i, o) in layer.objects.iter_mut().enumerate() {
        let row = &memory[784 + 16 * i..][..16];
        [o.value, o.old] = [0, 4].map(|at| four(row, at));
        [o.occurrence, o.marks] = [8, 9].map(|at| row[at]);
        o.overflow = row[10] == 1;
        o.queue = queue(o.depth, row, memory);
    }
}

/// The values in the queue of an object, the oldest first.
fn queue(depth: usize, row: &[u8], memory: &[u8]) -> VecDeque<u32> {
    let (oldest, count) = (row[11] as usize, row[12] as usize);
    let first = 2832 + 4 * two(row, 14) as usize;
    (0..count).map(|n| four(memory, first + 4 * ((oldest + n) % depth))).collect()
}

/// What is stored otherwise than the reference has it; the memory is in its ranges.
pub fn difference(layer: &Layer, memory: &[u8]) -> Option<String> {
    if memory[0] != first_byte(layer.stopped) {
        return Some("stopped".to_string());
    }
    for (k, p) in layer.ipdus.iter().enumerate() {
        let row = &memory[16 + 16 * k..][..16];
        let right = [
            ("open", row[0] == p.open as u8),
            ("wanted", row[1] == p.wanted as u8),
            ("running", row[2] == p.running as u8),
            ("delay", two(row, 4) == p.delay),
            ("deadline", !p.open || two(row, 6) == p.deadline_left),
            ("countdown", !p.running || two(row, 8) == p.countdown),
            ("timer", two(row, 10) == p.timer),
            ("bytes", memory[528 + 8 * k..][..p.length] == p.bytes[..p.length]),
        ];
        if let Some((name, _)) = right.iter().find(|(_, right)| !right) {
            return Some(format!("{name} of I-PDU {k}"));
        }
    }
    for (i, o) in layer.objects.iter().enumerate() {
        let row = &memory[784 + 16 * i..][..16];
        let unqueued = !o.sends && o.depth == 0;
        let right = [
            ("value", !unqueued || four(row, 0) == o.value),
            ("old", four(row, 4) == o.old),
            ("occurrence", row[8] == o.occurrence),
            ("marks", row[9] == o.marks),
            ("overflow", row[10] == o.overflow as u8),
            ("queue", queue(o.depth, row, memory) == o.queue),
        ];
        if let Some((name, _)) = right.iter().find(|(_, right)| !right) {
            return Some(format!("{name} of object {i}"));
        }
    }
    None
}

/// Stores the state; for the stand-in of `--cfg own`. A queue that has other values than those
/// stored is put from its first place on.
#[cfg(own)]
pub fn write(layer: &Layer, memory: &mut [u8]) {
    memory[0] = first_byte(layer.stopped);
    for (k, p) in layer.ipdus.iter().enumerate() {
        let row = &mut memory[16 + 16 * k..][..16];
        row[..3].copy_from_slice(&[p.open as u8, p.wanted as u8, p.running as u8]);
        let ticks = [p.delay, p.deadline_left, p.countdown, p.timer];
        row[4..12].copy_from_slice(&ticks.map(u16::to_le_bytes).concat());
        memory[528 + 8 * k..][..8].copy_from_slice(&p.bytes);
    }
    let mut place: u16 = 0;
    for (i, o) in layer.objects.iter().enumerate() {
        let row = &mut memory[784 + 16 * i..][..16];
        row[..8].copy_from_slice(&[o.value, o.old].map(u32::to_le_bytes).concat());
        row[8..11].copy_from_slice(&[o.occurrence, o.marks, o.overflow as u8]);
        row[14..].copy_from_slice(&place.to_le_bytes());
        if queue(o.depth, &memory[784 + 16 * i..][..16], memory) != o.queue {
            memory[784 + 16 * i..][11..13].copy_from_slice(&[0, o.queue.len() as u8]);
            for (n, v) in o.queue.iter().enumerate() {
                memory[2832 + 4 * (place as usize + n)..][..4].copy_from_slice(&v.to_le_bytes());
            }
        }
        place += o.depth as u16;
    }
}
