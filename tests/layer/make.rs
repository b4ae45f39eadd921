//! The random tables, damage, memories before a start, and calls of the test. The maker of calls
//! looks at the state of the reference only to choose arguments that meet interesting places.

#[path = "make_signed.rs"]
pub mod signed;

use crate::call::Call;
use crate::records::{overlap, pack, Object};
use crate::reference::Layer;
use crate::table::{place, right_table, Run, WORDS};

fn word(run: &mut Run) -> u32 {
    run.below(1 << 32) as u32
}

fn get_two(t: &[u8], at: usize) -> usize {
    u16::from_le_bytes([t[at], t[at + 1]]) as usize
}

pub fn get_four(t: &[u8], at: usize) -> u32 {
    u32::from_le_bytes([t[at], t[at + 1], t[at + 2], t[at + 3]])
}

pub fn put_four(t: &mut [u8], at: usize, value: u32) {
    t[at..at + 4].copy_from_slice(&value.to_le_bytes());
}

// ---- Tables ----

/// A right table; most have send objects that share bits. One in ten has a signed object of every
/// sort with each filter that compares.
pub fn right(run: &mut Run) -> Vec<u8> {
    if run.below(10) == 0 {
        return signed::comparing_table(run);
    }
    let mut t = some_right(run);
    for _ in 0..run.below(3) {
        if !overlap(&Layer::new(&t).objects) {
            t = some_right(run);
        }
    }
    t
}

/// With short times and queues, and filters that values can meet; one table in six has many
/// objects with filter 14, and of the receivers inside one in four has it. In one of three most
/// objects are signed, with filters that compare, and more receivers are inside.
fn some_right(run: &mut Run) -> Vec<u8> {
    let (ipdus, objects) = match run.below(12) {
        0 => (run.pick(&[0, 0, 1]), run.pick(&[0, 1, 6])),
        1..=7 => (1 + run.below(4), 1 + run.below(10)),
        8 | 9 => (1 + run.below(12), 1 + run.below(40)),
        _ => (run.pick(&[20, 31, 32]), run.pick(&[100, 127, 128])),
    };
    let mut t = right_table(run, ipdus, objects);
    for record in t[16..16 + 16 * ipdus].chunks_mut(16) {
        shorter_times(run, record);
    }
    let (counts, below_zero) = (run.below(6) == 0, run.below(3) == 0);
    let is_sender = |at: &usize| t[16 + 16 * ipdus + 32 * at] == 1;
    let senders: Vec<usize> = (0..objects).filter(is_sender).collect();
    for record in t[16 + 16 * ipdus..].chunks_mut(32) {
        shorter_queue(run, record);
        if below_zero {
            signed::below_zero(run, record, &senders);
        }
        milder_filter(run, record);
        if record[5] >= 2 {
            signed::filter(run, record);
        }
        let inside = record[2] != 255;
        if (counts && run.below(2) == 0) || (inside && run.below(4) == 0) {
            let most = run.pick(&[4, 8, 255]);
            one_in(run, record, most);
            record[7] = record[7].min(1 + run.below(2) as u8);
        }
    }
    t
}

/// A time that is zero stays zero, so the record stays right.
fn shorter_times(run: &mut Run, record: &mut [u8]) {
    for at in [4, 6, 8, 10, 12] {
        if get_two(record, at) > 0 && run.below(10) > 0 {
            record[at] = 1 + run.below(5) as u8;
            record[at + 1] = 0;
        }
    }
}

/// No depth rises, so the sum stays right.
fn shorter_queue(run: &mut Run, record: &mut [u8]) {
    match run.below(6) {
        0 | 1 => record[7] = 0,
        2 | 3 => record[7] = record[7].min(1 + run.below(4) as u8),
        _ => {}
    }
}

fn milder_filter(run: &mut Run, record: &mut [u8]) {
    if run.below(2) == 0 {
        let small = run.below(6) as u32;
        let initial = [small, word(run)];
        put_four(record, 12, run.pick(&initial));
    }
    let (first, second) = (get_four(record, 16), get_four(record, 20));
    match record[8] {
        2 | 3 if run.below(4) > 0 => {
            let mask = run.pick(&[1, 3, 0xFF, 0x8000_0001, first]);
            put_four(record, 16, mask);
            put_four(record, 20, second & mask);
        }
        6 | 7 if run.below(2) == 0 => put_four(record, 16, run.pick(&[1, 6, 0xF0])),
        8 | 9 if first > second && run.below(4) > 0 => {
            put_four(record, 16, second);
            put_four(record, 20, first);
        }
        14 if run.below(2) == 0 => one_in(run, record, 4),
        _ => {}
    }
}

/// Filter 14 with a period of at most so many.
fn one_in(run: &mut Run, record: &mut [u8], most: usize) {
    let period = 1 + run.below(most);
    record[8] = 14;
    put_four(record, 16, period as u32);
    put_four(record, 20, run.below(period) as u32);
}

/// The table with some bytes changed, cut or longer, so that it is wrong.
pub fn wrong(run: &mut Run, right: &[u8]) -> Vec<u8> {
    loop {
        let mut t = right.to_vec();
        match run.below(7) {
            0 => t.truncate(run.below(t.len())),
            1 => t.extend(vec![0; 1 + run.below(32)]),
            2 => signed::wrong_order(run, &mut t),
            _ => {
                for _ in 0..1 + run.below(2) {
                    let at = run.below(t.len());
                    t[at] = run.below(256) as u8;
                }
            }
        }
        if place(&t).is_some() {
            return t;
        }
    }
}

// ---- Memories ----

/// A memory as it may be before a start: at least 8,192 bytes, holding anything.
pub fn memory(run: &mut Run) -> Vec<u8> {
    let one = run.pick(&[1, 0x5A, 0xA5, 0xFF]);
    let mut memory = [one; 8192].to_vec();
    memory.resize(8192 + run.pick(&[0, 0, 1, 8, 100]), one);
    if run.below(3) > 0 {
        scramble(run, &mut memory);
    }
    memory
}

pub fn scramble(run: &mut Run, bytes: &mut [u8]) {
    for part in bytes.chunks_mut(4) {
        let noise = word(run).to_le_bytes();
        part.copy_from_slice(&noise[..part.len()]);
    }
}

// ---- Calls ----

/// How often each call is made, in the order of document 01, tick last.
const STYLES: [[usize; 13]; 4] = [
    [1, 1, 20, 4, 14, 6, 8, 2, 2, 1, 16, 8, 20],
    [1, 1, 60, 4, 6, 3, 6, 1, 2, 1, 6, 16, 14],
    [1, 1, 12, 3, 14, 8, 8, 2, 1, 1, 50, 2, 10],
    [1, 1, 12, 2, 5, 2, 16, 10, 3, 1, 10, 8, 60],
];

pub fn call(run: &mut Run, layer: &Layer, style: usize) -> Call {
    if layer.stopped && run.below(5) == 0 {
        return Call::Start;
    }
    let mut weights = STYLES[style % STYLES.len()];
    make_hopeless_rare(layer, &mut weights);
    let mut left = run.below(weights.iter().sum());
    let mut kind = 0;
    while left >= weights[kind] {
        left -= weights[kind];
        kind += 1;
    }
    match kind {
        0 => Call::Start,
        1 => Call::Stop,
        2 => {
            let object = object_number(run, layer, |o| o.sends);
            Call::Send { object, value: value_for(run, layer, object) }
        }
        3 => {
            let object = object_number(run, layer, |_| true);
            Call::Initialise { object, value: value_for(run, layer, object) }
        }
        4 if run.below(4) == 0 => {
            Call::Receive { object: object_number(run, layer, |o| o.overflow) }
        }
        4 if run.below(4) == 0 => Call::Receive { object: object_number(run, layer, is_whole) },
        4 => Call::Receive { object: object_number(run, layer, |o| !o.sends) },
        5 => Call::Status { object: object_number(run, layer, |o| o.depth > 0) },
        6 if run.below(4) == 0 => Call::Marks { object: object_number(run, layer, |o| o.overflow) },
        6 => Call::Marks { object: object_number(run, layer, |_| true) },
        7 if run.below(3) == 0 => Call::ClearMarks { object: object_number(run, layer, is_full) },
        7 => Call::ClearMarks { object: object_number(run, layer, |_| true) },
        8 => Call::StartPeriodic,
        9 => Call::StopPeriodic,
        10 => indication(run, layer),
        11 => confirm(run, layer),
        _ => Call::Tick,
    }
}

/// A call that can only be refused over this table, for want of an object or I-PDU of the right
/// kind, is made seldom.
fn make_hopeless_rare(layer: &Layer, weights: &mut [usize; 13]) {
    let possible = [
        (2, layer.objects.iter().any(|o| o.sends)),
        (3, !layer.objects.is_empty()),
        (4, layer.objects.iter().any(|o| !o.sends)),
        (5, layer.objects.iter().any(|o| o.depth > 0)),
        (10, layer.ipdus.iter().any(|p| !p.sends)),
        (11, layer.ipdus.iter().any(|p| p.sends)),
    ];
    for (kind, possible) in possible {
        if !possible {
            weights[kind] = 1;
        }
    }
}

/// A number of an object or an I-PDU: mostly one that is wanted, now and then any other.
fn number(run: &mut Run, count: usize, wanted: impl Fn(usize) -> bool) -> u32 {
    let some = run.below(count.max(1)) as u32;
    if count == 0 || run.below(20) == 0 {
        let n = count as u32;
        return run.pick(&[n, n + 1, 32, 128, 255, 256, 256 + some, 65536 + some, u32::MAX]);
    }
    if run.below(12) > 0 {
        for _ in 0..12 {
            let tried = run.below(count);
            if wanted(tried) {
                return tried as u32;
            }
        }
    }
    some
}

fn is_full(o: &Object) -> bool {
    o.depth > 0 && o.queue.len() == o.depth
}

/// Whether a receive gives a value that the bits of a signed object do not hold.
fn is_whole(o: &Object) -> bool {
    !o.sends && o.depth == 0 && o.signed && !o.fits(o.value)
}

fn object_number(run: &mut Run, layer: &Layer, wanted: fn(&Object) -> bool) -> u32 {
    number(run, layer.objects.len(), |i| wanted(&layer.objects[i]))
}

/// A value for the filter of this object, or of a receiver that it sends to.
pub fn value_for(run: &mut Run, layer: &Layer, object: u32) -> u32 {
    let Some(sender) = layer.objects.get(object as usize) else {
        return word(run);
    };
    let is_receiver = |o: &&Object| o.sender == Some(object as usize);
    let receivers: Vec<&Object> = layer.objects.iter().filter(is_receiver).collect();
    if !receivers.is_empty() && run.below(2) == 0 {
        let receiver = run.pick(&receivers);
        return value(run, receiver);
    }
    value(run, sender)
}

fn value(run: &mut Run, o: &Object) -> u32 {
    if o.signed && run.below(3) == 0 {
        return signed::value(run, o.bits.len());
    }
    let any = word(run);
    let constant = run.pick(&[o.first, o.second]);
    let step = run.pick(&[1, u32::MAX]);
    match run.below(10) {
        0 => any,
        1 => o.initial,
        2 => constant,
        3 => constant.wrapping_add(step),
        4 => (o.second & o.first) | (any & !o.first),
        5 => (o.old & o.first) | (any & !o.first),
        6 => o.old,
        7 => o.old.wrapping_add(step),
        8 => any % 4,
        _ => run.pick(&WORDS),
    }
}

fn indication(run: &mut Run, layer: &Layer) -> Call {
    let ipdu = number(run, layer.ipdus.len(), |k| !layer.ipdus[k].sends);
    let good = run.below(8) > 0;
    indication_of(run, layer, ipdu, good)
}

fn indication_of(run: &mut Run, layer: &Layer, ipdu: u32, good: bool) -> Call {
    let mut bytes = vec![run.pick(&[0, 0, 0xFF, 0x55]); run.below(10)];
    if run.below(3) == 0 {
        scramble(run, &mut bytes);
    }
    if let Some(p) = layer.ipdus.get(ipdu as usize) {
        if run.below(10) > 0 {
            bytes.resize(p.length, 0);
        }
        if run.below(3) == 0 {
            let length = bytes.len().min(8);
            bytes[..length].copy_from_slice(&p.bytes[..length]);
        }
        for o in &layer.objects {
            let fits = o.bits.iter().all(|bit| bit / 8 < bytes.len());
            if o.ipdu == Some(ipdu as usize) && fits && run.below(2) == 0 {
                pack(&o.bits, value(run, o), &mut bytes);
            }
        }
    }
    Call::Indication { ipdu, good, bytes }
}

fn confirm(run: &mut Run, layer: &Layer) -> Call {
    let only_open = run.below(4) > 0;
    let wanted = |k: usize| layer.ipdus[k].sends && (layer.ipdus[k].open || !only_open);
    let ipdu = number(run, layer.ipdus.len(), wanted);
    Call::Confirm { ipdu, good: run.below(3) > 0 }
}

// ---- Many filterings of one object, so that a count that only goes back at 256 would show ----

/// An object with filter 14, best with a period that does not divide 256; None without one.
pub fn often_filtered(run: &mut Run, layer: &Layer) -> Option<usize> {
    let count = layer.objects.len();
    let from = run.below(count.max(1));
    let mut all = (0..count).map(|i| (from + i) % count);
    let fourteen = |i: &usize| layer.objects[*i].filter == 14;
    let uneven = |i: &usize| fourteen(i) && !layer.objects[*i].first.is_power_of_two();
    all.clone().find(uneven).or_else(|| all.find(fourteen))
}

/// A call that mostly has this object filter a value; now and then it initialises the object.
pub fn filtering(run: &mut Run, layer: &Layer, object: usize) -> Call {
    let o = &layer.objects[object];
    if run.below(20) == 0 {
        let object = object as u32;
        return Call::Initialise { object, value: value_for(run, layer, object) };
    }
    if let (false, Some(k)) = (o.sends, o.ipdu) {
        return indication_of(run, layer, k as u32, true);
    }
    let sender = o.sender.unwrap_or(object) as u32;
    Call::Send { object: sender, value: value_for(run, layer, sender) }
}
