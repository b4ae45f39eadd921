//! The records of the table, read from its bytes, with what is kept of each I-PDU and object;
//! the bits of an object; its filter. Written from document 01 alone; how the count of filter 14
//! goes on, from request W-203 of document 02, and signed objects from W-207.

use crate::table::is_big;
use std::collections::VecDeque;

// ---- The table ----

/// An I-PDU: the fields of its record, then what is kept of it.
#[derive(Clone)]
pub struct Ipdu {
    pub sends: bool,
    pub length: usize,
    pub mode: u8,
    pub period: u16,
    pub offset: u16,
    pub minimum_delay: u16,
    pub deadline: u16,
    pub first_deadline: u16,

    pub bytes: [u8; 8],
    pub open: bool,
    pub wanted: bool,
    pub running: bool,
    pub delay: u16,
    pub deadline_left: u16,
    pub countdown: u16,
    pub timer: u16,
}

/// A message object: the fields of its record, then what is kept of it.
#[derive(Clone)]
pub struct Object {
    pub sends: bool,
    pub ipdu: Option<usize>,
    pub sender: Option<usize>,
    /// The I-PDU bits that message bits 0, 1, 2 and on go to.
    pub bits: Vec<usize>,
    /// Whether its values are signed: byte order 2 or 3.
    pub signed: bool,
    pub triggered: bool,
    pub depth: usize,
    pub filter: u8,
    pub initial: u32,
    pub first: u32,
    pub second: u32,

    pub value: u32,
    pub queue: VecDeque<u32>,
    pub overflow: bool,
    pub old: u32,
    /// The count of filter 14; 0 with another filter.
    pub occurrence: u8,
    pub marks: u8,

    /// What the test asks for besides: how many values the filter dropped and passed, and how many
    /// a full queue lost. No call clears these.
    pub judged: [u64; 2],
    pub lost: u64,
}

pub fn two(record: &[u8], at: usize) -> u16 {
    u16::from_le_bytes([record[at], record[at + 1]])
}

fn four(record: &[u8], at: usize) -> u32 {
    u32::from_le_bytes([record[at], record[at + 1], record[at + 2], record[at + 3]])
}

fn unless_none(number: u8) -> Option<usize> {
    if number == 255 {
        None
    } else {
        Some(number as usize)
    }
}

pub fn ipdu_of(record: &[u8]) -> Ipdu {
    Ipdu {
        sends: record[0] == 1,
        length: record[1] as usize,
        mode: record[2],
        period: two(record, 4),
        offset: two(record, 6),
        minimum_delay: two(record, 8),
        deadline: two(record, 10),
        first_deadline: two(record, 12),
        bytes: [0; 8],
        open: false,
        wanted: false,
        running: false,
        delay: 0,
        deadline_left: 0,
        countdown: 0,
        timer: 0,
    }
}

pub fn object_of(record: &[u8]) -> Object {
    Object {
        sends: record[0] == 1,
        ipdu: unless_none(record[1]),
        sender: unless_none(record[2]),
        bits: bits(record[3] as usize, record[4] as usize, is_big(record[5])),
        signed: record[5] >= 2,
        triggered: record[6] == 0,
        depth: record[7] as usize,
        filter: record[8],
        initial: four(record, 12),
        first: four(record, 16),
        second: four(record, 20),
        value: 0,
        queue: VecDeque::new(),
        overflow: false,
        old: 0,
        occurrence: 0,
        marks: 0,
        judged: [0; 2],
        lost: 0,
    }
}

// ---- Bits ----

/// Message bit 0 goes to the start bit. Little: the next bit up each time. Big: as little up to
/// the byte's end, then on from bit 0 of the byte before.
fn bits(start: usize, length: usize, big: bool) -> Vec<usize> {
    let mut places = vec![start];
    while places.len() < length {
        let last = places[places.len() - 1];
        if big && last % 8 == 7 {
            places.push(8 * (last / 8 - 1));
        } else {
            places.push(last + 1);
        }
    }
    places
}

/// Puts the message bits to their places; high bits that have no place are dropped.
pub fn pack(places: &[usize], value: u32, bytes: &mut [u8]) {
    for (i, k) in places.iter().enumerate() {
        let (byte, bit) = (k / 8, k % 8);
        if value >> i & 1 == 1 {
            bytes[byte] |= 1 << bit;
        } else {
            bytes[byte] &= !(1 << bit);
        }
    }
}

/// The message bits from their places; the bits above them are 0.
pub fn unpack(places: &[usize], bytes: &[u8]) -> u32 {
    let mut value = 0;
    for (i, k) in places.iter().enumerate() {
        let (byte, bit) = (k / 8, k % 8);
        if bytes[byte] >> bit & 1 == 1 {
            value |= 1 << i;
        }
    }
    value
}

/// The value of so many bits, with its top bit copied upwards.
pub fn extended(value: u32, size: usize) -> u32 {
    let top = value >> (size - 1) & 1;
    (size..32).fold(value, |value, i| value | top << i)
}

/// The number that a value's 32 bits mean.
pub fn meant(value: u32, signed: bool) -> i64 {
    if signed {
        value as i32 as i64
    } else {
        value as i64
    }
}

/// Whether two send objects share a bit of an I-PDU.
pub fn overlap(objects: &[Object]) -> bool {
    let sent: Vec<&Object> = objects.iter().filter(|o| o.sends && o.ipdu.is_some()).collect();
    let share = |a: &Object, b: &Object| a.bits.iter().any(|bit| b.bits.contains(bit));
    let pairs = |i: usize| sent[..i].iter().any(|a| a.ipdu == sent[i].ipdu && share(a, sent[i]));
    (0..sent.len()).any(pairs)
}

// ---- Filters ----

impl Object {
    /// What is read of the object in the bytes of its I-PDU.
    pub fn reading(&self, bytes: &[u8]) -> u32 {
        let value = unpack(&self.bits, bytes);
        if self.signed {
            extended(value, self.bits.len())
        } else {
            value
        }
    }

    /// Whether the filter passes a value; changes nothing.
    pub fn judge(&self, new: u32) -> bool {
        self.judge_as(new, self.signed)
    }

    /// As if the object were signed, or not: 8 to 13 compare the numbers that are meant.
    pub fn judge_as(&self, new: u32, signed: bool) -> bool {
        let old = self.old;
        let [new_meant, old_meant, min, max] =
            [new, old, self.first, self.second].map(|value| meant(value, signed));
        match self.filter {
            0 => true,
            1 => false,
            2 => new & self.first == self.second,
            3 => new & self.first != self.second,
            4 => new == old,
            5 => new != old,
            6 => new & self.first == old & self.first,
            7 => new & self.first != old & self.first,
            8 => min <= new_meant && new_meant <= max,
            9 => !(min <= new_meant && new_meant <= max),
            10 => new_meant > old_meant,
            11 => new_meant <= old_meant,
            12 => new_meant < old_meant,
            13 => new_meant >= old_meant,
            14 => self.occurrence as u32 % self.first == self.second,
            _ => unreachable!("the check has refused this filter"),
        }
    }

    /// One filtering: the count goes on afterwards, passed or not; old is set if passed.
    pub fn filter(&mut self, new: u32) -> bool {
        let passed = self.judge(new);
        self.judged[passed as usize] += 1;
        if self.filter == 14 {
            self.occurrence += 1;
            if self.occurrence as u32 == self.first {
                self.occurrence = 0;
            }
        }
        if passed {
            self.old = new;
        }
        passed
    }
}

/// What not every test that has this module asks for.
#[allow(dead_code)]
impl Object {
    /// The number that a value of this object means.
    pub fn meant(&self, value: u32) -> i64 {
        meant(value, self.signed)
    }

    /// Whether a signed object's bits hold the number that a value means.
    pub fn fits(&self, value: u32) -> bool {
        let half = 1 << (self.bits.len() - 1);
        (-half..half).contains(&self.meant(value))
    }
}
