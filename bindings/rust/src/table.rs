//! A table that the check has accepted.

use crate::linked;
use crate::numbers::IpduNumber;
use core::fmt;

const IPDU_COUNT_AT: usize = 0;
const OBJECT_COUNT_AT: usize = 2;
const IPDU_RECORDS_AT: usize = 16;
const IPDU_RECORD_SIZE: usize = 16;
const LENGTH_AT: usize = 1;

const HEADER_PLACE: u32 = 65535;
const FIRST_OBJECT_PLACE: u32 = 256;

/// A table that the check has accepted. It stays lent, so it stays as it was checked.
///
/// ```
/// use birnenschloss::{IpduNumber, Table, WrongRecord};
///
/// let mut bytes = [0; 32];
/// bytes[..10].copy_from_slice(&[1, 0, 0, 0, 16, 0, 32, 0, 32, 0]); // one I-PDU, no object
/// bytes[16..18].copy_from_slice(&[2, 5]); // received, 5 bytes
///
/// let table = Table::check(&bytes).unwrap();
/// assert_eq!((table.ipdus(), table.objects()), (1, 0));
/// assert_eq!(table.ipdu_length(IpduNumber(0)), Some(5));
/// assert_eq!(table.ipdu_length(IpduNumber(1)), None);
///
/// bytes[17] = 9;
/// assert_eq!(Table::check(&bytes), Err(WrongRecord::Ipdu(0)));
/// ```
#[derive(Clone, Copy, Debug, PartialEq, Eq)]
pub struct Table<'a> {
    bytes: &'a [u8],
}

impl<'a> Table<'a> {
    /// The table in these bytes, or the first wrong record.
    pub fn check(bytes: &'a [u8]) -> Result<Table<'a>, WrongRecord> {
        let answer = linked::check(bytes);
        match answer.number {
            0 => Ok(Table { bytes }),
            _ => Err(WrongRecord::at(answer.value)),
        }
    }

    /// The number of I-PDUs, 0 to 32.
    pub fn ipdus(self) -> u32 {
        self.two(IPDU_COUNT_AT)
    }

    /// The number of message objects, 0 to 128.
    pub fn objects(self) -> u32 {
        self.two(OBJECT_COUNT_AT)
    }

    /// The length L of an I-PDU in bytes, 1 to 8; `None` where the table does not have it.
    pub fn ipdu_length(self, ipdu: IpduNumber) -> Option<usize> {
        if ipdu.0 >= self.ipdus() {
            return None;
        }
        let record = IPDU_RECORDS_AT + IPDU_RECORD_SIZE * ipdu.0 as usize;
        Some(self.bytes[record + LENGTH_AT].into())
    }

    /// The bytes of the table.
    pub fn bytes(self) -> &'a [u8] {
        self.bytes
    }

    fn two(self, at: usize) -> u32 {
        u16::from_le_bytes([self.bytes[at], self.bytes[at + 1]]).into()
    }
}

/// The first wrong record of a table: the header, else the lowest I-PDU, else the lowest object.
#[derive(Clone, Copy, Debug, PartialEq, Eq, Hash)]
pub enum WrongRecord {
    /// The header, or a slice of another length than it says.
    Header,
    /// The record of the I-PDU with this number.
    Ipdu(u8),
    /// The record of the message object with this number: wrong by itself, or with a queue that
    /// carries the sum of the depths past 512.
    Object(u8),
}

impl WrongRecord {
    /// The place as the check gives it: 65535, the I-PDU, or 256 + the object.
    pub fn place(self) -> u32 {
        match self {
            WrongRecord::Header => HEADER_PLACE,
            WrongRecord::Ipdu(k) => k.into(),
            WrongRecord::Object(i) => FIRST_OBJECT_PLACE + u32::from(i),
        }
    }

    fn at(place: u32) -> WrongRecord {
        match place {
            HEADER_PLACE => WrongRecord::Header,
            // I-PDUs are below 32 and objects below 128, so the low byte is the number.
            0..FIRST_OBJECT_PLACE => WrongRecord::Ipdu(place as u8),
            _ => WrongRecord::Object(place as u8),
        }
    }
}

impl fmt::Display for WrongRecord {
    fn fmt(&self, f: &mut fmt::Formatter<'_>) -> fmt::Result {
        match self {
            WrongRecord::Header => f.write_str("the table's header is wrong"),
            WrongRecord::Ipdu(k) => write!(f, "the record of I-PDU {k} is wrong"),
            WrongRecord::Object(i) => write!(f, "the record of message object {i} is wrong"),
        }
    }
}

impl core::error::Error for WrongRecord {}

#[cfg(test)]
mod tests {
    extern crate std;
    use super::*;
    use std::vec::Vec;

    /// The archive's length of an I-PDU, after the same by [`Table::ipdu_length`].
    fn length(bytes: &[u8], ipdu: u32) -> u32 {
        let checked = Table::check(bytes).ok().and_then(|t| t.ipdu_length(IpduNumber(ipdu)));
        let length = linked::ipdu_length(bytes, ipdu);
        assert_eq!(length as usize, checked.unwrap_or(0), "I-PDU {ipdu} of {bytes:?}");
        length
    }

    /// Of I-PDUs 0 to 33, and 0 for larger numbers.
    fn lengths(bytes: &[u8]) -> Vec<u32> {
        for ipdu in [255, 256, 65535, 65536, 1 << 31, u32::MAX] {
            assert_eq!(length(bytes, ipdu), 0);
        }
        (0..=33).map(|ipdu| length(bytes, ipdu)).collect()
    }

    /// A table of received I-PDUs with lengths 1 to 8, again and again, and no object.
    fn received(ipdus: u8) -> Vec<u8> {
        let end = 16 + 16 * u16::from(ipdus);
        let [low, high] = end.to_le_bytes();
        let mut bytes = [&[ipdus, 0, 0, 0, 16, 0, low, high, low, high][..], &[0; 6]].concat();
        for k in 0..ipdus {
            bytes.extend([2, 1 + k % 8]);
            bytes.extend([0; 14]);
        }
        bytes
    }

    #[test]
    fn the_archive_agrees_in_lengths() {
        for ipdus in [0, 1, 2, 31, 32, 33] {
            let bytes = received(ipdus);
            let there = if ipdus <= 32 { ipdus.into() } else { 0 };
            let wanted = (0..34).map(|k| if k < there { 1 + k % 8 } else { 0 });
            assert!(wanted.eq(lengths(&bytes)), "{ipdus} I-PDUs");
            for cut in 0..bytes.len() {
                assert_eq!(lengths(&bytes[..cut]), [0; 34]);
            }
        }
    }

    /// Each byte of a table of two I-PDUs and an object is changed, so that most are wrong.
    #[test]
    fn and_over_changed_tables() {
        let mut right = received(2);
        right[2] = 1;
        right[8] = 80;
        right.extend([2, 1, 255, 4, 12]);
        right.extend([0; 27]);
        assert_eq!(lengths(&right)[..3], [1, 2, 0]);
        let mut accepted = 0;
        for at in 0..right.len() {
            for byte in 0..=255 {
                let mut changed = right.clone();
                changed[at] = byte;
                accepted += u32::from(lengths(&changed)[0] > 0);
            }
        }
        assert!((100..10_000).contains(&accepted), "{accepted} right");
    }
}
