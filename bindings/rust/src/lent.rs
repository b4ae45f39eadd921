//! What the caller lends: working memory and request areas; and the requests found in an area.

use crate::numbers::IpduNumber;
use crate::table::Table;

/// Bytes of working memory that the layer uses.
pub const MEMORY_SIZE: usize = 8192;

/// Bytes of a request area: a slot of 8 bytes for each of 32 I-PDUs.
pub const AREA_SIZE: usize = 256;

const SLOT_SIZE: usize = 8;

/// A request area. Any contents will do: a send, group send or tick writes the slots of the I-PDUs
/// that it requests, and no other.
pub type Area = [u8; AREA_SIZE];

/// Working memory, borrowed. Any contents will do: a start writes all of it.
///
/// Firmware lends an array, whose size the compiler checks, or a part of a longer block.
///
/// ```
/// use birnenschloss::{Memory, MEMORY_SIZE};
///
/// let mut array = [0xA5; MEMORY_SIZE];
/// let memory = Memory::from(&mut array);
/// assert_eq!(memory.bytes()[0], 0xA5);
///
/// let mut block = [0xA5; 10_000];
/// assert!(Memory::new(&mut block).is_some()); // the first 8,192 bytes
/// assert!(Memory::new(&mut block[..8191]).is_none());
/// ```
#[derive(Debug)]
pub struct Memory<'m> {
    bytes: &'m mut [u8; MEMORY_SIZE],
}

impl<'m> Memory<'m> {
    /// The first [`MEMORY_SIZE`] bytes of a slice; `None` where it is shorter.
    pub fn new(bytes: &'m mut [u8]) -> Option<Memory<'m>> {
        bytes.first_chunk_mut().map(Memory::from)
    }

    /// The bytes as they stand.
    pub fn bytes(&self) -> &[u8; MEMORY_SIZE] {
        self.bytes
    }

    pub(crate) fn bytes_mut(&mut self) -> &mut [u8; MEMORY_SIZE] {
        self.bytes
    }
}

impl<'m> From<&'m mut [u8; MEMORY_SIZE]> for Memory<'m> {
    fn from(bytes: &'m mut [u8; MEMORY_SIZE]) -> Memory<'m> {
        Memory { bytes }
    }
}

/// The I-PDUs that a send, group send or tick has requested: they are to go to the bus now.
///
/// ```
/// use birnenschloss::{Error, IpduNumber, Layer, Memory, Table, AREA_SIZE, MEMORY_SIZE};
///
/// // Two periodic I-PDUs of 2 and 3 bytes, both due at the first tick.
/// let mut bytes = [0; 48];
/// bytes[..10].copy_from_slice(&[2, 0, 0, 0, 16, 0, 48, 0, 48, 0]);
/// bytes[16..28].copy_from_slice(&[1, 2, 1, 0, 20, 0, 1, 0, 0, 0, 5, 0]);
/// bytes[32..44].copy_from_slice(&[1, 3, 1, 0, 30, 0, 1, 0, 0, 0, 5, 0]);
/// let table = Table::check(&bytes)?;
/// let mut memory = [0xA5; MEMORY_SIZE];
/// let mut area = [0xA5; AREA_SIZE];
///
/// let mut layer = Layer::new(table, Memory::from(&mut memory));
/// layer.start()?;
/// layer.start_periodic()?;
/// let requests = layer.tick(&mut area)?;
/// assert!(requests.iter().eq([IpduNumber(0), IpduNumber(1)]));
/// assert_eq!(requests.frame(&area, table, IpduNumber(1)), Some(&[0, 0, 0][..]));
/// assert!(layer.tick(&mut area)?.is_empty());
/// # Ok::<(), Error>(())
/// ```
#[derive(Clone, Copy, Debug, PartialEq, Eq, Hash)]
#[must_use = "the requested I-PDUs are to go to the bus"]
pub struct Requests(u32);

impl Requests {
    pub(crate) fn of(word: u32) -> Requests {
        Requests(word)
    }

    /// The word of the requests: bit k is I-PDU k.
    pub fn word(self) -> u32 {
        self.0
    }

    /// Whether nothing was requested.
    pub fn is_empty(self) -> bool {
        self.0 == 0
    }

    /// Whether this I-PDU was requested.
    pub fn contains(self, ipdu: IpduNumber) -> bool {
        ipdu.0 < u32::BITS && self.0 >> ipdu.0 & 1 == 1
    }

    /// The I-PDUs requested, by rising number.
    pub fn iter(self) -> IpduNumbers {
        IpduNumbers(self.0)
    }

    /// The bytes of a requested I-PDU: the first L of its slot in the area that the call was
    /// lent. `None` where it was not requested.
    pub fn frame<'a>(self, area: &'a Area, table: Table<'_>, ipdu: IpduNumber) -> Option<&'a [u8]> {
        if !self.contains(ipdu) {
            return None;
        }
        let length = table.ipdu_length(ipdu)?;
        area[SLOT_SIZE * ipdu.0 as usize..].get(..length)
    }

    /// Each I-PDU requested, by rising number, with its bytes in the area that the call was lent.
    pub fn frames<'a>(self, area: &'a Area, table: Table<'a>) -> Frames<'a> {
        Frames { requests: self, rest: self.iter(), area, table }
    }
}

impl IntoIterator for Requests {
    type Item = IpduNumber;
    type IntoIter = IpduNumbers;

    fn into_iter(self) -> IpduNumbers {
        self.iter()
    }
}

/// The I-PDUs of a word, by rising number.
#[derive(Clone, Debug)]
pub struct IpduNumbers(u32);

impl Iterator for IpduNumbers {
    type Item = IpduNumber;

    fn next(&mut self) -> Option<IpduNumber> {
        if self.0 == 0 {
            return None;
        }
        let lowest = self.0.trailing_zeros();
        self.0 &= self.0 - 1;
        Some(IpduNumber(lowest))
    }
}

/// The requested I-PDUs with their bytes, by rising number.
#[derive(Clone, Debug)]
pub struct Frames<'a> {
    requests: Requests,
    rest: IpduNumbers,
    area: &'a Area,
    table: Table<'a>,
}

impl<'a> Iterator for Frames<'a> {
    type Item = (IpduNumber, &'a [u8]);

    fn next(&mut self) -> Option<(IpduNumber, &'a [u8])> {
        let ipdu = self.rest.next()?;
        Some((ipdu, self.requests.frame(self.area, self.table, ipdu)?))
    }
}
