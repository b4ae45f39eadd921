//! What a group send is given, and what it says of each pair.

use crate::numbers::ObjectNumber;
use core::mem::offset_of;

/// The most pairs of a group.
pub const MOST_PAIRS: usize = 16;

/// A pair of a group: a message object, and the value to send.
#[repr(C)]
#[derive(Clone, Copy, Debug, PartialEq, Eq, Hash)]
pub struct Pair {
    /// The send object; any other number is answered by [`PairStatus::Id`].
    pub object: ObjectNumber,
    /// The value; of a signed object a cast gives it, as in `-186_i32 as u32`.
    pub value: u32,
}

// Pairs go to the archive as they are: two uint32_t, as in the C header's birnenschloss_pair.
const _: () = assert!(size_of::<Pair>() == 8 && align_of::<Pair>() == align_of::<u32>());
const _: () = assert!(offset_of!(Pair, object) == 0 && offset_of!(Pair, value) == 4);

/// What became of one pair of a group.
#[derive(Clone, Copy, Debug, PartialEq, Eq, Hash)]
pub enum PairStatus {
    /// 0: the send was done, also where its filter dropped the value.
    Sent,
    /// 1, E_COM_ID: there is no such send object. The pairs behind it are sent all the same.
    Id,
}

impl PairStatus {
    /// The number of this status: 0 or 1.
    pub fn number(self) -> u32 {
        match self {
            PairStatus::Sent => 0,
            PairStatus::Id => 1,
        }
    }

    pub(crate) fn of(number: u8) -> PairStatus {
        match number {
            0 => PairStatus::Sent,
            1 => PairStatus::Id,
            // Ruled out by the proved contract of the group send.
            _ => unreachable!("a pair has no such status"),
        }
    }
}
