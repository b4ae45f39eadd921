//! The two kinds of numbers that a call is given.

/// The number of a message object, from 0 on in the order of the table's records.
///
/// It is not the number of an I-PDU, and does not pass for one:
///
/// ```compile_fail,E0308
/// # use birnenschloss::{Layer, ObjectNumber, Outcome};
/// # fn exchanged(layer: &mut Layer) {
/// layer.confirm(ObjectNumber(0), Outcome::Good);
/// # }
/// ```
#[repr(transparent)]
#[derive(Clone, Copy, Debug, PartialEq, Eq, PartialOrd, Ord, Hash)]
pub struct ObjectNumber(
    /// The number; one that the table does not have is answered by [`Error::Id`](crate::Error::Id).
    pub u32,
);

/// The number of an I-PDU, from 0 on in the order of the table's records.
///
/// ```compile_fail,E0308
/// # use birnenschloss::{IpduNumber, Layer};
/// # fn exchanged(layer: &Layer) {
/// layer.marks(IpduNumber(0));
/// # }
/// ```
#[derive(Clone, Copy, Debug, PartialEq, Eq, PartialOrd, Ord, Hash)]
pub struct IpduNumber(
    /// The number; one that the table does not have is answered by [`Error::Id`](crate::Error::Id).
    pub u32,
);
