//! What comes back from a call.

use crate::linked::Answer;
use crate::table::WrongRecord;
use core::fmt;

/// Why a call was refused. A refused call leaves the memory, the request area, the statuses of a
/// group, a sheet and a text as they were.
///
/// Number 3, a value lost by a full queue, is no error: see [`Received`] and [`Status`]. A receive
/// that gives it has removed the value and cleared the overflow.
#[derive(Clone, Copy, Debug, PartialEq, Eq, Hash)]
pub enum Error {
    /// 1, E_COM_ID: the number is too large or of the wrong kind: a receive where a send object
    /// or I-PDU is wanted or the other way round, or in [`status`](crate::Layer::status) and in a
    /// [`Sheet`](crate::Sheet) an object with no queue.
    Id,
    /// 2, E_COM_LENGTH: not as many bytes as the I-PDU has; or a group of more than 16 pairs, with
    /// a pair cut off, or not with a status for each.
    Length,
    /// 4, E_COM_NOMSG: the queue is empty.
    NoMessage,
    /// 5: the table is wrong. A [`Layer`](crate::Layer) never gives it: its table was checked.
    Table,
    /// 6: a stored number is out of its range: the memory was never started with this table, or
    /// was written by something else. Never given after a start by this table.
    Memory,
    /// 7: the layer is stopped, or its memory holds zeros and was never started.
    Stopped,
    /// 8: a confirm where no request is open.
    NoRequest,
    /// 10: a [`Sheet`](crate::Sheet) for more than 16 objects, or for one twice.
    Followed,
}

impl Error {
    /// The number of this refusal.
    pub fn number(self) -> u32 {
        match self {
            Error::Id => 1,
            Error::Length => 2,
            Error::NoMessage => 4,
            Error::Table => 5,
            Error::Memory => 6,
            Error::Stopped => 7,
            Error::NoRequest => 8,
            Error::Followed => 10,
        }
    }

    fn of(number: u32) -> Error {
        match number {
            1 => Error::Id,
            2 => Error::Length,
            4 => Error::NoMessage,
            5 => Error::Table,
            6 => Error::Memory,
            7 => Error::Stopped,
            8 => Error::NoRequest,
            10 => Error::Followed,
            // Ruled out by the proved contracts of the calls.
            _ => unreachable!("an answer has no such number"),
        }
    }
}

impl From<WrongRecord> for Error {
    fn from(_: WrongRecord) -> Error {
        Error::Table
    }
}

/// The words of birnenschloss_number_text in the C header.
impl fmt::Display for Error {
    fn fmt(&self, f: &mut fmt::Formatter<'_>) -> fmt::Result {
        f.write_str(match self {
            Error::Id => "no such message object or I-PDU, or not of the kind that the call needs",
            Error::Length => {
                "not as many bytes as the I-PDU has; or a group of more than 16 pairs, \
                 with a pair cut off, or not with a status for each"
            }
            Error::NoMessage => "the queue is empty",
            Error::Table => "the table is wrong",
            Error::Memory => {
                "memory, request area, sheet or text refused: ask if they have 8192, 256, 520 and \
                 1536 bytes, if the layer was started over this table, and if the sheet was begun"
            }
            Error::Stopped => "the layer is stopped, or was never started",
            Error::NoRequest => "no request of this I-PDU is open",
            Error::Followed => "a sheet for more than 16 objects, or for one twice",
        })
    }
}

impl core::error::Error for Error {}

/// What a receive gives.
#[derive(Clone, Copy, Debug, PartialEq, Eq, Hash)]
pub struct Received {
    /// The value, or the oldest one of a queue; [`signed`](crate::signed) reads that of a signed
    /// object.
    pub value: u32,
    /// A full queue has lost a value since the last receive (number 3, E_COM_LIMIT).
    pub overflowed: bool,
}

/// How the queue of a message object stands, if it is not empty.
#[derive(Clone, Copy, Debug, PartialEq, Eq, Hash)]
pub enum Status {
    /// A value waits, and none was lost since the last receive.
    Waiting,
    /// A value waits, and one was lost since the last receive (number 3, E_COM_LIMIT).
    Overflowed,
}

/// The marks of a message object. They stay until they are cleared.
///
/// ```
/// # use birnenschloss::{Error, Layer, ObjectNumber};
/// /// Whether anything went wrong with an object since this was last asked.
/// fn failed(layer: &mut Layer, object: ObjectNumber) -> Result<bool, Error> {
///     let marks = layer.marks(object)?;
///     layer.clear_marks(object)?;
///     Ok(marks.receive_error() || marks.send_error())
/// }
/// ```
#[derive(Clone, Copy, Debug, PartialEq, Eq, Hash)]
pub struct Marks(u32);

impl Marks {
    /// A value was stored: by an indication, or by a send inside the controller.
    pub fn arrived(self) -> bool {
        self.0 & 1 != 0
    }

    /// The object's I-PDU was confirmed as sent.
    pub fn sent(self) -> bool {
        self.0 & 2 != 0
    }

    /// An indication was not good, or the receive deadline ran out.
    pub fn receive_error(self) -> bool {
        self.0 & 4 != 0
    }

    /// A confirm was not good, or the deadline of a request ran out.
    pub fn send_error(self) -> bool {
        self.0 & 8 != 0
    }

    /// The four marks, added: arrived 1, sent 2, receive error 4, send error 8.
    pub fn sum(self) -> u32 {
        self.0
    }
}

/// The value that came back, unless the call was refused.
pub(crate) fn value(answer: Answer) -> Result<u32, Error> {
    match answer.number {
        0 => Ok(answer.value),
        number => Err(Error::of(number)),
    }
}

pub(crate) fn done(answer: Answer) -> Result<(), Error> {
    value(answer).map(|_| ())
}

const OVERFLOWED: u32 = 3;

pub(crate) fn received(answer: Answer) -> Result<Received, Error> {
    match answer.number {
        OVERFLOWED => Ok(Received { value: answer.value, overflowed: true }),
        _ => value(answer).map(|value| Received { value, overflowed: false }),
    }
}

pub(crate) fn status(answer: Answer) -> Result<Status, Error> {
    match answer.number {
        OVERFLOWED => Ok(Status::Overflowed),
        _ => value(answer).map(|_| Status::Waiting),
    }
}

pub(crate) fn marks(answer: Answer) -> Result<Marks, Error> {
    value(answer).map(Marks)
}
