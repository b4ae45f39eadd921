//! The journey sheet.

use core::str;

/// What a journey sheet keeps: up to sixteen queued receive objects, and of each how many values were
/// drained, the first, last, least and greatest of them, how often its queue had overflowed, and in
/// how many drains it had a receive error. Values of a signed object are ordered as signed.
///
/// [`begin_sheet`](crate::Layer::begin_sheet) makes one, and
/// [`drain_sheet`](crate::Layer::drain_sheet) goes on with it. It is the 520 bytes of docs/SHEET.md,
/// which may be kept over a loss of power and made a sheet again:
///
/// ```
/// # use birnenschloss::{Error, Layer, ObjectNumber, Sheet};
/// # fn kept(layer: &Layer) -> Result<(), Error> {
/// let sheet = layer.begin_sheet(&[ObjectNumber(0)])?;
/// let stored: [u8; Sheet::SIZE] = *sheet.bytes();
/// assert_eq!(Sheet::from_bytes(stored), Some(sheet));
/// assert_eq!(Sheet::from_bytes([0; Sheet::SIZE]), None); // never begun
/// # Ok(())
/// # }
/// ```
#[derive(Clone, Debug, PartialEq, Eq)]
pub struct Sheet {
    bytes: [u8; Sheet::SIZE],
}

/// A text for the lines of a [`Sheet`]. Any contents will do: a drain writes its front.
pub type SheetText = [u8; Sheet::TEXT_SIZE];

impl Sheet {
    /// Bytes of a sheet.
    pub const SIZE: usize = 520;

    /// Bytes of a text for its lines.
    pub const TEXT_SIZE: usize = 1536;

    /// The most objects that a sheet follows.
    pub const MOST_FOLLOWED: usize = 16;

    /// For a begin. No zeros: what it writes does not depend on what was there.
    pub(crate) fn unwritten() -> Sheet {
        Sheet { bytes: [0xA5; Sheet::SIZE] }
    }

    /// The sheet of these bytes; `None` where they are not those of a sheet that was begun. The
    /// objects in it are judged at each drain.
    pub fn from_bytes(bytes: [u8; Sheet::SIZE]) -> Option<Sheet> {
        let is_begun = bytes[..4] == [1, 0, 0, 0] && bytes[5..8] == [0; 3];
        (is_begun && bytes[4] as usize <= Sheet::MOST_FOLLOWED).then_some(Sheet { bytes })
    }

    /// The bytes as they stand.
    pub fn bytes(&self) -> &[u8; Sheet::SIZE] {
        &self.bytes
    }

    pub(crate) fn bytes_mut(&mut self) -> &mut [u8; Sheet::SIZE] {
        &mut self.bytes
    }
}

/// The lines that a drain has written, so many bytes of them.
pub(crate) fn lines(text: &SheetText, length: u32) -> &str {
    match str::from_utf8(&text[..length as usize]) {
        Ok(lines) => lines,
        // Ruled out by the proved contract of the drain: digits, blanks, - and line feeds.
        Err(error) => unreachable!("{error}"),
    }
}
