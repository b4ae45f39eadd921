//! What a value means.

/// The signed reading of a value, for a message object whose byte order in the table is 2 or 3. The
/// other way a cast is enough: `-186_i32 as u32`.
///
/// An indication copies the top bit of such an object's bits upwards, filters 8 to 13 compare as
/// signed on it, constants and old value too, and a [`Sheet`](crate::Sheet) orders and prints its
/// values as signed.
///
/// ```
/// use birnenschloss::{signed, Controller, IpduNumber, ObjectNumber, Outcome, Table};
///
/// // A received I-PDU of 4 bytes, and in it an object of 12 bits from bit 28 on, signed big.
/// let mut bytes = [0; 64];
/// bytes[..10].copy_from_slice(&[1, 0, 1, 0, 16, 0, 32, 0, 64, 0]);
/// bytes[16..18].copy_from_slice(&[2, 4]);
/// bytes[32..38].copy_from_slice(&[2, 0, 255, 28, 12, 3]);
/// const FREEZER: ObjectNumber = ObjectNumber(0); // in tenths of a degree
///
/// let mut controller = Controller::new(Table::check(&bytes)?).start();
/// controller.indication(IpduNumber(0), Outcome::Good, &[0x00, 0x00, 0xF4, 0x60])?;
/// let value = controller.receive(FREEZER)?.value;
/// assert_eq!(value, 0xFFFF_FF46);
/// assert_eq!(signed(value), -186);
///
/// controller.initialise(FREEZER, -180_i32 as u32)?;
/// assert_eq!(signed(controller.receive(FREEZER)?.value), -180);
/// # Ok::<(), birnenschloss::Error>(())
/// ```
pub const fn signed(value: u32) -> i32 {
    value as i32
}
