//! Safe bindings to the proved interaction layer Birnenschloss, after OSEK COM 3.0.3: message
//! objects, I-PDUs, filters, queues, marks and tick-driven timing for one controller.
//!
//! A [`Table`] says which I-PDUs and message objects there are. A [`Controller`] holds working
//! memory and request area; one that was not started has no call but the start. Calls answer by
//! number; here the numbers are [`Error`]s and results.
//!
//! ```
//! use birnenschloss::{Controller, ObjectNumber, Outcome, Table};
//!
//! // One I-PDU of 4 bytes, sent directly, and in it a message object of 12 bits from bit 13 on,
//! // sent when its value differs from the last one sent.
//! const TABLE: [u8; 64] = [
//!     1, 0, 1, 0, 16, 0, 32, 0, 64, 0, 0, 0, 0, 0, 0, 0, //
//!     1, 4, 0, 0, 0, 0, 0, 0, 3, 0, 10, 0, 0, 0, 0, 0, //
//!     1, 0, 255, 13, 12, 0, 0, 0, 5, 0, 0, 0, 0, 0, 0, 0, //
//!     0, 0, 0, 0, 0, 0, 0, 0, 0, 0, 0, 0, 0, 0, 0, 0,
//! ];
//! const HUMIDITY: ObjectNumber = ObjectNumber(0);
//!
//! let table = Table::check(&TABLE).expect("the table is right");
//! let mut controller = Controller::new(table).start();
//! let requests = controller.send(HUMIDITY, 0xABC)?;
//! for ipdu in requests {
//!     let frame = controller.frame(requests, ipdu).expect("it is requested");
//!     assert_eq!(frame, [0x00, 0x80, 0x57, 0x01]); // to the bus
//!     controller.confirm(ipdu, Outcome::Good)?; // when the bus has sent it
//! }
//! assert!(controller.marks(HUMIDITY)?.sent());
//! # Ok::<(), birnenschloss::Error>(())
//! ```
//!
//! A value is a word of 32 bits. Of a message object whose byte order in the table is 2 or 3 it is a
//! number in two's complement, which [`signed`] gives.
//!
//! [`send_group`](Controller::send_group) sends up to [`MOST_PAIRS`] values by one call. A [`Sheet`]
//! follows queues through a journey: [`drain_sheet`](Controller::drain_sheet) empties them and says
//! what came.
//!
//! A [`Layer`] has the same calls in [`Memory`] and an [`Area`] that the caller lends. It allocates
//! nothing and keeps nothing of its own, and goes on where an earlier one has left its memory;
//! a forgotten start is refused when a call is made.
//!
//! ```
//! use birnenschloss::{Layer, Memory, ObjectNumber, Outcome, Table, AREA_SIZE, MEMORY_SIZE};
//! # const TABLE: [u8; 64] = [
//! #     1, 0, 1, 0, 16, 0, 32, 0, 64, 0, 0, 0, 0, 0, 0, 0, //
//! #     1, 4, 0, 0, 0, 0, 0, 0, 3, 0, 10, 0, 0, 0, 0, 0, //
//! #     1, 0, 255, 13, 12, 0, 0, 0, 5, 0, 0, 0, 0, 0, 0, 0, //
//! #     0, 0, 0, 0, 0, 0, 0, 0, 0, 0, 0, 0, 0, 0, 0, 0,
//! # ];
//! # const HUMIDITY: ObjectNumber = ObjectNumber(0);
//!
//! let table = Table::check(&TABLE).expect("the table is right");
//! let mut memory = [0xA5; MEMORY_SIZE];
//! let mut area = [0xA5; AREA_SIZE];
//! let mut layer = Layer::new(table, Memory::from(&mut memory));
//! layer.start()?;
//! let requests = layer.send(&mut area, HUMIDITY, 0xABC)?;
//! for (ipdu, frame) in requests.frames(&area, table) {
//!     assert_eq!(frame, [0x00, 0x80, 0x57, 0x01]); // to the bus
//!     layer.confirm(ipdu, Outcome::Good)?; // when the bus has sent it
//! }
//! assert!(layer.marks(HUMIDITY)?.sent());
//! # Ok::<(), birnenschloss::Error>(())
//! ```

#![no_std]
#![deny(missing_docs)]
#![deny(unsafe_code)]

mod answers;
mod controller;
mod group;
mod layer;
mod lent;
#[allow(unsafe_code)]
mod linked;
mod numbers;
mod sheet;
mod table;
mod values;

pub use answers::{Error, Marks, Received, Status};
pub use controller::{Controller, Started, Unstarted};
pub use group::{Pair, PairStatus, MOST_PAIRS};
pub use layer::{Layer, Outcome};
pub use lent::{Area, Frames, IpduNumbers, Memory, Requests, AREA_SIZE, MEMORY_SIZE};
pub use numbers::{IpduNumber, ObjectNumber};
pub use sheet::{Sheet, SheetText};
pub use table::{Table, WrongRecord};
pub use values::signed;
