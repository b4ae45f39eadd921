//! The thirteen calls, the group send and the journey sheet.

use crate::answers::{self, Error, Marks, Received, Status};
use crate::group::{Pair, PairStatus, MOST_PAIRS};
use crate::lent::{Area, Memory, Requests, MEMORY_SIZE};
use crate::linked;
use crate::numbers::{IpduNumber, ObjectNumber};
use crate::sheet::{self, Sheet, SheetText};
use crate::table::Table;

/// How the transfer of an I-PDU went.
#[derive(Clone, Copy, Debug, PartialEq, Eq, Hash)]
pub enum Outcome {
    /// The I-PDU was sent or has arrived.
    Good,
    /// The bus reports an error.
    NotGood,
}

/// The interaction layer: a checked table and working memory, with the thirteen calls, the group
/// send and the journey sheet.
///
/// [`start`](Layer::start) comes first. Over memory that was never started, the other calls are
/// refused with [`Error::Memory`] where a stored number is out of its range, and over memory of
/// zeros with that or [`Error::Stopped`]. A layer may also be made over memory that an earlier one
/// with the same table has left, and goes on from there.
///
/// ```
/// use birnenschloss::{Error, Layer, Memory, ObjectNumber, Outcome, Table, MEMORY_SIZE};
/// # use birnenschloss::{IpduNumber, Received, Status};
///
/// // A received I-PDU of one byte, and in it an object of 8 bits with a queue of depth 2.
/// let mut bytes = [0; 64];
/// bytes[..10].copy_from_slice(&[1, 0, 1, 0, 16, 0, 32, 0, 64, 0]);
/// bytes[16..18].copy_from_slice(&[2, 1]);
/// bytes[32..40].copy_from_slice(&[2, 0, 255, 0, 8, 0, 0, 2]);
/// let table = Table::check(&bytes)?;
///
/// let mut memory = [0xA5; MEMORY_SIZE];
/// let mut layer = Layer::new(table, Memory::from(&mut memory));
/// let door = ObjectNumber(0);
/// assert_eq!(layer.receive(door), Err(Error::Memory)); // not started
///
/// layer.start()?;
/// assert_eq!(layer.receive(door), Err(Error::NoMessage));
/// for value in [7, 8, 9] {
///     layer.indication(IpduNumber(0), Outcome::Good, &[value])?;
/// }
/// assert_eq!(layer.status(door)?, Status::Overflowed);
/// assert_eq!(layer.receive(door)?, Received { value: 7, overflowed: true });
/// assert_eq!(layer.receive(door)?, Received { value: 8, overflowed: false });
/// assert!(layer.marks(door)?.arrived());
/// # Ok::<(), Error>(())
/// ```
#[derive(Debug)]
pub struct Layer<'t, 'm> {
    table: Table<'t>,
    memory: Memory<'m>,
}

impl<'t, 'm> Layer<'t, 'm> {
    /// The layer by this table in this memory. Nothing is written before a call.
    pub fn new(table: Table<'t>, memory: Memory<'m>) -> Layer<'t, 'm> {
        Layer { table, memory }
    }

    /// The table.
    pub fn table(&self) -> Table<'t> {
        self.table
    }

    /// The working memory as it stands.
    pub fn memory(&self) -> &[u8; MEMORY_SIZE] {
        self.memory.bytes()
    }

    /// Starts the layer, also a running or stopped one: writes all of the memory, with initial
    /// values, empty queues, no marks and no request. Over a checked table it is never refused.
    pub fn start(&mut self) -> Result<(), Error> {
        let (t, m) = self.lent();
        answers::done(linked::start(t, m))
    }

    /// Stops the layer: every call but a start is then refused with [`Error::Stopped`].
    pub fn stop(&mut self) -> Result<(), Error> {
        let (t, m) = self.lent();
        answers::done(linked::stop(t, m))
    }

    /// Sends a value: delivers it whole to the receivers inside, and if the filter passes it, packs
    /// its low bits into its I-PDU. A triggered object then requests its I-PDU, unless that is
    /// periodic, now or when it may go. A dropped value is no error.
    pub fn send(
        &mut self,
        area: &mut Area,
        object: ObjectNumber,
        value: u32,
    ) -> Result<Requests, Error> {
        let (t, m) = self.lent();
        answers::value(linked::send(t, m, area, object.0, value)).map(Requests::of)
    }

    /// Sends up to [`MOST_PAIRS`] values, one after the other as [`send`](Layer::send) would, with
    /// one check of the memory for all. The status of a pair stands in its place in `statuses`; a
    /// pair with a wrong object does not hold up the next. The requests are those of all the sends.
    /// A frame has what was packed when it was requested: for a pending object to be in it, it
    /// stands before the triggered one.
    ///
    /// [`Error::Length`] where there are more pairs than that, or not as many statuses as pairs. A
    /// refused group leaves the statuses as they were.
    ///
    /// ```
    /// use birnenschloss::{Layer, Memory, ObjectNumber, Pair, PairStatus, Table};
    /// # use birnenschloss::{AREA_SIZE, MEMORY_SIZE};
    /// # let mut bytes = [0; 96];
    /// # bytes[..10].copy_from_slice(&[1, 0, 2, 0, 16, 0, 32, 0, 96, 0]);
    /// # bytes[16..28].copy_from_slice(&[1, 4, 0, 0, 0, 0, 0, 0, 0, 0, 4, 0]);
    /// # bytes[32..39].copy_from_slice(&[1, 0, 255, 0, 10, 0, 1]);
    /// # bytes[64..71].copy_from_slice(&[1, 0, 255, 16, 12, 0, 0]);
    /// # let table = Table::check(&bytes)?;
    /// # let mut memory = [0xA5; MEMORY_SIZE];
    ///
    /// const HUMIDITY: ObjectNumber = ObjectNumber(0); // pending
    /// const TEMPERATURE: ObjectNumber = ObjectNumber(1); // triggered, in the same I-PDU
    ///
    /// let mut layer = Layer::new(table, Memory::from(&mut memory));
    /// layer.start()?;
    /// let pairs = [
    ///     Pair { object: HUMIDITY, value: 463 },
    ///     Pair { object: ObjectNumber(9), value: 1 }, // not in the table
    ///     Pair { object: TEMPERATURE, value: 215 },
    /// ];
    /// let (mut area, mut statuses) = ([0xA5; AREA_SIZE], [PairStatus::Id; 3]);
    /// let requests = layer.send_group(&mut area, &pairs, &mut statuses)?;
    /// assert_eq!(statuses, [PairStatus::Sent, PairStatus::Id, PairStatus::Sent]);
    /// for (_, frame) in requests.frames(&area, table) {
    ///     assert_eq!(frame, [0xCF, 0x01, 0xD7, 0x00]);
    /// }
    /// # assert_eq!(requests.word(), 1);
    /// # Ok::<(), birnenschloss::Error>(())
    /// ```
    pub fn send_group(
        &mut self,
        area: &mut Area,
        pairs: &[Pair],
        statuses: &mut [PairStatus],
    ) -> Result<Requests, Error> {
        // No group has more than 16 statuses: 17 are refused as any longer list would be.
        let mut bytes = [0; MOST_PAIRS + 1];
        let length = statuses.len().min(bytes.len());
        let (t, m) = self.lent();
        let answer = linked::send_records(t, m, area, pairs, &mut bytes[..length]);
        let requests = answers::value(answer).map(Requests::of)?;
        for (status, byte) in statuses.iter_mut().zip(bytes) {
            *status = PairStatus::of(byte);
        }
        Ok(requests)
    }

    /// Sets the value of an object, with no filter and no request: whole in a receive object, the
    /// low bits in the I-PDU of a send object. A queue is emptied, and its overflow cleared.
    pub fn initialise(&mut self, object: ObjectNumber, value: u32) -> Result<(), Error> {
        let (t, m) = self.lent();
        answers::done(linked::initialise(t, m, object.0, value))
    }

    /// The value of a receive object, each time; of a queue the oldest, which is removed. One
    /// that tells of an overflow removes it as well, and clears the overflow.
    pub fn receive(&mut self, object: ObjectNumber) -> Result<Received, Error> {
        let (t, m) = self.lent();
        answers::received(linked::receive(t, m, object.0))
    }

    /// How the queue of a receive object stands; [`Error::NoMessage`] where it is empty.
    pub fn status(&self, object: ObjectNumber) -> Result<Status, Error> {
        answers::status(linked::status(self.table.bytes(), self.memory.bytes(), object.0))
    }

    /// The marks of an object.
    pub fn marks(&self, object: ObjectNumber) -> Result<Marks, Error> {
        answers::marks(linked::marks(self.table.bytes(), self.memory.bytes(), object.0))
    }

    /// Clears the marks of an object.
    pub fn clear_marks(&mut self, object: ObjectNumber) -> Result<(), Error> {
        let (t, m) = self.lent();
        answers::done(linked::clear_marks(t, m, object.0))
    }

    /// Sets the countdown of each periodic or mixed I-PDU to its time offset, and lets it run.
    pub fn start_periodic(&mut self) -> Result<(), Error> {
        let (t, m) = self.lent();
        answers::done(linked::start_periodic(t, m))
    }

    /// Halts the countdowns. Requests that were postponed stay so.
    pub fn stop_periodic(&mut self) -> Result<(), Error> {
        let (t, m) = self.lent();
        answers::done(linked::stop_periodic(t, m))
    }

    /// An I-PDU has arrived: its bytes go to its objects and its receive timer begins anew. Above
    /// the bits of an object its value has 0, of a signed one their top bit. Not good, its objects
    /// are marked with a receive error and the bytes are not looked at.
    pub fn indication(
        &mut self,
        ipdu: IpduNumber,
        outcome: Outcome,
        bytes: &[u8],
    ) -> Result<(), Error> {
        let (t, m) = self.lent();
        answers::done(linked::indication(t, m, ipdu.0, outcome == Outcome::Good, bytes))
    }

    /// The bus has done with a requested I-PDU: the request closes, and the objects of the I-PDU
    /// are marked as sent or with a send error.
    pub fn confirm(&mut self, ipdu: IpduNumber, outcome: Outcome) -> Result<(), Error> {
        let (t, m) = self.lent();
        answers::done(linked::confirm(t, m, ipdu.0, outcome == Outcome::Good))
    }

    /// One tick of the timer: delays, deadlines, periods and receive timers go on by one, and
    /// the requests that may go now are made.
    pub fn tick(&mut self, area: &mut Area) -> Result<Requests, Error> {
        let (t, m) = self.lent();
        answers::value(linked::tick(t, m, area)).map(Requests::of)
    }

    /// A new sheet that follows these objects, each a queued receive object; nothing is drained yet.
    /// An empty list is allowed.
    ///
    /// [`Error::Id`] where one is not a queued receive object; [`Error::Followed`] where there are
    /// more than [`Sheet::MOST_FOLLOWED`], or one twice.
    pub fn begin_sheet(&self, objects: &[ObjectNumber]) -> Result<Sheet, Error> {
        let mut sheet = Sheet::unwritten();
        let (t, m) = (self.table.bytes(), self.memory.bytes());
        answers::done(linked::sheet_begin(t, m, sheet.bytes_mut(), objects))?;
        Ok(sheet)
    }

    /// Drains the objects of a sheet in the order given: receives each until its queue is empty,
    /// then reads its marks, and clears them where they hold a receive error. Gives the lines of
    /// the sheet, one for each object: its number, how many values were drained since the sheet was
    /// begun, the first, last, least and greatest, overflows, errors. Where nothing was drained the
    /// four values are `-`; those of a signed object are printed as signed.
    ///
    /// A sheet that was begun over this table is no reason to refuse. Over another table:
    /// [`Error::Id`] where one of the objects is not a queued receive object there.
    ///
    /// ```
    /// use birnenschloss::{IpduNumber, Layer, Memory, ObjectNumber, Outcome, Sheet, Table};
    /// # use birnenschloss::MEMORY_SIZE;
    /// # let mut bytes = [0; 64];
    /// # bytes[..10].copy_from_slice(&[1, 0, 1, 0, 16, 0, 32, 0, 64, 0]);
    /// # bytes[16..18].copy_from_slice(&[2, 1]);
    /// # bytes[32..40].copy_from_slice(&[2, 0, 255, 0, 8, 0, 0, 2]);
    /// # let table = Table::check(&bytes)?;
    /// # let mut memory = [0xA5; MEMORY_SIZE];
    ///
    /// const HUMIDITY: ObjectNumber = ObjectNumber(0); // of 8 bits, with a queue of depth 2
    ///
    /// let mut layer = Layer::new(table, Memory::from(&mut memory));
    /// layer.start()?;
    /// let (mut sheet, mut text) = (layer.begin_sheet(&[HUMIDITY])?, [0; Sheet::TEXT_SIZE]);
    /// assert_eq!(layer.drain_sheet(&mut sheet, &mut text)?, "0 0 - - - - 0 0\n");
    /// for value in [48, 46, 47] {
    ///     layer.indication(IpduNumber(0), Outcome::Good, &[value])?; // 47 finds the queue full
    /// }
    /// assert_eq!(layer.drain_sheet(&mut sheet, &mut text)?, "0 2 48 46 46 48 1 0\n");
    /// layer.indication(IpduNumber(0), Outcome::NotGood, &[])?;
    /// assert_eq!(layer.drain_sheet(&mut sheet, &mut text)?, "0 2 48 46 46 48 1 1\n");
    /// # Ok::<(), birnenschloss::Error>(())
    /// ```
    pub fn drain_sheet<'x>(
        &mut self,
        sheet: &mut Sheet,
        text: &'x mut SheetText,
    ) -> Result<&'x str, Error> {
        let (t, m) = self.lent();
        let length = answers::value(linked::sheet_drain(t, m, sheet.bytes_mut(), text))?;
        Ok(sheet::lines(text, length))
    }

    fn lent(&mut self) -> (&'t [u8], &mut [u8]) {
        (self.table.bytes(), self.memory.bytes_mut())
    }
}
