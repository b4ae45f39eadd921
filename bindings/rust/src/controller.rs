//! A layer with working memory and request area of its own.

use crate::answers::{self, Error, Marks, Received, Status};
use crate::group::{Pair, PairStatus};
use crate::layer::{Layer, Outcome};
use crate::lent::{Area, Frames, Memory, Requests, AREA_SIZE, MEMORY_SIZE};
use crate::linked;
use crate::numbers::{IpduNumber, ObjectNumber};
use crate::sheet::{Sheet, SheetText};
use crate::table::Table;
use core::marker::PhantomData;

/// Of a [`Controller`] before its start, and after a stop.
#[derive(Debug)]
pub enum Unstarted {}

/// Of a [`Controller`] that runs.
#[derive(Debug)]
pub enum Started {}

/// The interaction layer of one controller, with working memory and request area inside.
///
/// [`start`](Controller::start) comes first: a controller that was not started has no other call,
/// so a forgotten start does not compile.
///
/// ```
/// # use birnenschloss::{Controller, Error, ObjectNumber, Requests, Table};
/// # fn sent(table: Table) -> Result<Requests, Error> {
/// let mut controller = Controller::new(table).start();
/// controller.send(ObjectNumber(0), 2748)
/// # }
/// ```
///
/// ```compile_fail,E0599
/// # use birnenschloss::{Controller, Error, ObjectNumber, Requests, Table};
/// # fn sent(table: Table) -> Result<Requests, Error> {
/// let mut controller = Controller::new(table);
/// controller.send(ObjectNumber(0), 2748)
/// # }
/// ```
///
/// [`Error::Table`], [`Error::Memory`] and [`Error::Stopped`] are never given: the table was
/// checked, both lengths are right, nothing but the layer writes to the memory after its start by
/// this table, and a stop takes the calls away. A call that is refused for these alone gives no
/// `Result`.
///
/// `start` and `stop` move the controller, some 8.5 kB. Where that is too much, a [`Layer`] works
/// in memory that is lent.
#[derive(Debug)]
pub struct Controller<'t, S> {
    table: Table<'t>,
    memory: [u8; MEMORY_SIZE],
    area: Area,
    state: PhantomData<S>,
}

impl<'t> Controller<'t, Unstarted> {
    /// The controller of this table.
    pub const fn new(table: Table<'t>) -> Controller<'t, Unstarted> {
        // No zeros: what a start writes does not depend on what was there.
        let (memory, area) = ([0xA5; MEMORY_SIZE], [0xA5; AREA_SIZE]);
        Controller { table, memory, area, state: PhantomData }
    }

    /// Starts the layer, with initial values, empty queues, no marks and no request. It is not
    /// refused: the table is right and the memory long enough.
    pub fn start(self) -> Controller<'t, Started> {
        let mut started = self.into_state();
        started.restart();
        started
    }
}

impl<'t, S> Controller<'t, S> {
    /// The table.
    pub fn table(&self) -> Table<'t> {
        self.table
    }

    /// The working memory as it stands.
    pub fn memory(&self) -> &[u8; MEMORY_SIZE] {
        &self.memory
    }

    fn into_state<T>(self) -> Controller<'t, T> {
        let Controller { table, memory, area, .. } = self;
        Controller { table, memory, area, state: PhantomData }
    }
}

impl<'t> Controller<'t, Started> {
    /// Starts the running layer again: nothing is left of what it stored.
    pub fn restart(&mut self) {
        granted(self.layer().start())
    }

    /// Stops the layer. A start begins anew.
    pub fn stop(mut self) -> Controller<'t, Unstarted> {
        granted(self.layer().stop());
        self.into_state()
    }

    /// As [`Layer::send`]: [`frame`](Controller::frame) and [`frames`](Controller::frames) give
    /// the bytes of what it requests.
    pub fn send(&mut self, object: ObjectNumber, value: u32) -> Result<Requests, Error> {
        let (mut layer, area) = self.layer_and_area();
        layer.send(area, object, value)
    }

    /// As [`Layer::send_group`]: [`frame`](Controller::frame) and [`frames`](Controller::frames)
    /// give the bytes of what it requests.
    pub fn send_group(
        &mut self,
        pairs: &[Pair],
        statuses: &mut [PairStatus],
    ) -> Result<Requests, Error> {
        let (mut layer, area) = self.layer_and_area();
        layer.send_group(area, pairs, statuses)
    }

    /// As [`Layer::initialise`].
    pub fn initialise(&mut self, object: ObjectNumber, value: u32) -> Result<(), Error> {
        self.layer().initialise(object, value)
    }

    /// As [`Layer::receive`].
    pub fn receive(&mut self, object: ObjectNumber) -> Result<Received, Error> {
        self.layer().receive(object)
    }

    /// As [`Layer::status`].
    pub fn status(&self, object: ObjectNumber) -> Result<Status, Error> {
        answers::status(linked::status(self.table.bytes(), &self.memory, object.0))
    }

    /// As [`Layer::marks`].
    pub fn marks(&self, object: ObjectNumber) -> Result<Marks, Error> {
        answers::marks(linked::marks(self.table.bytes(), &self.memory, object.0))
    }

    /// As [`Layer::clear_marks`].
    pub fn clear_marks(&mut self, object: ObjectNumber) -> Result<(), Error> {
        self.layer().clear_marks(object)
    }

    /// As [`Layer::start_periodic`]; not refused.
    pub fn start_periodic(&mut self) {
        granted(self.layer().start_periodic())
    }

    /// As [`Layer::stop_periodic`]; not refused.
    pub fn stop_periodic(&mut self) {
        granted(self.layer().stop_periodic())
    }

    /// As [`Layer::indication`].
    pub fn indication(
        &mut self,
        ipdu: IpduNumber,
        outcome: Outcome,
        bytes: &[u8],
    ) -> Result<(), Error> {
        self.layer().indication(ipdu, outcome, bytes)
    }

    /// As [`Layer::confirm`].
    pub fn confirm(&mut self, ipdu: IpduNumber, outcome: Outcome) -> Result<(), Error> {
        self.layer().confirm(ipdu, outcome)
    }

    /// As [`Layer::tick`]; not refused. [`frame`](Controller::frame) and
    /// [`frames`](Controller::frames) give the bytes of what it requests.
    pub fn tick(&mut self) -> Requests {
        let (mut layer, area) = self.layer_and_area();
        granted(layer.tick(area))
    }

    /// As [`Layer::begin_sheet`].
    pub fn begin_sheet(&self, objects: &[ObjectNumber]) -> Result<Sheet, Error> {
        let mut sheet = Sheet::unwritten();
        let (t, s) = (self.table.bytes(), sheet.bytes_mut());
        answers::done(linked::sheet_begin(t, &self.memory, s, objects))?;
        Ok(sheet)
    }

    /// As [`Layer::drain_sheet`].
    pub fn drain_sheet<'x>(
        &mut self,
        sheet: &mut Sheet,
        text: &'x mut SheetText,
    ) -> Result<&'x str, Error> {
        self.layer().drain_sheet(sheet, text)
    }

    /// The bytes of an I-PDU that this controller's last send, group send or tick has requested;
    /// `None` where it was not requested.
    pub fn frame(&self, requests: Requests, ipdu: IpduNumber) -> Option<&[u8]> {
        requests.frame(&self.area, self.table, ipdu)
    }

    /// Each I-PDU that this controller's last send, group send or tick has requested, by rising
    /// number, with its bytes. To confirm in the loop, go through the requests and ask for each
    /// [`frame`](Controller::frame).
    pub fn frames(&self, requests: Requests) -> Frames<'_> {
        requests.frames(&self.area, self.table)
    }

    fn layer(&mut self) -> Layer<'t, '_> {
        self.layer_and_area().0
    }

    fn layer_and_area(&mut self) -> (Layer<'t, '_>, &mut Area) {
        (Layer::new(self.table, Memory::from(&mut self.memory)), &mut self.area)
    }
}

/// What a call gives that only 5, 6 and 7 can refuse. The proved contracts rule these out over a
/// checked table and a memory that was started by it.
fn granted<T>(result: Result<T, Error>) -> T {
    match result {
        Ok(value) => value,
        Err(error) => unreachable!("{error}"),
    }
}
