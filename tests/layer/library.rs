//! The library behind one function, with every call's arguments as the C interface has them.
//! With `--cfg own` a second copy of the reference state stands in for the library.

use crate::call::Call;
use crate::group::Group;
use crate::sheet::OnSheet;
use crate::table::Answer;

#[cfg(not(own))]
#[rustfmt::skip]
mod linked {
    use super::Answer;
    use crate::group::Pair;
    // A table, the bytes of an indication or of a group: where they start, and how many they are.
    type In = *const u8;
    // Working memory, a request area, a status list, a sheet or a text.
    type Out = *mut u8;
    type N = usize;

    extern "C" {
        pub fn birnenschloss_start(t: In, tn: N, m: Out, mn: N) -> Answer;
        pub fn birnenschloss_stop(t: In, tn: N, m: Out, mn: N) -> Answer;
        pub fn birnenschloss_send(
            t: In, tn: N, m: Out, mn: N, area: Out, an: N, object: u32, value: u32,
        ) -> Answer;
        pub fn birnenschloss_send_group(
            t: In, tn: N, m: Out, mn: N, area: Out, an: N, pairs: In, pn: N, statuses: Out, sn: N,
        ) -> Answer;
        pub fn birnenschloss_send_records(
            t: In, tn: N, m: Out, mn: N, area: Out, an: N,
            pairs: *const Pair, pn: N, statuses: Out, sn: N,
        ) -> Answer;
        pub fn birnenschloss_initialise(
            t: In, tn: N, m: Out, mn: N, object: u32, value: u32,
        ) -> Answer;
        pub fn birnenschloss_receive(t: In, tn: N, m: Out, mn: N, object: u32) -> Answer;
        pub fn birnenschloss_status(t: In, tn: N, m: Out, mn: N, object: u32) -> Answer;
        pub fn birnenschloss_marks(t: In, tn: N, m: Out, mn: N, object: u32) -> Answer;
        pub fn birnenschloss_clear_marks(t: In, tn: N, m: Out, mn: N, object: u32) -> Answer;
        pub fn birnenschloss_start_periodic(t: In, tn: N, m: Out, mn: N) -> Answer;
        pub fn birnenschloss_stop_periodic(t: In, tn: N, m: Out, mn: N) -> Answer;
        pub fn birnenschloss_indication(
            t: In, tn: N, m: Out, mn: N, ipdu: u32, good: u32, bytes: In, bn: N,
        ) -> Answer;
        pub fn birnenschloss_confirm(
            t: In, tn: N, m: Out, mn: N, ipdu: u32, good: u32,
        ) -> Answer;
        pub fn birnenschloss_tick(t: In, tn: N, m: Out, mn: N, area: Out, an: N) -> Answer;
        pub fn birnenschloss_sheet_begin(
            t: In, tn: N, m: In, mn: N, sheet: Out, sn: N, objects: *const u32, on: N,
        ) -> Answer;
        pub fn birnenschloss_sheet_drain(
            t: In, tn: N, m: Out, mn: N, sheet: Out, sn: N, text: Out, xn: N,
        ) -> Answer;
    }
}

/// The linked library keeps nothing of its own: all it knows is in the lent memory.
#[cfg(not(own))]
#[derive(Clone)]
pub struct Library;

#[cfg(not(own))]
impl Library {
    pub fn new(_table: &[u8]) -> Library {
        Library
    }

    pub fn call(&mut self, table: &[u8], m: &mut [u8], call: &Call, area: &mut [u8]) -> Answer {
        use linked::*;
        let (t, tn, mn) = (table.as_ptr(), table.len(), m.len());
        let (m, an) = (m.as_mut_ptr(), area.len());
        let a = area.as_mut_ptr();
        // Each slice is lent for the whole call; its start and its length belong together.
        unsafe {
            match *call {
                Call::Start => birnenschloss_start(t, tn, m, mn),
                Call::Stop => birnenschloss_stop(t, tn, m, mn),
                Call::Send { object, value } => {
                    birnenschloss_send(t, tn, m, mn, a, an, object, value)
                }
                Call::Initialise { object, value } => {
                    birnenschloss_initialise(t, tn, m, mn, object, value)
                }
                Call::Receive { object } => birnenschloss_receive(t, tn, m, mn, object),
                Call::Status { object } => birnenschloss_status(t, tn, m, mn, object),
                Call::Marks { object } => birnenschloss_marks(t, tn, m, mn, object),
                Call::ClearMarks { object } => birnenschloss_clear_marks(t, tn, m, mn, object),
                Call::StartPeriodic => birnenschloss_start_periodic(t, tn, m, mn),
                Call::StopPeriodic => birnenschloss_stop_periodic(t, tn, m, mn),
                Call::Indication { ipdu, good, ref bytes } => {
                    let (b, bn) = (bytes.as_ptr(), bytes.len());
                    birnenschloss_indication(t, tn, m, mn, ipdu, good as u32, b, bn)
                }
                Call::Confirm { ipdu, good } => {
                    birnenschloss_confirm(t, tn, m, mn, ipdu, good as u32)
                }
                Call::Tick => birnenschloss_tick(t, tn, m, mn, a, an),
            }
        }
    }

    pub fn group(
        &mut self,
        table: &[u8],
        m: &mut [u8],
        group: &Group,
        area: &mut [u8],
        statuses: &mut [u8],
    ) -> Answer {
        use crate::group::Form;
        use linked::*;
        let (t, tn, mn) = (table.as_ptr(), table.len(), m.len());
        let (m, an, sn) = (m.as_mut_ptr(), area.len(), statuses.len());
        let (a, s) = (area.as_mut_ptr(), statuses.as_mut_ptr());
        // As above.
        unsafe {
            match &group.form {
                Form::Bytes(bytes) => {
                    let (p, pn) = (bytes.as_ptr(), bytes.len());
                    birnenschloss_send_group(t, tn, m, mn, a, an, p, pn, s, sn)
                }
                Form::Records(pairs) => {
                    let (p, pn) = (pairs.as_ptr(), pairs.len());
                    birnenschloss_send_records(t, tn, m, mn, a, an, p, pn, s, sn)
                }
            }
        }
    }

    pub fn on_sheet(
        &mut self,
        table: &[u8],
        m: &mut [u8],
        on: &OnSheet,
        sheet: &mut [u8],
        text: &mut [u8],
    ) -> Answer {
        use crate::sheet::What;
        use linked::*;
        let (t, tn, mn) = (table.as_ptr(), table.len(), m.len());
        let (s, sn, xn) = (sheet.as_mut_ptr(), sheet.len(), text.len());
        // As above.
        unsafe {
            match &on.what {
                What::Begin(objects) => {
                    let (o, on) = (objects.as_ptr(), objects.len());
                    birnenschloss_sheet_begin(t, tn, m.as_ptr(), mn, s, sn, o, on)
                }
                What::Drain(..) => {
                    let x = text.as_mut_ptr();
                    birnenschloss_sheet_drain(t, tn, m.as_mut_ptr(), mn, s, sn, x, xn)
                }
            }
        }
    }
}

/// The stand-in: reads its state from a memory in its ranges, and writes it there after every
/// call that is not refused.
#[cfg(own)]
#[derive(Clone)]
pub struct Library {
    layer: crate::reference::Layer,
}

#[cfg(own)]
impl Library {
    pub fn new(table: &[u8]) -> Library {
        Library { layer: crate::reference::Layer::new(table) }
    }

    pub fn call(&mut self, table: &[u8], m: &mut [u8], call: &Call, area: &mut [u8]) -> Answer {
        let in_range = self.read(table, m);
        let answer = self.layer.call(call, m.len(), in_range, area);
        if call.refused_by(answer.number) {
            return answer;
        }
        if let Call::Start = call {
            m[..8192].fill(0);
        }
        crate::stored::write(&self.layer, m);
        answer
    }

    pub fn group(
        &mut self,
        table: &[u8],
        m: &mut [u8],
        group: &Group,
        area: &mut [u8],
        statuses: &mut [u8],
    ) -> Answer {
        let in_range = self.read(table, m);
        let answer = self.layer.group(group, m.len(), in_range, area, statuses);
        if answer.number == 0 {
            crate::stored::write(&self.layer, m);
        }
        answer
    }

    pub fn on_sheet(
        &mut self,
        table: &[u8],
        m: &mut [u8],
        on: &OnSheet,
        sheet: &mut [u8],
        text: &mut [u8],
    ) -> Answer {
        let in_range = self.read(table, m);
        let answer = self.layer.on_sheet(on, m.len(), in_range, sheet, text);
        if answer.number == 0 {
            crate::stored::write(&self.layer, m);
        }
        answer
    }

    /// Reads the state, where the stored numbers are in their ranges; gives whether they are.
    fn read(&mut self, table: &[u8], m: &[u8]) -> bool {
        let long = self.layer.table_right && m.len() >= 8192;
        let in_range = long && crate::ranges::in_range(table, m);
        if in_range {
            crate::stored::read(&mut self.layer, m);
        }
        in_range
    }
}
