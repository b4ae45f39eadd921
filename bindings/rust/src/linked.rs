//! The functions of the archive, and for each one that lends whole slices to it.
//!
//! A slice goes over as its start and its length. The start of a Rust slice is never null, also
//! of an empty one. The functions are proved to stay inside what they are lent, for any contents.
//! Nothing checks these declarations against the proved source; tests/calls.rs compares the
//! behaviour of each with an independent layer, tests/groups.rs that of send_records, tests/sheets.rs
//! that of sheet_begin and sheet_drain, and the test in table.rs that of ipdu_length.

use crate::group::Pair;
use crate::numbers::ObjectNumber;

/// A number and what is returned with it.
#[repr(C)]
#[derive(Clone, Copy)]
pub struct Answer {
    pub number: u32,
    pub value: u32,
}

#[rustfmt::skip]
extern "C" {
    fn birnenschloss_check(t: *const u8, tn: usize) -> Answer;
    #[cfg(test)]
    fn birnenschloss_ipdu_length(t: *const u8, tn: usize, ipdu: u32) -> u32;
    fn birnenschloss_start(t: *const u8, tn: usize, m: *mut u8, mn: usize) -> Answer;
    fn birnenschloss_stop(t: *const u8, tn: usize, m: *mut u8, mn: usize) -> Answer;
    fn birnenschloss_send(
        t: *const u8, tn: usize, m: *mut u8, mn: usize, a: *mut u8, an: usize, object: u32, value: u32,
    ) -> Answer;
    fn birnenschloss_send_records(
        t: *const u8, tn: usize, m: *mut u8, mn: usize, a: *mut u8, an: usize,
        p: *const Pair, pn: usize, s: *mut u8, sn: usize,
    ) -> Answer;
    fn birnenschloss_initialise(
        t: *const u8, tn: usize, m: *mut u8, mn: usize, object: u32, value: u32,
    ) -> Answer;
    fn birnenschloss_receive(t: *const u8, tn: usize, m: *mut u8, mn: usize, object: u32) -> Answer;
    fn birnenschloss_status(
        t: *const u8, tn: usize, m: *const u8, mn: usize, object: u32,
    ) -> Answer;
    fn birnenschloss_marks(t: *const u8, tn: usize, m: *const u8, mn: usize, object: u32) -> Answer;
    fn birnenschloss_clear_marks(
        t: *const u8, tn: usize, m: *mut u8, mn: usize, object: u32,
    ) -> Answer;
    fn birnenschloss_start_periodic(t: *const u8, tn: usize, m: *mut u8, mn: usize) -> Answer;
    fn birnenschloss_stop_periodic(t: *const u8, tn: usize, m: *mut u8, mn: usize) -> Answer;
    fn birnenschloss_indication(
        t: *const u8, tn: usize, m: *mut u8, mn: usize, ipdu: u32, good: u32, b: *const u8, bn: usize,
    ) -> Answer;
    fn birnenschloss_confirm(
        t: *const u8, tn: usize, m: *mut u8, mn: usize, ipdu: u32, good: u32,
    ) -> Answer;
    fn birnenschloss_tick(
        t: *const u8, tn: usize, m: *mut u8, mn: usize, a: *mut u8, an: usize,
    ) -> Answer;
    fn birnenschloss_sheet_begin(
        t: *const u8, tn: usize, m: *const u8, mn: usize, s: *mut u8, sn: usize,
        o: *const ObjectNumber, on: usize,
    ) -> Answer;
    fn birnenschloss_sheet_drain(
        t: *const u8, tn: usize, m: *mut u8, mn: usize, s: *mut u8, sn: usize, x: *mut u8, xn: usize,
    ) -> Answer;
}

pub fn check(t: &[u8]) -> Answer {
    // SAFETY: t is lent for the whole call.
    unsafe { birnenschloss_check(t.as_ptr(), t.len()) }
}

/// Checks the whole table, so only tests call it: a checked [`Table`](crate::Table) has the length.
#[cfg(test)]
pub fn ipdu_length(t: &[u8], ipdu: u32) -> u32 {
    // SAFETY: t is lent for the whole call.
    unsafe { birnenschloss_ipdu_length(t.as_ptr(), t.len(), ipdu) }
}

pub fn start(t: &[u8], m: &mut [u8]) -> Answer {
    // SAFETY: t and m are lent for the whole call; m is lent to nothing else.
    unsafe { birnenschloss_start(t.as_ptr(), t.len(), m.as_mut_ptr(), m.len()) }
}

pub fn stop(t: &[u8], m: &mut [u8]) -> Answer {
    // SAFETY: t and m are lent for the whole call; m is lent to nothing else.
    unsafe { birnenschloss_stop(t.as_ptr(), t.len(), m.as_mut_ptr(), m.len()) }
}

pub fn send(t: &[u8], m: &mut [u8], a: &mut [u8], object: u32, value: u32) -> Answer {
    // SAFETY: t, m and a are lent for the whole call; m and a are lent to nothing else.
    unsafe {
        birnenschloss_send(
            t.as_ptr(),
            t.len(),
            m.as_mut_ptr(),
            m.len(),
            a.as_mut_ptr(),
            a.len(),
            object,
            value,
        )
    }
}

pub fn send_records(t: &[u8], m: &mut [u8], a: &mut [u8], p: &[Pair], s: &mut [u8]) -> Answer {
    // SAFETY: t, m, a, p and s are lent for the whole call; m, a and s are lent to nothing else.
    unsafe {
        birnenschloss_send_records(
            t.as_ptr(),
            t.len(),
            m.as_mut_ptr(),
            m.len(),
            a.as_mut_ptr(),
            a.len(),
            p.as_ptr(),
            p.len(),
            s.as_mut_ptr(),
            s.len(),
        )
    }
}

pub fn initialise(t: &[u8], m: &mut [u8], object: u32, value: u32) -> Answer {
    // SAFETY: t and m are lent for the whole call; m is lent to nothing else.
    unsafe { birnenschloss_initialise(t.as_ptr(), t.len(), m.as_mut_ptr(), m.len(), object, value) }
}

pub fn receive(t: &[u8], m: &mut [u8], object: u32) -> Answer {
    // SAFETY: t and m are lent for the whole call; m is lent to nothing else.
    unsafe { birnenschloss_receive(t.as_ptr(), t.len(), m.as_mut_ptr(), m.len(), object) }
}

pub fn status(t: &[u8], m: &[u8], object: u32) -> Answer {
    // SAFETY: t and m are lent for the whole call.
    unsafe { birnenschloss_status(t.as_ptr(), t.len(), m.as_ptr(), m.len(), object) }
}

pub fn marks(t: &[u8], m: &[u8], object: u32) -> Answer {
    // SAFETY: t and m are lent for the whole call.
    unsafe { birnenschloss_marks(t.as_ptr(), t.len(), m.as_ptr(), m.len(), object) }
}

pub fn clear_marks(t: &[u8], m: &mut [u8], object: u32) -> Answer {
    // SAFETY: t and m are lent for the whole call; m is lent to nothing else.
    unsafe { birnenschloss_clear_marks(t.as_ptr(), t.len(), m.as_mut_ptr(), m.len(), object) }
}

pub fn start_periodic(t: &[u8], m: &mut [u8]) -> Answer {
    // SAFETY: t and m are lent for the whole call; m is lent to nothing else.
    unsafe { birnenschloss_start_periodic(t.as_ptr(), t.len(), m.as_mut_ptr(), m.len()) }
}

pub fn stop_periodic(t: &[u8], m: &mut [u8]) -> Answer {
    // SAFETY: t and m are lent for the whole call; m is lent to nothing else.
    unsafe { birnenschloss_stop_periodic(t.as_ptr(), t.len(), m.as_mut_ptr(), m.len()) }
}

pub fn indication(t: &[u8], m: &mut [u8], ipdu: u32, good: bool, b: &[u8]) -> Answer {
    // SAFETY: t, m and b are lent for the whole call; m is lent to nothing else.
    unsafe {
        birnenschloss_indication(
            t.as_ptr(),
            t.len(),
            m.as_mut_ptr(),
            m.len(),
            ipdu,
            good.into(),
            b.as_ptr(),
            b.len(),
        )
    }
}

pub fn confirm(t: &[u8], m: &mut [u8], ipdu: u32, good: bool) -> Answer {
    // SAFETY: t and m are lent for the whole call; m is lent to nothing else.
    unsafe {
        birnenschloss_confirm(t.as_ptr(), t.len(), m.as_mut_ptr(), m.len(), ipdu, good.into())
    }
}

pub fn tick(t: &[u8], m: &mut [u8], a: &mut [u8]) -> Answer {
    // SAFETY: t, m and a are lent for the whole call; m and a are lent to nothing else.
    unsafe {
        birnenschloss_tick(t.as_ptr(), t.len(), m.as_mut_ptr(), m.len(), a.as_mut_ptr(), a.len())
    }
}

pub fn sheet_begin(t: &[u8], m: &[u8], s: &mut [u8], o: &[ObjectNumber]) -> Answer {
    // SAFETY: t, m, s and o are lent for the whole call; s is lent to nothing else. An ObjectNumber
    // is a u32.
    unsafe {
        birnenschloss_sheet_begin(
            t.as_ptr(),
            t.len(),
            m.as_ptr(),
            m.len(),
            s.as_mut_ptr(),
            s.len(),
            o.as_ptr(),
            o.len(),
        )
    }
}

pub fn sheet_drain(t: &[u8], m: &mut [u8], s: &mut [u8], x: &mut [u8]) -> Answer {
    // SAFETY: t, m, s and x are lent for the whole call; m, s and x are lent to nothing else.
    unsafe {
        birnenschloss_sheet_drain(
            t.as_ptr(),
            t.len(),
            m.as_mut_ptr(),
            m.len(),
            s.as_mut_ptr(),
            s.len(),
            x.as_mut_ptr(),
            x.len(),
        )
    }
}
