//! The layer, written from document 01 and in its order: the calls, what comes back; the
//! table, bits and filters are in records.rs. The state is a plain struct; where a number stands
//! in the lent working memory is no matter here. Of that memory a call is told its length and
//! whether its stored numbers are in their ranges.

use crate::call::Call;
use crate::records::{ipdu_of, object_of, pack, two, Ipdu, Object};
use crate::table::{place, Answer};

#[derive(Clone)]
pub struct Layer {
    pub table_right: bool,
    pub stopped: bool,
    pub ipdus: Vec<Ipdu>,
    pub objects: Vec<Object>,
}

const ARRIVED: u8 = 1;
const SENT: u8 = 2;
const RECEIVE_ERROR: u8 = 4;
const SEND_ERROR: u8 = 8;

fn done(value: u32) -> Answer {
    Answer { number: 0, value }
}

fn refused(number: u32) -> Answer {
    Answer { number, value: 0 }
}

impl Layer {
    pub fn new(table: &[u8]) -> Layer {
        let table_right = place(table).is_none();
        let (mut ipdus, mut objects) = (Vec::new(), Vec::new());
        if table_right {
            let objects_at = two(table, 6) as usize;
            ipdus = table[16..objects_at].chunks(16).map(ipdu_of).collect();
            objects = table[objects_at..].chunks(32).map(object_of).collect();
        }
        Layer { table_right, stopped: false, ipdus, objects }
    }

    /// The refusals that any call may meet, in their order, and then the call itself.
    pub fn call(&mut self, call: &Call, memory: usize, in_range: bool, area: &mut [u8]) -> Answer {
        if !self.table_right {
            return refused(5);
        }
        if memory < 8192 || (call.takes_area() && area.len() < 256) {
            return refused(6);
        }
        if let Call::Start = call {
            return self.start();
        }
        if !in_range {
            return refused(6);
        }
        if self.stopped {
            return refused(7);
        }
        match call {
            Call::Start => unreachable!(),
            Call::Stop => self.stop(),
            Call::Send { object, value } => self.send(*object, *value, area),
            Call::Initialise { object, value } => self.initialise(*object, *value),
            Call::Receive { object } => self.receive(*object),
            Call::Status { object } => self.status(*object),
            Call::Marks { object } => self.marks(*object),
            Call::ClearMarks { object } => self.clear_marks(*object),
            Call::StartPeriodic => self.start_periodic(),
            Call::StopPeriodic => self.stop_periodic(),
            Call::Indication { ipdu, good, bytes } => self.indication(*ipdu, *good, bytes),
            Call::Confirm { ipdu, good } => self.confirm(*ipdu, *good),
            Call::Tick => self.tick(area),
        }
    }

    fn start(&mut self) -> Answer {
        self.stopped = false;
        for p in &mut self.ipdus {
            p.bytes = [0; 8];
            p.open = false;
            p.wanted = false;
            p.running = false;
            p.delay = 0;
            p.deadline_left = 0;
            p.countdown = 0;
            p.timer = 0;
            if !p.sends {
                p.timer = if p.first_deadline > 0 { p.first_deadline } else { p.deadline };
            }
        }
        for o in &mut self.objects {
            o.value = o.initial;
            o.queue.clear();
            o.overflow = false;
            o.old = o.initial;
            o.occurrence = 0;
            o.marks = 0;
            if let (true, Some(k)) = (o.sends, o.ipdu) {
                pack(&o.bits, o.initial, &mut self.ipdus[k].bytes);
            }
        }
        done(0)
    }

    fn stop(&mut self) -> Answer {
        self.stopped = true;
        done(0)
    }

    fn send(&mut self, object: u32, value: u32, area: &mut [u8]) -> Answer {
        let Some(i) = self.object(object).filter(|&i| self.objects[i].sends) else {
            return refused(1);
        };
        for r in 0..self.objects.len() {
            if self.objects[r].sender == Some(i) {
                self.deliver(r, value);
            }
        }
        let mut word = 0;
        let o = &mut self.objects[i];
        if o.filter(value) {
            if let Some(k) = o.ipdu {
                let p = &mut self.ipdus[k];
                pack(&o.bits, value, &mut p.bytes);
                if o.triggered && p.mode != 1 {
                    p.wanted = true;
                    word |= self.request_if_it_may_go(k, area);
                }
            }
        }
        done(word)
    }

    fn initialise(&mut self, object: u32, value: u32) -> Answer {
        let Some(i) = self.object(object) else {
            return refused(1);
        };
        let o = &mut self.objects[i];
        if o.sends {
            if let Some(k) = o.ipdu {
                pack(&o.bits, value, &mut self.ipdus[k].bytes);
            }
        } else {
            o.value = value;
            o.queue.clear();
            o.overflow = false;
        }
        o.old = value;
        done(0)
    }

    fn receive(&mut self, object: u32) -> Answer {
        let Some(i) = self.object(object).filter(|&i| !self.objects[i].sends) else {
            return refused(1);
        };
        let o = &mut self.objects[i];
        if o.depth == 0 {
            return done(o.value);
        }
        let Some(oldest) = o.queue.pop_front() else {
            return refused(4);
        };
        if o.overflow {
            o.overflow = false;
            return Answer { number: 3, value: oldest };
        }
        done(oldest)
    }

    fn status(&self, object: u32) -> Answer {
        let Some(i) = self.object(object).filter(|&i| self.objects[i].depth > 0) else {
            return refused(1);
        };
        let o = &self.objects[i];
        if o.queue.is_empty() {
            return refused(4);
        }
        if o.overflow {
            return refused(3);
        }
        done(0)
    }

    fn marks(&self, object: u32) -> Answer {
        let Some(i) = self.object(object) else {
            return refused(1);
        };
        done(self.objects[i].marks as u32)
    }

    fn clear_marks(&mut self, object: u32) -> Answer {
        let Some(i) = self.object(object) else {
            return refused(1);
        };
        self.objects[i].marks = 0;
        done(0)
    }

    fn start_periodic(&mut self) -> Answer {
        for p in &mut self.ipdus {
            if p.sends && p.mode != 0 {
                p.running = true;
                p.countdown = p.offset;
            }
        }
        done(0)
    }

    fn stop_periodic(&mut self) -> Answer {
        for p in &mut self.ipdus {
            p.running = false;
        }
        done(0)
    }

    /// An arrival at a receive object, from an I-PDU or from a sending object.
    fn deliver(&mut self, i: usize, value: u32) {
        let o = &mut self.objects[i];
        if !o.filter(value) {
            return;
        }
        if o.depth == 0 {
            o.value = value;
        } else if o.queue.len() < o.depth {
            o.queue.push_back(value);
        } else {
            o.overflow = true;
            o.lost += 1;
            return;
        }
        o.marks |= ARRIVED;
    }

    fn indication(&mut self, ipdu: u32, good: bool, bytes: &[u8]) -> Answer {
        let Some(k) = self.ipdu(ipdu).filter(|&k| !self.ipdus[k].sends) else {
            return refused(1);
        };
        if !good {
            self.mark(k, RECEIVE_ERROR);
            return done(0);
        }
        if bytes.len() != self.ipdus[k].length {
            return refused(2);
        }
        self.ipdus[k].bytes[..bytes.len()].copy_from_slice(bytes);
        for i in 0..self.objects.len() {
            if self.objects[i].ipdu == Some(k) {
                let value = self.objects[i].reading(&self.ipdus[k].bytes);
                self.deliver(i, value);
            }
        }
        self.ipdus[k].timer = self.ipdus[k].deadline;
        done(0)
    }

    fn confirm(&mut self, ipdu: u32, good: bool) -> Answer {
        let Some(k) = self.ipdu(ipdu).filter(|&k| self.ipdus[k].sends) else {
            return refused(1);
        };
        let p = &mut self.ipdus[k];
        if !p.open {
            return refused(8);
        }
        p.open = false;
        if good {
            p.delay = p.minimum_delay;
            self.mark(k, SENT);
        } else {
            p.delay = 0;
            self.mark(k, SEND_ERROR);
        }
        done(0)
    }

    fn tick(&mut self, area: &mut [u8]) -> Answer {
        let mut word = 0;
        for k in 0..self.ipdus.len() {
            if self.ipdus[k].sends {
                word |= self.tick_send(k, area);
            } else {
                self.tick_receive(k);
            }
        }
        done(word)
    }

    /// An open request's deadline of 0 and a running countdown of 0, which only a changed memory
    /// can hold, run out as 1 does (docs/DECISIONS.md, "Tick").
    fn tick_send(&mut self, k: usize, area: &mut [u8]) -> u32 {
        // (1)
        let p = &mut self.ipdus[k];
        if p.delay > 0 {
            p.delay -= 1;
        }
        // (2)
        if p.open {
            p.deadline_left = p.deadline_left.saturating_sub(1);
            if p.deadline_left == 0 {
                p.open = false;
                p.delay = 0;
                self.mark(k, SEND_ERROR);
            }
        }
        // (3)
        let p = &mut self.ipdus[k];
        if p.running {
            p.countdown = p.countdown.saturating_sub(1);
            if p.countdown == 0 {
                p.countdown = p.period;
                p.wanted = true;
            }
        }
        // (4)
        if self.ipdus[k].wanted {
            self.request_if_it_may_go(k, area)
        } else {
            0
        }
    }

    fn tick_receive(&mut self, k: usize) {
        let p = &mut self.ipdus[k];
        if p.timer > 0 {
            p.timer -= 1;
            if p.timer == 0 {
                p.timer = p.deadline;
                self.mark(k, RECEIVE_ERROR);
            }
        }
    }

    /// Makes the wanted request of I-PDU k if it may go; gives the word of what was requested.
    fn request_if_it_may_go(&mut self, k: usize, area: &mut [u8]) -> u32 {
        let p = &mut self.ipdus[k];
        let may_go = p.mode == 1 || (p.delay == 0 && !p.open);
        if !may_go {
            return 0;
        }
        p.wanted = false;
        if !p.open {
            p.deadline_left = p.deadline;
        }
        p.open = true;
        let slot = &mut area[8 * k..8 * k + 8];
        slot.fill(0);
        slot[..p.length].copy_from_slice(&p.bytes[..p.length]);
        1 << k
    }

    /// Sets a mark on every object of an I-PDU.
    fn mark(&mut self, k: usize, mark: u8) {
        for o in &mut self.objects {
            if o.ipdu == Some(k) {
                o.marks |= mark;
            }
        }
    }

    /// The object of this number; numbers are compared whole.
    fn object(&self, number: u32) -> Option<usize> {
        let i = number as usize;
        (i < self.objects.len()).then_some(i)
    }

    fn ipdu(&self, number: u32) -> Option<usize> {
        let k = number as usize;
        (k < self.ipdus.len()).then_some(k)
    }
}
