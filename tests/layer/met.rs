//! What the run has met of the document's rules; it must meet all of it.

use crate::act::{Act, KINDS};
use crate::call::Call;
use crate::events::EVENTS;
use crate::met_sheet::Refused;
use crate::met_signed::Judged;
use crate::records::{Ipdu, Object};
use crate::reference::Layer;
use crate::table::Answer;

pub use crate::events::Event;
use Event::*;

pub struct Met {
    events: [u64; EVENTS.len()],
    /// How often each number was answered.
    numbers: [u64; 11],
    /// How often each call was accepted, in the order of document 01, then groups in either form,
    /// begins and drains.
    accepted: [u64; KINDS],
    /// How often each mark was read.
    marks: [u64; 4],
    /// Of each filter, how many values it dropped and passed.
    judged: [[u64; 2]; 15],
    /// How often each number was answered over a changed memory.
    changed_numbers: [u64; 11],
    /// How often each call was made over a changed memory: done and refused where its numbers are
    /// in their ranges, and where one is not.
    changed: [[u64; 3]; KINDS],
    pub refused: Refused,
    pub signed: Judged,
}

impl Met {
    pub fn new() -> Met {
        Met {
            events: [0; EVENTS.len()],
            numbers: [0; 11],
            accepted: [0; KINDS],
            marks: [0; 4],
            judged: [[0; 2]; 15],
            changed_numbers: [0; 11],
            changed: [[0; 3]; KINDS],
            refused: [[[0; 11]; 11]; 2],
            signed: Judged::default(),
        }
    }

    pub fn note(&mut self, event: Event, times: u64) {
        self.events[event as usize] += times;
    }

    /// What the objects have judged and lost in a whole list.
    pub fn note_judged(&mut self, objects: &[Object]) {
        for o in objects {
            self.note(ValueLost, o.lost);
            let [dropped, passed] = &mut self.judged[o.filter as usize];
            *dropped += o.judged[0];
            *passed += o.judged[1];
        }
    }

    /// An answer, with the layer before and after it.
    pub fn note_answer(&mut self, act: &Act, answer: Answer, before: &Layer, after: &Layer) {
        self.numbers[answer.number as usize] += 1;
        self.accepted[act.kind()] += !act.refused_by(answer.number) as u64;
        match act {
            Act::Call(call) if !call.refused_by(answer.number) => {
                self.note_done(call, answer, &before.ipdus, &after.ipdus);
                self.note_signed(call, answer, before, after);
            }
            Act::Call(_) | Act::Sheet(_) => {}
            Act::Group(group) => self.note_group(group, answer, before),
        }
    }

    /// A call that was not refused, with the I-PDUs before and after it.
    fn note_done(&mut self, call: &Call, answer: Answer, before: &[Ipdu], after: &[Ipdu]) {
        let some = |is: fn(&Ipdu) -> bool| before.iter().any(is) as u64;
        match call {
            Call::Start => {
                self.note(StartRunning, some(|p| p.running));
                self.note(StartOpen, some(|p| p.open));
            }
            Call::Send { .. } => {
                self.note(RequestBySend, answer.value.count_ones() as u64);
                let both = before.iter().zip(after);
                let postponed = both.filter(|(p, q)| !p.wanted && q.wanted).count();
                self.note(PostponedBySend, postponed as u64);
            }
            Call::Marks { .. } => {
                for (bit, times) in self.marks.iter_mut().enumerate() {
                    *times += (answer.value >> bit & 1) as u64;
                }
            }
            Call::StopPeriodic => self.note(StopPeriodicWanted, some(|p| p.running && p.wanted)),
            Call::Tick => {
                for (k, p) in before.iter().enumerate() {
                    self.note_tick(p, answer.value >> k & 1 == 1);
                }
            }
            _ => {}
        }
    }

    /// A tick of an I-PDU, with its numbers before it and whether it was requested.
    fn note_tick(&mut self, p: &Ipdu, requested: bool) {
        let late = p.open && p.deadline_left == 1;
        let fired = p.running && p.countdown == 1;
        let fired_open = fired && p.open && !late;
        for (event, is) in [
            (RequestByTick, requested),
            (PostponedMadeByTick, requested && p.wanted),
            (DelayRunOut, p.delay == 1),
            (DeadlineRunOut, late),
            (FiredOpenPeriodic, fired_open && p.mode == 1),
            (FiredOpenMixed, fired_open && p.mode == 2),
            (FiredWanted, fired && p.wanted),
            (ReceiveTimerRunOut, p.timer == 1),
        ] {
            self.note(event, is as u64);
        }
    }

    /// A call over a changed memory, with the state that was stored there.
    pub fn note_changed(&mut self, act: &Act, answer: Answer, in_range: bool, before: &Layer) {
        self.changed_numbers[answer.number as usize] += 1;
        let refused = act.refused_by(answer.number);
        let class = if in_range { refused as usize } else { 2 };
        self.changed[act.kind()][class] += 1;
        if let (Act::Group(group), false) = (act, in_range) {
            self.note_out_of_range(group);
        }
        if !in_range || before.stopped {
            return;
        }
        let tick = matches!(act, Act::Call(Call::Tick));
        match act {
            Act::Call(Call::Receive { object } | Call::Status { object }) if answer.number == 4 => {
                let overflow = before.objects[*object as usize].overflow;
                self.note(OverflowOfEmptyQueue, overflow as u64);
            }
            Act::Call(Call::Send { .. } | Call::Tick) | Act::Group(_) if !refused => {
                for (k, p) in before.ipdus.iter().enumerate() {
                    let requested = answer.value >> k & 1 == 1;
                    let behind = p.bytes[p.length..].iter().any(|b| *b != 0);
                    self.note(BytesBehindLength, (requested && behind) as u64);
                    self.note(DeadlineOfZero, (tick && p.open && p.deadline_left == 0) as u64);
                    self.note(CountdownOfZero, (tick && p.running && p.countdown == 0) as u64);
                }
            }
            _ => {}
        }
    }

    /// A call over a memory whose only change is the count of this object.
    pub fn note_count(&mut self, act: &Act, answer: Answer, o: &Object, count: u32) {
        let (fourteen, refused) = (o.filter == 14, answer.number == 6);
        let accepted = !act.is_start() && !act.refused_by(answer.number);
        for (event, is) in [
            (CountOfPeriodRefused, refused && fourteen && count == o.first),
            (CountOfOneRefused, refused && !fourteen && count == 1),
            (GreatestCountAccepted, accepted && fourteen && count + 1 == o.first),
        ] {
            self.note(event, is as u64);
        }
    }

    /// The names of what was never met.
    pub fn missing(&self) -> Vec<String> {
        let mut list = Vec::new();
        let mut look = |name: String, times: u64| {
            if times == 0 {
                list.push(name);
            }
        };
        EVENTS.iter().for_each(|e| look(format!("{e:?}"), self.events[*e as usize]));
        // No call answers 9.
        (0..11).for_each(|n| look(format!("answer {n}"), self.numbers[n] + (n == 9) as u64));
        (0..KINDS).for_each(|n| look(format!("call {n}"), self.accepted[n]));
        (0..4).for_each(|bit| look(format!("mark {}", 1 << bit), self.marks[bit]));
        // A changed memory is lent with a right table; over one in its ranges a start is done.
        for (n, times) in self.changed_numbers.iter().enumerate() {
            look(format!("answer {n} over a changed memory"), times + (n == 5 || n == 9) as u64);
        }
        for (n, [done, refused, out_of_range]) in self.changed.iter().enumerate() {
            look(format!("call {n} done over a changed memory"), *done);
            look(format!("call {n} refused over a changed memory"), refused + (n == 0) as u64);
            look(format!("call {n} over a number out of its range"), *out_of_range);
        }
        // Filter 0 drops nothing, and filter 1 passes nothing.
        for (f, [dropped, passed]) in self.judged.iter().enumerate() {
            look(format!("drop by filter {f}"), dropped + (f == 0) as u64);
            look(format!("pass by filter {f}"), passed + (f == 1) as u64);
        }
        list.extend(self.missing_on_sheets());
        list.extend(self.missing_of_signed());
        list
    }

    pub fn print(&self) {
        println!("answers 0 to 10: {:?}; marks read: {:?}", self.numbers, self.marks);
        let times = |e: &Event| format!("{e:?} {}", self.events[*e as usize]);
        println!("{}", EVENTS.iter().map(times).collect::<Vec<_>>().join(", "));
        println!("over changed memories, answers 0 to 10: {:?}", self.changed_numbers);
        println!("each call done, refused, and with a number out of range: {:?}", self.changed);
        self.print_on_sheets();
        self.print_of_signed();
    }
}
