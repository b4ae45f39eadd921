//! What the groups of the run have met.

use crate::group::{Form, Group};
use crate::met::{Event, Met};
use crate::reference::Layer;
use crate::table::Answer;
use Event::*;

impl Met {
    /// A group's answer, with the layer before it.
    pub fn note_group(&mut self, group: &Group, answer: Answer, before: &Layer) {
        let reasons = reasons(group);
        let besides = !reasons.is_empty() as u64;
        match answer.number {
            0 => self.note_sends(group, answer.value, before),
            2 if reasons.len() == 1 => self.note(reasons[0], 1),
            5 => {
                self.note(GroupWrongTable, 1);
                self.note(GroupFiveNotTwo, besides);
            }
            6 => self.note(GroupSixNotTwo, besides),
            7 => {
                self.note(GroupOverStopped, 1);
                self.note(GroupSevenNotTwo, besides);
            }
            _ => {}
        }
    }

    /// A group over a memory with a number out of its range.
    pub fn note_out_of_range(&mut self, group: &Group) {
        self.note(GroupRangeNotTwo, !reasons(group).is_empty() as u64);
    }

    /// A group that was done: its sends, one by one over a copy of the layer.
    fn note_sends(&mut self, group: &Group, word: u32, before: &Layer) {
        let (pairs, mut layer, mut so_far) = (group.pairs(), before.clone(), Sends::default());
        let is_bytes = matches!(group.form, Form::Bytes(_));
        for pair in &pairs {
            let i = pair.object as usize;
            if !sends(&layer, i) {
                so_far.wrong = true;
                self.note(GroupReceiveObject, (i < layer.objects.len()) as u64);
                self.note(GroupByteFrom128, (is_bytes && i >= 128) as u64);
                self.note(GroupRecordAbove255, (i > 255 && sends(&layer, i % 256)) as u64);
                continue;
            }
            let was = layer.clone();
            let answer = layer.call(&pair.send(), 8192, true, &mut [0; 256]);
            self.note_send(i, &mut so_far, [before, &was, &layer], pair.value);
            self.note_signed(&pair.send(), answer, &was, &layer);
            so_far.word |= answer.value;
        }
        self.note(GroupEmpty, pairs.is_empty() as u64);
        self.note(GroupSixteen, (pairs.len() == 16) as u64);
        self.note(GroupSeveralRequests, (word.count_ones() > 1) as u64);
    }

    /// One send of a group by object i, with the layer before the group, before and after it.
    fn note_send(&mut self, i: usize, so_far: &mut Sends, layers: [&Layer; 3], value: u32) {
        let [first, was, is] = layers;
        let (o, again) = (&was.objects[i], so_far.named.contains(&i));
        let passed = o.judge(value);
        let k = o.ipdu.filter(|k| so_far.word >> k & 1 == 1);
        let packed = k.is_some_and(|k| was.ipdus[k].bytes != is.ipdus[k].bytes);
        let postponed = k.is_some_and(|k| !was.ipdus[k].wanted && is.ipdus[k].wanted);
        let returned = so_far.returned.contains(&i);
        if o.occurrence != 0 && is.objects[i].occurrence == 0 {
            so_far.returned.push(i);
        }
        let has_receiver = was.objects.iter().any(|r| r.sender == Some(i));
        so_far.named.push(i);
        if o.filter == 14 {
            so_far.fourteen.push((i, passed));
        }
        let other_outcome = o.filter == 14 && so_far.fourteen.contains(&(i, !passed));
        for (event, is) in [
            (GroupWrongPairGoesOn, so_far.wrong),
            (GroupSameObjectTwice, again),
            (GroupJudgedAnew, again && passed != first.objects[i].judge(value)),
            (GroupFourteen, other_outcome),
            (GroupCountReturns, returned),
            (GroupPendingAfterTriggered, !o.triggered && packed),
            (GroupPostponedInside, postponed),
            (GroupReceiverTwice, again && has_receiver),
            (GroupValueLost, lost(is) > lost(was)),
        ] {
            self.note(event, is as u64);
        }
    }
}

/// What the sends of a group have done so far: the wrong ones, the objects named, what objects
/// with filter 14 have judged, those whose count has returned to 0, the requests.
#[derive(Default)]
struct Sends {
    wrong: bool,
    named: Vec<usize>,
    fourteen: Vec<(usize, bool)>,
    returned: Vec<usize>,
    word: u32,
}

/// The reasons to refuse a group with 2.
fn reasons(group: &Group) -> Vec<Event> {
    let pairs = group.pairs().len();
    let all = [
        (GroupTooMany, pairs > 16),
        (GroupCutPair, group.is_cut()),
        (GroupStatusesShort, group.lent < pairs),
        (GroupStatusesLong, group.lent > pairs),
    ];
    all.into_iter().filter(|(_, is)| *is).map(|(event, _)| event).collect()
}

/// How many values the queues have lost.
fn lost(layer: &Layer) -> u64 {
    layer.objects.iter().map(|o| o.lost).sum()
}

fn sends(layer: &Layer, i: usize) -> bool {
    layer.objects.get(i).is_some_and(|o| o.sends)
}
