//! What the run has met of signed objects (request W-207).

use crate::call::Call;
use crate::met::{Event, Met};
use crate::records::{extended, Object};
use crate::reference::Layer;
use crate::table::{is_big, place, Answer};
use Event::*;

/// How often filters have judged values of signed objects.
#[derive(Default)]
pub struct Judged {
    /// By each filter: dropped and passed.
    all: [[u64; 2]; 15],
    /// By the filters 8 to 13, which compare, and by where the value came from: dropped and passed,
    /// then the same where an object that is not signed would have judged otherwise.
    compared: [[[u64; 4]; 3]; 6],
}

const FROM: [&str; 3] = ["sent", "arrived", "delivered inside"];
const HOW: [&str; 4] = ["dropped", "passed", "dropped as signed alone", "passed as signed alone"];

type Events = Vec<(Event, bool)>;

impl Met {
    fn note_all(&mut self, events: Events) {
        events.into_iter().filter(|(_, is)| *is).for_each(|(event, _)| self.note(event, 1));
    }

    /// A table that is accepted.
    pub fn note_signed_objects(&mut self, table: &[u8]) {
        let objects = 16 + 16 * table[0] as usize;
        for r in table[objects..].chunks(32).filter(|r| r[5] >= 2) {
            let (sends, placed, inside, big) = (r[0] == 1, r[1] < 255, r[2] < 255, is_big(r[5]));
            self.note_all(vec![
                (SignedLittleSent, sends && placed && !big),
                (SignedBigSent, sends && placed && big),
                (SignedLittleReceived, !sends && placed && !big),
                (SignedBigReceived, !sends && placed && big),
                (SignedSentAlone, sends && !placed),
                (SignedReceivedAlone, !sends && !placed && !inside),
                (SignedInside, inside),
            ]);
        }
    }

    /// A wrong table; whether it would be right with another order of the object that is named.
    pub fn note_wrong_order(&mut self, table: &[u8]) {
        let Some(object @ 256..=511) = place(table) else {
            return;
        };
        let at = 16 + 16 * table[0] as usize + 32 * (object as usize - 256);
        let right_with = |order: u8| {
            let mut other = table.to_vec();
            other[at + 5] = order;
            place(&other).is_none()
        };
        if (0..4).any(right_with) {
            let (order, alone) = (table[at + 5], table[at + 1] == 255);
            self.note_all(vec![
                (OrderOneAlone, alone && order == 1),
                (OrderThreeAlone, alone && order == 3),
                (OrderAboveAlone, alone && order > 3),
                (OrderFourPlaced, !alone && order == 4),
                (Order255Placed, !alone && order == 255),
            ]);
        }
    }

    /// A call that was not refused, with the layer before and after it.
    pub fn note_signed(&mut self, call: &Call, answer: Answer, before: &Layer, after: &Layer) {
        let both = || before.objects.iter().zip(&after.objects).enumerate();
        let filtered = || both().filter(|(_, (was, is))| was.judged != is.judged);
        match call {
            Call::Send { object, value } => {
                let sender = &before.objects[*object as usize];
                for (i, (was, is)) in filtered() {
                    let from = if i == *object as usize { 0 } else { 2 };
                    self.note_filtering(was, is, *value, from);
                    if from == 2 {
                        self.note_all(inside(sender, was, is, *value));
                    }
                }
            }
            Call::Indication { ipdu, .. } => {
                let bytes = &after.ipdus[*ipdu as usize].bytes;
                for (_, (was, is)) in filtered() {
                    let value = was.reading(bytes);
                    self.note_filtering(was, is, value, 1);
                    self.note_all(read(was, value));
                    let same = |o: &Object| o.ipdu == was.ipdu && o.bits == was.bits;
                    let mut others = before.objects.iter().filter(|o| same(o) && !o.signed);
                    self.note_all(vec![(
                        ReadBothWays,
                        was.signed && others.any(|o| o.reading(bytes) != value),
                    )]);
                }
            }
            Call::Receive { object } => {
                self.note_all(received(&before.objects[*object as usize], answer.value));
            }
            _ => {}
        }
    }

    fn note_filtering(&mut self, was: &Object, is: &Object, value: u32, from: usize) {
        if !was.signed {
            return;
        }
        let (filter, passed) = (was.filter as usize, is.judged[1] > was.judged[1]);
        self.signed.all[filter][passed as usize] += 1;
        if let 8..=13 = filter {
            let times = &mut self.signed.compared[filter - 8][from];
            times[passed as usize] += 1;
            times[2 + passed as usize] += (passed != was.judge_as(value, false)) as u64;
        }
        let cut = Object { old: extended(was.old, was.bits.len()), ..was.clone() };
        self.note_all(vec![(OldComparedWhole, filter > 9 && cut.judge(value) != passed)]);
    }

    /// The names of what filters of signed objects never did.
    pub fn missing_of_signed(&self) -> Vec<String> {
        let mut list = Vec::new();
        for (filter, [dropped, passed]) in self.signed.all.iter().enumerate() {
            // Filter 0 drops nothing, and filter 1 passes nothing.
            if (*dropped == 0 && filter != 0) || (*passed == 0 && filter != 1) {
                list.push(format!("drop or pass by filter {filter} of a signed object"));
            }
        }
        for (filter, by_place) in self.signed.compared.iter().enumerate() {
            for (from, times) in FROM.iter().zip(by_place) {
                for (how, _) in HOW.iter().zip(times).filter(|(_, times)| **times == 0) {
                    list.push(format!("filter {} of a signed object: {from}, {how}", filter + 8));
                }
            }
        }
        list
    }

    pub fn print_of_signed(&self) {
        println!("signed objects, each filter dropped and passed: {:?}", self.signed.all);
        println!("filters 8 to 13, {}; {}:", FROM.join(", "), HOW.join(", "));
        println!("{:?}", self.signed.compared);
    }
}

/// A value of an object in a good indication.
fn read(o: &Object, value: u32) -> Events {
    if !o.signed {
        return Vec::new();
    }
    let (number, size) = (o.meant(value), o.bits.len());
    let (big, below) = (o.bits.windows(2).any(|two| two[1] < two[0]), number < 0);
    let (half, some) = (1i64 << (size - 1), (2..32).contains(&size));
    let crosses = o.bits.windows(2).any(|two| two[0] / 8 != two[1] / 8);
    vec![
        (BelowZeroLittle, below && crosses && !big),
        (BelowZeroBig, below && crosses && big),
        (NotBelowLittle, !below && crosses && !big),
        (NotBelowBig, !below && crosses && big),
        (OneBitBelowZero, below && size == 1),
        (ThirtyTwoBitsBelowZero, below && size == 32),
        (LeastOfItsBits, some && number == -half),
        (GreatestOfItsBits, some && number == half - 1),
        (MinusOneOfItsBits, some && number == -1),
    ]
}

/// A value that a sending object has delivered to a receiver inside.
fn inside(sender: &Object, was: &Object, is: &Object, value: u32) -> Events {
    let passed = is.judged[1] > was.judged[1];
    let by_its_own = was.judge(value) != was.judge_as(value, !was.signed);
    let own_sign = sender.signed != was.signed && by_its_own;
    vec![
        (DeliveredInsideWhole, passed && sender.signed && !sender.fits(value)),
        (InsideBelowZero, passed && was.meant(value) < 0),
        (InsideJudgedSigned, own_sign && was.signed),
        (InsideJudgedUnsigned, own_sign && !was.signed),
    ]
}

/// A value that a receive has given.
fn received(o: &Object, value: u32) -> Events {
    let (below, whole) = (o.meant(value) < 0, o.signed && !o.fits(value));
    vec![
        (BelowZeroReceived, below && o.depth == 0),
        (BelowZeroQueued, below && o.depth > 0),
        (InitialReceivedWhole, whole && value == o.initial),
        (InitialisedReceivedWhole, whole && value != o.initial),
    ]
}
