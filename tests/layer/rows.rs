//! Of each object with filter 14, in the independent layer, the row of its filterings since the last
//! start, or since a change of the memory, kept without its count: of any N in a row, N the period,
//! exactly one must have passed. The library is held to it by what is compared after each call.

use crate::act::Act;
use crate::call::Call;
use crate::met::Event;
use crate::records::Object;
use crate::reference::Layer;
use std::collections::VecDeque;
use Event::*;

/// The rows by the numbers of the objects; those of objects with another filter stay empty.
pub struct Rows(Vec<Row>);

#[derive(Clone, Default)]
struct Row {
    filterings: u64,
    /// Whether each of the last ones passed, at most N.
    last: VecDeque<bool>,
    /// The count, where it was not 0, at an initialise after the last one.
    initialised: Option<u8>,
}

impl Rows {
    pub fn new(layer: &Layer) -> Rows {
        Rows(vec![Row::default(); layer.objects.len()])
    }

    /// Goes on by what was played and not refused, with the layer before and after it; gives what
    /// it has met, or the row that is not as it must be. The sends of a group are looked at one
    /// by one, over a copy of the layer.
    pub fn follow(
        &mut self,
        act: &Act,
        before: &Layer,
        after: &Layer,
    ) -> Result<Vec<Event>, String> {
        let mut met = Vec::new();
        match act {
            Act::Call(Call::Start) => *self = Rows::new(after),
            Act::Call(call) => self.follow_call(call, before, after, &mut met)?,
            Act::Group(group) => {
                let mut layer = before.clone();
                for pair in group.pairs() {
                    let was = layer.clone();
                    layer.call(&pair.send(), 8192, true, &mut [0; 256]);
                    self.follow_call(&pair.send(), &was, &layer, &mut met)?;
                }
            }
            Act::Sheet(_) => {}
        }
        Ok(met)
    }

    /// A call filters an object once or not at all.
    fn follow_call(
        &mut self,
        call: &Call,
        before: &Layer,
        after: &Layer,
        met: &mut Vec<Event>,
    ) -> Result<(), String> {
        let objects = before.objects.iter().zip(&after.objects);
        for (i, (was, is)) in objects.enumerate().filter(|(_, (was, _))| was.filter == 14) {
            let row = &mut self.0[i];
            if matches!(call, Call::Initialise { object, .. } if *object as usize == i) {
                row.initialised = Some(was.occurrence).filter(|count| *count != 0);
            }
            if was.judged != is.judged {
                row.go_on(was, is).map_err(|what| format!("object {i}: {what}"))?;
                met.extend(row.met(call, was, is));
                row.initialised = None;
            }
        }
        Ok(())
    }
}

impl Row {
    fn go_on(&mut self, was: &Object, is: &Object) -> Result<(), String> {
        let period = was.first as usize;
        self.filterings += 1;
        self.last.push_back(is.judged[1] > was.judged[1]);
        if self.last.len() > period {
            self.last.pop_front();
        }
        let passed = self.last.iter().filter(|passed| **passed).count();
        if passed == 1 || (passed == 0 && self.last.len() < period) {
            return Ok(());
        }
        let at = format!("filtering {} with period {period}", self.filterings);
        Err(format!("{at}: of the last {} {passed} passed", self.last.len()))
    }

    /// What the last filtering has met. A count that wraps at 256 stands for the rule before
    /// request W-203.
    fn met(&self, call: &Call, was: &Object, is: &Object) -> impl Iterator<Item = Event> {
        let (period, passed) = (was.first as u64, self.last.back() == Some(&true));
        let by_indication = matches!(call, Call::Indication { .. });
        let goes_on = was.occurrence != is.occurrence;
        let returns = goes_on && is.occurrence == 0;
        let stayed = self.initialised == Some(was.occurrence);
        let late = self.filterings > 256;
        let wrapped = (self.filterings - 1) % 256 % period == was.second as u64;
        let events = [
            (SendCountReturns, returns && was.sends),
            (IndicationCountReturns, returns && !was.sends && by_indication),
            (InternalCountReturns, returns && !was.sends && !by_indication),
            (LostCountGoesOn, goes_on && is.lost > was.lost),
            (DroppedCountGoesOn, goes_on && !passed),
            (InitialiseBetweenSends, stayed && was.sends),
            (InitialiseBetweenArrivals, stayed && !was.sends),
            (FilteredPast256, late && !period.is_power_of_two()),
            (NotAsWrapped, late && passed != wrapped),
        ];
        events.into_iter().filter(|(_, is)| *is).map(|(event, _)| event)
    }
}
