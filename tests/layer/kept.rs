//! Request W-205: readings of one I-PDU may share bits. Of each send object, in the independent
//! layer, the value that it kept last since the last start, and when. Each bit of a send I-PDU must
//! be that of the latest of these whose reading covers it, and 0 where none does; so the reading
//! stored last unpacks to its low bits, and an older one has its own bit wherever no later one
//! covers it. A signed reading stored last gives a value back exactly that fits its bits (W-207).
//! The library is held to it by what is compared after each call.

use crate::act::Act;
use crate::call::Call;
use crate::met::Event;
use crate::records::Object;
use crate::reference::Layer;
use Event::*;

#[derive(Clone, Copy)]
struct Kept {
    /// How many values were kept before.
    at: u64,
    value: u32,
    by: By,
}

#[derive(Clone, Copy, PartialEq)]
enum By {
    Start,
    Initialise,
    Send,
}

pub struct Latest {
    /// By the numbers of the objects; of each send object one, from the first start on.
    kept: Vec<Option<Kept>>,
    started: bool,
    many: u64,
    /// How many were kept before the group that is played.
    group_from: u64,
}

impl Latest {
    pub fn new(layer: &Layer) -> Latest {
        let kept = vec![None; layer.objects.len()];
        Latest { kept, started: false, many: 0, group_from: u64::MAX }
    }

    /// Goes on by what was played and not refused, with the layer before and after it; gives what
    /// it has met, or what is not as it must be. What memory held before the first start is not
    /// known here. The sends of a group are looked at one by one, over a copy of the layer.
    pub fn follow(
        &mut self,
        act: &Act,
        before: &Layer,
        after: &Layer,
    ) -> Result<Vec<Event>, String> {
        let (mut met, many) = (Vec::new(), self.many);
        self.started |= act.is_start();
        if !self.started {
            return Ok(met);
        }
        match act {
            Act::Call(call) => self.follow_call(call, before, after, &mut met),
            Act::Group(group) => {
                let mut layer = before.clone();
                self.group_from = many;
                for pair in group.pairs() {
                    let was = layer.clone();
                    layer.call(&pair.send(), 8192, true, &mut [0; 256]);
                    self.follow_call(&pair.send(), &was, &layer, &mut met);
                }
                self.group_from = u64::MAX;
            }
            Act::Sheet(_) => {}
        }
        for (k, p) in after.ipdus.iter().enumerate().filter(|(_, p)| p.sends) {
            let here = |(o, kept): (&Object, &Option<Kept>)| {
                o.ipdu == Some(k) && kept.is_some_and(|kept| kept.at >= many)
            };
            if act.is_start() || after.objects.iter().zip(&self.kept).any(here) {
                met.extend(self.look(after, k)?);
            } else if p.bytes != before.ipdus[k].bytes {
                return Err(format!("I-PDU {k} was changed by no value"));
            }
        }
        Ok(met)
    }

    fn follow_call(&mut self, call: &Call, before: &Layer, after: &Layer, met: &mut Vec<Event>) {
        let sends = |object: &u32| after.objects.get(*object as usize).is_some_and(|o| o.sends);
        match call {
            Call::Start => {
                for (i, o) in after.objects.iter().enumerate().filter(|(_, o)| o.sends) {
                    self.keep(after, i, o.initial, By::Start, met);
                }
            }
            Call::Initialise { object, value } if sends(object) => {
                self.keep(after, *object as usize, *value, By::Initialise, met);
            }
            Call::Send { object, value } if sends(object) => {
                let i = *object as usize;
                if after.objects[i].judged[1] > before.objects[i].judged[1] {
                    self.keep(after, i, *value, By::Send, met);
                } else if !self.changed_by(after, i, *value).is_empty() {
                    met.push(DroppedCoversNothing);
                }
            }
            _ => {}
        }
    }

    fn keep(&mut self, layer: &Layer, i: usize, value: u32, by: By, met: &mut Vec<Event>) {
        let (o, is_start) = (&layer.objects[i], by == By::Start);
        for (j, was) in self.changed_by(layer, i, value) {
            let other = &layer.objects[j];
            let events = [
                (StartCoversStart, is_start),
                (SendCoversStart, by == By::Send && was.by == By::Start),
                (SendCoversSend, by == By::Send && was.by == By::Send),
                (SendCoversInitialise, by == By::Send && was.by == By::Initialise),
                (InitialiseCoversSend, by == By::Initialise && was.by == By::Send),
                (LowerCoversHigher, !is_start && i < j),
                (HigherCoversLower, !is_start && j < i),
                (SameBitsCovered, !is_start && o.bits == other.bits),
                (OtherOrderCovered, !is_start && goes_down(o) != goes_down(other)),
                (GroupCoversGroup, was.at >= self.group_from),
            ];
            met.extend(events.into_iter().filter(|(_, is)| *is).map(|(event, _)| event));
        }
        self.kept[i] = Some(Kept { at: self.many, value, by });
        self.many += 1;
    }

    /// The other objects of which a bit stands that this value, kept, would change.
    fn changed_by(&self, layer: &Layer, i: usize, value: u32) -> Vec<(usize, Kept)> {
        let o = &layer.objects[i];
        let Some(k) = o.ipdu else { return Vec::new() };
        let changed = |(n, place): (usize, &usize)| {
            let (j, m, kept) = self.latest(layer, k, *place)?;
            (j != i && (value >> n ^ kept.value >> m) & 1 == 1).then_some((j, kept))
        };
        o.bits.iter().enumerate().filter_map(changed).collect()
    }

    /// The latest kept value of those that cover the bit of I-PDU k: its object, which of its bits
    /// stands there, and the value.
    fn latest(&self, layer: &Layer, k: usize, place: usize) -> Option<(usize, usize, Kept)> {
        let covers = |(i, o): (usize, &Object)| {
            let kept = self.kept[i].filter(|_| o.ipdu == Some(k))?;
            Some((i, o.bits.iter().position(|bit| *bit == place)?, kept))
        };
        layer.objects.iter().enumerate().filter_map(covers).max_by_key(|(_, _, kept)| kept.at)
    }

    /// Every bit and every reading of a send I-PDU; gives what it has met.
    fn look(&self, layer: &Layer, k: usize) -> Result<Vec<Event>, String> {
        let bytes = &layer.ipdus[k].bytes;
        for place in 0..8 * layer.ipdus[k].length {
            let found = self.latest(layer, k, place);
            let bit = found.map_or(0, |(_, n, kept)| kept.value >> n & 1);
            if (bytes[place / 8] >> (place % 8) & 1) as u32 != bit {
                return Err(format!("bit {place} of I-PDU {k} is not the latest one's, {bit}"));
            }
        }
        let pairs = layer.objects.iter().zip(&self.kept).filter(|(o, _)| o.ipdu == Some(k));
        let all: Vec<(&Object, Kept)> = pairs.filter_map(|(o, kept)| Some((o, (*kept)?))).collect();
        let last = all.iter().map(|(_, kept)| kept.at).max();
        let mut met = Vec::new();
        for (o, kept) in &all {
            let (reading, size) = (o.reading(bytes), o.bits.len());
            let later = |bit| all.iter().any(|(p, q)| q.at > kept.at && p.bits.contains(bit));
            let covered = o.bits.iter().enumerate().filter(|(_, bit)| later(*bit));
            let covered = covered.fold(0u32, |word, (n, _)| word | 1 << n);
            if (reading ^ kept.value) & (u32::MAX >> (32 - size)) & !covered != 0 {
                return Err(format!("{reading} is read for {}, covered {covered}", kept.value));
            }
            if Some(kept.at) == last && covered != 0 {
                return Err(String::from("the reading stored last is covered"));
            }
            if Some(kept.at) == last && o.signed {
                met.push(read_back(o, kept, reading)?);
            }
            if 0 < covered.count_ones() && (covered.count_ones() as usize) < size {
                met.push(OlderInPart);
            }
        }
        Ok(met)
    }
}

/// A signed value stored last and what is read of it, which has the same low bits.
fn read_back(o: &Object, kept: &Kept, reading: u32) -> Result<Event, String> {
    let (value, initialised) = (kept.value, kept.by == By::Initialise);
    match (o.fits(value), o.fits(reading)) {
        (true, _) if reading != value => Err(format!("{reading} is read back for {value}")),
        (_, false) => Err(format!("{reading} is read back of {} bits", o.bits.len())),
        (false, _) if initialised => Ok(InitialisedReadBackCut),
        (false, _) => Ok(ReadBackCut),
        _ if o.meant(value) < 0 => Ok(ReadBackBelowZero),
        _ => Ok(ReadBackExactly),
    }
}

/// Whether the places go down somewhere, as only those of the big order do.
fn goes_down(o: &Object) -> bool {
    o.bits.windows(2).any(|two| two[1] < two[0])
}
