//! The random groups of the test, and calls and groups mixed. As the maker of calls, the maker of
//! groups looks at the state of the reference only to meet interesting places.

use crate::act::Act;
use crate::group::{Form, Group, Pair};
use crate::make::{self, call, scramble, value_for};
use crate::records::Object;
use crate::reference::Layer;
use crate::table::Run;

/// A call, or one time in eight a group; seldom where the table has no object to send.
pub fn act(run: &mut Run, layer: &Layer, style: usize) -> Act {
    let seldom = if layer.objects.iter().any(|o| o.sends) { 8 } else { 80 };
    if run.below(seldom) == 0 {
        let pool = pool(run, layer);
        Act::Group(group(run, layer, &pool))
    } else {
        Act::Call(call(run, layer, style))
    }
}

/// What mostly has this object filter a value: a call, or for a send object, now and then, a group.
pub fn filtering(run: &mut Run, layer: &Layer, object: usize) -> Act {
    if layer.objects[object].sends && run.below(5) == 0 {
        return Act::Group(group(run, layer, &[object]));
    }
    Act::Call(make::filtering(run, layer, object))
}

/// A group that mostly names objects of the pool, which are send objects.
fn group(run: &mut Run, layer: &Layer, pool: &[usize]) -> Group {
    let (count, as_bytes) = (count(run), run.below(2) == 0);
    let pairs = pairs(run, layer, pool, count, as_bytes);
    let form = if as_bytes { Form::Bytes(bytes(run, &pairs)) } else { Form::Records(pairs) };
    let lent = status_count(run, count);
    let mut statuses = vec![0; lent + 1 + run.below(16)];
    scramble(run, &mut statuses);
    Group { form, statuses, lent }
}

fn count(run: &mut Run) -> usize {
    let any = run.below(17);
    match run.below(12) {
        0 => run.pick(&[17, 17, 18, 32, 255, 256, 257, 272]),
        1 => 0,
        _ => run.pick(&[1, 2, 3, 4, 4, 8, 15, 16, 16, any]),
    }
}

/// The length of the status list: now and then not the count of the pairs.
fn status_count(run: &mut Run, count: usize) -> usize {
    match run.below(12) {
        0 => run.pick(&[count + 1, count + 1, 16, 5 * count, count + 256]),
        1 => run.pick(&[count.saturating_sub(1), count.saturating_sub(1), 0, count % 256]),
        _ => count,
    }
}

/// The byte form, now and then with some bytes of one more pair.
fn bytes(run: &mut Run, pairs: &[Pair]) -> Vec<u8> {
    let mut bytes: Vec<u8> = pairs.iter().flat_map(|pair| pair.bytes()).collect();
    if run.below(12) == 0 {
        bytes.resize(bytes.len() + 1 + run.below(4), 0);
    }
    bytes
}

// ---- Objects ----

/// Some send objects that are interesting together: of one I-PDU, with filter 14, with receivers
/// inside, with requests that may go; or one alone, or all.
fn pool(run: &mut Run, layer: &Layer) -> Vec<usize> {
    let objects = &layer.objects;
    let all: Vec<usize> = (0..objects.len()).filter(|i| objects[*i].sends).collect();
    if all.is_empty() {
        return all;
    }
    let (theme, one) = (run.below(8), run.pick(&all));
    let belongs = |i: &usize| match theme {
        0 | 1 => objects[*i].ipdu == objects[one].ipdu,
        2 => objects[*i].filter == 14,
        3 => objects.iter().any(|r| r.sender == Some(*i)),
        4 | 5 => objects[*i].triggered && may_be_requested(layer, &objects[*i]),
        6 => *i == one,
        _ => true,
    };
    let some: Vec<usize> = all.iter().copied().filter(belongs).collect();
    if some.is_empty() {
        all
    } else {
        some
    }
}

fn may_be_requested(layer: &Layer, o: &Object) -> bool {
    let may_go = |k: usize| {
        let p = &layer.ipdus[k];
        p.mode != 1 && !p.open && p.delay == 0
    };
    o.ipdu.is_some_and(may_go)
}

/// The pairs; a copy of the layer goes along, so that later ones are chosen by its new state.
fn pairs(run: &mut Run, layer: &Layer, pool: &[usize], count: usize, as_bytes: bool) -> Vec<Pair> {
    let mut layer = layer.clone();
    let mut list = Vec::new();
    for _ in 0..count {
        let object = object(run, layer.objects.len(), pool, as_bytes);
        let pair = Pair { object, value: value(run, &layer, object) };
        layer.call(&pair.send(), 8192, true, &mut [0; 256]);
        list.push(pair);
    }
    list
}

/// Mostly one of the pool; else any object, or a number that is none's.
fn object(run: &mut Run, count: usize, pool: &[usize], as_bytes: bool) -> u32 {
    let any = run.below(count.max(1));
    let some = if pool.is_empty() { any } else { run.pick(pool) } as u32;
    match run.below(16) {
        0 if as_bytes => run.pick(&[count as u32, 127, 128, 129, 200, 254, 255]),
        0 => run.pick(&[count as u32, 128, 255, 256 + some, 65536 + some, some.wrapping_sub(256)]),
        1 => any as u32,
        _ => some,
    }
}

/// A value for the object; most times one that its filter passes, if one of three tries is.
fn value(run: &mut Run, layer: &Layer, object: u32) -> u32 {
    let tries = [(); 3].map(|_| value_for(run, layer, object));
    let passes = |v: &u32| layer.objects.get(object as usize).is_some_and(|o| o.judge(*v));
    let passing = tries.into_iter().find(passes).filter(|_| run.below(3) > 0);
    passing.unwrap_or(tries[0])
}
