//! Small tables that go through some fields, and single ones at the edges, most with a known place.

use super::{ipdu, join, object, set_filter, Run, TIMES, WORDS};

const W: usize = WORDS.len();

/// Start, size and order; right in 8 bytes, without an I-PDU, in both, or in neither.
const PLACES: [[u8; 3]; 10] = [
    [0, 32, 0], [1, 32, 0], [0, 31, 0], [24, 32, 1], [0, 32, 1],
    [0, 32, 2], [1, 32, 2], [24, 32, 3], [0, 32, 3], [0, 32, 4],
];

/// Small tables that go through the values of some fields together.
pub fn small(run: &mut Run) {
    let (send, receive) = (ipdu(1, 8, 0, [0, 0, 0, 1, 0]), ipdu(2, 8, 0, [0; 5]));
    let [first, second] = [1, 2].map(|kind| object(&[kind, 255, 255, 0, 32]));
    for n in 0..4 * 4 * 32 {
        let times = [1, 2, 4, 8, 16].map(|bit| if n & bit > 0 { run.pick(&TIMES) } else { 0 });
        let made = ipdu((n / 32 % 4) as u8, 1 + run.below(8) as u8, (n / 128) as u8, times);
        run.compare(&join(&[send, made, receive], &[first]));
    }
    for n in 0..17 * W * W {
        let mut r = run.pick(&[first, second]);
        r[5] = run.pick(&[0, 2]);
        set_filter(&mut r, (n / (W * W)) as u8, [0, WORDS[n % W], WORDS[n / W % W]]);
        run.compare(&join(&[], &[first, r]));
    }
    for n in 0..4 * 4 * 5 * 3 * 2 * PLACES.len() {
        let (k, sender) = ([0, 1, 2, 255][n / 4 % 4], [0, 1, 2, 3, 255][n / 16 % 5]);
        let bits = PLACES[n / 480];
        let mut r = object(&[(n % 4) as u8, k, sender, bits[0], bits[1], bits[2]]);
        (r[6], r[7]) = ((n / 80 % 3) as u8, (n / 240 % 2) as u8);
        run.compare(&join(&[send, receive], &[first, second, r]));
    }
    // Room, known by the document's sums instead of the walk.
    for n in 0..8 * 4 * 66 * 34_u32 {
        let (length, order, start, size) = (1 + n % 8, n / 8 % 4, n / 32 % 66, n / 2112);
        let big = if start < 8 * length { 8 * (start / 8 + 1) - start % 8 } else { 0 };
        let room = if order % 2 == 1 { big } else { (8 * length).saturating_sub(start) };
        if (2..32).contains(&size) && size.abs_diff(room) > 1 { continue; }
        let r = object(&[2, 0, 255, start as u8, size as u8, order as u8]);
        let known = if 1 <= size && size <= 32.min(room) { None } else { Some(256) };
        run.expect(&join(&[ipdu(2, length as u8, 0, [0; 5])], &[r]), known);
    }
}

/// Every order: with an I-PDU 0 to 3 are right, without one, alone or inside, 0 and 2.
fn orders(run: &mut Run) {
    let ipdus = [1, 2].map(|d| ipdu(d, 8, 0, [0, 0, 0, 1, 0]));
    let sends = object(&[1, 255, 255, 0, 32]);
    let places = [(1, 0, 255), (2, 1, 255), (1, 255, 255), (2, 255, 255), (2, 255, 0)];
    for order in 0..=255 {
        for (kind, k, sender) in places {
            let start = if k < 255 { 24 } else { 0 };
            let is_right = if k < 255 { order <= 3 } else { [0, 2].contains(&order) };
            let r = object(&[kind, k, sender, start, 32, order]);
            run.expect(&join(&ipdus, &[sends, r]), if is_right { None } else { Some(257) });
        }
    }
}

/// Case 12, and single tables at the edges.
pub fn edges(run: &mut Run) {
    let mut case = vec![1, 0, 1, 0, 16, 0, 32, 0, 64, 0, 0, 0, 0, 0, 0, 0];
    case.extend([1, 4, 0, 0, 0, 0, 0, 0, 3, 0, 10, 0, 0, 0, 0, 0, 1, 0, 255, 13, 12, 0, 0, 0, 5]);
    case.resize(64, 0);
    run.expect(&case, None);
    case[36] = 33;
    run.expect(&case, Some(256));
    for length in 0..=16 {
        run.expect(&vec![0; length], Some(65535));
        run.expect(&join(&[], &[])[..length], if length < 16 { Some(65535) } else { None });
    }
    let (send, alone) = (ipdu(1, 4, 0, [0, 0, 3, 10, 0]), object(&[1, 255, 255, 0, 32]));
    run.expect(&join(&[send; 32], &[alone; 128]), None);
    run.expect(&join(&[send; 33], &[]), Some(65535));
    run.expect(&join(&[], &[alone; 129]), Some(65535));
    orders(run);
    // A wrong sender (object 1) makes its receiver (object 0) wrong by the kind byte alone.
    for (byte, known) in [(31, 257), (0, 256)] {
        let mut t = join(&[], &[object(&[2, 255, 1, 0, 32]), alone]);
        t[48 + byte] = 3;
        run.expect(&t, Some(known));
    }
}
