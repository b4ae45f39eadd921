//! A second table check, and a comparison of the library's check with it.
//! `place` is written from document 01 alone ("The table", "Bits", "Filters") and requests W-205
//! and W-207 of document 02, not from the crates. Right, wrong and damaged tables are made, many
//! with send objects that share bits, and with signed objects in either order; each must get the
//! same answer from `place` and the library.
//! Arguments, both optional: the seed, the least number of tables. With `--cfg own` the library
//! is left out, to try the making of the tables alone.

#[path = "table/small.rs"]
mod small;

#[repr(C)]
#[derive(Clone, Copy, PartialEq, Debug)]
pub struct Answer { pub number: u32, pub value: u32 }
#[cfg(not(own))] extern "C" { fn birnenschloss_check(table: *const u8, len: usize) -> Answer; }

fn library(table: &[u8]) -> Answer {
    // The slice is lent for the whole call; its start and its length belong together.
    #[cfg(not(own))] return unsafe { birnenschloss_check(table.as_ptr(), table.len()) };
    #[cfg(own)] return answer(place(table));
}

fn answer(place: Option<u32>) -> Answer {
    place.map_or(Answer { number: 0, value: 0 }, |value| Answer { number: 5, value })
}

// ---- The check, from the document ----
fn two(bytes: &[u8], at: usize) -> usize { bytes[at] as usize + 256 * bytes[at + 1] as usize }
fn four(bytes: &[u8], at: usize) -> usize { two(bytes, at) + 65536 * two(bytes, at + 2) }

/// None where the table is accepted, else the place of the first wrong record.
pub fn place(table: &[u8]) -> Option<u32> {
    if !header_right(table) { return Some(65535); }
    let (front, back) = table[16..].split_at(16 * two(table, 0));
    let ipdus: Vec<&[u8]> = front.chunks(16).collect();
    let objects: Vec<&[u8]> = back.chunks(32).collect();
    if let Some(k) = ipdus.iter().position(|r| !ipdu_right(r)) { return Some(k as u32); }
    let mut depths = 0;
    let wrong = |r: &&[u8]| {
        depths += r[7] as u32;
        !object_right(r, &ipdus, &objects) || depths > 512
    };
    objects.iter().position(wrong).map(|j| 256 + j as u32)
}

fn header_right(table: &[u8]) -> bool {
    if table.len() < 16 { return false; }
    let (ipdus, objects) = (two(table, 0), two(table, 2));
    let total = 16 + 16 * ipdus + 32 * objects;
    let offsets = two(table, 4) == 16 && two(table, 6) == 16 + 16 * ipdus;
    let lengths = two(table, 8) == total && table.len() == total;
    ipdus <= 32 && objects <= 128 && offsets && lengths && table[10..16].iter().all(|&b| b == 0)
}

fn ipdu_right(r: &[u8]) -> bool {
    let [period, offset, delay, deadline, first] = [4, 6, 8, 10, 12].map(|at| two(r, at));
    let by_direction = match (r[0], r[2]) {
        (1, 0) => period == 0 && offset == 0 && deadline >= 1 && first == 0,
        (1, 1) => period >= 1 && offset >= 1 && delay == 0 && deadline >= 1 && first == 0,
        (1, 2) => period >= 1 && offset >= 1 && deadline >= 1 && first == 0,
        (2, 0) => period == 0 && offset == 0 && delay == 0 && (first == 0 || deadline > 0),
        _ => false,
    };
    by_direction && (1..=8).contains(&r[1]) && r[3] == 0 && r[14] == 0 && r[15] == 0
}

/// Whether an object record is right by itself; of its sender only the kind byte counts.
fn object_right(r: &[u8], ipdus: &[&[u8]], objects: &[&[u8]]) -> bool {
    let (kind, ipdu, sender) = (r[0], r[1], r[2]);
    let (start, size, order, transfer, depth) = (r[3], r[4], r[5], r[6], r[7]);
    let ranges = (1..=32).contains(&size) && order <= 3 && transfer <= 1 && depth <= 16;
    let rest_zero = r[9..12].iter().chain(&r[24..32]).all(|&b| b == 0);
    let by_kind = match kind {
        1 => sender == 255 && depth == 0,
        2 => transfer == 0 && (ipdu == 255 || sender == 255),
        _ => false,
    };
    let sender_right = sender == 255 || objects.get(sender as usize).is_some_and(|s| s[0] == 1);
    let bits_right = match ipdus.get(ipdu as usize) {
        _ if ipdu == 255 => start == 0 && size == 32 && (order == 0 || order == 2),
        Some(p) => p[0] == kind && walk(start, size, order, p[1]).is_some(),
        None => false,
    };
    let (first, second) = (four(r, 16), four(r, 20));
    let filter_right = match r[8] {
        0 | 1 | 4 | 5 | 10..=13 => first == 0 && second == 0,
        2 | 3 | 8 | 9 => true,
        6 | 7 => second == 0,
        14 => (1..=255).contains(&first) && second < first,
        _ => false,
    };
    ranges && rest_zero && by_kind && sender_right && bits_right && filter_right
}

/// Whether an order is one of the big ones, 1 and the signed 3.
pub fn is_big(order: u8) -> bool { order == 1 || order == 3 }

/// The I-PDU bits that the message bits go to, one by one; None where one lies outside.
fn walk(start: u8, size: u8, order: u8, length: u8) -> Option<Vec<usize>> {
    let (mut bits, mut bit) = (Vec::new(), start as i32);
    for _ in 0..size {
        if bit < 0 || bit >= 8 * length as i32 { return None; }
        bits.push(bit as usize);
        bit = if is_big(order) && bit % 8 == 7 { 8 * (bit / 8 - 1) } else { bit + 1 };
    }
    Some(bits)
}

// ---- The comparison ----
/// The state of the random numbers, and the counts: accepted, header, I-PDU, object.
pub struct Run { pub random: u64, pub counts: [u64; 4] }
impl Run {
    /// A number below n (xorshift).
    pub fn below(&mut self, n: usize) -> usize {
        self.random ^= self.random << 13;
        self.random ^= self.random >> 7;
        self.random ^= self.random << 17;
        ((self.random >> 20) % n as u64) as usize
    }
    pub fn pick<T: Copy>(&mut self, list: &[T]) -> T { list[self.below(list.len())] }
    /// Stops at the first difference; gives the place that both have found.
    pub fn compare(&mut self, table: &[u8]) -> Option<u32> {
        let (found, theirs) = (place(table), library(table));
        let ours = answer(found);
        if theirs != ours { fail(table, &format!("document {ours:?}, library {theirs:?}")); }
        let class = match found { None => 0, Some(65535) => 1, Some(0..=255) => 2, _ => 3 };
        self.counts[class] += 1;
        found
    }
    /// As compare, for a table whose place is known from how it was made.
    fn expect(&mut self, table: &[u8], known: Option<u32>) {
        let found = self.compare(table);
        if found != known { fail(table, &format!("made for {:?}, found {:?}", known, found)); }
    }
}

fn fail(table: &[u8], what: &str) -> ! {
    let hex: Vec<String> = table.iter().map(|b| format!("{:02X}", b)).collect();
    println!("table.rs: {}\n{} bytes: {}", what, table.len(), hex.join(" "));
    std::process::exit(1)
}

// ---- Right tables ----
const TIMES: [u16; 5] = [1, 2, 255, 256, 65535];
pub const WORDS: [u32; 14] = [
    0, 1, 2, 3, 254, 255, 256, 257, 65536,
    0x7FFF_FFFF, 0x8000_0000, 0x8000_0001, 0xFFFF_FFFE, 0xFFFF_FFFF,
];

pub fn join(ipdus: &[[u8; 16]], objects: &[[u8; 32]]) -> Vec<u8> {
    let from = 16 + 16 * ipdus.len();
    let header = [ipdus.len(), objects.len(), 16, from, from + 32 * objects.len(), 0, 0, 0];
    [header.map(|n| (n as u16).to_le_bytes()).concat(), ipdus.concat(), objects.concat()].concat()
}

/// The times are period, offset, minimum delay, deadline and first deadline.
pub fn ipdu(direction: u8, length: u8, mode: u8, times: [u16; 5]) -> [u8; 16] {
    let bytes = [&[direction, length, mode, 0], &times.map(u16::to_le_bytes).concat()[..], &[0, 0]];
    std::array::from_fn(|i| bytes.concat()[i])
}

/// The first bytes of the record, in their order: kind, I-PDU, sender, start, size, order, ..
pub fn object(bytes: &[u8]) -> [u8; 32] { std::array::from_fn(|i| *bytes.get(i).unwrap_or(&0)) }

/// The words are the initial value and the two constants.
pub fn set_filter(r: &mut [u8; 32], filter: u8, words: [u32; 3]) {
    r[8] = filter;
    r[12..24].copy_from_slice(&words.map(u32::to_le_bytes).concat());
}

fn right_ipdu(run: &mut Run) -> [u8; 16] {
    let (length, t) = (1 + run.below(8) as u8, [0; 4].map(|_| run.pick(&TIMES)));
    let (mode, maybe) = (run.below(6), run.pick(&[0, t[3]]));
    let send = [[0, 0, maybe, t[0], 0], [t[0], t[1], 0, t[2], 0], [t[0], t[1], maybe, t[2], 0]];
    if mode < 3 { return ipdu(1, length, mode as u8, send[mode]); }
    ipdu(2, length, 0, run.pick(&[[0; 5], [0, 0, 0, t[0], maybe]]))
}

fn right_filter(run: &mut Run, r: &mut [u8; 32]) {
    let [a, b, c] = [0; 3].map(|_| run.pick(&WORDS));
    let (filter, p) = (run.below(15) as u8, run.pick(&[1, 2, 255, 1 + a % 255]));
    match filter {
        2 | 3 | 8 | 9 => set_filter(r, filter, [c, a, b]),
        6 | 7 => set_filter(r, filter, [c, a, 0]),
        14 => set_filter(r, filter, [c, p, run.pick(&[0, p - 1, b % p])]),
        _ => set_filter(r, filter, [c, 0, 0]),
    }
}

/// A start, size and order with room.
pub fn right_bits(run: &mut Run, length: u8) -> [u8; 3] {
    let (start, order) = (run.below(8 * length as usize) as u8, run.below(4) as u8);
    let room = (1..=32).take_while(|&n| walk(start, n, order, length).is_some()).last().unwrap();
    [start, run.pick(&[1, 1 + run.random as u8 % room, room]), order]
}

pub fn right_table(run: &mut Run, ipdus: usize, objects: usize) -> Vec<u8> {
    let ipdus: Vec<[u8; 16]> = (0..ipdus).map(|_| right_ipdu(run)).collect();
    let sends = run.pick(&[0, 1, 5, 7, 8, 9, 9, 10]);
    let kinds: Vec<u8> = (0..objects).map(|_| 2 - (run.below(10) < sends) as u8).collect();
    let (deep, mut left) = (run.below(2) == 0, 512);
    let mut objects: Vec<[u8; 32]> = Vec::new();
    for &kind in &kinds {
        let mut r = object(&[kind, 255, 255, 0, 32, run.pick(&[0, 2])]);
        let tries = if ipdus.is_empty() { 0 } else { run.pick(&[0, 10, 10, 10]) };
        for _ in 0..tries {
            let k = run.below(ipdus.len());
            if ipdus[k][0] != kind { continue; }
            let b = right_bits(run, ipdus[k][1]);
            r = object(&[kind, k as u8, 255, b[0], b[1], b[2]]);
            // Now and then the very bits of the object before, signed as it is or not.
            let before = objects.last().filter(|o| o[0] == kind && o[1] < 255);
            if let (Some(o), 0) = (before, run.below(4)) {
                r[1..6].copy_from_slice(&o[1..6]);
                r[5] ^= run.pick(&[0, 2]);
            }
            break;
        }
        if kind == 1 { r[6] = run.below(2) as u8; }
        if kind == 2 {
            let sender = run.below(kinds.len());
            if r[1] == 255 && kinds[sender] == 1 { r[2] = sender as u8; }
            r[7] = left.min(if deep { 16 } else { run.pick(&[0, 0, 1, 7, 16]) }) as u8;
            left -= r[7] as u32;
        }
        right_filter(run, &mut r);
        objects.push(r);
    }
    join(&ipdus, &objects)
}

// ---- Wrong tables ----
/// The table with the record at `at` changed by one or two bytes; n is the count of such records.
fn record_changes(t: &[u8], at: usize, size: usize, n: u8) -> Vec<Vec<u8>> {
    let with = |i: usize, bytes: &[u8]| [&t[..i], bytes, &t[i + bytes.len()..]].concat();
    let limits = [255, 128, 31, 32, 33, n.wrapping_sub(1), n, n + 1, 254];
    let mut list = Vec::new();
    for i in 0..size {
        let (to, more) = match i { 3 => (65, 9), 0..=8 => (17, 9), _ => (1, 2) };
        list.extend((0..=to).chain(limits[..more].to_vec()).map(|v| with(at + i, &[v])));
    }
    for i in (at..at + size).step_by(2) {
        let now = two(t, i) as u16;
        let values = [0, 1, 256, 65535, now.wrapping_sub(1), now.wrapping_add(1)];
        list.extend(values.map(|v| with(i, &v.to_le_bytes())));
    }
    list
}

/// A right table; then cut, longer, its header and records changed, alone and by two; damage.
fn changes(run: &mut Run) {
    let (m, n) = (run.pick(&[0, 1, 2, 8, 20, 31, 32]), run.pick(&[0, 1, 3, 10, 33, 60, 127, 128]));
    let t = right_table(run, m, n);
    run.expect(&t, None);
    for extra in [1, 15, 16, 32] {
        let cut = run.below(t.len());
        run.expect(&t[..cut], Some(65535));
        run.expect(&t[..t.len().saturating_sub(extra)], Some(65535));
        run.expect(&[&t[..], &vec![0; extra]].concat(), Some(65535));
    }
    let mut list = record_changes(&t, 0, 16, m as u8);
    if m > 0 { list.extend(record_changes(&t, 16 + 16 * run.below(m), 16, m as u8)); }
    if n > 0 { list.extend(record_changes(&t, 16 + 16 * m + 32 * run.below(n), 32, n as u8)); }
    for (i, one) in list.iter().enumerate() {
        run.compare(one);
        let other = &list[run.below(list.len())];
        let both: Vec<u8> = (0..t.len()).map(|b| one[b] ^ other[b] ^ t[b]).collect();
        if i % 4 == 0 { run.compare(&both); }
    }
    for _ in 0..60 {
        let mut damaged = t.clone();
        for _ in 0..1 + run.below(3) { damaged[run.below(t.len())] = run.below(256) as u8; }
        run.compare(&damaged);
        let noise: Vec<u8> = (0..run.below(200)).map(|_| run.below(256) as u8).collect();
        run.compare(&noise);
        let (m, n) = (run.below(33), run.below(129));
        let right = right_table(run, m, n);
        run.expect(&right, None);
    }
}

/// Two pairs of objects with the same two sets of bits, that share none, one or more: no matter.
fn pairs(run: &mut Run) {
    let (length, want) = (1 + run.below(8) as u8, run.below(3));
    let (a, b) = loop {
        let [a, b] = [0; 2].map(|_| right_bits(run, length));
        let [x, y] = [a, b].map(|[start, size, order]| walk(start, size, order, length).unwrap());
        let shared = x.iter().filter(|bit| y.contains(bit)).count();
        let near = x.iter().any(|p| y.iter().any(|q| p.abs_diff(*q) <= 1));
        if near && shared.min(2) == want { break (a, b); }
    };
    let (ipdus, n) = ([1, 1, 2].map(|d| ipdu(d, length, 0, [0, 0, 0, 1, 0])), 4 + run.below(8));
    let mut spots: Vec<usize> = (0..n).collect();
    for i in 0..n { spots.swap(i, run.below(n)); }
    // Objects in I-PDUs 0, 1 (send) or 2 (receive), at the spots; the rest have no I-PDU.
    let make = |placed: &[(u8, [u8; 3])], wrong: usize| {
        let mut objects = vec![object(&[1, 255, 255, 0, 32]); n];
        for (spot, (k, [start, size, order])) in spots.iter().zip(placed) {
            objects[*spot] = object(&[1 + k / 2, *k, 255, *start, *size, *order]);
        }
        if wrong < n { objects[wrong][31] = 1; }
        join(&ipdus, &objects)
    };
    run.expect(&make(&[(0, a), (0, b)], n), None);
    run.expect(&make(&[(0, a), (0, b), (1, a), (1, b)], n), None);
    run.expect(&make(&[(0, a), (1, b), (2, a), (2, b)], n), None);
    // One of them, or another, is wrong otherwise.
    for wrong in [spots[0], spots[1], run.below(n)] {
        run.expect(&make(&[(0, a), (0, b)], wrong), Some(256 + wrong as u32));
    }
}

/// Depths with the sum 512, then 513, in any order, with other faults above and below.
fn depths(run: &mut Run) {
    let mut list = [vec![16; 30], vec![13, 7, 5, 7], vec![0; run.below(90)]].concat();
    // Below 18 a receive object of that depth; 18 is a send object with bit 0 of the I-PDU.
    let (ipdus, send) = ([ipdu(1, 1, 0, [0, 0, 0, 1, 0])], object(&[1, 0, 255, 0, 1]));
    let made = |d: &u8| if *d == 18 { send } else { object(&[2, 255, 255, 0, 32, 0, 0, *d]) };
    let make = |list: &[u8]| join(&ipdus, &list.iter().map(made).collect::<Vec<_>>());
    run.expect(&make(&list), None);
    list.push(1);
    run.expect(&make(&list), Some(255 + list.len() as u32));
    for i in 1..list.len() { list.swap(i, run.below(i)); }
    let (last, wrong) = (list.iter().rposition(|&d| d > 0).unwrap(), run.below(list.len()));
    list.extend(run.pick(&[[0, 0], [0, 17], [18, 18]]));
    run.expect(&make(&list), Some(256 + last as u32));
    run.expect(&make(&[&[18, 18], &list[..]].concat()), Some(258 + last as u32));
    list[wrong] = 17;
    run.expect(&make(&list), Some(256 + last.min(wrong) as u32));
}

fn main() {
    let mut arguments = std::env::args().skip(1).map(|a| a.parse::<u64>().expect("a number"));
    let (seed, least) = (arguments.next().unwrap_or(1), arguments.next().unwrap_or(40_000));
    let mut run = Run { random: seed.wrapping_mul(0x9E37_79B9_7F4A_7C15) | 1, counts: [0; 4] };
    small::edges(&mut run);
    small::small(&mut run);
    while run.counts.iter().sum::<u64>() < least {
        changes(&mut run);
        for _ in 0..20 { pairs(&mut run); }
        depths(&mut run);
    }
    let [right, header, ipdu, object] = run.counts;
    print!("table.rs: {} tables agree ", right + header + ipdu + object);
    println!("({right} accepted, {header} header, {ipdu} I-PDU, {object} object)");
    if run.counts.contains(&0) { fail(&[], "one of the four counts is 0"); }
}
