//! The stored numbers of a working memory and their ranges, from the list in docs/MEMORY.md
//! alone. The table must be a right one, the memory at least 8,192 bytes.

const IPDUS: usize = 16;
const IPDU_BYTES: usize = 528;
const OBJECTS: usize = 784;
const QUEUES: usize = 2832;

fn two(bytes: &[u8], at: usize) -> usize {
    bytes[at] as usize + 256 * bytes[at + 1] as usize
}

fn ipdu_records(table: &[u8]) -> impl Iterator<Item = &[u8]> {
    table[16..16 + 16 * two(table, 0)].chunks(16)
}

fn object_records(table: &[u8]) -> impl Iterator<Item = &[u8]> {
    table[16 + 16 * two(table, 0)..].chunks(32)
}

/// Whether every stored number is in its range.
pub fn in_range(table: &[u8], memory: &[u8]) -> bool {
    // Whether the layer runs, by either number.
    if memory[0] > 1 {
        return false;
    }
    for (k, record) in ipdu_records(table).enumerate() {
        if !ipdu_in_range(record, &memory[IPDUS + 16 * k..][..16]) {
            return false;
        }
    }
    let mut lower_depths = 0;
    for (i, record) in object_records(table).enumerate() {
        if !object_in_range(record, lower_depths, &memory[OBJECTS + 16 * i..][..16]) {
            return false;
        }
        lower_depths += record[7] as usize;
    }
    true
}

fn ipdu_in_range(record: &[u8], row: &[u8]) -> bool {
    let (sends, mode) = (record[0] == 1, record[2]);
    let [period, offset, delay, deadline, first] = [4, 6, 8, 10, 12].map(|at| two(record, at));
    // The greatest open, wanted, running, delay, deadline, countdown and receive timer.
    let most = if sends {
        [1, 1, (mode != 0) as usize, delay, deadline, period.max(offset), 0]
    } else {
        [0, 0, 0, 0, 0, 0, first.max(deadline)]
    };
    let [open, wanted, running] = [0, 1, 2].map(|at| row[at] as usize);
    let [delay_now, deadline_now, countdown, timer] = [4, 6, 8, 10].map(|at| two(row, at));
    let now = [open, wanted, running, delay_now, deadline_now, countdown, timer];
    now.iter().zip(most).all(|(n, most)| *n <= most)
}

fn object_in_range(record: &[u8], lower_depths: usize, row: &[u8]) -> bool {
    let (depth, filter, period) = (record[7] as usize, record[8], record[16] as usize);
    let [occurrence, marks, overflow] = [8, 9, 10].map(|at| row[at] as usize);
    let [oldest, count] = [11, 12].map(|at| row[at] as usize);
    // A period is at most 255, so its lowest byte is all of it.
    let occurrence_most = if filter == 14 { period - 1 } else { 0 };
    let oldest_most = if depth <= 1 { 0 } else { depth - 1 };
    let flags = occurrence <= occurrence_most && marks <= 15 && overflow <= 1;
    let queue = oldest <= oldest_most && count <= depth;
    flags && queue && two(row, 14) == lower_depths
}

/// Of each of the first 8,192 bytes, whether the list names it for this table. The bytes 0-3
/// of an object's row count as named for every object.
pub fn named(table: &[u8]) -> Vec<bool> {
    let mut named = vec![false; 8192];
    named[0] = true;
    for k in 0..ipdu_records(table).count() {
        let row = IPDUS + 16 * k;
        named[row..row + 3].fill(true);
        named[row + 4..row + 12].fill(true);
        let bytes = IPDU_BYTES + 8 * k;
        named[bytes..bytes + 8].fill(true);
    }
    let mut depths = 0;
    for (i, record) in object_records(table).enumerate() {
        let row = OBJECTS + 16 * i;
        named[row..row + 13].fill(true);
        named[row + 14..row + 16].fill(true);
        depths += record[7] as usize;
    }
    named[QUEUES..QUEUES + 4 * depths].fill(true);
    named
}
