// What the two layers have to meet together, on random calls (bench/agree.rs).
use crate::act::KINDS;

/// One more than the greatest number that is answered.
pub const NUMBERS: usize = 11;

/// The calls by kind, and the numbers that each has to answer somewhere.
pub const WANTED: [(&str, &[usize]); KINDS] = [
    ("start", &[0, 5, 6]),
    ("stop", &[0, 5, 6, 7]),
    ("send", &[0, 1, 5, 6, 7]),
    ("initialise", &[0, 1, 5, 6, 7]),
    ("receive", &[0, 1, 3, 4, 5, 6, 7]),
    ("status", &[0, 1, 3, 4, 5, 6, 7]),
    ("marks", &[0, 1, 5, 6, 7]),
    ("clear_marks", &[0, 1, 5, 6, 7]),
    ("start_periodic", &[0, 5, 6, 7]),
    ("stop_periodic", &[0, 5, 6, 7]),
    ("indication", &[0, 1, 2, 5, 6, 7]),
    ("confirm", &[0, 1, 5, 6, 7, 8]),
    ("tick", &[0, 5, 6, 7]),
    ("send_group", &[0, 2, 5, 6, 7]),
    ("send_records", &[0, 2, 5, 6, 7]),
    ("sheet_begin", &[0, 1, 5, 6, 7, 10]),
    ("sheet_drain", &[0, 1, 5, 6, 7, 10]),
];

/// What else has to be met.
pub const EVENTS: [&str; 27] = [
    "a request by send",
    "a request by tick",
    "a request by a group",
    "two requests by a call",
    "a pair with status 1",
    "6 for a stored number",
    "6 for a short area",
    "6 for a sheet",
    "6 for a text",
    "a drain of no object",
    "a drain of sixteen objects",
    "sixteen values drained of one object",
    "an overflow drained",
    "an error seen",
    "a count that stops",
    "a line as long as may be",
    "a line with four minuses as long as may be",
    "a line with least below zero and greatest above",
    "an accepted table",
    "a wrong header",
    "a wrong I-PDU",
    "a wrong object",
    "an order 1 or 3 without an I-PDU",
    "depths of 512 in all",
    "a reading below zero of fewer than 32 bits received",
    "a value sent that a filter judges otherwise as signed",
    "a value initialised that does not fit its bits",
];

/// Where the events of a begin or a drain, of a check, of a table and of a list begin among them.
pub const OF_SHEETS: usize = 7;
pub const OF_CHECKS: usize = 18;
pub const OF_TABLES: usize = 23;
pub const OF_LISTS: usize = 24;
