// The tables and scripts of bench/script.sh, written into a folder: for each row a script of some lines before and a number of turns of
// the measured lines, and one with as many turns more. Prints a line for each row: its name and how many lines a turn has.
#[allow(dead_code)]
#[path = "layer.rs"]
mod layer;

use std::fs::write;

// A name, the lines before, and the lines of one turn.
type Row = (&'static str, &'static str, &'static str);

const BOTH: [Row; 10] = [
    ("start", "", "start\n"),
    ("send_request_confirm", "start\n", "send 0 5\nconfirm 0 0\nsend 0 6\nconfirm 0 0\n"),
    ("send_postponed", "start\nsend 0 5\n", "send 0 6\nsend 0 7\n"),
    ("send_dropped", "start\n", "send 0 0\n"),
    ("initialise", "start\n", "initialise 0 9\n"),
    ("marks", "start\n", "marks 0\n"),
    ("clear_marks", "start\n", "clear_marks 0\n"),
    ("confirm_refused", "start\n", "confirm 0 1\n"),
    ("tick", "start\nstart_periodic\n", "tick\n"),
    ("stopped", "", "tick\n"),
];
const LARGE: [Row; 5] = [
    ("receive", "start\nindication 16 1 35A35A35A35A35A3\n", "receive 64\n"),
    ("status", "start\nindication 17 1 35A35A35A35A35A3\n", "status 72\n"),
    ("indication_8", "start\n", "indication 16 1 35A35A35A35A35A3\n"),
    ("indication_too_long", "start\n", "indication 16 1 35A35A35A35A35A335A35A35A35A35A3\n"),
    ("start_periodic", "start\n", "start_periodic\nstop_periodic\n"),
];

fn main() {
    let arguments: Vec<String> = std::env::args().collect();
    let (folder, turns) = (&arguments[2], arguments[3].parse::<usize>().expect("a number of turns"));
    let large = arguments[1] == "large";
    let table = if large { layer::large() } else { layer::case12() };
    write(format!("{folder}/table"), table).expect("the table is written");
    for (name, before, turn) in BOTH.iter().chain(if large { &LARGE[..] } else { &[] }) {
        for (file, count) in [("once", turns), ("twice", 2 * turns)] {
            write(format!("{folder}/{name}.{file}"), [*before, &turn.repeat(count)].concat()).expect("a script is written");
        }
        println!("{name} {}", turn.lines().count());
    }
}
