//! The program drive beside the independent reader and printer of tests/layer/script.rs, on random
//! tables and scripts, right and damaged: its whole output must be the same, byte for byte.
//! Arguments: the program, a folder for its files, then, both optional, the seed and the least
//! number of lines. Built with `--cfg own`: no library is linked.

#[path = "../layer/call.rs"]
mod call;
mod damage;
mod files;
mod known;
mod lines;
#[allow(dead_code)]
#[path = "../layer/make.rs"]
mod make;
mod met;
mod met_signed;
mod program;
#[path = "../layer/records.rs"]
mod records;
#[path = "../layer/reference.rs"]
mod reference;
#[path = "../layer/script.rs"]
mod script;
#[allow(dead_code)]
#[path = "../table.rs"]
mod table;

use call::Call;
use damage::{damaged, Kind, FAULTS_AT_END, KINDS, LONG};
use lines::{joined, text, write, write_any, write_below_zero};
use met::{Event, Met};
use program::{Piped, Program};
use table::Run;

pub struct Test {
    seed: u64,
    run: Run,
    program: Program,
    lines: u64,
    met: Met,
}

impl Test {
    /// Runs the program on the two files, or on one file and a pipe; gives what both print.
    fn compare_by(&mut self, table: &[u8], script: &[u8], piped: Option<Piped>) -> Vec<u8> {
        let ours = script::output(table, script);
        let theirs = match piped {
            Some(piped) => self.program.fed(table, script, piped),
            None => self.program.run(table, script),
        };
        match theirs {
            Err(what) => self.differ(table, script, &ours, what.as_bytes()),
            Ok(printed) if printed != ours => self.differ(table, script, &ours, &printed),
            Ok(_) => {}
        }
        self.lines += ours.iter().filter(|b| **b == b'\n').count() as u64;
        self.met.note_printed(&ours);
        ours
    }

    fn compare(&mut self, table: &[u8], script: &[u8]) -> Vec<u8> {
        self.compare_by(table, script, None)
    }

    /// Ends the test with the first line that differs.
    fn differ(&self, table: &[u8], script: &[u8], ours: &[u8], theirs: &[u8]) -> ! {
        let line = |text: &[u8], n: usize| match text.split(|b| *b == b'\n').nth(n) {
            Some(line) => shown(line),
            None => "nothing".to_string(),
        };
        let both = ours.iter().zip(theirs);
        let same = both.take_while(|(a, b)| a == b).filter(|(a, _)| **a == b'\n').count();
        println!("drive: seed {}, start {}, line {}:", self.seed, self.program.starts, same + 1);
        println!("{}", line(script, same));
        println!("should print {}, but {}", line(ours, same), line(theirs, same));
        let hex: String = table.iter().take(4700).map(|b| format!("{b:02X}")).collect();
        println!("table, {} bytes: {hex}", table.len());
        std::process::exit(1)
    }

    /// Random calls from a stopped layer, all readable.
    fn right_script(&mut self, table: &[u8], count: usize) -> Vec<u8> {
        let calls = lines::calls(&mut self.run, &mut script::stopped(table), count);
        self.compare_calls(table, &calls)
    }

    fn compare_calls(&mut self, table: &[u8], calls: &[Call]) -> Vec<u8> {
        let text = text(&mut self.run, calls);
        let lines: Vec<&[u8]> = text.split(|b| *b == b'\n').collect();
        for (line, call) in lines.iter().zip(calls) {
            assert_eq!(script::read(line).as_ref(), Some(call), "{} is read", shown(line));
        }
        let printed = self.compare(table, &text);
        self.met.note_calls(calls, &printed);
        self.met.note_signed(&script::stopped(table), calls, &lines, &printed);
        text
    }

    /// All values as they are, and all that may be below zero written so: the same is printed.
    fn both_forms(&mut self, table: &[u8]) {
        let calls = lines::calls(&mut self.run, &mut script::stopped(table), 100);
        let forms = [write, write_below_zero].map(|form| {
            let lines: Vec<Vec<u8>> = calls.iter().map(form).collect();
            self.compare(table, &joined(&lines))
        });
        assert!(forms[0] == forms[1], "either form prints the same");
    }

    /// Some right lines, then one with a fault of this kind, then mostly some more.
    fn damaged_script(&mut self, right: &[u8], kind: Kind) {
        let run = &mut self.run;
        let is_wrong = run.below(8) == 0;
        let table = if is_wrong { make::wrong(run, right) } else { right.to_vec() };
        let mut layer = script::stopped(right);
        let before = run.pick(&[0, 1, 2, 5, 12, 25]);
        let calls = lines::calls(run, &mut layer, before);
        let line = loop {
            let call = make::call(run, &layer, 0);
            let right = write_any(run, &call);
            if let Some(line) = damaged(run, kind, &right) {
                break line;
            }
        };
        assert_eq!(script::read(&line).is_some(), kind == Kind::NoLineFeed, "{}", shown(&line));
        let mut script = [text(run, &calls), line].concat();
        let mut after = 0;
        if kind != Kind::NoLineFeed {
            after = run.pick(&[0, 1, 3]);
            script.push(b'\n');
            let calls = lines::calls(run, &mut layer, after);
            script.extend(text(run, &calls));
        }
        let printed = self.compare(&table, &script);
        let end = format!("9 {}\n", before + 1);
        assert!(printed.ends_with(end.as_bytes()), "the run ends in {end}");
        self.met.note_kind(kind);
        for (event, is) in [
            (Event::DamageFirst, before == 0),
            (Event::DamageLast, after == 0),
            (Event::DamageWithLinesAfter, after > 0),
            (Event::DamageBeforeStart, !is_wrong && layer.stopped),
            (Event::DamageOverWrongTable, is_wrong),
        ] {
            if is {
                self.met.note(event);
            }
        }
    }

    /// Several faults in one script, some in one line, and bytes changed anywhere.
    fn mixed_script(&mut self, table: &[u8]) {
        let run = &mut self.run;
        let count = 1 + run.below(30);
        let calls = lines::calls(run, &mut script::stopped(table), count);
        let mut lines: Vec<Vec<u8>> = calls.iter().map(|call| write_any(run, call)).collect();
        for _ in 0..run.pick(&[0, 1, 2, 4]) {
            let (at, kind) = (run.below(count), run.pick(&KINDS));
            if let Some(line) = damaged(run, kind, &lines[at]) {
                lines[at] = line;
            }
        }
        let mut script = joined(&lines);
        for _ in 0..run.pick(&[0, 1, 1, 2, 8]) {
            let at = run.below(script.len() + 1);
            let end = (at + run.below(3)).min(script.len());
            let any = run.below(256) as u8;
            let byte = run.pick(&[b'-', b'\n', b' ', b'0', b'1', b'9', b'A', b'a', b'_', 0, any]);
            script.splice(at..end, vec![byte; run.below(2)]);
        }
        if run.below(6) == 0 {
            script.pop();
        }
        let printed = self.compare(table, &script);
        let ended = printed.split(|b| *b == b'\n').any(|line| line.starts_with(b"9"));
        self.met.note(if ended { Event::MixedUnreadable } else { Event::MixedReadable });
    }

    /// Indications with more bytes than any I-PDU has: each with a fault at its very end, then
    /// right ones among other lines.
    fn long_lines(&mut self, table: &[u8]) {
        for (count, fault) in LONG.iter().flat_map(|n| (0..FAULTS_AT_END).map(move |f| (*n, f))) {
            let line = damage::long_hex(&mut self.run, count, fault);
            let printed = self.compare(table, &[b"start\n", &line[..], b"\ntick\n"].concat());
            assert_eq!(printed, b"0\n9 2\n");
        }
        let mut layer = script::stopped(table);
        let mut calls = vec![Call::Start];
        for count in LONG {
            calls.push(lines::long_indication(&mut self.run, count));
            calls.extend(lines::calls(&mut self.run, &mut layer, 2));
        }
        calls.push(Call::Send { object: 0, value: u32::MAX });
        self.compare_calls(table, &calls);
    }

    /// One table: a long right script, over a wrong table too, and every kind of damage.
    fn over(&mut self, table: &[u8]) {
        let count = 200 + self.run.below(800);
        let text = self.right_script(table, count);
        let wrong = make::wrong(&mut self.run, table);
        let some: Vec<&[u8]> = text.split_inclusive(|b| *b == b'\n').take(50).collect();
        self.compare(&wrong, &some.concat());
        self.met.note(Event::WrongTable);
        for kind in KINDS {
            self.damaged_script(table, kind);
        }
        for _ in 0..6 {
            self.mixed_script(table);
        }
        self.both_forms(table);
    }
}

/// A line as it can be printed, cut where it is long.
fn shown(line: &[u8]) -> String {
    let more = if line.len() > 120 { format!(" .. ({} bytes)", line.len()) } else { String::new() };
    format!("`{}`{more}", line[..line.len().min(120)].escape_ascii())
}

fn main() {
    let arguments: Vec<String> = std::env::args().collect();
    let number = |at: usize| arguments.get(at).map(|a| a.parse::<u64>().expect("a number"));
    let (seed, least) = (number(3).unwrap_or(1), number(4).unwrap_or(100_000));
    let random = seed.wrapping_mul(0x9E37_79B9_7F4A_7C15) | 1;
    let run = Run { random, counts: [0; 4] };
    let program = Program::new(&arguments[1], &arguments[2]);
    let mut test = Test { seed, run, program, lines: 0, met: Met::new() };
    test.known();
    test.files();
    test.pipes();
    let others = test.lines;
    while test.lines < others + least {
        let table = make::right(&mut test.run);
        test.over(&table);
    }
    for _ in 0..3 {
        let table = make::right(&mut test.run);
        test.long_lines(&table);
    }
    test.million();
    println!("drive: {} lines in {} runs agree", test.lines, test.program.starts);
    test.met.print();
    let missing = test.met.missing();
    if !missing.is_empty() {
        println!("drive: never met: {}", missing.join(", "));
        std::process::exit(1);
    }
}
