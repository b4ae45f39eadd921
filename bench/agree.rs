// The two layers on random calls, over random tables, memories and sheets, on copies of the same bytes: answer, memory, request
// area, status list, sheets and text have to be the same. Tables and calls are those of tests/layer; its reference only helps to
// choose calls that meet something. Every byte of every table, of the rows in memory and of a sheet is also changed alone.
use crate::act::{Act, Lists, KINDS};
use crate::call::Call;
use crate::make::{memory, often_filtered, right, scramble, wrong};
use crate::make_group::filtering;
use crate::make_sheet::{self, act};
use crate::memories::changed;
use crate::peer::{self, check, ipdu_length, make, Calls, PEER, PROVED};
use crate::ranges::in_range;
use crate::records::Object;
use crate::reference::Layer;
use crate::sheet::{rows, OnSheet, What, LONGEST, SHEET, TEXT};
use crate::stored;
use crate::table::{right_table, Run};
use crate::wanted::{EVENTS, NUMBERS, OF_CHECKS, OF_LISTS, OF_SHEETS, OF_TABLES, WANTED};

const MEMORY: usize = 8192;
const AREA: usize = 256;
const OBJECT_ROWS: usize = 784;
struct Test {
    seed: u64,
    run: Run,
    calls: u64,
    /// Calls over a memory with one byte changed, which are not among the calls.
    faults: u64,
    tables: u64,
    checks: u64,
    answers: [[u64; NUMBERS]; KINDS],
    events: [u64; EVENTS.len()],
    /// What the last list of calls has left.
    sheets: Vec<Vec<u8>>,
}

/// What a list of calls works on.
#[derive(Clone)]
struct State {
    memory: Vec<u8>,
    area: Vec<u8>,
    sheets: Vec<Vec<u8>>,
}

/// The call by one of the layers, with so many bytes of memory and area.
fn make_by(by: &Calls, act: &Act, table: &[u8], state: &mut State, lists: &mut Lists, (m, a): (usize, usize)) -> (u32, u32) {
    let (memory, area) = (&mut state.memory[..m], &mut state.area[..a]);
    let Lists { statuses, sheets, text } = lists;
    let n = if let Act::Group(group) = act { group.lent } else { 0 };
    let (sheet, lent) = match act {
        Act::Sheet(on) => (on.of(sheets), on.text_lent()),
        _ => (&mut [][..], 0),
    };
    make(by, act, table, peer::Lent { memory, area, statuses: &mut statuses[..n], sheet, text: &mut text[..lent] })
}

impl Test {
    fn differ(&self, what: &str, table: &[u8]) -> ! {
        println!("beside: seed {}, call {}: {what}", self.seed, self.calls);
        let hex: Vec<String> = table.iter().map(|b| format!("{b:02X}")).collect();
        println!("table, {} bytes: {}", table.len(), hex.join(" "));
        std::process::exit(1)
    }

    /// One call by both layers. The bytes are left as the proved one leaves them; so much of them as is not lent is
    /// compared too.
    fn both(&mut self, act: &Act, table: &[u8], state: &mut State, lengths: (usize, usize)) {
        let (mut peer_state, mut lists) = (state.clone(), act.lists(&state.sheets));
        let mut peer_lists = lists.clone();
        let proved = make_by(&PROVED, act, table, state, &mut lists, lengths);
        let peer = make_by(&PEER, act, table, &mut peer_state, &mut peer_lists, lengths);
        if proved != peer {
            self.differ(&format!("{act:?}: proved {proved:?}, peer {peer:?}"), table);
        }
        let of = |name: &str, proved: &[u8], peer: &[u8]| {
            let at = (0..proved.len()).find(|&at| proved[at] != peer[at]);
            at.map(|at| (name.to_string(), at, proved[at], peer[at]))
        };
        let in_memory = of("memory", &state.memory, &peer_state.memory);
        let found = in_memory.or_else(|| of("area", &state.area, &peer_state.area)).or_else(|| lists.difference(&peer_lists));
        if let Some((name, at, proved, peer)) = found {
            self.differ(&format!("{act:?}: byte {at} of the {name}: proved {proved}, peer {peer}"), table);
        }
        let n = if let Act::Group(group) = act { group.lent } else { 0 };
        self.note(act, proved, &lists.statuses[..n], lengths);
        if let Act::Sheet(on) = act {
            let text = String::from_utf8_lossy(&lists.text[..proved.1 as usize]).into_owned();
            self.note_sheet(on, proved.0, (on.of(&mut state.sheets), on.of(&mut lists.sheets)), &text, lengths.0);
        }
        state.sheets = lists.sheets;
    }

    fn note_sheet(&mut self, on: &OnSheet, number: u32, (was, is): (&[u8], &[u8]), text: &str, m: usize) {
        let drains = matches!(on.what, What::Drain(..));
        let sheet_right = if drains { rows(was).is_some() } else { was.len() >= SHEET };
        let refused = number == 6 && m >= MEMORY;
        let (before, after) = match (rows(was), rows(is)) {
            (Some(before), Some(after)) if drains && number == 0 => (before, after),
            _ => (Vec::new(), Vec::new()),
        };
        let pairs: Vec<_> = before.iter().zip(&after).collect();
        let around_zero = |line: &str| {
            let fields: Vec<&str> = line.split(' ').collect();
            fields[4].len() > 1 && fields[4].starts_with('-') && !fields[5].starts_with('-')
        };
        let met = [
            refused && !sheet_right,
            refused && drains && sheet_right && on.text_lent() < TEXT,
            drains && number == 0 && after.is_empty(),
            after.len() == 16,
            pairs.iter().any(|(before, after)| after.drained - before.drained == 16),
            pairs.iter().any(|(before, after)| after.overflows > before.overflows),
            pairs.iter().any(|(before, after)| after.errors > before.errors),
            pairs.iter().any(|(before, after)| after.drained == u32::MAX && after.last != before.last),
            text.lines().any(|line| line.len() + 1 == LONGEST - 4 && !line.contains('-')),
            text.lines().any(|line| line.len() + 1 == LONGEST),
            text.lines().any(around_zero),
        ];
        self.count(OF_SHEETS, &met);
    }

    fn note(&mut self, act: &Act, (number, word): (u32, u32), statuses: &[u8], (m, a): (usize, usize)) {
        self.calls += 1;
        self.answers[act.kind()][number as usize] += 1;
        let (accepted, is_group) = (number == 0, matches!(act, Act::Group(_)));
        let requests = accepted && (is_group || matches!(act, Act::Call(Call::Send { .. } | Call::Tick)));
        let met = [
            accepted && word != 0 && matches!(act, Act::Call(Call::Send { .. })),
            accepted && word != 0 && matches!(act, Act::Call(Call::Tick)),
            accepted && word != 0 && is_group,
            requests && word.count_ones() > 1,
            accepted && is_group && statuses.contains(&1),
            number == 6 && m >= MEMORY && a >= AREA && !matches!(act, Act::Sheet(_)),
            number == 6 && m >= MEMORY && a < AREA && !matches!(act, Act::Sheet(_)),
        ];
        self.count(0, &met);
    }

    /// Counts events, from this one on.
    fn count(&mut self, from: usize, met: &[bool]) {
        for (count, met) in self.events[from..].iter_mut().zip(met) {
            *count += *met as u64;
        }
    }

    /// Counts what a call may meet of signed objects, with the layer before it.
    fn note_signed(&mut self, act: &Act, layer: &Layer) {
        let met = match *act {
            Act::Call(Call::Receive { object }) => {
                let below = |o: &Object| {
                    let value = o.queue.front().copied().unwrap_or(o.value);
                    !o.sends && o.signed && o.bits.len() < 32 && o.fits(value) && o.meant(value) < 0
                };
                [layer.objects.get(object as usize).is_some_and(below), false, false]
            }
            Act::Call(Call::Send { object, value }) => {
                let otherwise = |o: &Object| o.sends && o.signed && o.judge(value) != o.judge_as(value, false);
                [false, layer.objects.get(object as usize).is_some_and(otherwise), false]
            }
            Act::Call(Call::Initialise { object, value }) => {
                let whole = |o: &Object| o.signed && !o.fits(value);
                [false, false, layer.objects.get(object as usize).is_some_and(whole)]
            }
            _ => [false; 3],
        };
        self.count(OF_LISTS, &met.map(|met| met && !layer.stopped));
    }

    /// The check by both, and the length of some I-PDU.
    fn check(&mut self, table: &[u8]) {
        let (proved, peer, ipdu) = (check(&PROVED, table), check(&PEER, table), self.run.below(34) as u32);
        if proved != peer {
            self.differ(&format!("check: proved {proved:?}, peer {peer:?}"), table);
        }
        let lengths = (ipdu_length(&PROVED, table, ipdu), ipdu_length(&PEER, table, ipdu));
        if lengths.0 != lengths.1 {
            self.differ(&format!("length of I-PDU {ipdu}: proved and peer {lengths:?}"), table);
        }
        self.checks += 1;
        let place = proved.1 as usize;
        let object = |at: usize| table[16 + 16 * table[0] as usize + 32 * (place - 256) + at];
        let (refused, is_object) = (proved.0 != 0, (256..65535).contains(&place));
        let met = [
            !refused,
            place == 65535,
            refused && place < 256,
            is_object,
            is_object && object(1) == 255 && [1, 3].contains(&object(5)),
        ];
        self.count(OF_CHECKS, &met);
    }

    /// A right table with many objects, often with as many places in queues as there may be.
    fn deep(&mut self) -> Vec<u8> {
        let (ipdus, objects) = (self.run.pick(&[1, 8, 32]), self.run.pick(&[40, 100, 128]));
        let table = right_table(&mut self.run, ipdus, objects);
        let depths: u32 = table[16 + 16 * ipdus..].chunks(32).map(|record| record[7] as u32).sum();
        self.count(OF_TABLES, &[depths == 512]);
        table
    }

    /// Another value for a byte: one beside it, one at the end of some range, or any.
    fn other(&mut self, byte: u8) -> u8 {
        let (less, more, any) = (byte.wrapping_sub(1), byte.wrapping_add(1), self.run.below(256) as u8);
        let bit = byte ^ (1 << self.run.below(8));
        self.run.pick(&[0, 1, 2, 14, 15, 16, 17, 31, 32, 33, 255, less, more, more, bit, bit, any])
    }

    /// Every byte of a table changed alone, twice; the table cut and lengthened.
    fn faults(&mut self, table: &[u8]) {
        self.check(table);
        let mut t = table.to_vec();
        for at in 0..2 * t.len() {
            let at = at / 2;
            t[at] = self.other(t[at]);
            self.check(&t);
            t[at] = table[at];
        }
        let short = self.run.below(t.len());
        self.check(&table[..short]);
        t.push(0);
        self.check(&t);
    }

    /// Every byte of the rows in memory changed alone, each time with one call.
    fn memory_faults(&mut self, table: &[u8], layer: &Layer, started: &State) {
        let ipdu_rows = 0..16 + 16 * layer.ipdus.len();
        let object_rows = OBJECT_ROWS..OBJECT_ROWS + 16 * layer.objects.len();
        for at in ipdu_rows.chain(object_rows) {
            let mut state = started.clone();
            state.memory[at] = self.other(state.memory[at]);
            let made = act(&mut self.run, layer, 0);
            self.fault(&made, table, &mut state);
        }
    }

    fn fault(&mut self, act: &Act, table: &[u8], state: &mut State) {
        let lengths = (state.memory.len(), state.area.len());
        self.both(act, table, state, lengths);
        self.calls -= 1;
        self.faults += 1;
    }

    /// Every byte of a sheet changed alone, each time with a drain; then its numbers the least and the greatest of each length, also
    /// below zero.
    fn sheet_faults(&mut self, table: &[u8], layer: &Layer, started: &State) {
        let mut begun = started.clone();
        let begin = make_sheet::short_begin(&mut self.run, layer, 0);
        let bytes = if let What::Begin(objects) = &begin.what { 8 + 32 * objects.len() } else { 0 };
        self.fault(&Act::Sheet(begin), table, &mut begun);
        let drain = Act::Sheet(OnSheet { sheet: 0, lent: SHEET, what: What::Drain(0xA5, TEXT, TEXT) });
        for at in 0..bytes {
            let mut state = begun.clone();
            state.sheets[0][at] = self.other(state.sheets[0][at]);
            self.fault(&drain, table, &mut state);
        }
        let ends = (0..10).flat_map(|n| [10u32.pow(n) - 1, 10u32.pow(n)]);
        for number in ends.chain([1 << 31]).flat_map(|n| [n, n.wrapping_neg()]) {
            let mut state = begun.clone();
            for row in state.sheets[0][8..bytes.max(8)].chunks_mut(32) {
                row[4..].copy_from_slice(&[number.to_le_bytes(); 7].concat());
            }
            self.fault(&drain, table, &mut state);
        }
    }

    /// A call with now and then too little memory or too small an area, or over a changed sheet.
    fn step(&mut self, act: &Act, table: &[u8], layer: &Layer, state: &mut State) {
        let run = &mut self.run;
        let (any, any_area) = (run.below(MEMORY), run.below(AREA));
        let (mut memory_length, mut area_length) = (state.memory.len(), AREA + run.below(state.area.len() - AREA + 1));
        if run.below(60) == 0 {
            memory_length = run.pick(&[0, 1, 16, MEMORY - 1, any]);
        }
        if run.below(60) == 0 {
            area_length = run.pick(&[0, 1, 8, AREA - 1, any_area]);
        }
        let mut kept = None;
        if let (Act::Sheet(on), 0) = (act, run.below(4)) {
            let (n, sheets) = (on.number(state.sheets.len()), state.sheets.clone());
            if !make_sheet::damage(run, layer, &mut state.sheets[n]) {
                kept = Some(sheets);
            }
        }
        self.both(act, table, state, (memory_length, area_length));
        if let (Some(sheets), Act::Sheet(OnSheet { what: What::Drain(..), .. })) = (kept, act) {
            state.sheets = sheets;
        }
    }

    /// A list of calls over one table, with calls between over another table or another memory.
    fn list(&mut self, table: &[u8]) {
        let mut layer = Layer::new(table);
        let (memory, mut area) = (memory(&mut self.run), vec![0; AREA + self.run.below(40)]);
        scramble(&mut self.run, &mut area);
        let sheets = make_sheet::sheets(&mut self.run, &self.sheets);
        let mut state = State { memory, area, sheets };
        for _ in 0..self.run.below(3) {
            let made = act(&mut self.run, &layer, 0);
            self.step(&made, table, &layer, &mut state.clone());
        }
        let lengths = (state.memory.len(), state.area.len());
        self.both(&Act::Call(Call::Start), table, &mut state, lengths);
        for sheet in 0..state.sheets.len() {
            let begin = Act::Sheet(make_sheet::begin(&mut self.run, &layer, sheet));
            self.step(&begin, table, &layer, &mut state);
        }
        let (style, often) = (self.run.below(4), often_filtered(&mut self.run, &layer));
        let often = often.filter(|_| self.run.below(4) == 0);
        for _ in 0..100 + self.run.below(300) {
            stored::read(&mut layer, &state.memory);
            let made = match often {
                Some(object) if self.run.below(2) == 0 => filtering(&mut self.run, &layer, object),
                _ => act(&mut self.run, &layer, style),
            };
            if self.run.below(20) == 0 {
                self.over_wrong_table(&made, table, &layer, &state);
            }
            if self.run.below(5) == 0 {
                self.over_changed(&made, table, &layer, &mut state);
            }
            self.note_signed(&made, &layer);
            self.step(&made, table, &layer, &mut state);
        }
        self.memory_faults(table, &layer, &state);
        self.sheet_faults(table, &layer, &state);
        self.sheets = state.sheets;
    }

    fn over_wrong_table(&mut self, act: &Act, table: &[u8], layer: &Layer, state: &State) {
        let mut t = wrong(&mut self.run, table);
        if self.run.below(2) == 0 {
            let at = self.run.below(table.len());
            t = table.to_vec();
            t[at] = self.other(t[at]);
        }
        self.check(&t);
        self.step(act, &t, layer, &mut state.clone());
    }

    /// A call over a changed copy of the memory. The list goes on with the copy now and then, if that is in its ranges.
    fn over_changed(&mut self, act: &Act, table: &[u8], layer: &Layer, state: &mut State) {
        let mut copy = State { memory: changed(&mut self.run, layer, &state.memory), ..state.clone() };
        self.step(act, table, layer, &mut copy);
        if self.run.below(4) == 0 && in_range(table, &copy.memory) {
            *state = copy;
        } else {
            state.area = copy.area;
        }
    }

    fn missing(&self) -> Vec<String> {
        let numbers = WANTED.iter().zip(&self.answers);
        let answers = numbers.flat_map(|((name, wanted), met)| {
            wanted.iter().filter(|n| met[**n] == 0).map(move |n| format!("{n} by {name}"))
        });
        let events = EVENTS.iter().zip(&self.events).filter(|(_, met)| **met == 0).map(|(name, _)| name.to_string());
        answers.chain(events).collect()
    }
}

pub fn agree(seed: u64, count: u64) {
    let run = Run { random: seed.wrapping_mul(0x9E37_79B9_7F4A_7C15) | 1, counts: [0; 4] };
    let (answers, events) = ([[0; NUMBERS]; KINDS], [0; EVENTS.len()]);
    let mut test = Test { seed, run, calls: 0, faults: 0, tables: 0, checks: 0, answers, events, sheets: Vec::new() };
    while test.calls < count {
        let table = if test.tables % 4 == 0 { test.deep() } else { right(&mut test.run) };
        test.tables += 1;
        test.faults(&table);
        test.list(&table);
    }
    print!("beside: {} calls agree, {} with one byte of memory or sheet changed, ", test.calls, test.faults);
    println!("and {} checks, over {} tables", test.checks, test.tables);
    for ((name, _), met) in WANTED.iter().zip(&test.answers) {
        let met = met.iter().enumerate().filter(|(_, met)| **met > 0);
        println!("{name:>15}: {}", met.map(|(number, met)| format!("{met} x {number}")).collect::<Vec<_>>().join(", "));
    }
    let missing = test.missing();
    if !missing.is_empty() {
        println!("beside: never met: {}", missing.join(", "));
        std::process::exit(1);
    }
}
